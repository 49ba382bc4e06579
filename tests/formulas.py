"""What some procedures answer, over Python's whole numbers."""

BOUND = 10**18

Ends = tuple[int, int]
Truth = frozenset[str]
Info = str | Ends | frozenset[str]

# An information is NOTHING, CLASH, a pair of ends, or a set of truths or of elements of one domain.
NOTHING, CLASH = "nothing", "contradiction"
ELEMENTS = ["a", "b", "c"]
YES, NO = frozenset(["yes"]), frozenset(["no"])


def clipped(low: int, high: int) -> str | Ends:
    low, high = max(low, -BOUND), min(high, BOUND)
    return (low, high) if low <= high else CLASH


def merged(one: Info, other: Info) -> Info:
    if CLASH in (one, other):
        return CLASH
    if NOTHING in (one, other):
        return other if one == NOTHING else one
    if isinstance(one, frozenset) and isinstance(other, frozenset):
        return one & other or CLASH
    assert isinstance(one, tuple) and isinstance(other, tuple)
    return clipped(max(one[0], other[0]), min(one[1], other[1]))


def floor(number: int, by: int) -> int:
    return number // by


def ceiling(number: int, by: int) -> int:
    return -(-number // by)


def multiplied(x: Ends, y: Ends) -> str | Ends:
    products = [a * b for a in x for b in y]
    return clipped(min(products), max(products))


def divided(z: Ends, y: Ends, scale: int = 1) -> str | Ends:
    if y[0] <= 0 <= y[1]:
        return NOTHING
    low, high = scale * (z[0] - 1) + 1, scale * (z[1] + 1) - 1
    if y[1] < 0:
        low, high, y = -high, -low, (-y[1], -y[0])
    low = ceiling(low, y[1] if low > 0 else y[0])
    high = floor(high, y[0] if high >= 0 else y[1])
    return clipped(low, high) if low <= high else CLASH


def squared(x: Ends) -> str | Ends:
    squares = [x[0] ** 2, x[1] ** 2]
    return clipped(0 if x[0] <= 0 <= x[1] else min(squares), max(squares))


def compared(x: Ends, y: Ends) -> str | Truth:
    if x[1] < y[0]:
        return YES
    return NO if x[0] >= y[1] else NOTHING


def below(t: Truth, y: Ends) -> str | Ends:
    if t == YES:
        return clipped(-BOUND, y[1] - 1)
    return (y[0], BOUND) if t == NO else NOTHING


def above(t: Truth, x: Ends) -> str | Ends:
    if t == YES:
        return clipped(x[0] + 1, BOUND)
    return (-BOUND, x[1]) if t == NO else NOTHING


def alike(x: frozenset[str], y: frozenset[str]) -> str | Truth:
    if x == y and len(x) == 1:
        return YES
    return NOTHING if x & y else NO


def parted(t: Truth, x: frozenset[str], y: frozenset[str]) -> str | frozenset[str]:
    return (y - x or CLASH) if t == NO and len(x) == 1 else NOTHING


def passed(t: Truth, x: Info) -> Info:
    return x if t == YES else NOTHING


def others(x: frozenset[str]) -> frozenset[str]:
    """The elements that differ from some element of the set."""
    return frozenset(it for it in ELEMENTS if x - {it})


def is_below(one: Info, other: Info) -> bool:
    """Whether the second says all that the first says."""
    return merged(one, other) == other


def text_of(info: Info) -> str:
    if isinstance(info, tuple):
        return str(info[0]) if info[0] == info[1] else f"{info[0]}..{info[1]}"
    if isinstance(info, frozenset):
        members = [it for it in ["yes", "no", *ELEMENTS] if it in info]
        return members[0] if len(members) == 1 else "{" + " ".join(members) + "}"
    return info


def info_of(text: str) -> Info:
    """The information that an answer writes."""
    if text in (NOTHING, CLASH):
        return text
    if text[0] in "-0123456789":
        low, _, high = text.partition("..")
        return (int(low), int(high or low))
    return frozenset(text.strip("{}").split())
