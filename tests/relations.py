"""Rules and compounds of both kits as relations between single points.

Points belong together at a rule where what its evaluator (tests/rules.py, tests/wide_rules.py)
answers to the inputs' points holds the output's; at a compound where its meaning holds. Of a number
that stands open beside points a relation leaves spans (`Relation.room`): they are found from where
what belongs to the points can change. A symbol that no line names is one of OTHERS.
"""
from dataclasses import dataclass, field
from itertools import chain, product
from math import isqrt
from random import Random
from typing import Any, Callable, Iterable, Iterator, Optional, Union

import formulas
import rules
import wide_rules
from wide_rules import COMPOUNDS, ELEMENTS, TRUTHS

BOUND = wide_rules.BOUND
Point = Union[int, str]
Points = tuple[Point, ...]
# Points of which some stand open.
Parts = tuple[Optional[Point], ...]
Spans = tuple[tuple[int, int], ...]
Words = frozenset[str]
Values = Union[Spans, Words]

SYMBOLS, OTHERS = ["red", "blue"], ["?", "?2"]
PAIRED = ["u", "v"]
NINE = [f"a{n}" for n in range(1, 10)]
DOMAINS = {"d": ELEMENTS, "b": PAIRED, "nine": NINE}
# What a cell of a kind may be.
MAY: dict[str, Values] = {
    "span": ((-BOUND, BOUND),),
    "truth": frozenset(TRUTHS),
    "symbol": frozenset([*SYMBOLS, *OTHERS]),
    **{name: frozenset(elements) for name, elements in DOMAINS.items()},
}
LINKED = {"r": [("u", "e"), ("u", "f"), ("v", "f")], "q": [("v", "g")]}
DECLARED = [
    *[f"domain {name} {' '.join(elements)}" for name, elements in DOMAINS.items()],
    *[f"relation {r} b d = {' ; '.join(f'{x} {y}' for x, y in LINKED[r])}" for r in LINKED],
    "relation any nine nine = a1 a1",
]

# ---- points, and numbers as spans


def joined(pieces: Iterable[tuple[int, int]]) -> Spans:
    """All numbers of some spans."""
    found: list[tuple[int, int]] = []
    for low, high in sorted(pieces):
        if found and low <= found[-1][1] + 1:
            found[-1] = (found[-1][0], max(high, found[-1][1]))
        else:
            found.append((low, high))
    return tuple(found)


def met(one: Spans, other: Spans) -> Spans:
    """The numbers of both."""
    pairs = ((max(a, c), min(b, d)) for (a, b), (c, d) in product(one, other))
    return tuple((low, high) for low, high in pairs if low <= high)


def both(one: Values, other: Values) -> Values:
    """The points of both."""
    if isinstance(one, tuple) and isinstance(other, tuple):
        return met(one, other)
    assert isinstance(one, frozenset) and isinstance(other, frozenset)
    return one & other


def either(many: list[Values]) -> Values:
    """The points of any."""
    spans = [it for values in many if isinstance(values, tuple) for it in values]
    words = [it for values in many if isinstance(values, frozenset) for it in values]
    return joined(spans) if isinstance(many[0], tuple) else frozenset(words)


def only(point: Point) -> Values:
    return frozenset([point]) if isinstance(point, str) else ((point, point),)


def count(values: Values) -> int:
    if isinstance(values, frozenset):
        return len(values)
    return sum(high - low + 1 for low, high in values)


def points_of(values: Values) -> Iterator[Point]:
    if isinstance(values, frozenset):
        return iter(sorted(values))
    return chain.from_iterable(range(low, high + 1) for low, high in values)


def is_in(point: Point, values: Values) -> bool:
    if isinstance(values, frozenset):
        return point in values
    return isinstance(point, int) and any(low <= point <= high for low, high in values)


# ---- relations


@dataclass(eq=False)
class Relation:
    """A rule or a compound: the kinds of its cells, whether points belong together, and whether
    what it leaves of a number can be found from the others."""

    name: str
    kinds: list[str]
    look: Callable[..., Any]
    parameter: str = ""
    has_room: bool = False
    known: dict[Points, bool] = field(default_factory=dict)
    rooms: dict[Parts, Spans] = field(default_factory=dict)

    def holds(self, points: Points) -> bool:
        """Whether these points belong together."""
        if points not in self.known:
            self.known[points] = bool(self.look(*points))
        return self.known[points]

    def fits(self, parts: Parts, number: int) -> bool:
        """Whether they do with this number wherever one is open."""
        return bool(self.look(*(number if it is None else it for it in parts)))

    def room(self, parts: Parts) -> Spans:
        """The numbers that fit."""
        if parts not in self.rooms:
            numbers = [it for it in parts if isinstance(it, int)]
            edges = sorted(it for it in edges_of(numbers, self.scale()) if abs(it) <= BOUND)
            gaps = [(low + 1, high - 1) for low, high in zip(edges, edges[1:]) if low + 1 < high]
            pieces = [*((it, it) for it in edges), *gaps]
            self.rooms[parts] = joined(it for it in pieces if self.fits(parts, it[0]))
        return self.rooms[parts]

    def scale(self) -> int:
        word = self.parameter.removeprefix(" by ")
        return int(word) if word.isdigit() else 1


def edges_of(numbers: list[int], scale: int) -> set[int]:
    """Where what belongs to these numbers can change, with what is near."""
    some = {0, scale, *numbers}
    # (truths are counted to eight)
    found = {BOUND, *range(9), *some}
    for a in some:
        found |= {a // 2, isqrt(abs(a)), isqrt(scale * abs(a - 1)), isqrt(scale * abs(a + 1))}
        for b in some:
            found |= {a + b, a - b, a * b, a * b + a, a * b + b, a * b // scale}
            for divisor in {b - 1, b, b + 1} - {0}:
                found |= {a // divisor, scale * (a + 1) // divisor, scale * (a - 1) // divisor}
    return {sign * it + more for it in found for sign in (-1, 1) for more in (-2, -1, 0, 1, 2)}


# ---- rules


def by_answer(answer: Callable[..., Any]) -> Callable[..., bool]:
    """Whether the answer to the first points holds the last one."""

    def look(*points: Point) -> bool:
        found: Any = answer(*[frozenset([it]) for it in points[:-1]])
        if isinstance(found, tuple):
            low, high = found
            return is_in(points[-1], ((low, high),))
        return found is None or points[-1] in found

    return look


def by_formula(formula: Callable[..., Any], *more: int) -> Callable[..., bool]:
    """The same of a formula of ends."""

    def look(*points: Point) -> bool:
        inputs = [frozenset([it]) if isinstance(it, str) else (it, it) for it in points[:-1]]
        found: Any = formula(*inputs, *more)
        if found in (formulas.NOTHING, formulas.CLASH):
            return bool(found == formulas.NOTHING)
        low, high = found
        return is_in(points[-1], ((low, high),))

    return look


def by_rule(rule: wide_rules.Rule) -> Callable[..., bool]:
    return by_answer(lambda *inputs: rule.answer(inputs))


def all_differ(*points: Point) -> bool:
    return len(set(points)) == len(points)


def excluded(*points: Point) -> bool:
    """The first is the last, and differs from those between, as they do from each other."""
    return points[0] == points[-1] and all_differ(*points[:-1])


def linked(relation: str) -> Callable[..., bool]:
    return lambda x, y: (x, y) in LINKED[relation]


def linked_back(relation: str) -> Callable[..., bool]:
    return lambda y, x: (x, y) in LINKED[relation]


def of_kit() -> Iterator[Relation]:
    """The rules of the kit."""
    for name, kinds, parameter, _, answer in rules.RULES:
        yield Relation(name, kinds.split(), by_answer(answer), parameter, "span" in kinds)
    same: Callable[..., Any] = lambda x: x
    passed: Callable[..., Any] = rules.passed
    yield Relation("copier", ["truth", "truth"], by_answer(same))
    yield Relation("passer", ["truth", "d", "d"], by_answer(passed))
    for name, formula in (("below", formulas.below), ("above", formulas.above)):
        yield Relation(name, ["truth", "span", "span"], by_formula(formula), has_room=True)
    for scale in (1, 2, 3, 4):
        look = by_formula(formulas.divided, scale)
        yield Relation("divider", ["span"] * 3, look, f" by {scale}", True)
    for name in LINKED:
        yield Relation("imager", ["b", "d"], linked(name), f" by {name}")
        yield Relation("coimager", ["d", "b"], linked_back(name), f" by {name}")


def of_wide() -> Iterator[Relation]:
    """The rules of prop_wide and prop_hall."""
    for rule in wide_rules.RULES:
        # (the evaluator knows few remainders)
        has_room = "span" in rule.kinds and rule.name != "remainderer"
        yield Relation(rule.name, rule.kinds.split(), by_rule(rule), rule.parameter, has_room)
    for others in range(1, 8):
        for kind in ("span", "d", "symbol"):
            kinds = [kind] * (others + 2)
            yield Relation(f"excluder{others}", kinds, excluded, has_room=kind == "span")
    yield Relation("excluder8", ["nine"] * 9, all_differ, " by any")


# ---- compounds


def is_yes(truth: Point) -> bool:
    return truth == "yes"


def looked_up(i: Point, n: Point, *pairs: Point) -> bool:
    """Whether n is the value behind the first element that is i, or else the last one."""
    found = [value for element, value in zip(pairs[::2], pairs[1::2]) if element == i]
    return n == (found[0] if found else pairs[-1])


def product_of(scale: int) -> Callable[..., bool]:
    return lambda x, y, z: bool(scale * (z - 1) < x * y < scale * (z + 1))


def compounds_of_kit() -> Iterator[Relation]:
    """The compounds of the kit."""
    yield Relation("sum", ["span"] * 3, lambda x, y, z: z == x + y, has_room=True)
    for scale in (1, 3):
        yield Relation("product", ["span"] * 3, product_of(scale), f" by {scale}", True)
    yield Relation("square", ["span"] * 2, lambda x, y: y == x * x, has_room=True)
    kinds = ["span", "span", "truth"]
    yield Relation("less", kinds, lambda x, y, t: is_yes(t) == (x < y), has_room=True)
    for kind in ("span", "d", "symbol", "truth"):
        kinds = [kind, kind, "truth"]
        yield Relation("alike", kinds, lambda x, y, t: is_yes(t) == (x == y))
        yield Relation("same", [kind, kind], lambda x, y: x == y)
        kinds = ["truth", kind, kind]
        yield Relation("switch", kinds, lambda t, x, y: not is_yes(t) or x == y)
        kinds = ["truth", kind, kind, kind]
        yield Relation("conditional", kinds, lambda t, a, b, o: o == (a if is_yes(t) else b))
    yield Relation("not", ["truth"] * 2, lambda x, y: x != y)
    yield Relation("and", ["truth"] * 3, lambda x, y, z: is_yes(z) == (is_yes(x) and is_yes(y)))
    yield Relation("or", ["truth"] * 3, lambda x, y, z: is_yes(z) == (is_yes(x) or is_yes(y)))
    for name in LINKED:
        yield Relation("link", ["b", "d"], linked(name), f" by {name}")


def compounds_of_wide() -> Iterator[Relation]:
    """The compounds of prop_wide and prop_hall."""
    for it in COMPOUNDS:
        yield Relation(it.name, it.kinds.split(), it.belong, it.parameter)
    for kind in ("d", "symbol"):
        kinds = ["truth", kind, kind, kind]
        yield Relation("if", kinds, lambda t, a, b, o: o == (a if is_yes(t) else b))
    for pairs in (2, 3, 4):
        yield Relation(f"table{pairs}", ["d", "span"] * (pairs + 1), looked_up)
    for many in range(2, 9):
        for kind in ("span", "d", "symbol"):
            yield Relation(f"different{many}", [kind] * many, all_differ)
    for many in (2, 3, 4):
        kinds = ["truth", *["span"] * many]
        yield Relation(f"soft_different{many}", kinds, wide_rules.soft(all_differ))
    yield Relation("different9", ["nine"] * 9, all_differ, " by any")


RULES = [*of_kit(), *of_wide()]
TOGETHER = [*compounds_of_kit(), *compounds_of_wide()]

# ---- what they leave of a number


def points_to_try(kind: str) -> list[Point]:
    """Small numbers, and few that are not."""
    values = MAY[kind]
    if isinstance(values, frozenset):
        return [*sorted(values)]
    return [*range(-6, 9), 999, -(10**6), 10**9 + 7, BOUND - 3]


def wrong_room(relation: Relation, parts: Parts, chance: Random) -> Optional[str]:
    """What is wrong with what is left of a number, by small ones, others and those at its ends."""
    room = relation.room(parts)
    ends = [end + more for end in chain(*room) for more in (-1, 0, 1)]
    far = [chance.randint(-(10**size), 10**size) for size in range(3, 19)]
    for number in (it for it in [*range(-90, 91), *ends, *far] if abs(it) <= BOUND):
        if relation.fits(parts, number) != is_in(number, room):
            return f"{relation.name}{relation.parameter} {parts}: {number}, {room}"
    return None


def wrong_rooms() -> Optional[str]:
    """What is wrong with what each relation leaves of a number, by trying numbers, or None."""
    chance = Random("rooms")
    for relation in (it for it in [*RULES, *TOGETHER] if it.has_room):
        places = [at for at, kind in enumerate(relation.kinds) if kind == "span"]
        for _ in range(20):
            drawn = [chance.choice(points_to_try(kind)) for kind in relation.kinds]
            open_ones = chance.sample(places, chance.choice([1, 1, min(2, len(places))]))
            parts = tuple(None if at in open_ones else it for at, it in enumerate(drawn))
            wrong = wrong_room(relation, parts, chance)
            if wrong:
                return wrong
    return None
