"""What a cell may hold: values as replies say them."""

from dataclasses import dataclass

_put = object.__setattr__


@dataclass(frozen=True)
class Span:
    """The whole numbers from `low` to `high`; one number where both are the same."""

    low: int
    high: int

    def __init__(self, low: int, high: int) -> None:
        # (past the freeze, both at once: one by one it would take longer)
        _put(self, "__dict__", {"low": low, "high": high})

    def __str__(self) -> str:
        return str(self.low) if self.low == self.high else f"{self.low}..{self.high}"


@dataclass(frozen=True)
class Elements:
    """One of these elements of a domain, `yes` and `no` of a truth, in the domain's order."""

    names: tuple[str, ...]

    def __str__(self) -> str:
        return self.names[0] if len(self.names) == 1 else "{" + " ".join(self.names) + "}"


@dataclass(frozen=True)
class Symbol:
    """The symbol of this name."""

    name: str

    def __str__(self) -> str:
        return self.name


@dataclass(frozen=True)
class Nothing:
    """Nothing is known."""

    def __str__(self) -> str:
        return "nothing"


@dataclass(frozen=True)
class Impossible:
    """No value is left: what an unsettled answer may say of a list of choices that will be left."""

    def __str__(self) -> str:
        return "contradiction"


Held = Span | Elements | Symbol | Nothing | Impossible


def both(one: Held, other: Held) -> Held:
    """What is left of a value where both are known of it."""
    if one == other or isinstance(other, Nothing):
        return one
    if isinstance(one, Nothing):
        return other
    if isinstance(one, Span) and isinstance(other, Span):
        low, high = max(one.low, other.low), min(one.high, other.high)
        return Span(low, high) if low <= high else Impossible()
    if isinstance(one, Elements) and isinstance(other, Elements):
        names = tuple(name for name in one.names if name in other.names)
        return Elements(names) if names else Impossible()
    return Impossible()


_SAID: tuple[Held, ...] = (Nothing(), Impossible())
_PLAIN = {str(held): held for held in _SAID}


def value_of(text: str, kind: str) -> Held:
    """The value that a text of a reply is, for a cell of this kind: `span`, `symbol`, or else
    elements of a domain."""
    if kind == "span" and text[-1].isdigit():
        low, dots, high = text.partition("..")
        return Span(int(low), int(high)) if dots else Span(int(low), int(low))
    if text in _PLAIN:
        return _PLAIN[text]
    if kind == "symbol":
        return Symbol(text)
    return Elements(tuple(text.strip("{}").split()))
