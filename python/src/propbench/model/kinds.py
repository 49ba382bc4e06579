"""Kinds of values: whole numbers, truths, symbols, and the elements of a domain."""

from dataclasses import dataclass
from enum import Enum
from math import inf

# A value: a number, a truth, or the name of an element or symbol.
Point = int | str | bool


class Plain(Enum):
    """The kinds that need no declaration."""

    NUMBER = "number"
    TRUTH = "truth"
    SYMBOL = "symbol"


@dataclass(frozen=True, eq=False)
class Domain:
    """A domain: its name, and its elements in order. It is made by `Workbench.domain`."""

    name: str
    elements: tuple[str, ...]

    def __str__(self) -> str:
        return f"{self.name} ({' '.join(self.elements)})"


Kind = Plain | Domain


def kind_text(kind: Kind) -> str:
    """A kind as messages call it."""
    return f"an element of {kind.name}" if isinstance(kind, Domain) else f"a {kind.value}"


def point_text(value: Point) -> str:
    """A value as a user writes it."""
    if isinstance(value, bool):
        return "yes" if value else "no"
    return str(value)


def domain_of(kind: Kind) -> Domain:
    """The domain of a kind that is one."""
    assert isinstance(kind, Domain)
    return kind


def most_different(kind: Kind) -> float:
    """So many values of a kind can differ from each other."""
    if isinstance(kind, Domain):
        return len(kind.elements)
    return 2 if kind is Plain.TRUTH else inf
