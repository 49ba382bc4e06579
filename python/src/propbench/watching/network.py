"""What views show: cells, uses of procedures and compounds, premises, choices; and what is seen.

A name tells one thing from all others of its sort; a text is what a user reads.
"""

from collections.abc import Iterator, Mapping
from dataclasses import dataclass, field


@dataclass(frozen=True)
class CellSeen:
    """A cell, of a kind as the user reads it."""

    name: str
    text: str
    kind: str


@dataclass(frozen=True)
class Use:
    """A procedure or a compound on its cells, the output of a procedure last; or a constraint.

    Of a compound whose definition is known, `parts` has what it is made of, and `locals` the cells
    that this use has for itself. `premise` names what a constraint is stated under, "" where it
    always holds. What works in one direction alone is `one_way`.
    """

    name: str
    text: str
    cells: tuple[str, ...]
    given: str = ""
    premise: str = ""
    one_way: bool = False
    parts: tuple["Use", ...] = ()
    locals: tuple[CellSeen, ...] = ()

    def leaves(self) -> Iterator["Use"]:
        """The instances that it is made of: itself, where it has no parts."""
        if not self.parts:
            yield self
        for part in self.parts:
            yield from part.leaves()

    def inner_cells(self) -> Iterator[CellSeen]:
        """The cells that it and its parts have for themselves."""
        yield from self.locals
        for part in self.parts:
            yield from part.inner_cells()


@dataclass(frozen=True)
class StatedSeen:
    """What is stated: of a cell, or by a constraint, where `cell` is ""."""

    text: str
    cell: str = ""


@dataclass(frozen=True)
class Premise:
    """A premise, what is stated under it, and whether it is believed."""

    name: str
    text: str
    says: tuple[StatedSeen, ...]
    is_believed: bool


@dataclass(frozen=True)
class ChoiceSeen:
    """A choice, its sides as texts, and the cells that they speak of."""

    name: str
    text: str
    sides: tuple[str, ...]
    cells: tuple[str, ...]


@dataclass(frozen=True)
class NetworkSeen:
    """All that was stated. `fixed` holds whatever is believed."""

    cells: tuple[CellSeen, ...]
    uses: tuple[Use, ...]
    premises: tuple[Premise, ...]
    choices: tuple[ChoiceSeen, ...]
    fixed: tuple[StatedSeen, ...]


@dataclass(frozen=True)
class Reason:
    """A premise by its name, or a choice by its name with the side that counts in the text."""

    text: str
    premise: str = ""
    choice: str = ""


@dataclass(frozen=True)
class ValueSeen:
    """What a reply says of a cell. `reduced` is that of a `core`: whether no reason can be left
    out; None where none was asked for."""

    cell: str
    text: str
    because: tuple[Reason, ...]
    settled: bool = True
    reduced: bool | None = None
    is_known: bool = True


@dataclass(frozen=True)
class Clash:
    """Premises that can't all hold, by name, each with what it states; and what else is said."""

    premises: tuple[str, ...]
    says: Mapping[str, str]
    text: str


@dataclass(frozen=True)
class SeenNow:
    """What follows now: the values by cell, or what clashes. `plan` has for each choice the place
    of the side that it stands on, where that is known."""

    values: Mapping[str, ValueSeen] = field(default_factory=dict)
    settled: bool = True
    clash: Clash | None = None
    plan: Mapping[str, int] = field(default_factory=dict)


NOTHING_SEEN = SeenNow(settled=False)
