"""What views see of a session or a workbench, behind one interface.

Pictures, the page and the notebook know `Watched` and no more. It rests on what the program answers
(`settle`, `why`, `core`, `worldview`, `nogoods`) and on the lines that were carried out; where the
program tells more by itself (`step`, `how`, `list`), that takes its place behind the same methods.
"""

from collections.abc import Sequence
from dataclasses import dataclass
from typing import Protocol

from propbench.clock import Progress
from propbench.refusals import UnknownCommand
from propbench.runs import RunProgress
from propbench.session import Session
from propbench.watching.bearing import Bearing, bearing, resting
from propbench.watching.claims import Claim, Source, KnownBy
from propbench.watching.mending import Mending
from propbench.watching.network import (
    NOTHING_SEEN,
    CellSeen,
    ChoiceSeen,
    Clash,
    NetworkSeen,
    Premise,
    Reason,
    StatedSeen,
    SeenNow,
    ValueSeen,
    Use,
)
from propbench.watching.steps import CellChange, Frame, Steps


@dataclass(frozen=True)
class BestPlan:
    """The least or greatest value of a cell in any plan, in a sentence, and that plan by cell.
    `says` is what holds of the plan."""

    text: str
    plan: tuple[tuple[str, str], ...]
    proved: bool
    says: str


class Watched(Protocol):
    """A session or a workbench as views see it. What is asked may raise as a Session does."""

    @property
    def session(self) -> Session:
        """The session that answers."""
        ...

    @property
    def is_workbench(self) -> bool:
        """Whether it is a workbench; else it takes lines of the language."""
        ...

    def network(self) -> NetworkSeen:
        """What was stated."""
        ...

    def see(self, progress: RunProgress | None = None) -> SeenNow:
        """What follows now, by a run."""
        ...

    def known(self) -> SeenNow:
        """What is known now, without a step."""
        ...

    def how(self, cell: str) -> Claim:
        """What makes up what is known of a cell, without a step. Raises UnknownCommand where the
        program doesn't tell."""
        ...

    def core(self, cell: str, progress: RunProgress | None = None) -> ValueSeen | None:
        """The value of a cell with reasons of which none can be left out, None at a conflict."""
        ...

    def believe(self, premise: str, is_believed: bool) -> None:
        """Brings a premise in, or kicks it out."""
        ...

    def wish(self, choice: str, side: int | None) -> None:
        """States what a side of a choice states, under a premise of its own, and takes back what
        was wished of the choice before; None takes that back alone."""
        ...

    def wished(self) -> dict[str, int]:
        """For each choice the place of the side that is wished for, where one is."""
        ...

    def mend(self, progress: Progress | None = None, seconds: float | None = None) -> Mending:
        """Conflicts among what is believed, and repairs."""
        ...

    def without(self, premises: Sequence[str], progress: RunProgress | None = None) -> SeenNow:
        """What would follow without these premises; nothing is changed."""
        ...

    def best(
        self, cell: str, sort: str, progress: Progress | None = None, seconds: float | None = None
    ) -> BestPlan:
        """The "least" or "greatest" value of a cell in any plan. Raises ValueError where that can't
        be asked."""
        ...

    def steps(self) -> Steps:
        """A run from nothing, step by step, in a session of its own."""
        ...

    def lines(self) -> list[str]:
        """The lines that make it, of the language."""
        ...

    def saved(self) -> list[str]:
        """The lines of a file that it is saved in."""
        ...

    def replay(self) -> None:
        """Has the program begin anew, with the same lines."""
        ...


def bears(watched: Watched, seen: SeenNow, shown: ValueSeen) -> Bearing:
    """What bears on what is seen of a cell: as the program tells it, or else as it is worked
    out."""
    try:
        claim = watched.how(shown.cell)
    except UnknownCommand:
        return bearing(watched.network(), seen, shown)
    return bearing(watched.network(), seen, shown) if claim.cut else resting(claim)


__all__ = [
    "NOTHING_SEEN",
    "Bearing",
    "BestPlan",
    "CellChange",
    "CellSeen",
    "ChoiceSeen",
    "Claim",
    "Clash",
    "Frame",
    "KnownBy",
    "Mending",
    "NetworkSeen",
    "Premise",
    "Reason",
    "SeenNow",
    "Source",
    "StatedSeen",
    "Steps",
    "Use",
    "ValueSeen",
    "Watched",
    "bears",
]
