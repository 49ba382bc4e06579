"""What the questions ask of a workbench: all that they know of one."""

from collections.abc import Mapping, Sequence
from typing import Protocol

from propbench.model.first import First as First
from propbench.model.kinds import Point as Point
from propbench.questions.planned import Scheduled
from propbench.session import Session

# Points by the names of cells.
Plan = dict[str, Point]
# The ends of a number that can be asked for.
LEAST, GREATEST = "least", "greatest"


class Model(Protocol):
    """A network with named premises of the user's, and cells of the user's."""

    def base(self) -> Sequence[str]:
        """The lines that make the network, as it is saved: a fresh session that is sent these lines
        is in the same state (statements, premises, what is kicked out, choices)."""
        ...

    def forks(self) -> Sequence[str]:
        """Truths on lines of the base that a search may decide first: each is yes or no in any
        plan, and much hangs on it."""
        ...

    def rooms_by(
        self, forks: Sequence[str], ends: Mapping[str, tuple[int, int]]
    ) -> Mapping[str, tuple[int, int]]:
        """For some of these truths how much room numbers have where it is yes, and where it is no,
        by the ends of cells: a hint to decide that first which leaves the least."""
        ...

    def premises(self) -> Sequence[str]:
        """The user's premises, as the user wrote them, in the order of their first mention."""
        ...

    def believed(self) -> Sequence[str]:
        """Those of them that are believed."""
        ...

    def line_name(self, premise: str) -> str:
        """The premise's name on a line."""
        ...

    def cells(self) -> Sequence[str]:
        """The user's cells, by the names that the user gave."""
        ...

    def check_cell(self, cell: object) -> None:
        """Raises ValueError for a cell that is gone, where another that is there has its name."""
        ...

    def cell_name(self, cell: str) -> str:
        """The cell's name on a line."""
        ...

    def candidates(self, cell: str) -> range | Sequence[str] | None:
        """The values that the declaration leaves: a range for numbers (None where unbounded), the
        domain's names, ("no", "yes") for truths; None for symbols."""
        ...

    def literal(self, cell: str, value: Point) -> str:
        """How this value is written on a line for `tell`, `fix`, `choose`."""
        ...

    def point(self, cell: str, text: str) -> Point:
        """The value of the cell that is written so on a line."""
        ...

    def violated(self, plan: Mapping[str, Point], believed: Sequence[str]) -> str | None:
        """The text of a constraint (always, or under one of these premises) that does not hold at
        these points in exact whole numbers, or None where all hold. Statements that are told under
        these premises count too, and each choice as one of its sides."""
        ...

    def lowered(
        self, plan: Mapping[str, Point], believed: Sequence[str], kept: Sequence[str]
    ) -> Mapping[str, Point]:
        """The plan with numbers that are as low or lower, but for the cells that are kept, which
        may fit too with these premises."""
        ...

    def held(self, plan: Mapping[str, Point]) -> Sequence[str]:
        """The premises of which all that is stated holds at these points."""
        ...

    def chosen(self, plan: Mapping[str, Point]) -> Mapping[str, object]:
        """For each choice the alternative that holds at these points, as the user wrote it."""
        ...

    def scheduled(
        self,
        plan: Mapping[str, Point],
        choices: Mapping[str, object],
        why: Mapping[str, Sequence[str]],
    ) -> Scheduled | None:
        """These points, with the alternatives that they take, as a schedule, where they are those
        of one project's tasks; and of cells the premises `why` they are no less."""
        ...

    def by_hand(self) -> Mapping[str, Point]:
        """Values of some cells at which a plan may be, as one makes it by hand; none where nothing
        is known. Nothing is claimed of them."""
        ...

    def is_measured(self, cell: str) -> bool:
        """Whether the cell counts steps of a measured quantity."""
        ...

    def telling(self, premise: str, cell: str, value: object, high: object = None) -> str:
        """What is told of a cell under a premise, a value or the numbers up to another, or a
        reading, as it is written on a line. Raises ValueError and TypeError for what can't be
        told, and where nothing can be stated under the name, as under that of a choice."""
        ...

    def text(self, premise: str) -> str:
        """What the premise states, for people."""
        ...

    def exactly(self, premise: str) -> str:
        """All that the premise states, the same wherever the same is stated."""
        ...

    def first(self) -> Sequence[First]:
        """The cells of which values are tried out before those of others, group by group; a cell
        that stands twice counts where it stands first."""
        ...

    @property
    def session(self) -> Session:
        """The session that the workbench talks through."""
        ...
