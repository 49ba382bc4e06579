"""A session as questions see it, which take many asks.

No constraint of a session can be evaluated in Python. So a plan is what the program settles with,
with one value for each cell: the procedures find nothing against these values.
"""

from collections.abc import Mapping, Sequence

from propbench.listing import ToldLines
from propbench.model.first import First
from propbench.questions.model import Point
from propbench.session import Session


class SessionModel:
    """The network that lines make, with all its premises and cells."""

    def __init__(self, session: Session, lines: Sequence[str], told: ToldLines) -> None:
        self._session, self._lines, self._told = session, lines, told

    @property
    def session(self) -> Session:
        """The session that has carried out the lines."""
        return self._session

    def base(self) -> Sequence[str]:
        """The lines."""
        return self._lines

    def forks(self) -> Sequence[str]:
        """None that are known."""
        return ()

    def rooms_by(
        self, forks: Sequence[str], ends: Mapping[str, tuple[int, int]]
    ) -> Mapping[str, tuple[int, int]]:
        """Nothing, of none."""
        return {}

    def premises(self) -> Sequence[str]:
        """The premises, in the order of their first mention."""
        return [name for name in self._told.premises if name]

    def believed(self) -> Sequence[str]:
        """Those that are believed."""
        return [name for name in self.premises() if name not in self._told.kicked]

    def line_name(self, premise: str) -> str:
        """The premise itself."""
        return premise

    def cells(self) -> Sequence[str]:
        """The cells."""
        return list(self._session.known.cells)

    def check_cell(self, cell: object) -> None:
        """What has the name of a cell is that cell."""

    def cell_name(self, cell: str) -> str:
        """The cell itself."""
        return cell

    def candidates(self, cell: str) -> range | Sequence[str] | None:
        """The elements of the cell's domain; None for numbers, which have no ends, and symbols."""
        elements = self._session.known.domain_of(cell)
        return tuple(reversed(elements)) if elements == ("yes", "no") else elements or None

    def literal(self, cell: str, value: Point) -> str:
        """How a value is written on a line."""
        if isinstance(value, bool):
            return "yes" if value else "no"
        return str(value)

    def point(self, cell: str, text: str) -> Point:
        """The value that is written so."""
        kind = self._session.known.cells[cell]
        if kind == "span":
            return int(text)
        return text == "yes" if kind == "truth" else text

    def violated(self, plan: Mapping[str, Point], believed: Sequence[str]) -> str | None:
        """Nothing: that the program settles is all that is known."""
        return None

    def lowered(
        self, plan: Mapping[str, Point], believed: Sequence[str], kept: Sequence[str]
    ) -> Mapping[str, Point]:
        """The plan as it is."""
        return plan

    def held(self, plan: Mapping[str, Point]) -> Sequence[str]:
        """No premise is known to hold beyond those that were believed."""
        return ()

    def text(self, premise: str) -> str:
        """What the premise states."""
        return "; ".join(map(str, self._told.premises.get(premise, ())))

    def exactly(self, premise: str) -> str:
        """The same."""
        return self.text(premise)

    def by_hand(self) -> dict[str, Point]:
        return {}

    def first(self) -> Sequence[First]:
        """None that are known."""
        return ()

    def chosen(self, plan: Mapping[str, Point]) -> dict[str, object]:
        """Nothing: what a choice of a session takes is a value of a cell."""
        return {}

    def scheduled(
        self,
        plan: Mapping[str, Point],
        choices: Mapping[str, object],
        why: Mapping[str, Sequence[str]],
    ) -> None:
        """A session has no tasks."""
        return None

    def is_measured(self, cell: str) -> bool:
        """No cell of a session has a unit."""
        return False

    def telling(self, premise: str, cell: str, value: object, high: object = None) -> str:
        """What one value, or the two ends of a range, say of a cell."""
        return str(value) if high is None else f"{value}..{high}"
