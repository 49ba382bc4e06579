"""A workbench as questions see it: lines, names on lines, and what points fit.

This is all that `propbench.questions` uses of a workbench beside what a user does.
"""

from collections.abc import Callable, Mapping, Sequence
from typing import TYPE_CHECKING

from propbench.model.cells import Cell, gone
from propbench.model.events import Statement
from propbench.model.first import First
from propbench.model.given import values_of
from propbench.model.kinds import Domain, Plain, Point
from propbench.model.meaning import Beyond, PlanPoints
from propbench.model.network import Network
from propbench.model.nodes import Declared
from propbench.model.script import values_line
from propbench.model.writing import text_of
from propbench.session import Session

if TYPE_CHECKING:
    from propbench.questions.planned import Scheduled


# What makes a schedule of a plan and the alternatives in it, where a network has tasks; of cells it
# is told by which premises they are no less.
Scheduling = Callable[
    [Network, Mapping[str, Point], Mapping[str, object], Mapping[str, Sequence[str]]],
    "Scheduled | None",
]
# What makes a plan by hand, of which it tells the values of some cells.
MakingByHand = Callable[[Network], Mapping[str, Point]]


class BenchModel:
    """A network with named premises of the user's, and cells of the user's."""

    def __init__(
        self,
        network: Network,
        scheduling: Scheduling | None = None,
        making_by_hand: MakingByHand | None = None,
    ) -> None:
        self._network, self._scheduling = network, scheduling
        self._making_by_hand = making_by_hand
        self._last = PlanPoints({})

    @property
    def session(self) -> Session:
        """The session that the workbench speaks through."""
        return self._network.session

    def base(self) -> Sequence[str]:
        """The lines that make the network: a fresh session that is sent these is in the state of
        this one."""
        return self._network.base()

    def forks(self) -> Sequence[str]:
        """Truths on lines of the base by which one way or another is taken, where one of some
        constraints has to hold."""
        return list(self._network.forks)

    def rooms_by(
        self, forks: Sequence[str], ends: Mapping[str, tuple[int, int]]
    ) -> Mapping[str, tuple[int, int]]:
        """For those of these truths that compare numbers, how far apart the numbers may be where it
        holds, and where another way is taken, by the ends of the user's cells."""
        known = self._network.forks
        found = {fork: known[fork].rooms(ends) for fork in forks}
        return {fork: rooms for fork, rooms in found.items() if rooms is not None}

    def premises(self) -> Sequence[str]:
        """The user's premises, in the order of their first mention."""
        return list(self._network.premises.believed)

    def believed(self) -> Sequence[str]:
        """Those that are believed."""
        return self._network.premises.in_force

    def line_name(self, premise: str) -> str:
        """The name on a line of a premise or a choice."""
        return self._network.vocabulary.premises.line(premise)

    def cells(self) -> Sequence[str]:
        """The user's cells, in the order in which they were made."""
        return list(self._network.cells)

    def check_cell(self, cell: object) -> None:
        """Raises ValueError for a cell that is gone, where another that is there has its name."""
        if isinstance(cell, Cell):
            there = self._network.cells[cell.name]
            if there is not cell.declared and there.owner is cell.declared.owner:
                raise gone(cell.name)

    def cell_name(self, cell: str) -> str:
        """The name of a cell on a line."""
        return self._network.vocabulary.cells.line(cell)

    def candidates(self, cell: str) -> "range | Sequence[str] | None":
        """The values that the cell's declaration leaves: None for symbols, and for numbers without
        an end."""
        declared = self._network.cells[cell]
        if declared.kind is Plain.NUMBER:
            if declared.low is None or declared.high is None:
                return None
            return range(declared.low, declared.high + 1)
        if declared.kind is Plain.TRUTH:
            return ("no", "yes")
        return declared.kind.elements if isinstance(declared.kind, Domain) else None

    def literal(self, cell: str, value: Point) -> str:
        """How a value of the cell is written on a line."""
        kind = self._network.cells[cell].kind
        if kind is Plain.TRUTH and isinstance(value, str):
            return value
        return self._network.vocabulary.literal(value, kind)

    def point(self, cell: str, text: str) -> Point:
        """The value of the cell that is written so on a line."""
        kind = self._network.cells[cell].kind
        if kind is Plain.NUMBER:
            return int(text)
        if kind is Plain.TRUTH:
            return text == "yes"
        names = self._network.vocabulary
        if isinstance(kind, Domain):
            return names.elements(kind).text(text)
        return names.symbols.text(text) if names.symbols.has(text) else text

    def violated(self, plan: Mapping[str, Point], believed: Sequence[str]) -> str | None:
        """The text of what is stated, always or under one of these premises, and does not hold at
        these points in exact whole numbers; None where all holds. Of a choice one alternative has
        to hold."""
        points, holding = self._points(plan), {None, *believed}
        for event in self._network.events:
            try:
                if event.premise in holding and not event.is_met(points):
                    return event.text
            except Beyond as beyond:
                return f"{event.text} ({text_of(beyond.node)} lies beyond 10^18)"
        return None

    def held(self, plan: Mapping[str, Point]) -> list[str]:
        """The premises of which all that is stated holds at these points."""
        points = self._points(plan)
        return [
            premise
            for premise, stated in self._network.premises.statements.items()
            if all(_is_met(each, points) for each in stated)
        ]

    def lowered(
        self, plan: Mapping[str, Point], believed: Sequence[str], kept: Sequence[str]
    ) -> dict[str, Point]:
        """The plan with numbers as low as they can be in the alternatives that it takes, but for
        the cells that are kept; it is to be looked at whether all holds there."""
        from propbench.model.lowering import lowered

        cells, holding = self._network.cells, {None, *believed}
        events = [each for each in self._network.events if each.premise in holding]
        found = lowered(events, self._points(plan), [cells[name] for name in kept])
        return {name: found[cells[name]] for name in plan}

    def chosen(self, plan: Mapping[str, Point]) -> dict[str, object]:
        """For each choice the alternative that holds at these points, as it was written."""
        points = self._points(plan)
        choices = self._network.premises.choices
        sides = {name: choice.side_at(points) for name, choice in choices.items()}
        return {
            name: choices[name].stands_on(side) for name, side in sides.items() if side is not None
        }

    def scheduled(
        self,
        plan: Mapping[str, Point],
        choices: Mapping[str, object],
        why: Mapping[str, Sequence[str]],
    ) -> "Scheduled | None":
        """These points, with the alternatives that they take, as a schedule, where there are tasks
        of one project; and of cells the premises `why` they are no less."""
        if self._scheduling is None:
            return None
        return self._scheduling(self._network, plan, choices, why)

    def by_hand(self) -> Mapping[str, Point]:
        """Values of some cells at which a plan may be, none where nothing is known."""
        return {} if self._making_by_hand is None else self._making_by_hand(self._network)

    def first(self) -> Sequence[First]:
        """The cells of which values are tried out before those of others."""
        return self._network.first

    def is_measured(self, cell: str) -> bool:
        """Whether the cell counts steps of a measured quantity."""
        return self._network.cells[cell].measure is not None

    def telling(self, premise: str, cell: str, value: object, high: object = None) -> str:
        """What is told of a cell under a premise, a value or the numbers up to another, or a
        reading, as it is written on a line."""
        self._network.premises.check(premise)
        declared = self._network.cells[cell]
        return values_line(self._network.vocabulary, declared, values_of(declared, value, high))

    def text(self, premise: str) -> str:
        """What the premise states, for people."""
        return self._network.premises.text(premise)

    def exactly(self, premise: str) -> str:
        """All that the premise states, by its cells."""
        return self._network.premises.exactly(premise)

    def _points(self, plan: Mapping[str, Point]) -> PlanPoints:
        """The points of a plan; of the one that was looked at last, with what was worked out."""
        cells = self._network.cells
        points = {cells[name]: _point(cells[name], value) for name, value in plan.items()}
        if self._last != points:
            self._last = PlanPoints(points)
        return self._last


def _is_met(event: Statement, points: PlanPoints) -> bool:
    """Whether what is stated holds at these points."""
    try:
        return event.is_met(points)
    except Beyond:
        return False


def _point(cell: Declared, value: Point) -> Point:
    """A point, where a truth may be told as a text."""
    if cell.kind is Plain.TRUTH and isinstance(value, str):
        return value == "yes"
    return value
