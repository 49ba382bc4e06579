"""A best value that is far off is sought by leaps: a solution is asked for that is better by much.

propwide betters a solution bit by bit, which takes long where many values lie between it and the
best one. So it is asked, in a session of its own, for a solution at the bound; where that takes
long, for one half as far, and so on. A bound that nothing reaches is moved nearer.
"""

from contextlib import suppress
from dataclasses import dataclass

from propbench.clock import Clock
from propbench.flatzinc.asking import AnySolution, BestSolution, FoundSolutions
from propbench.flatzinc.building import Built
from propbench.flatzinc.seeking import SearchWay, Sought
from propbench.flatzinc.terms import Name
from propbench.model.cells import NumberCell
from propbench.model.ranges import range_of
from propbench.questions import Plan
from propbench.questions.seeking import Unlike
from propbench.words import MOST_NUMBER

# A best value is far off where so many lie between.
_FAR = 1_000
# A leap has half of the seconds that are left, but so many at least.
_SHORTEST = 0.5
# The premise that a solution is as good as a leap asks for.
_LEAP = "leap"


@dataclass
class Leaps:
    """The leaps towards the best value of a model: nothing lies beyond the `bound`, and a leap goes
    one part of so many of the way there."""

    built: Built
    asked: BestSolution
    cell: NumberCell
    bound: int
    parts: int = 1

    @property
    def is_far(self) -> bool:
        """Whether the best value may be far off."""
        value = self.asked.value
        return value is not None and abs(self.bound - value) >= _FAR

    def run(self, clock: Clock) -> None:
        """Leaps, as long as the clock says and the best value may be far off. Raises as `Session`
        does."""
        while self.is_far and not (self.asked.is_done or clock.is_over()):
            left = clock.seconds_left()
            self._leap(clock.turn(_SHORTEST if left is None else max(_SHORTEST, left / 2)))

    def _leap(self, clock: Clock) -> None:
        value = self.asked.value
        assert value is not None
        goal = value - self.asked.sign * max(1, abs(self.bound - value) // self.parts)
        plan, is_none = self._sought(goal, clock)
        if plan is not None:
            self.asked.tell(plan)
        elif is_none:
            self.bound, self.parts = goal + self.asked.sign, max(2, self.parts)
        else:
            self.parts *= 2
        self.asked.told.is_complete = self.asked.value == self.bound

    def _sought(self, goal: int, clock: Clock) -> tuple[Plan | None, bool]:
        """A solution that is as good as that, and whether there is none."""
        workbench, found = self.built.workbench, list[Plan]()
        told = FoundSolutions(workbench.model, found.append)
        is_less = self.asked.sign > 0
        workbench.require(self.cell <= goal if is_less else self.cell >= goal, under=_LEAP)
        try:
            with (
                suppress(Unlike),
                Sought(workbench.model, clock, AnySolution(told), SearchWay()) as sought,
            ):
                sought.run(clock.seconds_left() or _SHORTEST)
        finally:
            workbench.forget(_LEAP)
        return (found[0] if found else None), told.is_complete and not found


def leaps_of(built: Built, asked: object) -> Leaps | None:
    """The leaps of a question; None where it isn't for the best whole number, or that has no end.

    >>> from propbench import Workbench
    >>> from propbench.flatzinc.grammar import read
    >>> built = Built(read("var bool: b; solve satisfy;"), Workbench())
    >>> leaps_of(built, None) is None
    True
    """
    goal = built.flat.goal.objective
    if not isinstance(asked, BestSolution) or not isinstance(goal, Name) or built.floats:
        return None
    cell = built.cells[goal.text]
    assert isinstance(cell, NumberCell)
    bound = range_of(cell.node)[0 if asked.sign > 0 else 1]
    return None if abs(bound) == MOST_NUMBER else Leaps(built, asked, cell, bound)
