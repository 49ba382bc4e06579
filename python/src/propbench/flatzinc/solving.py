"""Solutions of a model, told as they are found.

propwide searches itself; where that takes long it goes by cases too, in turns. Where the search
stands still, and over propbench, it goes by cases alone.
"""

from collections.abc import Callable
from contextlib import closing, suppress
from dataclasses import dataclass, field, replace
from fractions import Fraction
from typing import TYPE_CHECKING

from propbench.flatzinc.asking import (
    AnySolution,
    BestSolution,
    FoundSolutions,
    ManySolutions,
    SolutionQuestion,
)
from propbench.flatzinc.building import Built
from propbench.flatzinc.floats import EXACT
from propbench.flatzinc.order import order_of
from propbench.flatzinc.seeking import SearchWay, Sought
from propbench.flatzinc.terms import Name
from propbench.model.cells import ElementCell, NumberCell
from propbench.questions import Plan
from propbench.questions.clock import Clock
from propbench.questions.model import GREATEST, LEAST
from propbench.questions.seeking import Unlike, seeks

if TYPE_CHECKING:
    from propbench.flatzinc.leaping import Leaps

# More solutions than there can be time for.
ALL = 10**9
# So many seconds it goes by cases first, where the greatest values are to be tried first.
_FROM_TOP = 0.5
# So many seconds bounds on the best float close in first.
_BY_BOUNDS = 10.0
# Where the best value is far off, it leaps for half of a turn, and so many seconds at least.
_LEAPING = 1.0
# Of a turn so much goes to the cases, and so much where a solution was found already.
_SHARE, _SMALL_SHARE = 0.5, 0.125
# The premise that an objective is better than the best in steps.
_BETTER = "better"
Tell = Callable[[Plan], None]


@dataclass(frozen=True)
class Wanted:
    """What is asked of a model: so many solutions at the most, or the best, in so many seconds, and
    in what way; search annotations don't count where it `is_free`."""

    most: int = 1
    seconds: float | None = None
    is_free: bool = False
    way: SearchWay = SearchWay()


@dataclass
class Solutions:
    """Solutions that were found; `is_complete` says that there are no others, or no better ones.
    `steps` is how many propwide's own search took, and `objective` the best value; by so much as
    the `margin`, where there is one, a real solution may be better."""

    plans: list[Plan] = field(default_factory=list)
    is_complete: bool = False
    steps: int = 0
    objective: int | None = None
    margin: Fraction | None = None


def solve(built: Built, wanted: Wanted, tell: Tell | None = None) -> Solutions:
    """So many solutions of the model at the most, or its best one; what was found in the time. Each
    is told when it is found, and of a best one those before it, where they are wanted. An interrupt
    ends the search as the end of its time does."""
    groups, clock = order_of(built, wanted.is_free), Clock(wanted.seconds, None)
    built.workbench.try_first(*((group.cells, group.is_from_top) for group in groups))
    found = _sought(built, wanted, tell)
    if not found.is_complete or EXACT not in built.workbench.premises:
        return found
    return _of_reals(built, replace(wanted, seconds=clock.seconds_left()), found)


def _sought(
    built: Built, wanted: Wanted, tell: Tell | None = None, is_any: bool = False
) -> Solutions:
    """Solutions of a model, or some one."""
    search = _Search(built, wanted, tell, is_any)
    with suppress(KeyboardInterrupt), closing(search):
        search.run()
    return search.found()


def _of_reals(built: Built, wanted: Wanted, found: Solutions) -> Solutions:
    """The same, where those in steps are known: complete where the real numbers leave no others."""
    workbench, margin = built.workbench, None
    workbench.kick(EXACT)
    if not found.plans:
        others = _sought(built, wanted, is_any=True)
        is_complete = others.is_complete and not others.plans
    elif found.objective is not None:
        better, margin = built.better_than(found.objective)
        workbench.require(better, under=_BETTER)
        others = _sought(built, wanted, is_any=True)
        workbench.forget(_BETTER)
        is_complete = others.is_complete and not others.plans
    else:
        others = _sought(built, wanted)
        shown = [cell.name for cell in built.told_apart_by]
        known = {tuple(plan[name] for name in shown) for plan in found.plans}
        is_known = all(tuple(plan[name] for name in shown) in known for plan in others.plans)
        is_complete = others.is_complete and is_known
    workbench.bring(EXACT)
    steps = found.steps + others.steps
    return replace(found, is_complete=is_complete, steps=steps, margin=margin)


class _Search:
    """A search for solutions of a model."""

    def __init__(self, built: Built, wanted: Wanted, tell: Tell | None, is_any: bool) -> None:
        self._built, self._wanted, self._tell = built, wanted, tell
        self._clock = Clock(wanted.seconds, None)
        self._plans: list[Plan] = []
        # The best solution, where it is told at the end.
        self._best: Plan | None = None
        self._steps = 0
        cells = built.cells.values()
        self._elements = {cell.name for cell in cells if isinstance(cell, ElementCell)}
        self._told = FoundSolutions(built.workbench.model, self._take)
        self._asked = AnySolution(self._told) if is_any else self._question()

    def run(self) -> None:
        """Searches, as long as there is time."""
        model = self._built.workbench.model
        if seeks(model):
            with suppress(Unlike), Sought(model, self._clock, self._asked, self._way()) as sought:
                try:
                    self._take_turns(sought)
                finally:
                    self._steps = sought.steps
                return
        self._asked.go_by_cases(self._clock)

    def close(self) -> None:
        """Ends what was begun."""
        self._asked.close()

    def found(self) -> Solutions:
        """What was found, all of it told."""
        if self._best is not None:
            self._say(self._best)
        asked, is_complete = self._asked, self._told.is_complete
        if isinstance(asked, BestSolution):
            return Solutions(self._plans, is_complete, self._steps, asked.value)
        return Solutions(self._plans, is_complete, self._steps)

    def _way(self) -> SearchWay:
        """How the program is to search."""
        # (of several solutions each would be told by all of them)
        is_many = isinstance(self._asked, ManySolutions)
        return replace(self._wanted.way, count=1) if is_many else self._wanted.way

    def _question(self) -> SolutionQuestion:
        built, goal = self._built, self._built.flat.goal
        named = goal.objective.text if isinstance(goal.objective, Name) else ""
        cell = built.cells.get(named)
        if isinstance(cell, NumberCell):
            is_least = goal.sort == "minimize"
            sort, sign = (LEAST, 1) if is_least else (GREATEST, -1)
            return BestSolution(self._told, cell.name, sort, sign)
        show = [each.name for each in built.told_apart_by]
        # (an objective that is given leaves nothing that would be better)
        # (and what is only floats may have others beside them)
        is_all = goal.objective is not None or not (show or built.own)
        if is_all or not show or self._wanted.most == 1:
            return AnySolution(self._told, is_all)
        return ManySolutions(self._told, show, self._wanted.most)

    def _leaps(self) -> "Leaps | None":
        """The leaps towards a best value, where one is asked for."""
        if not isinstance(self._asked, BestSolution):
            return None
        from propbench.flatzinc.leaping import leaps_of

        return leaps_of(self._built, self._asked)

    def _take_turns(self, sought: Sought) -> None:
        """Has the program search, and goes by cases, in turns."""
        asked, clock = self._asked, self._clock
        first = self._built.workbench.model.first()
        if self._built.seeks_float and clock.seconds_left() != 0:
            # (the program itself would better it step by step)
            asked.go_by_cases(clock.turn(_BY_BOUNDS))
        elif any(each.is_from_top for each in first) and clock.seconds_left() != 0:
            # (the program itself tries the least ones)
            asked.go_by_cases(clock.turn(_FROM_TOP))
        leaps = self._leaps()
        for seconds in clock.turns():
            if not (asked.is_done or clock.is_over()):
                sought.run(seconds)
            if leaps is not None:
                leaps.run(clock.turn(max(_LEAPING, seconds / 2)))
            if asked.is_done or clock.is_over():
                return
            part = seconds * (_SMALL_SHARE if self._told.count else _SHARE)
            asked.go_by_cases(clock if sought.is_still else clock.turn(part))
            if asked.is_done or sought.is_still:
                return

    def _take(self, plan: Plan) -> None:
        """Takes in a solution: the best is told at the end, unless each is wanted."""
        shown = {name: int(v) if name in self._elements else v for name, v in plan.items()}
        if isinstance(self._asked, BestSolution) and not self._wanted.way.is_each:
            self._best = shown
        else:
            self._say(shown)

    def _say(self, plan: Plan) -> None:
        self._plans.append(plan)
        if self._tell is not None:
            self._tell(plan)
