"""What is asked of a model: some solution, several, or the best; of propwide, or by cases.

What goes by cases is imported where a question does.
"""

from __future__ import annotations

from collections.abc import Callable, Mapping
from dataclasses import dataclass, field
from typing import TYPE_CHECKING, Protocol

from propbench.points import Best, NoneFits, Several
from propbench.questions.clock import Clock
from propbench.questions.model import Model, Plan, Point
from propbench.questions.outcomes import NothingFits
from propbench.questions.seeking import Seeker, count_asked, points_of
from propbench.replies import Reply

if TYPE_CHECKING:
    from propbench.questions import Optimum, Plans


@dataclass
class FoundSolutions:
    """What was found: `take` is called with each solution that is wanted, when it is found, and
    `is_complete` says that there are no others, or no better ones."""

    model: Model
    take: Callable[[Plan], None]
    is_complete: bool = False
    count: int = 0

    def tell(self, plan: Mapping[str, Point]) -> None:
        """Takes in a solution."""
        self.count += 1
        self.take(dict(plan))


class SolutionQuestion(Protocol):
    """A question for solutions."""

    def line(self, seeker: Seeker, is_free: bool) -> str:
        """How the program is asked, where it may decide first what it will, or else by the search
        annotations."""

    def take(self, seeker: Seeker, reply: Reply) -> None:
        """Takes in what the program has found. Raises Unlike where it doesn't hold as stated."""

    def go_by_cases(self, clock: Clock) -> None:
        """Goes by cases as long as the clock says, and takes in what is found."""

    def close(self) -> None:
        """Ends what it has begun."""
        return None

    @property
    def is_done(self) -> bool:
        """Whether all is found that is asked for."""


@dataclass
class AnySolution(SolutionQuestion):
    """The question for some solution; where that `is_all` there is, it is the only one."""

    told: FoundSolutions
    is_all: bool = False

    @property
    def is_done(self) -> bool:
        """Whether one is found, or that there is none."""
        return self.told.is_complete or self.told.count > 0

    def line(self, seeker: Seeker, is_free: bool) -> str:
        """How the program is asked."""
        return " ".join(["solve", *([] if is_free else seeker.first())])

    def take(self, seeker: Seeker, reply: Reply) -> None:
        """Takes in what the program has found."""
        points = points_of(reply)
        if points is not None:
            self._tell(seeker.fits(points).plan)
        elif isinstance(reply, NoneFits):
            self.told.is_complete = True

    def go_by_cases(self, clock: Clock) -> None:
        """Goes by cases."""
        from propbench.questions.ends import solution_by_cases

        found = solution_by_cases(self.told.model, clock)
        if isinstance(found, NothingFits):
            self.told.is_complete = found.premises is not None
        else:
            self._tell(found)

    def _tell(self, plan: Mapping[str, Point]) -> None:
        self.told.tell(plan)
        self.told.is_complete = self.is_all


@dataclass
class ManySolutions(SolutionQuestion):
    """The question for solutions that differ at some cells, so many at the most."""

    told: FoundSolutions
    show: list[str]
    most: int
    # The solutions that were told, by their values at these cells, and how many the program told.
    _known: set[tuple[Point, ...]] = field(default_factory=set)
    _rows: int = 0
    # Where the values of the other cells are asked for, so that the search can go on.
    _beside: Seeker | None = None

    @property
    def is_done(self) -> bool:
        """Whether as many are found, or all."""
        return self.told.is_complete or self.told.count >= self.most

    def line(self, seeker: Seeker, is_free: bool) -> str:
        """How the program is asked."""
        left = max(1, count_asked(self.most) - self._rows)
        return " ".join(["plans", str(left), *(seeker.lines[cell] for cell in self.show)])

    def take(self, seeker: Seeker, reply: Reply) -> None:
        """Takes in what the program has found."""
        if isinstance(reply, NoneFits):
            self.told.is_complete = True
        if not isinstance(reply, Several):
            return
        self._rows += len(reply.rows)
        if len(self.show) < len(seeker.lines) and self._beside is None:
            self._beside = Seeker(seeker.model, seeker.clock)
        found = (self._beside or seeker).whole(reply.rows)
        for fits in found:
            self._tell(fits.plan)
        is_all = reply.others is not None and len(found) == len(reply.rows)
        self.told.is_complete = is_all and self.told.count <= self.most

    def go_by_cases(self, clock: Clock) -> None:
        """Goes by cases."""
        from propbench.questions import Interrupted, Plans
        from propbench.questions.plans import plans_by_cases

        try:
            self._tell_all(plans_by_cases(self.told.model, self.show, self.most, clock))
        except Interrupted as stopped:
            if isinstance(stopped.so_far, Plans):
                self._tell_all(stopped.so_far)
            raise

    def close(self) -> None:
        """Ends what it has begun."""
        if self._beside is not None:
            self._beside.close()

    def _tell_all(self, plans: Plans) -> None:
        for plan in plans.whole:
            self._tell(plan)
        self.told.is_complete = plans.complete

    def _tell(self, plan: Plan) -> None:
        key = tuple(plan[cell] for cell in self.show)
        if key not in self._known and self.told.count < self.most:
            self._known.add(key)
            self.told.tell(plan)


@dataclass
class BestSolution(SolutionQuestion):
    """The question for the least or greatest value of a number in any solution."""

    told: FoundSolutions
    cell: str
    sort: str
    sign: int
    value: int | None = None

    @property
    def is_done(self) -> bool:
        """Whether nothing is better than the best that was found."""
        return self.told.is_complete

    def line(self, seeker: Seeker, is_free: bool) -> str:
        """How the program is asked."""
        first = [] if is_free else seeker.first()
        return " ".join([self.sort, seeker.lines[self.cell], *first])

    def take(self, seeker: Seeker, reply: Reply) -> None:
        """Takes in what the program has found."""
        points = points_of(reply)
        if points is not None:
            self.tell(seeker.fits(points).plan)
        self.told.is_complete = isinstance(reply, Best | NoneFits)

    def go_by_cases(self, clock: Clock) -> None:
        """Goes by cases."""
        from propbench.questions import Interrupted, Optimum
        from propbench.questions.ends import optimum_by_cases

        try:
            self._take(optimum_by_cases(self.told.model, self.cell, self.sort, clock))
        except Interrupted as stopped:
            if isinstance(stopped.so_far, Optimum):
                self._take(stopped.so_far)
            raise

    def _take(self, found: Optimum) -> None:
        if found.plan is not None:
            self.tell(found.plan)
        self.told.is_complete = found.proved

    def tell(self, plan: Mapping[str, Point]) -> None:
        """Takes in a solution, where it is better than those before."""
        value = plan[self.cell]
        assert isinstance(value, int)
        if self.value is None or self.sign * value < self.sign * self.value:
            self.value = value
            self.told.tell(plan)
