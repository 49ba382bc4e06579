"""How far tasks can move: the ends of their cells over all plans."""

from collections.abc import Mapping, Sequence
from contextlib import suppress
from typing import TYPE_CHECKING

from propbench.planning.tasks import Task
from propbench.questions.asking import tried, tried_by
from propbench.questions.bounding import LEAST, Bounding
from propbench.questions.clock import Clock
from propbench.questions.leaving import beyond_of
from propbench.questions.outcomes import Fits
from propbench.questions.seeking import Seeker, Unlike, points_of, seeks
from propbench.questions.trial import Trial
from propbench.replies import UNSETTLED

if TYPE_CHECKING:
    from propbench.planning.project import Project

# Cells of tasks of which the least or greatest value is wanted, by the names of tasks.
WantedEnds = Mapping[str, Sequence[tuple[str, str]]]


def ends_found(project: "Project", wanted: WantedEnds, clock: Clock) -> dict[str, tuple[int, ...]]:
    """The least and greatest values that are wanted of tasks, of each that has them all in time."""
    model = project.workbench.model
    if seeks(model):
        with suppress(Unlike), Seeker(model, clock) as seeker:
            return _Sought(seeker, wanted).found()
    trial = Trial(model, model.believed(), clock)
    rooms: dict[str, tuple[int, ...]] = {}
    plans: list[Fits] = []

    def best(cell: str, sort: str) -> int | None:
        """The least or greatest value, from the best of the plans that are known."""
        bounding, sign = Bounding(trial, model.believed(), cell, sort), 1 if sort == LEAST else -1
        known = sorted(plans, key=lambda fits: sign * int(fits.plan[cell]))
        bounding.run(known[0] if known else None)
        plans.extend([bounding.fits] if bounding.fits else [])
        return bounding.value if bounding.proved else None

    def run() -> None:
        for name, asked in wanted.items():
            ends = [end for each in asked if (end := best(*each)) is not None]
            if len(ends) == len(asked):
                rooms[name] = tuple(ends)
            clock.tell(f"the rooms of {len(rooms)} of {len(wanted)} tasks")

    return tried(trial, run, lambda: rooms)


class _Sought:
    """The same by a program that searches for the ends itself: each plan tells something of all
    tasks, and something better is asked for; what takes long waits until the others had their
    turn."""

    def __init__(self, seeker: Seeker, wanted: WantedEnds) -> None:
        self._seeker, self._wanted = seeker, wanted
        # The best value of each in plans that were found, and those that nothing is better than.
        self._best: dict[tuple[str, str], int] = {}
        self._known: set[tuple[str, str]] = set()

    def found(self) -> dict[str, tuple[int, ...]]:
        """The ends, as far as there is time. Raises Unlike."""
        return tried_by(self._seeker.clock, self._run, self._rooms)

    def _run(self) -> None:
        clock, every = self._seeker.clock, [end for ends in self._wanted.values() for end in ends]
        for end, seconds in clock.slices(lambda: [it for it in every if it not in self._known]):
            self._ask(end, seconds)
            clock.tell(f"the rooms of {len(self._rooms())} of {len(self._wanted)} tasks")

    def _ask(self, end: tuple[str, str], seconds: float | None) -> None:
        (cell, sort), seeker, best = end, self._seeker, self._best.get(end)
        line, seeker.reply = seeker.lines[cell], UNSETTLED
        with seeker.supposing({} if best is None else {line: beyond_of(sort, best)}):
            seeker.ask(" ".join([sort, line, *seeker.first()]), seconds)
        if (points := points_of(seeker.reply)) is not None:
            self._take(seeker.fits(points))
        if seeker.is_settled:
            self._known.add(end)

    def _take(self, fits: Fits) -> None:
        """Takes in what a plan tells of all that is wanted."""
        for cell, sort in (each for asked in self._wanted.values() for each in asked):
            value, best = int(fits.plan[cell]), self._best.get((cell, sort))
            if best is None or (value < best if sort == LEAST else value > best):
                self._best[cell, sort] = value

    def _rooms(self) -> dict[str, tuple[int, ...]]:
        return {
            name: tuple(self._best[each] for each in asked)
            for name, asked in self._wanted.items()
            if all(each in self._known and each in self._best for each in asked)
        }
