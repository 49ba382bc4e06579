"""The least and greatest value of a cell in any plan, and some plan: by a program that searches for
them itself, or else by bounds that close in."""

from collections.abc import Sequence
from contextlib import suppress
from typing import TYPE_CHECKING

from propbench.clock import Clock, Progress
from propbench.points import Best, NoneFits, SoFar
from propbench.questions.asking import CellLike, tried, tried_by, whole_named
from propbench.questions.bounding import LEAST, Optimum, bounding_in, check_numbers
from propbench.questions.certificate import Evidence
from propbench.questions.model import Model
from propbench.questions.outcomes import Cannot, Fits, NothingFits, Outcome
from propbench.questions.parting import optimum_by_parts
from propbench.questions.searching import decided
from propbench.questions.seeking import Claims, Seeker, Unlike, points_of, seeks
from propbench.questions.solution import Solution, solution_of
from propbench.questions.trial import Trial
from propbench.replies import UNSETTLED, Reply
from propbench.values import Span

if TYPE_CHECKING:
    from concurrent.futures import Executor


class Ending:
    """The question for an end of a number, put to a program that searches."""

    def __init__(
        self, seeker: Seeker, cell: str, sort: str, believed: Sequence[str] | None = None
    ) -> None:
        """With these premises believed, or those of the model. Raises ValueError where the cell is
        not for numbers."""
        self._seeker, self._cell, self._sort = seeker, cell, sort
        self._believed = seeker.model.believed() if believed is None else believed
        self._line = seeker.lines[cell]
        check_numbers(cell, seeker.is_number(cell), sort)
        self._reply: Reply = UNSETTLED
        self._has_begun = False

    def run(self, seconds: float | None = None) -> bool:
        """Asks, or goes on, for so many seconds; whether all is known then."""
        seeker = self._seeker
        if isinstance(self._reply, Best | NoneFits):
            return True
        if not self._has_begun:
            self._begin()
        seeker.reply = self._reply
        try:
            seeker.ask(" ".join([self._sort, self._line, *seeker.first()]), seconds)
        finally:
            self._reply = self._best(seeker.reply)
        return seeker.is_settled

    def _begin(self) -> None:
        """Begins with a plan that was made by hand, where the program says that it fits."""
        self._has_begun = True
        points = self._seeker.by_hand() if self._sort == LEAST else None
        if points is not None:
            self._reply = SoFar(points)

    def _best(self, reply: Reply) -> Reply:
        """What is known, with the points that were better before."""
        before = self._reply
        if isinstance(reply, SoFar) and isinstance(before, SoFar):
            then, now = self._value(before), self._value(reply)
            if then != now and (then < now) == (self._sort == LEAST):
                return SoFar(before.points, reply.bound, reply.because)
        return reply

    def _value(self, reply: SoFar) -> int:
        held = reply.points.values[self._line]
        assert isinstance(held, Span)
        return held.low

    @property
    def value(self) -> int | None:
        """The end, once it is found."""
        return self._reply.value if isinstance(self._reply, Best) else None

    @property
    def because(self) -> tuple[str, ...]:
        """The premises of lines by which it is the end, once it is found."""
        return self._reply.because if isinstance(self._reply, Best) else ()

    def known(self) -> tuple[Optimum, Claims, list[Fits]]:
        """What is known by now, with what is claimed of it, and the plan that shows it. Raises
        Unlike."""
        seeker, reply = self._seeker, self._reply
        if isinstance(reply, NoneFits):
            by = seeker.premises(reply.premises)
            return self._optimum(None, None, True, by), [seeker.refuted(reply.premises)], []
        points = points_of(reply)
        if points is None:
            return self._optimum(None, self._bound(), False, ()), [], []
        fits = seeker.lowest(points, self._cell, self._believed)
        claim = dict[str, object](given=seeker.given(self._believed))
        if not isinstance(reply, Best):
            claim["told"] = [[self._line, fits.values[self._cell]]]
            return self._optimum(fits, self._bound(), False, ()), [("fits", claim)], [fits]
        claim |= {"sort": self._sort, "cell": self._line, "value": reply.value}
        claim["because"] = sorted(reply.because)
        by = seeker.premises(reply.because)
        return self._optimum(fits, reply.value, True, by), [("best", claim)], [fits]

    def _bound(self) -> int | None:
        """How far the number goes, by what the search knows, or by what follows without it."""
        if isinstance(self._reply, SoFar) and self._reply.bound is not None:
            return self._reply.bound
        return self._seeker.end_of(self._cell, self._sort)

    def _optimum(
        self, fits: Fits | None, bound: int | None, proved: bool, because: tuple[str, ...]
    ) -> Optimum:
        """The optimum of a plan, as yet without a certificate."""
        seeker, cell, sort = self._seeker, self._cell, self._sort
        if fits is None:
            return Optimum(cell, sort, None, None, bound, proved, None, {}, because)
        value, plan = fits.plan[cell], seeker.shown(fits.plan)
        assert isinstance(value, int)
        found = Optimum(cell, sort, value, plan, bound, proved, None, because=because)
        return found.seen_by(seeker.model, fits.plan)

    def optimum(self) -> Optimum:
        """What is known by now. Raises Unlike."""
        found, claims, plans = self.known()
        return found.shown_by(self._seeker.certificate(claims, plans))


def find_optimum(
    model: Model, cell: CellLike, sort: str, clock: Clock, executor: "Executor | None" = None
) -> Optimum:
    """The least or greatest value of a cell in any plan with what is believed; by an executor,
    where there is one and the program searches itself."""
    name = whole_named(model, cell)
    if seeks(model):
        with suppress(Unlike), Seeker(model, clock) as seeker:
            ending = Ending(seeker, name, sort)
            if executor is not None:
                return optimum_by_parts(seeker, name, sort, executor)
            return _in_turns(ending, seeker, name, sort)
    return optimum_by_cases(model, name, sort, clock)


def optimum_by_cases(model: Model, cell: str, sort: str, clock: Clock) -> Optimum:
    """The optimum by bounds that close in."""
    trial = Trial(model, model.believed(), clock)
    bounding = bounding_in(trial, model.believed(), cell, sort)
    return tried(trial, bounding.run, bounding.result)


def _in_turns(ending: Ending, seeker: Seeker, cell: str, sort: str) -> Optimum:
    """The optimum by a program that searches, and where that takes long by bounds too, in turns.
    Raises Unlike."""
    model, clock, found = seeker.model, seeker.clock, list[Optimum]()

    def run() -> None:
        for seconds in clock.turns():
            if ending.run(seconds) or clock.is_over():
                break
            # (a search that has a plan is getting on: so it has most of the time)
            part = seconds if points_of(seeker.reply) is None else seconds / 8
            found.append(optimum_by_cases(model, cell, sort, clock.turn(part)))
            if found[-1].proved:
                break

    def result() -> Optimum:
        if found and found[-1].proved:
            return found[-1]
        own = ending.optimum()
        others = [each for each in found if each.value is not None]
        return others[-1] if own.value is None and others else own

    return tried_by(clock, run, result)


def find_solution(model: Model, seconds: float | None, progress: Progress | None) -> Solution:
    """A plan with what is believed. Raises NothingFits where there is none, or none was found in
    time."""
    clock = Clock(seconds, progress)
    found = _sought(model, clock) or solution_by_cases(model, clock)
    if isinstance(found, NothingFits):
        raise found
    return found


def _sought(model: Model, clock: Clock) -> Solution | NothingFits | None:
    """A plan by a program that searches itself, and where that takes long by cases too, in turns;
    None where that can't tell."""
    if not seeks(model):
        return None
    found = list[Solution | NothingFits]()
    with suppress(Unlike), Seeker(model, clock) as seeker:

        def run() -> None:
            if (points := seeker.by_hand()) is not None:
                seeker.reply = points
                return
            for seconds in clock.turns():
                seeker.ask(" ".join(["solve", *seeker.first()]), seconds)
                if seeker.is_settled or clock.is_over():
                    break
                found.append(solution_by_cases(model, clock.turn(seconds)))
                if not _is_open(found[-1]):
                    break

        def result() -> Solution | NothingFits:
            return found[-1] if found and not _is_open(found[-1]) else _solution_by(seeker)

        return tried_by(clock, run, result)
    return None


def _is_open(found: Solution | NothingFits) -> bool:
    """Whether there was no time to find a plan, nor that there is none."""
    return isinstance(found, NothingFits) and found.premises is None


def _solution_by(seeker: Seeker) -> Solution | NothingFits:
    """The plan that a program has found. Raises Unlike."""
    reply = seeker.reply
    if isinstance(reply, NoneFits):
        return NothingFits.because_of(seeker.premises(reply.premises))
    points = points_of(reply)
    if points is None:
        return NothingFits.in_time()
    fits, claim = seeker.lowest(points), {"given": seeker.given(), "told": []}
    return solution_of(seeker.model, fits, seeker.certificate([("fits", claim)], [fits]))


def solution_by_cases(model: Model, clock: Clock) -> Solution | NothingFits:
    """A plan by a search in cases."""
    trial, outcomes = Trial(model, model.believed(), clock), list[Outcome]()

    def run() -> None:
        outcomes.append(decided(trial, model.believed()))

    return tried(trial, run, lambda: _tried(trial, outcomes))


def _tried(trial: Trial, outcomes: Sequence[Outcome]) -> Solution | NothingFits:
    """The plan that came of a search in cases."""
    model = trial.model
    outcome = outcomes[0] if outcomes else None
    if isinstance(outcome, Cannot):
        names = [each for each in model.premises() if model.line_name(each) in outcome.names]
        return NothingFits.because_of(names)
    if not isinstance(outcome, Fits):
        return NothingFits.in_time()
    evidence = Evidence.of(trial)
    evidence.add_plan(model.believed(), outcome)
    given = evidence.lines_of(model.believed())
    return solution_of(
        model, outcome, evidence.certificate([("fits", {"given": given, "told": []})])
    )
