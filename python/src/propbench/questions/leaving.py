"""Premises that can't all hold beside what is told, of which none can be left out: each is left out
in turn, and a program that searches is asked for a plan of the others.

Where it finds none, those stay that it names; else the one is needed, which the plan shows. A
question that takes long waits until the others had their turn, as by fewer premises it may be
another one.
"""

from collections.abc import Mapping, Sequence
from contextlib import suppress
from dataclasses import dataclass

from propbench.clock import Clock
from propbench.points import NoneFits
from propbench.questions.asking import tried, tried_by
from propbench.questions.exploring import Exploring, KeptPlan, Refuted
from propbench.questions.model import LEAST, Model
from propbench.questions.outcomes import Fits, Open
from propbench.questions.rooms import NumberRoom
from propbench.questions.seeking import Seeker, Unlike, blames, points_of, seeks
from propbench.questions.trial import Trial
from propbench.replies import UNSETTLED, Reply
from propbench.values import Held, Span
from propbench.words import MOST_NUMBER


@dataclass(frozen=True)
class Because:
    """Premises by which something can't be; none of them can be left out where it `is_least`."""

    premises: tuple[str, ...]
    is_least: bool


def beyond_of(sort: str, value: int) -> Span:
    """The values of a cell that are better than one, of which there are some."""
    return Span(-MOST_NUMBER, value - 1) if sort == LEAST else Span(value + 1, MOST_NUMBER)


class Leaving:
    """The premises of lines that can't all hold, as far as is known. `plans` has a plan of all
    others for each that is known to be needed, and `fits` one of all, where there is one."""

    def __init__(
        self, seeker: Seeker, told: Mapping[str, Held], names: Sequence[str] | None = None
    ) -> None:
        """Of these, which are known not to hold beside what is told of cells of lines; or of all
        that are believed, of which that isn't known."""
        self._seeker, self.told, self._given = seeker, dict(told), seeker.given()
        self.names = self._given if names is None else sorted(names)
        self.is_refuted = names is not None
        self.plans: dict[str, Fits] = {}
        self.fits: Fits | None = None

    @property
    def premises(self) -> tuple[str, ...]:
        """The premises as the user calls them."""
        return self._seeker.premises(self.names)

    @property
    def is_known(self) -> bool:
        """Whether none can be left out, or all can hold."""
        is_least = self.is_refuted and len(self.plans) == len(self.names)
        return is_least or self.fits is not None

    def run(self, seconds: float | None = None) -> bool:
        """Finds out which can be left out, for so many seconds; whether all is known then. Raises
        OutOfTime, and Unlike."""
        clock = self._seeker.clock if seconds is None else self._seeker.clock.turn(seconds)
        with self._seeker.supposing(self.told):
            if not self.is_refuted and self.fits is None:
                self._take(None, self._asked(clock.seconds_left()))
            if self.is_refuted:
                with self._seeker.without(sorted({*self._given} - {*self.names})):
                    self._leave_out(clock)
        return self.is_known

    def _leave_out(self, clock: Clock) -> None:
        whole = self.names

        def waiting() -> list[str]:
            return [name for name in self.names if name not in self.plans]

        for name, seconds in clock.slices(waiting):
            if name in self.names:
                number = len(self.names)
                clock.tell(f"{number} premise{'' if number == 1 else 's'} can't all hold")
                with self._seeker.without(it for it in whole if it == name or it not in self.names):
                    self._take(name, self._asked(seconds))

    def _asked(self, seconds: float | None) -> Reply:
        """What is answered to the question for a plan within so many seconds."""
        self._seeker.reply = UNSETTLED
        self._seeker.ask(" ".join(["solve", *self._seeker.first()]), seconds)
        return self._seeker.reply

    def _take(self, name: str | None, reply: Reply) -> None:
        """Takes in what is answered where one is left out, or none. Raises Unlike."""
        points = points_of(reply)
        if isinstance(reply, NoneFits):
            self.names = [it for it in self.names if it in reply.premises]
            self.is_refuted = True
        elif points is not None:
            others = [it for it in self.names if it != name]
            fits = self._seeker.fits(points, self._seeker.premises(others))
            if name is None:
                self.fits = fits
            else:
                self.plans[name] = fits


def why_not_beyond(model: Model, cell: str, sort: str, value: int, clock: Clock) -> Because | None:
    """Premises by which a cell is no better than a value; None where there is a plan in which it
    is. In turns by a program that searches, where it does, and by cases."""
    beyond = beyond_of(sort, value)
    if seeks(model):
        with suppress(Unlike), Seeker(model, clock) as seeker:
            leaving, found = Leaving(seeker, {seeker.lines[cell]: beyond}), list[Because | None]()

            def run() -> None:
                for seconds in clock.turns():
                    if leaving.run(None if blames(model) else seconds) or clock.is_over():
                        break
                    found.append(_by_cases(model, cell, beyond, clock.turn(seconds)))
                    if found[-1] is None or found[-1].is_least:
                        break

            def result() -> Because | None:
                if found and not leaving.is_known:
                    return found[-1]
                is_there = leaving.fits is not None
                return None if is_there else Because(leaving.premises, leaving.is_known)

            return tried_by(clock, run, result)
    return _by_cases(model, cell, beyond, clock)


def _by_cases(model: Model, cell: str, beyond: Span, clock: Clock) -> Because | None:
    """The same by trying sets of premises."""
    trial = Trial(model, (), clock)
    room = NumberRoom(beyond.low, beyond.high)
    explored = Exploring(trial, model.believed(), {}, [(cell, room)])
    found = list[KeptPlan | Refuted | Open]()

    def run() -> None:
        found.append(explored.try_out(explored.all))
        if isinstance(found[0], Refuted):
            found.append(explored.shrunk(found[0]))

    def result() -> Because | None:
        if not found or isinstance(found[-1], Open):
            return Because(tuple(model.believed()), False)
        last = found[-1]
        if isinstance(last, KeptPlan):
            return None
        return Because(explored.names(last.mask), last.least)

    return tried(trial, run, result)
