"""The least or greatest value of a cell by many sessions: what may be is parted into cases that
cover all of it, and each is asked for by itself, wherever an executor runs.

By what the premises of all parts say together nothing is better than the best of any part.
"""

from collections.abc import Iterator, Mapping, Sequence
from dataclasses import dataclass, replace
from typing import TYPE_CHECKING

from propbench.clock import Clock
from propbench.points import Best, NoneFits, Points, SoFar
from propbench.program import OutOfTime
from propbench.questions.asking import answered
from propbench.questions.bounding import LEAST, Optimum
from propbench.questions.certificate import Certificate, Evidence, Tree
from propbench.questions.elsewhere import heard_from
from propbench.questions.marks import mark_for
from propbench.questions.model import Model
from propbench.questions.outcomes import Fits
from propbench.questions.rooms import ALL_NUMBERS, NameRoom, NumberRoom, Room, values_of
from propbench.questions.seeking import Seeker, points_of
from propbench.replies import UNSETTLED, Reply, Value, reply_of
from propbench.session import Session
from propbench.values import Elements, Nothing, Span
from propbench.words import MOST_NUMBER

if TYPE_CHECKING:
    from concurrent.futures import Executor

# So many parts there are, where there is enough to part; a name with more values is parted in two.
_PARTS, _VALUES = 8, 4
# What decides much is looked for so many seconds.
_SOON = 2.0
# What is told of cells, by their names on lines.
ToldOnLines = tuple[tuple[str, str], ...]


@dataclass(frozen=True)
class Split:
    """A cell of a line in cases that cover all that it may be, each parted further or not."""

    cell: str
    cases: tuple[tuple[Room, "Split | None"], ...]

    def leaves(self, told: ToldOnLines = ()) -> Iterator[ToldOnLines]:
        """What is told in each part."""
        for room, below in self.cases:
            more = (*told, (self.cell, str(room)))
            yield from [more] if below is None else below.leaves(more)


@dataclass(frozen=True)
class PartJob:
    """A part as a session is told it: the program, the lines that make the network and those that
    make the part, what to ask, and the kinds of cells to read the answer by."""

    program: str
    base: tuple[str, ...]
    lines: tuple[str, ...]
    ask: str
    seconds: float | None = None


def run_part(part: PartJob) -> str | None:
    """The answer of a fresh session to a part, as text, or what was known of it when the time was
    over; None where it was not even told by then. Raises as `Session` does."""
    clock, found = Clock(part.seconds, None), list[Reply]()
    with Session(part.program) as session:
        session.end_by(clock.latest)
        try:
            session.send_all([*part.base, *part.lines])
            # (what is known comes slice by slice)
            left = clock.seconds_left()
            found.append(
                session.send(part.ask, seconds=left, progress=lambda _, it: found.append(it))
            )
        except OutOfTime:
            pass
    told = [reply for reply in found if reply is not UNSETTLED]
    return str(told[-1]) if told else None


def split_of(model: Model, cell: str, forks: Sequence[str]) -> Split:
    """Parts of all that may be: by what is to be tried first, by these truths, or by ranges of the
    number itself."""
    waiting: list[tuple[str, list[Room]]] = []
    for name in dict.fromkeys(name for each in model.first() for name in each.cells):
        if rooms := _rooms(model.candidates(name)):
            waiting.append((model.cell_name(name), rooms))
    yes_or_no: list[Room] = [NameRoom(("no",)), NameRoom(("yes",))]
    waiting += [(truth, yes_or_no) for truth in forks]
    number = _rooms(model.candidates(cell)) or [ALL_NUMBERS]
    if waiting:
        return _parted(waiting, 1) or Split(model.cell_name(cell), ((ALL_NUMBERS, None),))
    line = model.cell_name(cell)
    return Split(line, tuple((room, None) for room in number))


def _parted(waiting: Sequence[tuple[str, list[Room]]], number: int) -> Split | None:
    """Cells in cases until there are enough parts."""
    if number >= _PARTS or not waiting:
        return None
    line, rooms = waiting[0]
    below = _parted(waiting[1:], number * len(rooms))
    return Split(line, tuple((room, below) for room in rooms))


def _rooms(candidates: range | Sequence[str] | None) -> list[Room]:
    """Some cases of a cell, which cover all that it may be; none where nothing is known of it."""
    if not candidates:
        return []
    if not isinstance(candidates, range):
        names = tuple(candidates)
        if len(names) <= _VALUES:
            return values_of(NameRoom(names))
        half = len(names) // 2
        return [NameRoom(names[:half]), NameRoom(names[half:])]
    count = min(_VALUES, len(candidates))
    firsts = [candidates[len(candidates) * at // count] for at in range(1, count)]
    lows, highs = [-MOST_NUMBER, *firsts], [*(first - 1 for first in firsts), MOST_NUMBER]
    return [NumberRoom(low, high) for low, high in zip(lows, highs)]


class Parting:
    """The question for an end of a number, put to many sessions."""

    def __init__(self, seeker: Seeker, cell: str, sort: str) -> None:
        """With the premises of the model believed."""
        self._seeker, self._model, self.cell, self.sort = seeker, seeker.model, cell, sort
        self._base = tuple(self._model.base())
        self._mark = mark_for(self._base)
        self._line = self._model.cell_name(cell)
        # (what is no better than a plan that is known is not looked for)
        self._known = seeker.by_hand() if sort == LEAST else None
        self.split = split_of(self._model, cell, self._forks())
        ask = " ".join([sort, self._line, *seeker.first()])
        self.parts = {
            str(place): PartJob(
                self._model.session.program,
                self._base,
                tuple(f"tell {self._mark}part {line} {text}" for line, text in told),
                ask,
                seeker.clock.seconds_left(),
            )
            for place, told in enumerate(self.split.leaves(self._better()))
        }
        self._kinds = _kinds_in(self._base)
        self._heard: dict[str, Reply] = {}

    def _better(self) -> ToldOnLines:
        """That the cell is better than in the plan that is known."""
        if self._known is None:
            return ()
        return ((self._line, str(NumberRoom(-MOST_NUMBER, self._seen(self._known) - 1))),)

    def _forks(self) -> list[str]:
        """Truths that decide much, those in front that leave numbers the least room either way."""
        seeker, forks = self._seeker, list(self._model.forks())
        asks = [*forks, *seeker.lines.values()]
        try:
            with seeker.supposing(dict(self._better())):
                seeker.session.send("settle", seconds=seeker.clock.turn(_SOON).seconds_left())
                replies = seeker.session.look(f"ask {name}" for name in asks)
        except OutOfTime:
            return forks
        known = [it.value if isinstance(it, Value) else Nothing() for it in replies]
        ends = {
            cell: (held.low, held.high)
            for cell, held in zip(seeker.lines, known[len(forks) :])
            if isinstance(held, Span)
        }
        rooms = self._model.rooms_by(forks, ends)
        left = [
            fork
            for fork, held in zip(forks, known)
            if not isinstance(held, Elements) or len(held.names) > 1
        ]
        return sorted(left, key=lambda fork: sum(rooms[fork]) if fork in rooms else MOST_NUMBER)

    def by(self, executor: "Executor") -> None:
        """Has an executor ask all parts."""
        heard = heard_from(executor, run_part, self.parts, self._asked, self._seeker.clock)
        for name, text in heard:
            if text is not None:
                words = self.parts[name].ask.split()[:2]
                self._heard[name] = reply_of(words, text, self._kinds)
                self._seeker.clock.tell(f"{len(self._heard)} of {len(self.parts)} parts")

    def _asked(self, part: PartJob) -> str | None:
        """What comes of a part here, None where there is no time."""
        clock = self._seeker.clock
        return None if clock.is_over() else run_part(replace(part, seconds=clock.seconds_left()))

    def result(self) -> Optimum:
        """What is known by now. Raises Unlike."""
        replies = [self._heard.get(name, UNSETTLED) for name in self.parts]
        found = [points for reply in replies if (points := points_of(reply)) is not None]
        found += [self._known] if self._known else []
        best = min(found, key=self._seen, default=None)
        is_proved = all(isinstance(reply, Best | NoneFits) for reply in replies)
        because = {name for reply in replies for name in _because(reply)} - {f"{self._mark}part"}
        by = self._seeker.premises(because) if is_proved else ()
        if best is None:
            evidence = self._evidence(None, because) if is_proved else None
            return Optimum(self.cell, self.sort, None, None, None, is_proved, evidence, {}, by)
        fits = self._seeker.lowest(best, self.cell)
        value, plan = fits.plan[self.cell], self._seeker.shown(fits.plan)
        assert isinstance(value, int)
        bound = value if is_proved else self._bound(replies)
        shown = self._evidence(fits, because) if is_proved else self._plan_alone(fits)
        made = Optimum(self.cell, self.sort, value, plan, bound, is_proved, shown, because=by)
        return made.seen_by(self._model, fits.plan)

    @property
    def _sign(self) -> int:
        """(Seen from the other end, the greatest of the numbers is the least.)"""
        return 1 if self.sort == LEAST else -1

    def _seen(self, points: Points) -> int:
        """The value of the cell, seen from the end that is asked for."""
        return self._sign * int(str(points.values[self._line]))

    def _bound(self, replies: Sequence[Reply]) -> int | None:
        """How far the number may go, None where that isn't known."""
        ends: list[int] = []
        for reply in replies:
            if isinstance(reply, Best):
                ends.append(self._sign * reply.value)
            elif isinstance(reply, SoFar) and reply.bound is not None:
                ends.append(self._sign * reply.bound)
            elif not isinstance(reply, NoneFits):
                return self._seeker.end_of(self.cell, self.sort)
        ends += [self._seen(self._known)] if self._known else []
        return self._sign * min(ends) if ends else None

    def _plan_alone(self, fits: Fits) -> Certificate | None:
        """What shows a plan of which it isn't known whether it is the best."""
        evidence = Evidence.without_trial(self._model, self._mark)
        evidence.add_plan(self._model.believed(), fits)
        told = [[self._line, fits.values[self.cell]]]
        given = evidence.lines_of(self._model.believed())
        return evidence.certificate([("fits", {"given": given, "told": told})])

    def _evidence(self, fits: Fits | None, because: set[str]) -> Certificate | None:
        """What shows the optimum: a plan, and that in no part anything is better, which together
        cover all."""
        evidence, given = Evidence.without_trial(self._model, self._mark), sorted(because)
        if fits is None:
            evidence.trees.append(([given, []], self._tree(self.split, ALL_NUMBERS)))
            return evidence.certificate([("fails", {"given": given, "told": []})])
        evidence.add_plan(self._model.believed(), fits)
        value = fits.plan[self.cell]
        assert isinstance(value, int)
        low, high = (-MOST_NUMBER, value - 1) if self.sort == LEAST else (value + 1, MOST_NUMBER)
        told = [[self._line, str(NumberRoom(low, high))]]
        evidence.trees.append(([given, told], self._tree(self.split, NumberRoom(low, high))))
        best = {"cell": self._line, "value": value, "bound": value}
        return evidence.certificate([("optimum", {"given": given, "sort": self.sort, **best})])

    def _tree(self, split: Split, beyond: NumberRoom) -> Tree:
        """The parts as a certificate has them, of the number itself those that are beyond the
        value."""
        cases: list[list[object]] = []
        for room, below in split.cases:
            if split.cell == self._line and isinstance(room, NumberRoom):
                low, high = max(room.low, beyond.low), min(room.high, beyond.high)
                if low > high:
                    continue
                room = NumberRoom(low, high)
            cases.append([str(room), "none" if below is None else self._tree(below, beyond)])
        return [split.cell, cases]


def _because(reply: Reply) -> tuple[str, ...]:
    """The premises by which a part has nothing better, or nothing at all."""
    if isinstance(reply, NoneFits):
        return tuple(reply.premises)
    return reply.because if isinstance(reply, Best) else ()


def _kinds_in(base: Sequence[str]) -> Mapping[str, str]:
    """The kinds of the cells that lines make."""
    words = (line.split() for line in base)
    return {each[1]: each[2] for each in words if each and each[0] == "cell"}


def optimum_by_parts(seeker: Seeker, cell: str, sort: str, executor: "Executor") -> Optimum:
    """The optimum by many sessions. Raises Unlike, and Interrupted."""
    parting = Parting(seeker, cell, sort)
    return answered(lambda: parting.by(executor), parting.result)
