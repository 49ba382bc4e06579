"""Which reading to improve: how wide a quantity's answer is where each tolerance is halved, and
where the reading is left out.
"""

from collections.abc import Iterable, Mapping, Sequence
from dataclasses import dataclass

from propbench.measuring.narrowing import CantAllHold, Narrowing
from propbench.measuring.quantities import Quantity
from propbench.measuring.readings import Reading
from propbench.model.events import Read
from propbench.model.given import cells_of
from propbench.model.measures import Interval
from propbench.questions.asking import tried
from propbench.questions.certificate import Certificate
from propbench.questions.clock import Clock, Progress
from propbench.questions.model import Model
from propbench.questions.rooms import NumberRoom
from propbench.questions.shown import Shown, shortened
from propbench.questions.trial import Case, Trial


@dataclass(frozen=True)
class Improvement:
    """A reading, and what is left for the quantity with half its tolerance and without it; None
    where nothing is known, or it can't be."""

    premise: str
    says: str
    halved: Interval | None
    left_out: Interval | None


class Improvements(Shown, list[Improvement]):
    """What each reading is worth to a quantity, whose answer now is `now`: that in front whose
    better tolerance makes the answer narrowest."""

    _certificate: Certificate | None = None

    def __init__(
        self, name: str, now: Interval | None, found: Sequence[Improvement], complete: bool
    ) -> None:
        super().__init__(found)
        self.name, self.now, self.complete = name, now, complete

    def headline(self) -> str:
        until = "" if self.complete else ", as far as is known,"
        now = "not known" if self.now is None else self.now
        return f"{self.name} is {now}, of a width of {self._width(self.now)}, and{until}:"

    def heads(self) -> Sequence[str]:
        return ("reading", "says", "width where it is halved", "width without it")

    def rows(self) -> Sequence[Sequence[object]]:
        return [
            (it.premise, shortened(it.says), self._width(it.halved), self._width(it.left_out))
            for it in self
        ]

    def _width(self, interval: Interval | None) -> str:
        if interval is None:
            return "can't be" if self.complete else "not known"
        return f"{float(interval.width):.3g}"


def find_improvements(
    model: Model,
    quantity: Quantity,
    readings: Mapping[str, Sequence[Read]],
    seconds: float | None,
    progress: Progress | None,
) -> Improvements:
    """What each reading that is believed is worth to a quantity."""
    believed = list(model.believed())
    trial = Trial(
        model, [name for name in believed if name not in readings], Clock(seconds, progress)
    )
    found: dict[tuple[str, bool], Interval | None] = {}

    def run() -> None:
        found["", False] = _left(trial, quantity, believed)
        for name, stated in readings.items():
            others = [each for each in believed if each != name]
            found[name, False] = _left(trial, quantity, others)
            found[name, True] = _left(trial, quantity, others, map(_halved, stated))

    def result() -> Improvements:
        rows = [
            Improvement(name, model.text(name), found.get((name, True)), found.get((name, False)))
            for name in readings
        ]
        rows.sort(key=lambda it: (it.halved is None, it.halved and it.halved.width))
        is_all = len(found) == 2 * len(readings) + 1 and not trial.clock.is_over()
        return Improvements(quantity.name, found.get(("", False)), rows, is_all)

    return tried(trial, run, result)


def _left(
    trial: Trial, quantity: Quantity, premises: Sequence[str], told: Iterable[Case] = ()
) -> Interval | None:
    """What is left for a quantity under these premises and what is told beside them; None where
    nothing is known, or they can't all hold."""
    narrowing = Narrowing(trial, premises, (), list(told), depth=0)
    try:
        narrowing.begin()
        room = narrowing.left(quantity.name)
        if room is None:
            return None
        room, _ = narrowing.shaved(quantity.name, room)
    except CantAllHold:
        return None
    ends = quantity.measure.reals(room.low, room.high)
    low, high = max(ends[0], quantity.measure.low), min(ends[1], quantity.measure.high)
    return quantity.measure.interval(min(low, high), max(low, high))


def _halved(read: Read) -> Case:
    """A reading with half its tolerance, as what its cell may be."""
    measure, reading = read.cell.measure, read.reading
    assert measure is not None
    middle, quarter = (reading.low + reading.high) / 2, (reading.high - reading.low) / 4
    halved = Reading(middle - quarter, middle + quarter, reading.written)
    return read.cell.name, NumberRoom(*cells_of(measure, halved))
