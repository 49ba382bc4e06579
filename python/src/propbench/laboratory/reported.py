"""What a report tells, as data: laws, devices, readings, results, bars, conflicts, a
certificate."""

from collections.abc import Collection, Mapping, Sequence
from dataclasses import dataclass
from enum import Enum
from typing import Protocol

from propbench.laboratory.adjustment import Adjustment
from propbench.laboratory.results import Results
from propbench.measuring.devices import Corrected, DeviceLaw, DevicePart, ShownMade
from propbench.measuring.narrowing import CantAllHold, Narrowing
from propbench.measuring.outliers import Outliers
from propbench.measuring.quantities import Quantity
from propbench.measuring.stating import LawTold
from propbench.model.answers import Conflict
from propbench.model.events import Event, LawStated, Read
from propbench.model.measures import Interval
from propbench.questions.certificate import Certificate, Evidence
from propbench.questions.clock import Clock
from propbench.questions.marks import mark_for
from propbench.questions.model import Model
from propbench.questions.rooms import beyond
from propbench.questions.trial import Trial

# Of so many quantities at the most there are bars.
_BARS = 40


class By(Enum):
    """By what an interval is known."""

    READING = "reading"
    GIVEN_UP = "out"
    OTHERS = "others"
    ALL = "all"


@dataclass(frozen=True)
class Bar:
    """An interval of a quantity, and by what it is known."""

    label: str
    interval: Interval
    by: By


class ReportedBench(Protocol):
    """What is asked of a workbench."""

    @property
    def model(self) -> Model:
        """The workbench as questions see it."""

    @property
    def quantities(self) -> tuple[Quantity, ...]:
        """The quantities of the user's."""


@dataclass(frozen=True)
class TakenReading:
    """A reading as a report has it."""

    premise: str
    of: str
    says: str
    by: str
    is_believed: bool


@dataclass(frozen=True)
class ReportStated:
    """What was stated: laws with the premise that each is under, devices with their errors,
    readings."""

    laws: Sequence[tuple[str, str]]
    devices: Sequence[tuple[str, str]]
    readings: Sequence[TakenReading]


@dataclass(frozen=True)
class ReportFound:
    """What follows. Where readings conflict it follows without those that are given up."""

    results: Results | None
    bars: Mapping[str, Sequence[Bar]]
    certificate: Certificate | None
    conflict: Conflict | None = None
    outliers: Outliers | None = None
    given_up: Sequence[str] = ()
    estimates: Adjustment | None = None
    # Why there are no estimates.
    without_estimates: str = ""


def stated_in(events: Sequence[Event], model: Model) -> ReportStated:
    """What was stated, of the events of a workbench."""
    parts = {each.cell: each.device for each in events if isinstance(each, DevicePart)}
    shows = {each.cell: each for each in events if isinstance(each, ShownMade)}
    believed = set(model.believed())
    devices, readings = [], []
    for each in events:
        if isinstance(each, Read) and each.cell in parts:
            devices.append((parts[each.cell], each.text))
        elif isinstance(each, Read):
            by = shows.get(each.cell)
            readings.append(
                TakenReading(
                    each.premise or "",
                    by.of.name if by else each.cell.name,
                    each.text.partition(" = ")[2],
                    by.device if by else "",
                    each.premise is None or each.premise in believed,
                )
            )
    told: list[LawStated] = [each for each in events if isinstance(each, LawTold)]
    inner = (DeviceLaw, Corrected)
    stated = [it for it in events if isinstance(it, LawStated) and not isinstance(it, inner)]
    laws = [(each.text, each.premise or "") for each in told or stated]
    return ReportStated(laws, devices, readings)


def bars_of(
    bench: ReportedBench,
    events: Sequence[Event],
    results: Results,
    given_up: Collection[str],
    clock: Clock,
) -> dict[str, list[Bar]]:
    """For quantities that were read what each reading tells by itself, those that are given up too,
    what the other readings leave, and what all tell together."""
    together = {each.name: each.interval for each in results}
    believed = list(bench.model.believed())
    found: dict[str, list[Bar]] = {}
    with Trial(bench.model, [], clock) as trial:
        for quantity in bench.quantities:
            own = _own(quantity, events, {*believed, *given_up})
            if not own or len(found) == _BARS or clock.is_over():
                continue
            bars = []
            for name, (reading, device) in own.items():
                alone = _said(reading)
                if device is not None:
                    alone = _left(trial, [name, device], quantity) or alone
                is_out = name in given_up
                label = f"{name} (given up)" if is_out else name
                bars.append(Bar(label, alone, By.GIVEN_UP if is_out else By.READING))
            others = _left(trial, [each for each in believed if each not in own], quantity)
            if others is not None:
                bars.append(Bar("the other readings", others, By.OTHERS))
            whole = together[quantity.name]
            if whole is not None and len(bars) > 1:
                found[quantity.name] = [*bars, Bar("together", whole, By.ALL)]
    return found


def _own(
    quantity: Quantity, events: Sequence[Event], premises: Collection[str]
) -> dict[str, tuple[Read, str | None]]:
    """The premises under which a quantity was read, each with the reading, and with the device by
    which that was."""
    shows = {it.cell: it for it in events if isinstance(it, ShownMade)}
    found: dict[str, tuple[Read, str | None]] = {}
    for each in events:
        if isinstance(each, Read) and each.premise in premises:
            by = shows.get(each.cell)
            if (by.of if by else each.cell) is quantity.declared:
                found[str(each.premise)] = each, by.device if by else None
    return found


def _left(trial: Trial, premises: Sequence[str], quantity: Quantity) -> Interval | None:
    """What is left for a quantity by some premises; None where that is all that it may be."""
    narrowing = Narrowing(trial, premises, ())
    try:
        narrowing.begin()
    except CantAllHold:
        return None
    room, declared = narrowing.left(quantity.name), quantity.declared
    if room is None or (room.low, room.high) == (declared.low, declared.high):
        return None
    measure = quantity.measure
    low, high = measure.reals(room.low, room.high)
    return measure.interval(max(low, measure.low), min(high, measure.high))


def _said(each: Read) -> Interval:
    """What a reading says, as far as the quantity reaches."""
    measure, reading = each.cell.measure, each.reading
    assert measure is not None
    low, high = max(reading.low, measure.low), min(reading.high, measure.high)
    return measure.interval(min(low, high), max(low, high))


def certificate_of(model: Model, results: Results, clock: Clock) -> Certificate | None:
    """What shows that each quantity lies between its ends: beyond them nothing fits with the
    premises that its answer rests on."""
    evidence = Evidence.without_trial(model, mark_for(model.base()))
    claims: list[tuple[str, dict[str, object]]] = []
    with Trial(model, [], clock) as trial:
        narrowing = Narrowing(trial, list(model.believed()), ())
        narrowing.begin()
        for result in results:
            room, line = narrowing.left(result.name), model.cell_name(result.name)
            if room is None:
                continue
            given = evidence.lines_of(result.because)
            for outside in beyond(room):
                claims.append(("fails", {"given": given, "told": [[line, str(outside)]]}))
    return evidence.certificate(claims)
