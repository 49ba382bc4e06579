"""An adjustment as users see it: estimates with standard uncertainties, beside the bounds, and
tests.

This is another statement than the bounds: estimated and tested, not proved. Bounds add up, and
deviations by their squares, so both rarely say the same.
"""

from collections.abc import Iterable, Mapping, Sequence
from contextlib import suppress
from dataclasses import dataclass, replace
from fractions import Fraction
from heapq import nlargest
from math import floor, log10, sqrt
from typing import TYPE_CHECKING

from propbench.laboratory.curve_errors import CurveErrors
from propbench.laboratory.least_squares import (
    Correlations,
    Estimates,
    NoEstimate,
    Observation,
    Tested,
    adjusted,
    scipy,
)
from propbench.laboratory.slopes import NoValue
from propbench.measuring.devices import DeviceLaw, real_of_cell
from propbench.measuring.quantities import Quantity
from propbench.measuring.stating import LawTold, RootMade
from propbench.measuring.terms import Law, constant
from propbench.model.answers import Conflict
from propbench.model.events import CellMade, Event, Read
from propbench.model.measures import Interval
from propbench.model.nodes import Declared
from propbench.questions.shown import Shown
from propbench.tables import table

if TYPE_CHECKING:
    from propbench.workbench import Workbench

# How wide a bound is as a standard deviation, by what its reading is taken to be.
SHAPES = {"rectangular": sqrt(3), "triangular": sqrt(6), "normal": 3.0}
# A reading is suspect from here on: of honest ones one in a thousand is. The sum of all squares is
# one in twenty times beyond its limit.
SUSPECT, _SURE = 3.29, 0.95
# Of fewer readings, and of more, it isn't looked for which to try first.
_FEW, _MANY = 8, 400
# So many correlations of an estimate are shown, none smaller than that; and how wide a table is.
_SHOWN, _LITTLE, _WIDE = 2, 0.01, 100


@dataclass(frozen=True)
class Estimate:
    """A quantity by least squares: its value, standard uncertainty and U = k u, in its unit; None
    where the readings don't determine it. `bounds` are those that the program proves, None where
    readings conflict. `correlations` are the quantities whose errors go with its own the most, from
    -1 to 1, the nearest to either in front."""

    name: str
    value: float | None
    u: float | None
    expanded: float | None
    unit: str
    bounds: Interval | None
    correlations: tuple[tuple[str, float], ...] = ()


@dataclass(frozen=True)
class Test:
    """A reading by least squares: how far it is from the estimate, in its unit, and `w`, the same
    in standard deviations of that difference; None where nothing else controls the reading."""

    premise: str
    of: str
    residual: float
    unit: str
    w: float | None

    @property
    def is_suspect(self) -> bool:
        """Whether one in a thousand honest readings is as far off, or fewer."""
        return self.w is not None and abs(self.w) > SUSPECT


class Adjustment(Shown, list[Estimate]):
    """Estimates by weighted least squares, one a row, beside the proved bounds. `tests` has what is
    said of each reading, the most suspect in front; `degrees` of freedom, `chi_square` and the
    `limit` that this is below in 95 of 100 cases, tell of all together, and `correlation` of two
    quantities."""

    _certificate = None

    def __init__(
        self, found: Iterable[Estimate], tests: Sequence[Test], estimates: Estimates, k: float
    ) -> None:
        super().__init__(found)
        self.tests, self.k, self.complete = tuple(tests), k, True
        self.degrees, self.chi_square = estimates.degrees, estimates.chi_square
        self._correlations = estimates.correlations
        self.limit = (
            float(scipy("scipy.stats").chi2.ppf(_SURE, self.degrees)) if self.degrees else 0.0
        )

    @property
    def suspects(self) -> tuple[str, ...]:
        """The readings that are suspect, the most in front."""
        return tuple(each.premise for each in self.tests if each.is_suspect)

    def correlation(self, one: Quantity, other: Quantity) -> float | None:
        """How far the errors of two estimates go together: 1 is as one, -1 against each other, 0
        not at all. None where one isn't determined, or has no error."""
        return self._correlations.of(one.declared, other.declared)

    def headline(self) -> str:
        told = "Least squares, tested and not proved"
        if not self.degrees:
            return f"{told}: no reading controls another."
        verdict = "within" if self.chi_square <= self.limit else "BEYOND"
        degrees = f"{self.degrees} degree{'' if self.degrees == 1 else 's'} of freedom"
        square = f"chi-square {self.chi_square:.3g} of {degrees}"
        return f"{told}: {square}, {verdict} {self.limit:.3g} (95 %)."

    def heads(self) -> Sequence[str]:
        return (
            *("quantity", "estimate", "u", f"U (k={self.k:g})", "unit", "proved bounds"),
            "correlations",
        )

    def rows(self) -> Sequence[Sequence[object]]:
        return [_row(each) for each in self]

    def _values(self) -> Sequence[Sequence[object]]:
        return [(it.name, it.value, it.u, it.expanded, *_row(it)[4:]) for it in self]

    def __str__(self) -> str:
        suspect = [
            f"  {each.premise}: {each.of} is off by {each.residual:.3g} {each.unit}, w ="
            f" {each.w:.1f}"
            for each in self.tests
            if each.is_suspect
        ]
        head = [f"suspect (|w| > {SUSPECT}), the most in front:"] if suspect else []
        rows = [[str(cell) for cell in row] for row in self.rows()]
        found = [table(self.heads(), rows, "  ", most=_WIDE)] if rows else []
        return "\n".join([self.headline(), *found, *head, *suspect])


def _row(each: Estimate) -> Sequence[object]:
    bounds = "readings conflict" if each.bounds is None else str(each.bounds)
    return (each.name, *_numbers(each), each.unit, bounds, _together(each.correlations))


def _numbers(each: Estimate) -> tuple[str, str, str]:
    """An estimate, u and U, as the table has them."""
    if each.value is None or each.u is None or each.expanded is None:
        return "not determined", "", ""
    if not each.u:
        return f"{each.value:.10g}", "0", "0"
    power = floor(log10(each.expanded)) - 1
    value, u, expanded = (_rounded(it, power) for it in (each.value, each.u, each.expanded))
    return value, u, expanded


def _together(correlations: Iterable[tuple[str, float]]) -> str:
    return ", ".join(f"{number:.2f} {name}" for name, number in correlations)


def _rounded(number: float, power: int) -> str:
    """A number to a power of ten: that of the second digit of an uncertainty, as the GUM has it."""
    return f"{round(number, -power):.{max(0, -power)}f}"


def observations_in(
    events: Iterable[Event], believed: Iterable[str], divisor: float
) -> tuple[list[Observation], list[tuple[Declared, Fraction]]]:
    """The readings that count, as observations; and those that are exact, of which none is one."""
    names, found, exact = set(believed), [], []
    for each in events:
        if isinstance(each, Read) and (each.premise is None or each.premise in names):
            reading = each.reading
            middle, half = (reading.low + reading.high) / 2, (reading.high - reading.low) / 2
            shaped = divisor if reading.shape is None else SHAPES[reading.shape]
            times = shaped if reading.coverage is None else float(reading.coverage)
            if half:
                deviation = float(half) / times
                found.append(Observation(each.premise or "", each.cell, float(middle), deviation))
            else:
                exact.append((each.cell, middle))
    return found, exact


def laws_in(events: Iterable[Event], believed: Iterable[str]) -> list[Law]:
    """The equations that hold, as they were stated, and those of devices."""
    names, found = set(believed), []
    for each in events:
        if isinstance(each, LawTold) and (each.premise is None or each.premise in names):
            found.append(each.stated.law)
        elif isinstance(each, DeviceLaw):
            found.append(each.law)
    return [law for law in found if law.is_equation]


def estimates_of(
    w: "Workbench", begin: Mapping[Declared, Interval], divisor: float
) -> tuple[Estimates, list[Test]]:
    """The estimates of a workbench's quantities, begun at the middle of the bounds that are known,
    and the tests of its readings. Raises NoEstimate, NoValue and NoScipy."""
    events, believed = w.network.events, w.believed
    observations, exact = observations_in(events, believed, divisor)
    errors = CurveErrors()
    laws = [errors.law(law) for law in laws_in(events, believed)]
    laws += [_fixed(cell, value) for cell, value in exact]
    made = (
        each for each in events if isinstance(each, CellMade) and not isinstance(each, RootMade)
    )
    cells = [each.cell for each in made if each.cell.measure is not None]
    at = {each.cell: each.value for each in observations}
    start = {cell: _middle(cell, begin.get(cell), at.get(cell)) for cell in cells}
    start |= {cell: 0.0 for cell in errors.sizes}
    observations += [
        Observation("", cell, 0.0, float(size) / divisor) for cell, size in errors.sizes.items()
    ]
    try:
        found = adjusted(laws, observations, start)
    except (ArithmeticError, ValueError) as error:
        raise error if isinstance(error, (NoEstimate, NoValue)) else NoEstimate(
            str(error)
        ) from None
    tests = [_test(each) for each in found.tests if each.observation.premise]
    return found, sorted(tests, key=lambda each: -abs(each.w or 0.0))


def _fixed(cell: Declared, value: Fraction) -> Law:
    """The law that a quantity has an exact value."""
    real = real_of_cell(cell)
    return Law(real, constant(value, real.dimension), True, "")


def _middle(cell: Declared, known: Interval | None, read: float | None) -> float:
    """Where the search for an estimate begins, in base units."""
    measure = cell.measure
    assert measure is not None
    if known is not None:
        middle = (Fraction(known.low) + Fraction(known.high)) / 2
        return float(middle * measure.factor + measure.offset)
    return float((measure.low + measure.high) / 2) if read is None else read


def _test(each: Tested) -> Test:
    measure = each.observation.cell.measure
    assert measure is not None
    residual = each.residual / float(measure.factor)
    cell = each.observation.cell
    return Test(each.observation.premise, cell.name, residual, measure.unit, each.w)


def adjustment_of(w: "Workbench", k: float, shape: str, seconds: float | None) -> Adjustment:
    """The adjustment of a workbench. Raises as `estimates_of`, and ValueError for another shape."""
    if shape not in SHAPES:
        raise ValueError(f"shape is {', '.join(map(repr, SHAPES))}, and not {shape!r}")
    if not 0 < k < 100:
        raise ValueError(f"k is how many times u is taken for U, as 2, and not {k!r}")
    bounds: dict[Declared, Interval] = {}
    with suppress(Conflict):
        for quantity, result in zip(w.quantities, w.results(seconds=seconds)):
            if result.interval is not None:
                bounds[quantity.declared] = result.interval
    found, tests = estimates_of(w, bounds, SHAPES[shape])
    rows = [_estimate(each, found, bounds.get(each.declared), k) for each in w.quantities]
    near = _nearest(found.correlations, w.quantities)
    rows = [replace(each, correlations=near.get(each.name, ())) for each in rows]
    return Adjustment(rows, tests, found, k)


def _estimate(quantity: Quantity, found: Estimates, bounds: Interval | None, k: float) -> Estimate:
    """An estimate in the quantity's unit."""
    value, measure = found.values[quantity.declared], quantity.measure
    if value is None:
        return Estimate(quantity.name, None, None, None, measure.unit, bounds)
    factor, offset = float(measure.factor), float(measure.offset)
    u = value[1] / factor
    return Estimate(quantity.name, (value[0] - offset) / factor, u, k * u, measure.unit, bounds)


def _nearest(
    correlations: Correlations, quantities: Iterable[Quantity]
) -> dict[str, tuple[tuple[str, float], ...]]:
    """For each quantity, by name, those that its errors go with the most."""
    places = correlations.places
    varying = [each for each in quantities if each.declared in places]
    rows = [places[each.declared] for each in varying]
    found = {}
    for own, quantity in enumerate(varying):
        line = correlations.table[rows[own]]
        others = [
            (each.name, float(line[row]))
            for each, row in zip(varying, rows)
            if each is not quantity and abs(line[row]) >= _LITTLE
        ]
        # (of those that are alike, but for how they were rounded, the first)
        found[quantity.name] = tuple(nlargest(_SHOWN, others, key=lambda it: round(abs(it[1]), 6)))
    return found


def suspects_first(w: "Workbench", names: Sequence[str]) -> list[str]:
    """Readings by name, the most suspect by least squares in front; as they are, where SciPy isn't
    there, no estimate is found, or it isn't worth it."""
    if not _FEW <= len(names) <= _MANY:
        return list(names)
    try:
        _, tests = estimates_of(w, {}, SHAPES["rectangular"])
    except (ImportError, ValueError):
        return list(names)
    order: dict[str, float] = {}
    for each in tests:
        order[each.premise] = max(order.get(each.premise, 0.0), abs(each.w or 0.0))
    return sorted(names, key=lambda name: -order.get(name, 0.0))
