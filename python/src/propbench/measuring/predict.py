"""What a further reading would have to show, so that it doesn't speak against the others."""

from collections.abc import Mapping
from dataclasses import dataclass
from fractions import Fraction

from propbench.measuring.amounts import Amount, NoReading
from propbench.measuring.exact import Exact, exact_of, short
from propbench.measuring.quantities import Quantity, coverage_text
from propbench.measuring.readings import in_ascii
from propbench.measuring.shaving import Shaved
from propbench.measuring.tolerances import (
    TolerancePart,
    ToleranceSort,
    is_relative,
    parts_of,
    size_of,
)
from propbench.measuring.units import Unit
from propbench.model.measures import Interval
from propbench.showing import printable


@dataclass(frozen=True)
class Prediction:
    """A further reading of a quantity has to show what lies in `shows`: what is left for the
    quantity and the reading's tolerance around it. Any other is in conflict with `because`."""

    name: str
    tolerance: str
    shows: Interval
    because: tuple[str, ...]
    complete: bool
    coverage: Mapping[str, Fraction]

    def __str__(self) -> str:
        by = f" by {self.tolerance}" if self.tolerance else ""
        against = ", ".join(map(printable, self.because)) or "what holds always"
        notes = coverage_text(self.coverage)
        return (
            f"a further reading of {printable(self.name)}{by} has to show {self.shows}: "
            f"any other is in conflict with {against}{notes and f' ({notes})'}"
        )


@dataclass(frozen=True)
class ExpectedTolerance:
    """The tolerance of a further reading: so much, in the quantity's unit, and a share of what it
    shows; and how that was written."""

    size: Fraction
    share: Fraction
    written: str

    def shows(self, low: Fraction, high: Fraction) -> tuple[Fraction, Fraction]:
        """What a reading may show whose bounds have something of what is left, in the unit: from
        the least number to the greatest that is not farther from that than its own tolerance."""
        least, most = low - self.size, high + self.size
        below = 1 + self.share if least > 0 else 1 - self.share
        above = 1 - self.share if most > 0 else 1 + self.share
        return least / below, most / above


def expected(given: str | Exact | None, unit: Unit) -> ExpectedTolerance:
    """The tolerance of a further reading of what is in a unit, as `+- 0.5 ohm`, `2 % + 1 ohm`, or
    a number. Raises NoReading for what is none, and MixedUnits."""
    if given is None:
        return ExpectedTolerance(Fraction(0), Fraction(0), "")
    if not isinstance(given, str):
        size = exact_of(given)
        if size < 0:
            raise NoReading(f"{given} is a tolerance of less than nothing")
        return ExpectedTolerance(size, Fraction(0), f"+- {given} {unit.text}".removesuffix(" 1"))
    written = in_ascii(given).removeprefix("+-").strip()
    parts = parts_of(written, written)
    if any(part.sort is ToleranceSort.DIGITS for part in parts):
        raise NoReading(
            f"{short(given)!r}: what a digit is worth only a reading tells: say how much"
        )
    shares = [part for part in parts if part.share and _is_of_reading(part, unit, written)]
    share = sum((part.number for part in shares), Fraction(0))
    if share >= 1:
        raise NoReading(f"{short(given)!r}: with a tolerance of all of it a reading tells nothing")
    others = [part for part in parts if part not in shares]
    size = size_of(others, Amount("0", ""), unit, written)
    return ExpectedTolerance(size, share, f"+- {written}")


def _is_of_reading(part: TolerancePart, unit: Unit, text: str) -> bool:
    """Whether a share is of what is read. Raises NoReading for a unit behind it."""
    if part.unit:
        raise NoReading(f"{short(text)!r}: {part.unit!r} behind `{part.share}` is not understood")
    return part.sort is not ToleranceSort.AMOUNT and is_relative(part, unit, text)


def predicted(quantity: Quantity, left: Shaved, tolerance: ExpectedTolerance) -> Prediction:
    """What a further reading of this tolerance has to show."""
    assert isinstance(left.value, Interval)
    measure = quantity.measure
    ends = tolerance.shows(Fraction(left.value.low), Fraction(left.value.high))
    low, high = (end * measure.factor + measure.offset for end in ends)
    shows = measure.interval(low, high)
    return Prediction(
        quantity.name, tolerance.written, shows, left.because, left.complete, left.coverage
    )
