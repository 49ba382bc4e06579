"""What the cell of a measured quantity counts, and how its ends are written in the unit.

A quantity is a real number. Its cell counts steps: it holds the real divided by the step, rounded
to the nearest whole number. All fractions here are exact, and in base units where nothing else is
said.
"""

from dataclasses import dataclass
from decimal import ROUND_CEILING, ROUND_FLOOR, Context, Decimal
from fractions import Fraction
from math import floor

HALF = Fraction(1, 2)
# An end that no decimal tells exactly is rounded outward to so many places beyond its first digit.
_PLACES = 24
# A width is written with so many digits, where the step is not fine enough to tell it.
_DIGITS = 2


@dataclass(frozen=True)
class Interval:
    """The real numbers from `low` to `high`, in a unit. As text both ends are rounded outward, to
    `digits`, or finer where that would be much of the width."""

    low: Decimal
    high: Decimal
    unit: str
    digits: Decimal

    @property
    def width(self) -> Decimal:
        """How far the ends are from each other."""
        return self.high - self.low

    def __str__(self) -> str:
        unit = "" if self.unit == "1" else f" {self.unit}"
        if self.low == self.high:
            return f"{_plain(self.low)}{unit}"
        unit_of_text = _digits_for(self.width, self.digits)
        low, high = _rounded(self.low, unit_of_text, ROUND_FLOOR), self.high
        high = _rounded(self.high, unit_of_text, ROUND_CEILING)
        places = max(_places(low), _places(high))
        return f"{low:.{places}f}..{high:.{places}f}{unit}"


@dataclass(frozen=True)
class Measure:
    """How the cell of a quantity stands for a real number.

    `factor` is one `unit` in base units, and `offset` what the unit's zero is there. `step` is what
    the cell counts, `digits` the step that the user gave, in the unit. The real number lies from
    `low` to `high`.
    """

    unit: str
    factor: Fraction
    offset: Fraction
    step: Fraction
    digits: Fraction
    low: Fraction
    high: Fraction

    def count(self, real: Fraction) -> int:
        """What the cell holds for a real number."""
        return floor(real / self.step + HALF)

    def reals(self, low: int, high: int) -> tuple[Fraction, Fraction]:
        """Between which real numbers those lie for which the cell holds `low` to `high`."""
        return (low - HALF) * self.step, (high + HALF) * self.step

    def interval(self, low: Fraction, high: Fraction) -> Interval:
        """Real numbers from one to another in the unit, rounded outward where that is needed."""
        ends = ((end - self.offset) / self.factor for end in (low, high))
        down, up = (rounded(end, is_up) for end, is_up in zip(ends, (False, True)))
        return Interval(down, up, self.unit, rounded(self.digits, False))


def rounded(number: Fraction, is_up: bool) -> Decimal:
    """A number as a decimal: exact where few digits tell it, else rounded up or down."""
    rounding = ROUND_CEILING if is_up else ROUND_FLOOR
    context = Context(prec=_PLACES + 20, rounding=rounding)
    divided = context.divide(Decimal(number.numerator), Decimal(number.denominator))
    if Fraction(divided) == number:
        return divided
    return Context(prec=_PLACES, rounding=rounding).plus(divided)


def text_of_number(number: Fraction) -> str:
    """A number as a user writes it: with few digits where it is not exact so."""
    exact = rounded(number, False)
    return _plain(exact) if Fraction(exact) == number else f"{float(number):.6g}"


def _digits_for(width: Decimal, digits: Decimal) -> Decimal:
    """To what the ends are rounded for a width."""
    if width >= 10 * digits:
        return digits
    return Decimal(1).scaleb(width.adjusted() + 1 - _DIGITS)


def _rounded(end: Decimal, digits: Decimal, rounding: str) -> Decimal:
    context = Context(prec=60, rounding=rounding)
    count = context.divide(end, digits).to_integral_value(rounding)
    return _shortest(Context(prec=60).multiply(count, digits))


def _shortest(number: Decimal) -> Decimal:
    """The same number without zeros at its end."""
    return Decimal(0) if not number else number.normalize(Context(prec=60))


def _places(number: Decimal) -> int:
    """How many digits stand behind the point."""
    exponent = number.as_tuple().exponent
    assert isinstance(exponent, int)
    return max(0, -exponent)


def _plain(number: Decimal) -> str:
    return f"{_shortest(number):f}"
