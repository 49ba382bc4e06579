"""A result as a certificate of calibration writes it: a value, and a half width of two digits."""

from dataclasses import dataclass
from decimal import Decimal
from fractions import Fraction
from math import ceil

from propbench.model.measures import Interval

_DIGITS = 2


@dataclass(frozen=True)
class Rounded:
    """A value and a half width, both to the same digit; the width is rounded up, so that nothing of
    what it tells of is left out."""

    value: Decimal
    half: Decimal
    unit: str

    def __str__(self) -> str:
        unit = "" if self.unit == "1" else f" {self.unit}"
        if not self.half:
            return f"{self.value:f}{unit}"
        if not unit:
            return f"{self.value:f} ± {self.half:f}"
        return f"({self.value:f} ± {self.half:f}){unit}"


def rounded_of(interval: Interval) -> Rounded:
    """An interval, rounded so that the value and the half width hold all of it."""
    low, high = Fraction(interval.low), Fraction(interval.high)
    half = (high - low) / 2
    if not half:
        value = interval.low.normalize()
        return Rounded(Decimal(f"{value:f}"), Decimal(0), interval.unit)
    power = order_of(half) + 1 - _DIGITS
    while True:
        step = Fraction(10) ** power
        count = round((low + high) / 2 / step)
        wide = ceil(max(high / step - count, count - low / step))
        if wide < 10**_DIGITS:
            return Rounded(_decimal(count, power), _decimal(wide, power), interval.unit)
        power += 1


def order_of(number: Fraction) -> int:
    """The power of ten of a number's first digit, which is more than 0."""
    power = len(str(number.numerator)) - len(str(number.denominator))
    return power if number >= Fraction(10) ** power else power - 1


def _decimal(count: int, power: int) -> Decimal:
    """So many units of a power of ten, with the digits that it has."""
    found = Decimal(count).scaleb(power)
    return Decimal(f"{found:f}")
