"""Numbers with units as they are written, and what is wrong where a text is no reading."""

import re
from dataclasses import dataclass
from fractions import Fraction

from propbench.measuring.exact import EXPONENT, UNSIGNED, TooLong, number_in, short
from propbench.measuring.units import MixedUnits, Unit, angles_mixed, dimension_text, unit_of

# What may stand behind a number: a unit, or nothing.
UNIT = r"(?:[^\W\d]|[%°Ω]|1/).*|"
# (A number ends where no digit follows: so `51/s` is not 5 and the unit `1/s`.)
NUMBER = rf"{UNSIGNED}{EXPONENT}(?![\d.])"
_AMOUNT = re.compile(rf"([-+]?{NUMBER})\s*({UNIT})")


class NoReading(ValueError):
    """A text is no reading."""


@dataclass(frozen=True)
class Amount:
    """A number as written, and the unit behind it, "" for none."""

    number: str
    unit: str

    @property
    def value(self) -> Fraction:
        """The number, in the unit."""
        return number_in(self.number)

    @property
    def digit(self) -> Fraction:
        """A unit of its last digit."""
        mantissa, _, exponent = self.number.lower().partition("e")
        places = len(mantissa.partition(".")[2])
        return Fraction(10) ** (int(exponent or 0) - places)


def amount_of(text: str, whole: str) -> Amount:
    """The number and the unit that a part of a text is. Raises NoReading, which names the whole."""
    matched = _AMOUNT.fullmatch(text.strip())
    if "," in text:
        raise NoReading(
            f"{short(whole)!r}: a decimal is written with a point, and no comma stands in it"
        )
    if not matched:
        raise NoReading(f"{short(whole)!r} is no reading, such as `468.0 +- 1.2 ohm` or `330..345`")
    made = Amount(matched[1], matched[2])
    check_length(made)
    return made


def check_length(amount: Amount) -> None:
    """Raises NoReading where a number is longer than any may be."""
    try:
        number_in(amount.number)
    except TooLong as too_long:
        raise NoReading(str(too_long)) from None


def same(name: str, unit: Unit, text: str) -> Unit:
    """The unit of this name, or the one at hand where there is none. Raises UnknownUnit, and
    MixedUnits where the two can't be compared."""
    named = unit_of(name) if name else unit
    if named.dimension != unit.dimension:
        raise MixedUnits(
            f"{short(text)!r} is in {named.text} ({dimension_text(named.dimension)}), and what is "
            f"read is in {unit.text} ({dimension_text(unit.dimension)})"
            + angles_mixed(named.dimension, unit.dimension)
        )
    return named
