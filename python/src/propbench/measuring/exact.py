"""Numbers as a user gives them, exactly; and how long they may be, so that none takes forever."""

import re
from decimal import Decimal
from fractions import Fraction
from numbers import Rational, Real
from operator import index
from typing import SupportsIndex

# A number that is given exactly. (Those of numpy are among them.)
Exact = int | float | Decimal | Fraction | SupportsIndex
# A number has so many digits at the most, and its power of ten lies between so many either way.
MOST_DIGITS = 400
_TOO_LARGE = 10**MOST_DIGITS

# A number as it is written, without its sign, and its power of ten.
UNSIGNED = r"(?:\d+(?:\.\d*)?|\.\d+)"
EXPONENT = r"(?:[eE][-+]?\d+)?"
_WRITTEN = re.compile(rf"[-+]?{UNSIGNED}({EXPONENT})")
_WHOLE = re.compile(r"[-+]?\d+")


class TooLong(ValueError):
    """A number has too many digits, or too high a power of ten."""


def is_number(given: object) -> bool:
    """Whether this is a number of Python's, or of numpy's; a truth is none."""
    return isinstance(given, Real | Decimal | SupportsIndex) and not isinstance(given, bool)


def exact_of(number: object) -> Fraction:
    """A number that is meant exactly; a float is what its shortest text says. Raises TypeError for
    what is none, and ValueError for one that no quantity can have."""
    if not is_number(number):
        raise TypeError(f"{short(repr(number))} is no number")
    if isinstance(number, Decimal):
        return _exact_decimal(number)
    if isinstance(number, Rational):
        return _checked(Fraction(int(number.numerator), int(number.denominator)))
    if isinstance(number, Real):
        # (that of a float, for one of numpy's says more)
        text = float.__repr__(number) if isinstance(number, float) else str(number)
        if not _WRITTEN.fullmatch(text):
            raise ValueError(f"{number!r} is no number that a quantity can have")
        return Fraction(text)
    assert isinstance(number, SupportsIndex)
    try:
        return _checked(Fraction(index(number)))
    except TypeError:
        raise TypeError(f"{short(repr(number))} is no number") from None


def number_in(text: str) -> Fraction:
    """The number that is written so, as `-1.25e3`; one divided by another is a number too, as
    `1/3`. Raises ValueError where it is none, and TooLong."""
    above, line, below = text.strip().partition("/")
    if not line and _WRITTEN.fullmatch(above):
        return _checked_text(above)
    if line and _WHOLE.fullmatch(above) and _WHOLE.fullmatch(below):
        divisor = _checked_text(below)
        if divisor:
            return _checked_text(above) / divisor
    raise ValueError(f"{short(text)!r} is no number, as 5, 0.1 and 1/3 are")


def short(text: str) -> str:
    """A text as it stands in an error: one that is long is cut."""
    return text if len(text) <= 80 else f"{text[:30]}..{text[-10:]}"


def _checked_text(text: str) -> Fraction:
    matched = _WRITTEN.fullmatch(text)
    assert matched
    mantissa, exponent = text.removesuffix(matched[1]), matched[1][1:]
    power = exponent.lstrip("+-0")
    too_high = len(power) > 3 or int(power or 0) > MOST_DIGITS
    if too_high or sum(digit.isdigit() for digit in mantissa) > MOST_DIGITS:
        raise _too_long(short(text))
    return Fraction(text)


def _checked(number: Fraction) -> Fraction:
    most = max(abs(number.numerator), number.denominator)
    if most >= _TOO_LARGE:
        # (what is so long Python may refuse to write)
        raise _too_long(f"a number of some {most.bit_length() * 3 // 10} digits")
    return number


def _exact_decimal(number: Decimal) -> Fraction:
    _, digits, exponent = number.as_tuple()
    if not isinstance(exponent, int):
        raise ValueError(f"{number!r} is no number that a quantity can have")
    if len(digits) > MOST_DIGITS or abs(exponent) > MOST_DIGITS:
        raise _too_long(short(str(number)))
    return Fraction(number)


def _too_long(text: str) -> TooLong:
    return TooLong(
        f"{text}: a number has at most {MOST_DIGITS} digits, and a power of ten from "
        f"e-{MOST_DIGITS} to e{MOST_DIGITS}"
    )
