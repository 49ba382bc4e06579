"""Values of functions between fractions that surely lie below and above them.

They come from the intervals of mpmath, which round outward. The package does without mpmath as long
as no function stands in a law.
"""

from collections.abc import Callable
from fractions import Fraction
from functools import cache
from importlib import import_module
from typing import Any

EnclosingEnds = tuple[Fraction, Fraction]
# A number of mpmath or one of its intervals; and what works with either, as `its.exp(x)`. Both have
# no types, and may be missing where these are checked.
MpNumber = Any
MpContext = Any
# Intervals are worked out to so many binary digits.
_DIGITS = 200


class NoLibrary(ValueError):
    """Python's mpmath is not installed, which functions need."""


@cache
def _intervals() -> MpContext:
    """The intervals of mpmath. Raises NoLibrary."""
    try:
        made = import_module("mpmath.ctx_iv").MPIntervalContext()
    except ImportError:
        raise NoLibrary(
            "functions as `exp` and `sin`, and `pi`, need Python's mpmath: on Debian "
            "`apt install python3-mpmath`, elsewhere `pip install mpmath`"
        ) from None
    made.prec = _DIGITS
    return made


@cache
def _numbers() -> MpContext:
    """The numbers of mpmath, rounded: by these it is only guessed where something lies."""
    _intervals()
    made = import_module("mpmath").MPContext()
    made.prec = _DIGITS
    return made


def enclosed(
    function: Callable[[MpContext, MpNumber], MpNumber], low: Fraction, high: Fraction
) -> EnclosingEnds:
    """Between what the values of a function lie, for all numbers from `low` to `high`. It is given
    the intervals of mpmath, and the numbers as one of them."""
    intervals = _intervals()
    ratio = import_module("mpmath.libmp").from_rational
    first = ratio(low.numerator, low.denominator, _DIGITS, "f")
    last = ratio(high.numerator, high.denominator, _DIGITS, "c")
    below, above = function(intervals, intervals.make_mpf((first, last)))._mpi_
    return _fraction(below), _fraction(above)


def guessed(function: Callable[[MpContext, MpNumber], MpNumber], at: Fraction) -> Fraction:
    """About what a function is at a number."""
    numbers = _numbers()
    return _fraction(function(numbers, numbers.mpf(at.numerator) / at.denominator)._mpf_)


@cache
def pi_ends() -> EnclosingEnds:
    """Two numbers between which pi lies."""
    return enclosed(lambda intervals, zero: zero + intervals.pi, Fraction(0), Fraction(0))


def _fraction(number: tuple[MpNumber, ...]) -> Fraction:
    """A number of mpmath as it keeps it. Raises OverflowError for what has no end."""
    sign, digits, exponent, length = number
    if digits == 0 and exponent != 0:
        raise OverflowError("a value has no end")
    whole, power = -int(digits) if sign else int(digits), int(exponent)
    return Fraction(whole << power) if power >= 0 else Fraction(whole, 1 << -power)
