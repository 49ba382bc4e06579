"""Temperatures in units with a zero of their own, as degC, and levels, as dBm: what is one, and
what is a difference.

In a law all temperatures are in kelvin, and levels above 1 W or 1 V. So `inside - outside` is a
difference in kelvin, and to compare it with `5 degC`, which is 278.15 K, or to add `5 degC` to a
temperature, is no law that anyone means. A temperature in K may be either.
"""

from collections.abc import Sequence

from propbench.measuring.terms import Law, Real, RealSort, text_of
from propbench.measuring.units import MixedUnits

# How many zeros of their own count in a term: one in a temperature, none in a difference of two;
# None where that can't be told, or says nothing.
Zeros = int | None


def check_zeros(law: Law) -> None:
    """Raises MixedUnits where temperatures, or levels, are compared with differences of them, or
    with sums."""
    sides = [law.left, law.right]
    _alike(sides, [_zeros(side) for side in sides])


def _zeros(real: Real) -> Zeros:
    """How many zeros of their own count in a term. Raises MixedUnits."""
    if real.sort is RealSort.QUANTITY:
        return 1 if real.quantity.measure and real.quantity.measure.offset else None
    if real.sort is RealSort.CONSTANT:
        return 1 if real.is_temperature else None
    of_args = [_zeros(arg) for arg in real.args]
    if real.sort is RealSort.SUM:
        known = [each for each in of_args if each is not None]
        return sum(known) if known else None
    if real.sort is RealSort.DIFFERENCE:
        one, other = of_args
        return None if one is None or other is None else one - other
    if real.sort is RealSort.NEGATIVE:
        [inner] = of_args
        return None if inner is None else -inner
    if real.sort in (RealSort.MEAN, RealSort.GREATEST, RealSort.LEAST):
        return _alike(real.args, of_args)
    if real.sort is RealSort.ABSOLUTE:
        return of_args[0]
    if real.sort in (RealSort.PRODUCT, RealSort.QUOTIENT) and 0 in of_args:
        return _of_difference(real)
    return None


def _of_difference(real: Real) -> Zeros:
    """A difference that is taken so many times is one."""
    dimensions = [arg.dimension for arg in real.args]
    return 0 if real.dimension in dimensions and () in dimensions else None


def _alike(reals: Sequence[Real], zeros: Sequence[Zeros]) -> Zeros:
    """How many zeros count in each of several terms that are compared."""
    known = [(real, count) for real, count in zip(reals, zeros) if count is not None]
    for real, count in known:
        if count and any(_is_bare_zero(each) for each in reals):
            written = "`0 dBm` or `0 dBW`" if _is_level(real) else "`0 degC` or `0 K`"
            raise MixedUnits(
                f"`{text_of(real)}` is compared with 0: write {written}, which are not the same"
            )
        if count != known[0][1]:
            way_out = _OF_LEVELS if _is_level(real) else _OF_TEMPERATURES
            raise MixedUnits(f"{_told(*known[0])}, and {_told(real, count)}: {way_out}")
    return known[0][1] if known else None


_OF_TEMPERATURES = (
    "differences of temperatures are measured in K, so write `5 K` for 5 degrees more"
)
_OF_LEVELS = "differences of levels are measured in dB, so write `5 dB` for 5 decibels more"


def _is_level(real: Real) -> bool:
    return "dB" in dict(real.dimension)


def _is_bare_zero(real: Real) -> bool:
    return real.sort is RealSort.CONSTANT and real.number == 0 and not real.dimension


def _told(real: Real, zeros: int) -> str:
    """A term, and what it is."""
    one = "level" if _is_level(real) else "temperature"
    what = {0: f"is a difference of {one}s", 1: f"is a {one}"}
    return f"`{text_of(real)}` {what.get(zeros, f'is a sum of {one}s')}"
