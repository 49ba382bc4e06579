"""What a term is at a point, worked out beside the package: as an exact fraction, or as an interval
of 60 digits that surely holds it, where a function is taken.

The intervals are mpmath's, rounded outward; an arcsine is made of an arctangent. Nothing here uses
the curves and ends of the package.
"""

from collections.abc import Callable
from fractions import Fraction
from functools import lru_cache
from math import floor
from typing import Any

from mpmath import MPIntervalContext

from propbench.measuring.shapes import Function, FunctionName
from propbench.measuring.terms import RealSort
from propbench.model.measures import Measure

INTERVALS = MPIntervalContext()
INTERVALS.dps = 60
# An exact fraction, or an interval of mpmath's.
Number = Any


class Unsure(Exception):
    """An interval has two numbers of which a cell holds another for each."""


def ends_of(number: Number) -> tuple[Fraction, Fraction]:
    """Between what a number lies."""
    if isinstance(number, Fraction):
        return number, number
    low, high = number._mpi_
    return _fraction(low), _fraction(high)


def between(low: Fraction, high: Fraction) -> Number:
    """An interval that holds all from one to another."""
    ends = (INTERVALS.mpf(end.numerator) / end.denominator for end in (low, high))
    below, above = ends
    return INTERVALS.mpf([below.a, above.b])


def count_of(measure: Measure, number: Number) -> int:
    """What a cell holds for a number. Raises Unsure."""
    step = measure.step
    if isinstance(number, Fraction):
        return floor(number / step + Fraction(1, 2))
    low, high = (_rounded(end, step) for end in number._mpi_)
    if low != high:
        raise Unsure
    return low


def _fraction(end: Any) -> Fraction:
    sign, digits, exponent, _ = end
    count, power = -int(digits) if sign else int(digits), int(exponent)
    return Fraction(count << power) if power >= 0 else Fraction(count, 1 << -power)


def _rounded(end: Any, step: Fraction) -> int:
    """The nearest count of steps, up from the middle."""
    sign, digits, exponent, _ = end
    above = 2 * (-int(digits) if sign else int(digits)) * step.denominator
    below = step.numerator
    above, below = (above << exponent, below) if exponent >= 0 else (above, below << -exponent)
    return (above + below) // (2 * below)


def worked_out(sort: RealSort, values: list[Number]) -> Number:
    """What a sort of term makes of its arguments. (Powers and functions have their own.)"""
    is_exact = all(isinstance(each, Fraction) for each in values)
    return _VALUES[sort](values if is_exact else [_interval(each) for each in values])


def powered(value: Number, exponent: Fraction) -> Number:
    """A power: by a whole number, or of what isn't negative."""
    if exponent.denominator == 1:
        return value ** int(exponent)
    low, high = (_powered(end, exponent) for end in ends_of(value))
    return INTERVALS.mpf([min(low.a, high.a), max(low.b, high.b)])


def _powered(end: Fraction, exponent: Fraction) -> Any:
    if end <= 0:
        return INTERVALS.mpf(0)
    return INTERVALS.exp(INTERVALS.log(_interval(end)) * _interval(exponent))


def root(value: Number) -> Number:
    """The root of what isn't negative."""
    return INTERVALS.sqrt(clipped(_interval(value), Fraction(0), None))


def applied(function: Function, value: Number) -> Number:
    """A function of a value, which is no table."""
    half = _half_turn(function) / INTERVALS.pi
    if function.name is FunctionName.POWER:
        return powered(value, function.exponent)
    if function.name in _OF_ANGLES:
        return _OF_ANGLES[function.name](_interval(value) / half)
    if function.name in _ANGLES:
        return _ANGLES[function.name](_interval(value)) * half
    return _PLAIN[function.name](_interval(value))


def on_branch(value: Number, function: Function, branch: int) -> Number:
    """A value cut off at the ends of a branch of a sine or cosine, as the branch goes on level."""
    half = _half_turn(function)
    first = _interval(
        Fraction(branch) if function.name is FunctionName.COS else branch - Fraction(1, 2)
    )
    return _most(_least(_interval(value), (first + 1) * half), first * half)


def on_lines(points: tuple[tuple[Fraction, Fraction], ...], value: Number) -> Number:
    """A value on straight lines between points, level beyond them."""
    low, high = ends_of(value)
    found = [_on_lines(points, each) for each in {low, high}]
    found += [to for at, to in points if low < at < high]
    return found[0] if len(found) == 1 else between(min(found), max(found))


def clipped(value: Number, low: Fraction, high: Fraction | None) -> Number:
    """A value cut off at ends which it surely doesn't go beyond."""
    value = _most(value, _interval(low))
    return value if high is None else _least(value, _interval(high))


def _on_lines(points: tuple[tuple[Fraction, Fraction], ...], value: Fraction) -> Fraction:
    value = min(max(value, points[0][0]), points[-1][0])
    for (first, begun), (last, ended) in zip(points, points[1:]):
        if value <= last:
            return begun + (ended - begun) * (value - first) / (last - first)
    raise AssertionError(points)


def _half_turn(function: Function) -> Any:
    return INTERVALS.mpf(180) if function.in_degrees else +INTERVALS.pi


def _interval(number: Number) -> Any:
    if not isinstance(number, Fraction):
        return number
    # (constants come again and again, and what is drawn doesn't)
    return _constant(number) if number.denominator < _PLAIN_ONE else _made(number)


def _made(number: Fraction) -> Any:
    return INTERVALS.mpf(number.numerator) / number.denominator


_PLAIN_ONE = 10**6
_constant = lru_cache(1000)(_made)


def _most(one: Any, other: Any) -> Any:
    return INTERVALS.mpf([max(one.a, other.a), max(one.b, other.b)])


def _least(one: Any, other: Any) -> Any:
    return INTERVALS.mpf([min(one.a, other.a), min(one.b, other.b)])


def _asin(value: Any) -> Any:
    """Twice the angle of which this is the tangent: x / (1 + sqrt(1 - x^2))."""
    value = clipped(value, Fraction(-1), Fraction(1))
    beside = INTERVALS.sqrt(clipped(1 - value * value, Fraction(0), Fraction(1)))
    return 2 * INTERVALS.atan2(value, 1 + beside)


def _ln(value: Any) -> Any:
    return INTERVALS.log(value)


_OF_ANGLES: dict[FunctionName, Callable[[Any], Any]] = {
    FunctionName.SIN: INTERVALS.sin,
    FunctionName.COS: INTERVALS.cos,
    FunctionName.TAN: INTERVALS.tan,
}
_ANGLES: dict[FunctionName, Callable[[Any], Any]] = {
    FunctionName.ASIN: _asin,
    FunctionName.ACOS: lambda value: INTERVALS.pi / 2 - _asin(value),
    FunctionName.ATAN: lambda value: INTERVALS.atan2(value, INTERVALS.mpf(1)),
}
_PLAIN: dict[FunctionName, Callable[[Any], Any]] = {
    FunctionName.EXP: INTERVALS.exp,
    FunctionName.LN: _ln,
    FunctionName.EXP10: lambda value: INTERVALS.exp(value * INTERVALS.log(INTERVALS.mpf(10))),
    FunctionName.LOG10: lambda value: INTERVALS.log(value) / INTERVALS.log(INTERVALS.mpf(10)),
}


def _over(values: list[Number], pick: Callable[[list[Any]], Any]) -> Number:
    """The greatest or the least of values."""
    if isinstance(values[0], Fraction):
        return pick(values)
    return INTERVALS.mpf([pick([each.a for each in values]), pick([each.b for each in values])])


_VALUES: dict[RealSort, Callable[[list[Number]], Number]] = {
    RealSort.PI: lambda values: +INTERVALS.pi,
    RealSort.SUM: lambda values: sum(values[1:], values[0]),
    RealSort.DIFFERENCE: lambda values: values[0] - values[1],
    RealSort.NEGATIVE: lambda values: -values[0],
    RealSort.PRODUCT: lambda values: values[0] * values[1],
    RealSort.QUOTIENT: lambda values: values[0] / values[1],
    RealSort.ROOT: lambda values: root(values[0]),
    RealSort.ABSOLUTE: lambda values: abs(values[0]),
    RealSort.GREATEST: lambda values: _over(values, max),
    RealSort.LEAST: lambda values: _over(values, min),
    RealSort.MEAN: lambda values: sum(values[1:], values[0]) / len(values),
}
