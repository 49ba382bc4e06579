"""Functions at a point in floating numbers, with their slopes: for estimates, which prove
nothing."""

import math
from collections.abc import Callable

from propbench.measuring.shapes import Function, FunctionName

ValueAndSlope = tuple[float, float]
_HALF_TURN, _LOG_10 = 180.0, math.log(10)


def value_and_slope(function: Function, at: float) -> ValueAndSlope:
    """What a function is there, and how much it grows with its argument. Raises ValueError where it
    has no value or no slope."""
    scale = math.pi / _HALF_TURN if function.in_degrees else 1.0
    try:
        if function.table is not None:
            return _on_table(function, at)
        if function.name is FunctionName.POWER:
            exponent = float(function.exponent)
            # (by `**` a power of what is negative is a complex number)
            return math.pow(at, exponent), exponent * math.pow(at, exponent - 1)
        if function.name in _OF_ANGLES:
            value, slope = _OF_ANGLES[function.name](at * scale)
            return value, slope * scale
        value, slope = _OTHERS[function.name](at)
        return value / scale, slope / scale
    except (OverflowError, ZeroDivisionError, TypeError) as error:
        raise ValueError(f"`{function}` has no value or no slope at {at:g}") from error


def _on_table(function: Function, at: float) -> ValueAndSlope:
    assert function.table is not None
    points = [(float(first), float(value)) for first, value in function.table.points]
    for (first, begun), (last, ended) in zip(points, points[1:]):
        if first <= at <= last:
            slope = (ended - begun) / (last - first)
            return begun + slope * (at - first), slope
    raise ValueError(f"`{function}` has no value or no slope at {at:g}")


def _sine(at: float) -> ValueAndSlope:
    return math.sin(at), math.cos(at)


def _cosine(at: float) -> ValueAndSlope:
    return math.cos(at), -math.sin(at)


def _tangent(at: float) -> ValueAndSlope:
    return math.tan(at), 1 + math.tan(at) ** 2


_OF_ANGLES: dict[FunctionName, Callable[[float], ValueAndSlope]] = {
    FunctionName.SIN: _sine,
    FunctionName.COS: _cosine,
    FunctionName.TAN: _tangent,
}
_OTHERS: dict[FunctionName, Callable[[float], ValueAndSlope]] = {
    FunctionName.EXP: lambda at: (math.exp(at), math.exp(at)),
    FunctionName.EXP10: lambda at: (10.0**at, _LOG_10 * 10.0**at),
    FunctionName.LN: lambda at: (math.log(at), 1 / at),
    FunctionName.LOG10: lambda at: (math.log10(at), 1 / at / _LOG_10),
    FunctionName.ASIN: lambda at: (math.asin(at), 1 / math.sqrt(1 - at**2)),
    FunctionName.ACOS: lambda at: (math.acos(at), -1 / math.sqrt(1 - at**2)),
    FunctionName.ATAN: lambda at: (math.atan(at), 1 / (1 + at**2)),
}
