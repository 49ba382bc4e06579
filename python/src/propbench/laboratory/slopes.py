"""Values of laws at a point in floating numbers, with their slopes: what an adjustment is made
of."""

from collections.abc import Callable, Mapping
from dataclasses import dataclass
from math import pi, sqrt

from propbench.measuring.slopes_of import value_and_slope
from propbench.measuring.terms import Real, RealSort, text_of
from propbench.model.nodes import Declared


class NoValue(ValueError):
    """A term has no value at a point, or no slope."""


@dataclass(frozen=True)
class Sloped:
    """A value, and how much it grows with each quantity."""

    value: float
    slopes: Mapping[Declared, float]

    def times(self, factor: float) -> "Sloped":
        """So many times as much."""
        slopes = {cell: slope * factor for cell, slope in self.slopes.items()}
        return Sloped(self.value * factor, slopes)

    def plus(self, other: "Sloped") -> "Sloped":
        """The sum."""
        slopes = dict(self.slopes)
        for cell, slope in other.slopes.items():
            slopes[cell] = slopes.get(cell, 0.0) + slope
        return Sloped(self.value + other.value, slopes)

    def bent(self, value: float, slope: float) -> "Sloped":
        """A function of it with this value, which grows so much with it."""
        return Sloped(value, {cell: each * slope for cell, each in self.slopes.items()})


def sloped(real: Real, at: Mapping[Declared, float]) -> Sloped:
    """A term at a point, in base units. Raises NoValue."""
    if real.sort is RealSort.QUANTITY:
        return Sloped(at[real.quantity], {real.quantity: 1.0})
    if real.sort is RealSort.CONSTANT:
        return Sloped(float(real.number), {})
    args = [sloped(arg, at) for arg in real.args]
    if real.sort is RealSort.POWER:
        [base], power = args, int(real.number)
        return base.bent(base.value**power, power * base.value ** (power - 1))
    try:
        if real.sort is RealSort.FUNCTION:
            [inner] = args
            return inner.bent(*value_and_slope(real.applied, inner.value))
        return _OF_SORT[real.sort](args)
    except (ZeroDivisionError, ValueError):
        raise NoValue(f"`{text_of(real)}` has no value or no slope where it is estimated") from None


def _sum(args: list[Sloped]) -> Sloped:
    found = Sloped(0.0, {})
    for each in args:
        found = found.plus(each)
    return found


def _product(args: list[Sloped]) -> Sloped:
    one, other = args
    made = one.times(other.value).plus(other.times(one.value))
    return Sloped(one.value * other.value, made.slopes)


def _quotient(args: list[Sloped]) -> Sloped:
    above, below = args
    return _product([above, below.bent(1 / below.value, -1 / below.value**2)])


def _root(args: list[Sloped]) -> Sloped:
    found = sqrt(args[0].value)
    return args[0].bent(found, 1 / (2 * found))


_OF_SORT: dict[RealSort, Callable[[list[Sloped]], Sloped]] = {
    RealSort.PI: lambda args: Sloped(pi, {}),
    RealSort.SUM: _sum,
    RealSort.DIFFERENCE: lambda args: args[0].plus(args[1].times(-1.0)),
    RealSort.NEGATIVE: lambda args: args[0].times(-1.0),
    RealSort.PRODUCT: _product,
    RealSort.QUOTIENT: _quotient,
    RealSort.ROOT: _root,
    RealSort.ABSOLUTE: lambda args: args[0].times(-1.0 if args[0].value < 0 else 1.0),
    RealSort.GREATEST: lambda args: max(args, key=lambda each: each.value),
    RealSort.LEAST: lambda args: min(args, key=lambda each: each.value),
    RealSort.MEAN: lambda args: _sum(args).times(1 / len(args)),
}
