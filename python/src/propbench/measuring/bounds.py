"""Between which real numbers a term lies, by the bounds of its quantities: exact, or outward."""

from collections.abc import Callable
from fractions import Fraction
from math import isqrt

from propbench.measuring.enclosing import pi_ends
from propbench.measuring.shapes import Undefined, shape_of
from propbench.measuring.terms import Real, RealSort, text_of
from propbench.measuring.units import dimension_text

Bounds = tuple[Fraction, Fraction]
# A root is told to so many digits.
_ROOT_DIGITS = 10**25


class NoBound(ValueError):
    """A divisor may be zero, so there is no bound."""


class BoundsOf:
    """Bounds of terms, each worked out once. A bound may be wider than need be, never narrower."""

    def __init__(self) -> None:
        self._found: dict[Real, Bounds] = {}

    def __call__(self, real: Real) -> Bounds:
        """The bounds of a term. Raises NoBound where a divisor may be zero, Undefined where a
        function may have no value, and NoLibrary."""
        if real not in self._found:
            self._found[real] = self._bounds(real)
        return self._found[real]

    def _bounds(self, real: Real) -> Bounds:
        if real.sort is RealSort.QUANTITY:
            measure = real.quantity.measure
            assert measure is not None
            return measure.low, measure.high
        if real.sort is RealSort.CONSTANT:
            return real.number, real.number
        if real.sort is RealSort.PI:
            return pi_ends()
        if real.sort is RealSort.FUNCTION:
            return self._of_function(real)
        if real.sort is RealSort.POWER:
            return power(self(real.args[0]), int(real.number))
        if real.sort is RealSort.PRODUCT and real.args[0] == real.args[1]:
            return power(self(real.args[0]), 2)
        if real.sort is RealSort.QUOTIENT:
            below = self(real.args[1])
            if below[0] <= 0 <= below[1]:
                raise NoBound(
                    f"`{text_of(real)}` has no bound: {text_of(real.args[1])} may be 0, so give "
                    "its quantities ends that leave 0 out"
                )
            return product(self(real.args[0]), (1 / below[1], 1 / below[0]))
        return _OF_SORT[real.sort]([self(arg) for arg in real.args])

    def _of_function(self, real: Real) -> Bounds:
        [inner] = real.args
        argument = self(inner)
        try:
            low, high = shape_of(real.applied, argument).bounds(argument)
        except Undefined as undefined:
            said = _without_value(real, argument, str(undefined))
            raise Undefined(f"{said}: give its quantities ends that leave this out") from None
        off = real.applied.off
        return low - off, high + off


def _without_value(real: Real, argument: Bounds, said: str) -> str:
    """That a function has no value where its argument may be, with the names and numbers of
    both."""
    [inner], table = real.args, real.applied.table
    points = "" if table is None else _between(inner, (table.points[0][0], table.points[-1][0]))
    between = _between(inner, argument)
    told = said.format(f"`{text_of(inner)}`", between=between, points=points)
    return f"`{text_of(real)}` {told}"


def _between(real: Real, ends: Bounds) -> str:
    """Two ends of a term as people read them: in the unit of the quantity that it is, else in base
    units."""
    unit, low, high = dimension_text(real.dimension) if real.dimension else "1", *ends
    if real.sort is RealSort.QUANTITY:
        measure = real.quantity.measure
        assert measure is not None
        unit, (low, high) = measure.unit, ((end - measure.offset) / measure.factor for end in ends)
    told = f"{float(low):.6g}..{float(high):.6g}"
    return told if unit == "1" else f"{told} {unit}"


def product(one: Bounds, other: Bounds) -> Bounds:
    """The bounds of a product."""
    corners = [left * right for left in one for right in other]
    return min(corners), max(corners)


def power(base: Bounds, exponent: int) -> Bounds:
    """The bounds of a power by a whole number from 1."""
    low, high = base[0] ** exponent, base[1] ** exponent
    if exponent % 2:
        return low, high
    least = Fraction(0) if base[0] <= 0 <= base[1] else min(low, high)
    return least, max(low, high)


def root(inner: Bounds) -> Bounds:
    """The bounds of a square root, of what is not negative."""
    low, high = (max(end, Fraction(0)) for end in inner)
    return _root(low, 0), _root(high, 1)


def _root(number: Fraction, more: int) -> Fraction:
    """A root rounded down, or up where `more` is 1."""
    scaled = number.numerator * number.denominator * _ROOT_DIGITS**2
    found = isqrt(scaled)
    if found * found < scaled:
        found += more
    return Fraction(found, number.denominator * _ROOT_DIGITS)


def _sum(bounds: list[Bounds]) -> Bounds:
    return sum((low for low, _ in bounds), Fraction(0)), sum(
        (high for _, high in bounds), Fraction(0)
    )


def _mean(bounds: list[Bounds]) -> Bounds:
    low, high = _sum(bounds)
    return low / len(bounds), high / len(bounds)


def _absolute(bounds: list[Bounds]) -> Bounds:
    low, high = bounds[0]
    return max(low, -high, Fraction(0)), max(abs(low), abs(high))


_OF_SORT: dict[RealSort, Callable[[list[Bounds]], Bounds]] = {
    RealSort.SUM: _sum,
    RealSort.DIFFERENCE: lambda bounds: (bounds[0][0] - bounds[1][1], bounds[0][1] - bounds[1][0]),
    RealSort.NEGATIVE: lambda bounds: (-bounds[0][1], -bounds[0][0]),
    RealSort.PRODUCT: lambda bounds: product(bounds[0], bounds[1]),
    RealSort.ROOT: lambda bounds: root(bounds[0]),
    RealSort.ABSOLUTE: _absolute,
    RealSort.GREATEST: lambda bounds: (
        max(low for low, _ in bounds),
        max(high for _, high in bounds),
    ),
    RealSort.LEAST: lambda bounds: (min(low for low, _ in bounds), min(high for _, high in bounds)),
    RealSort.MEAN: _mean,
}
