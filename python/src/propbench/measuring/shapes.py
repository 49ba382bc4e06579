"""Functions of one argument: where they have a value, and the curves that make them up.

A sine rises and falls, so over a wide argument it is several curves, each of which goes on level
beyond its ends: the sine is the least or the greatest of them in turn. A table that rises and falls
is the sum of its curves.
"""

from dataclasses import dataclass, replace
from enum import Enum
from fractions import Fraction
from math import ceil, floor

from propbench.measuring.curves import (
    HALF,
    MOST_EXPONENT,
    ZERO,
    Curve,
    Exponential,
    CurvePoints,
    Power,
    Segments,
    Tangent,
    Wave,
    half_turn,
    inverse,
)
from propbench.measuring.enclosing import EnclosingEnds
from propbench.measuring.units import BARE, Dimension, MixedUnits, dimension_text, to_power

# The dimension of angles in degrees; those in radians are bare numbers.
DEGREES: Dimension = (("deg", Fraction(1)),)
# Of a function that rises and falls so many curves are told at the most.
_MOST_CURVES = 16
_MAY_BE = ", and it may be {between}"


class Undefined(ValueError):
    """A function has no value for all that its argument may be, or can't be told for all of it: the
    text has `{}` for the argument, `{between}` for the ends of what it may be, and `{points}` for
    those of a table's points."""


class FunctionName(Enum):
    """Which function."""

    EXP = "exp"
    LN = "ln"
    EXP10 = "exp10"
    LOG10 = "log10"
    SIN = "sin"
    COS = "cos"
    TAN = "tan"
    ASIN = "asin"
    ACOS = "acos"
    ATAN = "atan"
    POWER = "power"
    TABLE = "table"


_OF_ANGLES = (FunctionName.SIN, FunctionName.COS, FunctionName.TAN)


class Join(Enum):
    """How a curve is joined to those in front of it."""

    LEAST = "least"
    GREATEST = "greatest"
    SUM = "sum"


@dataclass(frozen=True)
class CurveTable:
    """Points of a curve in base units, with straight lines between them, how far the values may be
    off, and of what in what it is."""

    name: str
    points: CurvePoints
    off: Fraction
    argument: Dimension
    value: Dimension

    # (that of all points takes a while, and is asked for often)
    def __hash__(self) -> int:
        return hash((self.name, len(self.points)))


@dataclass(frozen=True)
class Function:
    """A function, of angles in degrees or giving them where that is said, by an exponent or a table
    where it needs one. With a `branch` it is that curve of several alone."""

    name: FunctionName
    in_degrees: bool = False
    exponent: Fraction = ZERO
    table: CurveTable | None = None
    branch: int | None = None

    @property
    def off(self) -> Fraction:
        """How far its values may be off: of several curves that is said of the first."""
        return ZERO if self.table is None or self.branch else self.table.off

    def dimension_of(self, argument: Dimension) -> Dimension:
        """The dimension of its values. Raises MixedUnits where there are none of this argument."""
        if self.name is FunctionName.POWER:
            return to_power(argument, self.exponent)
        wanted, given = BARE, BARE
        if self.table is not None:
            wanted, given = self.table.argument, self.table.value
        elif self.name in _OF_ANGLES:
            wanted = DEGREES if self.in_degrees else BARE
        elif self.in_degrees:
            given = DEGREES
        if argument != wanted:
            taken = f"in {dimension_text(wanted)}" if wanted else "a bare number"
            taken = "an angle" if self.name in _OF_ANGLES else taken
            raise MixedUnits(f"`{self}` is taken of what is {taken}")
        return given

    def __str__(self) -> str:
        name = self.name.value if self.table is None else self.table.name
        return name if self.branch is None else f"part {self.branch + 1} of {name}"


@dataclass(frozen=True)
class Shape:
    """The curves that a function is where its argument may be, each with how it is joined to those
    in front. Where it `is_inverse` it is that of which the one curve has the argument as value."""

    curves: tuple[Curve, ...]
    joins: tuple[Join, ...] = ()
    is_inverse: bool = False

    def bounds(self, argument: EnclosingEnds) -> EnclosingEnds:
        """Between what its values lie, where the argument lies there."""
        if self.is_inverse:
            [curve] = self.curves
            ends = [end for at in argument for end in inverse(curve, at)]
        else:
            ends = [end for curve in self.curves for end in range_of(curve, argument)]
        return min(ends), max(ends)


def range_of(curve: Curve, argument: EnclosingEnds) -> EnclosingEnds:
    """Between what the values of a curve lie, which goes on level beyond its ends."""
    ends = [end for at in argument for end in curve.value(clipped(curve, at))]
    return min(ends), max(ends)


def clipped(curve: Curve, at: Fraction) -> Fraction:
    """A number, or the end of a curve's domain that it lies beyond."""
    low, high = curve.domain
    at = at if low is None else max(at, low)
    return at if high is None else min(at, high)


def shape_of(function: Function, argument: EnclosingEnds) -> Shape:
    """The curves of a function where its argument may be. Raises Undefined, which says where it has
    no value."""
    low, high = argument
    name, in_degrees = function.name, function.in_degrees
    if name in (FunctionName.EXP, FunctionName.EXP10):
        if high > MOST_EXPONENT:
            raise Undefined(f"can't be told for {{}} above {MOST_EXPONENT}{_MAY_BE}")
        return Shape((Exponential(10 if name is FunctionName.EXP10 else None),))
    if name in (FunctionName.LN, FunctionName.LOG10):
        _check(low > 0, "where that is 0 or less")
        return Shape((Exponential(10 if name is FunctionName.LOG10 else None),), is_inverse=True)
    if name is FunctionName.POWER:
        _check(low >= 0, "where that is less than 0")
        exponent = function.exponent
        is_root = exponent < 1
        return Shape((Power(1 / exponent if is_root else exponent),), is_inverse=is_root)
    if name is FunctionName.TAN:
        return Shape((Tangent(_branch_of_tangent(argument, in_degrees), in_degrees),))
    if name is FunctionName.ATAN:
        return Shape((Tangent(0, in_degrees),), is_inverse=True)
    if name in (FunctionName.ASIN, FunctionName.ACOS):
        _check(-1 <= low and high <= 1, "beyond -1..1")
        return Shape((Wave(name is FunctionName.ACOS, 0, in_degrees),), is_inverse=True)
    if name is FunctionName.TABLE:
        assert function.table is not None
        return _table(function, argument)
    return _wave(function, argument)


def _check(is_there: bool, where: str) -> None:
    if not is_there:
        raise Undefined(f"has no value for {{}} {where}{_MAY_BE}")


def _branch_of_tangent(argument: EnclosingEnds, in_degrees: bool) -> int:
    """Between which poles an argument lies."""
    half = half_turn(in_degrees)[0]
    branch = floor((argument[0] + argument[1]) / 2 / half + HALF)
    low, high = Tangent(branch, in_degrees).domain
    assert low is not None and high is not None
    is_there = low < argument[0] and argument[1] < high
    at = "at 90 deg and each half turn from there"
    _check(is_there, at if in_degrees else "at pi/2 and each half turn from there")
    return branch


def _wave(function: Function, argument: EnclosingEnds) -> Shape:
    """The curves of a sine or cosine where its argument may be."""
    is_cosine = function.name is FunctionName.COS
    half, shift = half_turn(function.in_degrees)[0], ZERO if is_cosine else HALF
    first, last = (end / half + shift for end in argument)
    tiny = Fraction(1, 10**40)
    places = range(floor(first + tiny), max(floor(first + tiny) + 1, ceil(last - tiny)))
    if len(places) > _MOST_CURVES:
        told = f"can't be told for {{}} over more than {_MOST_CURVES} half turns"
        raise Undefined(f"{told}{_MAY_BE}")
    curves = tuple(Wave(is_cosine, place, function.in_degrees) for place in places)
    if function.branch is not None:
        return Shape((curves[function.branch],))
    joins = (Join.GREATEST if curve.rises else Join.LEAST for curve in curves[1:])
    return Shape(curves, tuple(joins))


def _table(function: Function, argument: EnclosingEnds) -> Shape:
    """The curves of a table: from each of its turns to the next."""
    assert function.table is not None
    points = function.table.points
    is_there = points[0][0] <= argument[0] and argument[1] <= points[-1][0]
    _check(is_there, "beyond its points, which reach over {points}")
    curves, begun = [], 0
    for place in range(2, len(points) + 1):
        is_last = place == len(points)
        if is_last or _step(points, place) != _step(points, place - 1):
            curves.append(Segments(points[begun:place]))
            begun = place - 1
    if function.branch is not None:
        return Shape((curves[function.branch],))
    return Shape(tuple(curves), (Join.SUM,) * (len(curves) - 1))


def _step(points: CurvePoints, place: int) -> int:
    """Whether a point is higher than the one before, or lower (-1), or as high (0)."""
    before, now = points[place - 1][1], points[place][1]
    return (now > before) - (now < before)


def branches(function: Function, shape: Shape) -> list[Function]:
    """The function's curves as functions of their own."""
    return [replace(function, branch=place) for place in range(len(shape.curves))]
