"""Functions of measured quantities as a user writes them: `exp`, `sin`, `atan2`, and `pi`."""

from collections.abc import Callable, Iterable, Sequence
from dataclasses import dataclass, replace
from fractions import Fraction

from propbench.measuring.bounds import BoundsOf
from propbench.measuring.exact import Exact, exact_of, number_in
from propbench.measuring.shapes import DEGREES, Function, FunctionName, CurveTable, Undefined
from propbench.measuring.terms import (
    Made,
    Operand,
    Real,
    RealSort,
    Term,
    constant,
    function_of,
    real_of,
    text_of,
)
from propbench.measuring.units import BARE, MixedUnits, UnknownUnit, dimension_text, unit_of

pi = Made(Real(RealSort.PI, (), BARE))


def exp(term: Operand) -> Term:
    """e to the power of a bare number."""
    return _of(FunctionName.EXP, term)


def ln(term: Operand) -> Term:
    """The natural logarithm of a bare number, which is more than 0."""
    return _of(FunctionName.LN, term)


def exp10(term: Operand) -> Term:
    """10 to the power of a bare number."""
    return _of(FunctionName.EXP10, term)


def log10(term: Operand) -> Term:
    """The logarithm to the base of 10 of a bare number, which is more than 0."""
    return _of(FunctionName.LOG10, term)


def sin(angle: Operand) -> Term:
    """The sine of an angle, in degrees or in radians."""
    return _of_angle(FunctionName.SIN, angle)


def cos(angle: Operand) -> Term:
    """The cosine of an angle, in degrees or in radians."""
    return _of_angle(FunctionName.COS, angle)


def tan(angle: Operand) -> Term:
    """The tangent of an angle, in degrees or in radians, between two of its poles."""
    return _of_angle(FunctionName.TAN, angle)


def asin(term: Operand) -> Term:
    """The angle from -pi/2 to pi/2, in radians, whose sine this is; `degrees(asin(..))` has it in
    degrees."""
    return _of(FunctionName.ASIN, term)


def acos(term: Operand) -> Term:
    """The angle from 0 to pi, in radians, whose cosine this is."""
    return _of(FunctionName.ACOS, term)


def atan(term: Operand) -> Term:
    """The angle between -pi/2 and pi/2, in radians, whose tangent this is."""
    return _of(FunctionName.ATAN, term)


def degrees(angle: Operand) -> Term:
    """An angle in radians, in degrees."""
    real = real_of(angle)
    if real.dimension == DEGREES:
        return Made(real)
    if _is_of_angles(real, in_degrees=False):
        return Made(function_of(replace(real.applied, in_degrees=True), real.args[0]))
    return Made(real) * (Made(constant(Fraction(180), DEGREES, "180 deg")) / pi)


def radians(angle: Operand) -> Term:
    """An angle in degrees, in radians."""
    real = real_of(angle)
    if real.dimension != DEGREES:
        return Made(real)
    if _is_of_angles(real, in_degrees=True):
        return Made(function_of(replace(real.applied, in_degrees=False), real.args[0]))
    return Made(real) * (pi / Made(constant(Fraction(180), DEGREES, "180 deg")))


def hypot(*sides: Operand) -> Term:
    """The root of the sum of squares, of sides at right angles."""
    squares = [Made(real_of(side)) ** 2 for side in sides]
    if not squares:
        raise ValueError("of no sides there is no root")
    return sum(squares[1:], squares[0]).sqrt()


def atan2(above: Operand, beside: Operand) -> Term:
    """The angle, in radians, at which a point stands that is so far above an origin and so far
    beside it: from -pi to pi.

    The one or the other surely isn't 0, and where it is beside on the left it is surely above or
    below. Raises Undefined where it may be anywhere about the origin.
    """
    rise, run = real_of(above), real_of(beside)
    ends = BoundsOf()
    if ends(run)[0] > 0:
        return atan(Made(rise) / Made(run))
    rises = ends(rise)
    if rises[0] > 0:
        return pi / 2 - atan(Made(run) / Made(rise))
    if rises[1] < 0:
        return -pi / 2 - atan(Made(run) / Made(rise))
    told = f"`atan2({text_of(rise)}, {text_of(run)})`"
    raise Undefined(
        f"{told} has no value at the origin, and two beside it on the left: give quantities ends "
        f"by which `{text_of(run)}` is above 0, or `{text_of(rise)}` is not 0"
    )


@dataclass(frozen=True)
class Calibration:
    """A curve of calibration, which gives a term for a term."""

    table: CurveTable

    @property
    def name(self) -> str:
        """What it is called, in laws that are texts too."""
        return self.table.name

    def __call__(self, term: Operand) -> Term:
        return Made(function_of(Function(FunctionName.TABLE, table=self.table), real_of(term)))


def curve(
    name: str,
    points: Iterable[tuple[Exact | str, Exact | str]],
    *,
    of: str = "1",
    unit: str = "1",
    within: Exact | str = 0,
) -> Calibration:
    """A function by its points, as a curve of calibration: straight lines between them, from which
    it is off by no more than `within`. An argument is in the unit `of`, a value in `unit`. A law
    that is a text knows it by its name, where it is given: `w.law("t == probe(u)",
    curves=[probe])`.

    Raises ValueError where the points are too few, out of order, or two have one argument.
    """
    argument, value = unit_of(of), unit_of(unit)
    made = sorted(
        (at * argument.factor + argument.offset, to * value.factor + value.offset)
        for at, to in map(_pair, points)
    )
    for (first, _), (second, _) in zip(made, made[1:]):
        if first == second:
            raise ValueError(f"the curve {name!r} has two points at one argument")
    if len(made) < 2:
        raise ValueError(f"the curve {name!r} has {len(made)} points, and needs two or more")
    off = _exact(within) * value.factor
    if off < 0:
        raise ValueError(f"the curve {name!r} is off by 0 or more, and not by {within}")
    return Calibration(CurveTable(name, tuple(made), off, argument.dimension, value.dimension))


def level(term: Operand) -> Term:
    """So many decibels: of a ratio of powers, of a power above 1 W, or of a voltage above 1 V."""
    real = real_of(term)
    for of, tenths in _LEVELS.items():
        unit = unit_of(of)
        if real.dimension == unit.dimension:
            one = Made(constant(unit.factor, unit.dimension, f'"1 {of}"'))
            return log10(Made(real) / one if of != "1" else Made(real)) * _decibels(tenths)
    raise MixedUnits(
        f"`{text_of(real)}` is in {dimension_text(real.dimension)}: a level is that of a ratio of "
        "powers, of a power, or of a voltage"
    )


def at_level(decibels: Operand, of: str = "1") -> Term:
    """What has so many decibels: a ratio of powers, a power (`of="W"`), or a voltage (`of="V"`)."""
    if of not in _LEVELS:
        raise UnknownUnit(f'a level is that of "1", of "W" or of "V", and not of {of!r}')
    unit = unit_of(of)
    one = Made(constant(unit.factor, unit.dimension, f'"1 {of}"'))
    return one * exp10(Made(real_of(decibels)) / _decibels(_LEVELS[of]))


def pH(activity: Operand) -> Term:
    """How acid something is, by the hydrogen ions in it: `pH("0.01 mol/L")` is 2."""
    return log10(Made(real_of(activity)) / "1 mol/L") * "-1 pH"


def at_pH(acid: Operand) -> Term:
    """The hydrogen ions of what is so acid, in mol/L."""
    return exp10(Made(real_of(acid)) / "-1 pH") * "1 mol/L"


# How many decibels ten times as much is: of a ratio of powers, of a power, of a voltage.
_LEVELS = {"1": 10, "W": 10, "V": 20}


def _decibels(count: int) -> Term:
    return Made(real_of(f"{count} dB"))


def _pair(point: object) -> tuple[Fraction, Fraction]:
    """A point of a curve. Raises TypeError for what is none."""
    if not isinstance(point, Sequence) or isinstance(point, str) or len(point) != 2:
        raise TypeError(f"a point of a curve is an argument and a value: {point!r}")
    return _exact(point[0]), _exact(point[1])


def _exact(given: Exact | str) -> Fraction:
    return number_in(given) if isinstance(given, str) else exact_of(given)


def _is_of_angles(real: Real, in_degrees: bool) -> bool:
    """Whether a term is an arcsine or the like that gives an angle in this."""
    names = (FunctionName.ASIN, FunctionName.ACOS, FunctionName.ATAN)
    is_function = real.sort is RealSort.FUNCTION and real.applied.name in names
    return is_function and real.applied.in_degrees is in_degrees


def _of(name: FunctionName, term: Operand) -> Term:
    return Made(function_of(Function(name), real_of(term)))


def _of_angle(name: FunctionName, angle: Operand) -> Term:
    real = real_of(angle)
    return Made(function_of(Function(name, in_degrees=real.dimension == DEGREES), real))


# The functions of terms by name, for laws that are written as texts.
FUNCTIONS: dict[str, Callable[..., Term]] = {
    "exp": exp,
    "ln": ln,
    "exp10": exp10,
    "log10": log10,
    "sin": sin,
    "cos": cos,
    "tan": tan,
    "asin": asin,
    "acos": acos,
    "atan": atan,
    "atan2": atan2,
    "hypot": hypot,
    "degrees": degrees,
    "radians": radians,
    "level": level,
    "at_level": at_level,
    "pH": pH,
    "at_pH": at_pH,
}
