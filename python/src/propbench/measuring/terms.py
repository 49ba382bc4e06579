"""What a user writes about measured quantities: terms with the operators of Python, and laws.

A term is a real number. A comparison of two is a law, which `w.law` states. A constant is a bare
number, or a text with a unit, as `"9.81 m/s2"`.
"""

from collections.abc import Iterable
from dataclasses import dataclass, replace
from enum import Enum
from fractions import Fraction
from typing import NoReturn

from propbench.measuring.exact import Exact, exact_of, is_number
from propbench.measuring.readings import constant_of
from propbench.measuring.shapes import Function, FunctionName
from propbench.measuring.units import (
    BARE,
    Dimension,
    MixedUnits,
    angles_mixed,
    dimension_text,
    times,
    to_power,
)
from propbench.model.measures import text_of_number
from propbench.model.nodes import Declared
from propbench.showing import printable


class RealSort(Enum):
    """What a real does with its arguments."""

    QUANTITY = "quantity"
    CONSTANT = "constant"
    SUM = "+"
    DIFFERENCE = "-"
    NEGATIVE = "negative"
    PRODUCT = "*"
    QUOTIENT = "/"
    POWER = "**"
    ROOT = "sqrt"
    ABSOLUTE = "abs"
    GREATEST = "maximum"
    LEAST = "minimum"
    MEAN = "mean"
    PI = "pi"
    FUNCTION = "function"


@dataclass(frozen=True)
class Real:
    """A term as data. `number` is a constant, in base units, or the exponent of a power; `text` is
    how a constant was written, and `is_temperature` says that its unit has a zero of its own.
    `function` is what is taken of the argument."""

    sort: RealSort
    args: tuple["Real", ...]
    dimension: Dimension
    number: Fraction = Fraction(0)
    declared: Declared | None = None
    text: str = ""
    is_temperature: bool = False
    function: Function | None = None

    @property
    def applied(self) -> Function:
        """The function that is taken of the argument."""
        assert self.function is not None
        return self.function

    @property
    def quantity(self) -> Declared:
        """The quantity that it is."""
        assert self.declared is not None
        return self.declared


def constant(number: Fraction, dimension: Dimension = BARE, text: str = "") -> Real:
    """A constant, in base units."""
    return Real(RealSort.CONSTANT, (), dimension, number, None, text)


ONE = constant(Fraction(1))


class Term:
    """A real number that is made of quantities: `+ - * / **`, `abs`, `.sqrt()`, comparisons."""

    # (so a number of numpy's in front leaves it to the term what is made of both)
    __array_ufunc__ = None

    @property
    def real(self) -> Real:
        """The term as data.

        >>> w = Workbench()
        >>> side = w.measured("side", "m", 0, 10)
        >>> (side * side).real.sort.name
        'PRODUCT'
        """
        raise NotImplementedError

    def sqrt(self) -> "Term":
        """The square root, which is not negative.

        >>> w = Workbench()
        >>> side, area = w.measured("side", "m", 0, 10), w.measured("area", "m^2", 0, 100)
        >>> w.law(side == area.sqrt())
        >>> w.read("plan", area, "25 m^2 +- 0 m^2")
        >>> answer = side.ask()
        >>> float(round(answer.low, 3)), float(round(answer.high, 3))
        (5.0, 5.0)
        """
        return Made(power_of(self.real, Fraction(1, 2)))

    def __add__(self, other: "Term | Exact | str") -> "Term":
        return Made(_added(RealSort.SUM, self, other))

    def __radd__(self, other: "Exact | str") -> "Term":
        if other == 0 and not isinstance(other, str):
            # (so `sum(terms)` begins)
            return self
        return Made(_added(RealSort.SUM, other, self))

    def __sub__(self, other: "Term | Exact | str") -> "Term":
        return Made(_added(RealSort.DIFFERENCE, self, other))

    def __rsub__(self, other: "Exact | str") -> "Term":
        return Made(_added(RealSort.DIFFERENCE, other, self))

    def __mul__(self, other: "Term | Exact | str") -> "Term":
        return Made(_multiplied(real_of(self), real_of(other)))

    def __rmul__(self, other: "Exact | str") -> "Term":
        return Made(_multiplied(real_of(other), real_of(self)))

    def __truediv__(self, other: "Term | Exact | str") -> "Term":
        return Made(_divided(real_of(self), real_of(other)))

    def __rtruediv__(self, other: "Exact | str") -> "Term":
        return Made(_divided(real_of(other), real_of(self)))

    def __pow__(self, power: Exact) -> "Term":
        return Made(power_of(self.real, exact_of(power)))

    def __neg__(self) -> "Term":
        return Made(Real(RealSort.NEGATIVE, (self.real,), self.real.dimension))

    def __pos__(self) -> "Term":
        return self

    def __abs__(self) -> "Term":
        return Made(Real(RealSort.ABSOLUTE, (self.real,), self.real.dimension))

    # (object's `==` gives a bool; here it makes a law, which is the point of the class)
    def __eq__(self, other: "Term | Exact | str") -> "Law":  # type: ignore[override]
        return _compared("==", self, other)

    def __ne__(self, other: object) -> NoReturn:
        raise TypeError(f"`{self!r} != ..` is no law: of what is measured nothing is told by it")

    def __le__(self, other: "Term | Exact | str") -> "Law":
        return _compared("<=", self, other)

    def __lt__(self, other: "Term | Exact | str") -> "Law":
        return _compared("<", self, other)

    def __ge__(self, other: "Term | Exact | str") -> "Law":
        return _compared(">=", self, other)

    def __gt__(self, other: "Term | Exact | str") -> "Law":
        return _compared(">", self, other)

    # (two terms that look alike are not the same: `==` makes a law)
    __hash__ = object.__hash__

    def __bool__(self) -> bool:
        raise TypeError(f"`{self!r}` has no value yet: ask its quantities, by `.ask()`")

    def __repr__(self) -> str:
        return text_of(self.real)


class Made(Term):
    """A term that is made of others."""

    def __init__(self, real: Real) -> None:
        self._real = real

    @property
    def real(self) -> Real:
        return self._real


# A term, or a constant beside terms, as a text or a number.
Operand = Term | Exact | str


@dataclass(frozen=True)
class Law:
    """Two terms and what holds between them: `==`, or `<=` of the first and the second. A law with
    `<` is the same: of a measured quantity nobody can tell them apart."""

    left: Real
    right: Real
    is_equation: bool
    text: str

    def __bool__(self) -> bool:
        raise TypeError(
            f"`{self.text}` is a law, and neither true nor false by itself: state it by `w.law(..)`"
            "; write two laws for `a <= x <= b`"
        )

    def __repr__(self) -> str:
        return self.text


def real_of(value: object) -> Real:
    """The real of a term, or of a constant. Raises TypeError for what is neither."""
    if isinstance(value, Term):
        return value.real
    if isinstance(value, str):
        number, unit = constant_of(value)
        made = constant(number, unit.dimension, f'"{value.strip()}"')
        return replace(made, is_temperature=bool(unit.offset))
    if is_number(value):
        return constant(exact_of(value))
    raise TypeError(
        f"{value!r} is no measured quantity, no number, and no text as `9.81 m/s2`: of whole "
        "numbers and truths `w.require` states what holds"
    )


def mean(*terms: Operand | Iterable[Term]) -> Term:
    """The mean of these terms, given one by one or as one list."""
    reals = reals_of(terms)
    return Made(Real(RealSort.MEAN, tuple(reals), _common(reals)))


def extreme(sort: RealSort, terms: "Iterable[object]") -> Term:
    """The greatest or the least of these terms, given one by one or as one list."""
    reals = reals_of(terms)
    return Made(Real(sort, tuple(dict.fromkeys(reals)), _common(reals)))


def sum_of(terms: "Iterable[object]") -> Term:
    """The sum of these terms."""
    reals = reals_of(terms)
    return Made(reals[0] if len(reals) == 1 else Real(RealSort.SUM, tuple(reals), _common(reals)))


def reals_of(terms: Iterable[object]) -> list[Real]:
    """What was given one by one, or as one list."""
    given = list(terms)
    if len(given) == 1 and not isinstance(given[0], (Term, str)) and not is_number(given[0]):
        [several] = given
        if not isinstance(several, Iterable):
            raise TypeError(f"{several!r} is no term, and no list of terms")
        given = list(several)
    if not given:
        raise ValueError("of no terms there is no mean, and none is the greatest or the least")
    return [real_of(each) for each in given]


# A power is by so much at the most: that of 1.04 is some 10^17. Its fractions are of so many parts.
_MOST_POWER, _MOST_ROOT = 1000, 1000


def power_of(base: Real, power: Fraction) -> Real:
    """A power by a whole number, the square root, or another fraction."""
    if power == Fraction(1, 2):
        return Real(RealSort.ROOT, (base,), to_power(base.dimension, power))
    if power.denominator > _MOST_ROOT:
        raise ValueError(
            f"a power is by a whole number, or by a fraction of {_MOST_ROOT}ths at the most as "
            f"`Fraction(2, 3)`, and not by {power}"
        )
    if abs(power) > _MOST_POWER:
        raise ValueError(f"a power is by {_MOST_POWER} at the most, and not by {power}")
    if power == 0:
        return ONE
    if power < 0:
        return _divided(ONE, power_of(base, -power))
    if power == 1:
        return base
    if power.denominator != 1:
        return function_of(Function(FunctionName.POWER, exponent=power), base)
    if base.sort is RealSort.POWER:
        return power_of(base.args[0], base.number * power)
    return Real(RealSort.POWER, (base,), to_power(base.dimension, power), power)


def function_of(function: Function, argument: Real) -> Real:
    """A function of a term. Raises MixedUnits where it has none of what is in its unit."""
    try:
        dimension = function.dimension_of(argument.dimension)
    except MixedUnits as mixed:
        raise MixedUnits(f"`{text_of(argument)}` is {_unit(argument)}, and {mixed}") from None
    return Real(RealSort.FUNCTION, (argument,), dimension, function=function)


def _multiplied(left: Real, right: Real) -> Real:
    return Real(RealSort.PRODUCT, (left, right), times(left.dimension, right.dimension))


def _divided(left: Real, right: Real) -> Real:
    if right.sort is RealSort.CONSTANT and right.number == 0:
        raise ValueError(f"`{text_of(left)} / 0` has no value")
    dimension = times(left.dimension, right.dimension, Fraction(-1))
    return Real(RealSort.QUOTIENT, (left, right), dimension)


def _added(sort: RealSort, left: object, right: object) -> Real:
    reals = [real_of(left), real_of(right)]
    dimension = _common(reals)
    if sort is RealSort.SUM and reals[0].sort is RealSort.SUM:
        reals = [*reals[0].args, reals[1]]
    return Real(sort, tuple(reals), dimension)


def _compared(relation: str, left: Term, right: object) -> Law:
    reals = [real_of(left), real_of(right)]
    _common(reals)
    text = f"{text_of(reals[0])} {relation} {text_of(reals[1])}"
    if relation.startswith(">"):
        reals.reverse()
    return Law(reals[0], reals[1], relation == "==", text)


def _common(reals: list[Real]) -> Dimension:
    """The dimension that all have; a bare zero has each. Raises MixedUnits, which names two that
    differ."""
    kept = [real for real in reals if not (real.sort is RealSort.CONSTANT and real.number == 0)]
    first, *others = kept or reals
    for other in others:
        if other.dimension != first.dimension:
            raise MixedUnits(
                f"`{text_of(first)}` is {_unit(first)}, and `{text_of(other)}` {_unit(other)}"
                + angles_mixed(first.dimension, other.dimension)
            )
    return first.dimension


def _unit(real: Real) -> str:
    """In what a term is told: a quantity in its own unit, others in base units."""
    if real.sort is RealSort.QUANTITY and real.quantity.measure is not None:
        return f"in {real.quantity.measure.unit}"
    return f"in {dimension_text(real.dimension)}" if real.dimension else "a bare number"


# How tightly a text holds together: from `mean(..)`, which always does, down to `+`.
_WHOLE, _POWER, _UNARY, _TIMES, _PLUS = 5, 4, 3, 2, 1
_BETWEEN = {
    RealSort.SUM: _PLUS,
    RealSort.DIFFERENCE: _PLUS,
    RealSort.PRODUCT: _TIMES,
    RealSort.QUOTIENT: _TIMES,
}


def text_of(real: Real) -> str:
    """The term as a user would write it."""
    return _text(real)[0]


def _text(real: Real) -> tuple[str, int]:
    if real.sort is RealSort.QUANTITY:
        return printable(real.quantity.name), _WHOLE
    if real.sort is RealSort.CONSTANT:
        return real.text or text_of_number(real.number), _WHOLE if real.number >= 0 else _UNARY
    if real.sort in _BETWEEN:
        tight = _BETWEEN[real.sort]
        parts = [_held(real.args[0], tight), *(_held(arg, tight + 1) for arg in real.args[1:])]
        return f" {real.sort.value} ".join(parts), tight
    if real.sort is RealSort.NEGATIVE:
        return f"-{_held(real.args[0], _UNARY)}", _UNARY
    if real.sort is RealSort.POWER:
        return f"{_held(real.args[0], _WHOLE)}**{real.number}", _POWER
    if real.sort is RealSort.PI:
        return "pi", _WHOLE
    if real.sort is RealSort.FUNCTION and real.applied.name is FunctionName.POWER:
        return f"{_held(real.args[0], _WHOLE)}**({real.applied.exponent})", _POWER
    if real.sort is RealSort.FUNCTION:
        return f"{real.applied}({text_of(real.args[0])})", _WHOLE
    return f"{real.sort.value}({', '.join(text_of(arg) for arg in real.args)})", _WHOLE


def _held(real: Real, least: int) -> str:
    text, tight = _text(real)
    return text if tight >= least else f"({text})"
