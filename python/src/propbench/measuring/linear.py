"""Terms as sums: a constant, and what is not linear itself (an atom) with a coefficient each."""

from collections.abc import Iterable
from dataclasses import dataclass
from fractions import Fraction

from propbench.measuring.terms import ONE, Real, RealSort, constant, text_of
from propbench.measuring.units import Dimension, times, to_power

ZERO = Fraction(0)


@dataclass(frozen=True)
class Linear:
    """The sum of atoms with coefficients, none of which is zero, and a constant. An atom is a
    quantity, or a product, quotient, power, root and the like of what is no constant."""

    terms: tuple[tuple[Real, Fraction], ...]
    constant: Fraction
    dimension: Dimension

    @property
    def is_constant(self) -> bool:
        """Whether no atom stands in it."""
        return not self.terms

    @property
    def single(self) -> tuple[Real, Fraction] | None:
        """The one atom that it is, with its coefficient; None where there is more."""
        return self.terms[0] if len(self.terms) == 1 and self.constant == 0 else None

    def plus(self, other: "Linear", factor: Fraction = Fraction(1)) -> "Linear":
        """The sum with another, times a factor."""
        found = dict(self.terms)
        for atom, coefficient in other.terms:
            found[atom] = found.get(atom, ZERO) + coefficient * factor
        terms = tuple((atom, each) for atom, each in found.items() if each)
        return Linear(terms, self.constant + other.constant * factor, self.dimension)

    def times(self, factor: Fraction) -> "Linear":
        """The same times a factor."""
        if not factor:
            return Linear((), ZERO, self.dimension)
        terms = tuple((atom, coefficient * factor) for atom, coefficient in self.terms)
        return Linear(terms, self.constant * factor, self.dimension)

    def without(self, atom: Real) -> "Linear":
        """The same without an atom."""
        terms = tuple(each for each in self.terms if each[0] != atom)
        return Linear(terms, self.constant, self.dimension)

    def coefficient(self, atom: Real) -> Fraction:
        """The coefficient of an atom, 0 where it doesn't stand in it."""
        return dict(self.terms).get(atom, ZERO)


def linear_of(real: Real) -> Linear:
    """A term as a sum of atoms."""
    if real.sort is RealSort.CONSTANT:
        return Linear((), real.number, real.dimension)
    if real.sort in (RealSort.SUM, RealSort.DIFFERENCE):
        first, *others = (linear_of(arg) for arg in real.args)
        sign = Fraction(1 if real.sort is RealSort.SUM else -1)
        made = Linear(first.terms, first.constant, real.dimension)
        for other in others:
            made = made.plus(other, sign)
        return made
    if real.sort is RealSort.NEGATIVE:
        return linear_of(real.args[0]).times(Fraction(-1))
    if real.sort is RealSort.MEAN:
        total = Linear((), ZERO, real.dimension)
        for arg in real.args:
            total = total.plus(linear_of(arg))
        return total.times(Fraction(1, len(real.args)))
    if real.sort is RealSort.PRODUCT:
        return _product(linear_of(real.args[0]), linear_of(real.args[1]))
    if real.sort is RealSort.QUOTIENT:
        return _quotient(linear_of(real.args[0]), linear_of(real.args[1]))
    if real.sort is RealSort.POWER:
        return _power(linear_of(real.args[0]), int(real.number))
    return _alone(real)


def real_of_linear(form: Linear) -> Real:
    """A term that is this sum."""
    parts = [_scaled(atom, coefficient) for atom, coefficient in form.terms]
    if form.constant or not parts:
        parts.append(constant(form.constant, form.dimension))
    return summed(parts)


def summed(parts: Iterable[Real]) -> Real:
    """The sum of one or more terms."""
    given = tuple(parts)
    return given[0] if len(given) == 1 else Real(RealSort.SUM, given, given[0].dimension)


def _scaled(atom: Real, coefficient: Fraction) -> Real:
    if coefficient == 1:
        return atom
    return Real(RealSort.PRODUCT, (constant(coefficient), atom), atom.dimension)


def _alone(atom: Real, coefficient: Fraction = Fraction(1)) -> Linear:
    return Linear(((atom, coefficient),), ZERO, atom.dimension)


def _product(left: Linear, right: Linear) -> Linear:
    dimension = times(left.dimension, right.dimension)
    for one, other in ((left, right), (right, left)):
        if one.is_constant:
            found = other.times(one.constant)
            return Linear(found.terms, found.constant, dimension)
    atoms, factor = [], Fraction(1)
    for each in (left, right):
        atom, coefficient = each.single or (real_of_linear(each), Fraction(1))
        atoms.append(atom)
        factor *= coefficient
    if atoms[0].sort is RealSort.ROOT and atoms[0] == atoms[1]:
        return linear_of(atoms[0].args[0]).times(factor)
    return _alone(_joined(*sorted(atoms, key=text_of)), factor)


def _joined(left: Real, right: Real) -> Real:
    """The product of two atoms: a power, where they have the same base."""
    bases = [
        (each.args[0], each.number) if each.sort is RealSort.POWER else (each, Fraction(1))
        for each in (left, right)
    ]
    if bases[0][0] == bases[1][0]:
        return _powered(bases[0][0], int(bases[0][1] + bases[1][1]))
    return Real(RealSort.PRODUCT, (left, right), times(left.dimension, right.dimension))


def _quotient(above: Linear, below: Linear) -> Linear:
    dimension = times(above.dimension, below.dimension, Fraction(-1))
    if below.is_constant:
        if not below.constant:
            raise ValueError("what is divided by zero has no value")
        found = above.times(1 / below.constant)
        return Linear(found.terms, found.constant, dimension)
    divisor, factor = below.single or (real_of_linear(below), Fraction(1))
    if above.is_constant:
        if not above.constant:
            return Linear((), ZERO, dimension)
        made = Real(
            RealSort.QUOTIENT,
            (constant(Fraction(1), above.dimension), divisor),
            times(above.dimension, divisor.dimension, Fraction(-1)),
        )
        return _alone(made, above.constant / factor)
    atom, coefficient = above.single or (real_of_linear(above), Fraction(1))
    made = Real(
        RealSort.QUOTIENT, (atom, divisor), times(atom.dimension, divisor.dimension, -ONE.number)
    )
    return _alone(made, coefficient / factor)


def _power(base: Linear, exponent: int) -> Linear:
    if base.is_constant:
        dimension = to_power(base.dimension, Fraction(exponent))
        return Linear((), base.constant**exponent, dimension)
    atom, coefficient = base.single or (real_of_linear(base), Fraction(1))
    if atom.sort is RealSort.ROOT and exponent == 2:
        return linear_of(atom.args[0]).times(coefficient**2)
    return _alone(_powered(atom, exponent), coefficient**exponent)


def _powered(base: Real, exponent: int) -> Real:
    if base.sort is RealSort.POWER:
        return _powered(base.args[0], exponent * int(base.number))
    if exponent == 1:
        return base
    dimension = to_power(base.dimension, Fraction(exponent))
    return Real(RealSort.POWER, (base,), dimension, Fraction(exponent))
