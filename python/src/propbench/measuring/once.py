"""Terms and sums in another form, in which a quantity stands once where it stood twice: so less is
lost by taking what stands at two places for two.

A quotient by a sum that its numerator stands in is divided by that: x / (1 + x) is 1 / (1 / x + 1).
Squares are completed, and products: x y + a x + b y is (x + b) (y + a) - a b.
"""

from dataclasses import replace
from fractions import Fraction

from propbench.measuring.bounds import BoundsOf, NoBound
from propbench.measuring.linear import Linear, linear_of, summed
from propbench.measuring.polynomials import Monomial, Polynomial, linear_of_polynomial
from propbench.measuring.shapes import Undefined
from propbench.measuring.terms import Law, Real, RealSort, constant, power_of
from propbench.measuring.units import BARE

_TWO = Fraction(2)


def divided_once(law: Law, bounds: BoundsOf) -> Linear | None:
    """An equation whose quotients are by sums without their numerators, where some aren't so; None
    where all are."""
    left, right = (_divided(side, bounds) for side in (law.left, law.right))
    if left == law.left and right == law.right:
        return None
    return linear_of(left).plus(linear_of(right), Fraction(-1))


def _divided(real: Real, bounds: BoundsOf) -> Real:
    """A term with its quotients divided by their numerators, where these stand in the divisors and
    aren't zero."""
    made = replace(real, args=tuple(_divided(arg, bounds) for arg in real.args))
    if made.sort is not RealSort.QUOTIENT:
        return made
    numerator, below = linear_of(made.args[0]), linear_of(made.args[1])
    if numerator.single is None or below.single is not None:
        return made
    atom, factor = numerator.single
    share = below.coefficient(atom)
    if not share or may_be_zero(atom, bounds):
        return made
    rest = linear_of(Real(RealSort.QUOTIENT, (_real(below.without(atom)), atom), BARE))
    divisor = summed([_real(rest), constant(share)])
    quotient = Real(RealSort.QUOTIENT, (constant(factor), divisor), made.dimension)
    return quotient


def may_be_zero(atom: Real, bounds: BoundsOf) -> bool:
    """Whether a term may be zero, or that isn't known."""
    try:
        low, high = bounds(atom)
    except (NoBound, Undefined):
        return True
    return low <= 0 <= high


def _real(form: Linear) -> Real:
    parts = [Real(RealSort.PRODUCT, (constant(each), atom), BARE) for atom, each in form.terms]
    return summed([*parts, constant(form.constant)] if form.constant or not parts else parts)


def completed(made: Polynomial) -> Linear | None:
    """A sum of products with squares and products of two completed, where that leaves a quantity
    that stood twice standing once; None where there are none."""
    left = dict(made)
    found: list[Linear] = []
    for monomial in list(made):
        one = _completed(left, monomial)
        if one is not None:
            found.append(one)
    if not found:
        return None
    whole = linear_of_polynomial(left) if left else Linear((), Fraction(0), BARE)
    for each in found:
        whole = whole.plus(each)
    return whole


def _completed(left: Polynomial, monomial: Monomial) -> Linear | None:
    """A square or a product of two with what stands of them alone, which are taken out."""
    factors = [atom for atom, exponent in monomial for _ in range(max(0, exponent))]
    if len(factors) != 2 or monomial not in left or any(exponent < 0 for _, exponent in monomial):
        return None
    of = [monomial, *(((atom, 1),) for atom in dict.fromkeys(factors))]
    atoms = set(factors)
    others = [each for each in left if each not in of and atoms & {atom for atom, _ in each}]
    if others or not any(each in left for each in of[1:]):
        return None
    factor = left.pop(monomial)
    shares = [left.pop(each, Fraction(0)) / factor for each in of[1:]]
    if len(shares) == 1:
        [share] = (each / 2 for each in shares)
        moved = power_of(summed([factors[0], constant(share)]), _TWO)
        return linear_of(moved).times(factor).plus(linear_of(constant(-factor * share**2)))
    moved_by = [summed([atom, constant(share)]) for atom, share in zip(factors, reversed(shares))]
    product = linear_of(Real(RealSort.PRODUCT, (moved_by[0], moved_by[1]), BARE))
    return product.times(factor).plus(linear_of(constant(-factor * shares[0] * shares[1])))
