"""Sums with all their products multiplied out."""

from fractions import Fraction

from propbench.measuring.linear import Linear, linear_of, summed
from propbench.measuring.terms import Real, RealSort, constant, power_of, text_of
from propbench.measuring.units import BARE

# A product of powers: atoms with exponents that are not zero, in order.
Monomial = tuple[tuple[Real, int], ...]
Polynomial = dict[Monomial, Fraction]
# Of a law with more products than this no other form is looked for.
_MOST_PRODUCTS = 24


def polynomial_of(form: Linear) -> Polynomial | None:
    """A sum with all products multiplied out; None where there are too many, or one is divided by a
    sum."""
    found: Polynomial = {(): form.constant} if form.constant else {}
    for atom, coefficient in form.terms:
        expanded = _expanded(atom)
        if expanded is None or len(found) + len(expanded) > _MOST_PRODUCTS:
            return None
        _add(found, expanded, coefficient)
    return found


def _expanded(real: Real) -> Polynomial | None:
    """A term with its products multiplied out."""
    if real.sort is RealSort.POWER:
        [base] = real.args
        inner = polynomial_of(linear_of(base)) if base.sort is not RealSort.QUANTITY else None
        if inner is None or len(inner) == 1:
            return {((base, int(real.number)),): Fraction(1)}
        made: Polynomial | None = inner
        for _ in range(int(real.number) - 1):
            made = multiplied_out(made, inner)
        return made
    if real.sort is RealSort.PRODUCT:
        left, right = (polynomial_of(linear_of(arg)) for arg in real.args)
        return multiplied_out(left, right)
    if real.sort is RealSort.QUOTIENT:
        above, below = (polynomial_of(linear_of(arg)) for arg in real.args)
        if below is None or len(below) != 1:
            return None
        [(monomial, coefficient)] = below.items()
        inverse = tuple((atom, -exponent) for atom, exponent in monomial)
        return multiplied_out(above, {inverse: 1 / coefficient})
    return {((real, 1),): Fraction(1)}


def multiplied_out(left: Polynomial | None, right: Polynomial | None) -> Polynomial | None:
    """The product of two sums of products; None where one is, or it would have too many."""
    if left is None or right is None or len(left) * len(right) > _MOST_PRODUCTS:
        return None
    found: Polynomial = {}
    for one, coefficient in left.items():
        for other, factor in right.items():
            _add(found, {joined(one, other): coefficient * factor}, Fraction(1))
    return found


def joined(one: Monomial, other: Monomial, sign: int = 1) -> Monomial:
    """The product of two, or the first divided by the second where the sign is -1."""
    powers = dict(one)
    for atom, exponent in other:
        powers[atom] = powers.get(atom, 0) + sign * exponent
    return ordered(powers)


def ordered(powers: dict[Real, int]) -> Monomial:
    """A product of these powers."""
    kept = [(atom, exponent) for atom, exponent in powers.items() if exponent]
    return tuple(sorted(kept, key=lambda each: text_of(each[0])))


def _add(found: Polynomial, more: Polynomial, factor: Fraction) -> None:
    for monomial, coefficient in more.items():
        found[monomial] = found.get(monomial, Fraction(0)) + coefficient * factor
        if not found[monomial]:
            del found[monomial]


def linear_of_polynomial(made: Polynomial) -> Linear:
    """A sum of products as a sum of atoms."""
    return linear_of(summed(_real(monomial, factor) for monomial, factor in made.items()))


def _real(monomial: Monomial, factor: Fraction) -> Real:
    """A product of powers, those with negative exponents below a line."""
    made = constant(factor, BARE)
    for sign, sort in ((1, RealSort.PRODUCT), (-1, RealSort.QUOTIENT)):
        for atom, exponent in monomial:
            if exponent * sign > 0:
                raised = power_of(atom, Fraction(abs(exponent)))
                made = Real(sort, (made, raised), BARE)
    return made


def factored(made: Polynomial) -> Real:
    """A sum of products as a term, in which what stands in most of them stands once."""
    atoms = [atom for monomial in made for atom, exponent in monomial if exponent == 1]
    often = max(atoms, key=atoms.count, default=None)
    within = {each: it for each, it in made.items() if often and (often, 1) in each}
    if often is None or len(within) < 2:
        return summed(_real(monomial, factor) for monomial, factor in made.items())
    inner = summed(_real(joined(each, ((often, 1),), -1), it) for each, it in within.items())
    outer = [_real(each, it) for each, it in made.items() if each not in within]
    return summed([Real(RealSort.PRODUCT, (often, inner), BARE), *outer])
