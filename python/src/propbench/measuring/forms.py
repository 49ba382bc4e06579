"""The forms in which a law is told: as written, without divisors and roots where that can be, and
with each quantity once, which tells more where the user's form has one of them several times.
"""

from collections.abc import Collection, Iterable, Iterator
from dataclasses import dataclass
from fractions import Fraction

from propbench.measuring.bounds import BoundsOf, NoBound
from propbench.measuring.linear import Linear, linear_of, real_of_linear
from propbench.measuring.once import completed, divided_once, may_be_zero
from propbench.measuring.polynomials import (
    Monomial,
    Polynomial,
    joined,
    linear_of_polynomial,
    ordered,
    polynomial_of,
)
from propbench.measuring.terms import Law, Real, RealSort, power_of

_ROUNDS = 6


@dataclass(frozen=True)
class SumForm:
    """What a sum is: zero, or at most zero."""

    sum: Linear
    is_equation: bool


def forms_of(law: Law, bounds: BoundsOf) -> list[SumForm]:
    """The forms of a law, the one as it was written in front. Each follows from the law."""
    form = linear_of(law.left).plus(linear_of(law.right), Fraction(-1))
    if not law.is_equation:
        return [SumForm(form, False)]
    found: list[SumForm] = []
    for _ in range(_ROUNDS):
        divisor = _divisor_to_clear(form, bounds)
        if divisor is not None:
            form = _cleared(form, divisor)
            continue
        roots = [atom for atom, _ in form.terms if atom.sort is RealSort.ROOT]
        if len(roots) != 1:
            break
        form, side = _squared(form, roots[0])
        found.append(SumForm(side, False))
    polynomial = polynomial_of(form)
    others = [
        each_once(form, bounds),
        divided_once(law, bounds),
        completed(polynomial) if polynomial else None,
    ]
    return [SumForm(form, True), *found, *(SumForm(other, True) for other in others if other)]


def _divisor_to_clear(form: Linear, bounds: BoundsOf) -> Real | None:
    """A quotient in a sum by whose divisor the equation is multiplied: the only one, or one whose
    divisor may be zero."""
    quotients = [atom for atom, _ in form.terms if atom.sort is RealSort.QUOTIENT]
    if len(quotients) == 1:
        return quotients[0]
    for each in quotients:
        try:
            bounds(each)
        except NoBound:
            return each
    return None


def _cleared(form: Linear, quotient: Real) -> Linear:
    """The equation times the divisor of a quotient in it. (Where that is not zero it says the same,
    and a quotient by zero has no value.)"""
    above, below = quotient.args
    cleared = linear_of(above).times(form.coefficient(quotient))
    rest = form.without(quotient)
    if rest.is_constant and not rest.constant:
        return cleared
    multiplied = Real(RealSort.PRODUCT, (real_of_linear(rest), below), cleared.dimension)
    return linear_of(multiplied).plus(cleared)


def _squared(form: Linear, root: Real) -> tuple[Linear, Linear]:
    """Of the equation root = others: root squared = others squared, and others are not negative,
    each as a sum."""
    others = form.without(root).times(-1 / form.coefficient(root))
    squared = linear_of(power_of(real_of_linear(others), Fraction(2)))
    inner = linear_of(root.args[0])
    return squared.plus(inner, Fraction(-1)), others.times(Fraction(-1))


def each_once(form: Linear, bounds: BoundsOf) -> Linear | None:
    """An equation divided by a product, which is not zero, such that each of its atoms stands in it
    once; None where that is so already, or can't be."""
    made = polynomial_of(form)
    if made is None or len(made) < 2:
        return None
    atoms = list(dict.fromkeys(atom for monomial in made for atom, _ in monomial))
    terms = [atom for atom, _ in form.terms]
    if all(len(list(_with(made, atom))) == 1 for atom in atoms):
        # (as written a quantity may stand twice where it does not when multiplied out)
        return linear_of_polynomial(made) if _is_repeated(terms, atoms) else None
    shift: dict[Real, int] = {}
    for atom in atoms:
        exponents = [dict(monomial).get(atom, 0) for monomial in made]
        common = [each for each in set(exponents) if exponents.count(each) == len(made) - 1]
        if not common:
            return None
        shift[atom] = min(common, key=abs)
        if shift[atom] > 0 and may_be_zero(atom, bounds):
            return None
    by = ordered(shift)
    return linear_of_polynomial({joined(each, by, -1): it for each, it in made.items()})


def _with(made: Polynomial, atom: Real) -> Iterator[Monomial]:
    return (monomial for monomial in made if atom in dict(monomial))


def _is_repeated(terms: Iterable[Real], atoms: Collection[Real]) -> bool:
    """Whether one of these atoms stands in terms more than once."""
    waiting, found = list(terms), 0
    while waiting:
        each = waiting.pop()
        if each in atoms:
            found += 1
        else:
            waiting += each.args
    return found > len(atoms)
