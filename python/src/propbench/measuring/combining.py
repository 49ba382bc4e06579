"""Laws that follow from several: products that several laws have are eliminated, as the squares of
a point's coordinates from its distances, and then quantities of which two laws have more in common.
"""

from collections.abc import Iterator, Sequence
from dataclasses import dataclass
from itertools import combinations

from propbench.measuring.forms import SumForm
from propbench.measuring.linear import linear_of
from propbench.measuring.polynomials import Monomial, Polynomial, factored
from propbench.measuring.terms import Real

# So many laws that follow are told with one law at the most.
_MOST = 24


@dataclass(frozen=True)
class Equation:
    """A sum of products that is zero, and the laws that it follows from, by their places."""

    made: Polynomial
    laws: frozenset[int]

    @property
    def atoms(self) -> frozenset[Real]:
        """The quantities, roots and the like that stand in it."""
        return frozenset(atom for monomial in self.made for atom, _ in monomial)

    def less(self, other: "Equation", product: Monomial) -> "Equation":
        """What follows from this and another equation without a product that both have."""
        ratio = self.made[product] / other.made[product]
        made = dict(self.made)
        for each, coefficient in other.made.items():
            made[each] = made.get(each, 0 * ratio) - ratio * coefficient
        kept = {each: coefficient for each, coefficient in made.items() if coefficient}
        return Equation(kept, self.laws | other.laws)


def combined(before: Sequence[Polynomial], new: Polynomial) -> list[SumForm]:
    """What follows from an equation with others: each is a sum of products that is zero."""
    last = Equation(new, frozenset([len(before)]))
    others = [Equation(made, frozenset([place])) for place, made in enumerate(before)]
    known = [*(each for each in others if each.atoms & last.atoms), last]
    found = _without_products(known)
    found += _without_quantities([*known, *found], last.laws)
    kept = [each for each in found if last.laws <= each.laws and each.made]
    return [SumForm(linear_of(factored(each.made)), True) for each in kept[:_MOST]]


def _without_products(known: list[Equation]) -> list[Equation]:
    """Equations without the products that several have: those that are left when each product was
    eliminated by the first that has it."""
    rest, found = list(known), []
    for product in dict.fromkeys(product for each in known for product in each.made):
        having = [each for each in rest if product in each.made]
        if sum(exponent for _, exponent in product) < 2 or len(having) < 2:
            continue
        rest = [each for each in rest if each not in having]
        rest += [each.less(having[0], product) for each in having[1:]]
        found = [each for each in rest if len(each.laws) > 1]
    return found


def _without_quantities(equations: Sequence[Equation], laws: frozenset[int]) -> Iterator[Equation]:
    """Equations without a quantity, each from two that have more in common, and from these laws
    with others."""
    for one, other in combinations(equations, 2):
        if not laws <= one.laws | other.laws or len(one.atoms & other.atoms) < 2:
            continue
        for product in one.made:
            if product in other.made and [exponent for _, exponent in product] == [1]:
                yield one.less(other, product)
