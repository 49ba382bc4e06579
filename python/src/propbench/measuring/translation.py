"""Laws over real numbers as constraints over whole ones, so that no real solution is lost.

Each operation makes parts of parts (`parts`), and a law asks that the sum of its parts is no
farther from zero than all radii together. python/REALS.md has the proof of each rule.
"""

from collections.abc import Callable
from dataclasses import dataclass
from fractions import Fraction
from math import ceil, gcd, isqrt

from propbench.measuring.bounds import Bounds, BoundsOf, power, product
from propbench.measuring.linear import Linear, linear_of
from propbench.measuring.parts import (
    MOST_DIVIDED,
    MOST_FACTOR,
    MOST_WHOLE,
    Part,
    Radius,
    absolute,
    coarser,
    fitted,
    smaller,
    summed,
    within,
)
from propbench.measuring.terms import Real, RealSort, text_of
from propbench.model.expressions import Number, maximum, minimum
from propbench.model.measures import HALF
from propbench.model.nodes import Node, cell, number

# A part that has more steps than this may be made coarser in a sum; a quotient has as many as make
# its radius this.
_FINE, _SMALL = 10**9, 30
# A part of a sum may be made coarser by ten whose steps are so small a part of how far another is
# off.
_FINER = 50
# A radius grows with a number that may be so many times as large as it is at least.
_WIDE = 16


class TooCoarse(ValueError):
    """Steps are too coarse for a law to be told at all."""


@dataclass(frozen=True)
class LawInSteps:
    """A law, or a form of it, as whole numbers: `node` lies within `radius` of zero, or not above
    it, where it is a bound. `step` is what they count."""

    node: Node
    radius: Radius
    step: Fraction
    is_equation: bool

    @property
    def constraint(self) -> Node:
        """The constraint that says so."""
        return within(self.node, self.radius, self.is_equation)


class Translator:
    """Makes parts of terms. `hidden` gives the quantity that stands for a root or a function within
    a term."""

    def __init__(self, bounds: BoundsOf, hidden: Callable[[Real], Real]) -> None:
        self.bounds = bounds
        self._hidden = hidden
        self._atoms: dict[Real, Part] = {}

    def told(self, form: Linear, is_equation: bool) -> LawInSteps:
        """The law that a sum is zero, or at most zero. Raises NoBound and TooCoarse."""
        whole = self._sum(form, MOST_WHOLE)
        ends = [product(self.bounds(atom), (each, each)) for atom, each in form.terms]
        largest = max((abs(end) for pair in ends for end in pair), default=Fraction(0))
        if form.terms and whole.radius.constant * whole.step >= largest + abs(form.constant):
            raise TooCoarse("the steps are too coarse for the law to tell anything")
        return LawInSteps(whole.node, whole.radius, whole.step, is_equation)

    def part(self, real: Real) -> Part:
        """The part of a term, small enough to be multiplied."""
        return self._sum(linear_of(real), MOST_FACTOR)

    def _atom(self, atom: Real) -> Part:
        if atom not in self._atoms:
            self._atoms[atom] = self._made(atom)
        return self._atoms[atom]

    def _made(self, atom: Real) -> Part:
        if atom.sort is RealSort.QUANTITY:
            measure = atom.quantity.measure
            assert measure is not None
            bounds = measure.low, measure.high
            return Part(cell(atom.quantity), measure.step, Radius(HALF), bounds)
        bounds = self.bounds(atom)
        if _is_known(atom):
            return _known(bounds)
        if atom.sort in (RealSort.ROOT, RealSort.FUNCTION):
            return self._atom(self._hidden(atom))
        if atom.sort is RealSort.QUOTIENT:
            above = self._sum(linear_of(atom.args[0]), MOST_DIVIDED)
            below = self._sum(linear_of(atom.args[1]), self._most_of_divisor(atom.args[1]))
            return divided(above, below, bounds, text_of(atom))
        if atom.sort is RealSort.PRODUCT:
            one, other = (self._sum(linear_of(arg), MOST_DIVIDED) for arg in atom.args)
            return multiplied(*fitted(one, other), bounds)
        parts = [self.part(arg) for arg in atom.args]
        if atom.sort is RealSort.POWER:
            return self._powered(atom, parts[0])
        if atom.sort is RealSort.ABSOLUTE:
            [inner] = parts
            return Part(absolute(inner.node), inner.step, inner.radius, bounds)
        return extreme(atom.sort, parts, bounds)

    def _most_of_divisor(self, divisor: Real) -> int:
        """How large a divisor is at the most: the fewer steps it has, the more there is room for in
        the quotient, and where it may be small, it needs enough for that."""
        low, high = sorted(abs(end) for end in self.bounds(divisor))
        return min(MOST_DIVIDED, MOST_FACTOR * max(1, isqrt(ceil(high / low))))

    def _powered(self, atom: Real, base: Part) -> Part:
        """A power: the square of half of it, and times the base where it is odd."""
        exponent = int(atom.number)
        made, reached = base, 1
        for digit in f"{exponent:b}"[1:]:
            small = smaller(made, MOST_FACTOR)
            made = multiplied(small, small, power(base.bounds, 2 * reached))
            reached *= 2
            if digit == "1":
                reached += 1
                made = multiplied(*fitted(made, base), power(base.bounds, reached))
        return made

    def _sum(self, form: Linear, most: int) -> Part:
        """The part of a sum of atoms, so small at the most."""
        if form.is_constant:
            return _constant(form.constant)
        parts = [(self._atom(atom), coefficient) for atom, coefficient in form.terms]
        step, parts = _common_step(parts, form.constant)
        low = high = form.constant
        rest = round(form.constant / step)
        radius = Radius(abs(form.constant / step - rest))
        summands: list[tuple[Number, int]] = []
        for part, coefficient in parts:
            exact = coefficient * part.step / step
            factor = round(exact)
            summands.append((Number(part.node), factor))
            off = _times_size(Radius(abs(exact - factor)), part)
            times = max(abs(exact), Fraction(abs(factor)))
            radius = radius.plus(part.radius.times(times), off)
            ends = product(part.bounds, (coefficient, coefficient))
            low, high = low + ends[0], high + ends[1]
        node = summed([*summands, (Number(number(1)), rest)])
        return smaller(Part(node, step, radius, (low, high)), most)


def multiplied(one: Part, other: Part, bounds: Bounds) -> Part:
    """The product: with x and y rounded by at most r and s, xy is off by |x|s + |y|r + rs."""
    radius = _times_size(other.radius, one).plus(_times_size(one.radius, other))
    radius = radius.plus(Radius(one.radius.most * other.radius.most))
    node = one.node if other.node is number(1) else (Number(one.node) * Number(other.node)).node
    return Part(node, one.step * other.step, radius, bounds)


def _times_size(radius: Radius, part: Part) -> Radius:
    """A radius times how far a part is from zero, which it grows with where that may be much more
    than it is at least."""
    if part.most <= _WIDE * part.least:
        return radius.times(part.most)
    return radius.times_node(absolute(part.node))


def divided(above: Part, below: Part, bounds: Bounds, text: str) -> Part:
    """The quotient, of as many digits as it has: ten to some power times the one, divided by the
    other and rounded down."""
    off = below.radius.most
    least = below.least - off
    if least < 4 * off or least < 1:
        raise TooCoarse(f"`{text}` can't be told: its divisor has too few steps where it is least")
    ratio = max(abs(end) for end in bounds) * below.step / above.step
    is_wide = below.most > _WIDE * below.least
    # (Where the divisor is wide, there are as many digits as there is room for.)
    spread = Fraction(0) if is_wide else (above.radius.most + ratio * off) / least
    factor = 1
    while (
        factor * 10 * max(Fraction(above.size), 2 * above.radius.most) <= MOST_WHOLE
        and factor * 10 * ratio <= MOST_DIVIDED
        and factor * spread <= _SMALL
    ):
        factor *= 10
    node = (Number(above.node) * factor // Number(below.node)).node
    radius = Radius(1 + factor * spread)
    if is_wide:
        radius = Radius(Fraction(1)).plus(_spread(above, below, node, factor, least))
    return Part(node, above.step / below.step / factor, radius, bounds)


def _spread(above: Part, below: Part, quotient: Node, factor: int, least: Fraction) -> Radius:
    """How far a quotient is off by a divisor that may be small or large: it grows with the quotient
    divided by the divisor again."""
    most = ceil(2 * factor * above.radius.most)
    times = ceil(2 * below.radius.most)
    spread = (Number(absolute(quotient)) + 1) * times + most
    found = (spread // Number(absolute(below.node)) + 1).node
    share = least / (least + below.radius.most)
    return Radius(Fraction(0), ((found, 1 / (2 * share)),))


def extreme(sort: RealSort, parts: list[Part], bounds: Bounds) -> Part:
    """The greatest or the least, in steps that all have in common."""
    step, same = _common_step([(part, Fraction(1)) for part in parts], Fraction(0))
    numbers, radii = [], []
    for part, _ in same:
        exact = part.step / step
        factor = round(exact)
        numbers.append(Number(part.node) * factor)
        off = _times_size(Radius(abs(exact - factor)), part)
        radii.append(part.radius.times(max(exact, Fraction(factor))).plus(off))
    found = maximum(numbers) if sort is RealSort.GREATEST else minimum(numbers)
    # (No farther than the farthest of them; where that can't be told, than all together.)
    if any(radius.terms for radius in radii):
        radius = radii[0].plus(*radii[1:])
    else:
        radius = max(radii, key=lambda each: each.constant)
    return smaller(Part(found.node, step, radius, bounds), MOST_FACTOR)


def _is_known(atom: Real) -> bool:
    """Whether no quantity stands in a term, so that it is one number, which no fraction need be."""
    return atom.sort is not RealSort.QUANTITY and all(map(_is_known, atom.args))


def _known(bounds: Bounds) -> Part:
    """One number that lies between these: one step of its own size, almost."""
    middle = (bounds[0] + bounds[1]) / 2
    if not middle:
        return Part(number(0), Fraction(1), Radius(bounds[1]), bounds)
    off = (bounds[1] - bounds[0]) / 2 / abs(middle)
    return Part(number(1 if middle > 0 else -1), abs(middle), Radius(off), bounds)


def _constant(value: Fraction) -> Part:
    """A constant: so many steps of its own size."""
    sign = (value > 0) - (value < 0)
    return Part(number(sign), abs(value) or Fraction(1), Radius(Fraction(0)), (value, value))


def _common_step(
    parts: list[tuple[Part, Fraction]], more: Fraction
) -> tuple[Fraction, list[tuple[Part, Fraction]]]:
    """A step for a sum of parts with coefficients and of a constant, and the parts, the finest made
    coarser until the whole numbers are small enough to be exact, as long as they have enough steps
    for that; else a step of which they are no multiples."""
    divisors, made = [1 for _ in parts], list(parts)
    while True:
        step = _divisor_of([coefficient * part.step for part, coefficient in made])
        exact = _divisor_of([step, more]) if more else step
        size = sum(abs(coefficient) * part.step * part.size for part, coefficient in made)
        size += abs(more)
        for each in (exact, step):
            if size <= MOST_WHOLE * each:
                return each, made
        # (what is told much finer than another part is needs no more steps)
        off = max(abs(coefficient) * part.step * part.radius.most for part, coefficient in made)
        enough = off / _FINER
        fine = [
            place
            for place, (part, coefficient) in enumerate(made)
            if part.size > _FINE or abs(coefficient) * part.step <= enough
        ]
        if not fine:
            return size / MOST_WHOLE, made
        place = min(fine, key=lambda at: abs(made[at][1]) * made[at][0].step)
        divisors[place] *= 10
        made[place] = (coarser(parts[place][0], divisors[place]), parts[place][1])


def _divisor_of(numbers: list[Fraction]) -> Fraction:
    """The greatest number that all are whole multiples of."""
    found = Fraction(0)
    for each in numbers:
        above = gcd(found.numerator * each.denominator, each.numerator * found.denominator)
        found = Fraction(above, found.denominator * each.denominator)
    return found
