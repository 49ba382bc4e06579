"""Whole numbers that stand for reals, and how far apart the two may be.

A part is a whole number for a real in steps: their distance is at most its radius. That is a
number, or one that grows with other whole numbers, which are not negative: where a quantity may be
anything from 0 to 1000, a product of it is told no worse when it is 5.
"""

from collections.abc import Iterable
from dataclasses import dataclass
from fractions import Fraction
from math import ceil, floor, lcm

from propbench.measuring.bounds import Bounds
from propbench.model.expressions import Number, total
from propbench.model.measures import HALF
from propbench.model.nodes import Node, number
from propbench.model.ranges import uncut_range_of

# The largest whole number that a law is told by, the largest that is divided or a divisor, and the
# largest that is squared.
MOST_WHOLE, MOST_DIVIDED, MOST_FACTOR = 8 * 10**17, 10**17, 6 * 10**8
# What stands beside a radius in a constraint may be so large together with it.
MOST_BESIDE = 99 * 10**16
# A factor is rounded up that is less than this, and where it is told exactly, at most by the
# second.
_ROUGH, _EXACT = 60, 1000


@dataclass(frozen=True)
class Radius:
    """A number, and whole numbers that are not negative with what each counts."""

    constant: Fraction
    terms: tuple[tuple[Node, Fraction], ...] = ()

    @property
    def most(self) -> Fraction:
        """What it is at the most."""
        return self.constant + sum(factor * size_of(node) for node, factor in self.terms)

    def times(self, factor: Fraction) -> "Radius":
        """So many times as much."""
        terms = tuple((it, by * factor) for it, by in self.terms if factor)
        return Radius(self.constant * factor, terms)

    def plus(self, *others: "Radius") -> "Radius":
        """The sum."""
        constant, terms = self.constant, dict(self.terms)
        for other in others:
            constant += other.constant
            for node, factor in other.terms:
                terms[node] = terms.get(node, Fraction(0)) + factor
        return Radius(constant, tuple(terms.items()))

    def times_node(self, node: Node) -> "Radius":
        """As much for each of a whole number, which is not negative."""
        terms = [(node, self.constant)] if self.constant else []
        for each, factor in self.terms:
            if size_of(node) * size_of(each) <= MOST_WHOLE:
                terms.append(((Number(node) * Number(each)).node, factor))
            else:
                terms.append((node, factor * size_of(each)))
        return Radius(Fraction(0)).plus(*(Radius(Fraction(0), (term,)) for term in terms))


@dataclass(frozen=True)
class Part:
    """A whole number `node` with |node - real / step| <= radius, and the bounds of the real."""

    node: Node
    step: Fraction
    radius: Radius
    bounds: Bounds

    @property
    def most(self) -> Fraction:
        """How far the real may be from zero, in steps."""
        return max(abs(self.bounds[0]), abs(self.bounds[1])) / self.step

    @property
    def least(self) -> Fraction:
        """How far the real is from zero at least, in steps."""
        if self.bounds[0] <= 0 <= self.bounds[1]:
            return Fraction(0)
        return min(abs(self.bounds[0]), abs(self.bounds[1])) / self.step

    @property
    def size(self) -> int:
        """How far the whole number may be from zero."""
        return size_of(self.node)


def size_of(node: Node) -> int:
    """How far a whole number may be from zero."""
    low, high = uncut_range_of(node)
    return max(abs(low), abs(high))


def absolute(node: Node) -> Node:
    """How far a whole number is from zero."""
    low, high = uncut_range_of(node)
    if low >= 0:
        return node
    return (-Number(node) if high <= 0 else abs(Number(node))).node


def smaller(part: Part, most: int) -> Part:
    """The same in steps of a power of ten of its own, where it is larger than this otherwise."""
    divisor = 1
    while part.size > most * divisor:
        divisor *= 10
    return coarser(part, divisor)


def coarser(part: Part, divisor: int) -> Part:
    """The same in steps of so many of its own, rounded to the nearest."""
    if divisor == 1:
        return part
    if divisor > MOST_WHOLE:
        return Part(number(0), part.step * divisor, Radius(part.most / divisor), part.bounds)
    node = ((Number(part.node) + divisor // 2) // divisor).node
    radius = part.radius.times(Fraction(1, divisor)).plus(Radius(HALF))
    return Part(node, part.step * divisor, radius, part.bounds)


def fitted(one: Part, other: Part) -> tuple[Part, Part]:
    """Two parts, the larger made coarser until their product is small enough."""
    parts, divisors = [one, other], [1, 1]
    while parts[0].size * parts[1].size > MOST_FACTOR**2:
        place = 0 if parts[0].size >= parts[1].size else 1
        divisors[place] *= 10
        parts[place] = coarser((one, other)[place], divisors[place])
    return parts[0], parts[1]


def within(node: Node, radius: Radius, is_equation: bool) -> Node:
    """The constraint that a whole number is no farther from zero than the radius, or no farther
    above it, where it is no equation."""
    counts, terms = _whole(radius, size_of(node))
    if not terms:
        whole, most = Number(node), min(floor(radius.most), MOST_BESIDE)
        above = whole <= most
        return ((whole >= -most) & above if is_equation else above).node
    whole, most = Number(node) * counts, floor(radius.constant * counts)
    spread = total([Number(each) * factor for each, factor in terms])
    above = whole - spread <= most
    return ((whole + spread >= -most) & above if is_equation else above).node


def _whole(radius: Radius, size: int) -> tuple[int, list[tuple[Node, int]]]:
    """By what a whole number of this size has to be multiplied so that the factors of a radius are
    whole numbers, these rounded up by little; no factors where there is no room for them."""
    room = MOST_WHOLE // max(size, 1)
    if not radius.terms or radius.most >= MOST_WHOLE or not room:
        return 1, []
    counts = lcm(*(factor.denominator for _, factor in radius.terms))
    if counts > min(room, _EXACT):
        counts = min(room, ceil(_ROUGH / min(factor for _, factor in radius.terms)))
    terms = [_rounded_up(node, factor * counts) for node, factor in radius.terms]
    room_left = MOST_BESIDE - counts * size
    is_small = sum(factor * size_of(node) for node, factor in terms) <= room_left
    return (counts, terms) if is_small else (1, [])


def _rounded_up(node: Node, factor: Fraction) -> tuple[Node, int]:
    """At least so many times a whole number that is not negative, as whole numbers."""
    divisor = floor(1 / factor)
    if divisor < 2:
        return node, ceil(factor)
    if divisor > size_of(node):
        return number(1), 1
    return (Number(node) // divisor + 1).node, 1


def summed(summands: Iterable[tuple[Number, int]]) -> Node:
    """The sum of numbers times factors: what is added less what is taken away."""
    given = list(summands)
    added, taken = (
        total([each if abs(factor) == 1 else each * abs(factor) for each, factor in kept])
        for kept in (
            [each for each in given if each[1] > 0],
            [each for each in given if each[1] < 0],
        )
    )
    return (added - taken if any(factor < 0 for _, factor in given) else added).node
