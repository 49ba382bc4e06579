"""Curves: functions that rise throughout, or fall, on a domain, as a branch of a sine does.

Of each are known values between fractions, how far it bends, and where it has a value: that is all
which laws need of a function. python/REALS.md says how.
"""

from bisect import bisect_right
from dataclasses import dataclass
from fractions import Fraction
from typing import Protocol

from propbench.measuring.enclosing import (
    EnclosingEnds,
    MpContext,
    MpNumber,
    enclosed,
    guessed,
    pi_ends,
)

# Where a curve has a value, None where that has no end.
ArgumentEnds = tuple[Fraction | None, Fraction | None]
CurvePoints = tuple[tuple[Fraction, Fraction], ...]
ZERO, HALF = Fraction(0), Fraction(1, 2)
# What is taken of an exponential is so much at the most.
MOST_EXPONENT = 400
# How far a guess is off at first, as a part of it, and how much farther with each try.
_OFF, _FARTHER, _TRIES = Fraction(1, 2**160), 2**12, 12


class Curve(Protocol):
    """A function that rises or falls throughout its domain; equal ones are the same."""

    def __hash__(self) -> int:
        ...

    @property
    def rises(self) -> bool:
        """Whether it rises; else it falls."""
        ...

    @property
    def domain(self) -> ArgumentEnds:
        """Ends within which it surely rises or falls, None where there is no end."""
        ...

    @property
    def reach(self) -> ArgumentEnds:
        """The same ends, beyond which its argument surely doesn't lie."""
        ...

    def value(self, at: Fraction) -> EnclosingEnds:
        """Between what its value lies there."""
        ...

    def bend(self, low: Fraction, high: Fraction) -> EnclosingEnds | None:
        """Between what its second derivative lies from one to the other; None where that has no
        end."""
        ...

    def guess(self, value: Fraction) -> Fraction:
        """About where it has a value."""
        ...


def inverse(curve: Curve, value: Fraction) -> EnclosingEnds:
    """Between what that lies of which a curve has this value."""
    near = curve.guess(value)
    off = max(abs(near), Fraction(1)) * _OFF
    low, high = curve.domain
    first, last = curve.reach
    found_low = found_high = None
    for _ in range(_TRIES):
        below, above = near - off, near + off
        if found_low is None:
            if low is not None and below <= low:
                found_low = first
            elif _is_past(curve, below, value, curve.rises):
                found_low = below
        if found_high is None:
            if high is not None and above >= high:
                found_high = last
            elif _is_past(curve, above, value, not curve.rises):
                found_high = above
        off *= _FARTHER
    if found_low is None or found_high is None:
        raise ValueError(f"no number is found of which the value is {float(value):.6g}")
    return found_low, found_high


def _is_past(curve: Curve, at: Fraction, value: Fraction, is_less: bool) -> bool:
    """Whether the value at a number is surely no more than another, or no less."""
    low, high = curve.value(at)
    return high <= value if is_less else low >= value


@dataclass(frozen=True)
class Exponential:
    """A number to the power of the argument: e where it is None."""

    base: int | None = None
    rises: bool = True
    domain: ArgumentEnds = (None, None)
    reach: ArgumentEnds = (None, None)

    def value(self, at: Fraction) -> EnclosingEnds:
        # (so little that no digits tell it apart from nothing)
        if at < -MOST_EXPONENT:
            return ZERO, Exponential(self.base).value(Fraction(-MOST_EXPONENT))[1]
        return enclosed(self._of, at, at)

    def bend(self, low: Fraction, high: Fraction) -> EnclosingEnds | None:
        factor = enclosed(lambda its, x: its.log(x) ** 2, *(Fraction(self.base or 1),) * 2)
        least, most = factor if self.base else (Fraction(1), Fraction(1))
        return self.value(low)[0] * least, self.value(high)[1] * most

    def guess(self, value: Fraction) -> Fraction:
        if value <= 0:
            return Fraction(-MOST_EXPONENT)
        return guessed(lambda its, x: its.ln(x) / (its.ln(self.base) if self.base else 1), value)

    def _of(self, its: MpContext, x: MpNumber) -> MpNumber:
        return its.exp(x * its.log(its.mpf(self.base)) if self.base else x)


@dataclass(frozen=True)
class Power:
    """The argument, which is not negative, to a power that is more than 0."""

    exponent: Fraction
    rises: bool = True
    domain: ArgumentEnds = (ZERO, None)
    reach: ArgumentEnds = (ZERO, None)

    def value(self, at: Fraction) -> EnclosingEnds:
        return enclosed(self._of, at, at) if at > 0 else (ZERO, ZERO)

    def bend(self, low: Fraction, high: Fraction) -> EnclosingEnds | None:
        if low <= 0:
            return None
        factor, exponent = self.exponent * (self.exponent - 1), self.exponent - 2
        ends = [end for at in (low, high) for end in Power(exponent).value(at)]
        products = [factor * min(ends), factor * max(ends)]
        return min(products), max(products)

    def guess(self, value: Fraction) -> Fraction:
        if value <= 0:
            return ZERO
        above, below = self.exponent.denominator, self.exponent.numerator
        return guessed(lambda its, x: its.power(x, its.mpf(above) / below), value)

    def _of(self, its: MpContext, x: MpNumber) -> MpNumber:
        exponent = its.mpf(self.exponent.numerator) / self.exponent.denominator
        return its.exp(its.log(x) * exponent)


@dataclass(frozen=True)
class Wave:
    """A sine or cosine from one of its extremes to the next, the `branch`th; of degrees, or of
    radians."""

    is_cosine: bool
    branch: int
    in_degrees: bool

    @property
    def rises(self) -> bool:
        return (self.branch % 2 == 0) is not self.is_cosine

    @property
    def domain(self) -> ArgumentEnds:
        return inward(self._first, self._first + 1, self.in_degrees)

    @property
    def reach(self) -> ArgumentEnds:
        return outward(self._first, self._first + 1, self.in_degrees)

    @property
    def _first(self) -> Fraction:
        """At how many half turns it begins."""
        return self.branch - (ZERO if self.is_cosine else HALF)

    def value(self, at: Fraction) -> EnclosingEnds:
        return enclosed(self._of, at, at)

    def bend(self, low: Fraction, high: Fraction) -> EnclosingEnds | None:
        return enclosed(lambda its, x: -self._of(its, x) * self._scale(its) ** 2, low, high)

    def guess(self, value: Fraction) -> Fraction:
        return guessed(self._inverse, min(max(value, Fraction(-1)), Fraction(1)))

    def _of(self, its: MpContext, x: MpNumber) -> MpNumber:
        angle = x * self._scale(its)
        return its.cos(angle) if self.is_cosine else its.sin(angle)

    def _scale(self, its: MpContext) -> MpNumber:
        return its.pi / 180 if self.in_degrees else its.mpf(1)

    def _inverse(self, its: MpContext, value: MpNumber) -> MpNumber:
        principal = its.acos(value) if self.is_cosine else its.asin(value)
        if self.branch % 2:
            principal = its.pi - principal if self.is_cosine else -principal
        return (principal + self.branch * its.pi) / self._scale(its)


@dataclass(frozen=True)
class Tangent:
    """A tangent from one pole to the next, the `branch`th; of degrees, or of radians."""

    branch: int
    in_degrees: bool
    rises: bool = True

    @property
    def domain(self) -> ArgumentEnds:
        return inward(self.branch - HALF, self.branch + HALF, self.in_degrees)

    @property
    def reach(self) -> ArgumentEnds:
        return outward(self.branch - HALF, self.branch + HALF, self.in_degrees)

    def value(self, at: Fraction) -> EnclosingEnds:
        return enclosed(lambda its, x: self._of(its, x), at, at)

    def bend(self, low: Fraction, high: Fraction) -> EnclosingEnds | None:
        return enclosed(self._bent, low, high)

    def guess(self, value: Fraction) -> Fraction:
        return guessed(
            lambda its, x: (its.atan(x) + self.branch * its.pi) / self._scale(its), value
        )

    def _of(self, its: MpContext, x: MpNumber) -> MpNumber:
        angle = x * self._scale(its)
        return its.sin(angle) / its.cos(angle)

    def _bent(self, its: MpContext, x: MpNumber) -> MpNumber:
        tangent = self._of(its, x)
        return 2 * tangent * (1 + tangent**2) * self._scale(its) ** 2

    def _scale(self, its: MpContext) -> MpNumber:
        return its.pi / 180 if self.in_degrees else its.mpf(1)


@dataclass(frozen=True)
class Segments:
    """Points with straight lines between them, each of them higher than the last, or lower."""

    points: CurvePoints

    # (that of all points takes a while, and is asked for often)
    def __hash__(self) -> int:
        return hash((self.points[0], self.points[-1], len(self.points)))

    @property
    def rises(self) -> bool:
        return self.points[0][1] < self.points[-1][1]

    @property
    def domain(self) -> ArgumentEnds:
        return self.points[0][0], self.points[-1][0]

    @property
    def reach(self) -> ArgumentEnds:
        return self.domain

    def value(self, at: Fraction) -> EnclosingEnds:
        found = between(self.points, at)
        return found, found

    def bend(self, low: Fraction, high: Fraction) -> EnclosingEnds | None:
        first, last = (bisect_right(self.points, at, key=lambda it: it[0]) for at in (low, high))
        is_line = first == last or first == last - 1 and self.points[first][0] == high
        return (ZERO, ZERO) if is_line else None

    def guess(self, value: Fraction) -> Fraction:
        return between(tuple(sorted((height, at) for at, height in self.points)), value)


def between(points: CurvePoints, at: Fraction) -> Fraction:
    """The value on the line between the two points that are next to a number."""
    place = bisect_right(points, at, key=lambda point: point[0])
    place = min(max(place, 1), len(points) - 1)
    (low, first), (high, last) = points[place - 1], points[place]
    return first + (last - first) * (at - low) / (high - low)


def half_turn(in_degrees: bool) -> EnclosingEnds:
    """Between what half a turn lies."""
    return (Fraction(180), Fraction(180)) if in_degrees else pi_ends()


def inward(first: Fraction, last: Fraction, in_degrees: bool) -> tuple[Fraction, Fraction]:
    """From and to so many half turns, rounded inward."""
    ends = half_turn(in_degrees)
    return max(first * end for end in ends), min(last * end for end in ends)


def outward(first: Fraction, last: Fraction, in_degrees: bool) -> tuple[Fraction, Fraction]:
    """From and to so many half turns, rounded outward."""
    ends = half_turn(in_degrees)
    return min(first * end for end in ends), max(last * end for end in ends)
