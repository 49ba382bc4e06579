"""A curve between two quantities, told by pieces: over each of them it lies between two lines.

Of a piece both quantities are cut off at its ends, so what is told of it holds wherever they are:
pieces can be halved, and told beside those that are there. python/REALS.md has the proof.
"""

from collections.abc import Iterator
from dataclasses import dataclass
from fractions import Fraction
from functools import lru_cache
from math import ceil, floor

from propbench.measuring.curves import Curve, Segments
from propbench.measuring.enclosing import EnclosingEnds
from propbench.measuring.shapes import clipped, range_of
from propbench.model.expressions import Number, maximum, minimum
from propbench.model.measures import HALF, Measure
from propbench.model.nodes import TRUE, Declared, Node, cell

# Both products of a piece may be so large.
_MOST = 4 * 10**17
# At first a curve is told by so many pieces.
_FIRST = 8
# More than what pi, rounded, adds at a turn of a sine.
_TINY = Fraction(1, 10**60)

# So many values of curves are kept.
_KEPT = 1000

# The first and the last number of the argument's cell in a piece.
PiecePlace = tuple[int, int]


@lru_cache(_KEPT)
def _value_at(curve: Curve, at: Fraction) -> EnclosingEnds:
    """The value of a curve, which is kept for a while: a piece ends where the next one begins."""
    return curve.value(at)


@dataclass(frozen=True)
class Bend:
    """What the cell of a value is, by a curve of what the cell of an argument is: so far off at the
    most, in base units."""

    curve: Curve
    argument: Declared
    value: Declared
    off: Fraction
    written: str

    @property
    def whole(self) -> PiecePlace:
        """The numbers of the argument's cell that lie in the curve's domain."""
        measure = self._measures[0]
        low, high = (clipped(self.curve, end) for end in (measure.low, measure.high))
        return ceil(low / measure.step), floor(high / measure.step)

    @property
    def _measures(self) -> tuple[Measure, Measure]:
        argument, value = self.argument.measure, self.value.measure
        assert argument is not None and value is not None
        return argument, value

    def first_places(self) -> Iterator[PiecePlace]:
        """The pieces by which it is told at first: those between its points, where it has some."""
        low, high = self.whole
        if isinstance(self.curve, Segments):
            step = self._measures[0].step
            ends = [at / step for at, _ in self.curve.points]
            for first, last in zip(ends, ends[1:]):
                place = max(ceil(first), low), min(floor(last), high)
                if place[0] < place[1]:
                    yield place
            return
        cuts = sorted({low + (high - low) * each // _FIRST for each in range(_FIRST + 1)})
        yield from zip(cuts, cuts[1:])

    def guess(self, value: int) -> int:
        """About what the argument's cell holds where the value's cell holds this."""
        argument, measure = self._measures
        low, high = range_of(self.curve, (argument.low, argument.high))
        found = self.curve.guess(min(max(value * measure.step, low), high))
        return round(found / argument.step)

    def piece(self, place: PiecePlace) -> "Piece | None":
        """What is told of a piece; None where the curve rises or falls by less than a step."""
        ends = self._value(place[0]), self._value(place[1])
        lowest, highest = ends if self.curve.rises else (ends[1], ends[0])
        low, high = ceil(lowest[1]), floor(highest[0])
        if low >= high or place[0] >= place[1]:
            return None
        if high - low > _MOST:
            return Piece(self, place, (low, high), PieceLines(1, 0, 0, high - low))
        length = place[1] - place[0]
        slope = (ends[1][0] + ends[1][1] - ends[0][0] - ends[0][1]) / 2 / length
        of_value = max(1, min(_MOST // (high - low), floor(_MOST / abs(slope) / length)))
        of_argument = round(slope * of_value)
        below, above = self._between(place, ends, Fraction(of_argument, of_value))
        # (what cutting off a value adds, half a step of its cell, and of the argument's)
        off = HALF + (self.off + _TINY) / self._measures[1].step
        more = abs(of_argument) * HALF
        below = of_value * (below - (highest[1] - high) - off) - more
        above = of_value * (above + (low - lowest[0]) + off) + more
        shift = of_argument * place[0] - of_value * low
        # (no more is told than what cutting off leaves anyway)
        least = max(floor(below) + shift, min(0, -of_argument * length))
        most = min(ceil(above) + shift, of_value * (high - low) + max(0, -of_argument * length))
        return Piece(self, place, (low, high), PieceLines(of_value, of_argument, least, most))

    def _value(self, at: int) -> EnclosingEnds:
        """Between what the value lies where the argument's cell is a number, in steps."""
        argument, value = self._measures
        low, high = _value_at(self.curve, at * argument.step)
        return low / value.step, high / value.step

    def _between(
        self, place: PiecePlace, ends: tuple[EnclosingEnds, EnclosingEnds], slope: Fraction
    ) -> EnclosingEnds:
        """Between what the value less a line through zero lies, in steps, over a piece: by how far
        the curve bends from the line through its ends, or by the ends alone."""
        first, last = place
        lines = slope * first, slope * last
        below = min(end[0] for end in ends) - max(lines)
        above = max(end[1] for end in ends) - min(lines)
        argument, value = self._measures
        bend = self.curve.bend(first * argument.step, last * argument.step)
        if bend is None:
            return below, above
        scale = argument.step**2 / value.step * (last - first) ** 2 / 8
        rests = [(end[0] - line, end[1] - line) for end, line in zip(ends, lines)]
        return (
            max(below, min(low for low, _ in rests) - max(bend[1], Fraction(0)) * scale),
            min(above, max(high for _, high in rests) + max(-bend[0], Fraction(0)) * scale),
        )


@dataclass(frozen=True)
class PieceLines:
    """So many times what a value is above the least of a piece, less so many times what its
    argument is above the first, lies between these."""

    of_value: int
    of_argument: int
    low: int
    high: int

    @property
    def width(self) -> Fraction:
        """How far the lines are from each other, in steps of the value."""
        return Fraction(self.high - self.low, self.of_value)


@dataclass(frozen=True)
class Piece:
    """A piece of a bend: where its argument is, between what its values are, and two lines."""

    bend: Bend
    place: PiecePlace
    values: PiecePlace
    lines: PieceLines

    @property
    def constraint(self) -> Node:
        """What is told of it."""
        value = _cut_off(self.bend.value, self.values) * self.lines.of_value
        if not self.lines.of_argument:
            return TRUE
        argument = _cut_off(self.bend.argument, self.place) * abs(self.lines.of_argument)
        found = value - argument if self.lines.of_argument > 0 else value + argument
        return ((found >= self.lines.low) & (found <= self.lines.high)).node


def _cut_off(declared: Declared, place: PiecePlace) -> Number:
    """How far a cell's number is above the first of some, 0 below that, and no farther than the
    last."""
    made, (low, high) = Number(cell(declared)), place
    if declared.low is None or declared.low < low:
        made = maximum(made, low)
    if declared.high is None or declared.high > high:
        made = minimum(made, high)
    return made - low if low else made
