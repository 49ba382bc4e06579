"""Pieces of curves hold at all reals: with steps so coarse that half of one is much."""

import math
from collections.abc import Callable, Iterator
from fractions import Fraction

import pytest

from propbench.measuring.bends import Bend, Piece
from propbench.measuring.curves import Curve, Exponential, Power, Segments, Tangent, Wave
from propbench.measuring.stating import declared
from propbench.model.measures import Measure

pytest.importorskip("mpmath")

HILL = Segments(tuple((Fraction(at), Fraction(to)) for at, to in ((0, 0), (10, 7), (20, 21))))
# A curve, what its argument and its values may be, the steps of both, and the same by floats.
BendCase = tuple[Curve, tuple[int, int], tuple[int, int], str, str, Callable[[float], float]]
CASES: list[BendCase] = [
    (Exponential(), (0, 3), (0, 30), "1/4", "1/3", math.exp),
    (Exponential(10), (-1, 1), (0, 20), "1/10", "1/2", lambda x: 10**x),
    (Power(Fraction(3, 2)), (0, 9), (0, 40), "1/2", "2", lambda x: float(max(x, 0) ** 1.5)),
    (Wave(False, 1, True), (90, 270), (-1, 1), "7", "1/10", lambda x: math.sin(math.radians(x))),
    (Wave(True, -1, False), (-3, 0), (-1, 1), "1/7", "1/20", math.cos),
    (Tangent(0, True), (-70, 80), (-9, 9), "3", "1/4", lambda x: math.tan(math.radians(x))),
    (HILL, (0, 20), (-5, 30), "1", "1", lambda x: 0.7 * x if x < 10 else 1.4 * x - 7),
]


def measure(step: str, ends: tuple[int, int]) -> Measure:
    """What a cell counts, in steps that are no finer."""
    size = Fraction(step)
    low, high = map(Fraction, ends)
    return Measure("1", Fraction(1), Fraction(0), size, size, low, high)


def pieces(bend: Bend) -> Iterator[Piece]:
    """Those that are told at first, and of other lengths."""
    low, high = bend.whole
    places = [*bend.first_places()]
    if not isinstance(bend.curve, Segments):
        places += [(first, last) for first in range(low, high) for last in range(first + 1, high)]
    for place in places:
        piece = bend.piece(place)
        if piece is not None:
            yield piece


def is_within(piece: Piece, argument: int, value: int) -> bool:
    """Whether what is told of a piece holds of what two cells hold."""
    lines = piece.lines
    cut = [
        min(max(number, low), high) - low
        for number, (low, high) in ((argument, piece.place), (value, piece.values))
    ]
    found = lines.of_value * cut[1] - lines.of_argument * cut[0]
    return lines.low <= found <= lines.high


@pytest.mark.parametrize("off", ["0", "3/2"])
@pytest.mark.parametrize("case", CASES)
def test_pieces_hold_at_all_reals(case: BendCase, off: str) -> None:
    curve, ends, values, step, value_step, plain = case
    of_argument, of_value = measure(step, ends), measure(value_step, values)
    far = Fraction(off) * of_value.step
    cells = declared("u", of_argument, None), declared("v", of_value, None)
    told = list(pieces(Bend(curve, *cells, far, "f(u)")))
    assert told
    reals = [ends[0] + (ends[1] - ends[0]) * place / 2000 for place in range(2001)]
    points = {
        (of_argument.count(Fraction(real)), of_value.count(Fraction(plain(real)) + error))
        for real in reals
        for error in (-far, far / 3, far)
    }
    wrong = [(it.place, point) for it in told for point in points if not is_within(it, *point)]
    assert wrong == []


def test_pieces_are_near_the_curve() -> None:
    """Lines are as far apart as a curve bends over a piece, and some steps."""
    cells = (
        declared("u", measure("1/100000", (0, 3)), None),
        declared("v", measure("1/100000", (0, 30)), None),
    )
    bend = Bend(Exponential(), *cells, Fraction(0), "exp(u)")
    piece = bend.piece((100_000, 150_000))
    assert piece is not None
    # (e^1.5 / 8 of a quarter)
    assert abs(float(piece.lines.width) / 100_000 - math.exp(1.5) / 32) < 1e-4
