"""What random laws are held to: intervals beside 80 digits, and columns beside one point at a
time."""

import random
from collections.abc import Callable
from fractions import Fraction
from typing import Any

import pytest

pytest.importorskip("mpmath")
pytest.importorskip("numpy")

from many_points import ManyPoints, Unable
from mpmath import MPContext
from propbench import Workbench
from propbench.measuring.shapes import Function, FunctionName
from propbench.model.events import Required
from propbench.model.meaning import Beyond
from real_functions import Unfit, stated_case
from real_intervals import applied, between, count_of, ends_of, on_lines, powered, root

EXACT = MPContext()
EXACT.dps = 80
TINY = Fraction(1, 10**50)
# Each function, its arguments, and the same by mpmath's numbers.
FUNCTIONS: dict[FunctionName, tuple[tuple[Fraction | int, Fraction | int], Callable[..., Any]]] = {
    FunctionName.EXP: ((-6, 6), EXACT.exp),
    FunctionName.EXP10: ((-3, 3), lambda x: EXACT.power(10, x)),
    FunctionName.LN: ((Fraction(1, 1000), 1000), EXACT.ln),
    FunctionName.LOG10: ((Fraction(1, 1000), 1000), EXACT.log10),
    FunctionName.SIN: ((-400, 400), EXACT.sin),
    FunctionName.COS: ((-400, 400), EXACT.cos),
    FunctionName.TAN: ((Fraction(-3, 2), Fraction(3, 2)), EXACT.tan),
    FunctionName.ASIN: ((-1, 1), EXACT.asin),
    FunctionName.ACOS: ((-1, 1), EXACT.acos),
    FunctionName.ATAN: ((-20, 20), EXACT.atan),
}
OF_ANGLES = (FunctionName.SIN, FunctionName.COS, FunctionName.TAN)


def number(exact: Fraction) -> Any:
    return EXACT.mpf(exact.numerator) / exact.denominator


def is_held(found: Any, wanted: Any) -> bool:
    """Whether an interval holds a number of 80 digits, and little more."""
    low, high = ends_of(found)
    return bool(number(low) <= wanted <= number(high)) and high - low < TINY * max(
        Fraction(1), abs(high)
    )


@pytest.mark.parametrize("name", FUNCTIONS)
def test_intervals_hold_the_functions(name: FunctionName) -> None:
    draw, ((low, high), plain) = random.Random(1), FUNCTIONS[name]
    shares = [
        Fraction(0),
        Fraction(1),
        *(Fraction(draw.getrandbits(60), 2**60) for _ in range(20)),
    ]
    for at in (low + (high - low) * share for share in shares):
        assert is_held(applied(Function(name), at), plain(number(at))), at
        if name in OF_ANGLES:
            degrees = Function(name, in_degrees=True)
            assert is_held(applied(degrees, at), plain(number(at) * EXACT.pi / 180)), at


def test_roots_powers_and_lines() -> None:
    assert is_held(root(Fraction(2)), EXACT.sqrt(2)) and ends_of(root(Fraction(0))) == (
        Fraction(0),
        Fraction(0),
    )
    for exponent in (Fraction(2, 3), Fraction(-1, 5), Fraction(7, 2)):
        assert is_held(powered(Fraction(5), exponent), EXACT.power(5, number(exponent)))
    assert powered(Fraction(5), Fraction(-2)) == Fraction(1, 25)
    points = ((Fraction(0), Fraction(1)), (Fraction(2), Fraction(5)), (Fraction(3), Fraction(-1)))
    assert [on_lines(points, Fraction(at)) for at in "-1 0 1 2 5/2 3 9".split()] == [
        *(1, 1, 3, 5, 2, -1, -1)
    ]
    low, high = ends_of(on_lines(points, between(Fraction("1.5"), Fraction("2.5"))))
    assert low <= 2 and 5 <= high < 5 + TINY


def test_columns_say_what_each_point_does() -> None:
    """Constraints of random laws at random numbers, most of which don't fit them."""
    false = looked = 0
    for seed in range(12):
        draw = random.Random(seed)
        with Workbench() as w:
            try:
                stated_case(w, draw)
            except (Unfit, ValueError):
                continue
            ends = {
                it: (it.low, it.high)
                for it in w.network.cells.values()
                if it.measure is not None and it.low is not None and it.high is not None
            }
            columns = {it: [draw.randint(*each) for _ in range(20)] for it, each in ends.items()}
            many = ManyPoints(columns)
            for told in (it for it in w.network.events if isinstance(it, Required)):
                try:
                    places = many.where_false(told.constraint)
                except Unable:
                    continue
                for at in range(20):
                    point = {cell: numbers[at] for cell, numbers in columns.items()}
                    try:
                        is_met = told.is_met(point)
                    except Beyond:
                        continue
                    assert is_met is (at not in places), (seed, told.text, at)
                    looked, false = looked + 1, false + (at in places)
    assert looked > 1000 and looked / 10 < false < looked


def test_a_cell_counts_the_nearest_step() -> None:
    with Workbench() as w:
        measure = w.measured("x", unit="m", low=0, high=9, step="0.1").measure
        step = measure.step
        for real in (Fraction(3, 7), Fraction(5), Fraction(1, 3)):
            wanted = round(real / step)
            assert count_of(measure, real) == count_of(measure, between(real, real)) == wanted
