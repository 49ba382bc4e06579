"""What is decided first where one or another has to hold: against all points, and in a trial."""

from itertools import product

import pytest

from propbench import Workbench
from propbench.model.either import Either
from propbench.model.expressions import Number, Truth
from propbench.questions.clock import Clock
from propbench.questions.searching import decided
from propbench.questions.trial import Trial

ENDS = {"x": (0, 10), "y": (3, 7)}


def distance(low: int, high: int, by: int) -> int:
    """The most by which the first and so much may lie below the second, of all points."""
    ends = {0: ENDS["x"], 1: ENDS["y"]}
    points = product(*(range(ends[at][0], ends[at][1] + 1) for at in (low, high)))
    return int(max(second - first - by for first, second in points))


@pytest.mark.parametrize("by", [0, 2, 9])
def test_room_is_how_far_apart_numbers_may_be(program: str, by: int) -> None:
    with Workbench(program) as w:
        x, y = w.number("x", 0, 100), w.number("y", 0, 100)
        above: list[Truth] = [x + by < y, x + by <= y, y > x + by, y >= x + by]
        below: list[Truth] = [y + by < x, y + by <= x, x > y + by, x >= y + by]
        wanted = distance(0, 1, by), distance(1, 0, by)
        for one, other in zip(above, below):
            assert Either(one.node, (other.node,)).rooms(ENDS) == wanted
            assert Either(other.node, (one.node,)).rooms(ENDS) == wanted[::-1]
        # Of several others that counts which leaves the most.
        more = (below[0].node, (x + 1 <= Number(y.node)).node)
        assert Either(above[0].node, more).rooms(ENDS) == (wanted[0], max(wanted[1], 6))
        assert Either((x == y).node, (above[0].node,)).rooms(ENDS) is None
        assert Either(above[0].node, ()).rooms(ENDS) is None


def test_what_leaves_little_room_is_decided_first(program: str) -> None:
    with Workbench(program) as w:
        x, y, z = (w.number(name, 0, 100) for name in "xyz")
        t = w.truth("t")
        w.require((x == y) | t)
        w.require((x + 10 <= y) | (y + 20 <= x))
        w.require((x + 90 <= z) | (z + 60 <= x))
        loose, wide, narrow = w.model.forks()
        ends = {name: (0, 100) for name in "xyz"}
        rooms = w.model.rooms_by([loose, wide, narrow], ends)
        assert rooms == {wide: (90, 80), narrow: (10, 40)}
        with Trial(w.model, [], Clock(60, None)) as trial:
            decided(trial, [])
            made = trial.choices[:2]
        assert made == [(narrow, "no or yes"), (wide, "yes or no")]
