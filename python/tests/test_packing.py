"""Plans that are packed over and over by hand: each keeps to what is shared, and none is shorter
than the shortest of all."""

import random
from itertools import product

import pytest

from propbench.planning.packing import Packing


def drawn(seed: int, count: int) -> Packing:
    """So many tasks of two resources."""
    draw = random.Random(seed)
    long = [draw.randint(0, 3) for _ in range(count)]
    before = [(i, j) for j in range(count) for i in range(j) if draw.random() < 0.2]
    holds = [draw.randint(1, 4) for _ in range(2)]
    uses = [
        {which: draw.randint(1, held) for which, held in enumerate(holds) if draw.random() < 0.7}
        for _ in long
    ]
    return Packing(long, before, holds, uses)


def fits(packing: Packing, starts: tuple[int, ...]) -> bool:
    """Whether a plan keeps to it all."""
    ends = [start + long for start, long in zip(starts, packing.long)]
    return all(ends[i] <= starts[j] for i, j in packing.before) and all(
        sum(uses.get(which, 0) for uses, a, b in zip(packing.uses, starts, ends) if a <= day < b)
        <= held
        for which, held in enumerate(packing.holds)
        for day in range(max(ends))
    )


@pytest.mark.parametrize("seed", range(12))
def test_it_fits_and_is_no_shorter_than_the_shortest(seed: int) -> None:
    packing = drawn(seed, 4)
    starts = packing.shortest()
    assert starts is not None and fits(packing, tuple(starts))
    last = packing.end(starts)
    least = min(
        packing.end(each) for each in product(range(last + 1), repeat=4) if fits(packing, each)
    )
    # (of so few tasks one of the orders has the shortest)
    assert packing.bound() <= least == last


@pytest.mark.parametrize("seed", range(4))
def test_it_is_no_longer_than_what_is_made_once(seed: int) -> None:
    packing = drawn(seed, 40)
    starts, once = packing.shortest(), packing.packed(packing.behind())
    assert starts is not None and once is not None and fits(packing, tuple(starts))
    assert packing.bound() <= packing.end(starts) <= packing.end(once)
    # (the same each time)
    assert packing.shortest() == starts


def test_what_waits_for_itself_has_no_plan() -> None:
    assert Packing([1, 1], [(0, 1), (1, 0)], [], [{}, {}]).shortest() is None
