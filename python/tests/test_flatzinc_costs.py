"""Bounds on what a goal costs, beside what all ways to choose cost."""

import random
from collections.abc import Iterator, Sequence
from itertools import permutations

import pytest

from propbench.flatzinc.costs import Priced, priced, with_costs
from propbench.flatzinc.grammar import read

SEEDS = range(60)


def costs_of(seed: int, wide: int) -> list[dict[int, int]]:
    """Costs of some numbers, each of which has most values."""
    drawn = random.Random(seed)
    count = drawn.randint(2, wide)
    return [
        {value: drawn.randint(-5, 30) for value in range(1, wide + 1) if drawn.random() < 0.9}
        for _ in range(count)
    ]


def tours(nodes: Sequence[int]) -> Iterator[list[int]]:
    """The next node of each, for all tours."""
    for order in permutations(nodes[1:]):
        way = [nodes[0], *order]
        following = dict(zip(way, [*way[1:], way[0]]))
        yield [following[node] for node in nodes]


def chosen(costs: Sequence[dict[int, int]], values: Sequence[int]) -> int | None:
    """What these values cost, None where one can't be."""
    if all(value in each for each, value in zip(costs, values)):
        return sum(each[value] for each, value in zip(costs, values))
    return None


def least_of(
    costs: Sequence[dict[int, int]], made: Priced, ways: Iterator[list[int]]
) -> int | None:
    """The least that any way costs, where none costs less than what is paid and left of it."""
    found = []
    for values in ways:
        cost, left = chosen(costs, values), chosen(made.left, values)
        if cost is not None:
            assert left is not None and made.paid + left <= made.scale * cost
            found.append(cost)
    assert all(it >= 0 for each in made.left for it in each.values())
    return min(found, default=None)


@pytest.mark.parametrize("seed", SEEDS)
def test_an_assignment_is_paid(seed: int) -> None:
    """What is paid always is what the cheapest assignment costs."""
    costs = costs_of(seed, 5)
    made = priced(costs)
    least = least_of(costs, made, map(list, permutations(range(1, 6), len(costs))))
    assert least is None or made.paid == least


@pytest.mark.parametrize("seed", SEEDS)
def test_a_tour_pays_no_more_than_the_shortest(seed: int) -> None:
    """No tour costs less than what is paid and left of it, and an assignment costs no more."""
    drawn = random.Random(seed)
    nodes = range(3, 3 + drawn.randint(3, 6))
    costs = [{to: drawn.randint(0, 40) for to in nodes if to != node} for node in nodes]
    made, loose = priced(costs, nodes), priced(costs)
    least = least_of(costs, made, tours(nodes))
    assert least is not None
    assert loose.paid * made.scale <= made.paid <= least * made.scale


@pytest.mark.parametrize("seed", SEEDS)
def test_what_ways_lack_is_no_cost(seed: int) -> None:
    """The same where some ways are not there, and others cost less the other way round."""
    drawn = random.Random(seed)
    nodes = range(1, 1 + drawn.randint(3, 6))
    costs = [
        {to: drawn.randint(-9, 20) for to in nodes if to != node and drawn.random() < 0.8}
        for node in nodes
    ]
    if all(costs):
        made = priced(costs, nodes)
        least = least_of(costs, made, tours(nodes))
        assert least is None or made.paid <= least * made.scale


TOWNS = """
var 1..4: a; var 1..4: b; var 1..4: c; var 1..4: d;
var 0..99: p; var 0..99: q; var 0..99: r; var 0..99: s; var 0..400: all;
constraint fzn_all_different_int([a, b, c, d]);
constraint propbench_tour([a, b, c, d], 1);
constraint array_int_element(a, [0, 1, 9, 9], p);
constraint array_int_element(b, [1, 0, 9, 9], q);
constraint array_int_element(c, [9, 9, 0, 1], r);
constraint array_int_element(d, [9, 9, 1, 0], s);
constraint int_lin_eq([1, 1, 1, 1, -1], [p, q, r, s, all], 0);
solve minimize all;
"""


def test_a_tour_leaves_each_half() -> None:
    """Of two pairs of towns that are far apart the way is gone twice: there and back."""
    made = with_costs(read(TOWNS))
    assert all(each.name != "propbench_tour" for each in made.constraints)
    [bound] = [each for each in made.constraints if each.name == "int_lin_le"]
    assert bound.args[2] == -20


def test_what_costs_the_least_by_each_alone_has_no_bound() -> None:
    """Where the cheapest values differ, nothing is added."""
    text = TOWNS.replace("[0, 1, 9, 9]", "[9, 0, 9, 9]").replace("[1, 0, 9, 9]", "[9, 9, 0, 9]")
    text = text.replace("[9, 9, 0, 1]", "[9, 9, 9, 0]").replace("[9, 9, 1, 0]", "[0, 9, 9, 9]")
    assert not any(each.name == "int_lin_le" for each in with_costs(read(text)).constraints)
