"""What a tour pays at least, by how far apart its nodes are.

Nodes are joined where the way between them costs no more than some height: the parts that come of
it are left by a tour, each of them, so that it takes as many ways that are higher. What is lower of
each way is thus paid at each height once for each part, and is taken off from the ways. Prices that
nodes are given beside their ways, and that a tour gets back, bring the parts to leave more.
"""

from collections.abc import Sequence
from dataclasses import dataclass

# Costs are counted in so many parts of one, as prices are no whole numbers.
SCALE = 10
# How often prices are bettered, by what at first, and what is left of that each time.
_ROUNDS, _STEP, _LESS = 150, 8.0, 0.97
_FAR = 10**15


@dataclass(frozen=True)
class _Tree:
    """The cheapest tree that joins all nodes: its ways, the parts that each node has in it, and the
    highest way between any two nodes."""

    ways: list[float]
    degrees: list[int]
    heights: list[list[float]]

    @property
    def paid(self) -> float:
        """What a tour pays at least: at each height once for each part, of which there is one more
        than ways of the tree that are higher."""
        return sum(self.ways) + max(self.ways)


def apart(
    nodes: Sequence[int], costs: Sequence[dict[int, int]]
) -> tuple[int, list[dict[int, int]]] | None:
    """What is always paid, and what is left of each way, both by the SCALE; None where there are
    nodes that no way joins.

    >>> ways = [{2: 1, 3: 9}, {1: 1, 3: 9}, {1: 9, 2: 9}]
    >>> apart([1, 2, 3], ways)[0]
    190
    """
    place = {node: at for at, node in enumerate(nodes)}
    near = [[float(_FAR)] * len(nodes) for _ in nodes]
    for at, each in enumerate(costs):
        for value, cost in each.items():
            other = place[value]
            near[at][other] = near[other][at] = min(near[at][other], float(SCALE * cost))
    if max(_tree(near, [0.0] * len(nodes)).ways) >= _FAR:
        return None
    prices = [float(round(it)) for it in _prices(near)]
    tree = _tree(near, prices)
    paid = round(tree.paid - 2 * sum(prices))
    left = [
        {
            value: SCALE * cost
            + round(prices[at] + prices[place[value]] - tree.heights[at][place[value]])
            for value, cost in each.items()
        }
        for at, each in enumerate(costs)
    ]
    return paid, left


def _prices(near: Sequence[Sequence[float]]) -> list[float]:
    """Prices of nodes by which much is paid: those that have many ways in the tree get dearer."""
    prices, step = [0.0] * len(near), _STEP * SCALE
    best, found = float("-inf"), prices
    for _ in range(_ROUNDS):
        tree = _tree(near, prices)
        if tree.paid - 2 * sum(prices) > best:
            best, found = tree.paid - 2 * sum(prices), prices
        prices = [it + step * (degree - 2) for it, degree in zip(prices, tree.degrees)]
        step *= _LESS
    return found


def _tree(near: Sequence[Sequence[float]], prices: Sequence[float]) -> _Tree:
    """The cheapest tree by ways and prices, from the first node on."""
    count = len(near)
    heights = [[0.0] * count for _ in range(count)]
    ways, degrees, joined = list[float](), [0] * count, [0]
    from_tree = [near[0][at] + prices[0] + prices[at] for at in range(count)]
    before, out = [0] * count, set(range(1, count))
    while out:
        new = min(out, key=from_tree.__getitem__)
        out.remove(new)
        way, old = from_tree[new], before[new]
        ways.append(way)
        degrees[new] += 1
        degrees[old] += 1
        for at in joined:
            heights[new][at] = heights[at][new] = max(heights[old][at], way)
        heights[new][old] = heights[old][new] = way
        joined.append(new)
        for at in out:
            cost = near[new][at] + prices[new] + prices[at]
            if cost < from_tree[at]:
                from_tree[at], before[at] = cost, new
    return _Tree(ways, degrees, heights)
