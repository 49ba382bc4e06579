"""Least sets that have something of each of some sets, the cheapest first: what is left to try.

What may be given up are the bits of whole numbers. Each set that is known to be in conflict has to
be hit; the cheapest way to do so is tried next, and either repairs all or brings a new conflict.
"""

import heapq
from collections.abc import Callable, Sequence
from itertools import count
from typing import NamedTuple

# What a set costs: its weight, and how many it has.
Cost = tuple[float, int]


def bits_of(mask: int) -> list[int]:
    """The bits of a set, the lowest first."""
    found = []
    while mask:
        low = mask & -mask
        found.append(low)
        mask ^= low
    return found


class _Node(NamedTuple):
    """A set so far and what it costs; what it does not take; how many of the finished sets it is
    known to have none of; and of so many conflicts those that it may miss."""

    hit: int
    spent: Cost
    out: int
    done: int
    missed: list[int]
    known: int


class Hitting:
    """The sets that hit all conflicts, each handed out once and only the least ones."""

    def __init__(self, weights: Sequence[float]) -> None:
        """Sets of the bits with these weights, which are not negative."""
        self._weight = {1 << place: weight for place, weight in enumerate(weights)}
        # What each bit weighs, where all weigh the same.
        self._each = weights[0] if len(set(weights)) == 1 else None
        self._conflicts: list[int] = []
        # The sets that are finished, all and by a bit that they have.
        self._done: list[int] = []
        self._done_with: dict[int, list[int]] = {bit: [] for bit in self._weight}
        self._order = count(0, -1)
        # What is to be looked at: the least cost, its number, and what it is.
        self._open: list[tuple[Cost, int, _Node]]
        self._open = [((0, 0), next(self._order), _Node(0, (0, 0), 0, 0, [], 0))]

    def learn(self, conflict: int) -> None:
        """Takes in a set that has to be hit."""
        self._conflicts.append(conflict)

    def finish(self, hit: int) -> None:
        """Takes in that nothing has to be looked at that has all of this set."""
        self._done.append(hit)
        for bit in bits_of(hit):
            self._done_with[bit].append(hit)

    @property
    def is_done(self) -> bool:
        """Whether there is no more to look at."""
        return not self._open

    def next(self, is_over: Callable[[], bool] = lambda: False) -> int | None:
        """The cheapest set that hits all, and has none of those that are finished; None where there
        is no more, or the time is over. It comes again until it is finished or another conflict is
        learned."""
        while self._open and not is_over():
            cost, order, node = heapq.heappop(self._open)
            if _has_one(node.hit, self._done[node.done :]):
                continue
            node = self._up_to_date(node)
            if not node.missed:
                heapq.heappush(self._open, (cost, order, node))
                return node.hit
            least = self._least(node.spent, node.missed)
            if least is None:
                continue
            if least > cost:
                heapq.heappush(self._open, (least, next(self._order), node))
                continue
            self._fork(node, cost)
        return None

    def _up_to_date(self, node: "_Node") -> "_Node":
        """The same, with what it misses of all that is learned, the smallest first."""
        hit, may = node.hit, ~node.out
        missed = [conflict & may for conflict in node.missed if not conflict & hit]
        new = self._conflicts[node.known :]
        missed += [conflict & may for conflict in new if not conflict & hit]
        missed.sort(key=int.bit_count)
        known = len(self._conflicts)
        return _Node(hit, node.spent, node.out, len(self._done), missed, known)

    def _fork(self, node: "_Node", least: Cost) -> None:
        """The ways to hit one more conflict: by its first bit, by the next and not the first, ..
        The first comes next, of those that cost as much."""
        children, out, (weight, number) = [], node.out, node.spent
        for bit in bits_of(node.missed[0]):
            more = node.hit | bit
            # (what is finished and not within the set has the bit, where it is within both)
            if not _has_one(more, self._done_with[bit]):
                cost = weight + self._weight[bit], number + 1
                children.append(_Node(more, cost, out, node.done, node.missed, node.known))
            out |= bit
        for child in reversed(children):
            heapq.heappush(self._open, (max(child.spent, least), next(self._order), child))

    def _least(self, spent: Cost, missed: Sequence[int]) -> Cost | None:
        """A cost below which these conflicts, the smallest first, can't be hit beside what is
        spent: that of some which have nothing in common. None where one of them can't be hit."""
        if not missed[0]:
            return None
        weight, number = spent
        seen = 0
        for conflict in missed:
            if not conflict & seen:
                seen |= conflict
                weight += self._cheapest(conflict)
                number += 1
        return weight, number

    def _cheapest(self, conflict: int) -> float:
        """What the cheapest bit of a set weighs."""
        if self._each is not None:
            return self._each
        return min(self._weight[bit] for bit in bits_of(conflict))


def _has_one(hit: int, sets: Sequence[int]) -> bool:
    """Whether all of one of the sets is in this one."""
    for each in sets:
        if each & hit == each:
            return True
    return False
