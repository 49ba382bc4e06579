"""Numbers that are no less than others and a number more, as most constraints of a plan say it.

Such a bound is worked out in a moment, without a look at each part of an expression.
"""

from collections.abc import Iterable, Mapping
from dataclasses import dataclass

from propbench.model.harmless import is_harmless
from propbench.model.nodes import Declared, Node, Op

# Which argument is no more than which, and by how much less.
ORDERS = {
    Op.LESS: (0, 1, 1),
    Op.AT_MOST: (0, 1, 0),
    Op.GREATER: (1, 0, 1),
    Op.AT_LEAST: (1, 0, 0),
}


@dataclass(frozen=True)
class Bound:
    """A number is no less than others together, but for some that keep their values, and `more`."""

    of: Declared
    others: tuple[Declared, ...]
    without: tuple[Declared, ...]
    more: int

    def least(self, at: Mapping[Declared, int]) -> int:
        """The least that the number may be where the others are these."""
        found = self.more
        for cell in self.others:
            found += at[cell]
        for cell in self.without:
            found -= at[cell]
        return found

    def holds(self, at: Mapping[Declared, int]) -> bool:
        """Whether it holds of these numbers."""
        # (as `least` does, which is asked for very often here)
        found = self.more
        for cell in self.others:
            found += at[cell]
        for cell in self.without:
            found -= at[cell]
        return found <= at[self.of]


def first_held(bounds: Iterable[Bound], at: Mapping[Declared, int]) -> Bound | None:
    """The first of some bounds that holds of these numbers."""
    for bound in bounds:
        if bound.holds(at):
            return bound
    return None


def orders_of(truth: Node) -> tuple[Bound, ...] | None:
    """Bounds of which one has to hold where a truth does, which does then; None where it is no such
    truth, or a number in it may lie beyond 10^18."""
    if not is_harmless(truth):
        return None
    found: list[Bound] = []
    for each in truth.args if truth.op is Op.OR else (truth,):
        if each.op not in ORDERS:
            return None
        first, second, gap = ORDERS[each.op]
        bounds = bounds_of(each.args[first], each.args[second], gap)
        if not bounds:
            return None
        found += bounds
    return tuple(found)


def bounds_of(left: Node, right: Node, gap: int) -> tuple[Bound, ...] | None:
    """The bound of one number being no more than another less a gap, none where it bounds nothing
    from below; None where a cell counts more than once, or they are no sums of cells."""
    high, low = _linear(right), _linear(left)
    if high is None or low is None:
        return None
    times = {cell: high[0].get(cell, 0) - low[0].get(cell, 0) for cell in high[0] | low[0]}
    if any(abs(each) > 1 for each in times.values()):
        return None
    above = [cell for cell, each in times.items() if each > 0]
    below = tuple(cell for cell, each in times.items() if each < 0)
    if not above:
        return ()
    return (Bound(above[0], below, tuple(above[1:]), gap + low[1] - high[1]),)


def _linear(number: Node) -> tuple[dict[Declared, int], int] | None:
    """A number as cells, each so many times, and a constant; None where it is no such sum."""
    if number.op is Op.CONSTANT:
        return {}, int(number.constant)
    if number.op is Op.CELL:
        cell = number.declared
        is_single = cell.low is not None and cell.low == cell.high
        return ({}, cell.low or 0) if is_single else ({cell: 1}, 0)
    if number.op not in (Op.SUM, Op.DIFFERENCE, Op.NEGATIVE):
        return None
    times, total = dict[Declared, int](), 0
    for place, arg in enumerate(number.args):
        sign = -1 if number.op is Op.NEGATIVE or (number.op is Op.DIFFERENCE and place) else 1
        part = _linear(arg)
        if part is None:
            return None
        total += sign * part[1]
        for cell, each in part[0].items():
            times[cell] = times.get(cell, 0) + sign * each
    return times, total
