"""Expressions whose cells tell nothing of the cells that they are made of.

Whatever values the cells have, such an expression has one too, and so has all that its lines make:
no quotient's divisor is needed, and nothing lies beyond 10^18. So its lines may stand always, and
only what is stated of it has to be told under a premise.
"""

from weakref import WeakKeyDictionary

from propbench.model.kinds import Plain
from propbench.model.nodes import Node, Op
from propbench.model.ranges import range_of, uncut_range_of
from propbench.words import MOST_NUMBER

_found: "WeakKeyDictionary[Node, bool]" = WeakKeyDictionary()


def is_harmless(each: Node) -> bool:
    """Whether the expression is one of these, by what its cells were declared as."""
    found = _found.get(each)
    if found is None:
        found = _found[each] = _is_small(each) and all(map(is_harmless, each.args))
    return found


def _is_small(each: Node) -> bool:
    """Whether an operation and what its lines need lies within 10^18."""
    if each.kind is not Plain.NUMBER or each.op in (Op.CELL, Op.CONSTANT):
        return True
    low, high = uncut_range_of(each)
    if each.op in (Op.QUOTIENT, Op.REMAINDER):
        # (the quotient times the divisor lies so far from zero at the most)
        return sum(_farthest(arg) for arg in each.args) <= MOST_NUMBER
    if each.op is Op.SUM:
        return sum(map(_farthest, each.args)) <= MOST_NUMBER
    return -MOST_NUMBER <= low and high <= MOST_NUMBER


def _farthest(each: Node) -> int:
    low, high = range_of(each)
    return max(abs(low), abs(high))
