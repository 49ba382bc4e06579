"""Where an expression has a value: everywhere, but where it divides by zero.

What it needs is a truth of its own, told as nodes, so that it can be stated or negated as any
other.
"""

from weakref import WeakKeyDictionary

from propbench.model.kinds import Plain
from propbench.model.nodes import (
    TRUE,
    ZERO,
    Node,
    Op,
    all_of,
    any_of,
    equal,
    negated,
)
from propbench.model.ranges import range_of

_found: "WeakKeyDictionary[Node, Node]" = WeakKeyDictionary()


def has_value(each: Node) -> Node:
    """The truth that the expression has a value."""
    found = _found.get(each)
    if found is None:
        found = _found[each] = _has_value(each)
    return found


def nonzero(divisor: Node) -> Node:
    """The truth that a divisor is not zero: plain where it can't be, by what was declared."""
    low, high = range_of(divisor)
    return TRUE if low > 0 or high < 0 else negated(equal(divisor, ZERO))


def needs_of(comparison: Node) -> Node:
    """The truth that all that is compared has a value."""
    return all_of(has_value(arg) for arg in comparison.args)


def _has_value(each: Node) -> Node:
    # (a truth has a value always: a comparison over what has none is false)
    if each.kind is Plain.TRUTH:
        return TRUE
    needs = [has_value(arg) for arg in each.args]
    if each.op is Op.IF:
        test, first, second = each.args
        if needs[1] is TRUE and needs[2] is TRUE:
            return TRUE
        return all_of([any_of([negated(test), needs[1]]), any_of([test, needs[2]])])
    if each.op in (Op.QUOTIENT, Op.REMAINDER):
        needs.append(nonzero(each.args[1]))
    return all_of(needs)
