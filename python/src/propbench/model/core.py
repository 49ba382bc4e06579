"""Expressions in fewer operations: what each stands for, among those that have lines of their own.

A comparison stands for what it needs to have a value, and the comparison alone (`RAW`). So the
negation of `x // y < 3` holds where y is zero, and `x // y >= 3` doesn't.
"""

from collections.abc import Callable
from itertools import combinations

from propbench.model.definedness import needs_of
from propbench.model.kinds import Plain, domain_of
from propbench.model.meaning import holds
from propbench.model.nodes import (
    COMPARISONS,
    FALSE,
    TRUE,
    ZERO,
    Node,
    Op,
    all_of,
    any_of,
    equal,
    less,
    negated,
    node,
)


def in_core(each: Node) -> Node:
    """What the expression stands for; itself where it has lines of its own."""
    while True:
        if each.op in COMPARISONS:
            each = all_of([needs_of(each), alone(each)])
        elif each.op in _REWRITES:
            core = _REWRITES[each.op](each)
            if core is each:
                return each
            each = core
        else:
            return each


def alone(comparison: Node) -> Node:
    """A comparison of what has a value, by `<`, `==` and negation."""
    args = comparison.args
    if comparison.op in _BY_LESS:
        left, right, is_negated = _BY_LESS[comparison.op]
        found = raw(less(args[left], args[right]))
        return negated(found) if is_negated else found
    if comparison.op is Op.UNEQUAL:
        return negated(raw(equal(*args)))
    return raw(comparison)


def different(each: Node) -> Node:
    """The truth that any two of those that are to be all different differ."""
    return all_of(negated(raw(equal(left, right))) for left, right in combinations(each.args, 2))


def rows_of(pair: Node) -> Node:
    """A pair of a relation, by which elements stand with each element of the first."""
    first, second = pair.args
    groups: dict[tuple[str, ...], list[str]] = {}
    for element in domain_of(first.kind).elements:
        others = domain_of(second.kind).elements
        row = tuple(other for other in others if (element, other) in pair.entries)
        groups.setdefault(row, []).append(element)
    return any_of(
        all_of([among(first, tuple(elements)), among(second, row)])
        for row, elements in groups.items()
        if row
    )


def among(each: Node, elements: tuple[str, ...]) -> Node:
    """The truth that the expression is one of these elements."""
    domain = domain_of(each.kind)
    kept = tuple(element for element in domain.elements if element in elements)
    if not kept or len(kept) == len(domain.elements):
        return TRUE if kept else FALSE
    return node(Op.AMONG, (each,), kept)


def raw(comparison: Node) -> Node:
    """A core comparison alone; a constant where it is plain."""
    first, *others = comparison.args
    if comparison.op in (Op.LESS, Op.EQUAL):
        if first is others[0]:
            return TRUE if comparison.op is Op.EQUAL else FALSE
        if first.op is Op.CONSTANT and others[0].op is Op.CONSTANT:
            return TRUE if holds(comparison, {}) else FALSE
    return node(Op.RAW, (comparison,))


def _truth_if(each: Node) -> Node:
    test, first, second = each.args
    return all_of([any_of([negated(test), first]), any_of([test, second])])


# Which argument is less than which, and whether that is negated.
_BY_LESS = {
    Op.LESS: (0, 1, False),
    Op.GREATER: (1, 0, False),
    Op.AT_MOST: (1, 0, True),
    Op.AT_LEAST: (0, 1, True),
}
_REWRITES: dict[Op, Callable[[Node], Node]] = {
    Op.NEGATIVE: lambda each: node(Op.DIFFERENCE, (ZERO, each.args[0])),
    Op.XOR: lambda each: negated(raw(equal(*each.args))),
    Op.IMPLIES: lambda each: any_of([negated(each.args[0]), each.args[1]]),
    Op.IF: lambda each: _truth_if(each) if each.kind is Plain.TRUTH else each,
}
