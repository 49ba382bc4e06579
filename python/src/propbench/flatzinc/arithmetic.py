"""Expressions of the workbench that FlatZinc's functions stand for, beyond those of Python.

MiniZinc rounds a quotient towards zero, the workbench down: where neither number can be below zero
that is the same.
"""

from collections.abc import Sequence
from typing import TypeVar

from propbench.flatzinc.terms import Numbers
from propbench.model.definedness import needs_of
from propbench.model.expressions import Number, Truth, count, if_else, implies, total
from propbench.model.nodes import FALSE, TRUE, Node, Op, all_of, any_of, less
from propbench.model.nodes import number as number_node
from propbench.model.ranges import range_of

YES, NO = Truth(TRUE), Truth(FALSE)
# Beyond so many values from zero on an exponent is too open to be gone through.
_MOST_POWERS = 64
NumberOrTruth = TypeVar("NumberOrTruth", Number, Truth)


def constant(value: int) -> Number:
    """A constant number."""
    return Number(number_node(value))


def every(truths: Sequence[Truth]) -> Truth:
    """That all of these hold."""
    return Truth(all_of(each.node for each in truths))


def some(truths: Sequence[Truth]) -> Truth:
    """That one of these holds; where all deny something, that not all of it holds, which takes
    fewer cells."""
    found = [denied(each.node) for each in truths]
    kept = [each for each in found if each is not None]
    if 1 < len(kept) == len(found):
        return ~Truth(all_of(kept))
    return Truth(any_of(each.node for each in truths))


def denied(truth: Node) -> Node | None:
    """What a truth denies, None where it doesn't: that a number is no more than another denies that
    the other is less, where both have a value everywhere."""
    if truth.op is Op.AT_MOST and needs_of(truth) is TRUE:
        return less(truth.args[1], truth.args[0])
    return truth.args[0] if truth.op is Op.NOT else None


def same_truth(first: Truth, second: Truth) -> Truth:
    """That both hold or neither."""
    for one, other in ((first, second), (second, first)):
        if one.node in (TRUE, FALSE):
            return other if one.node is TRUE else ~other
    return first == second


def weighted(factors: Sequence[int], numbers: Sequence[Number]) -> tuple[Number, Number, int]:
    """A sum of numbers by factors: what is added, what is taken away, and a constant."""
    added: dict[int, list[Number]] = {}
    fixed = 0
    for factor, number in zip(factors, numbers, strict=True):
        if number.node.op is Op.CONSTANT:
            fixed += factor * int(number.node.constant)
        elif factor:
            added.setdefault(factor, []).append(number)
    parts = [(factor, part) for factor, some in added.items() for part in _joined(some)]
    plus = [_times(factor, part) for factor, part in parts if factor > 0]
    minus = [_times(-factor, part) for factor, part in parts if factor < 0]
    return total(plus), total(minus), fixed


def _times(factor: int, number: Number) -> Number:
    return number if factor == 1 else number * factor


def _joined(numbers: Sequence[Number]) -> list[Number]:
    """These numbers, those that count truths as one count."""
    truths = [arg for each in numbers if each.node.op is Op.COUNT for arg in each.node.args]
    others = [each for each in numbers if each.node.op is not Op.COUNT]
    # (a truth that stands twice counts twice: so they are not joined)
    if len(set(truths)) < len(truths):
        return list(numbers)
    return [*others, *([count([Truth(arg) for arg in truths])] if truths else [])]


def sum_of(factors: Sequence[int], numbers: Sequence[Number], more: int) -> Number:
    """The sum of numbers by factors and one more number, as an expression."""
    plus, minus, fixed = weighted(factors, numbers)
    found = plus if minus.node.op is Op.CONSTANT else plus - minus
    return found + (fixed + more) if fixed + more else found


def sides_of(
    factors: Sequence[int], numbers: Sequence[Number], bound: int
) -> tuple[Number, Number]:
    """Two numbers that compare as a sum by factors does with a bound: nothing is taken away."""
    plus, minus, fixed = weighted(factors, numbers)
    bound -= fixed
    if minus.node.op is Op.CONSTANT:
        return plus, constant(bound)
    if plus.node.op is Op.CONSTANT:
        return constant(-bound), minus
    if bound == 0:
        return plus, minus
    return (plus, minus + bound) if bound > 0 else (plus + -bound, minus)


def within(number: Number, values: Numbers) -> Truth:
    """That a number is one of these."""
    if not values.ranges:
        return NO
    low, high = values.ranges[0][0], values.ranges[-1][1]
    least, most = range_of(number.node)
    ends = [number >= low] if least < low else []
    ends += [number <= high] if most > high else []
    return every(ends + [(number <= before) | (number >= behind) for before, behind in values.gaps])


def quotient(left: Number, right: Number) -> Number:
    """The quotient rounded towards zero."""
    if range_of(left.node)[0] >= 0 and range_of(right.node)[0] >= 0:
        return left // right
    found = abs(left) // abs(right)
    return if_else((left < 0) == (right < 0), found, -found)


def remainder(left: Number, right: Number) -> Number:
    """What the quotient rounded towards zero leaves: it has the sign of what is divided."""
    if range_of(left.node)[0] >= 0:
        return left % (right if range_of(right.node)[0] >= 0 else abs(right))
    found = abs(left) % abs(right)
    return if_else(left < 0, -found, found)


def power(base: Number, exponent: Number) -> tuple[Number, Truth] | None:
    """The base times itself, and what has to hold for that; None where that may be too often. Below
    zero it is 1 divided by the power, rounded towards zero."""
    low, high = range_of(exponent.node)
    first = max(low, 0)
    if high - first >= _MOST_POWERS:
        return None
    if high < 0:
        return _inverse(base, exponent), base != 0
    raised = picked(exponent, first, [base**each for each in range(first, high + 1)])
    if low >= 0:
        return raised, YES
    inverse = _inverse(base, exponent)
    return if_else(exponent < 0, inverse, raised), (base != 0) | (exponent >= 0)


def _inverse(base: Number, exponent: Number) -> Number:
    """1 divided by a power, rounded towards zero: of 1 and -1 it is such a number, else zero."""
    odd_power = if_else(exponent % 2 == 1, base, constant(1))
    return if_else((base == 1) | (base == -1), odd_power, constant(0))


def picked(index: Number, first: int, values: Sequence[NumberOrTruth]) -> NumberOrTruth:
    """Of these values, which are numbered from the first on, the one that the index says."""
    low, high = range_of(index.node)
    begin, end = max(low - first, 0), min(high - first + 1, len(values))
    kept = values[begin:end] if begin < end else values
    return _picked(index, first + begin if begin < end else first, kept)


def _picked(index: Number, first: int, values: Sequence[NumberOrTruth]) -> NumberOrTruth:
    if all(each.node is values[0].node for each in values):
        return values[0]
    half = len(values) // 2
    low, high = _picked(index, first, values[:half]), _picked(index, first + half, values[half:])
    if isinstance(low, Truth) and isinstance(high, Truth):
        test = index < first + half
        return (implies(test, low)) & (implies(~test, high))
    return if_else(index < first + half, low, high)
