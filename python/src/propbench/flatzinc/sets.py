"""What constraints on sets say: a set is the truths that tell which elements it has.

Sets are in order as MiniZinc has it: as the lists of their elements, the least first.
"""

from collections.abc import Iterable, Mapping, Sequence
from dataclasses import dataclass

from propbench.flatzinc.arithmetic import (
    NO,
    YES,
    constant,
    every,
    picked,
    same_truth,
    some,
    within,
)
from propbench.flatzinc.terms import Numbers
from propbench.model.expressions import Number, Truth, count


@dataclass(frozen=True)
class Members:
    """A set: for each element that it may have, the truth that it has it."""

    truths: Mapping[int, Truth]

    @staticmethod
    def of(values: Numbers) -> "Members":
        """A constant set."""
        return Members({each: YES for each in values.each()})

    def has(self, element: int) -> Truth:
        """That this is an element."""
        return self.truths.get(element, NO)


def elements_of(sets: Iterable[Members]) -> list[int]:
    """What may be an element of some of these, in order."""
    return sorted({element for each in sets for element in each.truths})


def has_number(members: Members, number: Number) -> Truth:
    """That a number, which may be any, is an element."""
    is_one = [every([number == element, held]) for element, held in members.truths.items()]
    return some(is_one)


def size(members: Members) -> Number:
    """How many elements a set has."""
    held = list(members.truths.values())
    always = sum(each.node is YES.node for each in held)
    open_ones = [each for each in held if each.node not in (YES.node, NO.node)]
    if not open_ones:
        return constant(always)
    return count(open_ones) + always if always else count(open_ones)


def is_same(one: Members, other: Members) -> Truth:
    """That two sets are the same."""
    return every([same_truth(one.has(each), other.has(each)) for each in elements_of((one, other))])


def is_within(one: Members, other: Members) -> Truth:
    """That each element of one is one of the other."""
    return every([some([~held, other.has(each)]) for each, held in one.truths.items()])


def both(one: Members, other: Members) -> Members:
    """What is in both."""
    return Members({e: every([held, other.has(e)]) for e, held in one.truths.items()})


def either(one: Members, other: Members) -> Members:
    """What is in one or the other."""
    return Members({e: some([one.has(e), other.has(e)]) for e in elements_of((one, other))})


def without(one: Members, other: Members) -> Members:
    """What is in the first, and not in the other."""
    return Members({e: every([held, ~other.has(e)]) for e, held in one.truths.items()})


def one_alone(one: Members, other: Members) -> Members:
    """What is in one of them alone."""
    return Members({e: same_truth(one.has(e), ~other.has(e)) for e in elements_of((one, other))})


def picked_set(index: Number, sets: Sequence[Members]) -> Members:
    """Of these sets, which are numbered from 1, the one that the index says."""
    return Members({e: picked(index, 1, [each.has(e) for each in sets]) for e in elements_of(sets)})


def constant_at(index: Number, sets: Sequence[Members]) -> Members:
    """The same of constant sets: an element is there at the places of the sets that have it."""
    return Members(
        {element: within(index, places_of(element, sets)) for element in elements_of(sets)}
    )


def places_of(element: int, sets: Sequence[Members]) -> Numbers:
    """At which places the sets stand that have an element always, from 1 on."""
    return Numbers.of(n for n, each in enumerate(sets, 1) if each.has(element).node is YES.node)


def is_less(one: Members, other: Members) -> Truth:
    """That the first comes before the other."""
    found = _compared(one, other)
    # (where nothing follows in the other, that is the shorter, and where nothing follows in the
    # first, it is that)
    return some([found.is_less, found.is_less_at_end])


def is_at_most(one: Members, other: Members) -> Truth:
    """That the first comes before the other, or is the same."""
    found = _compared(one, other)
    return some([found.is_less, found.is_less_at_end, found.is_same])


@dataclass(frozen=True)
class _Part:
    """How two sets compare by some elements behind one another: the first that one of them alone
    has tells it. Where that is in the first set, it is less if the other goes on behind it, else if
    it doesn't go on itself."""

    is_same: Truth
    is_less: Truth
    is_less_if_other: Truth
    is_less_at_end: Truth
    first_goes_on: Truth
    other_goes_on: Truth

    def then(self, behind: "_Part") -> "_Part":
        """The same of these elements with others behind them."""
        ends = ~behind.first_goes_on
        return _Part(
            every([self.is_same, behind.is_same]),
            some(
                [
                    self.is_less,
                    every([self.is_less_if_other, behind.other_goes_on]),
                    every([self.is_same, behind.is_less]),
                ]
            ),
            some(
                [
                    every([self.is_less_if_other, ~behind.other_goes_on]),
                    every([self.is_same, behind.is_less_if_other]),
                ]
            ),
            some(
                [
                    every([self.is_less_at_end, ends]),
                    every([self.is_same, behind.is_less_at_end]),
                ]
            ),
            some([self.first_goes_on, behind.first_goes_on]),
            some([self.other_goes_on, behind.other_goes_on]),
        )


def _compared(one: Members, other: Members) -> _Part:
    parts = [_at(one.has(each), other.has(each)) for each in elements_of((one, other))]
    if not parts:
        return _Part(YES, NO, NO, NO, NO, NO)
    while len(parts) > 1:
        pairs = [parts[place : place + 2] for place in range(0, len(parts), 2)]
        parts = [pair[0].then(pair[1]) if len(pair) == 2 else pair[0] for pair in pairs]
    return parts[0]


def _at(one: Truth, other: Truth) -> _Part:
    """How two sets compare by one element."""
    alone, other_alone = every([one, ~other]), every([~one, other])
    return _Part(same_truth(one, other), NO, alone, other_alone, one, other)
