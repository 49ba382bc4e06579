"""Finds what fits by trying, with nothing of the workbench: what answers of examples are held
to."""

from collections.abc import Callable, Iterable, Iterator, Mapping, Sequence
from dataclasses import dataclass
from itertools import combinations
from typing import Any

Values = dict[str, Any]
Names = frozenset[str]


@dataclass(frozen=True)
class Rule:
    """What has to hold of the values of some names. `may` is asked, where it is there, of the
    values that are known as long as some aren't."""

    names: Sequence[str]
    test: Callable[..., object]
    may: Callable[[list[Any]], object] | None = None

    def allows(self, values: Mapping[str, Any]) -> bool:
        """Whether nothing speaks against these values."""
        known = [values[name] for name in self.names if name in values]
        if len(known) == len(self.names):
            return bool(self.test(*known))
        return self.may is None or bool(self.may(known))


def differing(names: Iterable[str]) -> list[Rule]:
    """That no two of these have the same value."""
    return [Rule(pair, lambda one, other: one != other) for pair in combinations(names, 2)]


def solutions(rooms: Mapping[str, Sequence[Any]], rules: Iterable[Rule]) -> Iterator[Values]:
    """All that fits: the name of which the fewest values are left is given one after another."""
    of: dict[str, list[Rule]] = {name: [] for name in rooms}
    for rule in rules:
        for name in rule.names:
            of[name].append(rule)

    def left(name: str, values: Values) -> list[Any]:
        return [
            value
            for value in rooms[name]
            if all(rule.allows({**values, name: value}) for rule in of[name])
        ]

    def search(values: Values) -> Iterator[Values]:
        open_ones = {name: left(name, values) for name in rooms if name not in values}
        if not open_ones:
            yield values
            return
        name = min(open_ones, key=lambda each: len(open_ones[each]))
        for value in open_ones[name]:
            yield from search({**values, name: value})

    return search({})


def fits(rooms: Mapping[str, Sequence[Any]], rules: Iterable[Rule]) -> bool:
    """Whether anything does."""
    return next(solutions(rooms, rules), None) is not None


def subsets(names: Iterable[str]) -> list[Names]:
    """All subsets, the small ones first."""
    every = list(names)
    return [frozenset(some) for size in range(len(every) + 1) for some in combinations(every, size)]


def least(sets: Iterable[Names]) -> set[Names]:
    """Those in which no other lies, of sets of which the small ones come first."""
    found: set[Names] = set()
    for each in sets:
        if not any(other <= each for other in found):
            found.add(each)
    return found


def conflicts_and_repairs(
    premises: Iterable[str], fit: Callable[[Names], bool]
) -> tuple[set[Names], set[Names]]:
    """The minimal sets of premises that can't all hold, and the least to give up so that the others
    can, by asking of every set whether it fits."""
    names = frozenset(premises)
    fitting = {some: fit(some) for some in subsets(names)}
    conflicts = least(some for some in fitting if not fitting[some])
    return conflicts, least(some for some in fitting if fitting[names - some])
