"""What fits of what stands, by trying all points: plain Python, and nothing of the workbench.

Cells that bear on each other are tried together. Where these are too many points it isn't known
what fits. Of quantities some reals are tried: if one fits that is so, if none does that says
nothing.
"""

from collections.abc import Callable, Iterable, Iterator, Mapping, Sequence
from dataclasses import dataclass
from itertools import islice
from operator import itemgetter
from typing import Any

from modelling import LATER, TABLE, Points, Recipe, names_in
from standing import Chosen, Made, Standing, Values, is_range

# So many points are kept at the most, and so many values tried of a cell that nothing else gives.
_MOST, _WIDEST = 4000, 40

Meaning = Callable[[Points], Any]
_FUNCTIONS: dict[str, Callable[[list[Any]], Any]] = {
    "sum": sum,
    "total": sum,
    "difference": lambda it: it[0] - it[1],
    "product": lambda it: it[0] * it[1],
    "maximum": max,
    "minimum": min,
    "absolute": lambda it: abs(it[0]),
    "table": lambda it: TABLE[it[0]],
    "less": lambda it: it[0] < it[1],
    "at most": lambda it: it[0] <= it[1],
    "at least": lambda it: it[0] >= it[1],
    "equal": lambda it: it[0] == it[1],
    "unequal": lambda it: it[0] != it[1],
    "different": lambda it: len(set(it)) == len(it),
    "later": lambda it: tuple(it) in LATER,
    "early": lambda it: it[0] in ("mon", "tue"),
    "not": lambda it: not it[0],
    "and": all,
    "or": any,
    "xor": lambda it: it[0] != it[1],
    "implies": lambda it: not it[0] or it[1],
    "if": lambda it: it[1] if it[0] else it[2],
    # (of laws: what is left and right of them)
    "is": lambda it: it[0] == it[1],
    "is no more than": lambda it: it[0] <= it[1],
    "is the root of": lambda it: it[0] >= 0 and it[0] * it[0] == it[1],
    "is the part": lambda it: it[0] * it[2] == it[1],
}


def meaning(recipe: Recipe) -> Meaning:
    """What a recipe means at points."""
    name, *args = recipe
    if name == "cell":
        return itemgetter(args[0])
    if name == "constant":
        return lambda at: args[0]
    if name == "told":
        (_, of), values = args
        if is_range(values):
            return lambda at: values[0] <= at[of] <= values[1]
        return lambda at: at[of] in values
    if name == "law":
        name, *args = args
    parts, function = [meaning(arg) for arg in args], _FUNCTIONS[name]
    return lambda at: function([part(at) for part in parts])


@dataclass(frozen=True)
class Rule:
    """What has to hold of some cells."""

    names: frozenset[str]
    holds: Meaning


@dataclass(frozen=True)
class Part:
    """Cells that bear on each other, and all points that fit, None where these are too many; of
    quantities some."""

    cells: dict[str, Made]
    points: list[dict[str, Any]] | None

    @property
    def is_sampled(self) -> bool:
        """Whether other points may fit."""
        return any(each.is_measured for each in self.cells.values())


class Tried:
    """What fits where some premises are believed."""

    def __init__(self, standing: Standing, believed: Iterable[str]) -> None:
        recipes = standing.said(believed)
        self.choices = {
            each.name: [_all_hold(recipes) for _, recipes in each.sides]
            for each in standing.choices
        }
        self._names = {each.name: _names_of(each) for each in standing.choices}
        rules = [Rule(frozenset(names_in(it)), meaning(it)) for it in recipes if it[0] != "told"]
        rules += [Rule(self._names[name], _one_holds(it)) for name, it in self.choices.items()]
        rooms = _rooms(standing.cells, recipes)
        defined = _defined(recipes, standing.choices)
        self._can_be = all(rule.holds({}) for rule in rules if not rule.names)
        self.parts = []
        for names in _apart(standing.cells, rules):
            mine = [rule for rule in rules if rule.names and rule.names <= names]
            points = _points({it: rooms[it] for it in names}, mine, defined)
            cells = {it: standing.cells[it] for it in names}
            self.parts.append(Part(cells, points if self._can_be else []))

    @property
    def fits(self) -> bool | None:
        """Whether any points fit; None where that isn't known."""
        if not self._can_be:
            return False
        if any(part.points == [] and not part.is_sampled for part in self.parts):
            return False
        return True if all(part.points for part in self.parts) else None

    def part(self, name: str) -> Part:
        """The part with a cell."""
        return next(part for part in self.parts if name in part.cells)

    def values(self, names: Sequence[str]) -> set[tuple[Any, ...]] | None:
        """What some cells may be together, None where that isn't known."""
        if self.fits is False:
            return set()
        found: list[dict[str, Any]] = [{}]
        for part in self.parts:
            mine = [name for name in names if name in part.cells]
            if mine and (part.points is None or part.is_sampled):
                return None
            there = {tuple(at[name] for name in mine) for at in part.points or ()} or {()}
            found = [{**it, **dict(zip(mine, each))} for it in found for each in there]
        return {tuple(it[name] for name in names) for it in found} if self.fits else None

    def first(self) -> list[int] | None:
        """On which alternative each choice stands in the first list that fits, None where that
        isn't known."""
        found: dict[str, int] = {}
        for part in self.parts:
            mine = [name for name in self.choices if self._names[name] & part.cells.keys()]
            if mine and not part.points:
                return None
            if mine:
                sides = min(
                    tuple(self._side(name, at) for name in mine) for at in part.points or ()
                )
                found.update(zip(mine, sides))
        if not self.fits:
            return None
        return [found[it] if it in found else self._side(it, {}) for it in self.choices]

    def _side(self, name: str, at: Points) -> int:
        return next(side for side, holds in enumerate(self.choices[name]) if holds(at))

    def points(self, name: str, stands: Mapping[str, int]) -> Iterator[dict[str, Any]]:
        """The points that are known of a cell and those that bear on it, where choices stand on
        these alternatives."""
        part = self.part(name)
        mine = [
            self.choices[it][side]
            for it, side in stands.items()
            if self._names[it] & part.cells.keys()
        ]
        return (at for at in part.points or () if all(holds(at) for holds in mine))


def _names_of(choice: Chosen) -> frozenset[str]:
    return frozenset().union(*(names_in(it) for _, recipes in choice.sides for it in recipes))


def _all_hold(recipes: Iterable[Recipe]) -> Meaning:
    tests = list(map(meaning, recipes))
    return lambda at: all(test(at) for test in tests)


def _one_holds(sides: Iterable[Meaning]) -> Meaning:
    return lambda at: any(holds(at) for holds in sides)


def _apart(cells: Iterable[str], rules: Iterable[Rule]) -> list[frozenset[str]]:
    """The cells in groups, of which none bears on another."""
    groups = [frozenset((name,)) for name in cells]
    for rule in rules:
        touched = [group for group in groups if group & rule.names]
        groups = [group for group in groups if not group & rule.names]
        groups += [frozenset().union(*touched)] if touched else []
    return groups


def _rooms(cells: Mapping[str, Made], recipes: Iterable[Recipe]) -> dict[str, Values]:
    """What each cell may be by what is told of it."""
    rooms: dict[str, Values] = {name: each.values for name, each in cells.items()}
    for recipe in recipes:
        if recipe[0] != "told":
            continue
        (_, of), values = recipe[1:]
        room, holds = rooms[of], meaning(recipe)
        if isinstance(room, range):
            low, high = values
            rooms[of] = range(max(room.start, low), min(room.stop - 1, high) + 1)
        else:
            rooms[of] = tuple(each for each in room if holds({of: each}))
    return rooms


# What gives the values of a cell, once some others are known.
Giving = tuple[frozenset[str], list[Meaning]]


def _defined(recipes: Iterable[Recipe], choices: Iterable[Chosen]) -> dict[str, list[Giving]]:
    """For cells what their values are by equations, or by an equation in each alternative."""
    found: dict[str, list[Giving]] = {}
    for of, by in _equations(recipes):
        found.setdefault(of, []).append((frozenset(names_in(by)), [meaning(by)]))
    for choice in choices:
        sides = [dict(_equations(recipes)) for _, recipes in choice.sides]
        for of in set(sides[0]).intersection(*sides[1:]):
            names = frozenset().union(*(names_in(side[of]) for side in sides))
            found.setdefault(of, []).append((names, [meaning(side[of]) for side in sides]))
    return found


def _equations(recipes: Iterable[Recipe]) -> Iterator[tuple[str, Recipe]]:
    for recipe in recipes:
        if (
            recipe[0] == "equal"
            and recipe[1][0] == "cell"
            and recipe[1][1] not in names_in(recipe[2])
        ):
            yield recipe[1][1], recipe[2]


@dataclass(frozen=True)
class Step:
    """A cell in turn: its values, what gives them where others do, and what is known to hold or not
    once it has one."""

    name: str
    room: Values
    given: list[Meaning] | None
    tests: list[Meaning]

    def values(self, at: Points) -> Iterable[Any]:
        """The values that are to be tried."""
        if self.given is None:
            return self.room
        return [value for value in {it(at) for it in self.given} if value in self.room]


class _TooMany(Exception):
    """Too many points would have to be tried."""


def _points(
    rooms: Mapping[str, Values], rules: Sequence[Rule], defined: Mapping[str, list[Giving]]
) -> list[dict[str, Any]] | None:
    """All points of these cells that fit, None where too many would have to be tried."""
    try:
        steps = _steps(rooms, rules, defined)
        found: list[dict[str, Any]] = [{}]
        for step in steps:
            found = list(islice(_taken(step, found), _MOST))
            if len(found) == _MOST:
                return None
        return found
    except _TooMany:
        return None


def _taken(step: Step, points: Iterable[dict[str, Any]]) -> Iterator[dict[str, Any]]:
    """The points with a cell more, where nothing speaks against that."""
    for at in points:
        for value in step.values(at):
            more = {**at, step.name: value}
            if all(test(more) for test in step.tests):
                yield more


def _steps(
    rooms: Mapping[str, Values], rules: Iterable[Rule], defined: Mapping[str, list[Giving]]
) -> list[Step]:
    """The cells in turn: those that others give first, then those with the fewest values."""
    steps: list[Step] = []
    placed: set[str] = set()
    left = list(rules)
    while len(placed) < len(rooms):
        waiting = sorted(rooms.keys() - placed, key=lambda it: (len(rooms[it]), it))
        ready = [(it, by) for it in waiting for known, by in defined.get(it, ()) if known <= placed]
        name, by = ready[0] if ready else (waiting[0], None)
        if by is None and len(rooms[name]) > _WIDEST:
            raise _TooMany
        placed.add(name)
        tests = [rule.holds for rule in left if rule.names <= placed]
        left = [rule for rule in left if not rule.names <= placed]
        steps.append(Step(name, rooms[name], by, tests))
    return steps
