"""All points of a small network: those that satisfy what is stated and belong together at each
relation (tests/relations.py), found by trying all.

A cell of which many numbers are left isn't tried: what is left of it is what each relation leaves
where the others are points. Where two such cells stand in one relation, some of their numbers are
tried, and who asks is told that not all were.
"""
from dataclasses import dataclass, field
from itertools import chain
from operator import itemgetter
from typing import Any, Callable, Iterable, Iterator, Optional

from relations import BOUND, MAY, Parts, Point, Relation, Spans, Values
from relations import both, count, either, joined, met, only, points_of

# Of so many numbers each is tried; so many points are put into cells at most, where what is left of
# a cell counts as so many.
FEW, MOST, STEP = 40, 60_000, 20

# What each cell may be at some points: where nothing joins it with others, all of it.
Box = dict[str, Values]


@dataclass
class Network:
    """Cells with their kinds, relations on cells, what is stated of a cell under a premise (none:
    always), and what the sides of each choice state of its cell."""

    kinds: dict[str, str] = field(default_factory=dict)
    attached: list[tuple[Relation, list[str]]] = field(default_factory=list)
    stated: list[tuple[str, str, Values]] = field(default_factory=list)
    choices: dict[str, tuple[str, list[Values]]] = field(default_factory=dict)

    def copy(self) -> "Network":
        """One that may be changed by itself."""
        return Network({**self.kinds}, [*self.attached], [*self.stated], {**self.choices})

    def stated_of(self, cell: str, believed: Iterable[str]) -> Values:
        """What is left of a cell by what is stated of it but in choices."""
        values = MAY[self.kinds[cell]]
        for premise, at, said in self.stated:
            if at == cell and (not premise or premise in believed):
                values = both(values, said)
        return values

    def may(self, cell: str, believed: Iterable[str]) -> Values:
        """What is left of a cell by what is stated of it, with some side of each choice."""
        values = self.stated_of(cell, believed)
        for at, sides in self.choices.values():
            if at == cell:
                values = either([both(values, side) for side in sides])
        return values

    def told(self) -> list[str]:
        """The premises."""
        return sorted({premise for premise, _, _ in self.stated if premise})

    def on(self, cell: str) -> list[tuple[Relation, list[str]]]:
        return [(relation, cells) for relation, cells in self.attached if cell in cells]


class Trial:
    """The points of a network with these premises, where some cells may be less."""

    def __init__(
        self, network: Network, believed: Iterable[str], less: Optional[dict[str, Values]] = None
    ) -> None:
        self.network = network
        self.may = {cell: network.may(cell, {*believed}) for cell in network.kinds}
        for cell, values in (less or {}).items():
            self.may[cell] = both(self.may[cell], values)
        joins = [cell for cell in network.kinds if network.on(cell)]
        self.loose = {it: values for it, values in self.may.items() if it not in joins}
        self.wide = [cell for cell in joins if count(self.may[cell]) > FEW]
        self.order = self.ordered([cell for cell in joins if cell not in self.wide])
        self.lists = [[*points_of(self.may[cell])] for cell in self.order]
        self.tests = [self.completed(at) for at in range(len(self.order))]
        # Whether all was tried, and how many points were put into cells.
        self.is_whole = True
        self.steps = 0

    def ordered(self, cells: list[str]) -> list[str]:
        """The cells in an order in which relations soon have all of theirs."""
        order: list[str] = []
        while cells:
            near = {it for _, at in self.network.attached if {*at} & {*order} for it in at}
            cell = min(cells, key=lambda it: (it not in near, count(self.may[it])))
            order.append(cell)
            cells = [it for it in cells if it != cell]
        return order

    def completed(self, at: int) -> list[tuple[Relation, Callable[[list[Point]], Any]]]:
        """The relations whose last cell in the order is this one, and what takes their points."""
        before = {*self.order[: at + 1]}
        return [
            (relation, itemgetter(*(self.order.index(it) for it in cells)))
            for relation, cells in self.network.on(self.order[at])
            if {*cells} <= before
        ]

    def boxes(self) -> Iterator[Box]:
        """All points."""
        if all(self.may.values()):
            yield from self.going([])

    def going(self, points: list[Point]) -> Iterator[Box]:
        """Those that go on from these of the first cells."""
        at = len(points)
        if at == len(self.order):
            yield from self.widely(dict(zip(self.order, points)), self.wide)
            return
        for point in self.lists[at]:
            self.steps += 1
            if self.steps > MOST:
                self.is_whole = False
                return
            points.append(point)
            if all(relation.holds(take(points)) for relation, take in self.tests[at]):
                yield from self.going(points)
            points.pop()

    def widely(self, at: dict[str, Point], wide: list[str]) -> Iterator[Box]:
        """Those that go on from these, where the wide cells have no points yet."""
        self.steps += STEP * len(wide)
        left = {cell: self.left(at, cell) for cell in wide}
        if not all(left.values()):
            return
        joins = [it for it in wide if any(is_open(cells, it, at) for _, cells in self.on(it))]
        if not joins:
            yield {**{cell: only(point) for cell, point in at.items()}, **left, **self.loose}
            return
        cell = min(joins, key=lambda it: count(left[it]))
        for point in self.tried(left[cell]):
            if self.steps > MOST:
                self.is_whole = False
                return
            yield from self.widely({**at, cell: point}, [it for it in wide if it != cell])

    def on(self, cell: str) -> list[tuple[Relation, list[str]]]:
        return self.network.on(cell)

    def left(self, at: dict[str, Point], cell: str) -> Spans:
        """The numbers of a cell that fit where all others of a relation have points."""
        values = self.may[cell]
        assert isinstance(values, tuple)
        for relation, cells in self.on(cell):
            if not is_open(cells, cell, at):
                values = met(values, self.room(relation, tuple(map(at.get, cells)), values))
        return values

    def room(self, relation: Relation, parts: Parts, values: Spans) -> Spans:
        if relation.has_room:
            return relation.room(parts)
        numbers = (it for it in self.tried(values) if isinstance(it, int))
        return joined((it, it) for it in numbers if relation.fits(parts, it))

    def tried(self, values: Spans) -> Iterator[Point]:
        """All of these numbers, or where they are many some of them."""
        if count(values) <= FEW:
            return points_of(values)
        self.is_whole = False
        # (near the bounds a local of a compound may be out of range)
        ends = [(it, it) for it in chain(*values) if abs(it) < BOUND // 2]
        return points_of(met(values, joined([*ends, (-9, 9)])))


def is_open(cells: list[str], cell: str, at: dict[str, Point]) -> bool:
    """Whether another one of the cells has no point yet."""
    return any(it != cell and it not in at for it in cells)
