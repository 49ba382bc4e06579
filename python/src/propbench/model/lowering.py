"""A plan with numbers as low as they can be in the alternatives that it takes.

What is stated by sums, differences and the greatest of some gives bounds: a number is no less than
others and a number more. They are raised from the lowest until all hold. What is stated otherwise
keeps the numbers in it as they are. Whether all holds at the numbers that come of it has to be
looked at once more.
"""

from collections.abc import Iterable, Sequence
from dataclasses import dataclass
from weakref import WeakKeyDictionary

from propbench.model.events import ConstraintChoice, Event, Required, Told, ValueChoice
from propbench.model.kinds import Plain, Point
from propbench.model.meaning import PlanPoints, holds
from propbench.model.nodes import Declared, Node, Op, cells_in, node
from propbench.model.orders import ORDERS, Bound, bounds_of, first_held


@dataclass(frozen=True)
class BoundsWay:
    """A truth, whether it has to hold, and the bounds where it does; by one `alone` it does, where
    there is such a one."""

    truth: Node
    is_held: bool
    bounds: tuple[Bound, ...]
    alone: Bound | None

    def is_taken(self, points: PlanPoints, at: dict[Declared, int]) -> bool:
        """Whether points go this way, with these numbers among them."""
        if self.alone is not None:
            return self.alone.least(at) <= at[self.alone.of]
        return holds(self.truth, points) is self.is_held


@dataclass(frozen=True)
class BoundsAndWays:
    """Bounds that a constraint gives, and ways of which one has to be taken, where there are
    some."""

    bounds: tuple[Bound, ...] = ()
    ways: tuple[BoundsWay, ...] = ()


# What is not known yet.
_UNKNOWN = BoundsAndWays()
_known: "WeakKeyDictionary[Node, BoundsAndWays | None]" = WeakKeyDictionary()
_choosing: "WeakKeyDictionary[Node, bool]" = WeakKeyDictionary()


def lowered(
    events: Iterable[Event], points: PlanPoints, kept: Iterable[Declared]
) -> dict[Declared, Point]:
    """The points with numbers as low as these events allow, but for the cells that are kept."""
    at = {cell: int(value) for cell, value in points.items() if cell.kind is Plain.NUMBER}
    bounds, fixed = list[Bound](), set(kept)
    for event in events:
        given = _bounds_of(event, points, at)
        if given is None:
            fixed.update(_cells_of(event))
        else:
            bounds += given
    for bound in bounds:
        if bound.without:
            fixed.update(bound.without)
    free = {c: c.low for c in at if c.low is not None and c.measure is None and c not in fixed}
    raised = sorted((it for it in bounds if it.of in free), key=lambda it: at[it.of])
    at |= free
    return {**points, **at} if _raise(raised, at) else dict(points)


def _raise(bounds: Sequence[Bound], at: dict[Declared, int]) -> bool:
    """Raises numbers until all bounds hold; whether that was done soon."""
    for _ in range(len(at) + 1):
        is_moved = False
        for bound in bounds:
            # (as `least` does, which is asked for very often here)
            least = bound.more
            for cell in bound.others:
                least += at[cell]
            for cell in bound.without:
                least -= at[cell]
            if least > at[bound.of]:
                at[bound.of], is_moved = least, True
        if not is_moved:
            return True
    return False


def _bounds_of(event: Event, points: PlanPoints, at: dict[Declared, int]) -> Sequence[Bound] | None:
    """The bounds that something stated gives in the ways that points take; None where it gives
    others."""
    if isinstance(event, Required):
        if event.orders is None:
            return _taken(event.constraint, points, at)
        taken = first_held(event.orders, at)
        return None if taken is None else [taken]
    if isinstance(event, Told):
        is_number = event.cell.kind is Plain.NUMBER
        return [Bound(event.cell, (), (), int(event.values[0]))] if is_number else []
    if isinstance(event, ConstraintChoice):
        side = event.side_at(points)
        sides = [] if side is None else [event.alternatives[side][1]]
        found = [_taken(each, points, at) for nodes in sides for each in nodes]
        given = [each for each in found if each is not None]
        return [it for each in given for it in each] if sides and given == found else None
    return None if isinstance(event, ValueChoice) else []


def _cells_of(event: Event) -> list[Declared]:
    """The cells that something stated is about."""
    if isinstance(event, Required):
        return cells_in(event.constraint)
    if isinstance(event, ConstraintChoice):
        return [it for _, nodes in event.alternatives for each in nodes for it in cells_in(each)]
    return [event.cell] if isinstance(event, (Told, ValueChoice)) else []


def _taken(constraint: Node, points: PlanPoints, at: dict[Declared, int]) -> Sequence[Bound] | None:
    """The bounds of a constraint in the first way that points take, None where it has others."""
    said = _decided(constraint, points)
    shape = _known.get(said, _UNKNOWN)
    if shape is _UNKNOWN:
        shape = _known[said] = _shape(said, True)
    if shape is None:
        return None
    if not shape.ways:
        return shape.bounds
    for way in shape.ways:
        if way.is_taken(points, at):
            return (*shape.bounds, *way.bounds)
    return None


def _decided(each: Node, points: PlanPoints) -> Node:
    """The same with the side that points take of each choice between two, where it is by truths."""
    if not _chooses(each):
        return each
    if each.op is Op.IF and not any(it.kind is Plain.NUMBER for it in cells_in(each.args[0])):
        return _decided(each.args[1 if holds(each.args[0], points) else 2], points)
    args = [_decided(arg, points) for arg in each.args]
    return node(each.op, args, each.payload, each.kind)


def _chooses(each: Node) -> bool:
    """Whether there is a choice between two within."""
    found = _choosing.get(each)
    if found is None:
        found = _choosing[each] = each.op is Op.IF or any(map(_chooses, each.args))
    return found


def _shape(truth: Node, is_held: bool) -> BoundsAndWays | None:
    """The shape of a truth that holds, or doesn't; None where it has none."""
    op, args = truth.op, truth.args
    if op is Op.NOT:
        return _shape(args[0], not is_held)
    if op in (Op.AND, Op.OR):
        parts = [(arg, is_held, _shape(arg, is_held)) for arg in args]
        return _all([it for _, _, it in parts]) if (op is Op.AND) is is_held else _any(parts)
    if op is Op.IMPLIES and is_held:
        return _any([(arg, held, _shape(arg, held)) for arg, held in zip(args, (False, True))])
    if op in ORDERS:
        first, second, gap = ORDERS[op]
        left, right = args[first], args[second]
        return _order(left, right, gap) if is_held else _order(right, left, 1 - gap)
    if op is Op.EQUAL and is_held and args[0].kind is Plain.NUMBER:
        return _all([_order(args[0], args[1], 0), _order(args[1], args[0], 0)])
    return None if any(it.kind is Plain.NUMBER for it in cells_in(truth)) else BoundsAndWays()


def _all(parts: Sequence[BoundsAndWays | None]) -> BoundsAndWays | None:
    """The shape of what holds together, of which one may have several ways."""
    there = [part for part in parts if part is not None]
    ways = [part.ways for part in there if part.ways]
    if len(there) < len(parts) or len(ways) > 1:
        return None
    return BoundsAndWays(tuple(it for part in there for it in part.bounds), *ways)


def _any(parts: Sequence[tuple[Node, bool, BoundsAndWays | None]]) -> BoundsAndWays | None:
    """The shape of what holds in one of several ways."""
    ways = []
    for it, held, shape in parts:
        if shape is None or shape.ways:
            return None
        is_alone = it.op in ORDERS and len(shape.bounds) == 1
        ways.append(BoundsWay(it, held, shape.bounds, shape.bounds[0] if is_alone else None))
    return BoundsAndWays(ways=tuple(ways))


def _order(left: Node, right: Node, gap: int) -> BoundsAndWays | None:
    """The shape of one number being no more than another less a gap."""
    if left.op is Op.MAXIMUM:
        return _all([_order(arg, right, gap) for arg in left.args])
    if right.op is Op.MAXIMUM:
        sort = Op.LESS if gap else Op.AT_MOST
        return _any([(node(sort, (left, it)), True, _order(left, it, gap)) for it in right.args])
    bounds = bounds_of(left, right, gap)
    return None if bounds is None else BoundsAndWays(bounds)
