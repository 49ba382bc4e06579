"""What expressions mean at points, in exact whole numbers.

A quotient or remainder by zero has no value, and a comparison over what has no value is false. A
number beyond 10^18 either way is none that the program holds: whatever needs it doesn't hold.
"""

import operator
from collections.abc import Callable, Mapping

from propbench.model.kinds import Point, domain_of
from propbench.model.nodes import Declared, Node, Op
from propbench.words import MOST_NUMBER


class Beyond(Exception):
    """A value that lies beyond 10^18 either way, and the expression that has it."""

    def __init__(self, node: Node) -> None:
        super().__init__(node)
        self.node = node


class NoValueThere(Exception):
    """A value by zero: there is none."""


PointsOf = Mapping[Declared, Point]


def value_of(node: Node, points: PointsOf) -> Point:
    """The value of an expression where each cell has its point. Raises Undefined and Beyond."""
    reading = points.reading if isinstance(points, PlanPoints) else _Reading(points)
    return reading.value(node)


def holds(node: Node, points: PointsOf) -> bool:
    """Whether a constraint holds at these points. Raises Beyond."""
    reading = points.reading if isinstance(points, PlanPoints) else _Reading(points)
    return bool(reading.value(node))


class _Reading:
    """Values by node, so that what several expressions share is worked out once."""

    def __init__(self, points: PointsOf) -> None:
        self.points = points
        self.found: dict[Node, Point] = {}

    def value(self, node: Node) -> Point:
        found = self.found.get(node)
        if found is None:
            found = self.found[node] = _READ[node.op](self, node)
        return found

    def all_values(self, node: Node) -> list[Point] | None:
        """The values of all arguments, None where one has none."""
        values: list[Point] = []
        for arg in node.args:
            # (most have theirs by now)
            found = self.found.get(arg)
            try:
                values.append(self.value(arg) if found is None else found)
            except NoValueThere:
                pass
        return values if len(values) == len(node.args) else None


class PlanPoints(dict[Declared, Point]):
    """The points of a plan, at which many expressions are looked at. It is not to be changed."""

    def __init__(self, points: PointsOf) -> None:
        super().__init__(points)
        self.reading = _Reading(self)


def _sum(node: Node, numbers: list[int]) -> int:
    total = 0
    for number in numbers:
        total += number
        if abs(total) > MOST_NUMBER:
            raise Beyond(node)
    return total


def _quotient(node: Node, numbers: list[int]) -> int:
    left, right = numbers
    if right == 0:
        raise NoValueThere
    if abs(left // right * right) > MOST_NUMBER:
        raise Beyond(node)
    return left // right


def _remainder(node: Node, numbers: list[int]) -> int:
    return numbers[0] - _quotient(node, numbers) * numbers[1]


def _looked_up(node: Node, element: Point) -> int:
    place = domain_of(node.args[0].kind).elements.index(str(element))
    entry = node.entries[place]
    assert isinstance(entry, int)
    return entry


def _has_room(_node: Node, values: list[Point]) -> bool:
    """Whether tasks that run at once need no more than there is. (Most is needed when one of them
    starts.)"""
    capacity, *rest = map(int, values)
    tasks = list(zip(rest[::3], rest[1::3], rest[2::3]))
    return all(
        sum(needs for start, long, needs in tasks if start <= day < start + long) <= capacity
        for day, length, _ in tasks
        if length > 0
    )


_NUMBERS: dict[Op, Callable[[Node, list[int]], int]] = {
    Op.SUM: _sum,
    Op.DIFFERENCE: lambda node, numbers: numbers[0] - numbers[1],
    Op.NEGATIVE: lambda node, numbers: -numbers[0],
    Op.PRODUCT: lambda node, numbers: numbers[0] * numbers[1],
    Op.QUOTIENT: _quotient,
    Op.REMAINDER: _remainder,
    Op.ABSOLUTE: lambda node, numbers: abs(numbers[0]),
    Op.MAXIMUM: lambda node, numbers: max(numbers),
    Op.MINIMUM: lambda node, numbers: min(numbers),
    Op.BIT: lambda node, numbers: numbers[0],
    Op.COUNT: lambda node, numbers: sum(numbers),
}

_TRUTHS: dict[Op, Callable[[Node, list[Point]], bool]] = {
    Op.EQUAL: lambda node, values: values[0] == values[1],
    Op.UNEQUAL: lambda node, values: values[0] != values[1],
    Op.ALL_DIFFERENT: lambda node, values: len(set(values)) == len(values),
    Op.AMONG: lambda node, values: values[0] in node.entries,
    Op.ROOM: _has_room,
    Op.PAIR: lambda node, values: tuple(values) in node.entries,
}

_LOGIC: dict[Op, Callable[[list[bool]], bool]] = {
    Op.NOT: lambda truths: not truths[0],
    Op.AND: all,
    Op.XOR: lambda truths: truths[0] != truths[1],
    Op.IMPLIES: lambda truths: not truths[0] or truths[1],
}


def _one_of_two(reading: _Reading, node: Node) -> Point:
    taken = node.args[1] if reading.value(node.args[0]) else node.args[2]
    # (the other has to be a number that the program holds too, if it has a value)
    reading.all_values(node)
    return reading.value(taken)


def _compared(reading: _Reading, node: Node) -> bool:
    values = reading.all_values(node)
    return values is not None and _TRUTHS[node.op](node, values)


def _ordered(compare: Callable[[Point, Point], bool]) -> Callable[[_Reading, Node], bool]:
    def compared(reading: _Reading, node: Node) -> bool:
        left, right = node.args
        try:
            return compare(reading.value(left), reading.value(right))
        except NoValueThere:
            # (the other one may lie beyond)
            reading.all_values(node)
            return False

    return compared


def _any_of(reading: _Reading, node: Node) -> bool:
    found = False
    for arg in node.args:
        if reading.value(arg):
            found = True
    return found


def _connected(reading: _Reading, node: Node) -> bool:
    return _LOGIC[node.op]([bool(reading.value(arg)) for arg in node.args])


def _calculated(reading: _Reading, node: Node) -> int:
    found = _NUMBERS[node.op](node, [int(reading.value(arg)) for arg in node.args])
    if abs(found) > MOST_NUMBER:
        raise Beyond(node)
    return found


# How each sort of node gets its value.
_READ: dict[Op, Callable[[_Reading, Node], Point]] = {
    Op.CELL: lambda reading, node: reading.points[node.declared],
    Op.CONSTANT: lambda reading, node: node.constant,
    Op.IF: _one_of_two,
    Op.TABLE: lambda reading, node: _looked_up(node, reading.value(node.args[0])),
    **dict.fromkeys(_TRUTHS, _compared),
    **dict.fromkeys(_LOGIC, _connected),
    **dict.fromkeys(_NUMBERS, _calculated),
    # (what most constraints are made of)
    Op.LESS: _ordered(operator.lt),
    Op.AT_MOST: _ordered(operator.le),
    Op.GREATER: _ordered(operator.gt),
    Op.AT_LEAST: _ordered(operator.ge),
    Op.OR: _any_of,
}
