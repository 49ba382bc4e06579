"""Whether constraints over whole numbers hold at many points at once, worked out by numpy beside
the package: each cell has a column, with a number for each point.

Numbers of the program stay below 10^18, so columns of 64 bits hold them; where one is not, that is
found by floating point, and the constraint counts as one that doesn't hold.
"""

from collections.abc import Callable, Mapping
from typing import Any

import numpy

from propbench.model.nodes import Declared, Node, Op

# A column of whole numbers or of truths.
Column = Any
_MOST = 1.000001e18


class Unable(Exception):
    """A node is of a sort that isn't worked out here, or a divisor is zero."""


class ManyPoints:
    """The columns of cells, and of what is made of them."""

    def __init__(self, cells: Mapping[Declared, list[int]]) -> None:
        self._cells = {cell: numpy.array(each, dtype=numpy.int64) for cell, each in cells.items()}
        self._found: dict[Node, Column] = {}
        self.count = len(next(iter(cells.values())))

    def where_false(self, constraint: Node) -> list[int]:
        """The places of points at which a constraint doesn't hold. Raises Unable."""
        held = self._value(constraint)
        if held is True or held is False:
            return [] if held else list(range(self.count))
        return [int(place) for place in numpy.flatnonzero(~held)]

    def _value(self, node: Node) -> Column:
        if node.op is Op.CELL:
            return self._cells[node.declared]
        if node.op is Op.CONSTANT:
            return node.constant
        found = self._found.get(node)
        if found is None:
            if node.op not in _WORKED_OUT:
                raise Unable
            found = self._found[node] = _WORKED_OUT[node.op]([self._value(it) for it in node.args])
        return found


def _sum(values: list[Column]) -> Column:
    found = values[0]
    for each in values[1:]:
        found = _small(found + each)
    return found


def _product(values: list[Column]) -> Column:
    one, other = values
    size = numpy.abs(numpy.asarray(one, dtype=float)) * numpy.abs(numpy.asarray(other, dtype=float))
    if numpy.any(size > _MOST):
        raise Unable
    return one * other


def _quotient(values: list[Column]) -> Column:
    if numpy.any(numpy.asarray(values[1]) == 0):
        raise Unable
    return values[0] // values[1]


def _small(found: Column) -> Column:
    if numpy.any(numpy.abs(numpy.asarray(found)) > 10**18):
        raise Unable
    return found


def _over(pick: Callable[[Column, Column], Column]) -> Callable[[list[Column]], Column]:
    def picked(values: list[Column]) -> Column:
        found = values[0]
        for each in values[1:]:
            found = pick(found, each)
        return found

    return picked


_WORKED_OUT: dict[Op, Callable[[list[Column]], Column]] = {
    Op.SUM: _sum,
    Op.DIFFERENCE: lambda values: _small(values[0] - values[1]),
    Op.NEGATIVE: lambda values: -values[0],
    Op.PRODUCT: _product,
    Op.QUOTIENT: _quotient,
    Op.ABSOLUTE: lambda values: numpy.abs(values[0]),
    Op.MAXIMUM: _over(numpy.maximum),
    Op.MINIMUM: _over(numpy.minimum),
    Op.LESS: lambda values: values[0] < values[1],
    Op.AT_MOST: lambda values: values[0] <= values[1],
    Op.GREATER: lambda values: values[0] > values[1],
    Op.AT_LEAST: lambda values: values[0] >= values[1],
    Op.EQUAL: lambda values: values[0] == values[1],
    Op.UNEQUAL: lambda values: values[0] != values[1],
    Op.AND: _over(numpy.logical_and),
    Op.OR: _over(numpy.logical_or),
    Op.NOT: lambda values: numpy.logical_not(values[0]),
}
