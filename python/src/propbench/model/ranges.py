"""Between which numbers an expression lies, where it is known of its cells.

A range may be wider than what is possible, never narrower.
"""

from collections.abc import Callable
from weakref import WeakKeyDictionary

from propbench.model.nodes import Declared, Node, Op
from propbench.words import MOST_NUMBER

Range = tuple[int, int]
ALL: Range = (-MOST_NUMBER, MOST_NUMBER)


class Ranges:
    """Ranges of expressions over cells of which it is known between which numbers they lie."""

    def __init__(self, of_cell: Callable[[Declared], Range]) -> None:
        self._of_cell = of_cell
        self._found: "WeakKeyDictionary[Node, Range]" = WeakKeyDictionary()

    def of(self, node: Node) -> Range:
        """The least and the greatest number that an expression may be, cut off at 10^18."""
        low, high = self.uncut(node)
        return _cut(low), _cut(high)

    def uncut(self, node: Node) -> Range:
        """The same of one operation, as if numbers had no end: both may lie beyond 10^18."""
        found = self._found.get(node)
        if found is None:
            found = self._found[node] = self._range(node)
        return found

    def _range(self, node: Node) -> Range:
        if node.op is Op.CELL:
            return self._of_cell(node.declared)
        if node.op is Op.CONSTANT:
            return int(node.constant), int(node.constant)
        if node.op is Op.TABLE:
            numbers = [int(str(each)) for each in node.entries]
            return min(numbers), max(numbers)
        if node.op in (Op.BIT, Op.COUNT):
            return 0, len(node.args)
        if node.op is Op.IF:
            return _hull([self.of(arg) for arg in node.args[1:]])
        return _RANGES[node.op]([self.of(arg) for arg in node.args])


def declared_range(cell: Declared) -> Range:
    """Between which numbers a cell lies, by what it was declared as."""
    return (
        -MOST_NUMBER if cell.low is None else cell.low,
        MOST_NUMBER if cell.high is None else cell.high,
    )


# By what the cells were declared as.
_ALWAYS = Ranges(declared_range)


def range_of(node: Node) -> Range:
    """The least and the greatest number that an expression may be, whatever is told."""
    return _ALWAYS.of(node)


def uncut_range_of(node: Node) -> Range:
    """The same of one operation, as if numbers had no end."""
    return _ALWAYS.uncut(node)


def _cut(number: int) -> int:
    return min(max(number, -MOST_NUMBER), MOST_NUMBER)


def _hull(ranges: list[Range]) -> Range:
    return min(low for low, _ in ranges), max(high for _, high in ranges)


def _sum(ranges: list[Range]) -> Range:
    return sum(low for low, _ in ranges), sum(high for _, high in ranges)


def _difference(ranges: list[Range]) -> Range:
    (left_low, left_high), (right_low, right_high) = ranges
    return left_low - right_high, left_high - right_low


def _product(ranges: list[Range]) -> Range:
    corners = [left * right for left in ranges[0] for right in ranges[1]]
    return min(corners), max(corners)


def _quotient(ranges: list[Range]) -> Range:
    """Of nonzero divisors: the ends, and those next to zero."""
    low, high = ranges[1]
    divisors = [each for each in (low, high, -1, 1) if low <= each <= high and each != 0]
    corners = [left // right for left in ranges[0] for right in divisors]
    return (min(corners), max(corners)) if corners else ALL


def _remainder(ranges: list[Range]) -> Range:
    low, high = ranges[1]
    return min(low + 1, 0), max(high - 1, 0)


def _absolute(ranges: list[Range]) -> Range:
    low, high = ranges[0]
    return max(low, -high, 0), max(abs(low), abs(high))


_RANGES: dict[Op, Callable[[list[Range]], Range]] = {
    Op.SUM: _sum,
    Op.DIFFERENCE: _difference,
    Op.NEGATIVE: lambda ranges: (-ranges[0][1], -ranges[0][0]),
    Op.PRODUCT: _product,
    Op.QUOTIENT: _quotient,
    Op.REMAINDER: _remainder,
    Op.ABSOLUTE: _absolute,
    Op.MAXIMUM: lambda ranges: (max(low for low, _ in ranges), max(high for _, high in ranges)),
    Op.MINIMUM: lambda ranges: (min(low for low, _ in ranges), min(high for _, high in ranges)),
}
