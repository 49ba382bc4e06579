"""Lines for numbers: sums, products, quotients, the greatest and least, tables, and `if`.

Where the program has a procedure of the wider kit, that is used; else what comes nearest by the
kit: never wrong, as strong at points, and maybe weaker before.
"""

from collections.abc import Callable
from typing import TYPE_CHECKING

from propbench.model.context import Context
from propbench.model.core import among, in_core, raw
from propbench.model.definedness import nonzero
from propbench.model.kinds import Domain, Plain, domain_of
from propbench.model.nodes import (
    TRUE,
    ZERO,
    Node,
    Op,
    all_of,
    any_of,
    equal,
    less,
    negated,
    node,
    number,
)
from propbench.model.ranges import range_of

if TYPE_CHECKING:
    from propbench.model.translation import Translation

# The greatest number whose square the program holds, and how many truths are counted at once.
_ROOT = 10**9
_MOST_COUNTED = 8


class NumberWriter:
    """Writes what a cell holds that is no truth."""

    def __init__(self, translation: "Translation") -> None:
        self._all = translation
        self._writer = translation.writer
        self._defines: dict[Op, Callable[[Node, str, Context], None]] = {
            Op.SUM: self._sum,
            Op.DIFFERENCE: self._difference,
            Op.PRODUCT: self._product,
            Op.QUOTIENT: self._division,
            Op.REMAINDER: self._division,
            Op.ABSOLUTE: self._absolute,
            Op.MAXIMUM: self._extreme,
            Op.MINIMUM: self._extreme,
            Op.BIT: self._bit,
            Op.COUNT: self._count,
            Op.TABLE: self._table,
            Op.IF: self._if,
        }

    def define(self, each: Node, cell: str, context: Context) -> None:
        """Has a cell hold an expression, which is in core operations."""
        self._defines[each.op](each, cell, context)

    def _cells(self, each: Node, context: Context) -> list[str]:
        return [self._all.cell_of(arg, context) for arg in each.args]

    def _attach_where_offered(self, name: str, each: Node, cell: str, context: Context) -> bool:
        """Uses a procedure of the wider kit, where the program has it."""
        if self._writer.offers(name):
            self._writer.attach(name, *self._cells(each, context), cell)
            return True
        return False

    def _sum(self, each: Node, cell: str, context: Context) -> None:
        before = self._all.cell_of(each.args[0], context)
        for count in range(2, len(each.args)):
            part = node(each.op, each.args[:count])
            before = self._part(part, before, context)
        self._writer.attach("sum", before, self._all.cell_of(each.args[-1], context), cell)

    def _part(self, part: Node, before: str, context: Context) -> str:
        """The cell of the first few of a sum, before which that of one less is there."""
        if part not in context.cells:
            added = self._all.cell_of(part.args[-1], context)
            since = self._writer.position
            cell = self._writer.new_cell(Plain.NUMBER)
            self._writer.attach("sum", before, added, cell)
            context.cells[part] = self._writer.made(cell, since)
            self._all.join(part, cell, context)
        return context.cells[part]

    def _difference(self, each: Node, cell: str, context: Context) -> None:
        left, right = self._cells(each, context)
        self._writer.attach("sum", cell, right, left)

    def _product(self, each: Node, cell: str, context: Context) -> None:
        left, right = self._cells(each, context)
        if left == right:
            self._writer.attach("square", left, cell)
        else:
            self._writer.attach("product", left, right, cell)

    def _absolute(self, each: Node, cell: str, context: Context) -> None:
        if self._attach_where_offered("abs", each, cell, context):
            return
        [inner] = each.args
        low, high = range_of(inner)
        self._writer.between(cell, max(range_of(each)[0], 0), range_of(each)[1], context)
        if -_ROOT <= low and high <= _ROOT:
            square = self._all.cell_of(node(Op.PRODUCT, (inner, inner)), context)
            self._writer.attach("square", cell, square)
        else:
            opposite = node(Op.DIFFERENCE, (ZERO, inner))
            self._one_of(each, raw(less(inner, ZERO)), (opposite, inner), context)

    def _extreme(self, each: Node, cell: str, context: Context) -> None:
        """The greatest or least: of the halves, where there are more than two."""
        half = len(each.args) // 2
        first, last = (_of(each.op, part) for part in (each.args[:half], each.args[half:]))
        pair = node(each.op, (first, last))
        if pair is not each:
            self._all.define_as(pair, context, cell)
            return
        is_greatest = each.op is Op.MAXIMUM
        if self._attach_where_offered("max" if is_greatest else "min", each, cell, context):
            return
        self._writer.between(cell, *range_of(each), context)
        for arg in each.args:
            below = raw(less(each, arg) if is_greatest else less(arg, each))
            self._all.state(negated(below), context)
        test = raw(less(last, first) if is_greatest else less(first, last))
        self._one_of(each, test, (first, last), context)

    def _if(self, each: Node, cell: str, context: Context) -> None:
        if self._attach_where_offered("if", each, cell, context):
            return
        if each.kind is Plain.NUMBER:
            self._writer.between(cell, *range_of(each), context)
        elif isinstance(each.kind, Domain):
            names = self._all.vocabulary.some(each.kind.elements, each.kind)
            self._writer.narrow(cell, names, each.kind, context)
        test, first, second = each.args
        self._one_of(each, test, (first, second), context)

    def _one_of(self, each: Node, test: Node, values: tuple[Node, Node], context: Context) -> None:
        """An expression is the first value where the test holds, and else the second."""
        cell = self._all.cell_of(each, context)
        for truth, value in ((test, values[0]), (negated(test), values[1])):
            gate, held = self._all.cell_of(truth, context), self._all.cell_of(value, context)
            self._writer.attach("passer", gate, held, cell)
            self._writer.attach("passer", gate, cell, held)
            is_it = raw(equal(each, value))
            self._all.state(any_of([negated(truth), is_it]), context)

    def _bit(self, each: Node, cell: str, context: Context) -> None:
        self._writer.between(cell, 0, 1, context)
        zero, truth = self._all.cell_of(ZERO, context), self._all.cell_of(each.args[0], context)
        self._writer.attach("less", zero, cell, truth)

    def _count(self, each: Node, cell: str, context: Context) -> None:
        count = len(each.args)
        if count <= _MOST_COUNTED and self._attach_where_offered(
            f"count{count}", each, cell, context
        ):
            return
        counted: list[Node] = []
        for first in range(0, count, _MOST_COUNTED):
            truths = each.args[first : first + _MOST_COUNTED]
            is_offered = count > _MOST_COUNTED and self._writer.offers(f"count{len(truths)}")
            counted += [node(Op.COUNT, truths)] if is_offered else map(_bit_of, truths)
        meaning = counted[0] if len(counted) == 1 else node(Op.SUM, counted)
        self._all.define_as(meaning, context, cell)

    def _table(self, each: Node, cell: str, context: Context) -> None:
        """A number by a table: it is below a bound exactly where the element is one of those whose
        numbers are."""
        [element] = each.args
        numbers = [int(str(entry)) for entry in each.entries]
        names = domain_of(element.kind).elements
        steps = sorted(set(numbers))
        self._writer.between(cell, steps[0], steps[-1], context)
        for step, following in zip(steps, steps[1:]):
            small = tuple(name for name, entry in zip(names, numbers) if entry <= step)
            truth = self._all.cell_of(among(element, small), context)
            for bound in sorted({step + 1, following}):
                edge = self._all.cell_of(number(bound), context)
                self._writer.attach("less", cell, edge, truth)

    def _division(self, each: Node, cell: str, context: Context) -> None:
        """A quotient rounded down, or what it leaves, and the other with it: within a gate that is
        open where the divisor is not zero."""
        within = self._where_nonzero(each.args, context)
        quotient, remainder = (node(op, each.args) for op in (Op.QUOTIENT, Op.REMAINDER))
        for one in (quotient, remainder):
            if one not in context.cells:
                context.cells[one] = self._writer.new_cell(Plain.NUMBER)
                self._all.join(one, context.cells[one], context)
            self._enter(one, context.cells[one], within, context)
        held, divisor = self._cells(each, within)
        for one in (quotient, remainder):
            self._writer.between(within.cells[one], *range_of(one), within)
        if self._writer.offers("divide"):
            found = within.cells[quotient], within.cells[remainder]
            self._writer.attach("divide", held, divisor, *found)
        else:
            self._divide(quotient, remainder, within)

    def _where_nonzero(self, args: tuple[Node, ...], context: Context) -> Context:
        """The context where the divisor is not zero: the same, where that is stated there."""
        truth = nonzero(args[1])
        needed = truth if truth is TRUE else negated(in_core(truth.args[0]))
        around: Context | None = context
        while around:
            if needed is TRUE or needed in around.stated:
                return context
            around = around.outer
        within = Context(self._all.cell_of(truth, context), None, context)
        for arg in dict.fromkeys(args):
            self._all.bring_in(arg, within)
        return within

    def _enter(self, each: Node, cell: str, within: Context, context: Context) -> None:
        """Has an expression stand in a context within, where that is another."""
        if within is not context:
            copy = within.cells[each] = self._writer.new_cell(Plain.NUMBER)
            self._writer.link(cell, copy, within)

    def _divide(self, quotient: Node, remainder: Node, context: Context) -> None:
        """What is divided is the quotient times the divisor and the remainder, which lies between
        zero and the divisor."""
        left, right = quotient.args
        part = self._writer.new_cell(Plain.NUMBER)
        held, divisor = self._all.cell_of(left, context), self._all.cell_of(right, context)
        self._writer.attach("product", context.cells[quotient], divisor, part)
        self._writer.attach("sum", part, context.cells[remainder], held)
        # (of a constant divisor that says it all)
        if right.op is not Op.CONSTANT:
            for truth in _remainder_fits(remainder, right):
                self._all.state(truth, context)


def _of(op: Op, numbers: tuple[Node, ...]) -> Node:
    return numbers[0] if len(numbers) == 1 else node(op, numbers)


def _bit_of(truth: Node) -> Node:
    return node(Op.BIT, (truth,))


def _remainder_fits(remainder: Node, divisor: Node) -> list[Node]:
    """Between which numbers a remainder lies: from zero to the divisor, which it isn't."""
    low, high = range_of(divisor)
    above = [negated(raw(less(remainder, ZERO))), raw(less(remainder, divisor))]
    below = [negated(raw(less(ZERO, remainder))), raw(less(divisor, remainder))]
    if low > 0:
        return above
    if high < 0:
        return below
    is_positive = raw(less(ZERO, divisor))
    return [
        any_of([negated(is_positive), all_of(above)]),
        any_of([is_positive, all_of(below)]),
    ]
