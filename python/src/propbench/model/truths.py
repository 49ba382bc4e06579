"""Lines for truths: logic, comparisons, pairs of a relation."""

from typing import TYPE_CHECKING

from propbench.model.context import Context
from propbench.model.core import different, rows_of
from propbench.model.kinds import Plain, domain_of, most_different
from propbench.model.kit import CUMULATIVE, CUMULATIVE_TENS, DIFFER
from propbench.model.nodes import FALSE, ZERO, Node, Op, constant, node, number
from propbench.model.relations import Relations
from propbench.model.sharing import Shared, TaskUse
from propbench.model.vocabulary import INSIDE
from propbench.model.writer import TRUTHS
from propbench.words import MOST_BYTES

if TYPE_CHECKING:
    from propbench.model.translation import Translation

_MOST_DIFFERENT = 8
# More than these tell more at once where they are numbers: as many as have room on a line, however
# long their names are.
_MOST_NUMBERS = 60
# Beside so many others a task has its room told at once, by tens where they are more than the first
# of these; and what a line has room for beside names.
_MOST_BESIDE, _MOST_BY_TENS, _ROOM = 40, 120, 100


class Truths:
    """Writes what a truth's cell holds."""

    def __init__(self, translation: "Translation") -> None:
        self._all = translation
        self._writer = translation.writer

    def define(self, each: Node, cell: str, context: Context) -> None:
        """Has a cell hold a truth, which is in core operations."""
        if each.op is Op.NOT:
            self._writer.attach("not", self._all.cell_of(each.args[0], context), cell)
        elif each.op is Op.AND:
            self.all_into(each, cell, context)
        elif each.op is Op.OR:
            self.any_into(each, cell, context)
        else:
            assert each.op is Op.RAW
            self._define_comparison(each.args[0], cell, context)

    def all_into(self, each: Node, cell: str, context: Context) -> None:
        """Has a cell tell whether all of these hold."""
        self._chain("and", each, cell, context)

    def any_into(self, each: Node, cell: str, context: Context) -> None:
        """Has a cell tell whether one of these holds."""
        self._chain("or", each, cell, context)

    def compare(self, each: Node, truth: str, context: Context) -> None:
        """Has a cell tell whether two are the same, or the first is less."""
        cells = [self._all.cell_of(arg, context) for arg in each.args]
        if each.op is Op.EQUAL and each.args[0].kind is Plain.TRUTH:
            # (of what isn't known to be one of both no `parter` tells that it differs)
            for known in cells:
                self._writer.narrow(known, TRUTHS, Plain.TRUTH, context)
        self._writer.attach("less" if each.op is Op.LESS else "alike", *cells, truth)

    def different_at_once(self, each: Node, context: Context) -> None:
        """States that all differ, where the program can tell more from all at once than from any
        two; of more than there are values, that this can't be."""
        count = len(each.args)
        if self._writer.switches and count > most_different(each.args[0].kind):
            self._all.state(FALSE, context)
        elif 2 < count <= _MOST_DIFFERENT and self._writer.offers(f"different{count}"):
            cells = [self._all.cell_of(arg, context) for arg in each.args]
            self._writer.attach_within(context, f"different{count}", *cells)
        elif _MOST_DIFFERENT < count <= _MOST_NUMBERS and self._writer.offers(DIFFER):
            self._differ_at_once(each, context)

    def _differ_at_once(self, each: Node, context: Context) -> None:
        """States of each what the others leave of it, where these are numbers."""
        if each.args[0].kind is not Plain.NUMBER:
            return
        cells = [self._all.cell_of(arg, context) for arg in each.args]
        for at, own in enumerate(cells):
            others = [*cells[:at], *cells[at + 1 :]]
            self._writer.attach(f"differ{len(others)}", own, *others, own)

    def room_at_once(self, each: Node, context: Context) -> None:
        """States that what tasks share is enough: any two that need more in all are apart, and each
        of them has room beside the others when it starts; of as many as a line has room for the
        program tells more from all at once."""
        shared = Shared.of(each)
        for truth in shared.apart():
            self._all.state(truth, context)
        capacity = ""
        for own, others in shared.beside():
            most = self._most_beside(len(others))
            cells = self._room_cells(shared, own, others, most) if most else []
            if cells and sum(len(it.encode()) + 1 for it in cells) < MOST_BYTES - _ROOM:
                capacity = capacity or self._capacity(shared, context)
                self._writer.attach(f"cumulative{most}", capacity, *cells, cells[0])
            else:
                self._all.state(shared.load_fits(own, others), context)

    def _most_beside(self, count: int) -> int:
        """For how many others the procedure is that takes so many, 0 where there is none."""
        if count <= _MOST_BESIDE:
            return count if self._writer.offers(CUMULATIVE) else 0
        tens = -(-count // 10) * 10
        return tens if tens <= _MOST_BY_TENS and self._writer.offers(CUMULATIVE_TENS) else 0

    def _room_cells(
        self, shared: Shared, own: TaskUse, others: list[TaskUse], most: int
    ) -> list[str]:
        """Cells of a task and so many others, of which those that aren't there take no time."""
        parts = shared.parts_of(own, others)
        nobody = [ZERO] * (3 * (most - len(others)))
        return [self._all.cell_of(it, self._all.root) for it in (*parts, *nobody)]

    def _capacity(self, shared: Shared, context: Context) -> str:
        """A cell of how much there is while the context holds, and else of as much as is needed."""
        if context is self._all.root:
            return self._all.cell_of(number(shared.capacity), context)
        since = self._writer.position
        cell = self._writer.new_cell(Plain.NUMBER)
        self._writer.between(cell, shared.capacity, shared.most, self._all.root)
        self._writer.narrow(cell, str(shared.capacity), Plain.NUMBER, context)
        return self._writer.made(cell, since)

    def link(self, pair: Node, holds: bool, context: Context) -> None:
        """States that two are a pair of a relation, or none."""
        first, second = (domain_of(arg.kind) for arg in pair.args)
        entries = frozenset(pair.entries)
        pairs = [
            (left, right)
            for left in first.elements
            for right in second.elements
            if ((left, right) in entries) is holds
        ]
        left, right = (self._all.cell_of(arg, context) for arg in pair.args)
        Relations(self._writer, context).link((first, second), pairs, (left, right))

    def _chain(self, procedure: str, each: Node, cell: str, context: Context) -> None:
        """A chain of truths, each joined to those before it, which have a cell too."""
        before = self._all.cell_of(each.args[0], context)
        for count in range(2, len(each.args) + 1):
            added = self._all.cell_of(each.args[count - 1], context)
            if count == len(each.args):
                self._writer.attach(procedure, before, added, cell)
                return
            part = node(each.op, each.args[:count])
            if part not in context.cells:
                since = self._writer.position
                made = self._writer.new_cell(Plain.TRUTH)
                self._writer.attach(procedure, before, added, made)
                context.cells[part] = self._writer.made(made, since)
                self._all.join(part, made, context)
            before = context.cells[part]

    def _define_comparison(self, each: Node, cell: str, context: Context) -> None:
        if each.op is Op.ALL_DIFFERENT:
            self._all.define_as(different(each), context, cell)
        elif each.op is Op.ROOM:
            self._all.define_as(Shared.of(each).in_parts(), context, cell)
        elif each.op is Op.AMONG:
            self._among(each, cell, context)
        elif each.op is Op.PAIR:
            self._pair(each, cell, context)
        else:
            self.compare(each, cell, context)

    def _among(self, each: Node, cell: str, context: Context) -> None:
        """One of some elements: by a relation to a domain of `in` and `out`."""
        element = each.args[0]
        domain = domain_of(element.kind)
        pairs = [(name, "in" if name in each.entries else "out") for name in domain.elements]
        relation = self._writer.relation(domain, INSIDE, pairs)
        side = self._writer.new_cell(INSIDE)
        inside = self._all.cell_of(constant("in", INSIDE), context)
        self._writer.attach("link", self._all.cell_of(element, context), side, by=relation)
        self._writer.attach("alike", side, inside, cell)

    def _pair(self, each: Node, cell: str, context: Context) -> None:
        """A pair of a relation: by its rows, and as a link where it is one, or is none."""
        self._all.define_as(rows_of(each), context, cell)
        other = self._writer.new_cell(Plain.TRUTH)
        self._writer.attach("not", cell, other)
        for gate, holds in ((cell, True), (other, False)):
            within = Context(gate, None, context)
            for arg in dict.fromkeys(each.args):
                self._all.bring_in(arg, within)
            self.link(each, holds, within)
