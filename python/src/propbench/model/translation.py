"""From constraints to lines: what is stated, what is denied, and cells for what lies within.

Each expression has one cell in each context in which it stands; cells of one expression in several
contexts hold the same while these hold, so what one constraint finds out all others know.
"""

from propbench.model.context import Context
from propbench.model.core import different, in_core
from propbench.model.either import Either
from propbench.model.harmless import is_harmless
from propbench.model.kinds import Domain, Plain, domain_of
from propbench.model.nodes import FALSE, TRUE, Node, Op, negated
from propbench.model.numbers import NumberWriter
from propbench.model.sharing import Shared
from propbench.model.truths import Truths
from propbench.model.vocabulary import Vocabulary
from propbench.model.writer import YES, Writer, span_text
from propbench.words import MOST_NUMBER


class Translation:
    """All that was stated so far, as far as the lines for more depend on it."""

    def __init__(self, writer: Writer) -> None:
        self.writer = writer
        self.root = writer.root
        self._numbers = NumberWriter(self)
        self._truths = Truths(self)
        # The cells of an expression within gates, and the one that joins them.
        self._gated: dict[Node, list[tuple[Context, str]]] = {}
        self._joints: dict[Node, str] = {}
        # The truths of what is stated as one or another, each but the last, by their cells.
        self.forks: dict[str, Either] = {}

    @property
    def vocabulary(self) -> Vocabulary:
        """How things are called."""
        return self.writer.vocabulary

    def state(self, truth: Node, context: Context) -> None:
        """Writes the lines by which a truth holds while the context does."""
        self._state(truth, True, context)

    def cell_of(self, each: Node, context: Context) -> str:
        """The cell of an expression in a context, made where there is none yet."""
        if each not in context.cells:
            since = self.writer.position
            self._make(each, context)
            if self.writer.position > since:
                self.writer.made(context.cells[each], since)
        return context.cells[each]

    def define(self, each: Node, context: Context, cell: str) -> None:
        """Has a cell, one of the context's own, hold an expression that has none there yet."""
        core = in_core(each)
        context.cells[each] = context.cells[core] = cell
        if core.kind is Plain.TRUTH:
            self._truths.define(core, cell, context)
        else:
            self._numbers.define(core, cell, context)
        self.join(core, cell, context)

    def has_own_lines(self, each: Node, context: Context) -> bool:
        """Whether the expression may be defined into a cell: it has none there, and needs one."""
        core = in_core(each)
        is_known = each in context.cells or core in context.cells
        return core.op not in (Op.CELL, Op.CONSTANT) and not is_known

    def bring_in(self, each: Node, context: Context) -> str:
        """The context's copy of a cell that the context around it has."""
        assert context.outer
        since = self.writer.position
        copy = self.writer.new_cell(each.kind)
        self.writer.link(self.cell_of(each, context.outer), copy, context)
        context.cells[each] = context.cells[in_core(each)] = copy
        return self.writer.made(copy, since)

    def join(self, each: Node, cell: str, context: Context) -> None:
        """Has the cells of one expression in several contexts hold the same while they hold: those
        within gates are joined by one that is in none."""
        gated = self._gated.setdefault(each, [])
        joint = self._joints.get(each)
        if not context.is_gated:
            self._joints[each] = cell
            if joint:
                self.writer.join(joint, cell, context)
                return
            for other, inside in gated:
                self.writer.join(cell, inside, other)
            return
        gated.append((context, cell))
        if joint:
            self.writer.join(joint, cell, context)
        elif len(gated) > 1:
            joint = self._joints[each] = self.writer.joint(each.kind)
            for other, inside in gated:
                self.writer.join(joint, inside, other)

    def define_as(self, meaning: Node, context: Context, cell: str) -> None:
        """Has a cell, one of the context's own, hold what another expression does."""
        if self.has_own_lines(meaning, context):
            self.define(meaning, context, cell)
        else:
            self.writer.attach("same", self.cell_of(meaning, context), cell)

    def _is_known(self, truth: Node, holds: bool, context: Context) -> None:
        """Takes in that a truth was stated or denied, which may have got a cell by then."""
        if truth in context.cells:
            self.writer.narrow(context.cells[truth], _word(holds), Plain.TRUTH, context)
            return
        cell = context.cells[truth] = self._known(holds, context)
        self.join(truth, cell, context)

    def _make(self, each: Node, context: Context) -> None:
        core = in_core(each)
        if core is not each and core in context.cells:
            context.cells[each] = context.cells[core]
        elif core.op is Op.CELL and context.is_gated:
            context.cells[each] = self.bring_in(core, context)
        elif core.op is Op.CELL:
            context.cells[each] = self.vocabulary.cells.line(core.declared.name)
        elif core.op is Op.CONSTANT:
            cell = self.writer.constant(core.constant, core.kind, context)
            context.cells[each] = context.cells[core] = cell
        else:
            self.define(each, context, self.writer.new_cell(each.kind))

    def _state(self, truth: Node, holds: bool, context: Context) -> None:
        core = in_core(truth)
        if core.op is Op.NOT:
            self._state(core.args[0], not holds, context)
            return
        said = core if holds else negated(core)
        if said in context.stated:
            return
        context.stated.add(said)
        where = self._place(core, context)
        if holds and core.op is Op.RAW and core.args[0].op is Op.ALL_DIFFERENT:
            # (that tells more than the truth's cell, where there is one)
            self._truths.different_at_once(core.args[0], context)
        if said in (TRUE, FALSE):
            if said is FALSE:
                self.writer.narrow(YES, "no", Plain.TRUTH, context)
        elif core.op is (Op.AND if holds else Op.OR):
            for each in core.args:
                self._state(each, holds, context)
        elif core.op is Op.CELL or core in where.cells:
            self._narrow(core, _word(holds), context)
        elif core.op is Op.RAW:
            self._state_comparison(core, holds, context)
        elif where is context:
            cell = self._known(holds, context)
            (self._truths.any_into if holds else self._truths.all_into)(core, cell, context)
            self._is_known(core, holds, context)
            self._fork(core, context)
        else:
            self._narrow(core, _word(holds), context)
            self._fork(core, where)

    def _fork(self, each: Node, context: Context) -> None:
        """Takes in that one or another of these holds, or not all of them."""
        for arg in each.args[:-1]:
            others = tuple(other for other in each.args if other is not arg)
            is_other = each.op is Op.OR
            cell = self.cell_of(arg, context)
            self.forks.setdefault(cell, Either(arg, others if is_other else ()))

    def _place(self, each: Node, context: Context) -> Context:
        """Where the cell of an expression is to stand of which something is stated: where it tells
        nothing by itself, outside of the gate of a premise or an alternative."""
        is_outside = context.outer is self.root and is_harmless(each)
        return self.root if is_outside or each.op is Op.CELL else context

    def _known(self, holds: bool, context: Context) -> str:
        """A truth that is `yes`, or `no`, while the context holds."""
        return self.writer.opened(context) if holds else self.writer.closed(context)

    def _narrow(self, each: Node, text: str, context: Context) -> None:
        """States that an expression has a value, as written."""
        cell = self.cell_of(each, self._place(each, context))
        self.writer.narrow(cell, text, each.kind, context)

    def _state_comparison(self, core: Node, holds: bool, context: Context) -> None:
        """States or denies a comparison, which has no cell where it is to stand."""
        [each] = core.args
        if each.op is Op.AMONG:
            self._narrow_elements(each.args[0], each.entries, holds, context)
        elif each.op is Op.PAIR:
            self._truths.link(each, holds, context)
            # (from the elements alone a cell of that truth finds it out too late)
            self._is_known(core, holds, context)
        elif each.op is Op.ALL_DIFFERENT:
            self._state(different(each), holds, context)
        elif each.op is Op.ROOM:
            self._state_room(each, holds, context)
        elif not self._compared_with_constant(each, holds, context):
            if self._place(core, context) is not context:
                self._narrow(core, _word(holds), context)
            elif each.op is Op.EQUAL and holds:
                self._unite(each.args[0], each.args[1], context)
                self._is_known(core, holds, context)
            else:
                self._truths.compare(each, self._known(holds, context), context)
                self._is_known(core, holds, context)

    def _state_room(self, each: Node, holds: bool, context: Context) -> None:
        """States that what tasks share is enough, or that it isn't."""
        is_told = context is self.root or (context.outer is self.root and context.premise)
        if holds and is_told and is_harmless(each):
            self._truths.room_at_once(each, context)
        else:
            self._state(Shared.of(each).in_parts(), holds, context)

    def _compared_with_constant(self, each: Node, holds: bool, context: Context) -> bool:
        """States or denies `==` or `<` where one side is a constant, as a value of the other;
        whether that is so, and can be said."""
        left, right = each.args
        if Op.CONSTANT not in (left.op, right.op):
            return False
        if each.op is Op.LESS:
            self._narrow_number(each, holds, context)
            return True
        other, value = (right, left.constant) if left.op is Op.CONSTANT else (left, right.constant)
        if isinstance(other.kind, Domain):
            self._narrow_elements(other, (value,), holds, context)
        elif other.kind is Plain.TRUTH:
            self._narrow(other, _word(bool(value) is holds), context)
        elif holds:
            self._narrow(other, self.vocabulary.literal(value, other.kind), context)
        else:
            return False
        return True

    def _narrow_number(self, each: Node, holds: bool, context: Context) -> None:
        """States or denies `left < right`, where one of them is a constant: as a range."""
        left, right = each.args
        low, high = -MOST_NUMBER, MOST_NUMBER
        if right.op is Op.CONSTANT:
            number, other = int(right.constant), left
            low, high = (low, number - 1) if holds else (number, high)
        else:
            number, other = int(left.constant), right
            low, high = (number + 1, high) if holds else (low, number)
        if low > high:
            self.state(FALSE, context)
        else:
            self._narrow(other, span_text(low, high), context)

    def _unite(self, left: Node, right: Node, context: Context) -> None:
        """States that two expressions are the same: one is defined into the cell of the other."""
        if self.has_own_lines(left, context) and not self.has_own_lines(right, context):
            self.define(left, context, self.cell_of(right, context))
        else:
            cell = self.cell_of(left, context)
            self.define_as(right, context, cell)

    def _narrow_elements(
        self, each: Node, elements: tuple[object, ...], holds: bool, context: Context
    ) -> None:
        domain = domain_of(each.kind)
        kept = tuple(name for name in domain.elements if (name in elements) is holds)
        if kept:
            self._narrow(each, self.vocabulary.some(kept, domain), context)
        else:
            self.state(FALSE, context)


def _word(holds: bool) -> str:
    return "yes" if holds else "no"
