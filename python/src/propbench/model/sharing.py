"""Tasks that share what there is only so much of: what has to hold of any two of them, and of each
beside the others.

Most is in use when some task starts: so each has to have room beside those that run then. What
takes no time uses nothing.
"""

from collections.abc import Iterable, Iterator, Sequence
from dataclasses import dataclass
from itertools import combinations

from propbench.model.kinds import Plain
from propbench.model.nodes import ZERO, Node, Op, all_of, any_of, node, number


@dataclass(frozen=True)
class TaskUse:
    """When a task starts, how long it takes, and how much it needs then."""

    start: Node
    length: Node
    needs: int

    @property
    def end(self) -> Node:
        """When it ends."""
        return node(Op.SUM, (self.start, self.length))

    def runs_at(self, time: Node) -> Node:
        """The truth that it runs at a time."""
        began = node(Op.AT_MOST, (self.start, time))
        return all_of([began, node(Op.LESS, (time, self.end))])


@dataclass(frozen=True)
class Shared:
    """How much there is, and who uses it."""

    capacity: int
    uses: tuple[TaskUse, ...]

    @staticmethod
    def of(room: Node) -> "Shared":
        """That of which a node says that it is enough."""
        capacity, *rest = room.args
        parts = zip(rest[::3], rest[1::3], rest[2::3])
        uses = (TaskUse(start, length, int(needs.constant)) for start, length, needs in parts)
        return Shared(int(capacity.constant), tuple(uses))

    @property
    def most(self) -> int:
        """How much is in use where all run at once."""
        return sum(use.needs for use in self.uses)

    def room(self) -> Node:
        """The truth that it is enough at any time."""
        first, *others = self.uses
        return node(Op.ROOM, (number(self.capacity), *self.parts_of(first, others)))

    @staticmethod
    def parts_of(own: TaskUse, others: Iterable[TaskUse]) -> list[Node]:
        """Of a task and others when they start, how long they take, and what they need."""
        return [it for use in (own, *others) for it in (use.start, use.length, number(use.needs))]

    def apart(self) -> Iterator[Node]:
        """For any two that need more together than there is, the truth that they share no time."""
        for one, other in combinations(self.uses, 2):
            if one.needs + other.needs > self.capacity:
                first = node(Op.AT_MOST, (one.end, other.start))
                second = node(Op.AT_MOST, (other.end, one.start))
                none = [node(Op.AT_MOST, (use.length, ZERO)) for use in (one, other)]
                yield any_of([first, second, *none])

    def beside(self) -> Iterator[tuple[TaskUse, list[TaskUse]]]:
        """Each task with those that may run beside it, where these need more than there is."""
        for own in self.uses:
            others = [it for it in self.uses if it is not own]
            others = [it for it in others if own.needs + it.needs <= self.capacity]
            if own.needs + sum(it.needs for it in others) > self.capacity:
                yield own, others

    def load_fits(self, own: TaskUse, others: Sequence[TaskUse]) -> Node:
        """The truth that a task has room beside those that run when it starts."""
        if not others:
            return node(Op.AT_MOST, (own.length, ZERO))
        takes = node(Op.LESS, (ZERO, own.length))
        loads = [
            _load(takes, own.needs),
            *(_load(it.runs_at(own.start), it.needs) for it in others),
        ]
        return node(Op.AT_MOST, (node(Op.SUM, loads), number(self.capacity)))

    def in_parts(self) -> Node:
        """What the truth that it is enough stands for."""
        return all_of([*self.apart(), *(self.load_fits(*each) for each in self.beside())])


def _load(runs: Node, needs: int) -> Node:
    """How much is in use of what runs where a truth holds."""
    return node(Op.IF, (runs, number(needs), ZERO), None, Plain.NUMBER)
