"""Expressions as data: nodes, of which equal ones are one object.

What a node means, and how it is written, stands in `meaning` and `writing`.
"""

from collections.abc import Iterable
from dataclasses import dataclass
from enum import Enum, auto
from weakref import WeakValueDictionary

from propbench.model.kinds import Kind, Plain, Point
from propbench.model.measures import Measure


class Op(Enum):
    """What a node does with its arguments."""

    CELL = auto()
    CONSTANT = auto()
    # numbers of numbers
    SUM = auto()
    DIFFERENCE = auto()
    NEGATIVE = auto()
    PRODUCT = auto()
    QUOTIENT = auto()
    REMAINDER = auto()
    ABSOLUTE = auto()
    MAXIMUM = auto()
    MINIMUM = auto()
    # numbers of truths, and of an element by a table
    BIT = auto()
    COUNT = auto()
    TABLE = auto()
    # any kind
    IF = auto()
    # truths of numbers
    LESS = auto()
    AT_MOST = auto()
    GREATER = auto()
    AT_LEAST = auto()
    # a capacity, and of each task that shares it the start, the length, and what it needs
    ROOM = auto()
    # truths of any kind
    EQUAL = auto()
    UNEQUAL = auto()
    ALL_DIFFERENT = auto()
    # truths of elements: one of some, a pair of a relation
    AMONG = auto()
    PAIR = auto()
    # truths of truths
    NOT = auto()
    AND = auto()
    OR = auto()
    XOR = auto()
    IMPLIES = auto()
    # a comparison alone, without what it needs to have a value
    RAW = auto()

    # (that of an Enum takes a while, and is asked for often)
    __hash__ = object.__hash__


NUMBERS = frozenset(
    (Op.SUM, Op.DIFFERENCE, Op.NEGATIVE, Op.PRODUCT, Op.QUOTIENT, Op.REMAINDER, Op.ABSOLUTE)
) | {Op.MAXIMUM, Op.MINIMUM, Op.BIT, Op.COUNT, Op.TABLE}
COMPARISONS = frozenset(
    (Op.LESS, Op.AT_MOST, Op.GREATER, Op.AT_LEAST, Op.EQUAL, Op.UNEQUAL, Op.ALL_DIFFERENT)
) | {Op.AMONG, Op.PAIR, Op.ROOM}


@dataclass(frozen=True, eq=False)
class Declared:
    """A cell that a user declared: its name and kind, the numbers that it may have (None where no
    end was given), whose it is, and what it counts, where it is a measured quantity."""

    name: str
    kind: Kind
    low: int | None
    high: int | None
    owner: object
    measure: Measure | None = None


# What a node holds beside its arguments: a cell, a constant, a table's or a set's entries.
Payload = Declared | Point | tuple[object, ...] | None


@dataclass(frozen=True, eq=False)
class Node:
    """An expression: what it does, with what, and the kind of its value."""

    op: Op
    args: tuple["Node", ...]
    payload: Payload
    kind: Kind

    @property
    def constant(self) -> Point:
        """The value of a constant."""
        assert isinstance(self.payload, (int, str))
        return self.payload

    @property
    def declared(self) -> Declared:
        """The cell that the node is."""
        assert isinstance(self.payload, Declared)
        return self.payload

    @property
    def entries(self) -> tuple[object, ...]:
        """What a table, a set or a relation holds."""
        assert isinstance(self.payload, tuple)
        return self.payload


_known: "WeakValueDictionary[object, Node]" = WeakValueDictionary()


def node(op: Op, args: Iterable[Node], payload: Payload = None, kind: Kind | None = None) -> Node:
    """The node of this operation, the same for the same arguments."""
    given = tuple(args)
    made = kind or (Plain.NUMBER if op in NUMBERS else Plain.TRUTH)
    key = (op, given, payload, made)
    found = _known.get(key)
    if found is None:
        found = _known[key] = Node(op, given, payload, made)
    return found


def cell(declared: Declared) -> Node:
    """The node of a user's cell."""
    return node(Op.CELL, (), declared, declared.kind)


def constant(value: Point, kind: Kind) -> Node:
    """The node of a constant."""
    return node(Op.CONSTANT, (), value, kind)


def number(value: int) -> Node:
    """A constant number."""
    return constant(value, Plain.NUMBER)


TRUE = constant(True, Plain.TRUTH)
FALSE = constant(False, Plain.TRUTH)
ZERO, ONE = number(0), number(1)


def negated(truth: Node) -> Node:
    """The node of `not truth`."""
    if truth in (TRUE, FALSE):
        return FALSE if truth is TRUE else TRUE
    return truth.args[0] if truth.op is Op.NOT else node(Op.NOT, (truth,))


def all_of(truths: Iterable[Node]) -> Node:
    """The node of `all of these`."""
    kept = tuple(dict.fromkeys(each for each in truths if each is not TRUE))
    if FALSE in kept:
        return FALSE
    return node(Op.AND, kept) if len(kept) > 1 else kept[0] if kept else TRUE


def any_of(truths: Iterable[Node]) -> Node:
    """The node of `one of these`."""
    kept = tuple(dict.fromkeys(each for each in truths if each is not FALSE))
    if TRUE in kept:
        return TRUE
    return node(Op.OR, kept) if len(kept) > 1 else kept[0] if kept else FALSE


def equal(left: Node, right: Node) -> Node:
    """The node of `left == right`."""
    return node(Op.EQUAL, (left, right))


def less(left: Node, right: Node) -> Node:
    """The node of `left < right`."""
    return node(Op.LESS, (left, right))


def cells_in(root: Node) -> list[Declared]:
    """The user's cells in an expression, each once, in order of their places."""
    found: dict[Declared, None] = {}
    waiting, seen = [root], {root}
    while waiting:
        each = waiting.pop()
        if each.op is Op.CELL:
            found[each.declared] = None
        fresh = [arg for arg in reversed(each.args) if arg not in seen]
        seen.update(fresh)
        waiting += fresh
    return list(found)
