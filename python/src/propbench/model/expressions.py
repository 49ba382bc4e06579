"""What a user writes: numbers, truths, elements and symbols, with the operators of Python.

A comparison is a constraint and not an answer: `x < y` says nothing by itself, and `if x < y` is a
TypeError. Constants may stand where a cell may; they are whole numbers, `True` and `False`, and the
names of elements and symbols.
"""

from collections.abc import Iterable, Iterator, Mapping
from numbers import Integral
from operator import index
from typing import NoReturn, SupportsIndex, TypeVar, cast, overload

from propbench.model.definedness import has_value
from propbench.model.kinds import Domain, Kind, Plain, Point, kind_text
from propbench.model.meaning import value_of
from propbench.model.nodes import (
    FALSE,
    ONE,
    TRUE,
    ZERO,
    Node,
    Op,
    all_of,
    any_of,
    constant,
    negated,
    node,
    number,
)
from propbench.model.core import among
from propbench.model.writing import text_of
from propbench.words import MOST_NUMBER


# A number is raised to so much at the most.
_MOST_POWER = 64


class Expression:
    """Something with a value: a cell, or what is made of cells and constants."""

    # (so a number of numpy's in front leaves it to the expression what is made of both)
    __array_ufunc__ = None

    def __init__(self, node: Node) -> None:
        self._node = node

    @property
    def node(self) -> Node:
        """The expression as data.

        >>> w = Workbench()
        >>> x = w.number("x", 0, 9)
        >>> (x + 1).node.op.name
        'SUM'
        """
        return self._node

    def __repr__(self) -> str:
        return text_of(self._node)

    def __bool__(self) -> bool:
        raise TypeError(f"`{self!r}` has no value yet: ask its cells, by `.ask()`")

    # (Two expressions that look alike are not the same: `==` states a constraint.)
    __hash__ = object.__hash__

    # (By its type too a value is no list of numbers, which `total` and `maximum` take.)
    def __iter__(self) -> Iterator[object]:
        raise TypeError(f"`{self!r}` is one value, not several")


class Number(Expression):
    """A whole number: `+ - * // %`, `abs`, and the comparisons.

    `//` rounds down, as in Python, and `%` is what is left. By zero there is no value, and a
    constraint over what has none is false.
    """

    def __add__(self, other: "Number | int") -> "Number":
        return _number(Op.SUM, self, other)

    def __radd__(self, other: int) -> "Number":
        return _number(Op.SUM, other, self)

    def __sub__(self, other: "Number | int") -> "Number":
        return _number(Op.DIFFERENCE, self, other)

    def __rsub__(self, other: int) -> "Number":
        return _number(Op.DIFFERENCE, other, self)

    def __mul__(self, other: "Number | int") -> "Number":
        return _number(Op.PRODUCT, self, other)

    def __rmul__(self, other: int) -> "Number":
        return _number(Op.PRODUCT, other, self)

    def __floordiv__(self, other: "Number | int") -> "Number":
        return _number(Op.QUOTIENT, self, other)

    def __rfloordiv__(self, other: int) -> "Number":
        return _number(Op.QUOTIENT, other, self)

    def __mod__(self, other: "Number | int") -> "Number":
        return _number(Op.REMAINDER, self, other)

    def __rmod__(self, other: int) -> "Number":
        return _number(Op.REMAINDER, other, self)

    def __divmod__(self, other: "Number | int") -> "tuple[Number, Number]":
        return self // other, self % other

    def __truediv__(self, other: object) -> NoReturn:
        raise TypeError(f"numbers are whole: write `{self!r} // {other!r}`, which rounds down")

    def __rtruediv__(self, other: object) -> NoReturn:
        raise TypeError(f"numbers are whole: write `{other!r} // {self!r}`, which rounds down")

    def __pow__(self, power: SupportsIndex) -> "Number":
        if isinstance(power, bool) or not isinstance(power, SupportsIndex) or index(power) < 0:
            raise TypeError(f"a power is a constant whole number from 0: {power!r}")
        power = index(power)
        if power == 0:
            # (what has no value has no power either)
            return Number(number(1)) if has_value(self._node) is TRUE else self * 0 + 1
        half = self ** (power // 2) if power > 1 else self
        if power == 1:
            return self
        if power > _MOST_POWER:
            raise ValueError(f"a power is by {_MOST_POWER} at the most: 2 ** 60 is above 10^18")
        return half * half * self if power % 2 else half * half

    def __neg__(self) -> "Number":
        return Number(_folded(Op.NEGATIVE, [self._node]))

    def __pos__(self) -> "Number":
        return self

    def __abs__(self) -> "Number":
        return Number(_folded(Op.ABSOLUTE, [self._node]))

    def __lt__(self, other: "Number | int") -> "Truth":
        return _compared(Op.LESS, self, other)

    def __le__(self, other: "Number | int") -> "Truth":
        return _compared(Op.AT_MOST, self, other)

    def __gt__(self, other: "Number | int") -> "Truth":
        return _compared(Op.GREATER, self, other)

    def __ge__(self, other: "Number | int") -> "Truth":
        return _compared(Op.AT_LEAST, self, other)

    # (object's `==` gives a bool; here and in the classes below it states a constraint, which is
    # what they are there for)
    def __eq__(self, other: "Number | int") -> "Truth":  # type: ignore[override]
        return _compared(Op.EQUAL, self, other)

    def __ne__(self, other: "Number | int") -> "Truth":  # type: ignore[override]
        return _compared(Op.UNEQUAL, self, other)

    __hash__ = object.__hash__


class Truth(Expression):
    """A truth, or a constraint: `&`, `|`, `~`, `^`, `==` and `!=`."""

    def __and__(self, other: "Truth | bool") -> "Truth":
        return Truth(_joined(Op.AND, self, other))

    __rand__ = __and__

    def __or__(self, other: "Truth | bool") -> "Truth":
        return Truth(_joined(Op.OR, self, other))

    __ror__ = __or__

    def __xor__(self, other: "Truth | bool") -> "Truth":
        return _compared(Op.XOR, self, other)

    __rxor__ = __xor__

    def __invert__(self) -> "Truth":
        return Truth(negated(self._node))

    # (as in Number)
    def __eq__(self, other: "Truth | bool") -> "Truth":  # type: ignore[override]
        return _compared(Op.EQUAL, self, other)

    def __ne__(self, other: "Truth | bool") -> "Truth":  # type: ignore[override]
        return _compared(Op.UNEQUAL, self, other)

    __hash__ = object.__hash__

    def __bool__(self) -> bool:
        raise TypeError(
            f"`{self!r}` is a constraint, and neither true nor false by itself: state it by "
            "`w.require(..)`; write `&`, `|` and `~` for and, or and not, each comparison in "
            "brackets, and `(a <= x) & (x <= b)` for `a <= x <= b`"
        )


class Element(Expression):
    """An element of a domain: `==`, `!=`, `among`."""

    # (as in Number)
    def __eq__(self, other: "Element | str") -> "Truth":  # type: ignore[override]
        return _compared(Op.EQUAL, self, other)

    def __ne__(self, other: "Element | str") -> "Truth":  # type: ignore[override]
        return _compared(Op.UNEQUAL, self, other)

    __hash__ = object.__hash__

    def among(self, *elements: str) -> Truth:
        """The constraint that it is one of these elements. Raises ValueError for a name that is
        none of its domain.

        >>> w = Workbench()
        >>> review = w.element("review", w.domain("day", "mon tue wed"))
        >>> w.require(review.among("mon", "wed"))
        >>> print(review.ask().value)
        {mon wed}
        """
        domain = domain_of_element(self)
        for element in elements:
            _checked_element(element, domain)
        return Truth(among(self._node, elements))


class SymbolExpression(Expression):
    """A symbol: any name; `==` and `!=`."""

    # (as in Number)
    def __eq__(self, other: "SymbolExpression | str") -> "Truth":  # type: ignore[override]
        return _compared(Op.EQUAL, self, other)

    def __ne__(self, other: "SymbolExpression | str") -> "Truth":  # type: ignore[override]
        return _compared(Op.UNEQUAL, self, other)

    __hash__ = object.__hash__


def domain_of_element(element: Element) -> Domain:
    """The domain of an element."""
    kind = element.node.kind
    assert isinstance(kind, Domain)
    return kind


def node_of(value: object, kind: Kind) -> Node:
    """The node of an expression of this kind, or of a constant of it. Raises TypeError for what is
    neither, and ValueError for a constant that no cell can hold."""
    if isinstance(value, Expression):
        if value.node.kind is Plain.NUMBER and not isinstance(value, Number):
            raise TypeError(
                f"`{value!r}` is measured, and no whole number: of quantities `w.law` states what "
                "holds"
            )
        if value.node.kind is not kind:
            raise TypeError(
                f"`{value!r}` is {kind_text(value.node.kind)}, where {kind_text(kind)} is wanted"
            )
        return value.node
    return constant(point_of(value, kind), kind)


def point_of(value: object, kind: Kind) -> Point:
    """A constant of this kind. Raises TypeError and ValueError as `node_of`."""
    if kind is Plain.NUMBER:
        return _checked_number(value)
    if kind is Plain.TRUTH:
        if not isinstance(value, bool):
            hint = ", or a constraint without quotes" if isinstance(value, str) else ""
            raise TypeError(f"{value!r} is no truth: write True or False{hint}")
        return value
    if not isinstance(value, str):
        raise TypeError(f"{value!r} is not {kind_text(kind)}: write its name as a text")
    return _checked_element(value, kind) if isinstance(kind, Domain) else value


def _checked_number(value: object) -> int:
    if isinstance(value, float):
        raise TypeError(f"numbers are whole, and {value!r} is written with a point")
    # (what is an int is found at once, other numbers take their time)
    if isinstance(value, bool) or not isinstance(value, (int, SupportsIndex)):
        raise TypeError(f"{value!r} is no whole number")
    number = index(value)
    if abs(number) > MOST_NUMBER:
        told = str(number) if abs(number) < MOST_NUMBER**3 else "a number of so many digits"
        raise ValueError(f"{told} lies beyond 10^18 either way")
    return number


def _checked_element(value: str, domain: Domain) -> str:
    if value not in domain.elements:
        raise ValueError(f"{value!r} is no element of {domain}")
    return value


def _folded(op: Op, args: Iterable[Node], kind: Kind | None = None) -> Node:
    """The node, or the constant that it is, where it has a value and all arguments are
    constants."""
    made = node(op, args, kind=kind)
    is_partial = op in (Op.QUOTIENT, Op.REMAINDER)
    if is_partial or any(arg.op is not Op.CONSTANT for arg in made.args):
        return made
    return constant(value_of(made, {}), made.kind)


# What changes nothing on the right of an operation.
_NEUTRAL = {Op.SUM: ZERO, Op.DIFFERENCE: ZERO, Op.PRODUCT: ONE, Op.QUOTIENT: ONE}


def _number(op: Op, left: "Number | int", right: "Number | int") -> Number:
    first, second = node_of(left, Plain.NUMBER), node_of(right, Plain.NUMBER)
    if second is _NEUTRAL.get(op) and isinstance(left, Number):
        return left
    if op in (Op.SUM, Op.PRODUCT) and first is _NEUTRAL[op] and isinstance(right, Number):
        # (so `sum(cells)` begins)
        return right
    if op is Op.SUM and first.op is Op.SUM:
        return Number(_folded(op, (*first.args, second)))
    return Number(_folded(op, (first, second)))


def _compared(op: Op, left: Expression, right: object) -> Truth:
    kind = left.node.kind
    if right is None:
        raise TypeError(f"`{left!r}` is compared with None: an answer has its value in `.value`")
    second = node_of(right, kind)
    return Truth(_folded(op, (left.node, second)))


def _joined(op: Op, left: Truth, right: "Truth | bool") -> Node:
    """`and` or `or` of two, in one with those that the first is made of."""
    first, second = left.node, node_of(right, Plain.TRUTH)
    args = first.args if first.op is op else (first,)
    return all_of((*args, second)) if op is Op.AND else any_of((*args, second))


# --- functions ---------------------------------------------------------------------------------


def implies(condition: "Truth | bool", consequence: "Truth | bool") -> Truth:
    """The constraint that the second holds wherever the first does."""
    first, second = node_of(condition, Plain.TRUTH), node_of(consequence, Plain.TRUTH)
    return Truth(_folded(Op.IMPLIES, (first, second)))


_Kind = TypeVar("_Kind", Number, Truth, Element, SymbolExpression)


@overload
def if_else(test: "Truth | bool", first: _Kind, second: "_Kind | Point") -> _Kind:
    ...


@overload
def if_else(test: "Truth | bool", first: Point, second: _Kind) -> _Kind:
    ...


@overload
def if_else(test: "Truth | bool", first: int, second: int) -> Number:
    ...


def if_else(test: "Truth | bool", first: object, second: object) -> Expression:
    """The first value where the test holds, and else the second; both of one kind."""
    truth = node_of(test, Plain.TRUTH)
    kind = _common_kind([first, second])
    values = node_of(first, kind), node_of(second, kind)
    if truth.op is Op.CONSTANT or values[0] is values[1]:
        return expression_of(values[0] if truth is not FALSE else values[1])
    return expression_of(node(Op.IF, (truth, *values), kind=kind))


def maximum(*numbers: "Number | int | Iterable[Number | int]") -> Number:
    """The greatest of these numbers, given one by one or as one list."""
    return _extreme(Op.MAXIMUM, numbers)


def minimum(*numbers: "Number | int | Iterable[Number | int]") -> Number:
    """The least of these numbers, given one by one or as one list."""
    return _extreme(Op.MINIMUM, numbers)


def total(*numbers: "Number | int | Iterable[Number | int]") -> Number:
    """The sum of these numbers, given one by one or as one list: 0 of none."""
    nodes = [node_of(each, Plain.NUMBER) for each in _several(numbers)]
    if len(nodes) < 2:
        return Number(nodes[0] if nodes else number(0))
    return Number(_folded(Op.SUM, nodes))


def count(*truths: "Truth | bool | Iterable[Truth | bool]") -> Number:
    """How many of these hold, given one by one or as one list."""
    nodes = [node_of(each, Plain.TRUTH) for each in _several(truths)]
    if not nodes:
        return Number(number(0))
    return Number(_folded(Op.COUNT, nodes))


def all_different(*values: "Expression | Point | Iterable[Expression | Point]") -> Truth:
    """The constraint that no two of these are the same, given one by one or as one list."""
    given = _several(values)
    if not given:
        return Truth(TRUE)
    kind = _common_kind(given)
    nodes = [node_of(each, kind) for each in given]
    if len(nodes) == 1 and has_value(nodes[0]) is TRUE:
        return Truth(TRUE)
    return Truth(_folded(Op.ALL_DIFFERENT, nodes))


def element(cell: Element, table: "Mapping[str, int]") -> Number:
    """The number that a table has for an element: `element(day, {"mon": 100, "tue": 150})`.

    The table has a number for each element of the domain.
    """
    if not isinstance(cell, Element):
        raise TypeError(f"a table is for an element of a domain, and `{cell!r}` is none")
    domain = domain_of_element(cell)
    missing = [name for name in domain.elements if name not in table]
    unknown = [name for name in table if name not in domain.elements]
    if missing or unknown:
        said = f"has nothing for {missing[0]}" if missing else f"has {unknown[0]}, which is none"
        raise ValueError(f"the table of the elements of {domain} {said}")
    numbers = tuple(_checked_number(table[name]) for name in domain.elements)
    if cell.node.op is Op.CONSTANT:
        return Number(number(numbers[domain.elements.index(str(cell.node.constant))]))
    return Number(node(Op.TABLE, (cell.node,), numbers))


def pairs(
    first: "Element | str", second: "Element | str", relation: "Iterable[tuple[str, str]]"
) -> Truth:
    """The constraint that two elements are a pair of a relation:
    `pairs(review, release, [("mon", "tue"), ("mon", "wed")])`."""
    if not isinstance(first, Element) or not isinstance(second, Element):
        raise TypeError("pairs are of two elements: of cells, or what is made of them")
    left, right = domain_of_element(first), domain_of_element(second)
    given = [tuple(pair) for pair in relation]
    for pair in given:
        if len(pair) != 2:
            raise ValueError(
                f"a relation is a list of pairs, and {pair!r} has {len(pair)}, not two"
            )
    kept = {(_checked_element(one, left), _checked_element(other, right)) for one, other in given}
    if not kept or len(kept) == len(left.elements) * len(right.elements):
        return Truth(TRUE if kept else FALSE)
    ordered = tuple(
        (one, other) for one in left.elements for other in right.elements if (one, other) in kept
    )
    return Truth(node(Op.PAIR, (first.node, second.node), ordered))


def _extreme(op: Op, numbers: "tuple[Number | int | Iterable[Number | int], ...]") -> Number:
    nodes = list(dict.fromkeys(node_of(each, Plain.NUMBER) for each in _several(numbers)))
    if not nodes:
        raise ValueError("of no numbers none is the greatest or the least")
    return Number(nodes[0] if len(nodes) == 1 else _folded(op, nodes))


def _several(given: "tuple[object, ...]") -> list[object]:
    """What was given one by one, or as one list."""
    if len(given) == 1 and not isinstance(given[0], (Expression, Integral, str)):
        [values] = given
        return list(cast("Iterable[object]", values))
    return list(given)


def _common_kind(values: "list[object]") -> Kind:
    """The kind of the first expression among these, or else of the first constant."""
    for value in values:
        if isinstance(value, Expression):
            return value.node.kind
    if isinstance(values[0], bool):
        return Plain.TRUTH
    return Plain.NUMBER if isinstance(values[0], SupportsIndex) else Plain.SYMBOL


def expression_of(made: Node) -> Expression:
    """The expression of a node, by its kind."""
    if isinstance(made.kind, Domain):
        return Element(made)
    return {Plain.NUMBER: Number, Plain.TRUTH: Truth, Plain.SYMBOL: SymbolExpression}[made.kind](
        made
    )
