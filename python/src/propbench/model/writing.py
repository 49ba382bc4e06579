"""How expressions are written: as a user would write them in Python."""

from propbench.model.kinds import point_text
from propbench.model.nodes import Node, Op
from propbench.showing import printable

# How tightly a text holds together: from `implies(..)`, which always does, down to `==`.
_WHOLE, _UNARY, _TIMES, _PLUS, _AND, _XOR, _OR, _COMPARED = 8, 7, 6, 5, 4, 3, 2, 1

_BETWEEN = {
    Op.SUM: ("+", _PLUS),
    Op.DIFFERENCE: ("-", _PLUS),
    Op.PRODUCT: ("*", _TIMES),
    Op.QUOTIENT: ("//", _TIMES),
    Op.REMAINDER: ("%", _TIMES),
    Op.AND: ("&", _AND),
    Op.XOR: ("^", _XOR),
    Op.OR: ("|", _OR),
    Op.LESS: ("<", _COMPARED),
    Op.AT_MOST: ("<=", _COMPARED),
    Op.GREATER: (">", _COMPARED),
    Op.AT_LEAST: (">=", _COMPARED),
    Op.EQUAL: ("==", _COMPARED),
    Op.UNEQUAL: ("!=", _COMPARED),
}
_CALLED = {
    Op.ABSOLUTE: "abs",
    Op.MAXIMUM: "maximum",
    Op.MINIMUM: "minimum",
    Op.COUNT: "count",
    Op.BIT: "count",
    Op.IF: "if_else",
    Op.IMPLIES: "implies",
    Op.ALL_DIFFERENT: "all_different",
    Op.ROOM: "room",
}
# Of a long text the middle is left out.
_MOST = 200


def text_of(node: Node) -> str:
    """The expression as a user would write it; a very long one is cut in its middle."""
    text = _text(node)[0]
    return text if len(text) <= _MOST else f"{text[: _MOST // 2]} .. {text[-_MOST // 2 :]}"


def _text(node: Node) -> tuple[str, int]:
    """The text, and how tightly it holds together."""
    if node.op is Op.CELL:
        return printable(node.declared.name), _WHOLE
    if node.op is Op.CONSTANT:
        return _constant(node)
    if node.op is Op.RAW:
        return _text(node.args[0])
    if node.op in _BETWEEN:
        sign, tight = _BETWEEN[node.op]
        first, *others = node.args
        # (what stands on the right of a difference or quotient needs brackets, a comparison always)
        least = tight + 1 if tight == _COMPARED else tight
        parts = [_held(first, least), *(_held(each, tight + 1) for each in others)]
        return f" {sign} ".join(parts), tight
    if node.op in _CALLED:
        return f"{_CALLED[node.op]}({', '.join(_text(arg)[0] for arg in node.args)})", _WHOLE
    return _special(node)


def _held(node: Node, least: int) -> str:
    """The text within brackets, where it doesn't hold together so tightly."""
    text, tight = _text(node)
    return text if tight >= least else f"({text})"


def _constant(node: Node) -> tuple[str, int]:
    value = node.constant
    if isinstance(value, int) and not isinstance(value, bool):
        return str(value), _WHOLE if value >= 0 else _UNARY
    return printable(point_text(value)), _WHOLE


def _special(node: Node) -> tuple[str, int]:
    first = node.args[0]
    if node.op is Op.NOT:
        return f"~{_held(first, _UNARY)}", _UNARY
    if node.op is Op.NEGATIVE:
        return f"-{_held(first, _UNARY)}", _UNARY
    if node.op is Op.AMONG:
        return f"{_held(first, _WHOLE)}.among({_listed(node.entries)})", _WHOLE
    if node.op is Op.TABLE:
        return f"element({_text(first)[0]}, {{{_listed(node.entries)}}})", _WHOLE
    assert node.op is Op.PAIR
    return f"pairs({_text(first)[0]}, {_text(node.args[1])[0]}, ..)", _WHOLE


def _listed(entries: tuple[object, ...]) -> str:
    return ", ".join(printable(str(each)) for each in entries)
