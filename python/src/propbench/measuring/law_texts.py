"""Laws as texts, as one writes them: `density == mass / volume`, `length * 2 <= "1.2 m"`.

A text is read as an expression of Python, of which what makes terms is understood, and nothing is
carried out. A name is that of a quantity, also with spaces in it; `=` is `==`, and `^` is `**`.
"""

import ast
import re
from collections.abc import Callable, Iterable, Mapping
from fractions import Fraction

from propbench.measuring.elementary import FUNCTIONS, Calibration, at_level, pi
from propbench.measuring.exact import number_in, short
from propbench.measuring.functions import maximum, mean, minimum, total
from propbench.measuring.terms import Law, Made, Term, constant, power_of, real_of
from propbench.nearby import near_names
from propbench.showing import quoted

# A law has so many characters at the most.
_MOST = 4000
_SIGNS = {"^": "**", "·": "*", "×": "*", "−": "-", "≤": "<=", "≥": ">=", "=": "=="}
_FUNCTIONS: dict[str, Callable[..., Term]] = {
    "abs": abs,
    "sqrt": Term.sqrt,
    "mean": mean,
    "total": total,
    "maximum": maximum,
    "minimum": minimum,
    **FUNCTIONS,
}
# Of how many terms each is; of those with None there are any but none at all.
_COUNTS: dict[str, int | None] = {
    **dict.fromkeys(_FUNCTIONS, 1),
    "atan2": 2,
    **dict.fromkeys(("mean", "total", "maximum", "minimum", "hypot"), None),
}
_COUNTED = {1: "one term", 2: "two terms", None: "terms"}
_OPERATIONS: dict[type[ast.operator], Callable[[Term, Term], Term]] = {
    ast.Add: Term.__add__,
    ast.Sub: Term.__sub__,
    ast.Mult: Term.__mul__,
    ast.Div: Term.__truediv__,
}
_RELATIONS: dict[type[ast.cmpop], Callable[[Term, Term], Law]] = {
    ast.Eq: Term.__eq__,
    ast.LtE: Term.__le__,
    ast.Lt: Term.__lt__,
    ast.GtE: Term.__ge__,
    ast.Gt: Term.__gt__,
}
# What stands for the name of a quantity while a text is read.
_STANDS_FOR = "quantity_{}_"


class NotALaw(ValueError):
    """A text is no law of the quantities that there are."""


def laws_of(
    text: str, quantities: Mapping[str, Term], curves: Iterable[Calibration] = ()
) -> list[Law]:
    """The laws that a text states: one, or several where a term stands between two others. Curves
    that are given are functions by their names. Raises NotALaw, and as terms do: MixedUnits,
    NoReading, UnknownUnit."""
    if len(text) > _MOST:
        raise NotALaw(f"a law has {_MOST:,} characters at the most: {short(text)!r}")
    known = {each.name: each for each in curves}
    for name in known:
        if not name.isidentifier() or name in _FUNCTIONS or name in quantities:
            raise NotALaw(
                f"a law can't name the curve {quoted(name)}: call it by letters, digits and `_`,"
                " and "
                "as no function and no quantity is called"
            )
    return _Reading(text, quantities, known).laws()


class _Reading:
    """A text as it is read: with names that Python understands in the place of quantities."""

    def __init__(
        self, text: str, quantities: Mapping[str, Term], curves: Mapping[str, Calibration]
    ) -> None:
        self._text, self._quantities, self._curves = text, quantities, curves
        self._terms: dict[str, Term] = {}
        self._names: dict[str, str] = {}
        names = "|".join(map(re.escape, sorted(quantities, key=len, reverse=True)))
        known = rf"(?<![\w.])(?:{names})(?![\w.])" if names else r"(?!)"
        parts = rf"(?P<quoted>\"[^\"]*\"|'[^']*')|(?P<name>{known})|(?P<sign>[<>=!]=|[\^·×−≤≥=])"
        self._written = re.sub(parts, self._put, text.strip())

    def laws(self) -> list[Law]:
        """The laws that the text states."""
        tree = self._tree()
        if not self._names and not any(isinstance(each, ast.Name) for each in ast.walk(tree)):
            raise self._wrong("no quantity stands in it")
        if not isinstance(tree, ast.Compare):
            raise self._wrong("write `==`, `<=` or `>=` between its two sides")
        terms = [self._term(each) for each in (tree.left, *tree.comparators)]
        return [
            self._law(sign, left, right) for sign, left, right in zip(tree.ops, terms, terms[1:])
        ]

    def _put(self, found: re.Match[str]) -> str:
        """What Python reads in the place of a name, or of a sign. (`pH(..)` is the function, also
        where a quantity is called so.)"""
        is_called = found.string[found.end() :].lstrip().startswith("(")
        if found["name"] and not (is_called and found["name"] in _FUNCTIONS):
            name = self._names.get(found["name"])
            if name is None:
                name = _STANDS_FOR.format(len(self._names))
                self._names[found["name"]] = name
                self._terms[name] = self._quantities[found["name"]]
            return name
        return _SIGNS.get(found[0], found[0])

    def _tree(self) -> ast.expr:
        try:
            return ast.parse(self._written, mode="eval").body
        except RecursionError:
            raise self._wrong("it is nested too deeply") from None
        except (SyntaxError, ValueError, MemoryError):
            raise self._wrong(
                'an amount with a unit stands in quotes, as "9.81 m/s2", and a product has a `*`'
            ) from None

    def _law(self, sign: ast.cmpop, left: Term, right: Term) -> Law:
        compared = _RELATIONS.get(type(sign))
        if compared is None:
            raise self._wrong("between its sides stands `==`, `<=` or `>=`")
        return compared(left, right)

    def _term(self, tree: ast.expr) -> Term:
        """The term that a part of the text is."""
        if isinstance(tree, ast.Name):
            return self._named(tree.id)
        if isinstance(tree, ast.Constant):
            return self._constant(tree)
        if isinstance(tree, ast.UnaryOp) and isinstance(tree.op, ast.USub | ast.UAdd):
            inner = self._term(tree.operand)
            return -inner if isinstance(tree.op, ast.USub) else inner
        if isinstance(tree, ast.BinOp) and isinstance(tree.op, ast.Pow):
            return Made(power_of(self._term(tree.left).real, self._exponent(tree.right)))
        if isinstance(tree, ast.BinOp) and type(tree.op) in _OPERATIONS:
            return _OPERATIONS[type(tree.op)](self._term(tree.left), self._term(tree.right))
        if isinstance(tree, ast.Call):
            return self._called(tree)
        raise self._wrong("it has `+ - * / **`, brackets, names, numbers and amounts in quotes")

    def _named(self, name: str) -> Term:
        if name in self._terms:
            return self._terms[name]
        if name == "pi":
            return pi
        near = near_names(name, self._quantities)
        hint = f": did you mean {quoted(near[0])}?" if near else ""
        raise self._wrong(f"no quantity is called {quoted(name)}{hint}")

    def _constant(self, tree: ast.Constant) -> Term:
        if isinstance(tree.value, str):
            return Made(real_of(tree.value))
        return Made(constant(self._number(tree)))

    def _number(self, tree: ast.expr) -> Fraction:
        """A number as it is written. Raises NotALaw."""
        try:
            return number_in(ast.get_source_segment(self._written, tree) or "")
        except ValueError:
            raise self._wrong("a number is written as 5, 0.1 or 1e-3") from None

    def _exponent(self, tree: ast.expr) -> Fraction:
        if isinstance(tree, ast.UnaryOp) and isinstance(tree.op, ast.USub):
            return -self._exponent(tree.operand)
        if isinstance(tree, ast.BinOp) and isinstance(tree.op, ast.Div):
            below = self._exponent(tree.right)
            if below:
                return self._exponent(tree.left) / below
        if isinstance(tree, ast.Constant):
            return self._number(tree)
        raise self._wrong("a power is by a number")

    def _called(self, tree: ast.Call) -> Term:
        name = tree.func.id if isinstance(tree.func, ast.Name) else ""
        if name in self._curves and len(tree.args) == 1 and not tree.keywords:
            return self._curves[name](self._term(tree.args[0]))
        if name not in _FUNCTIONS or tree.keywords:
            raise self._wrong(f"its functions are {', '.join([*_FUNCTIONS, *self._curves])}")
        if name == "at_level" and len(tree.args) == 2:
            return at_level(self._term(tree.args[0]), self._unit(tree.args[1]))
        args = [self._term(each) for each in tree.args]
        count = _COUNTS[name]
        if not args or count not in (None, len(args)):
            raise self._wrong(f"`{name}` is of {_COUNTED[count]}")
        return _FUNCTIONS[name](*args)

    def _unit(self, tree: ast.expr) -> str:
        """A unit, as it stands in quotes. Raises NotALaw."""
        if isinstance(tree, ast.Constant) and isinstance(tree.value, str):
            return tree.value
        raise self._wrong('the unit of a level stands in quotes, as `at_level(x, "W")`')

    def _wrong(self, why: str) -> NotALaw:
        return NotALaw(f"{quoted(self._text.strip())} is no law: {why}")
