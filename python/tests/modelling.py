"""Random models for the tests of the workbench: what is stated, and what it means by brute force.

A recipe is an expression as nested tuples. `built` makes it of a workbench's cells, and `meant`
works it out at points, by Python's own arithmetic and none of the package's.
"""

from collections.abc import Callable, Iterator, Mapping
from dataclasses import dataclass
from itertools import product
from typing import Any

from hypothesis import strategies as st

from propbench import (
    Workbench,
    all_different,
    count,
    element,
    if_else,
    implies,
    maximum,
    minimum,
    pairs,
    total,
)

# A recipe: the name of what is done, and its arguments.
Recipe = tuple[Any, ...]
Points = Mapping[str, Any]

DAYS = ("mon", "tue", "wed", "thu")
TABLE = {"mon": 3, "tue": 1, "wed": 4, "thu": 1}
LATER = frozenset((one, other) for i, one in enumerate(DAYS) for other in DAYS[i + 1 :])
ENDS = {"x": (-3, 3), "y": (0, 4), "z": (-1, 2)}
CELLS = {
    **{name: tuple(range(low, high + 1)) for name, (low, high) in ENDS.items()},
    "b": (False, True),
    "c": (False, True),
    "d": DAYS,
    "e": DAYS,
}


class NoValue(Exception):
    """A division by zero."""


def meant(recipe: Recipe, points: Points) -> Any:
    """What a recipe means at points. A comparison over what has no value is false."""
    name, *args = recipe
    if name == "cell":
        return points[args[0]]
    if name == "constant":
        return args[0]
    if name == "if":
        return meant(args[1] if meant(args[0], points) else args[2], points)
    if name in ("implies", "not", "and", "or", "xor"):
        truths = [meant(arg, points) for arg in args]
        ways: dict[str, Callable[[], object]] = {
            "implies": lambda: not truths[0] or truths[1],
            "not": lambda: not truths[0],
            "and": lambda: all(truths),
            "or": lambda: any(truths),
            "xor": lambda: truths[0] != truths[1],
        }
        return ways[name]()
    try:
        values = [meant(arg, points) for arg in args]
        return _worked_out(name, values)
    except NoValue:
        if name in COMPARISONS:
            return False
        raise


def _worked_out(name: str, values: list[Any]) -> Any:
    first, *others = values
    if name in ("quotient", "remainder") and others[0] == 0:
        raise NoValue
    ways: dict[str, Callable[[], object]] = {
        "sum": lambda: sum(values),
        "total": lambda: sum(values),
        "difference": lambda: first - others[0],
        "negative": lambda: -first,
        "product": lambda: first * others[0],
        "quotient": lambda: first // others[0],
        "remainder": lambda: first % others[0],
        "power": lambda: first ** others[0],
        "absolute": lambda: abs(first),
        "maximum": lambda: max(values),
        "minimum": lambda: min(values),
        "count": lambda: sum(values),
        "table": lambda: TABLE[first],
        "less": lambda: first < others[0],
        "at most": lambda: first <= others[0],
        "greater": lambda: first > others[0],
        "at least": lambda: first >= others[0],
        "equal": lambda: first == others[0],
        "unequal": lambda: first != others[0],
        "different": lambda: len(set(values)) == len(values),
        "later": lambda: (first, others[0]) in LATER,
        "early": lambda: first in ("mon", "tue"),
    }
    return ways[name]()


COMPARISONS = frozenset(
    ("less", "at most", "greater", "at least", "equal", "unequal", "different", "later", "early")
)


def built(recipe: Recipe, cells: Mapping[str, Any]) -> Any:
    """The recipe as an expression over cells."""
    name, *args = recipe
    if name == "cell":
        return cells[args[0]]
    if name == "constant":
        return args[0]
    values = [built(arg, cells) for arg in args]
    first, *others = values
    ways: dict[str, Callable[[], object]] = {
        "sum": lambda: first + others[0],
        "total": lambda: total(values),
        "difference": lambda: first - others[0],
        "negative": lambda: -first,
        "product": lambda: first * others[0],
        "quotient": lambda: first // others[0],
        "remainder": lambda: first % others[0],
        "power": lambda: first ** others[0],
        "absolute": lambda: abs(first),
        "maximum": lambda: maximum(values),
        "minimum": lambda: minimum(*values),
        "count": lambda: count(values),
        "table": lambda: element(first, TABLE),
        "less": lambda: first < others[0],
        "at most": lambda: first <= others[0],
        "greater": lambda: first > others[0],
        "at least": lambda: first >= others[0],
        "equal": lambda: first == others[0],
        "unequal": lambda: first != others[0],
        "different": lambda: all_different(values),
        "later": lambda: pairs(first, others[0], LATER),
        "early": lambda: first.among("mon", "tue"),
        "implies": lambda: implies(first, others[0]),
        "not": lambda: ~first,
        "and": lambda: first & others[0],
        "or": lambda: first | others[0],
        "xor": lambda: first ^ others[0],
        "if": lambda: if_else(first, *others),
    }
    return ways[name]()


def cell(name: str) -> Recipe:
    """The recipe of a cell."""
    return ("cell", name)


_number_cells = st.sampled_from([cell(name) for name in ENDS])
_constants = st.integers(-3, 4).map(lambda number: ("constant", number))
_truth_cells = st.sampled_from([cell("b"), cell("c")])
_elements = st.sampled_from([cell("d"), cell("e")])
_days = st.sampled_from([("constant", day) for day in DAYS])


def _numbers_of(inner: st.SearchStrategy[Recipe]) -> st.SearchStrategy[Recipe]:
    """Numbers made of numbers; the first argument is no constant."""
    either = st.one_of(inner, _constants)
    two = ("sum", "difference", "product", "quotient", "remainder")
    return st.one_of(
        st.tuples(st.sampled_from(two), inner, either),
        st.tuples(st.sampled_from(("maximum", "minimum", "total")), inner, either),
        st.tuples(st.sampled_from(("absolute", "negative")), inner),
        st.tuples(st.just("power"), inner, st.just(("constant", 0))),
        st.tuples(st.just("if"), _simple_truths, inner, either),
        st.tuples(st.just("table"), _elements),
        st.tuples(st.just("count"), _truth_cells, _simple_truths),
    )


_orders = st.sampled_from(("less", "at most", "greater", "at least", "equal", "unequal"))
_simple_truths: st.SearchStrategy[Recipe] = st.one_of(
    _truth_cells,
    st.tuples(_orders, _number_cells, st.one_of(_number_cells, _constants)),
    st.tuples(st.sampled_from(("equal", "unequal")), _elements, st.one_of(_elements, _days)),
    st.tuples(st.just("later"), _elements, _elements),
    st.tuples(st.just("early"), _elements),
)
numbers: st.SearchStrategy[Recipe] = st.recursive(_number_cells, _numbers_of, max_leaves=4)
comparisons: st.SearchStrategy[Recipe] = st.one_of(
    st.tuples(_orders, numbers, st.one_of(numbers, _constants)),
    st.tuples(st.just("different"), numbers, _number_cells, st.one_of(_number_cells, _constants)),
    st.tuples(st.just("different"), _elements, _elements, _days),
    st.tuples(st.just("different"), numbers),
    _simple_truths,
)
truths: st.SearchStrategy[Recipe] = st.recursive(
    comparisons,
    lambda inner: st.one_of(
        st.tuples(st.sampled_from(("and", "or", "xor", "implies", "equal")), inner, inner),
        st.tuples(st.just("not"), inner),
        st.tuples(st.just("if"), inner, inner, inner),
    ),
    max_leaves=3,
)


# Of three numbers that are 0 or 1 two are the same.
TWO_OF_THREE: Recipe = (
    "different",
    *(("remainder", cell(name), ("constant", 2)) for name in ENDS),
)


def far(recipe: Recipe) -> Recipe:
    """The recipe with a number in the place of z that may lie beyond 10^18: what is made of it is
    kept within gates."""
    if recipe == cell("z"):
        return ("product", recipe, ("constant", 6 * 10**17))
    return tuple(far(arg) if isinstance(arg, tuple) else arg for arg in recipe)


def names_in(recipe: Recipe) -> set[str]:
    """The cells in a recipe."""
    if recipe[0] == "cell":
        return {recipe[1]}
    return set().union(*(names_in(arg) for arg in recipe[1:] if isinstance(arg, tuple)))


def all_points(names: set[str]) -> Iterator[dict[str, Any]]:
    """All points of these cells."""
    ordered = sorted(names)
    for values in product(*(CELLS[name] for name in ordered)):
        yield dict(zip(ordered, values))


@dataclass(frozen=True)
class Bench:
    """A workbench and its cells by name."""

    workbench: Workbench
    cells: dict[str, Any]


def bench(program: str) -> Bench:
    """A workbench with a cell of each name."""
    made = Workbench(program)
    days = made.domain("day", DAYS)
    cells: dict[str, Any] = {name: made.number(name, *ends) for name, ends in ENDS.items()}
    cells |= {name: made.truth(name) for name in ("b", "c")}
    cells |= {name: made.element(name, days) for name in ("d", "e")}
    return Bench(made, cells)


def tell_all(made: Bench, points: Points, premise: str) -> None:
    """Tells each cell's point under a premise."""
    for name, value in points.items():
        made.workbench.tell(premise, made.cells[name], value)
