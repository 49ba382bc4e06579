"""The order in which the values of a model's variables are tried out, by its search annotations.

`input_order` is as the variables stand; any other order of variables is the fewest values first. Of
values the smallest is tried first, or the greatest by `indomain_max` and the like.
"""

from collections.abc import Iterator
from dataclasses import dataclass

from propbench.flatzinc.building import Built
from propbench.flatzinc.terms import Call, FlatTerm, Name
from propbench.model.cells import Cell

_SEARCHES = ("int_search", "bool_search", "set_search")
_FROM_TOP = ("indomain_max", "indomain_reverse_split", "outdomain_min")


@dataclass(frozen=True)
class Group:
    """Cells of which the one with the fewest values comes first."""

    cells: tuple[Cell, ...]
    is_from_top: bool


def order_of(built: Built, is_free: bool = False) -> list[Group]:
    """The cells that come first by the annotations of the goal, unless the search is free of these,
    and behind them those that the model itself has."""
    annotations = () if is_free else built.flat.goal.annotations
    groups = [group for each in annotations for group in _groups(built, each)]
    named = {cell.name for group in groups for cell in group.cells}
    others = tuple(cell for cell in built.own if cell.name not in named)
    return [*groups, Group(others, False)]


def _groups(built: Built, annotation: FlatTerm) -> Iterator[Group]:
    if not isinstance(annotation, Call):
        return
    if annotation.name == "seq_search":
        for each in _elements(built, annotation.args[0] if annotation.args else ()):
            yield from _groups(built, each)
    elif annotation.name in _SEARCHES and len(annotation.args) >= 3:
        variables, by, value = annotation.args[:3]
        cells = tuple(_cells(built, variables))
        is_from_top = isinstance(value, Name) and value.text in _FROM_TOP
        if by == Name("input_order"):
            yield from (Group((cell,), is_from_top) for cell in cells)
        else:
            yield Group(cells, is_from_top)


def _cells(built: Built, variables: FlatTerm) -> Iterator[Cell]:
    for each in _elements(built, variables):
        if isinstance(each, Name):
            yield from built.cells_of(each.text)


def _elements(built: Built, term: FlatTerm) -> tuple[FlatTerm, ...]:
    """The elements of an array in an annotation, which is only a hint: none where it is none."""
    found = built.flat.resolved(term)
    return found if isinstance(found, tuple) else ()
