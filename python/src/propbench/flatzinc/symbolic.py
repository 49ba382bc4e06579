"""Which variables are only told apart: their values are elements of a domain, not numbers.

Of elements the program knows which are left, of numbers only between which they lie. So where a
variable is compared by `=`, `!=` and `all_different` alone, it is an element.
"""

from collections.abc import Iterable

from propbench.flatzinc.terms import TABLE, Constraint, Flat, FlatTerm, Name

# A domain has so many elements at the most.
_MOST = 64
# What looks up an entry of a row of constants, by an index that may be only told apart.
LOOKED_UP = ("array_int_element", "array_bool_element")
_DIFFERENCE = {(1, -1), (-1, 1)}


def compared(flat: Flat, constraint: Constraint) -> list[FlatTerm] | None:
    """What a constraint compares by `=` and `!=` alone; None where it does more."""
    name, args = constraint.name.removesuffix("_reif"), constraint.args
    if name in ("int_eq", "int_ne"):
        return list(args[:2])
    if name in ("fzn_all_different_int", TABLE):
        return list(_array(flat, args[0]))
    if name in ("set_in", "array_set_element"):
        return [args[0]]
    if name in ("int_lin_eq", "int_lin_ne") and flat.resolved(args[2]) == 0:
        factors = tuple(flat.resolved(each) for each in _array(flat, args[0]))
        return list(_array(flat, args[1])) if factors in _DIFFERENCE else None
    return None


def domains(flat: Flat) -> dict[str, tuple[int, ...]]:
    """The variables that are only told apart, with the values of all that they are compared to."""
    groups = _Groups()
    counted: set[str] = set(flat.names([flat.goal.objective] if flat.goal.objective else []))
    for constraint in flat.constraints:
        values = compared(flat, constraint)
        if values is None and constraint.name not in LOOKED_UP:
            counted.update(flat.names(constraint.args))
        elif values is None:
            # (of the index alone)
            groups.join([flat.resolved(constraint.args[0])])
            counted.update(flat.names(constraint.args[1:]))
        elif constraint.name == TABLE:
            # (columns are not compared with one another)
            for each in values:
                groups.join([flat.resolved(each)])
        else:
            groups.join([flat.resolved(each) for each in values])
    for variable in flat.variables.values():
        if variable.value is not None:
            counted.update((variable.name, *flat.names([variable.value])))
    found: dict[str, tuple[int, ...]] = {}
    for group in groups.all():
        names = {each.text for each in group if isinstance(each, Name)}
        declared = (flat.variables[name].values for name in names)
        known = [each for each in declared if each is not None]
        spans = {span for each in known for span in each.ranges}
        is_small = sum(high - low + 1 for low, high in spans) <= _MOST * len(names)
        if names & counted or len(known) < len(names) or not is_small:
            continue
        numbers = {each for each in group if isinstance(each, int)}
        numbers.update(value for low, high in spans for value in range(low, high + 1))
        if 2 <= len(numbers) <= _MOST:
            found |= {name: tuple(sorted(numbers)) for name in names}
    return found


class _Groups:
    """Terms that are compared with one another: a constant belongs to no group but its own uses."""

    def __init__(self) -> None:
        self._of: dict[FlatTerm, set[FlatTerm]] = {}

    def join(self, terms: Iterable[FlatTerm]) -> None:
        """Takes in that these are compared."""
        given = list(terms)
        joined: set[FlatTerm] = {each for each in given}
        for each in given:
            if isinstance(each, Name):
                joined |= self._of.get(each, set())
        for each in joined:
            if isinstance(each, Name):
                self._of[each] = joined

    def all(self) -> list[set[FlatTerm]]:
        """The groups that have a variable."""
        return list({id(group): group for group in self._of.values()}.values())


def _array(flat: Flat, term: FlatTerm) -> tuple[FlatTerm, ...]:
    found = flat.resolved(term)
    assert isinstance(found, tuple)
    return found
