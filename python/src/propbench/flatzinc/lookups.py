"""A number in a set that is looked up among constants: a row of a table, told at once.

`x in sets[i]` MiniZinc takes apart: it brings in a variable for the set, which is the one at the
place i, and which has x in it. Where nothing else is said of that set, i and x are one of the pairs
that the constants have, and there is no need for a truth of each element.
"""

from collections import Counter
from collections.abc import Iterator
from dataclasses import replace

from propbench.flatzinc.terms import TABLE, Constraint, Flat, FlatTerm, Name, Numbers

_LOOKED_UP, _IN = "array_set_element", "set_in"
# A table has so many rows at the most.
_MOST_ROWS = 2_000


def with_pairs(flat: Flat) -> Flat:
    """The model with such pairs in place of sets.

    >>> from propbench.flatzinc.grammar import read
    >>> text = '''var 1..2: i; var 3..5: x; var set of 3..5: s :: var_is_introduced;
    ... constraint array_set_element(i, [{3, 5}, {4}], s) :: defines_var(s);
    ... constraint set_in(x, s);
    ... solve satisfy;'''
    >>> [(each.name, each.args[1]) for each in with_pairs(read(text)).constraints]
    [('propbench_table', (1, 3, 1, 5, 2, 4))]
    """
    rows = _rows_by_set(flat)
    if not rows:
        return flat
    constraints = []
    for each in flat.constraints:
        name = _set_of(each)
        if name not in rows:
            constraints.append(each)
        elif each.name == _IN:
            index, cells = rows[name]
            constraints.append(Constraint(TABLE, ((index, each.args[0]), cells), None, each.line))
    variables = {name: it for name, it in flat.variables.items() if name not in rows}
    return replace(flat, variables=variables, constraints=constraints)


def _rows_by_set(flat: Flat) -> dict[str, tuple[FlatTerm, tuple[int, ...]]]:
    """The place, and the pairs behind one another, of each set of which nothing else is said."""
    said = Counter(_set_of(each) for each in flat.constraints if each.name == _IN)
    used = Counter(flat.names(_terms(flat))) if said else said
    found = {}
    for each in flat.constraints:
        name = _set_of(each)
        # (which is said once more where it is looked up)
        if each.name == _LOOKED_UP and said[name] and used[name] == said[name] + 1:
            cells = _cells(flat, each)
            if len(cells) <= 2 * _MOST_ROWS:
                found[name] = (each.args[0], cells)
    return found


def _set_of(constraint: Constraint) -> str:
    """The set of a lookup, or of what has a number in it, where that is a variable's name."""
    term = constraint.args[-1] if constraint.name in (_LOOKED_UP, _IN) else None
    return term.text if isinstance(term, Name) else ""


def _cells(flat: Flat, constraint: Constraint) -> tuple[int, ...]:
    """Each place of a lookup with each number of its set, where the variable may be that set."""
    variable, sets = flat.variables[_set_of(constraint)], flat.resolved(constraint.args[1])
    assert isinstance(sets, tuple) and variable.values is not None
    values, made = variable.values, list[int]()
    for place, term in enumerate(sets, 1):
        numbers = flat.resolved(term)
        assert isinstance(numbers, Numbers)
        if all(map(values.has, numbers.each())):
            made += (it for number in numbers.each() for it in (place, number))
    return tuple(made)


def _terms(flat: Flat) -> Iterator[FlatTerm]:
    """All that speaks of variables."""
    for constraint in flat.constraints:
        yield from constraint.args
    for array in flat.arrays.values():
        yield from array.elements if array.printed is not None else ()
    for variable in flat.variables.values():
        yield from () if variable.value is None else (variable.value,)
        # (what is printed, or given, is said by its declaration)
        is_told = variable.has("output_var") or variable.value is not None
        yield from (Name(variable.name),) if is_told else ()
    yield from flat.goal.annotations
