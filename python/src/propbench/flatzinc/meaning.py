"""What each constraint of FlatZinc says, as a constraint of the workbench.

`NAME_reif` says that its last argument tells whether NAME holds, `NAME_imp` that NAME holds if it
does. A function says that its last argument is its value (`array_int_maximum` its first).
"""

from collections.abc import Callable, Sequence
from functools import reduce
from typing import Protocol

from propbench.flatzinc import arithmetic, sets
from propbench.flatzinc.arithmetic import every, picked, same_truth, sides_of, some, sum_of
from propbench.flatzinc.forms import called
from propbench.flatzinc.sets import Members
from propbench.flatzinc.terms import TABLE, Constraint, FlatTerm, Name, NotSupported, Numbers
from propbench.model.expressions import (
    Expression,
    Number,
    Truth,
    all_different,
    count,
    implies,
    maximum,
    minimum,
)
from propbench.model.sharing import Shared, TaskUse

# What all differ are looked at so many at a time, beside any two of them.
_AT_ONCE = 8
# A table of two columns is told by sets where there are so many times fewer of these than rows.
_SHORTER = 8


class Terms(Protocol):
    """What terms stand for in a workbench."""

    def number(self, term: FlatTerm) -> Number:
        """A number."""

    def truth(self, term: FlatTerm) -> Truth:
        """A truth."""

    def elements(self, term: FlatTerm) -> list[FlatTerm]:
        """The elements of an array, as they stand."""

    def numbers(self, term: FlatTerm) -> list[Number]:
        """An array of numbers."""

    def truths(self, term: FlatTerm) -> list[Truth]:
        """An array of truths."""

    def constants(self, term: FlatTerm) -> list[int]:
        """An array of constants."""

    def told_apart(self, constraint: Constraint) -> Truth | None:
        """What a constraint says of variables that are elements; None where they are none."""

    def values(self, term: FlatTerm) -> Numbers | None:
        """A constant set; None for a variable."""

    def members(self, term: FlatTerm) -> Members:
        """A set."""

    def sets_of(self, term: FlatTerm) -> list[Members]:
        """An array of sets."""

    def fresh(self, high: int) -> Number:
        """A number from 1 on that no variable has."""

    def looked_up(self, index: FlatTerm, row: Sequence[int]) -> tuple[Number, Truth] | None:
        """The entry of a row of constants by an index that is an element, and that there is one;
        None where the index is none."""


Args = tuple[FlatTerm, ...]
# What a constraint says of its arguments; what a function gives for all but the one it defines.
Says = Callable[[Terms, Args], Truth]
Gives = Callable[[Terms, Args], "tuple[Number | Truth, Truth] | None"]


def stated(terms: Terms, constraint: Constraint) -> Truth:
    """What the constraint says. Raises NotSupported."""
    name, args = constraint.name, constraint.args
    told_apart = terms.told_apart(constraint)
    if told_apart is not None:
        return (
            same_truth(told_apart, terms.truth(args[-1])) if name.endswith("_reif") else told_apart
        )
    if name == "bool_xor" and len(args) == 2:
        return _either(*(terms.truth(each) for each in args))
    for ending in ("_reif", "_imp"):
        says = _SAYS.get(name.removesuffix(ending)) if name.endswith(ending) else None
        if says is not None:
            held, told = says(terms, args[:-1]), terms.truth(args[-1])
            return same_truth(held, told) if ending == "_reif" else implies(told, held)
    if name in _SAYS:
        return _SAYS[name](terms, args)
    if name in _GIVES:
        return _is_value(terms, constraint)
    raise NotSupported(constraint.line, f"{called(name)} is not supported")


def defined(terms: Terms, constraint: Constraint) -> tuple[Number | Truth, Truth] | None:
    """What the variable is that the constraint defines, and what has to hold beside; None where
    that can't be said."""
    name, args = constraint.name, _with_value_last(constraint)
    if name == "int_lin_eq" and terms.told_apart(constraint) is None:
        return _solved(terms, args, constraint.defined)
    if args[-1] != Name(constraint.defined or ""):
        return None
    told_apart = terms.told_apart(constraint)
    if told_apart is not None:
        return told_apart, arithmetic.YES
    if name.endswith("_reif") and name.removesuffix("_reif") in _SAYS:
        return _SAYS[name.removesuffix("_reif")](terms, args[:-1]), arithmetic.YES
    if name in _GIVES and (name, len(args)) != ("bool_xor", 2):
        return _GIVES[name](terms, args[:-1])
    return None


def _solved(terms: Terms, args: Args, variable: str | None) -> tuple[Number, Truth] | None:
    """What a variable is by a sum in which it stands once, as it is or taken away."""
    factors, summed = terms.constants(args[0]), terms.elements(args[1])
    places = [place for place, each in enumerate(summed) if each == Name(variable or "")]
    if len(places) != 1 or abs(factors[places[0]]) != 1:
        return None
    sign = -factors.pop(places[0])
    numbers = [terms.number(each) for each in summed if each != Name(variable or "")]
    [bound] = terms.constants((args[2],))
    return sum_of([sign * each for each in factors], numbers, -sign * bound), arithmetic.YES


def _with_value_last(constraint: Constraint) -> Args:
    """The arguments, where the value of a function stands behind all others."""
    if constraint.name not in _FIRST:
        return constraint.args
    value, *others = constraint.args
    return (*others, value)


def _is_value(terms: Terms, constraint: Constraint) -> Truth:
    args = _with_value_last(constraint)
    given = _GIVES[constraint.name](terms, args[:-1])
    if given is None:
        raise NotSupported(
            constraint.line, f"{constraint.name} is supported for exponents up to 63 alone"
        )
    value, beside = given
    if isinstance(value, Truth):
        return every([same_truth(value, terms.truth(args[-1])), beside])
    return every([value == terms.number(args[-1]), beside])


# --- comparisons and logic ---


def _compares(compare: Callable[[Number, Number], Truth]) -> Says:
    return lambda terms, args: compare(terms.number(args[0]), terms.number(args[1]))


def _compares_sum(compare: Callable[[Number, Number], Truth]) -> Says:
    def says(terms: Terms, args: Args) -> Truth:
        factors, bound = terms.constants(args[0]), args[2]
        numbers = terms.numbers(args[1])
        # (`bool_lin_eq` compares with a variable)
        return compare(*sides_of([*factors, -1], [*numbers, terms.number(bound)], 0))

    return says


def _logic(says: Callable[..., Truth]) -> Says:
    return lambda terms, args: says(*(terms.truth(each) for each in args))


def _clause(terms: Terms, args: Args) -> Truth:
    negative = [~each for each in terms.truths(args[1])]
    return some([*terms.truths(args[0]), *negative])


def _different(terms: Terms, args: Args) -> Truth:
    return differing(terms.numbers(args[0]))


def differing(values: Sequence[Expression | str]) -> Truth:
    """That all of these differ: any two, and more at once where more is to be learned so."""
    if len(values) <= _AT_ONCE:
        return all_different(values)
    step = _AT_ONCE // 2
    groups = [values[place : place + _AT_ONCE] for place in range(0, len(values) - step, step)]
    return every([all_different(values), *map(all_different, groups)])


def _has_room(terms: Terms, args: Args) -> Truth:
    """That tasks which run at once need no more than there is, all at once."""
    parts = zip(terms.numbers(args[0]), terms.numbers(args[1]), terms.constants(args[2]))
    uses = [TaskUse(start.node, long.node, needs) for start, long, needs in parts]
    [capacity] = terms.constants((args[3],))
    return Truth(Shared(capacity, tuple(uses)).room()) if uses else arithmetic.YES


def _is_row(terms: Terms, args: Args) -> Truth:
    """A number says which row it is: each column is looked up by it."""
    columns = terms.numbers(args[0])
    rows = rows_of(terms.constants(args[1]), len(columns))
    if not columns or not rows:
        return arithmetic.NO if columns else arithmetic.YES
    if len(columns) == 2 and (blocks := _blocks(rows)):
        return some([every([*map(arithmetic.within, columns, each)]) for each in blocks])
    row = terms.fresh(len(rows))
    places = (picked(row, 1, [*map(arithmetic.constant, each)]) for each in zip(*rows))
    return every([found == column for found, column in zip(places, columns)])


def _blocks(rows: Sequence[tuple[int, ...]]) -> list[tuple[Numbers, Numbers]]:
    """What may stand in two columns, as sets of which each number goes with each; empty where that
    is not much shorter than the rows."""
    seconds: dict[int, list[int]] = {}
    for first, second in rows:
        seconds.setdefault(first, []).append(second)
    firsts: dict[Numbers, list[int]] = {}
    for first, others in seconds.items():
        firsts.setdefault(Numbers.of(others), []).append(first)
    is_short = len(firsts) * _SHORTER <= len(rows)
    return [(Numbers.of(some), others) for others, some in firsts.items()] if is_short else []


def rows_of(cells: Sequence[int], wide: int) -> list[tuple[int, ...]]:
    """The rows of a table, each once."""
    starts = range(0, len(cells), wide) if wide else ()
    return list(dict.fromkeys(tuple(cells[each : each + wide]) for each in starts))


def _either(first: Truth, second: Truth) -> Truth:
    return same_truth(first, ~second)


def _is_less(first: Truth, second: Truth) -> Truth:
    return ~first & second


# --- sets ---


def _is_in(terms: Terms, args: Args) -> Truth:
    number, values = terms.number(args[0]), terms.values(args[1])
    if values is not None:
        return arithmetic.within(number, values)
    return sets.has_number(terms.members(args[1]), number)


def _compares_sets(compare: Callable[[Members, Members], Truth]) -> Says:
    return lambda terms, args: compare(terms.members(args[0]), terms.members(args[1]))


def _joins_sets(join: Callable[[Members, Members], Members]) -> Says:
    def says(terms: Terms, args: Args) -> Truth:
        first, second, joined = (terms.members(each) for each in args)
        return sets.is_same(join(first, second), joined)

    return says


def _set_at(terms: Terms, args: Args) -> Truth:
    index, values = terms.number(args[0]), terms.sets_of(args[1])
    found = sets.is_same(sets.picked_set(index, values), terms.members(args[2]))
    return every([_is_index(index, len(values)), found])


def _constant_set_at(terms: Terms, args: Args) -> Truth:
    index, values = terms.number(args[0]), terms.sets_of(args[1])
    found = sets.is_same(sets.constant_at(index, values), terms.members(args[2]))
    return every([_is_index(index, len(values)), found])


# The sets that are made of two others.
JOINS: dict[str, Callable[[Members, Members], Members]] = {
    "set_diff": sets.without,
    "set_intersect": sets.both,
    "set_symdiff": sets.one_alone,
    "set_union": sets.either,
}
_SAYS: dict[str, Says] = {
    "int_eq": _compares(lambda x, y: x == y),
    "int_ne": _compares(lambda x, y: x != y),
    "int_le": _compares(lambda x, y: x <= y),
    "int_lt": _compares(lambda x, y: x < y),
    "int_ge": _compares(lambda x, y: x >= y),
    "int_gt": _compares(lambda x, y: x > y),
    "int_lin_eq": _compares_sum(lambda x, y: x == y),
    "int_lin_ne": _compares_sum(lambda x, y: x != y),
    "int_lin_le": _compares_sum(lambda x, y: x <= y),
    "bool_lin_eq": _compares_sum(lambda x, y: x == y),
    "bool_lin_ne": _compares_sum(lambda x, y: x != y),
    "bool_lin_le": _compares_sum(lambda x, y: x <= y),
    "set_in": _is_in,
    "set_eq": _compares_sets(sets.is_same),
    "set_ne": _compares_sets(lambda x, y: ~sets.is_same(x, y)),
    "set_le": _compares_sets(sets.is_at_most),
    "set_lt": _compares_sets(sets.is_less),
    "set_subset": _compares_sets(sets.is_within),
    "set_superset": _compares_sets(lambda x, y: sets.is_within(y, x)),
    "array_set_element": _constant_set_at,
    "array_var_set_element": _set_at,
    "bool_eq": _logic(same_truth),
    "bool_ne": _logic(_either),
    "bool_le": _logic(implies),
    "bool_lt": _logic(_is_less),
    "bool_clause": _clause,
    "fzn_all_different_int": _different,
    TABLE: _is_row,
    "propbench_count": lambda terms, args: count(terms.truths(args[0])) == terms.number(args[1]),
    "propbench_room": _has_room,
}


# --- functions ---


def _total(give: Callable[..., Number]) -> Gives:
    """A function of numbers that has a value everywhere."""
    return lambda terms, args: (give(*(terms.number(each) for each in args)), arithmetic.YES)


def _divides(give: Callable[[Number, Number], Number]) -> Gives:
    def gives(terms: Terms, args: Args) -> tuple[Number, Truth]:
        left, right = (terms.number(each) for each in args)
        return give(left, right), right != 0

    return gives


def _power(terms: Terms, args: Args) -> tuple[Number, Truth] | None:
    return arithmetic.power(terms.number(args[0]), terms.number(args[1]))


def _extreme(give: Callable[[list[Number]], Number]) -> Gives:
    return lambda terms, args: (give(terms.numbers(args[0])), arithmetic.YES)


def _number_at(terms: Terms, args: Args) -> tuple[Number, Truth]:
    row = terms.constants(args[1])
    found = terms.looked_up(args[0], row) if len(row) == len(terms.elements(args[1])) else None
    if found is not None:
        return found
    index, values = terms.number(args[0]), terms.numbers(args[1])
    return picked(index, 1, values), _is_index(index, len(values))


def _truth_at(terms: Terms, args: Args) -> tuple[Truth, Truth]:
    row = terms.constants(args[1])
    found = terms.looked_up(args[0], row) if len(row) == len(terms.elements(args[1])) else None
    if found is not None:
        return found[0] >= 1, found[1]
    index, values = terms.number(args[0]), terms.truths(args[1])
    return picked(index, 1, values), _is_index(index, len(values))


def _is_index(index: Number, count: int) -> Truth:
    return arithmetic.within(index, Numbers.span(1, count))


def _joins(give: Callable[[list[Truth]], Truth]) -> Gives:
    return lambda terms, args: (give(terms.truths(args[0])), arithmetic.YES)


def _joins_two(give: Callable[[Truth, Truth], Truth]) -> Gives:
    return lambda terms, args: (give(*(terms.truth(each) for each in args)), arithmetic.YES)


def _odd(terms: Terms, args: Args) -> Truth:
    return reduce(_either, terms.truths(args[0]), arithmetic.NO)


_SAYS["array_bool_xor"] = _odd
_SAYS |= {name: _joins_sets(join) for name, join in JOINS.items()}

_FIRST = frozenset(("array_int_maximum", "array_int_minimum"))
_GIVES: dict[str, Gives] = {
    "int_plus": _total(Number.__add__),
    "int_minus": _total(Number.__sub__),
    "int_times": _total(Number.__mul__),
    "int_negate": _total(Number.__neg__),
    "int_abs": _total(Number.__abs__),
    "int_max": _total(maximum),
    "int_min": _total(minimum),
    "int_div": _divides(arithmetic.quotient),
    "int_mod": _divides(arithmetic.remainder),
    "int_pow": _power,
    "int_pow_fixed": _power,
    "array_int_maximum": _extreme(maximum),
    "array_int_minimum": _extreme(minimum),
    "array_int_element": _number_at,
    "array_var_int_element": _number_at,
    "array_bool_element": _truth_at,
    "array_var_bool_element": _truth_at,
    "array_bool_and": _joins(every),
    "array_bool_or": _joins(some),
    "bool_and": _joins_two(lambda x, y: x & y),
    "bool_or": _joins_two(lambda x, y: x | y),
    "bool_xor": _joins_two(_either),
    "set_card": lambda terms, args: (sets.size(terms.members(args[0])), arithmetic.YES),
    "bool_not": lambda terms, args: (~terms.truth(args[0]), arithmetic.YES),
    "bool2int": lambda terms, args: (count([terms.truth(args[0])]), arithmetic.YES),
}
