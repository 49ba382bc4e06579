"""What a goal costs at least, where it adds up what each of some numbers costs that all differ, or
that are a tour: bounds beside the sum, which ends the search sooner.

`cost[x] + cost[y] + ..` has a bound by each number alone, the least that it may cost. As no two are
the same, the least of all together may be more: that of an assignment. Prices of the numbers and of
their values are taken off such that no cost gets below zero: what was taken off is always paid, and
what is left is looked up as costs are. A tour leaves each set of its nodes, too: where all that
leave one cost something, that much is always paid (`tours` looks at how far apart they are).
"""

from collections.abc import Iterable, Iterator, Sequence
from dataclasses import dataclass, replace
from fractions import Fraction

from propbench.flatzinc.terms import TOUR, Constraint, Flat, FlatTerm, Name, Numbers, Sort, Variable
from propbench.flatzinc.tours import SCALE, apart

_DIFFERENT, _LOOKED_UP, _SUM = "fzn_all_different_int", "array_int_element", "int_lin_eq"
# So many numbers, with so many values, at the most.
_MOST = 64
_FAR = 10**18


@dataclass(frozen=True)
class Priced:
    """What is always paid, and what is left of each number's costs, by its values; both so many
    times as it is."""

    paid: int
    left: tuple[dict[int, int], ...]
    scale: int = 1


@dataclass(frozen=True)
class _Costs:
    """What each number of a group costs, by its values, and which parts of the goal's sum tell it;
    of a tour the node that each number belongs to."""

    names: tuple[FlatTerm, ...]
    costs: tuple[dict[int, int], ...]
    parts: frozenset[int]
    nodes: tuple[int, ...]


@dataclass(frozen=True)
class _Goal:
    """The goal as a sum, so that the least is sought: factors, what they stand at, and a number."""

    goal: FlatTerm
    sign: int
    factors: tuple[int, ...]
    terms: tuple[FlatTerm, ...]
    more: int


def with_costs(flat: Flat) -> Flat:
    """The model with such bounds, and without the marks of tours.

    >>> from propbench.flatzinc.grammar import read
    >>> text = '''var 1..2: x; var 1..2: y; var 0..9: c; var 0..9: d; var 0..9: all;
    ... constraint fzn_all_different_int([x, y]);
    ... constraint array_int_element(x, [1, 4], c); constraint array_int_element(y, [2, 7], d);
    ... constraint int_lin_eq([1, 1, -1], [c, d, all], 0);
    ... solve minimize all;'''
    >>> [each.args for each in with_costs(read(text)).constraints if each.name == "int_lin_le"]
    [((1, 1, -1), (Name(text='cost 5'), Name(text='cost 6'), Name(text='all')), -6)]
    """
    goal = _goal_of(flat)
    groups = () if goal is None else _groups(flat, goal)
    constraints = [each for each in flat.constraints if each.name != TOUR]
    variables = dict(flat.variables)
    for group in groups:
        assert goal is not None
        made = priced(group.costs, group.nodes)
        if made.paid > made.scale * sum(min(each.values()) for each in group.costs):
            names = [Name(f"cost {len(variables) + at}") for at in range(len(made.left))]
            variables |= {name.text: _variable(name, it) for name, it in zip(names, made.left)}
            constraints += _stated(goal, group, made, names)
    return replace(flat, variables=variables, constraints=constraints)


def priced(costs: Sequence[dict[int, int]], nodes: Sequence[int] = ()) -> Priced:
    """What numbers cost that all differ, or that are the next ones on a tour of nodes: what is paid
    always, and what is left.

    >>> priced([{1: 1, 2: 4}, {1: 2, 2: 7}])
    Priced(paid=6, left=({1: 0, 2: 0}, {1: 0, 2: 2}), scale=1)
    """
    found = [_priced(costs, nodes)]
    by_heights = apart(nodes, costs) if nodes else None
    if by_heights is not None:
        rest = _priced(by_heights[1], nodes)
        found.append(Priced(by_heights[0] + rest.paid, rest.left, SCALE))
    return max(found, key=lambda each: Fraction(each.paid, each.scale))


def _priced(costs: Sequence[dict[int, int]], nodes: Sequence[int]) -> Priced:
    """The same by prices of numbers and values, and by the sets that a tour leaves."""
    rows, columns = _prices(costs)
    left = [
        {value: cost - row - columns[value] for value, cost in each.items()}
        for row, each in zip(rows, costs)
    ]
    paid = sum(rows) + sum(columns.values())
    if nodes:
        paid += _leaving(nodes, left)
    return Priced(paid, tuple(left))


def _prices(costs: Sequence[dict[int, int]]) -> tuple[list[int], dict[int, int]]:
    """A price for each number, and one for each value, none above zero: together no more than what
    it costs, and as much as can be. A number at a time takes the value that is cheapest for it, for
    which others go to their next ones."""
    rows = [0] * len(costs)
    columns = {value: 0 for each in costs for value in each}
    taken: dict[int, int] = {}
    for number in range(len(costs)):
        _assign(number, costs, (rows, columns), taken)
    return rows, columns


def _assign(
    number: int,
    costs: Sequence[dict[int, int]],
    prices: tuple[list[int], dict[int, int]],
    taken: dict[int, int],
) -> None:
    """Has one number more take a value, on the shortest way to one that nobody has."""
    rows, columns = prices
    short, before = dict.fromkeys(columns, _FAR), dict[int, int | None]()
    done = set[int]()
    at, value = number, None
    while True:
        for other, cost in costs[at].items():
            way = cost - rows[at] - columns[other]
            if other not in done and way < short[other]:
                short[other], before[other] = way, value
        free = [other for other in columns if other not in done]
        best = min(free, key=short.__getitem__, default=None)
        if best is None or short[best] == _FAR:
            # (there is no such assignment, so that any prices do)
            return
        step = short[best]
        rows[number] += step
        for other in done:
            rows[taken[other]] += step
            columns[other] -= step
        for other in free:
            short[other] -= step if short[other] < _FAR else 0
        done.add(best)
        if best not in taken:
            break
        at, value = taken[best], best
    place: int | None = best
    while place is not None:
        earlier = before[place]
        taken[place] = number if earlier is None else taken[earlier]
        place = earlier


def _leaving(nodes: Sequence[int], left: list[dict[int, int]]) -> int:
    """What a tour pays always for leaving sets of its nodes, which is taken off from what is left.
    Each set is one from which nothing leads that costs nothing."""
    paid = 0
    while True:
        for closed in _closed(nodes, left):
            out = [
                (costs, value)
                for node, costs in zip(nodes, left)
                if node in closed
                for value in costs
                if value not in closed
            ]
            if out:
                break
        else:
            return paid
        least = min(costs[value] for costs, value in out)
        for costs, value in out:
            costs[value] -= least
        paid += least


def _closed(nodes: Sequence[int], left: Sequence[dict[int, int]]) -> list[frozenset[int]]:
    """The sets that are reached from a node by what costs nothing, but for all nodes; the smallest
    first."""
    ways = {
        node: [value for value, cost in costs.items() if cost == 0]
        for node, costs in zip(nodes, left)
    }
    found = {_reached(node, ways) for node in nodes}
    return sorted((each for each in found if len(each) < len(nodes)), key=_by_size)


def _by_size(found: frozenset[int]) -> tuple[int, list[int]]:
    return len(found), sorted(found)


def _reached(node: int, ways: dict[int, list[int]]) -> frozenset[int]:
    """The nodes to which ways lead from one, and that itself."""
    found, new = {node}, [node]
    while new:
        for value in ways[new.pop()]:
            if value not in found:
                found.add(value)
                new.append(value)
    return frozenset(found)


# --- in a model ---


def _goal_of(flat: Flat) -> _Goal | None:
    """The goal as a sum; None where it isn't stated as one."""
    goal = flat.goal.objective
    if not isinstance(goal, Name):
        return None
    sign = 1 if flat.goal.sort == "minimize" else -1
    for each in flat.constraints:
        if each.name != _SUM:
            continue
        factors, terms = (_array(flat, term) for term in each.args[:2])
        bound, known = flat.resolved(each.args[2]), [it for it in factors if isinstance(it, int)]
        if terms.count(goal) == 1 and isinstance(bound, int):
            own = known[terms.index(goal)]
            if abs(own) == 1:
                others = [at for at, term in enumerate(terms) if term != goal]
                return _Goal(
                    goal,
                    sign,
                    tuple(-sign * own * known[at] for at in others),
                    tuple(terms[at] for at in others),
                    sign * own * bound,
                )
    return None


def _groups(flat: Flat, goal: _Goal) -> Iterator[_Costs]:
    """The groups of numbers that all differ, and of which some have costs in the goal's sum; those
    that are a tour as such alone."""
    looked_up = {
        each.args[2]: (flat.resolved(each.args[0]), _array(flat, each.args[1]))
        for each in flat.constraints
        if each.name == _LOOKED_UP
    }
    tours = [_array(flat, each.args[0]) for each in flat.constraints if each.name == TOUR]
    for each in flat.constraints:
        if each.name not in (TOUR, _DIFFERENT):
            continue
        members = _array(flat, each.args[0])
        if each.name == _DIFFERENT and members in tours:
            continue
        first = flat.resolved(each.args[1]) if each.name == TOUR else None
        group = _costs_of(flat, goal, members, looked_up)
        if isinstance(first, int) and len(group.names) == len(members):
            node_of = {name: first + at for at, name in enumerate(members)}
            nodes = tuple(node_of[name] for name in group.names)
            group = replace(group, nodes=nodes, costs=_without_loops(nodes, group.costs))
        if 2 <= len(group.names) <= _MOST and all(0 < len(it) <= _MOST for it in group.costs):
            yield group


def _costs_of(
    flat: Flat,
    goal: _Goal,
    members: tuple[FlatTerm, ...],
    looked_up: dict[FlatTerm, tuple[FlatTerm, tuple[FlatTerm, ...]]],
) -> _Costs:
    """What the goal's sum says that some of these numbers cost."""
    costs: dict[FlatTerm, dict[int, int]] = {}
    parts = set[int]()
    for at, (factor, term) in enumerate(zip(goal.factors, goal.terms)):
        number, row = looked_up.get(term, (None, ()))
        if isinstance(number, Name) and number in members and number not in costs:
            known = flat.variables[number.text].values or Numbers.span(1, len(row))
            entries = {value: flat.resolved(it) for value, it in enumerate(row, 1)}
            costs[number] = {
                value: factor * it
                for value, it in entries.items()
                if known.has(value) and isinstance(it, int)
            }
            parts.add(at)
            if len(costs[number]) < sum(map(known.has, entries)):
                # (what may be any is no cost)
                del costs[number]
                parts.remove(at)
    return _Costs(tuple(costs), tuple(costs.values()), frozenset(parts), ())


def _without_loops(
    nodes: Sequence[int], costs: Sequence[dict[int, int]]
) -> tuple[dict[int, int], ...]:
    """The costs of a tour, on which nothing is next to itself, and all that is next is a node."""
    there = set(nodes)
    return tuple(
        {value: cost for value, cost in each.items() if value != node and value in there}
        for node, each in zip(nodes, costs)
    )


def _variable(name: Name, left: dict[int, int]) -> Variable:
    marks = (Name("var_is_introduced"), Name("is_defined_var"))
    return Variable(name.text, Sort.NUMBER, Numbers.span(0, max(left.values())), marks, None, 0)


def _stated(
    goal: _Goal, group: _Costs, made: Priced, names: Sequence[Name]
) -> Iterable[Constraint]:
    """That the goal costs as much as is paid and left, and what the rest of its sum tells."""
    for name, number, left in zip(names, group.names, made.left):
        row = tuple(left.get(value, 0) for value in range(1, max(left) + 1))
        yield Constraint(_LOOKED_UP, (number, row, name), name.text, 0)
    rest = [at for at in range(len(goal.terms)) if at not in group.parts]
    others = [made.scale * it for it in (*(goal.factors[at] for at in rest), -goal.sign)]
    factors, bound = (*(1 for _ in names), *others), -made.paid - made.scale * goal.more
    terms = (*names, *(goal.terms[at] for at in rest), goal.goal)
    yield Constraint("int_lin_le", (factors, terms, bound), None, 0)


def _array(flat: Flat, term: FlatTerm) -> tuple[FlatTerm, ...]:
    found = flat.resolved(term)
    return tuple(map(flat.resolved, found)) if isinstance(found, tuple) else ()
