"""Random models in FlatZinc with variables for sets, and their solutions by brute force.

What each constraint means is written here by Python's own sets, from the description of FlatZinc.
"""

from collections.abc import Callable, Iterator
from dataclasses import dataclass, field
from itertools import combinations, product
from typing import Any

from hypothesis import strategies as st

Points = dict[str, Any]
Set = frozenset[int]


def is_less(one: Set, other: Set) -> bool:
    """Whether a set comes before another: as the lists of their elements do."""
    return sorted(one) < sorted(other)


# By name what the arguments are, and what they have to be: i a number or a constant, m a set or a
# constant, M an array of sets, b a truth.
RELATIONS: dict[str, tuple[str, Callable[..., object]]] = {
    "set_in": ("im", lambda x, s: x in s),
    "set_eq": ("mm", lambda s, t: s == t),
    "set_ne": ("mm", lambda s, t: s != t),
    "set_le": ("mm", lambda s, t: s == t or is_less(s, t)),
    "set_lt": ("mm", is_less),
    "set_subset": ("mm", lambda s, t: s <= t),
    "set_superset": ("mm", lambda s, t: s >= t),
}
FUNCTIONS: dict[str, tuple[str, Callable[..., object]]] = {
    "set_card": ("mi", lambda s, n: len(s) == n),
    "set_diff": ("mmm", lambda s, t, r: r == s - t),
    "set_intersect": ("mmm", lambda s, t, r: r == s & t),
    "set_symdiff": ("mmm", lambda s, t, r: r == s ^ t),
    "set_union": ("mmm", lambda s, t, r: r == s | t),
    "array_set_element": ("iCm", lambda i, a, r: 1 <= i <= len(a) and r == a[i - 1]),
    "array_var_set_element": ("iMm", lambda i, a, r: 1 <= i <= len(a) and r == a[i - 1]),
}
ALL = {**RELATIONS, **FUNCTIONS}


def _reified(says: Callable[..., object]) -> Callable[..., object]:
    return lambda *args: args[-1] == bool(says(*args[:-1]))


for _name, (_letters, _says) in RELATIONS.items():
    ALL[f"{_name}_reif"] = (_letters + "b", _reified(_says))


@dataclass
class DrawnSets:
    """A model: the possible values of its numbers and truths, the possible elements of its sets,
    and its constraints."""

    values: dict[str, list[Any]]
    elements: dict[str, list[int]]
    constraints: list[tuple[str, list[Any]]] = field(default_factory=list)

    @property
    def text(self) -> str:
        """The model in FlatZinc."""
        lines = []
        for name, values in self.values.items():
            kind = "bool" if name[0] == "b" else "{" + ",".join(map(str, values)) + "}"
            lines.append(f"var {kind}: {name} :: output_var;")
        for name, elements in self.elements.items():
            kind = "{" + ",".join(map(str, elements)) + "}"
            lines.append(f"var set of {kind}: {name} :: output_var;")
        for name, args in self.constraints:
            lines.append(f"constraint {name}({','.join(map(_text, args))});")
        return "\n".join([*lines, "solve satisfy;", ""])

    def solutions(self) -> Iterator[str]:
        """All points that fit, as they are printed."""
        names = [*self.values, *self.elements]
        rooms = [*self.values.values(), *map(subsets, self.elements.values())]
        for values in product(*rooms):
            at = dict(zip(names, values))
            if all(ALL[it][1](*(_at(each, at) for each in args)) for it, args in self.constraints):
                yield "".join(f"{name} = {shown(value)};\n" for name, value in at.items())


def subsets(elements: list[int]) -> list[Set]:
    """All sets of these."""
    sizes = range(len(elements) + 1)
    return [frozenset(each) for size in sizes for each in combinations(elements, size)]


def shown(value: Any) -> str:
    """A value as MiniZinc prints it: a set without gaps as a range."""
    if isinstance(value, frozenset):
        values = sorted(value)
        if values and values[-1] - values[0] == len(values) - 1:
            return f"{values[0]}..{values[-1]}"
        return "{" + ",".join(map(str, values)) + "}"
    return str(value).lower() if isinstance(value, bool) else str(value)


def _text(arg: Any) -> str:
    if isinstance(arg, frozenset):
        return "{" + ",".join(map(str, sorted(arg))) + "}"
    return f"[{','.join(map(_text, arg))}]" if isinstance(arg, list) else shown(arg)


def _at(arg: Any, at: Points) -> Any:
    if isinstance(arg, list):
        return [_at(each, at) for each in arg]
    return at[arg] if isinstance(arg, str) else arg


@st.composite
def set_models(draw: st.DrawFn, names: tuple[str, ...] = tuple(ALL)) -> DrawnSets:
    """Models of a few variables with constraints of these names."""
    made = DrawnSets({}, {})
    for number in range(draw(st.integers(1, 2))):
        values = draw(st.sets(st.integers(-1, 4), min_size=1, max_size=4))
        made.values[f"x{number}"] = sorted(values)
    made.values["b0"] = [False, True]
    for number in range(draw(st.integers(1, 3))):
        elements = draw(st.sets(st.integers(-1, 5), max_size=4))
        made.elements[f"s{number}"] = sorted(elements)
    for _ in range(draw(st.integers(1, 4))):
        name = draw(st.sampled_from(names))
        made.constraints.append((name, [draw(_arg(made, it)) for it in ALL[name][0]]))
    return made


def _arg(made: DrawnSets, letter: str) -> st.SearchStrategy[Any]:
    numbers = [name for name in made.values if name[0] == "x"]
    constant = st.frozensets(st.integers(-1, 5), max_size=4)
    one = st.one_of(st.sampled_from(list(made.elements)), constant)
    kinds: dict[str, st.SearchStrategy[Any]] = {
        "i": st.one_of(st.sampled_from(numbers), st.integers(-1, 4)),
        "b": st.one_of(st.just("b0"), st.booleans()),
        "m": one,
        "M": st.lists(one, min_size=1, max_size=3),
        "C": st.lists(constant, min_size=1, max_size=3),
    }
    return kinds[letter]
