"""Random models in FlatZinc, and their solutions by brute force.

What each constraint means is written here by plain numbers, from the description of FlatZinc:
nothing asks the package.
"""

from collections.abc import Callable, Iterator
from dataclasses import dataclass, field
from itertools import product
from typing import Any

from hypothesis import strategies as st

Points = dict[str, Any]


def rounded_to_zero(left: int, right: int) -> int:
    """A quotient as MiniZinc has it."""
    found = abs(left) // abs(right)
    return found if (left < 0) == (right < 0) else -found


def power(base: int, exponent: int) -> int | None:
    """A power as MiniZinc has it: below zero it is 1 divided by one, which zero has none of."""
    if exponent >= 0:
        return int(base**exponent)
    return rounded_to_zero(1, base**-exponent) if base else None


def total(factors: list[int], values: list[int]) -> int:
    return sum(factor * value for factor, value in zip(factors, values))


# By name what the arguments are, and what they have to be. Of the letters: i an integer variable or
# a constant, b a truth, c a constant, s a set, X, B and C arrays of these, A and Y an array of
# constants and one of variables of one length.
COMPARISONS: dict[str, tuple[str, Callable[..., object]]] = {
    "int_eq": ("ii", lambda x, y: x == y),
    "int_ne": ("ii", lambda x, y: x != y),
    "int_le": ("ii", lambda x, y: x <= y),
    "int_lt": ("ii", lambda x, y: x < y),
    "int_lin_eq": ("AYc", lambda a, x, c: total(a, x) == c),
    "int_lin_ne": ("AYc", lambda a, x, c: total(a, x) != c),
    "int_lin_le": ("AYc", lambda a, x, c: total(a, x) <= c),
    "set_in": ("is", lambda x, s: x in s),
    "bool_eq": ("bb", lambda x, y: x == y),
    "bool_le": ("bb", lambda x, y: x <= y),
    "bool_lt": ("bb", lambda x, y: x < y),
    "bool_clause": ("BB", lambda x, y: any(x) or not all(y)),
}
PLAIN: dict[str, tuple[str, Callable[..., object]]] = {
    "int_abs": ("ii", lambda x, y: y == abs(x)),
    "int_plus": ("iii", lambda x, y, z: z == x + y),
    "int_times": ("iii", lambda x, y, z: z == x * y),
    "int_max": ("iii", lambda x, y, z: z == max(x, y)),
    "int_min": ("iii", lambda x, y, z: z == min(x, y)),
    "int_div": ("iii", lambda x, y, z: y != 0 and z == rounded_to_zero(x, y)),
    "int_mod": ("iii", lambda x, y, z: y != 0 and z == x - rounded_to_zero(x, y) * y),
    "int_pow": ("iii", lambda x, y, z: z == power(x, y)),
    "array_int_maximum": ("iX", lambda m, x: m == max(x)),
    "array_int_minimum": ("iX", lambda m, x: m == min(x)),
    "array_int_element": ("iCi", lambda i, a, x: 1 <= i <= len(a) and x == a[i - 1]),
    "array_var_int_element": ("iXi", lambda i, a, x: 1 <= i <= len(a) and x == a[i - 1]),
    "array_var_bool_element": ("iBb", lambda i, a, x: 1 <= i <= len(a) and x == a[i - 1]),
    "array_bool_and": ("Bb", lambda a, x: x == all(a)),
    "array_bool_or": ("Bb", lambda a, x: x == any(a)),
    "array_bool_xor": ("B", lambda a: sum(a) % 2 == 1),
    "bool_xor": ("bbb", lambda x, y, z: z == (x != y)),
    "bool_not": ("bb", lambda x, y: x != y),
    "bool2int": ("bi", lambda x, y: y == int(x)),
}
SHARED = {**COMPARISONS, **PLAIN}


def _reified(says: Callable[..., object]) -> Callable[..., object]:
    return lambda *args: args[-1] == bool(says(*args[:-1]))


for _name, (_letters, _says) in COMPARISONS.items():
    SHARED[f"{_name}_reif"] = (_letters + "b", _reified(_says))
# What only propbench.msc lets through to the solver.
OWN: dict[str, tuple[str, Callable[..., object]]] = {
    "fzn_all_different_int": ("X", lambda x: len(set(x)) == len(x)),
    "fzn_all_different_int_reif": ("Xb", lambda x, b: b == (len(set(x)) == len(x))),
    "propbench_count": ("Bi", lambda a, n: sum(a) == n),
    "propbench_count_reif": ("Bib", lambda a, n, b: b == (sum(a) == n)),
}


@dataclass
class Drawn:
    """A model: the possible values of its variables, its constraints, and its goal."""

    values: dict[str, list[Any]]
    constraints: list[tuple[str, list[Any]]] = field(default_factory=list)
    goal: str = "satisfy"

    @property
    def text(self) -> str:
        """The model in FlatZinc."""
        lines = []
        for name, values in self.values.items():
            kind = "bool" if name[0] == "b" else "{" + ",".join(map(str, values)) + "}"
            if len(values) == values[-1] - values[0] + 1 and name[0] == "x":
                kind = f"{values[0]}..{values[-1]}"
            lines.append(f"var {kind}: {name} :: output_var;")
        for name, args in self.constraints:
            lines.append(f"constraint {name}({','.join(map(_text, args))});")
        return "\n".join([*lines, f"solve {self.goal};", ""])

    def solutions(self) -> Iterator[Points]:
        """All points that fit."""
        for values in product(*self.values.values()):
            at = dict(zip(self.values, values))
            if all(
                ALL[name][1](*(_at(each, at) for each in args)) for name, args in self.constraints
            ):
                yield at


ALL = {**SHARED, **OWN}


def _text(arg: Any) -> str:
    if isinstance(arg, bool):
        return str(arg).lower()
    if isinstance(arg, set):
        return "{" + ",".join(map(str, sorted(arg))) + "}"
    return f"[{','.join(map(_text, arg))}]" if isinstance(arg, list) else str(arg)


def _at(arg: Any, at: Points) -> Any:
    if isinstance(arg, list):
        return [_at(each, at) for each in arg]
    return at[arg] if isinstance(arg, str) else arg


@st.composite
def models(draw: st.DrawFn, names: tuple[str, ...] = tuple(ALL)) -> Drawn:
    """Models of a few variables with constraints of these names."""
    made = Drawn({})
    for number in range(draw(st.integers(1, 4))):
        values = draw(st.sets(st.integers(-3, 5), min_size=1, max_size=4))
        made.values[f"x{number}"] = sorted(values)
    for number in range(draw(st.integers(1, 3))):
        made.values[f"b{number}"] = [False, True]
    for _ in range(draw(st.integers(1, 5))):
        name = draw(st.sampled_from(names))
        made.constraints.append((name, _args(draw, made, ALL[name][0])))
    made.goal = draw(st.sampled_from(["satisfy", "satisfy", "minimize x0", "maximize x0"]))
    return made


def _args(draw: st.DrawFn, made: Drawn, letters: str) -> list[Any]:
    numbers = [name for name in made.values if name[0] == "x"]
    truths = [name for name in made.values if name[0] == "b"]
    small = st.integers(-3, 4)
    number = st.one_of(st.sampled_from(numbers), st.sampled_from(numbers), small)
    truth = st.one_of(st.sampled_from(truths), st.sampled_from(truths), st.booleans())
    length = draw(st.integers(1, 4))
    kinds: dict[str, st.SearchStrategy[Any]] = {
        "i": number,
        "b": truth,
        "c": st.integers(-6, 8),
        "s": st.sets(small, min_size=1, max_size=4),
        "X": st.lists(number, min_size=1, max_size=5),
        "B": st.lists(truth, min_size=1, max_size=4),
        "C": st.lists(small, min_size=1, max_size=4),
        "A": st.lists(st.integers(-3, 3), min_size=length, max_size=length),
        "Y": st.lists(st.sampled_from(numbers), min_size=length, max_size=length),
    }
    return [draw(kinds[letter]) for letter in letters]
