"""Numbers in sets that are looked up among constants: solutions by brute force, and what stays."""

from collections.abc import Callable
from itertools import product

import pytest

from propbench import Workbench
from propbench.flatzinc.building import Built
from propbench.flatzinc.grammar import read
from propbench.flatzinc.lookups import with_pairs
from propbench.flatzinc.solving import ALL, Wanted, solve

SETS: list[set[int]] = [{3, 5}, {4}, set(), {3, 4, 6}]
# (the last of the sets has an element that the variable can't have)
MODEL = """
array [1..4] of set of int: sets = [{3,5},{4},{},{3,4,6}];
var 0..9: i :: output_var; var 2..6: x :: output_var; var 2..6: y :: output_var;
var set of 3..5: s :: var_is_introduced;
constraint array_set_element(i, sets, s) :: defines_var(s);
constraint set_in(x, s);
"""
# What else is said of the set or the numbers, which numbers that leaves, and how many sets.
SAID: dict[str, tuple[str, Callable[[int, int, int], bool], int]] = {
    "nothing": ("", lambda i, x, y: y == 2, 0),
    "both in it": ("constraint set_in(y, s);", lambda i, x, y: y in SETS[i - 1], 0),
    "a size": ("constraint set_card(s, 1);", lambda i, x, y: y == 2 and len(SETS[i - 1]) == 1, 1),
    "not in it": (
        "var bool: b :: var_is_introduced;\nconstraint set_in_reif(y, s, b);\n"
        "constraint bool_eq(b, false);",
        lambda i, x, y: y not in SETS[i - 1],
        1,
    ),
    "counted": ("constraint int_lt(4, x);", lambda i, x, y: y == 2 and x > 4, 0),
}


@pytest.mark.parametrize("said", SAID)
def test_the_pairs_are_those_of_the_sets(program: str, said: str) -> None:
    more, holds, sets = SAID[said]
    text = MODEL + more + ("" if "y" in more else "\nconstraint int_eq(y, 2);")
    right = [
        (i, x, y)
        for i, x, y in product(range(1, 5), range(2, 7), range(2, 7))
        if SETS[i - 1] <= {3, 4, 5} and x in SETS[i - 1] and holds(i, x, y)
    ]
    with Workbench(program) as workbench:
        built = Built(read(text + "\nsolve satisfy;\n"), workbench)
        found = solve(built, Wanted(ALL))
    assert found.is_complete and len(built.sets) == sets
    assert sorted({tuple(plan[it] for it in "ixy") for plan in found.plans}) == right


def test_a_set_that_is_printed_or_tried_out_stays() -> None:
    text = MODEL + "solve satisfy;\n"
    assert not with_pairs(read(text)).variables["i"].is_set
    assert "s" not in with_pairs(read(text)).variables
    for before, after in (
        ("s :: var_is_introduced", "s :: output_var"),
        ("solve", "array [1..1] of var set of int: t :: output_array([1..1]) = [s];\nsolve"),
        ("solve", "solve :: set_search([s], input_order, indomain_min, complete)"),
        ("3..5: s :: var_is_introduced", "3..5: s :: var_is_introduced = t"),
    ):
        given = "var set of 3..5: t;\n" if after.endswith("= t") else ""
        assert "s" in with_pairs(read(given + text.replace(before, after))).variables
