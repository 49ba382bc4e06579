"""Random FlatZinc: all solutions, and the best, against brute force."""

from hypothesis import given
from drawn_flatzinc import Drawn, models

from propbench import Workbench
from propbench.flatzinc.building import Built
from propbench.flatzinc.grammar import read
from propbench.flatzinc.solving import ALL, Wanted, solve


# What tells variables apart, without working with their values.
TOLD_APART = ("int_eq", "int_ne", "set_in", "int_eq_reif", "int_ne_reif", "set_in_reif") + (
    "fzn_all_different_int",
    "fzn_all_different_int_reif",
)


@given(models())
def test_solutions_are_those_of_brute_force(program: str, drawn: Drawn) -> None:
    compare(program, drawn)


@given(models(TOLD_APART))
def test_values_that_are_told_apart_are_elements(program: str, drawn: Drawn) -> None:
    compare(program, drawn)


def compare(program: str, drawn: Drawn) -> None:
    right = list(drawn.solutions())
    with Workbench(program) as workbench:
        found = solve(Built(read(drawn.text), workbench), Wanted(ALL))
    assert found.is_complete
    if drawn.goal == "satisfy":
        assert sorted(map(str, found.plans)) == sorted(map(str, right))
        return
    assert (not found.plans) == (not right)
    if right:
        best = min if drawn.goal.startswith("minimize") else max
        assert found.plans[0] in right
        assert found.plans[0]["x0"] == best(at["x0"] for at in right)
