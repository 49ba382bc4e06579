"""Best values that are far off: by leaps alone, and by the whole search, against sums by hand."""

import pytest

from propbench import Workbench
from propbench.clock import Clock
from propbench.flatzinc.asking import AnySolution, BestSolution, FoundSolutions
from propbench.flatzinc.building import Built
from propbench.flatzinc.grammar import read
from propbench.flatzinc.leaping import Leaps, leaps_of
from propbench.flatzinc.solving import Wanted, solve
from propbench.model.cells import NumberCell
from propbench.questions.bounding import GREATEST, LEAST

SQUARES = [each * each for each in range(1, 41)]
# (no sum of these is between 6,005 and 6,999)
HEAVY = [1000, 2000, 3000, 5, 7000]


def sums(weights: list[int]) -> set[int]:
    """What weights are together, any of them."""
    found = {0}
    for weight in weights:
        found |= {each + weight for each in found}
    return found


def model(weights: list[int], values: str, goal: str) -> str:
    """A model in FlatZinc: a total of some weights, which is one of these values."""
    names = [f"x{place}" for place in range(len(weights))]
    lines = [f"var 0..1: {name};" for name in names]
    lines.append(f"var {values}: total :: output_var;")
    factors = ",".join(map(str, [*weights, -1]))
    lines.append(f"constraint int_lin_eq([{factors}],[{','.join(names)},total],0);")
    return "\n".join([*lines, f"solve {goal} total;", ""])


SQUARE_TOTALS = [each * each for each in range(1, 150) if each * each <= sum(SQUARES)]
CASES = {
    "squares": (SQUARES, SQUARE_TOTALS, "maximize"),
    "nothing near the bound": (HEAVY, list(range(6900)), "maximize"),
    "the least of many": (HEAVY, list(range(6500, 20001)), "minimize"),
}


@pytest.mark.parametrize("case", CASES)
@pytest.mark.parametrize("is_alone", (False, True), ids=("search", "leaps alone"))
def test_the_best_is_that_of_all_sums(wide: str, case: str, is_alone: bool) -> None:
    weights, values, goal = CASES[case]
    best = (max if goal == "maximize" else min)(sums(weights) & set(values))
    text = model(weights, "{" + ",".join(map(str, values)) + "}", goal)
    with Workbench(wide) as workbench:
        built = Built(read(text), workbench)
        if not is_alone:
            found = solve(built, Wanted())
            assert found.is_complete and found.objective == best
            return
        asked = question(built, goal)
        leaps = leaps_of(built, asked)
        assert isinstance(leaps, Leaps)
        worst = (min if goal == "maximize" else max)(sums(weights) & set(values))
        asked.value = worst
        while leaps.is_far and not asked.is_done:
            leaps.run(Clock(2.0, None))
        # (what is nearer than a leap is left to the search)
        assert asked.value == best or abs(leaps.bound - asked.value) < 1000
        assert abs(best - asked.value) < 1000 and abs(leaps.bound - worst) >= abs(best - worst)
        assert "leap" not in workbench.premises


def question(built: Built, goal: str) -> BestSolution:
    """The question for the best total."""
    told = FoundSolutions(built.workbench.model, lambda plan: None)
    sort, sign = (GREATEST, -1) if goal == "maximize" else (LEAST, 1)
    cell = built.cells["total"]
    assert isinstance(cell, NumberCell)
    return BestSolution(told, cell.name, sort, sign)


def test_no_leaps_are_made_without_an_end_or_a_best_number(program: str) -> None:
    with Workbench(program) as workbench:
        built = Built(read("var int: total;\nsolve minimize total;\n"), workbench)
        assert leaps_of(built, question(built, "minimize")) is None
        told = FoundSolutions(built.workbench.model, lambda plan: None)
        assert leaps_of(built, AnySolution(told)) is None
    with Workbench(program) as workbench:
        built = Built(read("var 0..9999: total;\nsolve minimize total;\n"), workbench)
        leaps = leaps_of(built, question(built, "minimize"))
        assert leaps is not None and leaps.bound == 0 and not leaps.is_far
        leaps.asked.value = 999
        assert not leaps.is_far
        leaps.asked.value = 1000
        assert leaps.is_far
