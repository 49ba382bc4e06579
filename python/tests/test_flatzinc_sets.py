"""Variables for sets in FlatZinc: against brute force, what is printed, and what is refused."""

import json
import shutil
import subprocess
from collections.abc import Callable
from pathlib import Path
from typing import Any

import pytest
from drawn_sets import ALL, DrawnSets, set_models
from hypothesis import given

from propbench import Workbench
from propbench.flatzinc.building import Built
from propbench.flatzinc.command import main
from propbench.flatzinc.compiling import CONFIGURATION
from propbench.flatzinc.grammar import read
from propbench.flatzinc.solving import ALL as ALL_OF_THEM
from propbench.flatzinc.solving import Wanted, solve
from propbench.flatzinc.terms import NotSupported
from propbench.flatzinc.writing import solution


def printed(program: str, text: str) -> list[str]:
    """All solutions of a model, as they are printed."""
    with Workbench(program) as workbench:
        built = Built(read(text), workbench)
        found = solve(built, Wanted(ALL_OF_THEM))
        assert found.is_complete
        return sorted("".join(f"{it}\n" for it in solution(built, plan)) for plan in found.plans)


@given(set_models())
def test_solutions_are_those_of_brute_force(program: str, drawn: DrawnSets) -> None:
    assert printed(program, drawn.text) == sorted(drawn.solutions())


@pytest.mark.parametrize("name", ALL)
def test_each_constraint_at_all_points(program: str, name: str) -> None:
    made = DrawnSets({}, {})

    def fresh(letter: str) -> str:
        count = len(made.values) + len(made.elements)
        if letter == "m":
            made.elements[f"s{count}"] = [[0, 1, 2], [1, 2, 3], [0, 2, 3]][count % 3]
            return f"s{count}"
        cell = f"b{count}" if letter == "b" else f"x{count}"
        made.values[cell] = [False, True] if letter == "b" else [0, 1, 2, 3]
        return cell

    def arg(letter: str) -> object:
        if letter == "C":
            return [frozenset({0, 2}), frozenset(), frozenset({1, 2})]
        return [fresh("m"), frozenset({1, 2})] if letter == "M" else fresh(letter)

    made.constraints.append((name, [arg(letter) for letter in ALL[name][0]]))
    assert printed(program, made.text) == sorted(made.solutions())


@pytest.mark.parametrize(
    "text, line, said",
    [
        ("var set of int: s;\nsolve satisfy;", 1, "which numbers it may have"),
        ("var set of 1..99999: s;\nsolve satisfy;", 1, "up to 10,000 elements"),
        (
            "var set of 1..3: s;\nconstraint set_card(3,s);",
            2,
            "argument 1 of the constraint set_card",
        ),
        ("var set of 1..3: s;\nconstraint int_le(s,3);", 2, "has to be a value"),
        ("var set of 1..3: s;\nconstraint array_set_element(1,[s,4],s);", 2, "an array of sets"),
        ("var set of 1..3: s;\nconstraint set_eq(s,1..99999);", 2, "up to 10,000 elements"),
        ("var set of 1..3: s;\nconstraint set_eq(s,t);", 2, "nothing is called `t`"),
        ("var set of 1..3: s = 4;\nsolve satisfy;", 1, "a value of another kind"),
        ("var 1..3: s = {4};\nsolve satisfy;", 1, "a value of another kind"),
        ("var set of 1..3: s;\nsolve minimize s;", 2, "what to minimize has to be a number"),
    ],
    ids=lambda given: repr(given)[-30:],
)
def test_what_is_refused_names_the_line(program: str, text: str, line: int, said: str) -> None:
    with pytest.raises(NotSupported) as refused, Workbench(program) as workbench:
        Built(read(text), workbench)
    assert str(refused.value).startswith(f"line {line}: ") and said in str(refused.value)


def test_sets_are_printed_as_minizinc_does(
    program: str, tmp_path: Path, capsys: pytest.CaptureFixture[str]
) -> None:
    file = tmp_path / "m.fzn"
    file.write_text(
        "set of int: given = {2,5};\nvar set of 1..5: s :: output_var = given;\n"
        "var set of {1,2,3,9}: t :: output_var;\nvar set of 4..4: u :: output_var;\n"
        "array [1..4] of var set of int: all :: output_array([1..2,0..1]) = [s,t,u,{7}];\n"
        "constraint set_eq(t,1..3);\nconstraint set_card(u,0);\n"
        "solve :: set_search([s,t],first_fail,indomain_min,complete) satisfy;\n"
    )
    assert main([str(file), "--program", program]) == 0
    assert capsys.readouterr().out == (
        "s = {2,5};\nt = 1..3;\nu = {};\n"
        "all = array2d(1..2,0..1,[{2,5},1..3,{},7..7]);\n----------\n"
    )


def test_a_set_may_be_declared_behind_what_it_defines(program: str) -> None:
    text = (
        "var bool: given :: output_var = b;\n"
        "var bool: b :: var_is_introduced :: is_defined_var;\n"
        "var set of 1..2: s :: output_var = t;\nvar set of 2..3: t :: output_var;\n"
        "constraint set_in_reif(2,s,b) :: defines_var(b);\nsolve satisfy;\n"
    )
    right = ["given = false;\ns = {};\nt = {};\n", "given = true;\ns = 2..2;\nt = 2..2;\n"]
    assert printed(program, text) == right


# (the seven lines of the smallest projective plane)
TRIPLES = """\
include "globals.mzn";
enum Point = {a, b, c, d, e, f, g};
array[1..7] of var set of Point: line;
constraint forall(i in 1..7)(card(line[i]) = 3);
constraint forall(i, j in 1..7 where i < j)(card(line[i] intersect line[j]) = 1);
constraint forall(i in 1..6)(line[i] < line[i + 1]);
solve :: set_search(line, first_fail, indomain_min, complete) satisfy;
"""
GLOBALS: dict[str, tuple[str, Callable[[Any], object]]] = {
    "partition_set": (
        "partition_set(s, 1..3)",
        lambda s: s[0] | s[1] == {1, 2, 3} and not s[0] & s[1],
    ),
    "disjoint": ("disjoint(s[1], s[2])", lambda s: not s[0] & s[1]),
    "all_different": ("all_different(s)", lambda s: s[0] != s[1]),
    "union": ("s[1] union s[2] = {1, 3}", lambda s: s[0] | s[1] == {1, 3}),
    "sum": (
        "sum_set([3, 1, 2], [5, 1, 1], s[1], 6) /\\ s[2] = {}",
        lambda s: sum({3: 5, 1: 1, 2: 1}[each] for each in s[0]) == 6 and not s[1],
    ),
    "at_most1": (
        "at_most1(s) /\\ card(s[1]) = 2",
        lambda s: len(s[0]) == 2 and len(s[0] & s[1]) <= 1,
    ),
}


@pytest.mark.skipif(shutil.which("minizinc") is None, reason="MiniZinc isn't there")
class TestByMiniZinc:
    """Models that MiniZinc makes into FlatZinc by our library."""

    def run(self, program: str, folder: Path, text: str, *words: str) -> list[dict[str, object]]:
        """The solutions of a model, read as JSON."""
        model = folder / "m.mzn"
        model.write_text(text)
        command = ["minizinc", "--solver", str(CONFIGURATION), "--output-mode", "json", *words]
        environment = {"PATH": "/usr/bin:/bin", "PROPBENCH": program}
        ran = subprocess.run(
            [*command, str(model)], env=environment, text=True, capture_output=True, check=True
        )
        return [json.loads(it) for it in ran.stdout.split("----------")[:-1]]

    def test_seven_lines_of_seven_points(self, program: str, tmp_path: Path) -> None:
        [found] = self.run(program, tmp_path, TRIPLES)
        lines = [frozenset(it["e"] for it in line["set"]) for line in found["line"]]  # type: ignore
        assert all(len(one) == 3 and one <= set("abcdefg") for one in lines)
        assert all(len(one & other) == 1 for one in lines for other in lines if one != other)
        assert [sorted(one) for one in lines] == sorted(sorted(one) for one in lines)

    @pytest.mark.parametrize("name", GLOBALS)
    def test_a_global_by_the_library(self, program: str, tmp_path: Path, name: str) -> None:
        constraint, is_right = GLOBALS[name]
        text = 'include "globals.mzn";\narray[1..2] of var set of 1..3: s;\n'
        text += f"constraint {constraint};\nsolve satisfy;\n"
        found = self.run(program, tmp_path, text, "-a")
        pairs = {tuple(map(_elements, each["s"])) for each in found}  # type: ignore
        sets = [frozenset(n for n in (1, 2, 3) if bits >> n & 1) for bits in range(0, 16, 2)]
        assert len(found) == len(pairs)
        assert pairs == {(one, other) for one in sets for other in sets if is_right((one, other))}


def _elements(told: dict[str, list[object]]) -> frozenset[int]:
    """The elements of a set in JSON, one by one or from one to another."""
    found: list[int] = []
    for each in told["set"]:
        found += range(each[0], each[1] + 1) if isinstance(each, list) else [int(str(each))]
    return frozenset(found)
