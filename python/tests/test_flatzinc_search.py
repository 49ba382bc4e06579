"""The search for solutions of FlatZinc: told as they come, cut, free, by another order,
interrupted."""

import re
import signal
import subprocess
import sys
import time
from itertools import combinations
from pathlib import Path

import pytest
from conftest import REPOSITORY

from propbench import Workbench
from propbench.flatzinc.building import Built
from propbench.flatzinc.command import main
from propbench.flatzinc.grammar import read
from propbench.flatzinc.seeking import SearchWay
from propbench.flatzinc.solving import Wanted, solve

# The longest of ten sticks that a truck of 100 takes together: so many choices that one by one
# better loads are found.
STICKS = [31, 27, 43, 19, 7, 22, 38, 13, 29, 17]
LOAD = (
    "\n".join(f"var bool: t{place} :: output_var;" for place in range(len(STICKS)))
    + "\nvar 0..100: load :: output_var;\n"
    + f"constraint bool_lin_eq({STICKS},[{','.join(f't{p}' for p in range(len(STICKS)))}],load);\n"
    + "solve :: bool_search([t0,t1,t2],input_order,indomain_min,complete) maximize load;\n"
)
BEST = max(
    sum(some)
    for size in range(len(STICKS) + 1)
    for some in combinations(STICKS, size)
    if sum(some) <= 100
)
# (the variable that is brought in can be anything, and is no part of a solution)
HIDDEN = """\
var 1..3: x :: output_var;
var 1..3: y :: output_var;
var 1..9: h :: var_is_introduced;
constraint int_lt(x,y);
constraint int_le(x,h);
solve satisfy;
"""


def loads(said: str) -> list[int]:
    return [int(each) for each in re.findall(r"^load = (\d+);", said, re.MULTILINE)]


@pytest.mark.parametrize(
    "words", [[], ["-f"], ["-r", "7"], ["-i"], ["-a"], ["-i", "-f", "-r", "2"], ["-p", "3", "-i"]]
)
def test_the_best_is_the_last(
    program: str, tmp_path: Path, capsys: pytest.CaptureFixture[str], words: list[str]
) -> None:
    file = tmp_path / "m.fzn"
    file.write_text(LOAD)
    assert main([*words, str(file), "--program", program]) == 0
    said = capsys.readouterr().out
    found = loads(said)
    assert found[-1] == BEST and said.endswith("----------\n==========\n")
    assert found == sorted(set(found)) and said.count("----------") == len(found)
    assert len(found) == 1 or {"-i", "-a"} & set(words)


def ruler(marks: int, most: int) -> str:
    """The shortest ruler whose marks are all at different distances, in FlatZinc."""
    names = [f"m{place}" for place in range(marks)]
    pairs = list(combinations(range(marks), 2))
    lines = [f"var 0..{most}: {name} :: output_var;" for name in names]
    lines += [f"var 1..{most}: d{a}_{b} :: var_is_introduced :: is_defined_var;" for a, b in pairs]
    lines += [
        f"constraint int_lin_eq([1,-1,1],[m{a},m{b},d{a}_{b}],0) :: defines_var(d{a}_{b});"
        for a, b in pairs
    ]
    differences = ",".join(f"d{a}_{b}" for a, b in pairs)
    lines += [f"constraint fzn_all_different_int([{differences}]);", "constraint int_eq(m0,0);"]
    return "\n".join([*lines, f"solve minimize {names[-1]};", ""])


def test_each_better_one_is_told(wide: str) -> None:
    told: list[object] = []
    with Workbench(wide) as workbench:
        found = solve(
            Built(read(ruler(6, 40)), workbench), Wanted(way=SearchWay(is_each=True)), told.append
        )
    lengths = [plan["m5"] for plan in found.plans]
    # (17 is the length of the best ruler of six marks)
    assert found.is_complete and told == found.plans and found.objective == lengths[-1] == 17
    assert len(lengths) > 1 and lengths == sorted(set(lengths), reverse=True)


@pytest.mark.parametrize(
    "words", [["-a"], ["-a", "-f"], ["-a", "-r", "3"], ["-n", "9"], ["-a", "-p", "4"]]
)
def test_what_is_brought_in_makes_no_solutions(
    program: str, tmp_path: Path, capsys: pytest.CaptureFixture[str], words: list[str]
) -> None:
    file = tmp_path / "m.fzn"
    file.write_text(HIDDEN)
    assert main([*words, str(file), "--program", program]) == 0
    said = capsys.readouterr().out
    pairs = re.findall(r"x = (\d);\ny = (\d);\n----------\n", said)
    assert sorted(pairs) == [("1", "2"), ("1", "3"), ("2", "3")]
    assert said.endswith("==========\n")


# (what MiniZinc brings in and prints is a part of a solution)
PRINTED = """\
var 1..3: x :: var_is_introduced :: output_var;
var 1..9: h :: var_is_introduced;
array [1..2] of var int: a :: output_array([1..2]) = [x,y];
var 1..2: y :: var_is_introduced;
constraint int_lt(y,x);
constraint int_le(x,h);
solve satisfy;
"""
UNSEEN = "var 1..3: h :: var_is_introduced;\nconstraint int_le(2,h);\nsolve satisfy;\n"


@pytest.mark.parametrize("words", [["-a"], ["-n", "9"]])
def test_what_is_printed_makes_solutions(
    program: str, tmp_path: Path, capsys: pytest.CaptureFixture[str], words: list[str]
) -> None:
    file = tmp_path / "m.fzn"
    file.write_text(PRINTED)
    assert main([*words, str(file), "--program", program]) == 0
    said = capsys.readouterr().out
    pairs = re.findall(r"x = (\d);\na = array1d\(1..2,\[\1,(\d)\]\);\n----------\n", said)
    assert sorted(pairs) == [("2", "1"), ("3", "1"), ("3", "2")] and said.endswith("==========\n")
    file.write_text(UNSEEN)
    assert main([*words, str(file), "--program", program]) == 0
    assert capsys.readouterr().out == "----------\n==========\n"


def test_no_more_are_told_than_are_wanted(program: str) -> None:
    with Workbench(program) as workbench:
        found = solve(Built(read(HIDDEN), workbench), Wanted(2))
    assert len(found.plans) == 2 and not found.is_complete


def test_numbers_without_ends_are_sought_in_time(program: str) -> None:
    text = (
        "var int: x :: output_var; var int: y;\nconstraint int_lt(x,y);\nconstraint int_lt(y,x);\n"
    )
    began = time.monotonic()
    with Workbench(program) as workbench:
        found = solve(Built(read(text + "solve satisfy;\n"), workbench), Wanted(seconds=2.0))
    assert not found.plans and time.monotonic() - began < 8


def test_statistics_have_the_names_of_minizinc(
    program: str, tmp_path: Path, capsys: pytest.CaptureFixture[str]
) -> None:
    file = tmp_path / "m.fzn"
    file.write_text(LOAD)
    assert main(["-s", str(file), "--program", program]) == 0
    told = dict(re.findall(r"^%%%mzn-stat: (\w+)=(\S+)$", capsys.readouterr().out, re.MULTILINE))
    assert (told["boolVariables"], told["intVariables"], told["variables"]) == ("10", "1", "11")
    assert told["objective"] == str(BEST) and told["nSolutions"] == "1"
    assert float(told["solveTime"]) > 0 and int(told["propagators"]) > 0


@pytest.mark.parametrize("searches", ["1", "3"])
def test_who_ends_it_gets_the_best_so_far(program: str, tmp_path: Path, searches: str) -> None:
    # (the best of so many marks is out of reach)
    file = tmp_path / "m.fzn"
    file.write_text(ruler(10, 200))
    solver = REPOSITORY / "python/src/propbench/flatzinc/fzn-propbench"
    words = [sys.executable, str(solver), "-i", "-p", searches, str(file), "--program", program]
    with subprocess.Popen(words, stdout=subprocess.PIPE, text=True) as ran:
        time.sleep(4)
        ran.send_signal(signal.SIGTERM)
        said, _ = ran.communicate(timeout=20)
    assert "==========" not in said and ran.returncode == 0
    assert said.endswith(("----------\n", "=====UNKNOWN=====\n"))


def test_a_search_whose_answers_nobody_reads_ends(program: str, tmp_path: Path) -> None:
    file = tmp_path / "m.fzn"
    file.write_text(ruler(10, 200))
    solver = REPOSITORY / "python/src/propbench/flatzinc/fzn-propbench"
    words = [sys.executable, str(solver), str(file), "--program", program]
    with subprocess.Popen(words, stdout=subprocess.PIPE, stderr=subprocess.PIPE) as ran:
        time.sleep(4)
        assert ran.poll() is None and ran.stdout is not None
        ran.stdout.close()
        assert ran.wait(timeout=20) is not None
