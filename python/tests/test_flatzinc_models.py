"""The models of python/tests/models, solved: the answers are those of Gecode.

Their FlatZinc is there already, so MiniZinc is not needed; where it is, one of them is solved by
it.
"""

import os
import shutil
import subprocess
from pathlib import Path

import pytest
from solved_models import MODELS, NAMES, answer, answers

from propbench.flatzinc.command import main
from propbench.flatzinc.compiling import CONFIGURATION

ANSWERS = answers()


def test_there_are_models_enough() -> None:
    nothing = [name for name in NAMES if 0 in ANSWERS[name].values() or best_is_none(name)]
    assert len(NAMES) >= 60
    assert len(nothing) * 3 >= len(NAMES)


def best_is_none(name: str) -> bool:
    return "best" in ANSWERS[name] and ANSWERS[name]["best"] is None


@pytest.mark.parametrize("name", NAMES)
def test_the_answer_is_that_of_gecode(
    program: str, capsys: pytest.CaptureFixture[str], name: str
) -> None:
    assert main(["-a", "--program", program, str(MODELS / f"{name}.fzn")]) == 0
    right = ANSWERS[name]
    said = capsys.readouterr().out
    shown = right.get("shown", [])
    assert isinstance(shown, list)
    assert answer(str(right["goal"]), said, shown) == right
    is_none = right.get("solutions") == 0 or best_is_none(name)
    assert said.endswith("=====UNSATISFIABLE=====\n" if is_none else "==========\n")


@pytest.mark.skipif(shutil.which("minizinc") is None, reason="MiniZinc isn't there")
def test_minizinc_solves_by_the_configuration(program: str) -> None:
    words = ["minizinc", "--solver", str(CONFIGURATION), "-a", str(MODELS / "venue.mzn")]
    environment = {**os.environ, "PROPBENCH": program}
    ran = subprocess.run(words, env=environment, text=True, capture_output=True)
    assert ran.stdout.split("\n")[:3] == ["venue = uni;", "days = 8;", "cost = 2300;"]
    assert "==========" in ran.stdout
