"""The comparison with other tools: its own answers by hand, and that it names what isn't there."""

import os
import shutil
import sys
from itertools import permutations
from pathlib import Path

import pytest

sys.path.append(str(Path(__file__).resolve().parents[1] / "measure"))

import compare
import elsewhere
import puzzles


def test_it_asks_what_has_these_answers() -> None:
    orders = permutations(range(8))
    ways = [q for q in orders if len({q[i] + i for i in q}) == len({q[i] - i for i in q}) == 8]
    assert compare.queens_here() == len(ways) == 92
    assert compare.what_if_here() == ((1000 - 5000, 1000 + 5000), (1000, 1010))
    assert compare.why_here() == {f"d{i}of0" for i in range(20)}


@pytest.mark.skipif(shutil.which("clingo") is None, reason="there is no clingo")
def test_clingo_finds_the_shortest_of_a_plan_by_hand() -> None:
    plan = puzzles.Plan("by hand", [], [], "end", long=[2, 3, 4], before=[(0, 1)], either=[(0, 2)])
    assert elsewhere.plan_by_clingo(plan) == 6  # the third first would end the second at 9


def test_what_is_not_installed_is_named(
    tmp_path: Path, capsys: pytest.CaptureFixture[str], monkeypatch: pytest.MonkeyPatch
) -> None:
    monkeypatch.setitem(os.environ, "PATH", str(tmp_path))
    monkeypatch.setattr(elsewhere, "z3_library", lambda: missing("python3-z3"))
    assert compare.main(["--only", "1,000"]) == 0
    told = capsys.readouterr().out
    assert "no fzn-gecode" in told and "no swipl" in told and "no python3-z3" in told


def missing(name: str) -> object:
    raise elsewhere.Missing(name)
