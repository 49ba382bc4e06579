"""A fixed tenth of MiniZinc's own test suite, which is in the folder suite: solved by `minizinc
--solver`, as a user does, and judged by what the tests say themselves."""

import json
import shutil
from collections.abc import Iterator
from pathlib import Path

import pytest

from propbench.flatzinc.compiling import CONFIGURATION

yaml = pytest.importorskip("yaml")

from solved_suite import GECODE, RIGHT, Loader, Ran  # noqa: E402
from solved_suite import judged, meets, run, suite_tests  # noqa: E402

SUITE = Path(__file__).parent / "suite/spec"
# A test takes up to two seconds of a processor, which may be busy.
SECONDS = 120
TESTS = list(suite_tests(SUITE))
NAMES = [str(test.model.relative_to(SUITE)) for test in TESTS]

needs_minizinc = pytest.mark.skipif(
    shutil.which("minizinc") is None, reason="Debian's package minizinc isn't installed"
)
# What is judged by hand.
MODEL = """/***
!Test
expected: !Result
  solution: !Solution
    x: 2
    objective: 2
***/
var 2..3: x;
solve minimize x;
"""


@pytest.fixture(scope="module")
def solver(wide: str, tmp_path_factory: pytest.TempPathFactory) -> Iterator[str]:
    """The file by which MiniZinc knows of the solver. It is run over propwide, and its modules are
    compiled once."""
    with pytest.MonkeyPatch.context() as patch:
        patch.setenv("PROPWIDE", wide)
        patch.delenv("PYTHONDONTWRITEBYTECODE", raising=False)
        patch.setenv("PYTHONPYCACHEPREFIX", str(tmp_path_factory.mktemp("compiled")))
        yield str(CONFIGURATION)


@pytest.fixture(scope="module")
def gecode(tmp_path_factory: pytest.TempPathFactory) -> str:
    """The file by which MiniZinc knows of Gecode."""
    file = tmp_path_factory.mktemp("solvers") / "gecode.msc"
    file.write_text(json.dumps(GECODE))
    return str(file)


def test_it_is_a_tenth() -> None:
    # (the suite has 527 files that are solved, with 562 tests)
    assert len(set(NAMES)) == 53
    assert len(TESTS) >= 56 and all(test.expected for test in TESTS)


@needs_minizinc
@pytest.mark.parametrize("number", range(len(TESTS)), ids=NAMES)
def test_it_is_right(solver: str, gecode: str, number: int) -> None:
    ran = run(TESTS[number], solver, SECONDS)
    assert judged(TESTS[number], ran, gecode) in RIGHT, ran


@needs_minizinc
@pytest.mark.parametrize(
    ("said", "what"),
    [
        (Ran([{"x": 2, "_objective": 2}], "COMPLETE", "", 1), "passed"),
        (Ran([{"x": 3, "_objective": 3}], "COMPLETE", "", 1), "WRONG"),
        (Ran([{"x": 4, "_objective": 2}], "COMPLETE", "", 1), "WRONG"),
        (Ran([], "UNSATISFIABLE", "", 1), "WRONG"),
        (Ran([], "UNKNOWN", "", 1), "out of time"),
        (Ran([], "TIMEOUT", "", 1), "out of time"),
        (Ran([], "ERROR", "fzn-propbench: line 1: no such constraint", 1), "refused"),
        (Ran([], "ERROR", "Traceback: of fzn-propbench", 1), "failed"),
    ],
)
def test_what_is_wrong_is_found_out(gecode: str, tmp_path: Path, said: Ran, what: str) -> None:
    (tmp_path / "small.mzn").write_text(MODEL)
    (test,) = suite_tests(tmp_path)
    assert judged(test, said, gecode) == what
    assert (what in RIGHT) == (what == "passed")


@needs_minizinc
def test_a_solver_that_has_no_time_is_ended(gecode: str, tmp_path: Path) -> None:
    """Gecode takes hours for these pigeons."""
    pigeons = "constraint forall (i, j in 1..14 where i < j) (x[i] != x[j]);"
    lines = [MODEL.split("var")[0], "array[1..14] of var 1..13: x;", pigeons, "solve satisfy;"]
    (tmp_path / "pigeons.mzn").write_text("\n".join(lines))
    (test,) = suite_tests(tmp_path)
    ran = run(test, gecode, 3)
    assert (ran.status, ran.solutions) == ("TIMEOUT", [])


@pytest.mark.parametrize(
    ("wanted", "found", "is_met"),
    [
        ("x: 1\ny: true", {"x": 1, "y": True, "z": 3}, True),
        ("x: 1\ny: true", {"x": 1}, False),
        ("objective: 5", {"x": 1, "_objective": 5}, True),
        ("x: [1, 2]", {"x": [1, 2]}, True),
        ("x: [1, 2]", {"x": [2, 1]}, False),
        ("x: [1, 2]", {"x": [1, 2, 3]}, False),
        ("x: !Unordered [1, 2]", {"x": [2, 1]}, True),
        ("x: !Unordered [1, 2]", {"x": [2, 2]}, False),
        ("x: !Range 1..3", {"x": {"set": [[1, 3]]}}, True),
        ("x: !Range 1..3", {"x": {"set": [1, 3]}}, False),
        ("x: !!set {1, 3}", {"x": {"set": [1, 3]}}, True),
        ("x: !!set {1, 3}", {"x": {"set": [[1, 3]]}}, False),
        ("x: 0.33333", {"x": 1 / 3}, True),
        ("x: 0.334", {"x": 1 / 3}, False),
        ("x: !Approx 2.5", {"x": 2.50001}, True),
        ("x: Mon", {"x": {"e": "Mon"}}, True),
        ("x: Mon", {"x": {"e": "Tue"}}, False),
        ("x: null", {"x": None}, True),
        ("x: null", {"x": 0}, False),
    ],
)
def test_a_solution_is_the_wanted_one(wanted: str, found: dict[str, object], is_met: bool) -> None:
    assert meets(yaml.load(wanted, Loader), found) == is_met
