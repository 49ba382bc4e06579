"""What is imported, which is what a start takes: as few modules as a command needs, and none of
those of Python that take long. (A clock would tell how busy the machine is.)"""

import ast
import importlib
import os
import subprocess
import sys
from pathlib import Path

import pytest

import propbench

SOURCES = str(Path(propbench.__file__).resolve().parents[1])
# What no start needs: each takes as long as many modules of the package.
HEAVY = {
    "asyncio",
    "concurrent.futures",
    "difflib",
    "email",
    "hashlib",
    "html",
    "http",
    "json",
    "logging",
    "pathlib",
    "random",
    "socket",
    "subprocess",
    "textwrap",
    "unittest",
}


def imported(statements: str, *words: str) -> set[str]:
    """The modules that statements import, in a Python of their own, beside those of a bare one: of
    one that looks at no site packages, since what these import at each start (`*.pth`) is not ours,
    and differs from one machine to the next."""
    told = (
        "import sys\n"
        "there = set(sys.modules)\n"
        f"{statements}\n"
        "print('', *(set(sys.modules) - there), sep='\\n')\n"
    )
    ran = subprocess.run(
        [sys.executable, "-S", "-c", told, *words],
        env={**os.environ, "PYTHONPATH": SOURCES},
        capture_output=True,
        text=True,
        check=True,
    )
    return set(ran.stdout.rpartition("\n\n")[2].split())


def test_the_package_is_there_at_once() -> None:
    found = imported("import propbench")
    assert {name for name in found if name.startswith("propbench")} == {
        "propbench",
        "propbench.lazily",
    }
    assert len(found) <= 40


def test_help_needs_none_of_what_it_tells_of() -> None:
    found = imported(
        "from propbench.desk import main\n"
        "try:\n    main(['--help'])\nexcept SystemExit:\n    print()"
    )
    assert {name for name in found if name.startswith("propbench.")} == {
        "propbench.beginning",
        "propbench.desk",
        "propbench.lazily",
    }
    assert len(found) <= 60


def test_a_run_imports_no_workbench(tmp_path: Path) -> None:
    """Nor anything of questions, measuring, plans, pictures and pages."""
    (tmp_path / "file.prop").write_text("cell x span\ntell ana x 3..5\nask x\n", encoding="utf-8")
    found = imported(
        "import sys\n"
        "from propbench.desk import main\n"
        "assert main(sys.argv[1:]) == 0\nprint()",
        "run",
        str(tmp_path / "file.prop"),
    )
    assert not HEAVY & found
    assert [name for name in found if name.count(".") > 1 and name.startswith("propbench.")] == []
    assert len(found) <= 105


def test_a_solver_imports_what_solves_alone(
    tmp_path: Path, wide: str, monkeypatch: pytest.MonkeyPatch
) -> None:
    """No quantities, no projects, no views, and of the questions those that find solutions, by
    propwide's search."""
    monkeypatch.setenv("PROPWIDE", wide)
    model = "var 1..3: x :: output_var;\nconstraint int_ne(x, 1);\nsolve satisfy;\n"
    (tmp_path / "model.fzn").write_text(model, encoding="utf-8")
    found = imported(
        "import sys\n"
        "from propbench.flatzinc.command import main\n"
        "assert main(sys.argv[1:]) == 0\nprint()",
        str(tmp_path / "model.fzn"),
    )
    assert not HEAVY & found
    parts = ("measuring", "planning", "watching", "pictures", "page", "notebook")
    assert [name for name in found if name.startswith(tuple(f"propbench.{x}" for x in parts))] == []
    # (nor what shows a claim, goes by cases, or asks how wide a terminal is)
    unneeded = {f"propbench.questions.{x}" for x in ("certificate", "scenarios", "trial")}
    assert not {*unneeded, "propbench.model.lowering", "shutil"} & found
    assert len(found) <= 165


def test_a_started_solver_looks_for_garbage_again(tmp_path: Path) -> None:
    """It does not while it imports, and then leaves out what was imported."""
    (tmp_path / "model.fzn").write_text("var 1..1: x :: output_var;\nsolve satisfy;\n")
    told = (
        "import gc, sys\n"
        "from propbench.flatzinc.starting import main\n"
        "assert main() == 0 and gc.isenabled() and gc.get_freeze_count() > 1000\n"
    )
    words = [sys.executable, "-c", told, str(tmp_path / "model.fzn")]
    environment = {**os.environ, "PYTHONPATH": SOURCES}
    ran = subprocess.run(words, env=environment, capture_output=True, text=True)
    assert (ran.returncode, ran.stdout, ran.stderr) == (0, "x = 1;\n----------\n", "")


@pytest.mark.parametrize("package", ["propbench", "propbench.errors", "propbench.questions"])
def test_each_name_is_there(package: str) -> None:
    """What stands for type checkers is what there is: a module's own names, found when asked
    for."""
    there = importlib.import_module(package)
    with open(str(there.__file__), encoding="utf-8") as file:
        [block] = [node for node in ast.parse(file.read()).body if isinstance(node, ast.If)]
    told = {}
    for node in block.body:
        assert isinstance(node, ast.ImportFrom)
        home = importlib.import_module(str(node.module))
        shown = [it.name for it in node.names if it.asname]
        for name in home.__all__ if node.names[0].name == "*" else shown:
            told[name] = getattr(home, name)
    for name, value in told.items():
        assert getattr(there, name) is value, name
    assert told and set(there.__all__) <= {*told, "Model", "Questions"}
    with pytest.raises(AttributeError, match="has no attribute 'Unheard'"):
        there.Unheard
    assert set(there.__all__) <= set(dir(there))
