"""The lessons of notebooks/: each runs, shows what is kept, and its exercises have answers that
check themselves; handouts have no answers; the page for who teaches names them all.

They are run over both programs, as a class does. `lessons.py` runs them and keeps what they show.
"""

import ast
import json
import re
import subprocess
import sys
from pathlib import Path
from typing import Any

import nbformat
import pytest
from conftest import PROGRAMS, REPOSITORY
from lessons import LESSONS, UNPROVED, kept, paths, ran, read, shown

PAGE = REPOSITORY / "docs/CLASS.md"
MOST_BYTES = 4_000
# So many exercises has a lesson.
EXERCISES = range(4, 7)
# What only holds on one machine: a path, the place of something in memory, when something was run.
OF_A_MACHINE = re.compile(r"/(?:home|root|tmp|usr|work|opt)/|\b0x[0-9a-f]{6,}|\d{4}-\d\d-\d\dT\d")

each_lesson = pytest.mark.parametrize("path", paths(), ids=[path.stem for path in paths()])


@pytest.fixture
def wide(monkeypatch: pytest.MonkeyPatch) -> None:
    """What a kernel is told: the programs, and where to find the package."""
    if "propwide" not in PROGRAMS:
        pytest.skip("a lesson shows what propwide says too, and none is there")
    monkeypatch.setenv("PROPBENCH", PROGRAMS["propbench"])
    monkeypatch.setenv("PROPWIDE", PROGRAMS["propwide"])
    monkeypatch.setenv("PYTHONPATH", str(REPOSITORY / "python" / "src"))
    monkeypatch.setenv("PYDEVD_DISABLE_FILE_VALIDATION", "1")


def cells(path: Path, kind: str) -> dict[str, Any]:
    """The cells of a kind, by their ids."""
    return {cell["id"]: cell for cell in read(path).cells if cell.cell_type == kind}


def is_answer(cell: Any) -> bool:
    return "answer" in cell.metadata.get("tags", ())


@each_lesson
def test_a_lesson_shows_what_is_kept(wide: None, path: Path) -> None:
    book = read(path)
    for before, after in zip(book.cells, ran(book).cells):
        assert shown(after) == shown(before), before["id"]


@each_lesson
def test_it_is_a_notebook_like_any_other(path: Path) -> None:
    text = path.read_text(encoding="utf-8")
    book = read(path)
    nbformat.validate(book)
    assert (book.nbformat, book.nbformat_minor) == (4, 5)
    assert text == kept(book)
    assert UNPROVED not in text and not OF_A_MACHINE.search(text)
    code = [cell for cell in book.cells if cell.cell_type == "code"]
    assert [cell.execution_count for cell in code] == list(range(1, len(code) + 1))
    assert all(re.fullmatch(r"[a-z0-9-]+", cell["id"]) for cell in book.cells)


@each_lesson
def test_it_has_pictures_and_sources(path: Path) -> None:
    drawn = [
        output
        for cell in cells(path, "code").values()
        for output in cell.outputs
        if "image/svg+xml" in output.get("data", {})
    ]
    assert len(drawn) >= 2
    assert re.search(r"\(\d{4}\)", cells(path, "markdown")["sources"].source)


@each_lesson
def test_each_exercise_has_an_answer_that_checks_itself(path: Path) -> None:
    texts, code = cells(path, "markdown"), cells(path, "code")
    asked = [name.split("-")[1] for name in texts if name.startswith("exercise-")]
    numbers = [str(n + 1) for n in range(len(asked))]
    assert asked == numbers and len(numbers) in EXERCISES
    assert {name for name, cell in code.items() if is_answer(cell)} == {
        f"answer-{number}" for number in numbers
    }
    for number in numbers:
        assert texts[f"exercise-{number}"].source.startswith(f"**{number}. ")
        assert not code[f"yours-{number}"].outputs
        told, cell = texts[f"answer-{number}-text"], code[f"answer-{number}"]
        assert is_answer(told) and told.source.startswith(f"**{number}.**")
        assert cell.metadata.jupyter.source_hidden
        checks = [each for each in ast.walk(ast.parse(cell.source)) if isinstance(each, ast.Assert)]
        assert checks and not any(isinstance(each.test, ast.Constant) for each in checks)


def test_a_wrong_lesson_is_found_out(wide: None) -> None:
    """Both where a cell checks itself, and where another thing is shown than is kept."""
    book = read(paths()[0])
    at = next(place for place, cell in enumerate(book.cells) if cell["id"] == "cell-check")
    book.cells = book.cells[: at + 1]
    lines = book.cells[at - 2]
    assert "fix x 3..12" in lines.source
    lines.source = lines.source.replace("fix x 3..12", "fix x 4..12")
    after = ran(book, may_fail=True).cells
    assert [output.ename for output in after[at].outputs] == ["AssertionError"]
    assert shown(after[at - 2]) != shown(lines)


def test_handouts_have_no_answers(tmp_path: Path) -> None:
    folder = tmp_path / "class"
    subprocess.run([sys.executable, LESSONS / "handout.py", folder], check=True)
    assert [path.name for path in sorted(folder.iterdir())] == [path.name for path in paths()]
    for path in paths():
        handed = (folder / path.name).read_text(encoding="utf-8")
        nbformat.validate(read(folder / path.name))
        given = [cell["id"] for cell in json.loads(handed)["cells"]]
        assert given == [
            cell["id"] for cell in read(path).cells if not cell["id"].startswith("answer")
        ]
        assert "exercises" in given and "source_hidden" not in handed


def test_a_handout_wants_a_folder() -> None:
    done = subprocess.run([sys.executable, LESSONS / "handout.py"], stderr=subprocess.PIPE)
    assert done.returncode == 2 and done.stderr.startswith(b"usage: ")


def test_the_page_for_who_teaches() -> None:
    text = PAGE.read_text(encoding="utf-8")
    assert len(text.encode()) <= MOST_BYTES
    assert re.findall(r"\]\(\.\./notebooks/(\S+)\)", text) == [path.name for path in paths()]
    assert len(paths()) == 4
    commands = [line.strip() for line in text.split("\n") if line.startswith("    ")]
    assert any("notebooks/handout.py" in line for line in commands)
