"""The examples of the page on the workbench, and of its docstring, do what they say."""

import re

import pytest
from conftest import REPOSITORY
from page_examples import carried_out

import propbench.workbench

PAGE = REPOSITORY / "docs/WORKBENCH.md"
# What the pages for who uses a workbench may take together.
PAGES, MOST_BYTES = [PAGE, REPOSITORY / "docs/QUESTIONS.md"], 10_600


def test_the_page(
    program: str, monkeypatch: pytest.MonkeyPatch, capsys: pytest.CaptureFixture[str]
) -> None:
    monkeypatch.setenv("PROPBENCH", program)
    carried_out(PAGE.read_text(encoding="utf-8"), 5, capsys)


def test_they_are_short() -> None:
    assert sum(len(page.read_bytes()) for page in PAGES) <= MOST_BYTES


def test_the_docstring(
    program: str, monkeypatch: pytest.MonkeyPatch, capsys: pytest.CaptureFixture[str]
) -> None:
    monkeypatch.setenv("PROPBENCH", program)
    text = propbench.workbench.__doc__ or ""
    code, wanted = re.findall(r"((?:    .*\n|\n(?=    ))+)", text)[0], []
    lines = []
    for line in re.sub(r"^    ", "", code, flags=re.M).split("\n"):
        call, _, printed = line.partition("  # ")
        lines.append(call)
        wanted += [printed] if printed else []
    exec("\n".join(lines), {})
    assert capsys.readouterr().out.splitlines() == wanted and wanted
