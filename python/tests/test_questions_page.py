"""The examples of the page on questions do what is said of them."""

from pathlib import Path

import pytest
from conftest import REPOSITORY
from page_examples import carried_out

from propbench.desk import main

PAGE = REPOSITORY / "docs/QUESTIONS.md"


def test_the_page(
    program: str,
    tmp_path: Path,
    monkeypatch: pytest.MonkeyPatch,
    capsys: pytest.CaptureFixture[str],
) -> None:
    monkeypatch.setenv("PROPBENCH", program)
    monkeypatch.chdir(tmp_path)
    carried_out(PAGE.read_text(encoding="utf-8"), 4, capsys)
    assert main(["check", "least.claim", "--base", "plan.prop"]) == 0
