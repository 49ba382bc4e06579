"""The examples of the page on seeing do what they say."""

import re
from pathlib import Path

import pytest
from conftest import REPOSITORY
from page_examples import carried_out, examples

PAGE = REPOSITORY / "docs/SEEING.md"
MOST_BYTES = 6_000


def test_the_page(
    program: str,
    tmp_path: Path,
    monkeypatch: pytest.MonkeyPatch,
    capsys: pytest.CaptureFixture[str],
) -> None:
    monkeypatch.setenv("PROPBENCH", program)
    monkeypatch.chdir(tmp_path)
    carried_out(without_how(PAGE.read_text(encoding="utf-8")), 1, capsys)
    assert (tmp_path / "plan.svg").read_text().count("</svg>") == 1
    assert "Ana&#39;s wish" in (tmp_path / "days.svg").read_text()


def without_how(text: str) -> str:
    """The page without what propwide alone tells."""
    return re.sub(r"\n## What makes up a value\n.*?(?=\n## )", "", text, flags=re.S)


def test_what_propwide_tells(wide: str, capsys: pytest.CaptureFixture[str]) -> None:
    text = PAGE.read_text(encoding="utf-8")
    [(code, _)] = examples(without_how(text))
    [(how, wanted)] = examples(text[text.index("## What makes up a value") :][:900])
    names: dict[str, object] = {}
    exec(code.partition("w.picture")[0].replace("Workbench()", f"Workbench({wide!r})") + how, names)
    assert capsys.readouterr().out == wanted


def test_it_is_short() -> None:
    assert len(PAGE.read_bytes()) <= MOST_BYTES
