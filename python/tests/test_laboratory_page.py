"""The examples of the page on laboratories do what is said of them: files, the command, Python."""

import re
from collections.abc import Iterator
from pathlib import Path

import pytest
from conftest import REPOSITORY
from page_examples import OUTPUT, carried_out, examples, without_notes

from propbench.desk import main

PAGE = (REPOSITORY / "docs/LABORATORY.md").read_text(encoding="utf-8")
END = "## Tables"


def files() -> Iterator[tuple[str, str]]:
    """The files of the page by name: each is a block behind its name."""
    for name, block in re.findall(r"here `([\w.]+)`:\n\n((?:    .*\n|\n(?=    ))+)", PAGE):
        yield name, re.sub(r"^    ", "", block, flags=re.M)


def test_the_command(
    wide: str, tmp_path: Path, monkeypatch: pytest.MonkeyPatch, capsys: pytest.CaptureFixture[str]
) -> None:
    monkeypatch.chdir(tmp_path)
    for name, text in files():
        Path(name).write_text(text, encoding="utf-8")
    [(_, wanted)] = [each for each in examples(PAGE.partition(END)[0]) if each[1]]
    [line] = re.findall(r"^    propdesk (measure .*)$", PAGE.partition(END)[0], flags=re.M)
    assert main([*line.split(), "--program", wide]) == 0
    assert without_notes(capsys.readouterr().out) == wanted
    # (exact fractions: 99.4 / 7.1 is 14, which no answer may leave out)
    low = re.findall(r"^  density +\S+ +\S+ +\S+ +(\S+)", wanted, flags=re.M)
    assert 13.9999 < float(low[0]) <= 14


def test_the_page(
    wide: str, tmp_path: Path, monkeypatch: pytest.MonkeyPatch, capsys: pytest.CaptureFixture[str]
) -> None:
    monkeypatch.chdir(tmp_path)
    monkeypatch.setenv("PROPBENCH", wide)
    text = PAGE.partition(END)[2]
    carried_out(text, text.count(OUTPUT), capsys)
