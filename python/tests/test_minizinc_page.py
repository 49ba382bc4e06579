"""The page on MiniZinc models: its example is told as it stands there.

Where MiniZinc isn't there, what it makes of the example is read from a file; where it is, that file
has to be what it makes.
"""

import re
import shutil
from collections.abc import Sequence
from pathlib import Path

import pytest
from conftest import REPOSITORY

from propbench.desk import main, parser
from propbench.flatzinc import compiling
from propbench.flatzinc.marking import marked

PAGE = REPOSITORY / "docs/MINIZINC.md"
WEEK = Path(__file__).parent / "models/page/week.mzn"
FLAT = WEEK.with_suffix(".marked.fzn")
MOST_BYTES = 6_400


def blocks(text: str) -> list[str]:
    """The indented blocks of the page."""
    found = re.findall(r"(?:^    .*\n)+", text, flags=re.M)
    return ["".join(line[4:] + "\n" for line in block.splitlines()) for block in found]


def test_the_page(
    program: str, monkeypatch: pytest.MonkeyPatch, capsys: pytest.CaptureFixture[str]
) -> None:
    text = PAGE.read_text(encoding="utf-8")
    assert len(text.encode()) <= MOST_BYTES
    commands, model, said = blocks(text)
    assert model == WEEK.read_text()
    if shutil.which("minizinc") is None:
        monkeypatch.setattr(compiling, "_flattened", from_file)
    assert main(["blame", str(WEEK), "--program", program]) == 0
    assert capsys.readouterr().out == said
    options = re.findall(r"`(--\w+)[` ]", text)
    help_text = parser().format_help()
    assert "blame" in help_text and set(options) >= {"--keep", "--picture", "--certificate"}
    assert all((REPOSITORY / word).exists() for word in re.findall(r"python/\S+", commands))


def from_file(model: Path, text: str, data: Sequence[Path]) -> str:
    assert (model, list(data)) == (WEEK, [])
    return FLAT.read_text()


@pytest.mark.skipif(shutil.which("minizinc") is None, reason="MiniZinc isn't there")
def test_minizinc_makes_what_stands_there() -> None:
    assert compiling._flattened(WEEK, marked(WEEK.read_text()).text, []) == FLAT.read_text()
