"""The examples of the package's README.md do what it says."""

import re
from pathlib import Path

import pytest
from conftest import REPOSITORY

from propbench import NothingFits, Workbench
from propbench.desk import main

README = (REPOSITORY / "python/README.md").read_text(encoding="utf-8")


def blocks(text: str = README) -> list[str]:
    """The indented blocks."""
    found = re.findall(r"(?:^    .*\n|^\n(?=    ))+", text, flags=re.M)
    return [re.sub(r"^    ", "", block, flags=re.M).strip("\n") + "\n" for block in found]


def test_the_session(
    program: str, monkeypatch: pytest.MonkeyPatch, capsys: pytest.CaptureFixture[str]
) -> None:
    monkeypatch.setenv("PROPBENCH", program)
    example, wanted, *_ = blocks()
    exec(example, {})
    assert capsys.readouterr().out == wanted


def test_the_loop(
    over: None, monkeypatch: pytest.MonkeyPatch, capsys: pytest.CaptureFixture[str]
) -> None:
    text = README.partition("## In a program of your own")[2]
    example, wanted, *_ = blocks(text)
    exec(example, {})
    assert capsys.readouterr().out == wanted


def test_what_the_end_of_time_leaves(wide: str) -> None:
    """Two numbers of which each is more than the other: their ends go through all numbers."""
    most = 10**15
    with Workbench(wide) as w:
        x, y = w.number("x", 0, most), w.number("y", 0, most)
        w.require(x + 1 == y)
        w.require(y + 1 == x, under="more")
        for answer in (x.ask(seconds=0.1), x.core(seconds=0.1), *w.table(x, seconds=0.1).answers):
            assert not answer.settled and answer.low is not None and 0 < answer.low < most / 2
        with pytest.raises(NothingFits) as caught:
            w.solve(seconds=0.1)
        assert caught.value.premises is None
        for best in (w.least(x, seconds=0.1), w.greatest(x, seconds=0.1)):
            assert best.value is None and not best.proved
        for found in (w.conflicts(seconds=0.1), w.repairs(seconds=0.1), w.plans(seconds=0.1)):
            assert not found and not found.complete
        assert not w.slack(x, seconds=0.1).complete


def test_the_refusal(
    program: str,
    tmp_path: Path,
    monkeypatch: pytest.MonkeyPatch,
    capsys: pytest.CaptureFixture[str],
) -> None:
    monkeypatch.chdir(tmp_path)
    Path("plan.prop").write_text("cell coffee span\n" + "\n" * 7 + "tell ana coffe 3\n")
    assert main(["run", "plan.prop", "--program", program]) == 1
    [wanted] = [block for block in blocks() if block.startswith("plan.prop:")]
    assert capsys.readouterr().err.startswith(wanted)
