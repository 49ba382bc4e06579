"""The examples of the page on plans do what is said of them."""

import csv
import io
import shlex
from pathlib import Path

import pytest
from conftest import REPOSITORY
from page_examples import carried_out

from propbench import Workbench, any_of, holidays, skilled
from propbench.desk import main

FREE = "BEGIN:VCALENDAR\nBEGIN:VEVENT\nDTSTART:20260403\nEND:VEVENT\nEND:VCALENDAR\n"
SHEET, PYTHON = (
    (REPOSITORY / "docs/PLANNING.md").read_text(encoding="utf-8").split("## In Python\n")
)


@pytest.fixture(autouse=True)
def here(wide: str, tmp_path: Path, monkeypatch: pytest.MonkeyPatch) -> None:
    monkeypatch.setenv("PROPBENCH", wide)
    monkeypatch.chdir(tmp_path)


def test_the_page(capsys: pytest.CaptureFixture[str]) -> None:
    carried_out(PYTHON, 1, capsys)


def test_its_table(tmp_path: Path, capsys: pytest.CaptureFixture[str]) -> None:
    """Design takes the days 0 to 2, engine 3 to 11, or to 5 for money, and guide 4 days: with the
    weekends off day 9 is the 13th, so all is done on the 13th by the library, as soon as can be."""
    first = SHEET.partition("\n| ")[2].partition("\n\n")[0]
    rows = [[cell.strip() for cell in line.strip("| ").split("|")] for line in first.split("\n")]
    with open("tasks.csv", "w", newline="", encoding="utf-8") as file:
        csv.writer(file).writerows([rows[0], *rows[2:]])
    [line] = [line for line in SHEET.split("\n") if line.startswith("    propdesk ")]
    words = ["tasks.csv" if word == "tasks.ods" else word for word in shlex.split(line)[1:]]
    options = [word.split("`")[0] for word in SHEET.split("| `--")[1:]]
    assert "give-up" in options and "why" in options
    assert main([*words, "--why", "--give-up", "--csv", "out.csv"]) == 0
    assert "All is done on Fri 13 Mar 2026, and no sooner" in capsys.readouterr().out
    assert (tmp_path / "plan.html").exists()
    told = list(csv.DictReader(io.StringIO(Path("out.csv").read_text(), newline="")))
    assert [each["to"] for each in told] == ["2026-03-04", "2026-03-09", "2026-03-13"]
    assert [each["how"] for each in told] == ["", "a library", ""]
    assert "trade-off end cost" in options
    assert main([*words[: words.index("--html")], "--trade-off", "end", "cost"]) == 0
    found = [line.split() for line in capsys.readouterr().out.split("\n")]
    # (by their own it takes 3, 9 and 4 days, to the 23rd)
    assert found[2][:6] == ["10", "1800", "Fri", "13", "Mar", "2026"]
    assert found[3][:6] == ["16", "0", "Mon", "23", "Mar", "2026"]


def test_its_calls(wide: str) -> None:
    """Each call of its table is one, and has the premise that one expects."""
    table = PYTHON.partition("| Call | Says |\n")[2].partition("\n\n")[0]
    calls = [call for row in table.split("\n")[1:] for call in row.split(" | ")[0].split("`")[1::2]]
    assert len(calls) == 13
    Path("free.ics").write_text(FREE)
    with Workbench(wide) as w:
        p = w.project(
            days=60, people="ana ben press", start="2026-03-02", skills={"ana": "welding"}
        )
        c = p.task("c", 4)
        a, b = p.task("a", 1, who="press", kind="red"), p.task("b", 2, who="press", kind="blue")
        functions = {"any_of": any_of, "skilled": skilled, "holidays": holidays}
        names = {"p": p, "a": a, "b": b, "task": a, "first": 3, "end": 4, "day": 5}
        for number, call in enumerate(calls):
            if "progress" in call:
                names |= {"task": c}
            code = f'p.task("t{number}", 1, {call})' if call.startswith("who=") else call
            exec(code.replace("..", "who=any_of('ana ben')"), {**names, **functions})
        assert {"x takes 3 by ana or 5 by ben", "ana works mon tue", "b 2 to 5 after a"} < {
            *w.premises
        }
        assert {"press takes 2 from red to blue", "a done 3 to 4", "today is 5"} < {*w.premises}
        assert {"hall holds 2", "ana costs 300 a day", "c has 2 days left"} < {*w.premises}
        assert "ana's days off" in w.premises and p.weights == {"ana before 9": 3}
        assert p.tasks["t0"].doers == ("ana", "ben") and p.tasks["t1"].people == ("ana",)
        # (b begins on a day from 4 + 2 to 4 + 5)
        assert w.least(b.start).value == 6 and w.greatest(b.start).value == 9
