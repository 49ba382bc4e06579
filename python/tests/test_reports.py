"""Reports of runs, held against a fresh session: nothing that was spoilt is believed."""

import copy
import json
from collections.abc import Callable
from pathlib import Path
from typing import Any

import pytest
from conftest import ENDLESS

from propbench.desk import main
from propbench.reports import NoReport, report_in

LINES = """cell x span
cell plan span
cell z span
attach sum x plan z
tell morning x 3..5
tell evening plan 10
why z
ask w
choose c x 4 or 7
ask x"""

Report = dict[str, Any]


@pytest.fixture
def reported(
    program: str, tmp_path: Path, capsys: pytest.CaptureFixture[str]
) -> Callable[[list[str], list[str]], Report]:
    """The report of a run of lines, with more options."""

    def run(lines: list[str], options: list[str]) -> Report:
        path = tmp_path / "run.prop"
        path.write_text("\n".join(lines))
        main(["run", str(path), "--json", "--keep-going", "--program", program, *options])
        report: Report = json.loads(capsys.readouterr().out)
        return report

    return run


@pytest.fixture
def checked(
    program: str, tmp_path: Path, capsys: pytest.CaptureFixture[str]
) -> Callable[[Report], tuple[int, str]]:
    """The status of a check, and what it writes."""

    def check(report: Report) -> tuple[int, str]:
        path = tmp_path / "report.json"
        path.write_text(json.dumps(report))
        status = main(["check", str(path), "--program", program])
        return status, capsys.readouterr().out

    return check


Run = Callable[[list[str], list[str]], Report]
Check = Callable[[Report], tuple[int, str]]
SPOILS: list[tuple[Callable[[Report], object], str]] = [
    (lambda it: it["asked"][0].update(reply="z = 13"), "line 7: the report says `z = 13`"),
    (lambda it: it["asked"][0].update(text="why x"), "line 7, what it asks: the report says"),
    (lambda it: it["asked"][0].update(line=10), "line 7: the report says `None`"),
    (
        lambda it: it["asked"].append({"line": 7, "text": "why z", "reply": "z = 1"}),
        "line 7 once more: the report says `z = 1`, the program `None`",
    ),
    (
        lambda it: it["asked"].insert(0, {"line": 7, "text": "why z", "reply": "z = 1"}),
        "line 7: the report says `z = 1`",
    ),
    (lambda it: it["asked"].append(it["asked"][0]), "line 7 once more: the report says"),
    (
        lambda it: it["asked"].append({"line": 90, "text": "ask y", "reply": "y = 1"}),
        "line 90: the report says `y = 1`, the program `None`",
    ),
    (lambda it: it["refused"][0].update(number=10), "line 8: the report says `10`"),
    (lambda it: it["refused"][0].update(word="x"), "line 8, what is wrong: the report says"),
    (lambda it: it["refused"][0].update(says="All is well."), "line 8, what is wrong"),
    (lambda it: it["refused"].clear(), "line 8: the report says `None`"),
    (lambda it: it["cells"]["x"].update(value="7"), "x: the report says"),
    (lambda it: it["cells"]["x"].update(because=[]), "x: the report says"),
    (lambda it: it["cells"].pop("plan"), "plan: the report says `None`"),
    (lambda it: it["cells"].update(y={"value": "3", "because": []}), "y: the report says"),
    (lambda it: it["plan"].append("c=2"), "plan: the report says"),
    (lambda it: it.update(plan=[]), "plan: the report says"),
    (lambda it: it.update(conflict=["morning"]), "conflict: the report says"),
    (lambda it: it.update(settled=False), "All that follows was found: the report says `False`"),
    (lambda it: it.update(complete=False), "The end is reached: the report says `False`"),
    (lambda it: it["lines"].insert(4, "tell dawn x 3"), "line 7: the report says"),
]


def test_what_is_spoilt_shows(reported: Run, checked: Check) -> None:
    report = reported(LINES.split("\n"), [])
    status, out = checked(report)
    assert (status, out.split("\n")[0]) == (0, "All 6 answers of the report are the program's.")
    for spoil, said in SPOILS:
        changed = copy.deepcopy(report)
        spoil(changed)
        status, out = checked(changed)
        assert status == 1 and out.count(said) >= 1, (said, out)


def test_a_table_that_was_cut_is_looked_at(reported: Run, checked: Check) -> None:
    """The run is cut after as many steps as the report tells, wherever the clock cuts it."""
    report = reported(ENDLESS, ["--seconds", "0.01"])
    assert report["settled"] is False and report["steps"] > 0
    assert checked(report)[0] == 0
    spoils: list[tuple[Callable[[Report], object], str]] = [
        (lambda it: it["cells"]["x"].update(value="7"), "x: the report says `7"),
        (lambda it: it["cells"].update(y={"value": "3", "because": []}), "y: the report says"),
        (lambda it: it["cells"].pop("x"), "x: the report says `None`"),
        (lambda it: it["plan"].append("c=2"), "plan: the report says"),
        (lambda it: it.update(steps=it["steps"] - 1), "x: the report says"),
        (lambda it: it.pop("steps"), "it can't be compared"),
    ]
    for spoil, said in spoils:
        changed = copy.deepcopy(report)
        spoil(changed)
        changed["way"]["seconds"] = 0.1
        status, out = checked(changed)
        assert status == 1 and said in out, (said, out)


def test_a_table_that_a_limit_cut_is_looked_at(reported: Run, checked: Check) -> None:
    report = reported([*ENDLESS, "limit 7"], [])
    assert (report["settled"], report["steps"]) == (False, None)
    assert report["cells"]["x"]["value"] == "7..1000000000000000000"
    assert checked(report)[0] == 0
    report["cells"]["x"]["value"] = "7"
    status, out = checked(report)
    assert status == 1 and "x: the report says `7 because start`" in out


def test_what_is_no_report(reported: Run) -> None:
    report = reported(LINES.split("\n"), [])
    assert report_in(json.dumps(report)).told.count == 6
    others: list[dict[str, Any]] = [
        {"note": "checked by Bob"},
        {"lines": ["cell x span\nfix x 3"]},
        {"lines": "cell x span"},
        {"settled": "no"},
        {"steps": -1},
        {"steps": 1.5},
        {"file": 3},
        {"cells": []},
        {"cells": {"x": {"value": 3, "because": []}}},
        {"cells": {"x": {"value": "3", "because": "morning"}}},
        {"asked": [{"line": "7", "text": "why z", "reply": "z = 1"}]},
        {"asked": [{"line": True, "text": "why z", "reply": "z = 1"}]},
        {"asked": [{"line": 7, "reply": "z = 1"}]},
        {"refused": [3]},
        *({"way": {**report["way"], **way}} for way in WAYS),
    ]
    texts = [json.dumps({**report, **other}) for other in others]
    texts += ["", "[" * 100_000, "{" * 10, "NaN", "9" * 10_000, "null"]
    for text in texts:
        with pytest.raises(NoReport, match="no report of `propdesk run --json`"):
            report_in(text)


WAYS: list[dict[str, Any]] = [
    {"pace": 3},
    {"order": "evil"},
    {"order": ["fifo"]},
    {"seed": -1},
    {"seed": True},
    {"limit": -1},
    {"limit": 2.5},
    {"keep_going": 1},
    {"seconds": float("nan")},
    {"seconds": -1},
    {"seconds": "60"},
]
