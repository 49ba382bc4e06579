"""Reports of `propdesk run --json`, held against what a fresh session tells.

Every answer of a report is a reply of the program. Whoever gets one from elsewhere has the lines
carried out again, by a program that he trusts, and all of it compared. Where the run for the table
was cut, the report tells after how many steps, and a run of as many is compared.
"""

import json
from collections.abc import Iterable, Iterator, Mapping
from dataclasses import dataclass

from propbench.beginning import MOST_SEED, ORDERS
from propbench.running import RunAs, report
from propbench.showing import quoted
from propbench.words import MOST_STEPS

# What a report has: how it was made, and what it tells. (An older one tells no steps.)
_MADE = ("file", "lines", "way", "proved")
_TELLS = ("complete", "asked", "refused", "settled", "conflict", "plan", "cells")
_WITH_STEPS = {*_MADE, *_TELLS, "steps"}
_NO_STEPS = (
    "The table is of a run that was cut, and the report doesn't tell after how many steps: so it "
    "can't be compared."
)


class NoReport(Exception):
    """A file is no report of `propdesk run --json`."""


@dataclass(frozen=True)
class Answers:
    """The answers of a report: of lines, of the table in all, and of cells, by what they are of;
    and whether the end was reached, and what was cut."""

    complete: bool
    settled: bool
    steps: int | None
    lines: Mapping[str, str]
    table: Mapping[str, str]
    cells: Mapping[str, str]
    count: int


@dataclass(frozen=True)
class RunReport:
    """What a report tells, of which lines, and how they were run."""

    name: str
    lines: list[str]
    way: RunAs
    told: Answers
    has_steps: bool

    def differences(self, program: str | None) -> tuple[list[str], bool]:
        """In what it differs from what a fresh session of the program tells, each in a sentence;
        and whether that program is known to be proved. Raises as `Session` does."""
        with self.way.session(program, self.lines) as session:
            again = report(session, self.name, self.lines, self.way, self.told.steps)
            proved = session.proved
        found = list(_differences(self.told, _told_in({**again, "steps": self.told.steps})))
        if self.told.complete and not self.told.settled and not self.has_steps:
            found.append(_NO_STEPS)
        return found, proved


def report_in(text: str) -> RunReport:
    """The report that a text is. Raises NoReport where it is none."""
    try:
        said = _fields(json.loads(text, parse_constant=_no_number))
        has_steps = "steps" in said
        _demand({*said} | {"steps"} == _WITH_STEPS)
        lines = _texts(said["lines"])
        _demand(not any("\n" in line for line in lines))
        told = _told_in({"steps": None, **said})
        return RunReport(_text(said["file"]), lines, _way(_fields(said["way"])), told, has_steps)
    except (ValueError, KeyError, TypeError, RecursionError) as error:
        raise NoReport("no report of `propdesk run --json`, and no certificate") from error


def _demand(holds: bool) -> None:
    if not holds:
        raise ValueError("not as a report is")


def _no_number(text: str) -> object:
    raise ValueError(f"{text} is no number")


def _fields(value: object) -> dict[str, object]:
    _demand(isinstance(value, dict))
    assert isinstance(value, dict)
    return value


def _items(value: object) -> list[object]:
    _demand(isinstance(value, list))
    assert isinstance(value, list)
    return value


def _text(value: object) -> str:
    _demand(isinstance(value, str))
    return str(value)


def _texts(value: object) -> list[str]:
    return [_text(each) for each in _items(value)]


def _flag(value: object) -> bool:
    _demand(isinstance(value, bool))
    return bool(value)


def _number(value: object, most: int) -> int:
    _demand(type(value) is int)
    assert isinstance(value, int)
    _demand(0 <= value <= most)
    return value


def _way(said: dict[str, object]) -> RunAs:
    """How a report was made. Raises ValueError where it can't have been."""
    _demand({*said} <= {"keep_going", "seconds", "order", "seed", "limit"})
    made = RunAs()
    seconds, limit = said.get("seconds", made.seconds), said.get("limit")
    _demand(type(seconds) in (int, float))
    assert isinstance(seconds, int | float)
    _demand(0 <= seconds < float("inf") and said.get("order", made.order) in ORDERS)
    return RunAs(
        _flag(said.get("keep_going", False)),
        float(seconds),
        _text(said.get("order", made.order)),
        _number(said.get("seed", 0), MOST_SEED),
        None if limit is None else _number(limit, MOST_STEPS),
    )


def _told_in(said: dict[str, object]) -> Answers:
    """The answers of a report as JSON has it. Raises KeyError and ValueError where it is none."""
    asked, refused = ([*map(_fields, _items(said[key]))] for key in ("asked", "refused"))
    cells = {cell: _value(_fields(of)) for cell, of in _fields(said["cells"]).items()}
    steps = said["steps"]
    return Answers(
        _flag(said["complete"]),
        _flag(said["settled"]),
        None if steps is None else _number(steps, MOST_STEPS),
        _once([*_of_asked(asked), *_of_refused(refused)]),
        {key: _plain(said[key]) for key in ("conflict", "plan")},
        cells,
        len(asked) + len(refused) + len(cells),
    )


def _of_asked(asked: Iterable[dict[str, object]]) -> Iterator[tuple[str, str]]:
    for each in asked:
        line = f"line {_number(each['line'], MOST_STEPS)}"
        yield line, _text(each["reply"])
        yield f"{line}, what it asks", _text(each["text"])
        _demand({*each} == {"line", "text", "reply"})


def _of_refused(refused: Iterable[dict[str, object]]) -> Iterator[tuple[str, str]]:
    for each in refused:
        line = f"line {_number(each['line'], MOST_STEPS)}"
        yield line, str(_number(each["number"], MOST_STEPS))
        others = {key: value for key, value in each.items() if key not in ("line", "number")}
        yield f"{line}, what is wrong", _plain(others)


def _value(cell: dict[str, object]) -> str:
    """A cell's value and reasons."""
    _demand({*cell} == {"value", "because"})
    return f"{_text(cell['value'])} because {' '.join(_texts(cell['because'])) or 'no premise'}"


def _plain(value: object) -> str:
    return json.dumps(value, ensure_ascii=False, sort_keys=True)


def _once(pairs: Iterable[tuple[str, str]]) -> dict[str, str]:
    """What is said of each thing; a second time under a name of its own."""
    found: dict[str, str] = {}
    for name, says in pairs:
        while name in found:
            name += " once more"
        found[name] = says
    return found


def _differences(told: Answers, again: Answers) -> Iterator[str]:
    """In what the answers of a report differ from others to the same lines."""
    yield from _between(told.lines, again.lines)
    if told.complete != again.complete:
        yield f"The end is reached: {_said(str(told.complete), str(again.complete))}"
    elif told.settled != again.settled:
        yield f"All that follows was found: {_said(str(told.settled), str(again.settled))}"
    yield from _between(told.table, again.table)
    yield from _between(told.cells, again.cells)


def _between(told: Mapping[str, str], again: Mapping[str, str]) -> Iterator[str]:
    for key in {**told, **again}:
        if told.get(key) != again.get(key):
            yield f"{key}: {_said(str(told.get(key)), str(again.get(key)))}"


def _said(told: str, again: str) -> str:
    return f"the report says {quoted(told)}, the program {quoted(again)}"
