"""`propdesk run`: a file's lines, its questions with their replies, and a table at the end.

A refused line doesn't go unnoticed: the run stops there with the place, the word and a status.
"""

import sys
from collections.abc import Iterator, Sequence
from dataclasses import asdict, dataclass, field
from typing import TextIO

from propbench.finding import find_for
from propbench.grammar import ASKING
from propbench.overview import overview
from propbench.refusals import Refused
from propbench.replies import Done, Reply, Silent
from propbench.session import Session
from propbench.showing import printable, shown
from propbench.words import as_line


def lines_of(path: str) -> list[str]:
    """The lines of a file, or of standard input where the path is `-`. Raises OSError."""
    if path == "-":
        data = sys.stdin.buffer.read()
    else:
        with open(path, "rb") as file:
            data = file.read()
    lines = data.split(b"\n")
    return [as_line(line) for line in (lines if lines[-1] else lines[:-1])]


def told_of(refused: Refused, name: str) -> str:
    """What a refusal says of a line of a file."""
    return refused.told(
        ":".join(str(part) for part in (name, refused.line_number, refused.column) if part)
    )


@dataclass(frozen=True)
class RunAs:
    """How a file is run: whether on behind refused lines, how many seconds may be worked for the
    table, and what the program begins with."""

    keep_going: bool = False
    seconds: float = 60.0
    order: str = "fifo"
    seed: int = 0
    limit: int | None = None

    def session(self, program: str | None, lines: Sequence[str] = ()) -> Session:
        """A session that begins so, of the program for these lines. Raises as `Session` does."""
        found = find_for(lines, program).path
        return Session(found, order=self.order, seed=self.seed, limit=self.limit)


@dataclass
class FileRun:
    """A run of a file's lines, and what came of it."""

    session: Session
    name: str
    keep_going: bool
    asked: list[tuple[int, str, str]] = field(default_factory=list)
    refused: list[Refused] = field(default_factory=list)

    def replies(self, lines: list[str]) -> Iterator[tuple[int, str, Reply | Refused]]:
        """The number of each line, the line and what came of it. Lines up to a question are sent at
        once."""
        begun = 0
        for place, line in enumerate(lines):
            if line.split()[:1] and line.split()[0] in ASKING:
                yield from self._some(lines, begun, place)
                yield place + 1, line, self._one(line)
                begun = place + 1
        yield from self._some(lines, begun, len(lines))

    def _some(
        self, lines: list[str], begun: int, end: int
    ) -> Iterator[tuple[int, str, Reply | Refused]]:
        some = lines[begun:end]
        replies = self.session.send_all(some, keep_refused=True)
        yield from zip(range(begun + 1, end + 1), some, replies)

    def _one(self, line: str) -> Reply | Refused:
        try:
            return self.session.send(line)
        except Refused as refused:
            return refused

    def run(self, lines: list[str], out: TextIO | None, errors: TextIO) -> bool:
        """Sends the lines, and writes each question with its reply and each refusal. Whether the
        end was reached."""
        for number, line, reply in self.replies(lines):
            if isinstance(reply, Refused):
                self.refused.append(reply)
                print(told_of(reply, self.name), file=errors)
                if not self.keep_going:
                    return False
            elif not isinstance(reply, Done | Silent):
                self.asked.append((number, line, str(reply)))
                if out:
                    print(_exchange(line, reply), file=out, flush=True)
        return True


def _exchange(line: str, reply: Reply) -> str:
    answered = "\n".join(f"  {each}" for each in shown(str(reply)).split("\n"))
    return f"{printable(line.strip())}\n{answered}"


def run_file(path: str, program: str | None, way: RunAs) -> int:
    """Runs a file, and gives the status: 0, or 1 where a line was refused. Raises OSError where the
    file can't be read, and as `Session` does."""
    lines = lines_of(path)
    with way.session(program, lines) as session:
        return _ran(FileRun(session, _name_of(path), way.keep_going), lines, way.seconds)


def _ran(ran: FileRun, lines: list[str], seconds: float) -> int:
    """Runs the lines, shows what follows, and gives the status."""
    if ran.run(lines, sys.stdout, sys.stderr):
        end = overview(ran.session, seconds)
        print(shown(f"\n{end}" if ran.asked else str(end)))
    else:
        print("Stopped at a refused line; --keep-going goes on behind such lines.", file=sys.stderr)
    return 1 if ran.refused else 0


def run_as_json(path: str, program: str | None, way: RunAs) -> int:
    """The same, but that a report is written, one JSON object."""
    lines = lines_of(path)
    with way.session(program, lines) as session:
        told = report(session, _name_of(path), lines, way)
    print(as_json(told))
    return 1 if told["refused"] else 0


def as_json(value: object) -> str:
    """A value in JSON, on lines. What can't be printed or seen stands as JSON escapes it."""
    import json

    lines = json.dumps(value, ensure_ascii=False, indent=2).split("\n")
    return "\n".join(line if printable(line) == line else _escaped(line) for line in lines)


def _escaped(line: str) -> str:
    """A line of JSON in which all stands as JSON escapes it that `printable` escapes."""
    import json

    return "".join(each if printable(each) == each else json.dumps(each)[1:-1] for each in line)


def _name_of(path: str) -> str:
    return "standard input" if path == "-" else printable(path)


def report(
    session: Session, name: str, lines: list[str], way: RunAs, steps: int | None = None
) -> dict[str, object]:
    """What a run of the lines tells, as values that JSON has, with the lines and how they were run.
    Refusals are told on standard error too. The run for the table is cut by the clock, or after so
    many steps, where these are given."""
    ran = FileRun(session, name, way.keep_going)
    reached = ran.run(lines, None, sys.stderr)
    if reached and steps is not None:
        session.send(f"limit {steps}")
    end = overview(session, way.seconds if steps is None else None) if reached else None
    return {
        "file": ran.name,
        "lines": lines,
        "way": asdict(way),
        "proved": ran.session.proved,
        "complete": end is not None,
        "asked": [
            {"line": number, "text": line, "reply": reply} for number, line, reply in ran.asked
        ],
        "refused": [_refused_as_json(refused) for refused in ran.refused],
        "settled": end is not None and end.settled,
        "steps": None if end is None else end.steps,
        "conflict": None if end is None or end.conflict is None else list(end.conflict),
        "plan": [] if end is None else list(end.plan),
        "cells": {
            value.cell: {"value": str(value.value), "because": list(value.because or ())}
            for value in (end.values if end else ())
        },
    }


def _refused_as_json(refused: Refused) -> dict[str, object]:
    return {
        "line": refused.line_number,
        "column": refused.column,
        "word": refused.word,
        "number": refused.number,
        "text": refused.text,
        "says": refused.says,
        "near": list(refused.near),
    }
