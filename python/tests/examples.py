#!/usr/bin/python3
"""Runs the examples over propwide, each once, and reads the tables that they print.

usage: PYTHONPATH=python/src python/tests/examples.py [NAME ..]

writes what they print and draw beside them, of all or of those that are named (as puzzles/zebra),
for whoever has changed one to look at.
"""

import os
import re
import resource
import subprocess
import sys
import tempfile
from collections.abc import Callable, Iterable
from dataclasses import dataclass
from functools import cache
from pathlib import Path

import pytest
from conftest import PROGRAMS, REPOSITORY
from page_examples import without_notes
from plainly import Names, conflicts_and_repairs

EXAMPLES = REPOSITORY / "examples"


def named(pattern: str) -> list[str]:
    """Examples by their paths within the folder, without their endings."""
    found = EXAMPLES.glob(pattern)
    return sorted(str(path.relative_to(EXAMPLES).with_suffix("")) for path in found)


# Who is a script prints NAME.txt and draws NAME.svg; of another a session is drawn.
SCRIPTS = named("*/*.py")
DRAWN = [name for name in named("*/*.prop") if name not in SCRIPTS]


@dataclass(frozen=True)
class Ran:
    """What an example printed and drew, and the seconds of a processor that it used."""

    printed: str
    drawn: str
    seconds: float


def used() -> float:
    """The seconds of a processor that commands used which ended so far."""
    spent = resource.getrusage(resource.RUSAGE_CHILDREN)
    return spent.ru_utime + spent.ru_stime


@cache
def ran(name: str) -> Ran:
    """What an example does, in a folder of its own."""
    path, file = str(EXAMPLES / name), f"{Path(name).name}.svg"
    drawing = ["-m", "propbench", "draw", f"{path}.prop", "--out", file]
    words = [f"{path}.py"] if name in SCRIPTS else drawing
    source = str(REPOSITORY / "python" / "src")
    if "propwide" not in PROGRAMS:
        pytest.skip("the examples are run over propwide, which isn't built")
    environment = {**os.environ, "PROPWIDE": PROGRAMS["propwide"], "PYTHONPATH": source}
    before = used()
    with tempfile.TemporaryDirectory() as folder:
        done = subprocess.run(
            [sys.executable, *words],
            cwd=folder,
            env=environment,
            capture_output=True,
            text=True,
        )
        assert not done.returncode and not done.stderr, done.stderr
        drawn = (Path(folder) / file).read_text(encoding="utf-8")
    return Ran(without_notes(done.stdout), drawn, used() - before)


def is_row(line: str, indent: int) -> bool:
    """Whether a line goes on with a table: with an indented one, or it has columns."""
    return line.startswith(" " * indent) if indent else "  " in line


def tables(printed: str, *heads: str) -> list[list[dict[str, str]]]:
    """The rows of each table with these heads, each a dict by them."""
    found: list[list[dict[str, str]]] = []
    starts: list[int] = []
    for line in printed.split("\n"):
        if re.split(r"\s{2,}", line.strip()) == [*heads]:
            starts = [line.index(head) for head in heads]
            found.append([])
        elif starts and is_row(line, starts[0]):
            ends = [*starts[1:], len(line)]
            cells = [line[start:end].strip() for start, end in zip(starts, ends)]
            found[-1].append(dict(zip(heads, cells)))
        else:
            starts = []
    return found


def conflicts_in(printed: str) -> list[set[Names]]:
    """The conflicts of each table of such, each a set of premises."""
    found = []
    for rows in tables(printed, "conflict", "premise", "says"):
        each: list[set[str]] = []
        for row in rows:
            if row["conflict"]:
                each.append(set())
            each[-1].add(row["premise"])
        found.append({frozenset(names) for names in each})
    return found


def repairs_in(printed: str) -> list[dict[Names, float]]:
    """The repairs of each table of such, with what they cost."""
    return [
        {frozenset(re.split(", | and ", row["give up"])): float(row["cost"]) for row in rows}
        for rows in tables(printed, "cost", "give up")
    ]


def repairs_told(
    printed: str,
    premises: Iterable[str],
    fit: Callable[[Names], bool],
    cost: Callable[[str], float],
) -> list[Names]:
    """The repairs that an example printed, in order. Its one table of conflicts and its one of
    repairs have to be all that there are, by asking of every set of premises whether it fits, and
    the repairs come the cheapest first, by what each premise costs."""
    conflicts, repairs = conflicts_and_repairs(premises, fit)
    assert conflicts_in(printed) == [conflicts]
    [told] = repairs_in(printed)
    assert told == {each: sum(map(cost, each)) for each in repairs}
    assert [*told.values()] == sorted(told.values())
    return [*told]


def replies(name: str) -> dict[str, list[str]]:
    """What a session is answered: each line that asks something, with all its answers."""
    found: dict[str, list[str]] = {}
    text = (EXAMPLES / f"{name}.prop").read_text(encoding="utf-8")
    lines = [line for line in text.split("\n") if line and not line.startswith("#")]
    wanted = (EXAMPLES / f"{name}.out").read_text(encoding="utf-8").split("\n")[:-1]
    for line in lines:
        found.setdefault(line, []).append(wanted.pop(0))
        if line == "worldview" and found[line][-1].startswith("in:"):
            wanted.pop(0)
    assert not wanted
    return found


def main(words: list[str]) -> int:
    """Writes what the examples print and draw beside them."""
    if "--help" in words:
        print(__doc__)
        return 0
    for name in words or [*SCRIPTS, *DRAWN]:
        made = ran(name)
        (EXAMPLES / f"{name}.svg").write_text(made.drawn, encoding="utf-8")
        if name in SCRIPTS:
            (EXAMPLES / f"{name}.txt").write_text(made.printed, encoding="utf-8")
        print(name, flush=True)
    return 0


if __name__ == "__main__":
    sys.exit(main(sys.argv[1:]))
