#!/usr/bin/python3
"""Cores among many premises: that none of their premises can be left out, and what that takes.

usage: tests/cores.py PROGRAM

prints of each core how many premises are believed, how many the core has, the steps of its command,
the instructions of the command beyond those of `why`, and the seconds of the whole session. The
steps are the least limit with which the core is reduced, found by halving; the instructions are
those that valgrind's callgrind counts, - where there is no valgrind.
"""
import os
import re
import shutil
import subprocess
import sys
import tempfile
import time
from dataclasses import dataclass
from typing import Iterator, Optional

from case import Case, answered, as_bytes, in_each_order

SUMS = 20


@dataclass
class Core:
    """A session without its last line, and what `core` then answers of a cell."""

    name: str
    lines: list[str]
    cell: str
    answer: str

    def sent(self, *last: str) -> bytes:
        return as_bytes(*self.lines, *last)

    def case(self) -> Case:
        return Case(
            f"cores: {self.name}",
            self.sent(f"core {self.cell}"),
            answered(len(self.lines), self.answer),
        )


def sums() -> Iterator[str]:
    """A chain of sums: each cell `s` is the one before and its `d` together."""
    yield from (f"cell s{n} span" for n in range(SUMS + 1))
    yield from (f"cell d{n} span" for n in range(1, SUMS + 1))
    yield from (f"attach sum s{n} d{n + 1} s{n + 1}" for n in range(SUMS))


def two_of_many() -> Core:
    """Of each `d` ten premises tell wide spans; what is asked of one of them rests on its least and
    its greatest number."""
    lines = [*sums(), "tell first s0 0"]
    lines += [
        f"tell p{n}_{wide} d{n} {-wide}..{10 - wide}"
        for n in range(1, SUMS + 1)
        for wide in range(10)
    ]
    return Core("2 of 201 premises over 20 sums", lines, "d7", "d7 = 0..1 because p7_0 p7_9")


def one_for_each() -> Core:
    """Of each `d` one premise tells the number and ten others tell wide spans, so that the last sum
    rests on one premise of each and on the first cell's."""
    lines = [*sums(), "tell first s0 0"]
    lines += [
        f"tell q{n}_{wide} d{n} {n - wide}..{n + wide}"
        for n in range(1, SUMS + 1)
        for wide in range(1, 11)
    ]
    lines += [f"tell p{n} d{n} {n}" for n in range(1, SUMS + 1)]
    needed = " ".join(["first", *(f"p{n}" for n in range(1, SUMS + 1))])
    return Core(
        "21 of 221 premises over 20 sums",
        lines,
        f"s{SUMS}",
        f"s{SUMS} = {SUMS * (SUMS + 1) // 2} because {needed}",
    )


def cores() -> Iterator[Core]:
    yield two_of_many()
    yield one_for_each()


def not_reduced(output: bytes) -> Optional[str]:
    """What is wrong with the replies where the limit ends a reduction and a larger one doesn't."""
    *_, short, ok, whole = output.decode().splitlines()
    if short not in [f"y = 0..10 not reduced because {reason}" for reason in ["a", "b", "a b"]]:
        return f"with one step the reply is {short!r}"
    return (
        None
        if ok == "ok" and whole in ["y = 0..10 because a", "y = 0..10 because b"]
        else f"with more steps the reply is {whole!r}"
    )


def either(output: bytes) -> Optional[str]:
    """What is wrong with a core of two premises or of one that says as much."""
    *_, last = output.decode().splitlines()
    return (
        None
        if last in ["x = 5..10 because a b", "x = 5..10 because d"]
        else f"the reply is {last!r}"
    )


def few() -> Iterator[Case]:
    lines = [
        "limit 1",
        "cell x span",
        "cell y span",
        "attach copier x y",
        "tell a x 0..10",
        "tell b x 0..10",
        "core y",
        "limit 100",
        "core y",
    ]
    yield Case("cores: the limit ends a reduction", as_bytes(*lines), not_reduced)
    lines = [
        "cell x span",
        "tell a x 0..10",
        "tell b x 5..20",
        "tell c x 0..20",
        "tell d x 5..10",
        "core x",
    ]
    yield Case("cores: one of two", as_bytes(*lines), either)


def cases() -> Iterator[Case]:
    yield from in_each_order([*few(), *(core.case() for core in cores())])


def last_line(program: str, core: Core, *options: str) -> str:
    ran = subprocess.run(
        [program, *options], input=core.sent(f"core {core.cell}"), capture_output=True, check=True
    )
    return ran.stdout.decode().splitlines()[-1]


def steps(program: str, core: Core) -> int:
    """The least limit with which the core is reduced."""
    low, high = 0, 10**6
    while low < high:
        guess = (low + high) // 2
        if last_line(program, core, "--limit", str(guess)) == core.answer:
            high = guess
        else:
            low = guess + 1
    return low


def counted(program: str, sent: bytes) -> int:
    """The instructions of a session."""
    with tempfile.TemporaryDirectory() as folder:
        words = [
            "valgrind",
            "--tool=callgrind",
            f"--callgrind-out-file={folder}/out",
            os.path.abspath(program),
        ]
        said = subprocess.run(words, input=sent, capture_output=True, check=True).stderr.decode()
    [found] = re.findall(r"Collected : (\d+)", said)
    return int(found)


def beyond_why(program: str, core: Core) -> str:
    """The instructions of `core` beyond those of `why`, where valgrind can tell."""
    if not shutil.which("valgrind"):
        return "-"
    tried, explained = (
        counted(program, core.sent(f"{command} {core.cell}")) for command in ("core", "why")
    )
    return f"{tried - explained:,}"


def main(program: str) -> str | int:
    print("| Core | steps | instructions | seconds |\n|---|---|---|---|")
    for core in cores():
        start = time.monotonic()
        answer = last_line(program, core)
        seconds = time.monotonic() - start
        if answer != core.answer:
            return f"{core.name}: the answer is {answer!r}, wanted {core.answer!r}"
        print(
            f"| {core.name} | {steps(program, core):,} | {beyond_why(program, core)}"
            f" | {seconds:.2f} |",
            flush=True,
        )
    return 0


if __name__ == "__main__":
    sys.exit(main(*sys.argv[1:]))
