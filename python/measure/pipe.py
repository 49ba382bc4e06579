#!/usr/bin/python3
"""Prints how many replies a second a Session gives, and how many answers a workbench, beside the
replies of a bare pipe, in one run.

usage: python/measure/pipe.py [PROGRAM] [--lines N] [--rounds N]

On the bare pipe lines that are pipelined are written by a thread while line feeds of the replies
are counted; lines one by one are an `os.write` and an `os.read` each. A workbench asks cells that
are joined by sums, and each answer is looked at. What stands beside is timed in turn, each the
given number of rounds, and the best of each counts: on a machine that does other work too, short
rounds find a moment in which it doesn't. The answers of a workbench, and what stands beside these,
are timed by what the two processes use of a processor.
"""

import argparse
import os
import subprocess
import sys
import threading
import time
from collections.abc import Callable
from pathlib import Path

sys.path.insert(0, str(Path(__file__).resolve().parents[1] / "src"))

from propbench import Session, Workbench, find_program  # noqa: E402
from propbench.model.cells import NumberCell  # noqa: E402

# The least share of the bare pipe's speed that is wanted.
WANTED = {
    "statements pipelined": 1 / 2,
    "questions pipelined": 1 / 3,
    "questions one by one": 1 / 2,
    "statements one by one": 1 / 2,
    "answers of a workbench": 1 / 3,
}


# How many cells the statements make, of 100,000 that there may be, and how many are asked for.
MADE, CELLS = 90_000, 5_000


def statements(count: int) -> list[str]:
    """Lines that make a chain of sums, with something told of every third cell. Behind as many
    cells as that, one more is told of, narrower each time."""
    lines = ["cell c0 span"]
    for number in range(1, MADE):
        before, cell = f"c{number - 1}", f"c{number}"
        lines += [f"cell {cell} span", f"attach adder {before} {before} {cell}"]
        lines += [f"tell p{number % 4000} {cell} {number}..{number + 9}"] if number % 3 == 0 else []
        if len(lines) >= count:
            break
    lines.append("cell more span")
    lines += [f"tell narrower more 0..{10**9 - number}" for number in range(count - len(lines))]
    return lines[:count]


def setup() -> list[str]:
    """Lines that make a chain of sums over some cells, whose values follow from two premises."""
    lines = [f"cell c{i} span" for i in range(CELLS)] + ["cell one span", "tell unit one 1"]
    lines += [f"attach adder c{i} one c{i + 1}" for i in range(CELLS - 1)]
    return [*lines, "tell start c0 3..5", "settle"]


def questions(count: int) -> list[str]:
    """Questions about cells of this chain, each with an answer of its own."""
    return [f"{('ask', 'why')[i % 2]} c{i * 7 % CELLS}" for i in range(count)]


def seconds(work: Callable[[], None]) -> float:
    """How long the work takes."""
    begun = time.perf_counter()
    work()
    return time.perf_counter() - begun


def spent(pid: int, work: Callable[[], None]) -> float:
    """How long the work takes, in seconds of one processor, here and in the process of the
    number."""

    def used() -> float:
        # (clock_getcpuclockid(3) makes the number of a process's clock so)
        return time.process_time() + time.clock_gettime(~pid << 3 | 2)

    begun = used()
    work()
    return used() - begun


class Bare:
    """The program on a bare pipe."""

    def __init__(self, program: str) -> None:
        self._process = subprocess.Popen(
            [program], stdin=subprocess.PIPE, stdout=subprocess.PIPE, bufsize=0
        )
        assert self._process.stdin and self._process.stdout
        self._stdin = self._process.stdin
        self._into, self._out = self._stdin.fileno(), self._process.stdout.fileno()

    @property
    def pid(self) -> int:
        """The number of its process."""
        return self._process.pid

    def pipelined(self, lines: list[str]) -> None:
        """Writes lines, each of which has a reply of one line, while the replies are read."""
        data = "\n".join([*lines, ""]).encode()
        writer = threading.Thread(target=self._stdin.write, args=(data,))
        writer.start()
        missing = len(lines)
        while missing:
            missing -= os.read(self._out, 65536).count(b"\n")
        writer.join()

    def one_by_one(self, lines: list[str]) -> None:
        """Writes each line when the reply to the one before has come."""
        for line in lines:
            os.write(self._into, line.encode() + b"\n")
            os.read(self._out, 65536)

    def end(self) -> None:
        """Ends the program."""
        self._process.communicate()


def of_bare(program: str, first: list[str], lines: list[str], one_by_one: bool) -> float:
    """Seconds of the bare pipe for the lines, behind those that come first."""
    bare = Bare(program)
    bare.pipelined(first)
    taken = seconds(lambda: bare.one_by_one(lines) if one_by_one else bare.pipelined(lines))
    bare.end()
    return taken


def of_session(program: str, first: list[str], lines: list[str], one_by_one: bool) -> float:
    """Seconds of a Session for the lines."""
    with Session(program) as session:
        session.send_all(first)

        def say() -> None:
            if one_by_one:
                for line in lines:
                    session.send(line)
            else:
                session.send_all(lines)

        return seconds(say)


def measured(program: str, count: int, rounds: int) -> dict[str, tuple[float, float]]:
    """For each workload the best replies a second of the bare pipe and of a Session."""
    few = count // 10
    workloads: dict[str, tuple[list[str], list[str], bool]] = {
        "statements pipelined": ([], statements(count), False),
        "questions pipelined": (setup(), questions(count), False),
        "statements one by one": ([], statements(few), True),
        "questions one by one": (setup(), questions(few), True),
    }
    found = {}
    for name, (first, lines, one_by_one) in workloads.items():
        pairs = [
            (
                of_bare(program, first, lines, one_by_one),
                of_session(program, first, lines, one_by_one),
            )
            for _ in range(rounds)
        ]
        found[name] = (
            len(lines) / min(pair[0] for pair in pairs),
            len(lines) / min(pair[1] for pair in pairs),
        )
    return found


# How many cells are joined by sums in a workbench.
JOINED = 500


def joined(workbench: Workbench) -> list[NumberCell]:
    """Cells, each one more than the one before, of which the first is told."""
    cells = [workbench.number(f"x{i}", 0, 10**6) for i in range(JOINED)]
    for one, other in zip(cells, cells[1:]):
        workbench.require(other == one + 1)
    workbench.tell("start", cells[0], 3, 5)
    return cells


def of_answers(program: str, count: int, rounds: int) -> tuple[float, float]:
    """The best replies a second of the bare pipe, and answers of a workbench to the same: seconds
    of one processor, of both processes, since each waits for the other."""
    with Workbench(program) as workbench:
        cells = joined(workbench)
        bare = Bare(program)
        bare.pipelined([*workbench.model.base(), "settle"])
        asked = [cells[i * 7 % JOINED] for i in range(count)]
        lines = [f"why {cell.name}" for cell in asked]

        def ask() -> None:
            assert all(cell.ask().high is not None for cell in asked)

        pairs = [
            (spent(bare.pid, lambda: bare.one_by_one(lines)), spent(workbench.session.pid, ask))
            for _ in range(rounds)
        ]
        bare.end()
    return count / min(pair[0] for pair in pairs), count / min(pair[1] for pair in pairs)


def main() -> int:
    """Prints the table; the status is 1 where a ratio is below what is wanted."""
    parser = argparse.ArgumentParser(description="Session beside a bare pipe")
    parser.add_argument("program", nargs="?", help="the program; the one that is found")
    parser.add_argument("--lines", type=int, default=40_000)
    parser.add_argument("--rounds", type=int, default=12)
    options = parser.parse_args()
    program = find_program(options.program).path
    print(f"{'replies a second':24}{'bare pipe':>12}{'Session':>12}{'ratio':>8}{'wanted':>8}")
    is_slow = False
    found = measured(program, options.lines, options.rounds)
    found["answers of a workbench"] = of_answers(program, options.lines // 10, options.rounds)
    for name, (plain, ours) in found.items():
        ratio = ours / plain
        print(f"{name:24}{plain:12,.0f}{ours:12,.0f}{ratio:8.2f}{WANTED[name]:8.2f}")
        is_slow = is_slow or ratio < WANTED[name]
    return 1 if is_slow else 0


if __name__ == "__main__":
    sys.exit(main())
