#!/usr/bin/python3
"""Puzzles as sessions of choices: that each is solved, and what its search takes.

usage: tests/searches.py PROGRAM [NAME ..]

prints of each puzzle, or of those named, how many choice lists there are, how many steps the
program takes from the first line to the answer, how many nogoods it lists then, and the seconds of
the whole session. The steps are the least limit with which the answer is settled. The gate solves
those that take no second, and solves some in slices: who asks again and again with a small limit
has to come to the answer by hardly more steps than who asks once.
"""
import subprocess
import sys
import time
from bisect import bisect_left
from dataclasses import dataclass, field
from typing import Iterator, Optional

from case import Case, answered
from puzzles import Puzzle, pigeons, queens, small_colouring, tenants, tenants_by_floors

# The puzzles that the gate solves.
SOLVED = ["6 pigeons", "tenants", "tenants told apart by one floor at a time"]
SOLVED += ["6 queens", "8 queens"]

# The limits of slices, and how many hundredths of the steps of one run they may take together.
# Slices go the same way, but where choices go on one after the other, more waits for each of them.
SLICES = {1: 120, 10: 120, 1_000: 120}


def puzzles() -> Iterator[Puzzle]:
    yield from map(pigeons, range(4, 10))
    yield tenants()
    yield tenants_by_floors()
    yield queens(6, "246135")
    yield queens(8, "15863724")


def solved() -> Iterator[Puzzle]:
    yield from (puzzle for puzzle in puzzles() if puzzle.name in SOLVED)


def colourings() -> Iterator[Puzzle]:
    """Graphs with and without a colouring."""
    yield from (small_colouring(24, 3, 48, seed) for seed in [4, 6])
    yield small_colouring(16, 4, 52, 5)
    yield small_colouring(18, 4, 64, 3)


def last_lines(program: str, puzzle: Puzzle, last: list[str], *options: str) -> list[str]:
    """What the program writes to the last lines, behind `ok` to each one before."""
    words = [program, *options]
    ran = subprocess.run(words, input=puzzle.sent(*last), capture_output=True, check=True)
    return ran.stdout.decode().splitlines()[len(puzzle.lines) :]


def is_enough(program: str, puzzle: Puzzle, last: list[str], *options: str) -> bool:
    """Whether the last line is settled."""
    return "unsettled" not in last_lines(program, puzzle, last, *options)[-1]


def steps(program: str, puzzle: Puzzle, *options: str) -> int:
    """The least limit with which the answer is settled."""

    def enough(limit: int) -> bool:
        return is_enough(program, puzzle, [f"limit {limit}", f"ask {puzzle.cell}"], *options)

    high = 1_000
    while not enough(high):
        high *= 4
    return bisect_left(range(high), True, key=enough)


@dataclass
class Sliced:
    """A puzzle that is solved by asking again and again, with few steps for each time."""

    name: str
    puzzle: Puzzle
    options: list[str] = field(default_factory=list)

    def wrong(self, program: str) -> Optional[str]:
        """What is wrong with the slices, or None."""
        whole = steps(program, self.puzzle, *self.options)
        for limit, hundredths in SLICES.items():
            most = whole * hundredths // 100
            wrong = self.wrong_in_slices(program, limit, most)
            if wrong:
                return f"by {limit}, where one run takes {whole} steps: {wrong}"
        return None

    def wrong_in_slices(self, program: str, limit: int, most: int) -> Optional[str]:
        ask = f"ask {self.puzzle.cell}"
        asked = [f"limit {limit}", *[ask] * (most // limit + 1)]
        replies = last_lines(program, self.puzzle, asked, *self.options)[1:]
        used = [reply for reply in replies if "unsettled" in reply]
        left = replies[len(used) :]
        if not left:
            return f"more than {most} steps"
        if {*left} != {self.puzzle.answer}:
            return f"the answers are {left}, wanted {self.puzzle.answer}"

        def enough(last: int) -> bool:
            lines = [*asked[: len(used) + 1], f"limit {last}", ask]
            return is_enough(program, self.puzzle, lines, *self.options)

        taken = len(used) * limit + bisect_left(range(limit), True, key=enough)
        return None if taken <= most else f"{taken} steps"


def cases() -> Iterator[Case | Sliced]:
    for puzzle in solved():
        wanted = answered(len(puzzle.lines), puzzle.answer)
        sent = puzzle.sent(f"ask {puzzle.cell}")
        yield Case(f"searches: {puzzle.name}", sent, wanted)
    for puzzle in [*solved(), *colourings()]:
        yield Sliced(f"searches: {puzzle.name}, in slices", puzzle)


def main(program: str, *names: str) -> int | str:
    print("| Puzzle | choice lists | steps | nogoods | seconds |\n|---|---|---|---|---|")
    for puzzle in puzzles():
        if not names or puzzle.name in names:
            start = time.monotonic()
            asked = [f"ask {puzzle.cell}", "nogoods"]
            answer, nogoods, *_ = last_lines(program, puzzle, asked)
            seconds = time.monotonic() - start
            if answer != puzzle.answer:
                return f"{puzzle.name}: the answer is {answer!r}, wanted {puzzle.answer!r}"
            figures = f"{puzzle.lists:,} | {steps(program, puzzle):,} | {nogoods.split()[1]}"
            print(f"| {puzzle.name} | {figures} | {seconds:.2f} |", flush=True)
    return 0


if __name__ == "__main__":
    sys.exit(main(*sys.argv[1:]))
