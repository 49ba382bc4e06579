"""Searches over pipes: by choices, and by a driver that brings in one side after another."""
import subprocess
import threading
import time
from dataclasses import dataclass, field
from types import TracebackType
from typing import Optional

from puzzles import Plan, Puzzle

# A session that takes longer is cut.
SECONDS = 60

# No search takes more steps; in slices of so many they are counted.
ENOUGH, SLICE = 10**9, 100


class Cut(Exception):
    """The program didn't answer in time."""


class Program:
    """The program over two pipes, one line after another."""

    def __init__(self, path: str) -> None:
        pipe = subprocess.PIPE
        self.ran = subprocess.Popen([path], stdin=pipe, stdout=pipe)
        self.timer = threading.Timer(SECONDS, self.ran.kill)

    def __enter__(self) -> "Program":
        self.timer.start()
        return self

    def __exit__(
        self, _kind: type[BaseException], _error: BaseException, _trace: TracebackType
    ) -> None:
        self.timer.cancel()
        self.ran.kill()
        self.ran.communicate()

    def reply(self) -> str:
        assert self.ran.stdout
        reply = self.ran.stdout.readline().decode().rstrip("\n")
        if not reply:
            raise Cut
        return reply

    def say(self, line: str) -> str:
        assert self.ran.stdin
        try:
            self.ran.stdin.write(line.encode() + b"\n")
            self.ran.stdin.flush()
        except BrokenPipeError as error:
            raise Cut from error
        reply = self.reply()
        if reply.startswith("error"):
            raise ValueError(f"{line}: {reply}")
        return reply

    def all(self, lines: list[str]) -> None:
        for line in lines:
            self.say(line)

    def value(self, cell: str) -> str:
        return self.say(f"ask {cell}").split(" = ")[1]

    def shorter(self, plan: Plan) -> int:
        """How long the plan is, which from now on has to be shorter."""
        length = int(self.value(plan.cell).split("..")[0])
        self.say(f"tell under{length} {plan.cell} 0..{length - 1}")
        return length


@dataclass
class Found:
    """What a search came to, and what it took."""

    # What stands in each cell of a choice, or nothing where there is a contradiction; of a plan the
    # shortest length.
    answer: dict[str, str] | Optional[int] = None
    seconds: float = 0.0
    # How many nogoods are listed at the end, or moves were made by the driver.
    count: int = 0
    # How many steps all runs took, rounded up to whole slices.
    steps: int = 0


def answer_of(program: Program, puzzle: Puzzle) -> dict[str, str]:
    return {choice.cell: program.value(choice.cell) for choice in puzzle.choices}


def chosen(path: str, puzzle: Puzzle, limit: int = ENOUGH) -> Found:
    """The search by choices; where the limit is used up, it is asked again."""
    with Program(path) as program:
        program.all([*puzzle.lines, f"limit {limit}"])
        found, slices, began = Found(), 0, time.perf_counter()
        while True:
            reply = program.say("settle")
            slices += 1
            if reply == "unsettled":
                continue
            if reply.startswith("contradiction") or not isinstance(puzzle, Plan):
                break
            found.answer = program.shorter(puzzle)
        found.seconds, found.steps = time.perf_counter() - began, slices * limit
        if reply == "settled":
            found.answer = answer_of(program, puzzle)
        found.count = int(program.say("nogoods").split()[1])
        return found


@dataclass
class Driver:
    """Believes one side after another, by `bring` and `kick`, and resolves as the program does."""

    program: Program
    puzzle: Puzzle
    # The side of each choice that comes next, and what ruled out those before it.
    sides: list[int] = field(default_factory=list)
    reasons: list[list[set[str]]] = field(default_factory=list)
    # How many choices have their side believed.
    level: int = 0
    moves: int = 0

    def __post_init__(self) -> None:
        self.program.all(self.puzzle.network)
        self.choice_of: dict[str, int] = {}
        for at, choice in enumerate(self.puzzle.choices):
            for side, value in enumerate(choice.values):
                name = self.name(at, side)
                self.program.all([f"tell {name} {choice.cell} {value}", f"kick {name}"])
                self.choice_of[name] = at

    def name(self, at: int, side: int) -> str:
        return f"side{at}_{side}"

    def settles(self) -> bool:
        """Whether a list is found, going on from the one that stands."""
        while True:
            reply = self.program.say("settle")
            if reply != "settled":
                if not self.moves_on({*reply.split()[1:]}):
                    return False
            elif self.level == len(self.puzzle.choices):
                return True
            else:
                self.sides.append(0)
                self.reasons.append([])
                self.believe()

    def believe(self) -> None:
        self.program.say(f"bring {self.name(self.level, self.sides[self.level])}")
        self.level += 1

    def moves_on(self, nogood: set[str]) -> bool:
        """Goes to the next side of the last choice in the nogood, or in what is left of it."""
        while True:
            at = max((self.choice_of[it] for it in nogood if it in self.choice_of), default=None)
            if at is None:
                return False
            while self.level > at:
                self.level -= 1
                self.program.say(f"kick {self.name(self.level, self.sides[self.level])}")
            del self.sides[at + 1 :], self.reasons[at + 1 :]
            if self.sides[at] + 1 < len(self.puzzle.choices[at].values):
                self.sides[at] += 1
                self.reasons[at].append(nogood)
                self.moves += 1
                self.believe()
                return True
            joined = nogood.union(*self.reasons[at])
            nogood = {it for it in joined if self.choice_of.get(it) != at}


def driven(path: str, puzzle: Puzzle) -> Found:
    """The same search from outside."""
    with Program(path) as program:
        driver, found = Driver(program, puzzle), Found()
        began = time.perf_counter()
        while driver.settles():
            if not isinstance(puzzle, Plan):
                found.seconds = time.perf_counter() - began
                found.answer = answer_of(program, puzzle)
                break
            found.answer = program.shorter(puzzle)
        found.seconds = found.seconds or time.perf_counter() - began
        found.count = driver.moves
        return found
