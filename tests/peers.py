#!/usr/bin/python3
"""Measures searches by choices beside their peers: a driver of the same program, clingo, Gecode.

usage: tests/peers.py PROGRAM [--only WORD] [--seeds N] [--write NAME]

Each session is searched by `choose`; by a driver over the pipe, which brings in one side after
another and resolves as the program does; and by a peer: clingo has the same relations as rules, a
plan goes to Gecode by MiniZinc with the same pairwise orderings. What is drawn is drawn from the
seeds 1 to N (10 where N is left out), and the median of these is told too.

The seconds of `choose` and of the driver are those from the first question to the last answer, all
lines before are answered already; a peer's are those of its whole process. Of what takes less than
0.1 seconds the best of three runs counts. `nogoods` are those listed at the end, steps are counted
in a run of its own in slices of 100, `moves` are the driver's. A session is cut after 60 seconds.

Every answer is checked: `choose` and driver have to find the first list of all, which clingo finds
as the least of all that fit, or a contradiction where it finds none; of a plan, the length that
Gecode finds. Where a peer isn't installed, that is said, and the answer has to fit every relation
and be the driver's. Status 1 where an answer is wrong.

--only measures the sessions whose name has the word; --write prints the lines of one in place.
"""
import argparse
import itertools
import os
import re
import shutil
import statistics
import subprocess
import sys
import tempfile
import time
from dataclasses import dataclass
from typing import Callable, Iterator, Optional

import puzzles
from driver import SECONDS, SLICE, Cut, Found, chosen, driven
from puzzles import LONGEST, Plan, Puzzle

# Below so many seconds the best of so many runs counts.
SHORT, RUNS = 0.1, 3

SUDOKUS = [
    "000000010400000000020000000000050407008000300001090000300400200050100000000806000",
    "800000000003600000070090200050007000000045700000100030001000068008500010090000400",
    "000680000002000700009000003700009150000010000048507000030005200050000004001004089",
]

Solution = dict[str, str]


class Network:
    """What may stand in each cell of a puzzle, and what is linked: read from its lines."""

    def __init__(self, lines: list[str]) -> None:
        self.may: dict[str, list[str]] = {}
        self.pairs: dict[str, set[tuple[str, str]]] = {}
        self.links: list[tuple[str, str, str]] = []
        domains: dict[str, list[str]] = {}
        for line in lines:
            match line.replace("{", "").replace("}", "").split():
                case ["domain", name, *names]:
                    domains[name] = names
                case ["relation", name, _, _, "=", *words]:
                    self.pairs[name] = {*zip(words[::3], words[1::3])}
                case ["cell", name, kind]:
                    self.may[name] = domains[kind]
                case ["fix", name, *values]:
                    self.may[name] = [it for it in self.may[name] if it in values]
                case ["attach", "link", one, other, "by", name]:
                    self.links.append((name, one, other))
                case _:
                    raise ValueError(line)

    def holds(self, solution: Solution) -> bool:
        """Whether each cell that is there holds what it may, and fits each other."""
        can = all(value in self.may[cell] for cell, value in solution.items())
        linked = [it for it in self.links if it[1] in solution and it[2] in solution]
        return can and all((solution[x], solution[y]) in self.pairs[it] for it, x, y in linked)

    def rules(self) -> str:
        facts = [f"may({cell},{it})." for cell, values in self.may.items() for it in values]
        facts += [f"pair({name},{x},{y})." for name, of in self.pairs.items() for x, y in of]
        facts += [f"link({name},{x},{y})." for name, x, y in self.links]
        facts.append("1 {at(X,V) : may(X,V)} 1 :- may(X,_).")
        facts.append(":- link(R,X,Y), at(X,A), at(Y,B), not pair(R,A,B).")
        return "\n".join([*facts, "#show at/2.\n"])


def timed(words: list[str], sent: str = "") -> tuple[str, float]:
    """What a peer prints, and the seconds of its process."""
    began = time.perf_counter()
    try:
        ran = subprocess.run(words, input=sent, capture_output=True, text=True, timeout=SECONDS)
    except subprocess.TimeoutExpired as error:
        raise Cut from error
    return ran.stdout, time.perf_counter() - began


def by_clingo(rules: str) -> Found:
    """What clingo finds: the last answer that it prints, or none."""
    printed, seconds = timed(["clingo", "-"], rules)
    answers = re.findall(r"^Answer: .*\n(.*)$", printed, flags=re.M)
    if not answers:
        assert "UNSATISFIABLE" in printed
        return Found(None, seconds)
    return Found(dict(re.findall(r"at\((\w+),(\w+)\)", answers[-1])), seconds)


def least(puzzle: Puzzle, network: Network) -> str:
    """Rules for the first list of all: the first values of the first choices come before all."""
    cells = list(dict.fromkeys(choice.cell for choice in puzzle.choices))
    rules = [f"before({cell},{len(cells) - at})." for at, cell in enumerate(cells)]
    for cell in cells:
        rules += [f"place({cell},{it},{at})." for at, it in enumerate(network.may[cell])]
    return "\n".join([*rules, "#minimize {N@P,X : at(X,V), place(X,V,N), before(X,P)}.\n"])


def model(plan: Plan) -> str:
    """The plan for MiniZinc."""
    lines = [f"array[0..{len(plan.long) - 1}] of var 0..{LONGEST}: s; var 0..{LONGEST}: last;"]
    lines += [f"constraint s[{i}] + {long} <= last;" for i, long in enumerate(plan.long)]
    lines += [f"constraint {ended(plan, i, j)};" for i, j in plan.before]
    lines.append(f"array[0..{len(plan.either) - 1}] of var bool: o;")
    for at, (i, j) in enumerate(plan.either):
        lines.append(f"constraint o[{at}] -> {ended(plan, i, j)};")
        lines.append(f"constraint not o[{at}] -> {ended(plan, j, i)};")
    lines.append("solve minimize last;")
    lines.append('output ["last = \\(last);\\n"];')
    return "\n".join(lines)


def ended(plan: Plan, first: int, second: int) -> str:
    return f"s[{first}] + {plan.long[first]} <= s[{second}]"


def by_gecode(plan: Plan) -> tuple[Found, float]:
    """The shortest length, with the seconds of MiniZinc, and those of Gecode alone after it."""
    with tempfile.TemporaryDirectory() as room:
        source, flat = f"{room}/plan.mzn", f"{room}/plan.fzn"
        with open(source, "w", encoding="utf-8") as file:
            file.write(model(plan))
        solver = ["minizinc", "--solver", "gecode"]
        printed, seconds = timed([*solver, source])
        timed([*solver, "-c", source, "--fzn", flat])
        alone = best(lambda: Found(None, timed(["fzn-gecode", flat])[1]))
    assert "==========" in printed
    return Found(int(re.findall(r"last = (\d+)", printed)[-1]), seconds), alone.seconds


def best(run: Callable[[], Found]) -> Found:
    """A run, of which the best of several counts where it is short."""
    found = run()
    again = RUNS - 1 if found.seconds < SHORT else 0
    return min([found, *(run() for _ in range(again))], key=lambda it: it.seconds)


def uncut(run: Callable[[], Found]) -> Optional[Found]:
    try:
        return best(run)
    except Cut:
        return None


@dataclass
class Row:
    """A session that was measured: what each way took, or None where it was cut or isn't there."""

    puzzle: Puzzle
    searched: Optional[Found]
    driven: Optional[Found]
    peer: Optional[Found] = None
    # The seconds of Gecode without MiniZinc.
    alone: Optional[float] = None
    steps: Optional[int] = None
    wrong: str = ""

    def figures(self) -> list[Optional[float]]:
        taken = [it.seconds if it else None for it in [self.searched, self.driven, self.peer]]
        of_driver, of_peer = ratio(taken[0], taken[1]), ratio(taken[0], taken[2])
        return [taken[0], taken[1], of_driver, taken[2], of_peer, self.alone]

    def cells(self) -> list[str]:
        nogoods = f"{self.searched.count:,}" if self.searched else "-"
        moves = f"{self.driven.count:,}" if self.driven else "-"
        steps = f"{self.steps:,}" if self.steps else "-"
        return [f"{len(self.puzzle.choices)}", self.said(), steps, nogoods, moves]

    def said(self) -> str:
        if self.searched is None:
            return f"> {SECONDS} s"
        answer = self.searched.answer
        if answer is None:
            return "contradiction"
        return f"{answer}" if isinstance(answer, int) else "a list"


def ratio(one: Optional[float], other: Optional[float]) -> Optional[float]:
    return one / other if one is not None and other else None


def measured(program: str, puzzle: Puzzle) -> Row:
    row = Row(
        puzzle, uncut(lambda: chosen(program, puzzle)), uncut(lambda: driven(program, puzzle))
    )
    if row.searched:
        try:
            row.steps = chosen(program, puzzle, SLICE).steps
        except Cut:
            pass
    (measure_plan if isinstance(puzzle, Plan) else measure_list)(row)
    answers = [it.answer for it in [row.searched, row.driven] if it]
    if any(it != answers[0] for it in answers):
        row.wrong += " the driver's answer is another;"
    return row


def measure_plan(row: Row) -> None:
    """Puts the peer's figures of a plan into the row, and what is wrong."""
    assert isinstance(row.puzzle, Plan)
    plan = row.puzzle
    if not shutil.which("minizinc") or not shutil.which("fzn-gecode"):
        return
    try:
        row.peer, row.alone = by_gecode(plan)
    except Cut:
        return
    if row.searched and row.searched.answer != row.peer.answer:
        row.wrong += f" Gecode finds {row.peer.answer};"


def measure_list(row: Row) -> None:
    """The same of a puzzle whose answer is a list."""
    network = Network(row.puzzle.network)
    answer = row.searched.answer if row.searched else None
    if isinstance(answer, dict) and not network.holds(answer):
        row.wrong += " it doesn't fit the relations;"
    if not shutil.which("clingo"):
        return
    rules = network.rules()
    row.peer = uncut(lambda: by_clingo(rules))
    first = uncut(lambda: by_clingo(rules + least(row.puzzle, network)))
    if row.searched and row.peer and (answer is None) != (row.peer.answer is None):
        row.wrong += f" clingo finds {row.peer.answer};"
    elif row.searched and first and answer != of_cells(first.answer, row.puzzle):
        row.wrong += f" the first list is {first.answer};"


def of_cells(answer: Solution | int | None, puzzle: Puzzle) -> Optional[Solution]:
    if not isinstance(answer, dict):
        return None
    return {choice.cell: answer[choice.cell] for choice in puzzle.choices}


def groups(seeds: int) -> Iterator[list[Puzzle]]:
    """What is measured; of a group of several the median is told too."""
    drawn = range(1, seeds + 1)
    yield [puzzles.colouring(60, 3, 138, seed) for seed in drawn]
    yield [puzzles.colouring(50, 4, 220, seed) for seed in drawn]
    yield [puzzles.plan(20, 3, seed) for seed in drawn]
    yield from ([puzzles.sudoku(given)] for given in SUDOKUS)
    yield from ([puzzles.sudoku_by_cells(given)] for given in SUDOKUS)
    yield [puzzles.queens(8, "15863724")]
    yield [puzzles.tenants()]
    yield [puzzles.tenants_by_floors()]
    yield [puzzles.pigeons(9)]
    yield [puzzles.pigeons_by_holes(9)]


class Spoiled:
    """What is measured of the tenants, and of a program that has the baker on the fifth floor."""

    name = "peers: the tenants, and a wrong answer"

    def wrong(self, program: str) -> Optional[str]:
        """What is wrong with what is measured, or None."""
        with tempfile.TemporaryDirectory() as room:
            spoiled = f"{room}/spoiled"
            with open(spoiled, "w", encoding="utf-8") as file:
                file.write(f"#!/bin/sh\nsed -u 's/^fix baker .*/fix baker f5/' | {program}\n")
            os.chmod(spoiled, 0o700)
            for path, status in [(program, 0), (spoiled, 1)]:
                words = [os.path.realpath(__file__), path, "--only", "tenants"]
                ran = subprocess.run(words, capture_output=True, text=True, timeout=SECONDS)
                rows = re.findall(r"^\| (tenants[^|]*) \| \d+ \| a list \|", ran.stdout, flags=re.M)
                told = len(re.findall("it doesn't fit the relations", ran.stdout))
                if (ran.returncode, len(rows), told) != (status, 2, 2 * status):
                    return f"status {ran.returncode}, wanted {status}: {ran.stdout}{ran.stderr}"
        return None


def cases() -> Iterator[Spoiled]:
    yield Spoiled()


HEAD = "session|choices|answer|steps|nogoods|moves|`choose`|driver|`choose` / driver|peer"
HEAD += "|`choose` / peer|Gecode alone"


def printed(title: str, cells: list[str], figures: list[Optional[float]]) -> None:
    told = [
        "-" if it is None else f"{it:.3f}" if at in (0, 1, 3, 5) else f"{it:.2f}"
        for at, it in enumerate(figures)
    ]
    print("|", " | ".join([title, *cells, *told]), "|", flush=True)


def median(rows: list[Row]) -> list[Optional[float]]:
    """The median of each figure, where what was cut or isn't there is left out."""
    columns = zip(*(row.figures() for row in rows))
    kept = ([it for it in column if it is not None] for column in columns)
    return [statistics.median(it) if it else None for it in kept]


def measure(program: str, only: str, seeds: int) -> int:
    for name in ["clingo", "minizinc", "fzn-gecode"]:
        if not shutil.which(name):
            print(f"{name} isn't installed")
    print(f"| {HEAD.replace('|', ' | ')} |\n|{'---|' * (HEAD.count('|') + 1)}")
    wrong = 0
    for group in groups(seeds):
        rows = []
        for puzzle in (it for it in group if only in it.name):
            rows.append(measured(program, puzzle))
            printed(puzzle.name, rows[-1].cells(), rows[-1].figures())
            if rows[-1].wrong:
                wrong = 1
                print(f"{puzzle.name}:{rows[-1].wrong}", flush=True)
        if len(rows) > 1:
            printed("median", [""] * 5, median(rows))
    return wrong


def main() -> int:
    assert __doc__
    usage = __doc__.split("\n")[2].removeprefix("usage: ")
    read = argparse.ArgumentParser(usage=usage, description=__doc__.split("\n", maxsplit=1)[0])
    read.add_argument("program")
    read.add_argument("--only", default="")
    read.add_argument("--seeds", type=int, default=10)
    read.add_argument("--write", metavar="NAME")
    said = read.parse_args()
    if said.write:
        named = [it for it in itertools.chain(*groups(said.seeds)) if it.name == said.write]
        if not named:
            read.error(f"no session {said.write}")
        print("\n".join([*named[0].lines, "settle"]))
        return 0
    return measure(os.path.abspath(said.program), said.only, said.seeds)


if __name__ == "__main__":
    sys.exit(main())
