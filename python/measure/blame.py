#!/usr/bin/python3
"""Blames ten planning models, and compares conflicts, repairs and times with z3's by MARCO.

usage: python/measure/blame.py [--large] [--most SECONDS] [SEED ..]

The models are python/tests/models/projects/project.mzn with data drawn by seeds, 30 to 80
constraints each, with --large about 500, of which fewer tasks are due too early. Both are given
what MiniZinc makes of a model; z3's part follows Liffiton's MARCO, with cores of z3 as seeds for
shrinking. Told are seconds of one processor, of all that is begun. Needs Debian's minizinc and
python3-z3.
"""

import argparse
import random
import sys
import tempfile
from collections.abc import Sequence
from functools import partial
from pathlib import Path

import z3  # type: ignore[import]

PYTHON = Path(__file__).resolve().parents[1]
sys.path += [str(PYTHON / "src")]

from marco import Sets, marco  # noqa: E402
from propbench import Workbench  # noqa: E402
from propbench.flatzinc.blame import BlameOptions, blamed  # noqa: E402
from propbench.flatzinc.building import BLAMED, Built  # noqa: E402
from propbench.flatzinc.compiling import Compiled, compiled  # noqa: E402
from propbench.flatzinc.terms import Flat, FlatTerm, Name, Text  # noqa: E402
from spent import Spent  # noqa: E402

MODEL = PYTHON / "tests/models/projects/project.mzn"


def data(seed: int, is_large: bool = False) -> str:
    """A project drawn by a number: what is due comes a little too early."""
    chance = random.Random(seed)
    tasks, people = (72, 8) if is_large else (chance.randrange(9, 15), chance.randrange(3, 6))
    takes = [chance.randrange(1, 6) for _ in range(tasks)]
    who = [chance.randrange(1, people + 1) for _ in range(tasks)]
    before = [(task, task + chance.randrange(1, 4)) for task in range(1, tasks) for _ in range(2)]
    before = sorted({pair for pair in before if pair[1] <= tasks})
    ends = [0] * (tasks + 1)
    for task in range(1, tasks + 1):
        ends[task] = takes[task - 1] + max(
            [ends[first] for first, other in before if other == task], default=0
        )
    late = (chance.randrange(-1, 40) if is_large else chance.randrange(-1, 6) for _ in ends)
    due = [(task, ends[task] + next(late)) for task in range(3, tasks + 1, 2)]
    away = []
    for person in range(1, people + 1, 2):
        begin = chance.randrange(0, 12)
        away.append((person, begin, begin + chance.randrange(1, 5)))
    return (
        f"tasks = {tasks};\npeople = {people};\ndays = {sum(takes) + 10};\n"
        f"takes = {takes};\nwho = {who};\nbefore = {_rows(before)};\ndue = {_rows(due)};\n"
        f"away = {_rows(away)};\n"
    )


def _rows(rows: Sequence[tuple[int, ...]]) -> str:
    return "[|" + "|".join(",".join(map(str, row)) for row in rows) + "|]"


# --- z3 ---


class Translated:
    """FlatZinc with marks in z3: each constraint of the model is a truth."""

    def __init__(self, flat: Flat) -> None:
        self.flat, self.solver = flat, z3.Solver()
        self.known: dict[str, z3.ExprRef] = {}
        self.marks: dict[str, list[z3.ExprRef]] = {}
        for name, variable in flat.variables.items():
            self.known[name] = z3.Bool(name) if variable.is_truth else z3.Int(name)
            if variable.values:
                low, high = variable.values.ranges[0][0], variable.values.ranges[-1][1]
                self.solver.add(self.known[name] >= low, self.known[name] <= high)
        for each in flat.constraints:
            if each.name == BLAMED:
                assert isinstance(each.args[1], Text)
                self.marks.setdefault(each.args[1].text, []).append(self.of(each.args[0]))
            else:
                self.solver.add(self.says(each.name, each.args))

    def of(self, term: FlatTerm) -> z3.ExprRef:
        found = self.flat.resolved(term)
        if isinstance(found, bool):
            return z3.BoolVal(found)
        return self.known[found.text] if isinstance(found, Name) else z3.IntVal(found)

    def all(self, term: FlatTerm) -> list[z3.ExprRef]:
        found = self.flat.resolved(term)
        assert isinstance(found, tuple)
        return [self.of(each) for each in found]

    def says(self, name: str, args: tuple[FlatTerm, ...]) -> z3.BoolRef:
        if name.endswith("_reif"):
            return self.of(args[-1]) == self.says(name[:-5], args[:-1])
        if name == "int_lin_le":
            terms = zip(self.all(args[0]), self.all(args[1]))
            return z3.Sum([factor * each for factor, each in terms]) <= self.of(args[2])
        if name == "int_le":
            return self.of(args[0]) <= self.of(args[1])
        if name == "bool_clause":
            return z3.Or([*self.all(args[0]), *map(z3.Not, self.all(args[1]))])
        if name in ("array_bool_or", "array_bool_and"):
            joined = z3.Or if name.endswith("or") else z3.And
            return self.of(args[1]) == joined(self.all(args[0]))
        raise ValueError(name)

    def conflicts(self, most: float, count: int) -> tuple[Sets, Sets, bool]:
        """All minimal conflicts and repairs, and whether that was done in time."""
        flags = {name: z3.Bool(f"flag {name}") for name in self.marks}
        for name, held in self.marks.items():
            self.solver.add(z3.Implies(flags[name], z3.And(held)))
        return marco(z3, self.solver, flags, count, most)


# --- both ---


def theirs(made: Compiled, most: float, count: int) -> tuple[Sets, Sets, bool]:
    """All minimal conflicts and repairs by z3, so many conflicts at the most."""
    return Translated(made.flat).conflicts(most, count)


def ours(made: Compiled, most: float, count: int) -> tuple[Sets, Sets, bool]:
    """The same by the workbench, so many of each at the most."""
    with Workbench() as workbench:
        built = Built(made.flat, workbench)
        conflicts, repairs = blamed(built, made, BlameOptions(most=count, seconds=most))
        found = {frozenset(each) for each in conflicts}, {frozenset(each) for each in repairs}
        return (*found, repairs.complete)


def main() -> int:
    assert __doc__
    read = argparse.ArgumentParser(description=__doc__.split("\n", maxsplit=1)[0])
    read.add_argument("seeds", nargs="*", type=int, metavar="SEED", default=range(1, 11))
    read.add_argument("--large", action="store_true", help="500 constraints each")
    read.add_argument("--most", type=float, default=60, metavar="N", help="seconds of each (60)")
    read.add_argument(
        "--count", type=int, default=100_000, metavar="N", help="of each at most (all)"
    )
    options = read.parse_args()
    wrong = 0
    print("project  constraints  conflicts  repairs  propbench      z3")
    for seed in options.seeds:
        with tempfile.TemporaryDirectory() as folder:
            file = Path(folder, "project.dzn")
            file.write_text(data(seed, options.large))
            made = compiled(MODEL, [file])
        spent = Spent.of(partial(ours, made, options.most, options.count))
        peer = Spent.of(partial(theirs, made, options.most, options.count))
        found, other = spent.result, peer.result
        is_same = found[:2] == other[:2] or not (found[2] and other[2])
        wrong += not is_same
        marks = sum(each.name == BLAMED for each in made.flat.constraints)
        cut = "" if found[2] and other[2] else f" (cut: {not found[2]}, {not other[2]})"
        print(
            f"{seed:7} {marks:12} {len(found[0]):10} {len(found[1]):8} {spent.seconds:8.2f} s"
            f" {peer.seconds:6.2f} s{cut}{'' if is_same else ' NOT THE SAME'}",
            flush=True,
        )
    return 1 if wrong else 0


if __name__ == "__main__":
    sys.exit(main())
