#!/usr/bin/python3
"""The shortest plans of tasks that share four resources, beside MiniZinc with Gecode.

usage: python/measure/resources.py [--sizes 30,60,120] [--seeds N] [--first N] [--seconds N]

Drawn are so many plans of each size (10), as `halls.py` says. Each has so many seconds of one
processor (60), from stating it on, with all programs that are begun for it. A line tells for the
project of a workbench (`w.least(p.end)`) and for Gecode's `cumulative` the best end that was found,
the bound, and the seconds; `=` stands where it is proved. Gecode tells no bound: so it is the
longest way through the order, which it knows from the start. It searches half of the time in an
order of its own, and half by the least start; the better of both counts.

It is better to prove the shortest, or else to have the smaller gap between bound and best. Each
plan is looked at by an evaluator of its own, and what is proved has to agree with all that is
found; else the status is 1.
"""

import argparse
import os
import re
import statistics
import sys
from collections.abc import Iterator
from dataclasses import dataclass
from pathlib import Path

sys.path.insert(0, str(Path(__file__).resolve().parents[1] / "src"))

import halls  # noqa: E402
import searching  # noqa: E402
from spent import Spent  # noqa: E402

from propbench import Workbench  # noqa: E402
from propbench.questions.asking import Interrupted  # noqa: E402
from propbench.questions.bounding import Optimum  # noqa: E402

TICKS = os.sysconf("SC_CLK_TCK")
# How Gecode searches, half of the time each: in its own order, and by the least start.
WAYS = ("", ":: int_search(s, smallest, indomain_min)")


@dataclass(frozen=True)
class Found:
    """The best end that was found, and the bound."""

    best: int | None
    bound: int
    is_proved: bool

    @property
    def gap(self) -> float:
        """How far the bound is from the best."""
        return (
            0 if self.is_proved else float("inf") if self.best is None else self.best - self.bound
        )

    def text(self, seconds: float) -> str:
        """Both, and what it took."""
        best = "-" if self.best is None else str(self.best)
        return f"{best:>5}{'=' if self.is_proved else f' {self.bound}':5}{seconds:7.2f}"


class Deadline:
    """Ends a question once this process and its programs have used so many seconds."""

    def __init__(self, seconds: float) -> None:
        self._until = used() + seconds

    def __call__(self, _told: str) -> None:
        if used() >= self._until:
            raise KeyboardInterrupt


def used() -> float:
    """The seconds of a processor that this process used, with programs that are under way."""
    spent = sum(os.times()[:4])
    for children in Path("/proc/self/task").glob("*/children"):
        for child in children.read_text().split():
            try:
                parts = Path(f"/proc/{child}/stat").read_text().rpartition(")")[2].split()
            except OSError:
                continue
            spent += (int(parts[11]) + int(parts[12])) / TICKS
    return spent


def by_workbench(plan: halls.Shared, seconds: int) -> Found:
    """What a workbench finds."""
    deadline = Deadline(seconds)
    with Workbench() as w:
        try:
            p = plan.project(w)
            found = w.least(p.end, progress=deadline)
        except Interrupted as cut:
            assert isinstance(cut.so_far, Optimum)
            found = cut.so_far
        except ValueError as error:
            print(f"  not stated: {error}")
            return Found(None, plan.longest(), False)
        known = found.plan
        if known is not None:
            starts = [int(known[task.start.name]) for task in p.tasks.values()]
            assert plan.end(starts) == found.value
    return Found(found.value, found.bound or 0, found.proved)


def by_gecode(plan: halls.Shared, seconds: int) -> Found:
    """What Gecode finds."""
    words = ["minizinc", "--solver", "gecode", "-i"]
    best: int | None = None
    for way in WAYS:
        told = searching.printed(words, plan.model(way), ".mzn", seconds // len(WAYS))
        for last, starts in re.findall(r"last = (\d+) s = \[(.*?)\]", told):
            assert plan.end([int(it) for it in starts.split(",")]) <= int(last)
            best = int(last) if best is None else min(best, int(last))
        if "==========" in told and best is not None:
            return Found(best, best, True)
    return Found(best, plan.longest(), False)


def wrong(ours: Found, theirs: Found) -> Iterator[str]:
    """What can't be of two that were found for the same."""
    for one, other in ((ours, theirs), (theirs, ours)):
        bound = one.best if one.is_proved else one.bound
        if other.best is not None and bound is not None and bound > other.best:
            yield f"WRONG: {bound} is no bound, as {other.best} was found"


def measured(size: int, seeds: range, seconds: int) -> bool:
    """Measures plans of a size, and tells whether all that was found can be."""
    better, gaps, is_right = 0, list[tuple[float, float]](), True
    for seed in seeds:
        plan = halls.shared(size, seed)
        ours = Spent.of(lambda: by_workbench(plan, seconds))
        theirs = Spent.of(lambda: by_gecode(plan, seconds))
        own, other = ours.result, theirs.result
        is_better = own.is_proved or own.gap < other.gap
        better += is_better
        gaps.append((own.gap, other.gap))
        texts = own.text(ours.seconds), other.text(theirs.seconds)
        said = "".join(f"  {it}" for it in wrong(own, other))
        is_right = is_right and not said
        name = f"{size} tasks, {seed}"
        print(
            f"{name:14}{texts[0]}{texts[1]}{'' if is_better else '  not better'}{said}", flush=True
        )
    medians = [statistics.median(column) for column in zip(*gaps)]
    proved = [sum(gap == 0 for gap in column) for column in zip(*gaps)]
    print(f"{size} tasks: better in {better} of {len(seeds)}; gaps 0 {proved}, median {medians}")
    return is_right


def main(words: list[str]) -> int:
    """Measures plans of each size."""
    read = argparse.ArgumentParser(
        description=__doc__, formatter_class=argparse.RawTextHelpFormatter
    )
    read.add_argument("--sizes", default="30,60,120", metavar="N,N", help="how many tasks")
    read.add_argument("--seeds", type=int, default=10, metavar="N", help="plans of a size (10)")
    read.add_argument("--first", type=int, default=1, metavar="N", help="the first seed (1)")
    read.add_argument("--seconds", type=int, default=60, metavar="N", help="of each run (60)")
    options = read.parse_args(words)
    if missing := searching.missing("Gecode"):
        read.error(f"{missing} not installed")
    print(f"{'':14}{'workbench':>17}{'Gecode':>17}")
    seeds = range(options.first, options.first + options.seeds)
    sizes = [int(size) for size in options.sizes.split(",")]
    return 0 if all([measured(size, seeds, options.seconds) for size in sizes]) else 1


if __name__ == "__main__":
    sys.exit(main(sys.argv[1:]))
