#!/usr/bin/python3
"""What a question through Python takes beside its line, where it is asked again and again.

usage: measure/again.py [--tasks N ..] [--times N] [--seed N]

A project of so many tasks on people who do one thing at a time, whose shortest plan is asked for.
Between two questions a premise is kicked out or brought in, by which a task begins late.

- the line: `least end` in a session that was told the network once, with `kick` and `bring` before;
- the question: `w.least(p.end)` behind `w.kick` and `w.bring`.

Told are thousandths of a second, of the first question, which stands by itself, and the median and
the most of so many times (10) then: by the clock, of a processor for the program, and for Python.
"""

import argparse
import os
import resource
import statistics
import sys
import time
from collections.abc import Callable
from contextlib import suppress
from dataclasses import dataclass, field
from pathlib import Path

sys.path.insert(0, str(Path(__file__).resolve().parents[1] / "src"))
sys.path.insert(0, str(Path(__file__).resolve().parents[2] / "tests"))

import puzzles  # noqa: E402

from propbench import Session, Workbench  # noqa: E402
from propbench.planning import Project, Task  # noqa: E402
from propbench.points import Best  # noqa: E402

PEOPLE = {20: 3, 80: 4}
LATE = "one comes late"


@dataclass
class Times:
    """What calls took, in seconds: by the clock, of a processor by all programs, and by Python."""

    taken: list[tuple[float, float, float]] = field(default_factory=list)

    def of(self, run: Callable[[], int | None]) -> int | None:
        """The result of a call that is measured."""
        began, programs, here = time.perf_counter(), _by_programs(), time.process_time()
        result = run()
        here = time.process_time() - here
        self.taken.append((time.perf_counter() - began, _by_programs() - programs, here))
        return result

    def told(self) -> str:
        """The first, and the median and the most of the others, of each."""
        said = ""
        for first, *others in zip(*self.taken):
            parts = first, statistics.median(others), max(others)
            said += "   " + "".join(f"{1000 * each:8.1f}" for each in parts)
        return said


def _by_programs() -> float:
    """The seconds of a processor that the programs took which this process has begun."""
    ended = resource.getrusage(resource.RUSAGE_CHILDREN)
    with open(f"/proc/self/task/{os.getpid()}/children", encoding="ascii") as file:
        children = file.read().split()
    running = 0
    for child in children:
        with suppress(OSError), open(f"/proc/{child}/schedstat", encoding="ascii") as file:
            running += int(file.read().split()[0])
    return ended.ru_utime + ended.ru_stime + running / 1e9


def project(w: Workbench, count: int, seed: int) -> Project:
    """A project of so many tasks, of which the last begins late under a premise."""
    people = PEOPLE.get(count, 4)
    plan = puzzles.plan(count, people, seed)
    p = w.project(days=puzzles.LONGEST, people=[f"p{i}" for i in range(people)])
    tasks: list[Task] = []
    for number, days in enumerate(plan.long):
        before = [tasks[first] for first, second in plan.before if second == number]
        tasks.append(p.task(f"t{number}", days, who=f"p{number % people}", after=before))
    w.require(tasks[-1].start >= 20, under=LATE)
    return p


def measured(count: int, times: int, seed: int) -> tuple[Times, Times]:
    """What the line takes, and what the question does."""
    line, question = Times(), Times()
    with Workbench() as w, Session(w.session.program) as session:
        p = project(w, count, seed)
        end, premise = w.model.cell_name(p.end.name), w.model.line_name(LATE)
        session.send_all([*w.model.base(), f"limit {10**15}"])
        for number in range(times + 1):
            command = "bring" if number % 2 else "kick"
            (w.bring if number % 2 else w.kick)(LATE)
            session.send(f"{command} {premise}")

            def asked() -> int | None:
                best = session.least(end)
                return best.value if isinstance(best, Best) else None

            found = line.of(asked), question.of(lambda: w.least(p.end).value)
            assert found[0] == found[1] is not None, found
    return line, question


def main(words: list[str]) -> int:
    """Measures, and prints lines for each number of tasks."""
    read = argparse.ArgumentParser(
        description=__doc__, formatter_class=argparse.RawTextHelpFormatter
    )
    read.add_argument("--tasks", type=int, nargs="*", default=list(PEOPLE))
    read.add_argument("--times", type=int, default=10)
    read.add_argument("--seed", type=int, default=0)
    options = read.parse_args(words)
    kinds = ("by the clock", "programs", "Python")
    print(f"{'':24}" + "".join(f"   {kind:>24}" for kind in kinds))
    for count in options.tasks:
        line, question = measured(count, options.times, options.seed)
        for what, times in (("line", line), ("question", question)):
            print(f"{f'{count} tasks, the {what}':24}{times.told()}", flush=True)
    return 0


if __name__ == "__main__":
    sys.exit(main(sys.argv[1:]))
