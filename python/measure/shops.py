"""Work to be planned: tasks that take their days, each after some others, of people or machines of
which each does one thing at a time. As a workbench, for MiniZinc and for clingo.

Job shops are such work too: a job is a row of machines, each with how long it takes there. Those
here are of Fisher and Thompson (ft) and of Lawrence (la), with what is known to be the shortest.
"""

import sys
from dataclasses import dataclass
from itertools import combinations
from pathlib import Path

from propbench import Workbench
from propbench.planning import Task

sys.path.insert(0, str(Path(__file__).resolve().parents[2] / "tests"))

import puzzles  # noqa: E402

SHOPS = {
    "ft06": """2 1 0 3 1 6 3 7 5 3 4 6
        1 8 2 5 4 10 5 10 0 10 3 4
        2 5 3 4 5 8 0 9 1 1 4 7
        1 5 0 5 2 5 3 3 4 8 5 9
        2 9 1 3 4 5 5 4 0 3 3 1
        1 3 3 3 5 9 0 10 4 4 2 1""",
    "la01": """1 21 0 53 4 95 3 55 2 34
        0 21 3 52 4 16 2 26 1 71
        3 39 4 98 1 42 2 31 0 12
        1 77 0 55 4 79 2 66 3 77
        0 83 3 34 2 64 1 19 4 37
        1 54 2 43 4 79 0 92 3 62
        3 69 4 77 1 87 2 87 0 93
        2 38 0 60 1 41 3 24 4 83
        3 17 1 49 4 25 0 44 2 98
        4 77 3 79 2 43 1 75 0 96""",
    "la02": """0 20 3 87 1 31 4 76 2 17
        4 25 2 32 0 24 1 18 3 81
        1 72 2 23 4 28 0 58 3 99
        2 86 1 76 4 97 0 45 3 90
        4 27 0 42 3 48 2 17 1 46
        1 67 0 98 4 48 3 27 2 62
        4 28 1 12 3 19 0 80 2 50
        1 63 0 94 2 98 3 50 4 80
        4 14 0 75 2 50 1 41 3 55
        4 72 2 18 1 37 3 79 0 61""",
    "la03": """1 23 2 45 0 82 4 84 3 38
        2 21 1 29 0 18 4 41 3 50
        2 38 3 54 4 16 0 52 1 52
        4 37 0 54 2 74 1 62 3 57
        4 57 0 81 1 61 3 68 2 30
        4 81 0 79 1 89 2 89 3 11
        3 33 2 20 0 91 4 20 1 66
        4 24 1 84 0 32 2 55 3 8
        4 56 0 7 3 54 2 64 1 39
        4 40 1 83 0 19 2 8 3 7""",
    "la04": """0 12 2 94 3 92 4 91 1 7
        1 19 3 11 4 66 2 21 0 87
        1 14 0 75 3 13 4 16 2 20
        2 95 4 66 0 7 3 7 1 77
        1 45 3 6 4 89 0 15 2 34
        3 77 2 20 0 76 4 88 1 53
        2 74 1 88 0 52 3 27 4 9
        1 88 3 69 0 62 4 98 2 52
        2 61 4 9 0 62 1 52 3 90
        2 54 4 5 3 59 1 15 0 88""",
    "la05": """1 72 0 87 4 95 2 66 3 60
        4 5 3 35 0 48 2 39 1 54
        1 46 3 20 2 21 0 97 4 55
        0 59 3 19 4 46 1 34 2 37
        4 23 2 73 3 25 1 24 0 28
        3 28 0 45 4 5 1 78 2 83
        0 53 3 71 1 37 4 29 2 12
        4 12 2 87 3 33 1 55 0 38
        2 49 3 83 1 40 0 48 4 7
        2 65 3 17 0 90 4 27 1 23""",
    "la16": """1 21 6 71 9 16 8 52 7 26 2 34 0 53 4 21 3 55 5 95
        4 55 2 31 5 98 9 79 0 12 7 66 1 42 8 77 6 77 3 39
        3 34 2 64 8 62 1 19 4 92 9 79 7 43 6 54 0 83 5 37
        1 87 3 69 2 87 7 38 8 24 9 83 6 41 0 93 5 77 4 60
        2 98 0 44 5 25 6 75 7 43 1 49 4 96 9 77 3 17 8 79
        2 35 3 76 5 28 9 10 4 61 6 9 0 95 8 35 1 7 7 95
        3 16 2 59 0 46 1 91 9 43 8 50 6 52 5 59 4 28 7 27
        1 45 0 87 3 41 4 20 6 54 9 43 8 14 5 9 2 39 7 71
        4 33 2 37 8 66 5 33 3 26 7 8 1 28 6 89 9 42 0 78
        8 69 9 81 2 94 4 96 3 27 0 69 7 45 6 78 1 74 5 84""",
    "ft10": """0 29 1 78 2 9 3 36 4 49 5 11 6 62 7 56 8 44 9 21
        0 43 2 90 4 75 9 11 3 69 1 28 6 46 5 46 7 72 8 30
        1 91 0 85 3 39 2 74 8 90 5 10 7 12 6 89 9 45 4 33
        1 81 2 95 0 71 4 99 6 9 8 52 7 85 3 98 9 22 5 43
        2 14 0 6 1 22 5 61 3 26 4 69 8 21 7 49 9 72 6 53
        2 84 1 2 5 52 3 95 8 48 9 72 0 47 6 65 4 6 7 25
        1 46 0 37 3 61 2 13 6 32 5 21 9 32 8 89 7 30 4 55
        2 31 0 86 1 46 5 74 4 32 6 88 8 19 9 48 7 36 3 79
        0 76 1 69 3 76 5 51 2 85 9 11 6 40 7 89 4 26 8 74
        1 85 0 13 2 61 6 7 8 64 9 76 5 47 3 52 4 90 7 45""",
}
SHORTEST = {"ft06": 55, "la01": 666, "la02": 655, "la03": 597, "la04": 590, "la05": 593}
SHORTEST |= {"la16": 945, "ft10": 930}


@dataclass(frozen=True)
class Work:
    """How long each task takes and who does it, which tasks end before which begin, and by when
    all has to be done."""

    long: list[int]
    who: list[int]
    before: list[tuple[int, int]]
    days: int

    def bench(self) -> Workbench:
        """A workbench in which `end` is when all is done."""
        w = Workbench()
        people = sorted({*self.who})
        plan, tasks = (
            w.project(days=self.days, people=[f"p{each}" for each in people]),
            list[Task](),
        )
        for number, (days, who) in enumerate(zip(self.long, self.who)):
            first = [tasks[one] for one, other in self.before if other == number]
            tasks.append(plan.task(f"t{number}", days, who=f"p{who}", after=first))
        assert plan.end is not None
        return w

    def together(self) -> list[list[int]]:
        """The tasks of each."""
        return [
            [task for task, who in enumerate(self.who) if who == each]
            for each in sorted({*self.who})
        ]

    def model(self) -> str:
        """What is the least `last`, for MiniZinc."""
        places = f"0..{len(self.long) - 1}"
        lines = [
            'include "disjunctive.mzn";',
            f"array[{places}] of int: d = array1d({places}, {self.long});",
            f"array[{places}] of var 0..{self.days}: s; var 0..{self.days}: last;",
            f"constraint forall(i in {places})(s[i] + d[i] <= last);",
            *(f"constraint s[{i}] + d[{i}] <= s[{j}];" for i, j in self.before),
        ]
        for tasks in self.together():
            lines.append(f"constraint disjunctive([s[i] | i in {tasks}], [d[i] | i in {tasks}]);")
        return "\n".join([*lines, "solve minimize last;", 'output ["last = \\(last);\\n"];'])

    def rules(self) -> str:
        """The same for clingo: whether a task has begun by a day, and whether all is done."""
        lines = [f"long({i},{days})." for i, days in enumerate(self.long)]
        lines += [f"after({i},{j})." for i, j in self.before]
        for tasks in self.together():
            lines += [f"either({i},{j})." for i, j in combinations(tasks, 2)]
        return "\n".join([*lines, f"#const days={self.days}.", ORDERED])


ORDERED = """
{by(T,S) : S=0..days-L} :- long(T,L).
by(T,days-L) :- long(T,L).
:- by(T,S), not by(T,S+1), long(T,L), S=0..days-L-1.
1 {after(I,J); after(J,I)} 1 :- either(I,J).
:- after(I,J), long(I,L), by(J,S), S < L.
:- after(I,J), long(I,L), by(J,S+L), not by(I,S), S=0..days-L.
{done(D) : D=0..days}.
:- done(D), long(T,L), D < L.
:- done(D), long(T,L), not by(T,D-L), D >= L.
:- done(D), not done(D+1), D=0..days-1.
:- not done(days).
#minimize {1,D : not done(D), D=0..days}.
#show.
"""


def tasks(count: int, people: int, seed: int) -> Work:
    """Tasks of some people, the same for each seed."""
    drawn = puzzles.plan(count, people, seed)
    who = [number % people for number in range(count)]
    return Work(drawn.long, who, drawn.before, puzzles.LONGEST)


def shop(name: str) -> Work:
    """A job shop; all has to be done in twice the time for which a machine or a job is busy."""
    rows = [[int(word) for word in line.split()] for line in SHOPS[name].splitlines()]
    steps = [(j, row[k], row[k + 1]) for j, row in enumerate(rows) for k in range(0, len(row), 2)]
    long, who = [days for _, _, days in steps], [machine for _, machine, _ in steps]
    before = [(i, i + 1) for i in range(len(steps) - 1) if steps[i][0] == steps[i + 1][0]]
    busy = [sum(days for job, _, days in steps if job == each) for each in range(len(rows))]
    busy += [sum(days for _, machine, days in steps if machine == each) for each in {*who}]
    return Work(long, who, before, 2 * max(busy))
