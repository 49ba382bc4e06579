"""Tasks that share four resources, drawn as the literature draws them: as a project of a workbench,
for MiniZinc, and with an evaluator of their plans.

A network of tasks has so many arcs for each of them, none of which follows from others; a task uses
so large a part of the resources; and of each there is so much between what its largest task needs
and the most that is in use where every task starts as soon as its order allows.
"""

import random
from collections.abc import Sequence
from dataclasses import dataclass

from propbench import Workbench
from propbench.planning import Project

ARCS = (1.5, 1.8, 2.1)
PARTS = (0.5, 0.75, 1.0)
STRENGTHS = {30: (0.2, 0.35, 0.5), 60: (0.2, 0.35, 0.5), 120: (0.1, 0.2, 0.3, 0.4)}
RESOURCES, LEAST, MOST = 4, 2, 20
# How many tasks have nothing before them, and nothing behind; and how many are next to one.
ENDS, NEXT = 3, 3


@dataclass(frozen=True)
class Shared:
    """How long each task takes, which end before which begin, how much there is of each resource,
    and how much of each a task uses."""

    long: list[int]
    before: list[tuple[int, int]]
    holds: list[int]
    uses: list[list[int]]

    def earliest(self) -> list[int]:
        """When each task starts where only the order counts."""
        found = [0] * len(self.long)
        for one, other in self.before:
            found[other] = max(found[other], found[one] + self.long[one])
        return found

    def longest(self) -> int:
        """How long the longest way through the order is."""
        return max(start + long for start, long in zip(self.earliest(), self.long))

    def end(self, starts: Sequence[int]) -> int:
        """When all is done in a plan. Raises ValueError where it isn't one."""
        ends = [start + long for start, long in zip(starts, self.long)]
        if min(starts) < 0 or any(ends[one] > starts[other] for one, other in self.before):
            raise ValueError(f"a task starts too early: {starts}")
        for held, uses in zip(self.holds, self.uses):
            for day in range(max(ends)):
                runs = (use for use, a, b in zip(uses, starts, ends) if a <= day < b)
                if sum(runs) > held:
                    raise ValueError(f"too much is in use on day {day}: {starts}")
        return max(ends)

    def in_a_row(self) -> int:
        """When all is done where each task starts as soon as there is room, in their order."""
        starts: list[int] = []
        for task, long in enumerate(self.long):
            ready = [starts[one] + self.long[one] for one, other in self.before if other == task]
            start = max(ready, default=0)
            while not self._has_room(starts, task, range(start, start + long)):
                start += 1
            starts.append(start)
        return self.end(starts)

    def _has_room(self, starts: Sequence[int], task: int, days: range) -> bool:
        """Whether a task has room beside those before it on all of these days."""
        runs = [[it for it, s in enumerate(starts) if s <= day < s + self.long[it]] for day in days]
        return all(
            uses[task] + sum(uses[it] for it in each) <= held
            for held, uses in zip(self.holds, self.uses)
            for each in runs
        )

    def project(self, w: Workbench) -> Project:
        """The tasks in a workbench."""
        p = w.project(days=self.in_a_row())
        for number, held in enumerate(self.holds):
            p.resource(f"r{number}", held)
        for task, long in enumerate(self.long):
            after = [p.tasks[f"t{one}"] for one, other in self.before if other == task]
            uses = {f"r{number}": each[task] for number, each in enumerate(self.uses)}
            p.task(f"t{task}", long, after=after, uses=uses)
        return p

    def model(self, way: str) -> str:
        """What is the least `last`, for MiniZinc, which is searched for in this way."""
        places, days = f"0..{len(self.long) - 1}", self.in_a_row()
        lines = [
            'include "cumulative.mzn";',
            f"array[{places}] of int: d = array1d({places}, {self.long});",
            f"array[{places}] of var 0..{days}: s; var 0..{days}: last;",
            f"constraint forall(i in {places})(s[i] + d[i] <= last);",
            *(f"constraint s[{i}] + d[{i}] <= s[{j}];" for i, j in self.before),
        ]
        for held, uses in zip(self.holds, self.uses):
            own = [task for task, use in enumerate(uses) if use]
            needs = [uses[task] for task in own]
            parts = f"[s[i] | i in {own}], [d[i] | i in {own}], {needs}, {held}"
            lines.append(f"constraint cumulative({parts});")
        return "\n".join(
            [*lines, f"solve {way} minimize last;", 'output ["last = \\(last) s = \\(s)\\n"];']
        )


class Order:
    """An order of tasks that grows arc by arc, none of which follows from others."""

    def __init__(self, count: int) -> None:
        self.behind: list[set[int]] = [set() for _ in range(count)]
        self._in_front = [0] * count
        # What comes before a task, and behind it, itself included.
        self._earlier = [{task} for task in range(count)]
        self._later = [{task} for task in range(count)]

    def may(self, one: int, other: int) -> bool:
        """Whether an arc may be added, by which no other follows from the rest."""
        if one >= other or other in self._later[one]:
            return False
        if len(self.behind[one]) >= NEXT or self._in_front[other] >= NEXT:
            return False
        return not any(self.behind[it] & self._later[other] for it in self._earlier[one])

    def add(self, one: int, other: int) -> None:
        """Adds an arc."""
        self.behind[one].add(other)
        self._in_front[other] += 1
        earlier, later = set(self._earlier[one]), set(self._later[other])
        for it in earlier:
            self._later[it] |= later
        for it in later:
            self._earlier[it] |= earlier


def drawn_order(draw: random.Random, count: int, arcs: int) -> list[tuple[int, int]]:
    """An order of so many tasks with so many arcs, as far as there are."""
    order = Order(count)
    for other in range(ENDS, count):
        may = [one for one in range(min(other, count - ENDS)) if order.may(one, other)]
        if may:
            order.add(draw.choice(may), other)
    for one in range(count - ENDS):
        may = [other for other in range(max(one + 1, ENDS), count) if order.may(one, other)]
        if may and not order.behind[one]:
            order.add(one, draw.choice(may))
    pairs = [(one, other) for one in range(count - ENDS) for other in range(one + 1, count)]
    draw.shuffle(pairs)
    for one, other in pairs:
        if sum(map(len, order.behind)) < arcs and other >= ENDS and order.may(one, other):
            order.add(one, other)
    return [(one, other) for one in range(count) for other in sorted(order.behind[one])]


def drawn_uses(draw: random.Random, count: int, part: float) -> list[list[int]]:
    """How much of each resource each task uses: so large a part of them, and one at the least."""
    tops = [draw.randint(2, 10) for _ in range(RESOURCES)]
    pairs = [(task, draw.randrange(RESOURCES)) for task in range(count)]
    others = [(it, which) for it in range(count) for which in range(RESOURCES)]
    others = [it for it in others if it not in {*pairs}]
    draw.shuffle(others)
    uses = [[0] * count for _ in range(RESOURCES)]
    for task, which in [*pairs, *others[: round(part * RESOURCES * count) - count]]:
        uses[which][task] = draw.randint(1, tops[which])
    return uses


def shared(count: int, seed: int) -> Shared:
    """So many tasks that share resources, the same for each seed."""
    draw = random.Random(f"{count} tasks, {seed}")
    arcs, part = draw.choice(ARCS), draw.choice(PARTS)
    strength = draw.choice(STRENGTHS[count])
    long = [draw.randint(1, 10) for _ in range(count)]
    before = drawn_order(draw, count, round(arcs * count))
    uses = drawn_uses(draw, count, part)
    starts = Shared(long, before, [], []).earliest()
    holds = []
    for each in uses:
        runs = [[j for j in range(count) if starts[j] <= i < starts[j] + long[j]] for i in starts]
        peak, least = max(sum(each[j] for j in some) for some in runs), max(each)
        holds.append(min(MOST, max(LEAST, least + round(strength * (peak - least)))))
    return Shared(long, before, holds, uses)
