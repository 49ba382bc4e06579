"""Tasks that wait for each other and for what they share, packed over and over: as soon as there is
room, then from the end as late as there is, and back again, in orders that are drawn by a seed.

Nothing is claimed of the plans; most are shorter than one that is made once.
"""

import random
from collections.abc import Sequence
from dataclasses import dataclass

# So many tasks are placed at the most, and all so often; and how far a drawn order is off.
_PLACED, _MOST_ROUNDS, _SPREAD = 15_000, 40, 0.3


@dataclass(frozen=True)
class Packing:
    """How long tasks take, which end before which begin, how much there is of what they share, and
    how much of each a task uses."""

    long: Sequence[int]
    before: Sequence[tuple[int, int]]
    holds: Sequence[int]
    uses: Sequence[dict[int, int]]

    def turned(self) -> "Packing":
        """The same from the end."""
        return Packing(self.long, [(b, a) for a, b in self.before], self.holds, self.uses)

    def packed(self, first: Sequence[float]) -> list[int] | None:
        """When each task starts, as soon as there is room: of those that may the one that is first
        by these numbers. None where some wait for themselves."""
        count = len(self.long)
        waits, behind = [0] * count, [list[int]() for _ in range(count)]
        for one, other in self.before:
            waits[other] += 1
            behind[one].append(other)
        used = [[0] * (sum(self.long) + 1) for _ in self.holds]
        starts, placed = [0] * count, 0
        ready = {task for task in range(count) if not waits[task]}
        while ready:
            task = max(ready, key=lambda it: (first[it], -it))
            ready.remove(task)
            start = starts[task] = self._soonest(task, starts[task], used)
            placed += 1
            for other in behind[task]:
                starts[other] = max(starts[other], start + self.long[task])
                waits[other] -= 1
                ready |= set() if waits[other] else {other}
        return starts if placed == count else None

    def _soonest(self, task: int, start: int, used: list[list[int]]) -> int:
        """The first day from one on from which a task has room, which it takes."""
        long, is_full = self.long[task], True
        while is_full:
            is_full = False
            for which, need in self.uses[task].items():
                days, most = used[which], self.holds[which] - need
                for day in range(start + long - 1, start - 1, -1):
                    if days[day] > most:
                        start, is_full = day + 1, True
                        break
        for which, need in self.uses[task].items():
            for day in range(start, start + long):
                used[which][day] += need
        return start

    def end(self, starts: Sequence[int]) -> int:
        """When all is done."""
        return max(start + long for start, long in zip(starts, self.long))

    def bound(self) -> int:
        """A day before which all can't be done."""
        work = [0] * len(self.holds)
        for long, uses in zip(self.long, self.uses):
            for which, need in uses.items():
                work[which] += long * need
        longest = max(self.behind(), default=0)
        return max([longest, *(-(-days // held) for days, held in zip(work, self.holds))])

    def behind(self) -> list[int]:
        """The days of each task and of all that waits for it, on the longest way."""
        alone = Packing(self.long, self.before, (), [{} for _ in self.long]).turned()
        starts = alone.packed([0] * len(self.long)) or [0] * len(self.long)
        return [start + long for start, long in zip(starts, self.long)]

    def shortest(self) -> list[int] | None:
        """The starts of the shortest plan that was found; None where there is none."""
        behind, draw, turned, bound = self.behind(), random.Random(0), self.turned(), self.bound()
        best = starts = self.packed(behind)
        rounds = min(_MOST_ROUNDS, _PLACED // (4 * len(self.long)))
        for count in range(rounds):
            if best is None or starts is None or self.end(best) == bound:
                return best
            if count:
                spread = (draw.uniform(1 - _SPREAD, 1 + _SPREAD) for _ in behind)
                starts = self.packed([days * by for days, by in zip(behind, spread)]) or best
            late = turned.packed(self._ends(starts))
            starts = self.packed(self._ends(late)) if late else best
            best = min(best, starts or best, key=self.end)
        return best

    def _ends(self, starts: Sequence[int]) -> list[int]:
        return [start + long for start, long in zip(starts, self.long)]
