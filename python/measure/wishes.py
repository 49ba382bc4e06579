"""Wishes over ten numbers, of which many can't all hold: as a workbench, and by MARCO over z3."""

import random
from dataclasses import dataclass
from typing import Any

from marco import Sets, marco

from propbench import Workbench

CELLS, HIGHEST = 10, 30


@dataclass(frozen=True)
class Wish:
    """`first + by <= second` of numbers by place, or `first >= by` for no second; or that two
    together are at most `by`, for `is_sum`."""

    first: int
    second: int | None
    by: int
    is_sum: bool = False

    def of(self, x: list[Any]) -> Any:
        """The constraint on numbers."""
        if self.second is None:
            return x[self.first] >= self.by
        if self.is_sum:
            return x[self.first] + x[self.second] <= self.by
        return x[self.first] + self.by <= x[self.second]


def wishes(count: int, seed: int) -> list[Wish]:
    """So many wishes, the same for each seed."""
    chance = random.Random(seed)
    made = []
    for _ in range(count):
        first, second = chance.sample(range(CELLS), 2)
        sort = chance.randrange(3)
        if sort == 0:
            made.append(Wish(first, second, chance.randint(2, 12)))
        elif sort == 1:
            made.append(Wish(first, None, chance.randint(10, 28)))
        else:
            made.append(Wish(first, second, chance.randint(15, 40), True))
    return made


def bench_of(made: list[Wish]) -> Workbench:
    """A workbench with these wishes, each under a premise."""
    w = Workbench()
    x = [w.number(f"x{i}", 0, HIGHEST) for i in range(CELLS)]
    for number, wish in enumerate(made):
        w.require(wish.of(x), under=f"w{number}")
    return w


def conflicts_by_z3(
    z3: Any, made: list[Wish], most: int, seconds: float
) -> tuple[Sets, Sets, bool]:
    """Conflicts, so many at the most, repairs that were found meanwhile, and whether these are all:
    MARCO over z3."""
    x = [z3.Int(f"x{i}") for i in range(CELLS)]
    flags = {f"w{i}": z3.Bool(f"w{i}") for i in range(len(made))}
    solver = z3.Solver()
    for each in x:
        solver.add(each >= 0, each <= HIGHEST)
    for flag, wish in zip(flags.values(), made):
        solver.add(z3.Implies(flag, wish.of(x)))
    return marco(z3, solver, flags, most, seconds)
