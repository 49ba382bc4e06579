"""Plans that are drawn: tasks of some people, in orders and ways, with wishes that may conflict."""

import random

from propbench import Workbench
from propbench.planning import Project, Task


def drawn_plan(w: Workbench, tasks: int, wishes: int, seed: int, people: int = 4) -> Project:
    """A project of so many tasks, of which each third may be done in two ways, and of wishes that
    tasks end early."""
    draw = random.Random(seed)
    names = [f"p{number}" for number in range(people)]
    p = w.project(days=3 * tasks, people=names)
    made: list[Task] = []
    for number in range(tasks):
        after = draw.sample(made, min(len(made), draw.randint(0, 2)))
        who = draw.choice(names)
        if draw.random() < 0.3:
            ways = {way: dict(days=draw.randint(1, 5), cost=draw.randint(0, 50)) for way in "ab"}
            made.append(p.task(f"t{number}", who=who, after=after, options=ways))
        else:
            days, cost = draw.randint(1, 5), draw.randint(0, 20)
            made.append(p.task(f"t{number}", days, who=who, after=after, cost=cost))
    for number in range(wishes):
        w.require(draw.choice(made).end <= draw.randint(5, 2 * tasks), under=f"wish {number}")
    return p
