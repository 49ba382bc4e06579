"""Plans as planners have them, drawn by seed: tasks of people with several skills, tasks among
absences, talks in a hall, and nurses' rosters with rules of rest and wishes that have weights.

usage: python3 planners.py [SEEDS] [SECONDS] [skills|absences|either|halls|rosters ..]

Each line tells the best that was found, whether that is proved, and what it took. The program is
the one that a workbench finds.
"""

import random
import resource
import sys
import time
from collections.abc import Callable
from dataclasses import dataclass

from propbench import Workbench, any_of, count, pairs, skilled
from propbench.model.cells import ElementCell, NumberCell
from propbench.model.expressions import Truth
from propbench.planning import Project, Task

SKILLS = ("welding", "wiring", "paint", "masonry")
SHIFTS = ("off", "early", "late", "night")
# How many nurses each shift of a day needs.
NEEDED = {"early": 3, "late": 2, "night": 1}


@dataclass(frozen=True)
class Asked:
    """A number whose least is asked for, in a workbench."""

    workbench: Workbench
    least: NumberCell
    says: str


def skills_of(seed: int, tasks: int = 40, people: int = 8) -> Asked:
    """Tasks that somebody with a skill does, some of them two, in days of their own."""
    draw, w = random.Random(seed), Workbench()
    names = [f"p{number}" for number in range(people)]
    can = {name: " ".join(draw.sample(SKILLS, 2)) for name in names}
    for place, skill in enumerate(SKILLS):
        # (each skill has somebody)
        can[names[place]] = f"{skill} {can[names[place]]}"
    p = w.project(days=tasks * 6, people=names, skills=can)
    made: list[Task] = []
    for number in range(tasks):
        after = [task for task in made[-8:] if draw.random() < 0.15]
        wanted, days = draw.choice(SKILLS), draw.randint(1, 6)
        who = [skilled(wanted)]
        if draw.random() < 0.2:
            who.append(any_of(*draw.sample(names, 3)))
        made.append(p.task(f"t{number}", days, who=who, after=after))
    return Asked(w, p.end, f"{tasks} tasks, {people} people with two skills of four")


def absences_of(
    seed: int, tasks: int = 30, people: int = 4, aways: int = 12, either: int = 1
) -> Asked:
    """Tasks of people who are away now and then, of which they hear in the end; each by whoever of
    so many suits best."""
    draw, w = random.Random(seed), Workbench()
    names = [f"p{number}" for number in range(people)]
    p = w.project(days=200, people=names)
    made: list[Task] = []
    for number in range(tasks):
        after = [task for task in made if draw.random() < 0.08]
        own = [names[(number + step) % people] for step in range(either)]
        who = any_of(*own) if either > 1 else own
        made.append(p.task(f"t{number}", draw.randint(1, 6), who=who, after=after))
    for number in range(aways):
        first = draw.randint(1, 45)
        p.away(draw.choice(names), first, first + draw.randint(1, 5), f"off {number}")
    says = f"{tasks} tasks, {people} people, {aways} absences"
    return Asked(w, p.end, says if either == 1 else f"{says}, each by one of {either}")


def either_of(seed: int) -> Asked:
    """The same, where each task may be done by either of two people."""
    return absences_of(seed, either=2)


def halls_of(seed: int, talks: int = 20) -> Asked:
    """Talks in a hall that has room for three, each with a speaker."""
    draw, w = random.Random(seed), Workbench()
    speakers = [f"s{number}" for number in range(8)]
    p = w.project(days=60, people=speakers)
    p.resource("hall", 3)
    p.resource("crew", 4)
    for number in range(talks):
        uses = {"hall": 1, "crew": draw.randint(1, 2)}
        p.task(f"t{number}", draw.randint(1, 5), who=draw.choice(speakers), uses=uses)
    return Asked(w, p.end, f"{talks} talks, a hall for 3, a crew of 4")


def roster_of(seed: int, nurses: int = 10, days: int = 14) -> Asked:
    """Who has which shift on which day, and the weight of the wishes that are given up."""
    draw, w = random.Random(seed), Workbench()
    shift = w.domain("shift", SHIFTS)
    on = [
        [w.element(f"n{nurse} day {day}", shift) for day in range(days)] for nurse in range(nurses)
    ]
    for day in range(days):
        for name, number in NEEDED.items():
            w.require(count([row[day] == name for row in on]) == number)
    for row in on:
        _rests(w, row)
    wishes: dict[str, int] = {}
    for number in range(2 * nurses):
        nurse, day = draw.randrange(nurses), draw.randrange(days)
        wanted = draw.choice(SHIFTS)
        name = f"n{nurse} {wanted} on day {day}, {number}"
        w.require(on[nurse][day] == wanted, under=name)
        wishes[name] = draw.randint(1, 5)
    p = Project(w, days, (), None)
    says = f"{nurses} nurses, {days} days, {len(wishes)} wishes"
    return Asked(w, p.given_up(wishes), says)


def _rests(w: Workbench, row: list[ElementCell]) -> None:
    """Behind a late shift there is no early one, and behind a night one nothing but a night or a
    day off; of seven days five are worked at the most, and three nights."""
    may = [(one, other) for one in SHIFTS for other in SHIFTS if _may_follow(one, other)]
    for one, other in zip(row, row[1:]):
        w.require(pairs(one, other, may))
    for first in range(len(row) - 6):
        week = row[first : first + 7]
        free: list[Truth] = [each == "off" for each in week]
        w.require(count(free) >= 2)
        w.require(count([each == "night" for each in week]) <= 3)


def _may_follow(one: str, other: str) -> bool:
    if one == "night":
        return other in ("night", "off")
    return not (one == "late" and other == "early")


CASES: dict[str, Callable[[int], Asked]] = {
    "skills": skills_of,
    "absences": absences_of,
    "either": either_of,
    "halls": halls_of,
    "rosters": roster_of,
}


def used() -> float:
    """The seconds of one processor that this process used so far, and its programs that ended."""
    spent = [resource.getrusage(who) for who in (resource.RUSAGE_SELF, resource.RUSAGE_CHILDREN)]
    return sum(each.ru_utime + each.ru_stime for each in spent)


def told(name: str, seed: int, seconds: float) -> str:
    """What became of a case."""
    before, began = used(), time.monotonic()
    asked = CASES[name](seed)
    stated = used() - before
    with asked.workbench as w:
        best = w.least(asked.least, seconds=seconds)
        took = time.monotonic() - began
    is_best = "proved" if best.proved else f"bound {best.bound}"
    spent = f"{used() - before:.2f} s of one processor, {stated:.2f} of them to state it"
    return f"{name} {seed}: {best.value} {is_best}; {spent}; {took:.1f} s by the clock"


def main(words: list[str]) -> None:
    """Tells of each case."""
    seeds, seconds = int(words[0]) if words else 5, float(words[1]) if words[1:] else 20.0
    for name in words[2:] or CASES:
        print(f"{name}: {CASES[name](0).says}", flush=True)
        for seed in range(seeds):
            print(told(name, seed, seconds), flush=True)


if __name__ == "__main__":
    main(sys.argv[1:])
