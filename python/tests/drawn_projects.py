"""Small projects that are drawn with all that a plan may have, beside a plain search of all starts,
ways, people and pauses: absences, calendars, order, lags, setups, groups, resources, pay by the
day, what was done and what is left of it, wishes with weights, and plans with few changes.

By hand: python3 tests/drawn_projects.py FIRST COUNT, which tells each project that differs.
"""

import random
import sys
from collections.abc import Iterator, Sequence
from dataclasses import dataclass, field, replace
from datetime import date, timedelta
from itertools import combinations, product
from tempfile import TemporaryDirectory
from typing import Any

from propbench import NothingFits, Workbench, any_of, skilled
from propbench.planning import Project, Task
from propbench.planning.schedule import Entry
from propbench.questions.planned import Planned

NAMES = ("ana", "ben", "cem")
START, WEEK = date(2026, 3, 4), ("mon", "tue", "wed", "thu", "fri", "sat", "sun")
HALL = "hall"
# A project has so many plans to try at the most.
_MOST = 60_000
_KINDS = ("red", "blue")


@dataclass(frozen=True)
class DrawnTask:
    """A task: its ways of days and cost, or the days of each; who does it, and so many of others,
    and so many of a second group; and how much it uses of the hall."""

    ways: tuple[tuple[int, int], ...]
    people: tuple[str, ...]
    number: int
    others: tuple[str, ...]
    speeds: tuple[int, ...]
    after: tuple[int, ...]
    pauses: bool
    kind: str | None
    is_by_skill: bool
    second: tuple[int, tuple[str, ...]] = (0, ())
    uses: int = 0


@dataclass(frozen=True)
class DrawnWish:
    """What is wished for by a day, of somebody or of the hall, of a task, or of all: that it is
    done before it, begins after it or on it, or isn't done on it."""

    premise: str
    of: str | int | None
    sort: str
    day: int
    weight: int
    is_named: bool


@dataclass
class Drawn:
    """A project: tasks, lags as (earlier, later, least, most, of), absences as (premise, person,
    first, last), wishes as (premise, sort, task, day), and days between kinds by people, or of the
    hall. Of that there is so much, `pay` is by the day, and `done` are tasks with their first day
    and their end, or with the days that are `left` of them behind `today`."""

    seed: int
    days: int
    people: tuple[str, ...]
    has_dates: bool
    tasks: list[DrawnTask] = field(default_factory=list)
    lags: list[tuple[int, int, int | None, int | None, str]] = field(default_factory=list)
    aways: list[tuple[str, str, int, int]] = field(default_factory=list)
    works: list[tuple[str, str]] = field(default_factory=list)
    wishes: list[tuple[str, str, int | None, int]] = field(default_factory=list)
    setups: dict[str, dict[tuple[str, str], int]] = field(default_factory=dict)
    early_aways: bool = False
    off: str = ""
    hall: int = 0
    pay: dict[str, int] = field(default_factory=dict)
    done: dict[int, tuple[int, int]] = field(default_factory=dict)
    left: dict[int, tuple[int | None, int]] = field(default_factory=dict)
    today: int | None = None
    wanted: list[DrawnWish] = field(default_factory=list)
    early_wishes: bool = False

    def weight_of(self, premise: str) -> int:
        """What it costs to give up a premise."""
        return {each.premise: each.weight for each in self.wanted}.get(premise, 1)


# --- drawing ---


def drawn_project(seed: int) -> Drawn:
    """A project that has few enough plans."""
    draw = random.Random(seed)
    while True:
        made = _drawn(draw, seed)
        size = 1
        for at in range(len(made.tasks)):
            size *= max(1, len(list(options_of(made, at))))
        if size <= _MOST:
            return made


def _drawn(draw: random.Random, seed: int) -> Drawn:
    count = draw.choice((2, 2, 3, 3, 3, 4, 5))
    people = NAMES[: draw.choice((1, 2, 2, 3, 3))]
    days = draw.randint(6, 12) if count < 4 else draw.randint(5, 8)
    made = Drawn(seed, days, people, draw.random() < 0.5)
    for number in range(count):
        made.tasks.append(_drawn_task(draw, made, number))
    for _ in range(draw.choice((0, 1, 2, 2, 3))):
        first = draw.choice((0, 1, 1, 2, 2, 3, days // 2))
        last = draw.randint(first + 1, first + 3)
        who = draw.choice(people[:2])
        made.aways.append((f"off {len(made.aways)}", who, first, last))
    if made.has_dates and draw.random() < 0.4:
        on = [day for day in WEEK if draw.random() < 0.7] or ["mon"]
        made.works.append((draw.choice(people), " ".join(on)))
    _draw_order(draw, made)
    for number in range(draw.choice((0, 0, 0, 1, 2))):
        sort, task = draw.choice(("by", "from")), draw.randrange(count)
        every = sort == "by" and draw.random() < 0.4
        day = draw.randint(days // 2, days) if sort == "by" else draw.randint(1, days // 2)
        made.wishes.append((f"wish {number}", sort, None if every else task, day))
    made.early_aways, made.early_wishes = draw.random() < 0.5, draw.random() < 0.5
    made.off = draw.choice(("", "sun", "sat sun")) if made.has_dates else ""
    _draw_resources(draw, made)
    if draw.random() < 0.3:
        _draw_progress(draw, made)
    if made.hall == 1:
        _draw_setup(draw, made, HALL)
    for _ in range(draw.choice((0, 0, 1, 1, 2))):
        _draw_wish(draw, made)
    return made


def _draw_wish(draw: random.Random, made: Drawn) -> None:
    """A wish with a weight, of which some are named as they are where nobody names them."""
    whom: list[str | int | None] = [*made.people, draw.randrange(len(made.tasks)), None]
    of = draw.choice(whom)
    of = HALL if made.hall and draw.random() < 0.2 else of
    sorts = ["before"] if of is None else ["before", "after", "not_on"]
    sort = draw.choice([*sorts, "on"] if isinstance(of, int) else sorts)
    day = draw.randint(made.days // 2, made.days - 1) if sort == "before" else draw.randint(0, 3)
    who = "all" if of is None else f"t{of}" if isinstance(of, int) else of
    said = str(date_of(made, day)) if made.has_dates and draw.random() < 0.5 else str(day)
    name, is_named = f"{who} {sort.replace('_', ' ')} {said}", draw.random() < 0.5
    premise = f"wanted {len(made.wanted)}" if is_named else name
    wish = DrawnWish(premise, of, sort, day, draw.randint(1, 4), is_named)
    if premise not in [each.premise for each in made.wanted]:
        made.wanted.append(wish)


def _draw_resources(draw: random.Random, made: Drawn) -> None:
    """A hall, second groups, and pay by the day."""
    tasks = made.tasks
    if draw.random() < 0.5:
        made.hall = draw.choice((1, 2, 2, 3))
        for at, task in enumerate(tasks):
            if draw.random() < 0.8:
                tasks[at] = replace(task, uses=draw.randint(1, min(2, made.hall)))
        if draw.random() < 0.2:
            first = draw.randint(0, made.days // 2)
            made.aways.append((f"off {len(made.aways)}", HALL, first, first + 1))
    for at, task in enumerate(tasks):
        if task.others and not task.speeds and len(made.people) == 3 and draw.random() < 0.7:
            names = tuple(sorted(draw.sample(made.people, 2)))
            if task.number + 1 <= len({*task.others, *names}):
                tasks[at] = replace(tasks[at], second=(1, names))
    for name in (*made.people, *([HALL] if made.hall else [])):
        if draw.random() < 0.2:
            made.pay[name] = draw.randint(1, 3)


def _draw_progress(draw: random.Random, made: Drawn) -> None:
    """What was done by today, and what is under way."""
    made.today = draw.randint(1, made.days // 2)
    for at, task in enumerate(made.tasks):
        drawn = draw.random()
        if len(task.ways) > 1 or drawn > 0.5:
            continue
        first = draw.randint(0, made.today)
        if drawn < 0.25:
            made.done[at] = first, draw.randint(first, made.today)
        else:
            began = None if draw.random() < 0.3 else first
            made.left[at] = began, draw.randint(0, 3)


def _drawn_task(draw: random.Random, made: Drawn, number: int) -> DrawnTask:
    long = draw.choice((0, 1, 1, 2, 2, 3, 4))
    ways = [(long, draw.choice((0, 0, 1, 2)))]
    others: tuple[str, ...] = ()
    speeds: tuple[int, ...] = ()
    free = list(made.people)
    draw.shuffle(free)
    people = tuple(free[: draw.choice((0, 1, 1, 1, 1, 2))])
    count, by_skill = 0, False
    if len(made.people) > 1 and draw.random() < 0.35:
        others = tuple(sorted(made.people[: draw.randint(2, len(made.people))]))
        people, count = (), draw.randint(1, len(others) - 1)
        by_skill = draw.random() < 0.4
        if count == 1 and draw.random() < 0.5:
            speeds = tuple(draw.randint(1, 3) for _ in others)
    elif draw.random() < 0.5:
        # (where it takes longer it costs less)
        ways.append((long + draw.randint(1, 2), max(0, ways[0][1] - draw.randint(1, 2))))
        ways[0] = ways[0][0], ways[0][1] + draw.randint(0, 2)
        draw.shuffle(ways)
    after = [before for before in range(number) if draw.random() < 0.2]
    kind = draw.choice((None, *_KINDS))
    pauses = draw.random() < 0.8
    return DrawnTask(
        tuple(ways), people, count, others, speeds, tuple(after), pauses, kind, by_skill
    )


def _draw_order(draw: random.Random, made: Drawn) -> None:
    count = len(made.tasks)
    if draw.random() < 0.35:
        first, then = draw.sample(range(count), 2)
        least = draw.choice((None, 0, 1, 2))
        most = draw.choice((None, 3, 4)) if least is not None else draw.randint(0, 4)
        made.lags.append((first, then, least, most, draw.choice(("end", "start"))))
    _draw_setup(draw, made, "")


def _draw_setup(draw: random.Random, made: Drawn, of: str) -> None:
    """Days between kinds of tasks of the hall, or of somebody."""
    if draw.random() < 0.4:
        pairs = [(one, other) for one in _KINDS for other in _KINDS]
        times = {pair: draw.randint(0, 2) for pair in pairs if draw.random() < 0.7}
        if times:
            made.setups[of or draw.choice(made.people)] = times


# --- all plans ---


@dataclass(frozen=True)
class Done:
    """A task in a plan."""

    start: int
    end: int
    days: int
    cost: int
    own: int
    who: frozenset[str]
    waits: frozenset[int]


def dates_of(made: Drawn) -> list[date]:
    """The dates of the days of a plan, and more."""
    dates = (START + timedelta(days=each) for each in range(99))
    return [each for each in dates if WEEK[each.weekday()] not in made.off.split()]


def date_of(made: Drawn, day: int) -> date:
    return dates_of(made)[day]


def all_aways(made: Drawn) -> list[tuple[str, str, int, int]]:
    """Absences, with the days on which somebody wishes to do nothing, and those of the weekdays on
    which somebody doesn't work, day by day joined."""
    found = list(made.aways)
    for each in made.wanted:
        if each.sort == "not_on" and isinstance(each.of, str):
            found.append((each.premise, each.of, each.day, each.day + 1))
    worked = [WEEK[each.weekday()] for each in dates_of(made)]
    for person, weekdays in made.works:
        begun = None
        for day in range(made.days + 1):
            is_off = day < made.days and worked[day] not in weekdays.split()
            if is_off and begun is None:
                begun = day
            if not is_off and begun is not None:
                found.append((f"{person} works {weekdays}", person, begun, day))
                begun = None
    return found


def groups_of(task: DrawnTask) -> set[frozenset[str]]:
    """Who may do a task: so many of each group, and nobody for both."""
    free = [name for name in task.second[1] if name not in task.people]
    return {
        frozenset((*task.people, *one, *other))
        for one in combinations(task.others, task.number)
        for other in combinations(free, task.second[0])
        if not {*one} & {*other}
    }


def lengths_of(made: Drawn, at: int, who: frozenset[str]) -> list[tuple[int, int]]:
    """The days that a task may take where these do it, with its cost."""
    task = made.tasks[at]
    cost = task.ways[0][1]
    told, planned = told_of(made, at), task.speeds or [days for days, _ in task.ways]
    if told is not None and told[1] not in planned:
        # (what was done takes as long as it did, and what is under way as long as is told)
        return [(days, cost) for days in ([told[1]] if at in made.left else range(made.days + 1))]
    if told is not None and at in made.left:
        by = [it for it, each in zip(task.others, task.speeds) if each == told[1]]
        return [(told[1], cost)] if not task.speeds or any(it in who for it in by) else []
    if task.speeds:
        return [(days, cost) for it, days in zip(task.others, task.speeds) if it in who]
    return list(task.ways)


def told_of(made: Drawn, at: int) -> tuple[int, int, int | None] | None:
    """The first day of a task that was done or is under way, its days of work, and its end where it
    was done."""
    task = made.tasks[at]
    if at in made.done:
        first, end = made.done[at]
        return first, worked(made, task, first, end), end
    if at in made.left:
        assert made.today is not None
        began, left = made.left[at]
        first = made.today if began is None else began
        return first, worked(made, task, first, made.today) + left, None
    return None


def worked(made: Drawn, task: DrawnTask, first: int, end: int) -> int:
    """How many of some days were worked on, but for those off of who does it anyway."""
    off = {
        day
        for _, who, begin, last in all_aways(made)
        if task.pauses and (who in task.people or (who == HALL and task.uses))
        for day in range(begin, last)
    }
    return sum(day not in off for day in range(first, end))


def options_of(made: Drawn, at: int) -> Iterator[Done]:
    """All that a task may be in a plan, whoever is away: it may pause over any absence of who does
    it, or of what it uses, that lies within."""
    aways, task, told = all_aways(made), made.tasks[at], told_of(made, at)
    starts = range(made.days + 1) if told is None else (told[0],)
    for who in sorted(groups_of(task), key=sorted):
        needs = {*who, *([HALL] if task.uses else [])}
        places = [place for place, it in enumerate(aways) if it[1] in needs and task.pauses]
        for (days, cost), start in product(lengths_of(made, at, who), starts):
            paid = sum(made.pay.get(name, 0) for name in who) + made.pay.get(HALL, 0) * task.uses
            for size in range(len(places) + 1):
                for waits in combinations(places, size):
                    off = {d for it in waits for d in range(aways[it][2], aways[it][3])}
                    end = start + days + len(off)
                    within = all(start < aways[it][2] and end > aways[it][3] for it in waits)
                    is_so = told is None or told[2] in (None, end)
                    if within and end <= made.days and is_so:
                        yield Done(
                            start, end, days, cost + paid * days, cost, who, frozenset(waits)
                        )


def are_ordered(made: Drawn, one: int, a: Done, other: int, b: Done) -> bool:
    """Whether two tasks come in their order, with their lags."""
    done = {one: a, other: b}
    for then, at in ((other, one), (one, other)):
        if at in made.tasks[then].after and done[at].end > done[then].start:
            return False
    for first, then, least, most, of in made.lags:
        if {first, then} == {one, other}:
            between = done[then].start - (done[first].end if of == "end" else done[first].start)
            if (least is not None and between < least) or (most is not None and between > most):
                return False
    return True


def broken_by(made: Drawn, at: int, done: Done) -> frozenset[str]:
    """The premises that a task breaks by itself, of those that may be given up."""
    found, task = set(), made.tasks[at]
    for place, (premise, who, first, last) in enumerate(all_aways(made)):
        is_there = who in done.who or (who == HALL and task.uses > 0)
        if is_there and place not in done.waits and done.end > first and done.start < last:
            found.add(premise)
    for premise, sort, which, day in made.wishes:
        if which in (at, None) and (done.end > day if sort == "by" else done.start < day):
            found.add(premise)
    if made.today is not None and told_of(made, at) is None and done.start < made.today:
        found.add("today")
    needs = {at, None, *done.who, *([HALL] if task.uses else [])}
    found |= {it.premise for it in made.wanted if it.of in needs and not is_as_wished(it, done)}
    return frozenset(found)


def is_as_wished(wish: DrawnWish, done: Done) -> bool:
    """Whether a task is done as it is wished. (Somebody who wishes to be off is away.)"""
    if wish.sort == "before":
        return done.end <= wish.day
    if wish.sort == "not_on":
        return isinstance(wish.of, str) or done.end <= wish.day or done.start > wish.day
    return done.start == wish.day if wish.sort == "on" else done.start > wish.day


def broken_by_two(made: Drawn, one: int, a: Done, other: int, b: Done) -> frozenset[str]:
    """The premises that don't hold of two tasks of somebody."""
    tasks = (made.tasks[one], made.tasks[other])
    found: set[str] = set()
    if not (a.end <= b.start or b.end <= a.start):
        found = {f"{person} does one thing at a time" for person in a.who & b.who}
    for name in (a.who & b.who) | ({HALL} if all(it.uses for it in tasks) else set()):
        for kinds, days in made.setups.get(name, {}).items():
            # (either may be the one behind, or both where they take no day)
            behind = [(b.start - a.end, (tasks[0].kind, tasks[1].kind))]
            behind.append((a.start - b.end, (tasks[1].kind, tasks[0].kind)))
            if any(0 <= between < days and kinds == own for between, own in behind):
                found.add(setting_up(name, kinds, days))
    return frozenset(found)


def setting_up(name: str, kinds: tuple[str, str], days: int) -> str:
    """How it is called that somebody is set up."""
    return f"{name} takes {days} from {kinds[0]} to {kinds[1]}"


def is_full(made: Drawn, plan: Sequence[Done]) -> bool:
    """Whether more of the hall is in use on some day than there is."""
    return any(
        sum(task.uses for task, it in zip(made.tasks, plan) if it.start <= day < it.end) > made.hall
        for day in {it.start for it in plan}
    )


def broken(made: Drawn, plan: Sequence[Done]) -> frozenset[str] | None:
    """The premises that don't hold in a plan, of those that may be given up; None where its order
    doesn't."""
    found: set[str] = {f"{HALL} holds {made.hall}"} if is_full(made, plan) else set()
    for at, done in enumerate(plan):
        found |= broken_by(made, at, done)
    for (one, a), (other, b) in combinations(list(enumerate(plan)), 2):
        if not are_ordered(made, one, a, other, b):
            return None
        found |= broken_by_two(made, one, a, other, b)
    return frozenset(found)


@dataclass
class Known:
    """What a search of all plans finds: those that fit, by their ends and costs, when the last task
    is done, the sets of premises that are broken, each with the ends of such plans, the minimal of
    these sets, and the minimal sets of which each has one of all of them."""

    plans: dict[tuple[int, int], list[tuple[Done, ...]]]
    days: set[tuple[int, int]]
    broken: dict[frozenset[str], set[int]]
    repairs: set[frozenset[str]]

    def take(self, plan: tuple[Done, ...], out: frozenset[str]) -> None:
        """Takes in a plan that breaks these premises."""
        end = max(it.end for it in plan)
        self.broken.setdefault(out, set()).add(end)
        if not out:
            self.plans.setdefault((end, sum(it.cost for it in plan)), []).append(plan)
            self.days.add((plan[-1].start, plan[-1].end))

    @property
    def fits(self) -> set[tuple[int, int]]:
        """The ends and costs of plans."""
        return {*self.plans}

    @property
    def conflicts(self) -> set[frozenset[str]]:
        """The least sets of premises that can't all hold."""
        names = sorted({name for each in self.repairs for name in each})
        found: list[frozenset[str]] = []
        for size in range(len(names) + 1):
            for some in (frozenset(each) for each in combinations(names, size)):
                if all(some & it for it in self.repairs) and not any(it <= some for it in found):
                    found.append(some)
        return {*found}


def searched(made: Drawn) -> Known:
    """By going through all plans, task by task."""
    known, count = Known({}, set(), {}, set()), len(made.tasks)
    options = [
        [(done, broken_by(made, at, done)) for done in options_of(made, at)] for at in range(count)
    ]
    two: dict[tuple[int, int, int, int], frozenset[str] | None] = {}

    def of_two(one: int, left: int, other: int, right: int) -> frozenset[str] | None:
        key = one, left, other, right
        if key not in two:
            pair = one, options[one][left][0], other, options[other][right][0]
            two[key] = broken_by_two(made, *pair) if are_ordered(made, *pair) else None
        return two[key]

    def go(places: tuple[int, ...], out: frozenset[str]) -> None:
        at = len(places)
        if at == count:
            plan = tuple(options[each][place][0] for each, place in enumerate(places))
            full = made.hall and is_full(made, plan)
            known.take(plan, out | {f"{HALL} holds {made.hall}"} if full else out)
            return
        for place, (_, own) in enumerate(options[at]):
            more = [of_two(other, each, at, place) for other, each in enumerate(places)]
            if None not in more:
                go((*places, place), out.union(own, *(each for each in more if each)))

    go((), frozenset())
    known.repairs = {it for it in known.broken if not any(each < it for each in known.broken)}
    return known


def front(pairs: set[tuple[int, int]]) -> list[tuple[int, int]]:
    """Those of which no other is as good in both."""
    return sorted(
        one
        for one in pairs
        if not any(it != one and it[0] <= one[0] and it[1] <= one[1] for it in pairs)
    )


# --- the project ---


def project_of(w: Workbench, made: Drawn) -> Project:
    """The same, as a project of a workbench."""
    can = {person: f"all {person}s" for person in made.people}
    groups = {task.others for task in made.tasks if task.is_by_skill}
    for number, others in enumerate(sorted(groups)):
        can = {who: f"{has} s{len(others)}" if who in others else has for who, has in can.items()}
    start = START if made.has_dates else None
    p = w.project(days=made.days, people=made.people, start=start, off=made.off, skills=can)
    if made.hall:
        p.resource(HALL, made.hall)
    for name, cost in made.pay.items():
        p.pays(name, cost)
    if made.early_aways:
        state_aways(p, made)
    early = [it for it in made.wanted if made.early_wishes and isinstance(it.of, str)]
    state_wishes(p, made, early)
    done: list[Task] = []
    for number, task in enumerate(made.tasks):
        done.append(state_task(p, task, number, [done[before] for before in task.after]))
        if number == 1:
            for person, times in made.setups.items():
                p.setup(person, times)
    if not made.early_aways:
        state_aways(p, made)
    for first, then, least, most, of in made.lags:
        p.lag(done[first], done[then], least, most, of=of)
    for premise, sort, which, day in made.wishes:
        own = None if which is None else done[which]
        if sort == "by":
            p.done_by(day, premise, own)
        else:
            assert own is not None
            p.not_before(day, own, premise)
    state_wishes(p, made, [it for it in made.wanted if it not in early])
    state_progress(p, made, done)
    return p


def state_wishes(p: Project, made: Drawn, wishes: Sequence[DrawnWish]) -> None:
    for it in wishes:
        who = "all" if it.of is None else f"t{it.of}" if isinstance(it.of, int) else it.of
        is_date = "-" in it.premise or (it.is_named and made.has_dates)
        day: date | int = date_of(made, it.day) if is_date else it.day
        named = it.premise if it.is_named else None
        assert p.wish(who, named, None, weight=it.weight, **{it.sort: day}) == it.premise


def state_aways(p: Project, made: Drawn) -> None:
    for premise, person, first, last in made.aways:
        p.away(person, first, last, premise)
    for person, weekdays in made.works:
        p.works(person, weekdays)


def state_progress(p: Project, made: Drawn, tasks: list[Task]) -> None:
    for at, (first, end) in made.done.items():
        p.done(tasks[at], first, end)
    if made.today is not None:
        p.today(made.today, "today")
    for at, (began, left) in made.left.items():
        if began is not None:
            # (what was said of it earlier doesn't count any more)
            p.progress(tasks[at], left + 1)
        p.progress(tasks[at], left, began)


def state_task(p: Project, task: DrawnTask, number: int, after: list[Task]) -> Task:
    who: list[object] = list(task.people)
    if task.others:
        group = f"s{len(task.others)}"
        own = skilled(task.number, group) if task.is_by_skill else any_of(task.number, *task.others)
        who.append(own)
    if task.second[0]:
        who.append(any_of(task.second[0], *task.second[1]))
    name = f"t{number}"
    rest: dict[str, Any] = dict(who=who, after=after, pauses=task.pauses, kind=task.kind)
    rest["uses"] = {HALL: task.uses} if task.uses else None
    if task.speeds:
        days = dict(zip(task.others, task.speeds))
        return p.task(name, days, cost=task.ways[0][1], **rest)
    if len(task.ways) == 1:
        [(length, cost)] = task.ways
        return p.task(name, length, cost=cost, **rest)
    ways = {f"way {at}": dict(days=d, cost=c) for at, (d, c) in enumerate(task.ways)}
    return p.task(name, options=ways, **rest)


# --- what differs ---


class Held:
    """A drawn project, and what was held of its answers against a search of all its plans."""

    def __init__(self, seed: int, counts: dict[str, int]) -> None:
        self.seed, self.made, self.counts = seed, drawn_project(seed), counts
        self.known, self.found = searched(self.made), list[str]()
        self.draw = random.Random(-seed)

    def check(self, what: str, is_so: object, wanted: object) -> None:
        self.counts[what] = self.counts.get(what, 0) + 1
        if is_so != wanted:
            self.found.append(f"{self.seed}: {what} is {is_so}, and by a search {wanted}")

    def hold(self, p: Project) -> None:
        """All that is asked of a project."""
        w = p.workbench
        if not self.known.fits:
            self.hold_conflicts(w, p)
        self.hold_ends(w, p)
        if self.known.fits and self.draw.random() < 0.3:
            with w.what_if():
                self.hold_moved(w, p)
        self.hold_wishes(w, p)

    def hold_conflicts(self, w: Workbench, p: Project) -> None:
        repairs = w.repairs(p.weights, keep=p.facts, most=1000)
        self.check("repairs", {frozenset(it.names) for it in repairs}, self.known.repairs)
        costs = [sum(map(self.made.weight_of, each.names)) for each in repairs]
        self.check("what repairs cost", [it.cost for it in repairs], sorted(costs))
        self.check("all repairs", repairs.complete, True)
        if self.known.repairs:
            conflicts = w.conflicts(keep=p.facts, most=1000)
            told = {frozenset(it.names) for it in conflicts}
            self.check("conflicts", told, self.known.conflicts)
        try:
            w.solve()
            self.found.append(f"{self.seed}: a plan where there is none")
        except NothingFits:
            pass

    def hold_ends(self, w: Workbench, p: Project) -> None:
        fits = self.known.fits
        end, cost = p.end, p.total_cost
        both = w.least([end, cost])
        self.check("the least end and cost", both.values, min(fits, default=()))
        least = min((pair[1] for pair in fits), default=None)
        self.check("the least cost", w.least(cost).value, least)
        most = max((pair[0] for pair in fits), default=None)
        self.check("the greatest end", w.greatest(end).value, most)
        last = [*p.tasks.values()][-1]
        plans = w.plans([last.start, last.end], most=1000)
        self.check("when a task is done", {tuple(it.values()) for it in plans}, self.known.days)
        traded = w.trade_off(end, cost)
        self.check("trade-offs", (traded.pairs, traded.complete), (front(fits), True))
        for each in (both, *traded):
            if each.plan is not None:
                self.check("a plan", plan_in(self.made, p, each), True)

    def hold_moved(self, w: Workbench, p: Project) -> None:
        """The fewest tasks that move where one has to begin later."""
        before = p.schedule(w.least([p.end, p.total_cost]))
        entries = before.entries
        at = self.draw.randrange(len(entries))
        weights = {entry.task: self.draw.randint(1, 3) for entry in entries}
        later = entries[at].start + 1
        if later > self.made.days:
            return
        p.not_before(later, p.tasks[f"t{at}"], "later")
        sums = [
            sum(weights[entry.task] * moved(entry, done) for entry, done in zip(entries, plan))
            for plans in self.known.plans.values()
            for plan in plans
            if plan[at].start >= later
        ]
        found = w.least(p.moved(before, weights))
        self.check("the fewest changes", found.value, min(sums, default=None))

    def hold_wishes(self, w: Workbench, p: Project) -> None:
        """The weight of what is given up, with the end."""
        wishes = [it[0] for it in self.made.wishes] + [it.premise for it in self.made.wanted]
        kinds = {*wishes, *(it[0] for it in self.made.aways)}
        for name, times in self.made.setups.items():
            kinds |= {setting_up(name, pair, days) for pair, days in times.items()}
        names = [it for it in w.believed if it in kinds or it in p.limits]
        weights = {name: self.draw.randint(1, 4) for name in names if self.draw.random() < 0.7}
        is_usual = bool(wishes) and self.draw.random() < 0.4
        if is_usual:
            weights = {name: self.made.weight_of(name) for name in wishes}
        pairs = {
            (end, sum(weights[name] for name in out))
            for out, ends in self.known.broken.items()
            if out <= {*weights}
            for end in ends
        }
        traded = w.trade_off(p.end, p.given_up(None if is_usual else weights))
        told = traded.pairs, traded.complete
        self.check("what is given up", told, (front(pairs), True))


def moved(entry: Entry, done: Done) -> int:
    """Whether a task is done at another time than in a schedule, and whether by others or in
    another way, of which each counts."""
    is_then = (entry.start, entry.end) == (done.start, done.end)
    way = (entry.days, (entry.cost or 0) - entry.paid) if entry.way else None
    own = (done.days, done.own) if entry.way else None
    is_so = (frozenset(entry.people), way) == (done.who, own)
    return (not is_then) + (not is_so)


def faults(seed: int, counts: dict[str, int] | None = None) -> list[str]:
    """In what the answers of a drawn project differ from a search of all its plans."""
    held = Held(seed, {} if counts is None else counts)
    with Workbench() as w:
        p = project_of(w, held.made)
        if seed % 3:
            held.hold(p)
            return held.found
        with TemporaryDirectory() as folder:
            w.save(f"{folder}/plan.prop")
            with Workbench.load(f"{folder}/plan.prop") as other:
                [again] = other.projects
                held.check("what is kept", known_of(again), known_of(p))
                held.hold(again)
    return held.found


def known_of(p: Project) -> list[object]:
    """What a project knows of itself."""
    tasks = [(str(it), it.kind, it.pauses, dict(it.uses)) for it in p.tasks.values()]
    said = [(name, p.workbench.model.text(name)) for name in p.workbench.premises]
    own = [p.people, p.days, p.calendar, p.facts, p.limits, p.resources, p.weights]
    return [*own, tasks, said]


def plan_in(made: Drawn, p: Project, found: Planned) -> object:
    """Whether a schedule is one of all plans, and breaks nothing; else what it is."""
    schedule = p.schedule(found)
    aways, plan = all_aways(made), []
    for at, entry in enumerate(schedule.entries):
        fits = [
            each
            for each in options_of(made, at)
            if not moved(entry, each) and (entry.days, entry.cost or 0) == (each.days, each.cost)
            if not any(
                (who in each.who or (who == HALL and made.tasks[at].uses))
                and away not in each.waits
                and each.end > first
                and each.start < last
                for away, (_, who, first, last) in enumerate(aways)
            )
        ]
        if not fits:
            return entry
        plan.append(fits[0])
    return broken(made, plan) == frozenset() or schedule.entries


def main(first: int, count: int) -> None:
    """Tells what differs of so many projects, and how much was held against a search."""
    counts: dict[str, int] = {}
    wrong = 0
    for seed in range(first, first + count):
        for fault in faults(seed, counts):
            wrong += 1
            print(fault, drawn_project(seed), flush=True)
        if (seed - first) % 100 == 99 or seed == first + count - 1:
            print(f"{seed - first + 1} projects, {wrong} wrong, {counts}", flush=True)


if __name__ == "__main__":
    main(int(sys.argv[1]), int(sys.argv[2]))
