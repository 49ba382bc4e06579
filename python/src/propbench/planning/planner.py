"""A project of what a planner wants, and its best plan."""

from collections.abc import Callable, Collection, Iterable, Mapping, Sequence
from dataclasses import dataclass, replace

from propbench.model.cells import NumberCell
from propbench.model.expressions import Truth
from propbench.model.kinds import Point
from propbench.model.nodes import TRUE
from propbench.planning.bounds import limit_of
from propbench.planning.brief import LEAVE, Brief, TaskWanted, Wish
from propbench.planning.order import SetUp
from propbench.planning.project import Project
from propbench.planning.resources import KeptWithin, rates_of
from propbench.planning.rules import state_rule
from propbench.planning.schedule import Entry, Schedule, Staff
from propbench.planning.tasks import KeptApart, KeptOff, Option, Task
from propbench.planning.wishes import DaysWanted, WishSaid, state_days
from propbench.questions.asking import CellLike
from propbench.questions.bounding import Optimum
from propbench.questions.clock import Progress
from propbench.questions.goals import Optima
from propbench.showing import printable
from propbench.workbench import Workbench

# Who works on one weekday alone takes so many times as long.
_WEEK = 7


@dataclass(frozen=True)
class WeighedProject:
    """A project, and what it costs to give up its premises, of which some are wishes."""

    project: Project
    weights: Mapping[str, float]
    wishes: tuple[str, ...] = ()

    @property
    def facts(self) -> tuple[str, ...]:
        """The premises of tasks that nobody wished for: these aren't given up."""
        return tuple(name for name in self.project.facts if name not in self.weights)

    def weights_of(self, premises: Iterable[str]) -> dict[str, float]:
        """The weights of those of these premises that have one."""
        return {name: self.weights[name] for name in premises if name in self.weights}

    def in_force(self) -> "WeighedProject":
        """The same with those wishes that aren't given up already."""
        believed = self.project.workbench.believed
        return replace(self, wishes=tuple(name for name in self.wishes if name in believed))

    def wishes_lost(self, found: Mapping[str, Point]) -> list[str]:
        """The wishes that a plan doesn't keep."""
        kept = self.project.workbench.model.held(found)
        return [name for name in self.wishes if name not in kept]


def plan_of(workbench: Workbench, brief: Brief, spare: int = 0) -> WeighedProject:
    """The project of what a planner wants, in a workbench, with so many days more than it needs.
    Raises ValueError where two things have one name."""
    weights = {limit_of(person): weight for person, weight in brief.people.items()}
    people, days = list(brief.people), _days(brief, spare)
    project = Project(workbench, days, people, brief.calendar, brief.skills)
    for resource, (holds, weight) in brief.resources.items():
        weights[project.resource(resource, holds)] = weight
    for name, cost in brief.rates.items():
        project.pays(name, cost)
    for job in brief.jobs.values():
        _add(project, job)
    for setup in brief.setups:
        [name] = project.setup(setup.person, {setup.kinds: setup.days})
        weights[name] = setup.weight
    for job in brief.jobs.values():
        if job.done is not None:
            project.done(project.tasks[job.name], *job.done, f"{job.name} was done")
    if brief.today is not None:
        project.today(brief.today, f"today is {_told(project, brief.today)}")
    for job in brief.jobs.values():
        if job.left is not None:
            project.progress(project.tasks[job.name], job.left, job.began)
    for leave in brief.leaves:
        if leave.first < leave.back:
            name = project.away(leave.person, leave.first, leave.back, leave.name)
            weights[name] = leave.weight
    for person, weekdays in brief.works.items():
        weights[project.works(person, weekdays)] = LEAVE
    for person, (premise, off) in brief.off.items():
        weights[project.off(person, off, premise)] = LEAVE
    wishes = _wishes(project, brief)
    for name in brief.given_up:
        if name in workbench.believed:
            workbench.kick(name)
    _agree(project, brief)
    return WeighedProject(project, weights | wishes, tuple(wishes))


def _agree(project: Project, brief: Brief) -> None:
    """Takes in the schedule that was agreed on, where there is one."""
    if brief.baseline:
        entries = [
            Entry(it.task, it.people, it.start, it.end, it.way, it.cost) for it in brief.baseline
        ]
        staff = Staff(project.people, project.days, project.calendar, (), project.resources)
        project.agree(Schedule(entries, staff))


def _days(brief: Brief, spare: int) -> int:
    """How many days the plan has at the most: as many as are given, or are enough for all tasks one
    behind another, and some more."""
    if brief.days is not None:
        return brief.days
    away = sum(leave.back - leave.first for leave in brief.leaves)
    off = {day for _, own in brief.off.values() for day in own}
    wanted = max(1, _work(brief) + away + _latest(brief, off)) + spare
    days = 0
    while wanted > 0:
        wanted -= days not in off
        days += 1
    return days


def _work(brief: Brief) -> int:
    """How many days all tasks take, one behind another, with the days between them."""
    jobs = brief.jobs.values()
    work = sum(max([way.days for way in job.ways] + [job.left or 0]) for job in jobs)
    if brief.works:
        work *= _WEEK
    between = sum(rule.days[0] or 0 for rule in brief.rules)
    longest = max((setup.days for setup in brief.setups), default=0)
    return work + between + len(jobs) * longest


def _latest(brief: Brief, off: Collection[int]) -> int:
    """The day from which on nobody has to wait for any day that is told."""
    jobs = brief.jobs.values()
    late = [job.earliest or 0 for job in jobs]
    late += [max(wish.earliest or 0, *(wish.off or (0,))) for wish in brief.wishes]
    late += [leave.back for leave in brief.leaves]
    late += [job.done[1] for job in jobs if job.done is not None]
    late.append(brief.today or 0)
    if not all(job.pauses for job in jobs):
        # (an event may fit between no two days off)
        late += [day + 1 for day in off]
    return max(late)


def _add(project: Project, job: TaskWanted) -> Task:
    """Adds a task, with its first and its last day."""
    after = [project.tasks[name] for name in job.after]
    who = [*job.people, *job.groups]
    if len(job.ways) > 1:
        options: dict[str, Option] = {
            way.name: {"days": way.days, "cost": way.cost} for way in job.ways
        }
        task = project.task(
            job.name,
            who=who,
            after=after,
            options=options,
            pauses=job.pauses,
            kind=job.kind,
            uses=job.uses,
        )
    else:
        [way] = job.ways
        task = project.task(
            job.name,
            way.days,
            cost=way.cost,
            who=who,
            after=after,
            pauses=job.pauses,
            kind=job.kind,
            uses=job.uses,
        )
    if job.earliest is not None:
        project.not_before(
            job.earliest, task, f"{job.name} not before {_told(project, job.earliest)}"
        )
    if job.latest is not None:
        day, calendar = job.latest, project.calendar
        until = f"by {calendar.last_date(0, day)}" if calendar and day else f"before {day}"
        project.done_by(day, f"{job.name} done {until}", task)
    return task


def _told(project: Project, day: int) -> str:
    """A day, as names have it."""
    return str(day) if project.calendar is None else str(project.calendar.date_of(day))


def _wishes(project: Project, brief: Brief) -> dict[str, float]:
    """States what is wished for, in columns or in words, and tells what that weighs."""
    for wish in brief.wishes:
        _wish(project, wish, brief)
    for rule in brief.rules:
        state_rule(project, rule)
    weights = {wish.name: wish.weight for wish in brief.wishes}
    return weights | {rule.name: rule.weight for rule in brief.rules}


def _wish(project: Project, wish: Wish, brief: Brief) -> None:
    task = None if wish.task is None else project.tasks[wish.task]
    days = DaysWanted(wish.earliest, wish.latest, wish.off, wish.is_on)
    if days != DaysWanted():
        state_days(project, wish.person or task, days, WishSaid(wish.name, wish.weight))
    if wish.cost is not None:
        cost = project.total_cost if task is None else task.cost
        what = "all" if task is None else printable(task.name)
        kept = Truth(TRUE) if cost is None else cost <= wish.cost
        says = f"{what} costs {wish.cost} at most"
        project.wish(kept, wish.name, says, weight=wish.weight)
    if wish.way is not None and task is not None:
        [way] = [way for way in brief.jobs[task.name].ways if way.name == wish.way]
        takes = task.days == way.days
        if task.cost is not None:
            takes = takes & (task.cost == way.cost)
        says = printable(f"{task.name} by way of {way.name}")
        project.wish(takes, wish.name, says, weight=wish.weight)


def best_of(
    project: Project, seconds: float | None, progress: Progress | None = None
) -> Optimum | Optima:
    """The plan that ends soonest, and of those the cheapest, as far as there is time."""
    w = project.workbench
    has_rates = rates_of(project, w.network.events)
    if not has_rates and all(task.cost is None for task in project.tasks.values()):
        return w.least(project.end, seconds=seconds, progress=progress)
    goals = [project.end, project.total_cost]
    return w.least(goals, seconds=seconds, progress=progress)


def given_up(plan: WeighedProject) -> NumberCell:
    """The weight of the wishes that are given up, which nothing has to hold any more. Raises
    ValueError where there is no wish, and where one weighs what is no whole number."""
    if not plan.wishes:
        raise ValueError("nothing is wished for, so no wish can be given up")
    weights: dict[str, int] = {}
    for name in plan.wishes:
        if plan.weights[name] % 1:
            raise ValueError(f"{name}: weights are added up here, so each is a whole number, as 2")
        weights[name] = int(plan.weights[name])
    return plan.project.given_up(weights, "wishes")


def taking(project: Project, premises: Iterable[str]) -> list[str]:
    """What it takes to give up these premises, of those that say who there is and what."""
    stated = project.workbench.network.premises.statements
    found: dict[str, None] = {}
    for each in (it for name in premises for it in stated[name]):
        if isinstance(each, KeptApart):
            found[f"somebody to help {each.person}"] = None
        elif isinstance(each, KeptWithin):
            found[f"more of {each.resource}"] = None
        elif isinstance(each, SetUp):
            found[f"{each.person} to go from {' to '.join(each.kinds)} at once"] = None
        elif isinstance(each, KeptOff):
            found[f"{each.away.person} to be there {each.away.written}"] = None
    return list(found)


def goals_of(plan: WeighedProject, goals: Sequence[str]) -> list[CellLike]:
    """The cells of some goals: `end`, `cost`, `wishes`, which is the weight of those that are given
    up, or the names of cells."""
    project = plan.project
    known: dict[str, Callable[[], CellLike]] = {
        "end": lambda: project.end,
        "cost": lambda: project.total_cost,
        "wishes": lambda: given_up(plan),
    }
    return [known[goal]() if goal in known else goal for goal in goals]
