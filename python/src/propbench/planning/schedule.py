"""A plan as a schedule: which task is done when and by whom, and who is away."""

import os
from collections.abc import Iterator, Mapping, Sequence
from contextlib import suppress
from dataclasses import dataclass, field, replace
from datetime import date, datetime
from typing import TYPE_CHECKING, TypeVar

from propbench.model.network import Network
from propbench.planning.calendar import Calendar, date_said, dates_said
from propbench.planning.pausing import Paused, days_off, pauses_by_task
from propbench.planning.resources import rates_of
from propbench.planning.tasks import Away, Task, TaskMade, aways_of
from propbench.questions.bounding import Optimum
from propbench.questions.goals import Optima
from propbench.questions.model import Model, Point
from propbench.questions.planned import Planned
from propbench.questions.shown import Shown
from propbench.questions.solution import Solution
from propbench.showing import printable
from propbench.tables import table

if TYPE_CHECKING:
    from propbench.planning.loads import Loads
    from propbench.planning.moves import Moves
    from propbench.planning.project import Project

AnyColumn = TypeVar("AnyColumn")
# Lines of a schedule are no longer than this, and its chart ends so many days behind it.
_WIDE, _BEHIND = 100, 2


@dataclass(frozen=True)
class Entry:
    """A task in a plan, from the beginning of the day `start` to that of the day `end`, but for its
    `pauses`; `way` is the option that is taken, where there are some. It `uses` so much of each
    resource, all that time. Of its cost so much is `paid` by the day."""

    task: str
    people: tuple[str, ...]
    start: int
    end: int
    way: str | None
    cost: int | None
    pauses: tuple[tuple[int, int], ...] = ()
    uses: tuple[tuple[str, int], ...] = ()
    paid: int = 0

    @property
    def needs(self) -> tuple[str, ...]:
        """Who does it, and the resources that it uses."""
        return (*self.people, *(name for name, _ in self.uses))

    @property
    def used(self) -> tuple[str, ...]:
        """What it uses, in words."""
        return tuple(name if number == 1 else f"{number} {name}" for name, number in self.uses)

    @property
    def days(self) -> int:
        """How many days it is worked on."""
        return sum(end - start for start, end in self.parts)

    @property
    def parts(self) -> list[tuple[int, int]]:
        """The days between its pauses."""
        ends = [self.start, *(end for pause in self.pauses for end in pause), self.end]
        return list(zip(ends[::2], ends[1::2]))


@dataclass(frozen=True)
class Staff:
    """Who there is, in which days, and who is away when; and how much of each resource."""

    people: tuple[str, ...]
    days: int
    calendar: Calendar | None
    aways: tuple[Away, ...]
    resources: Mapping[str, int] = field(default_factory=dict)


class Schedule(Shown):
    """What is done when, and by whom: `entries` in the order of the tasks. It prints by date and by
    person, and is written for spreadsheets, calendars, browsers and pictures."""

    complete = True
    _certificate = None

    def __init__(
        self,
        entries: Sequence[Entry],
        staff: Staff,
        told: frozenset[str] = frozenset(),
        chain: Mapping[str, str] | None = None,
    ) -> None:
        """Of these entries, which tell the values of these cells and choices. Where it is known
        which tasks make the end, `chain` has each with what it waits for, in words."""
        self.entries, self.staff, self.told = tuple(entries), staff, told
        self.chain = dict(chain or {})

    @property
    def people(self) -> tuple[str, ...]:
        """Who there is."""
        return self.staff.people

    @property
    def calendar(self) -> Calendar | None:
        """The dates of the days, where the plan has any."""
        return self.staff.calendar

    @property
    def end(self) -> int:
        """The day by which all is done."""
        return max((entry.end for entry in self.entries), default=0)

    @property
    def cost(self) -> int:
        """What all tasks cost."""
        return sum(entry.cost or 0 for entry in self.entries)

    def end_said(self) -> str:
        """When all is done, in words."""
        said = self.date_said()
        return f"by day {self.end}" if said is None else f"on {said}"

    def date_said(self) -> str | None:
        """The date on which all is done, None where there are no dates."""
        return None if self.calendar is None else date_said(self.calendar.last_date(0, self.end))

    def by_date(self) -> list[Entry]:
        """The entries by their first days."""
        return sorted(self.entries, key=lambda entry: (entry.start, entry.end))

    def dates(self, entry: Entry) -> tuple[date, date]:
        """The first date of a task and the last. Raises ValueError where there is no calendar."""
        if self.calendar is None:
            raise ValueError("the plan has no calendar, so no dates: give w.project a start")
        return self.calendar.date_of(entry.start), self.calendar.last_date(entry.start, entry.end)

    # --- as text ---

    def headline(self) -> str:
        if self.calendar is None:
            says = f"From day 0 to {self.end}"
        else:
            last = self.calendar.last_date(0, self.end)
            says = f"From {date_said(self.calendar.date_of(0))} to {date_said(last)}"
            says += f", {self.end} {'day' if self.end == 1 else 'days'} of work"
        return f"{says}{f', at a cost of {self.cost}' if self.cost else ''}:"

    def heads(self) -> Sequence[str]:
        ends = ("start", "end") if self.calendar is None else ("from", "to")
        return (*ends, *self._rest_of(("days", "task", "who", "uses", "how", "cost")))

    def rows(self) -> Sequence[Sequence[object]]:
        return [
            (
                *self.ends(entry),
                *self._rest_of(_said_of(entry)),
            )
            for entry in self.by_date()
        ]

    def _rest_of(self, columns: Sequence[AnyColumn]) -> Iterator[AnyColumn]:
        """Those of the columns for days, task, people, resources, way and cost in which something
        stands."""
        has_ways = any(entry.way is not None for entry in self.entries)
        has_people = any(entry.people for entry in self.entries)
        has_uses = any(entry.uses for entry in self.entries)
        are_there = (True, True, has_people, has_uses, has_ways, self.cost > 0)
        for column, is_there in zip(columns, are_there):
            if is_there:
                yield column

    def ends(self, entry: Entry) -> tuple[object, object]:
        """The first and the last date of a task in words, or its days where there are no dates."""
        if self.calendar is None:
            return entry.start, entry.end
        first, last = map(date_said, self.dates(entry))
        return first, last

    def doings(self) -> list[tuple[str, str]]:
        """Of each person, and each resource, what is done when, in order, in a text."""
        names = (*self.people, *self.staff.resources)
        return [(name, "; ".join(self._doings(name))) for name in names]

    def _doings(self, person: str) -> Iterator[str]:
        own = [each for each in self.by_date() if person in each.needs]
        when = [(*part, each.task) for each in own for part in each.parts]
        when += [(a.first, a.last, "away") for a in self.shown_aways() if a.person == person]
        for start, end, what in sorted(when):
            yield f"{self.days_said(start, end)} {what}"

    def shown_aways(self) -> list[Away]:
        """Who is away when, but for those who never work then."""
        return [away for away in self.staff.aways if not away.is_usual]

    def told_in_short(self, entry: Entry) -> str:
        """When a task is done, and how where there are several ways."""
        way = "" if entry.way is None else f", {entry.way}"
        return f"{self.days_said(entry.start, entry.end)}{way}"

    def days_said(self, start: int, end: int) -> str:
        """The days from one to another, in short."""
        if self.calendar is None:
            return f"{start} to {end}"
        return dates_said(self.calendar.date_of(start), self.calendar.last_date(start, end))

    def __str__(self) -> str:
        lines = [super().__str__()]
        if doings := self.doings():
            lines.append(table(("who", "does"), doings, "  ", _WIDE))
        return "\n".join(lines)

    def loads(self) -> "Loads":
        """Day by day who works on what, how much of each resource is in use, and who is free."""
        from propbench.planning.loads import Loads

        return Loads(self)

    def since(self, before: "Schedule") -> "Moves":
        """What moved since an earlier schedule of the plan."""
        from propbench.planning.moves import Moves

        return Moves(before, self)

    # --- for others ---

    def to_csv(self, path: str | os.PathLike[str] | None = None) -> str:
        """The schedule for a spreadsheet, a row for each task, written to a file where one is
        named; and its text."""
        from propbench.outputs import write_as
        from propbench.planning.exports import ENDINGS, csv_of

        return write_as(csv_of(self), path, ENDINGS["csv"])

    def to_ics(
        self,
        path: str | os.PathLike[str] | None = None,
        *,
        who: str | None = None,
        now: datetime | None = None,
    ) -> str:
        """The schedule for a calendar (iCalendar), all of it, or what one person does. Raises
        ValueError where the plan has no dates, and where nobody is called so."""
        from propbench.outputs import write_as
        from propbench.planning.exports import ENDINGS, ics_of

        return write_as(ics_of(self, who, now), path, ENDINGS["ics"])

    def to_html(self, path: str | os.PathLike[str] | None = None, title: str = "Schedule") -> str:
        """The schedule as one page for a browser and a printer: chart, days, people."""
        from propbench.outputs import write_as
        from propbench.planning.exports import ENDINGS
        from propbench.planning.paper import page_of

        return write_as(page_of(self, title), path, ENDINGS["html"])

    def to_svg(self, path: str | os.PathLike[str] | None = None) -> str:
        """The schedule as a Gantt chart, with a frame around what makes the end."""
        from propbench.planning.chart import drawn
        from propbench.outputs import write_as
        from propbench.planning.exports import ENDINGS

        days = min(self.end + _BEHIND, max(self.end, self.staff.days))
        return write_as(f"{drawn(self, {}, days)}\n", path, ENDINGS["svg"])


def _said_of(entry: Entry) -> tuple[object, ...]:
    """What the last columns of a schedule say of a task."""
    days, cost = entry.days, entry.cost or None
    return days, entry.task, entry.people, entry.used, entry.way, cost


def schedule_in(
    network: Network,
    plan: Mapping[str, Point],
    ways: Mapping[str, object],
    why: Mapping[str, Sequence[str]],
) -> Schedule | None:
    """The schedule of a plan, with the alternatives that it takes of choices, and of some cells the
    premises why they are no less; None where a network has no tasks, or those of several projects.
    """
    made = [each for each in network.events if isinstance(each, TaskMade)]
    projects = {id(each.project): each.project for each in made}
    if len(projects) != 1:
        return None
    return schedule_of(made[0].project, plan, ways, why)


def schedule_of(
    project: "Project",
    plan: Mapping[str, Point],
    ways: Mapping[str, object],
    why: Mapping[str, Sequence[str]],
) -> Schedule:
    """The schedule of what a plan says of a project, with the chain where the premises are known
    why it ends no sooner. Raises ValueError where the plan lacks a task."""
    network = project.workbench.network
    tasks = [
        each.task
        for each in network.events
        if isinstance(each, TaskMade) and each.project is project
    ]
    pauses = pauses_by_task(network.events)
    rates = {it: plan[cell.name] for it, cell in rates_of(project, network.events).items()}
    entries = [
        _paid(_entry(task, plan, ways.get(task.name), pauses.get(task, ())), rates)
        for task in tasks
    ]
    believed = set(network.premises.in_force)
    aways = [away for away in aways_of(project, network.events) if away.premise in believed]
    parts = project.people, project.days, project.calendar, tuple(aways)
    staff = Staff(*parts, project.resources)
    made = Schedule(entries, staff, project.cells_told(tasks))
    end = project.end_made
    because = () if end is None else why.get(end.name, ())
    return _chained(project, made, because) if because else made


def _chained(project: "Project", schedule: Schedule, because: Sequence[str]) -> Schedule:
    """The same with the tasks that make the end, by these premises."""
    from propbench.planning.chain import Walk

    walk = Walk(project.workbench.network, project, schedule, because)
    chain = {link.entry.task: link.waits for link in walk.path()}
    return Schedule(schedule.entries, schedule.staff, schedule.told, chain)


def steps_of(plan: object) -> Sequence[Optimum]:
    """The least and greatest values that a result tells, none where it tells none."""
    return plan.steps if isinstance(plan, Optima) else [plan] if isinstance(plan, Optimum) else []


def values_in(
    model: Model, given: Planned | Mapping[str, Point]
) -> tuple[Mapping[str, Point], Mapping[str, object]]:
    """The values in a plan, and which alternatives it takes. Raises TypeError for what is none, and
    ValueError for a result without one."""
    if isinstance(given, Optimum | Optima):
        if given.plan is None:
            raise ValueError(f"there is no plan here: {given.headline()}")
        return given.plan, given.choices
    if isinstance(given, Solution):
        return given, given.choices
    if not isinstance(given, Mapping):
        raise TypeError(f"{given!r} is no plan, as `w.least(p.end)` gives one")
    with suppress(KeyError):
        return given, model.chosen(given)
    return given, {}


def _paid(entry: Entry, rates: Mapping[str, Point]) -> Entry:
    """The same with what is paid by the day for who does it and what it uses."""
    units = {**dict.fromkeys(entry.people, 1), **dict(entry.uses)}
    paid = [int(rates[it]) * entry.days * units[it] for it in entry.needs if it in rates]
    cost = (entry.cost or 0) + sum(paid)
    return replace(entry, cost=cost, paid=sum(paid)) if paid else entry


def _entry(task: Task, plan: Mapping[str, Point], way: object, pauses: Sequence[Paused]) -> Entry:
    """What a plan says of a task."""
    cells = [task.start, task.end, *([] if task.cost is None else [task.cost])]
    if any(cell.name not in plan for cell in cells):
        raise ValueError(f"the plan doesn't say when {printable(task.name)} is done")
    start, end, *cost = (int(plan[cell.name]) for cell in cells)
    told = way if isinstance(way, str) else None
    people = [who for who, cell in task.may.items() if plan.get(cell.name) is True]
    aways = [each.away for each in pauses if plan.get(each.cell.name) is True]
    off = tuple(days_off(aways, start, end))
    does, uses = (*task.people, *people), tuple(task.uses.items())
    return Entry(task.name, does, start, end, told, cost[0] if cost else None, off, uses)
