"""Why a plan ends no sooner: the tasks, people and absences that make its end, in order, and how
much room the other tasks have."""

from collections.abc import Callable, Iterable, Iterator, Mapping, Sequence
from dataclasses import dataclass
from typing import TYPE_CHECKING

from propbench.model.cells import NumberCell
from propbench.model.events import Statement
from propbench.model.network import Network
from propbench.model.nodes import Declared
from propbench.planning.order import SetUp
from propbench.planning.resources import KeptWithin
from propbench.planning.rooms import ends_found
from propbench.planning.schedule import Entry, Schedule
from propbench.planning.tasks import (
    Away,
    KeptApart,
    KeptOff,
    NotYet,
    TaskBy,
    TaskOrdered,
    TaskTold,
    Wished,
)
from propbench.questions.bounding import Optimum
from propbench.questions.clock import Clock
from propbench.questions.leaving import why_not_beyond
from propbench.questions.model import GREATEST, LEAST
from propbench.questions.shown import NOT_REFUTED, Shown, listed
from propbench.showing import printable
from propbench.tables import table

if TYPE_CHECKING:
    from propbench.planning.project import Project


@dataclass(frozen=True)
class Link:
    """A task of the chain, what it waits for, in words, and the tasks `after` which it begins, some
    since somebody is `busy` with them."""

    entry: Entry
    words: tuple[str, ...]
    after: tuple[str, ...] = ()
    busy: tuple[str, ...] = ()

    @property
    def waits(self) -> str:
        """What it waits for, in a text."""
        return "; ".join(self.words)


class _Waits:
    """What a task waits for: in words, the tasks among that, and who is busy with some."""

    def __init__(self) -> None:
        self.words: list[str] = []
        self.before: list[Entry] = []
        self.busy: list[str] = []

    def link(self, entry: Entry) -> Link:
        """The link of the task."""
        after = tuple(each.task for each in self.before)
        return Link(entry, tuple(dict.fromkeys(self.words)), after, tuple(self.busy))


@dataclass(frozen=True)
class TaskRoom:
    """The days within which a task is done, and the last on which it begins."""

    first: int
    last: int
    latest: int


@dataclass(frozen=True)
class Reasons:
    """Premises because of which nothing ends before the day `value`; none of them can be left out
    where they are `least`."""

    value: int
    premises: tuple[str, ...]
    least: bool


class Chain(Shown):
    """What makes the end of a plan: `links` in order, and `premises` because of which nothing ends
    sooner, none of which can be left out where it is `complete`. `rooms` are the days that each
    other task can move, in plans that end as soon, as far as there was time to find them."""

    _certificate = None

    def __init__(
        self,
        schedule: Schedule,
        links: Sequence[Link],
        reasons: Reasons,
        others: Sequence[str],
        rooms: Mapping[str, TaskRoom],
    ) -> None:
        """The chain in a schedule, with premises that are no task's and nobody's."""
        self.schedule, self.links = schedule, tuple(links)
        self.reasons, self.others = reasons, tuple(others)
        self._windows = dict(rooms)
        self.complete = reasons.least and len(rooms) == len(self._left())

    @property
    def premises(self) -> tuple[str, ...]:
        """Because of which the plan ends no sooner."""
        return self.reasons.premises

    @property
    def tasks(self) -> tuple[str, ...]:
        """The tasks of the chain, in order."""
        return tuple(link.entry.task for link in self.links)

    @property
    def rooms(self) -> dict[str, int]:
        """The days that each other task can move while all ends as soon."""
        return {
            entry.task: self._windows[entry.task].latest - self._windows[entry.task].first
            for entry in self._left()
            if entry.task in self._windows
        }

    def _left(self) -> list[Entry]:
        """The tasks that are not in the chain."""
        return [entry for entry in self.schedule.by_date() if entry.task not in self.tasks]

    def headline(self) -> str:
        when = self.schedule.end_said()
        why = "" if self.reasons.least else f" (that less would do is {NOT_REFUTED})"
        return f"All is done {when}, and no sooner because of{why}:"

    def heads(self) -> Sequence[str]:
        return (*self.schedule.heads()[:2], "task", "who", "waits for")

    def rows(self) -> Sequence[Sequence[object]]:
        return [
            (*self.schedule.ends(link.entry), link.entry.task, link.entry.people, link.waits)
            for link in self.links
        ]

    def __str__(self) -> str:
        lines = [super().__str__()]
        if self.others:
            lines.append(f"and of {listed(self.others)}.")
        if left := list(self._rooms_told()):
            lines.append("The others can move:")
            lines.append(table(("task", "days", "within"), left, "  "))
        return "\n".join(lines)

    def _rooms_told(self) -> Iterator[tuple[str, str, str]]:
        for task, room in self.rooms.items():
            window = self._windows[task]
            yield task, str(room), self.schedule.days_said(window.first, window.last)


def chain_of(project: "Project", schedule: Schedule, clock: Clock) -> Chain:
    """What makes the end of a schedule that ends soonest, as far as there is time; half of it is
    for the rooms. Raises ValueError where there is one that ends sooner."""
    w, left = project.workbench, clock.seconds_left()
    half = Clock(None if left is None else left / 2, clock.progress)
    reasons = reasons_of(project, schedule.end, half)
    links = list(Walk(w.network, project, schedule, reasons.premises).links())
    on_it = {link.entry.task for link in links}
    others = [entry.task for entry in schedule.entries if entry.task not in on_it]
    rooms = _rooms(project, others, schedule.end, clock)
    wishes = [it for it in reasons.premises if not _is_own(w.network, project, it)]
    return Chain(schedule, links, reasons, wishes, rooms)


def reasons_of(project: "Project", value: int, clock: Clock) -> Reasons:
    """Premises because of which nothing ends before a day: each is left out in turn, as far as
    there is time. Raises ValueError where something does."""
    if value == 0:
        return Reasons(value, (), True)
    because = why_not_beyond(project.workbench.model, project.end.name, LEAST, value, clock)
    if because is None:
        raise ValueError(f"there is a plan that ends before day {value}: ask why of that")
    return Reasons(value, because.premises, because.is_least)


def _rooms(
    project: "Project", tasks: Sequence[str], value: int, clock: Clock
) -> dict[str, TaskRoom]:
    """The room of each of these tasks in plans that end by a day, as far as there is time to find
    it."""
    name = project.unused("all ends as soon")
    wanted = dict[str, list[tuple[str, str]]]()
    for task in (project.tasks[it] for it in tasks):
        ends = (task.start.name, LEAST), (task.end.name, GREATEST), (task.start.name, GREATEST)
        wanted[task.name] = list(ends)
    with project.workbench.what_if(tell=[(name, project.end, 0, value)]):
        return {it: TaskRoom(*ends) for it, ends in ends_found(project, wanted, clock).items()}


def _is_own(network: Network, project: "Project", premise: str) -> bool:
    """Whether what is stated under a premise is all of tasks and people."""
    stated = network.premises.statements[premise]
    kinds = TaskTold, TaskBy, TaskOrdered, KeptApart, KeptOff, KeptWithin, SetUp
    return all(isinstance(each, kinds) and each.project is project for each in stated)


class Walk:
    """The way back from the end of a schedule, from each task to what ends when it starts, by what
    these premises say."""

    def __init__(
        self, network: Network, project: "Project", schedule: Schedule, premises: Sequence[str]
    ) -> None:
        self._stated = [
            each for name in premises for each in network.premises.statements.get(name, ())
        ]
        self._schedule, self._tasks = schedule, project.tasks
        self._entries = {entry.task: entry for entry in schedule.entries}
        self._busy = {it.person for it in self._stated if isinstance(it, KeptApart)}
        self._full = {it.resource for it in self._stated if isinstance(it, KeptWithin)}
        found = [it for it in self._stated if isinstance(it, SetUp) and it.days]
        self._setups = dict.fromkeys((it.person, it.kinds, it.days) for it in found)
        # (a task of which no premise here says how long it takes keeps nobody busy)
        told = _lengths_in(it for stated in network.premises.statements.values() for it in stated)
        named = self._named()
        lengths = {name: task.days.declared for name, task in self._tasks.items()}
        self._lasting = [
            entry
            for entry in schedule.entries
            if entry.task in named or lengths.get(entry.task) not in told
        ]

    def links(self) -> Iterator[Link]:
        """The tasks of the chain, by their first days, and those of which nothing but the length
        has a part in it."""
        alone = [self._entries[task] for task in self._named() if self._is_told_alone(task)]
        yield from self._behind([*self._last(), *alone])

    def path(self) -> list[Link]:
        """The tasks by which one comes from the end to the first day, or to what a task waits for
        beside others; or all links, where this plan has gaps."""
        found = list(self._behind(self._last()))
        is_whole = all(it.words or not it.entry.start for it in found)
        return found if is_whole else list(self.links())

    def _last(self) -> list[Entry]:
        """The tasks with which all ends."""
        last = [entry for entry in self._entries.values() if entry.end == self._schedule.end]
        named = self._named()
        return [entry for entry in last if entry.task in named] or last[:1]

    def _behind(self, waiting: list[Entry]) -> Iterator[Link]:
        """These tasks and all that they wait for, by their first days."""
        seen: dict[str, Link] = {}
        while waiting:
            entry = waiting.pop()
            if entry.task not in seen:
                waits = self._before(entry)
                seen[entry.task] = waits.link(entry)
                waiting += waits.before
        for entry in self._schedule.by_date():
            if entry.task in seen:
                yield seen[entry.task]

    def _named(self) -> dict[str, None]:
        """The tasks that the premises speak of."""
        cells = {task.days.declared: name for name, task in self._tasks.items()}
        found: dict[str, None] = {}
        for each in self._stated:
            if isinstance(each, TaskTold) and each.cell in cells:
                found[cells[each.cell]] = None
            elif isinstance(each, TaskBy):
                found[each.task.name] = None
            elif isinstance(each, TaskOrdered):
                found |= {each.earlier.name: None, each.later.name: None}
        return found

    def _is_told_alone(self, task: str) -> bool:
        """Whether a premise says nothing but how long a task takes: so that is a reason."""
        days = self._tasks[task].days.declared
        told = [it.premise for it in self._stated if isinstance(it, TaskTold) and it.cell is days]
        count = [it.premise for it in self._stated]
        return any(count.count(premise) == 1 for premise in told)

    def _before(self, entry: Entry) -> _Waits:
        """What a task waits for."""
        waits = _Waits()
        for each in self._stated:
            if isinstance(each, TaskOrdered) and each.later.name == entry.task:
                other = self._entries[each.earlier.name]
                if each.ready(other.start, other.end) == entry.start:
                    self._take(other, "", entry, waits)
        for person in (it for it in entry.people if it in self._busy):
            for other in self._lasting:
                if person in other.people and other.start < other.end == entry.start:
                    self._take(other, person, entry, waits)
        self._wait_for_room(entry, waits)
        self._wait_for_setups(entry, waits)
        for away in dict.fromkeys([*self._aways(entry), *self._breaks(entry)]):
            days = self._schedule.days_said(away.first, away.last)
            waits.words.append(f"{printable(away.person)}, away {days}")
        for each in self._stated:
            if isinstance(each, NotYet | Wished) and each.first == entry.start:
                if isinstance(each, NotYet) or each.speaks_of(entry.task, entry.needs):
                    waits.words.append(printable(str(each.premise)))
        return waits

    def _wait_for_room(self, entry: Entry, into: _Waits) -> None:
        """Takes in the tasks that leave no room for this one until it begins."""
        for resource in (name for name, _ in entry.uses if name in self._full):
            for other in self._lasting:
                if resource in other.needs and other.start < other.end == entry.start:
                    if other.task != entry.task and other not in into.before:
                        into.words.append(printable(f"{resource}, used by {other.task}"))
                        into.before.append(other)

    def _wait_for_setups(self, entry: Entry, into: _Waits) -> None:
        """Takes in the tasks behind which somebody is set up for this one."""
        tasks = self._tasks
        for person, kinds, days in (it for it in self._setups if it[0] in entry.needs):
            for other in (it for it in self._lasting if person in it.needs):
                is_so = (tasks[other.task].kind, tasks[entry.task].kind) == kinds
                if is_so and other.end + days == entry.start and other not in into.before:
                    into.words.append(printable(f"{person}, set up behind {other.task}"))
                    into.before.append(other)

    def _take(self, other: Entry, person: str, entry: Entry, into: _Waits) -> None:
        """Takes in a task that another waits for, or for its person."""
        if other.task != entry.task and other not in into.before:
            told = f"{person}, busy with {other.task}" if person else other.task
            into.words.append(printable(told))
            into.before.append(other)
            into.busy += [person] if person else []

    def _breaks(self, entry: Entry) -> list[Away]:
        """The absences through which a task pauses."""
        found = dict.fromkeys(it.away for it in self._stated if isinstance(it, KeptOff))
        within = [it for it in found if any(a <= it.first < b for a, b in entry.pauses)]
        return [it for it in within if it.person in entry.needs]

    def _aways(self, entry: Entry) -> list[Away]:
        found = dict.fromkeys(it.away for it in self._stated if isinstance(it, KeptOff))
        return [it for it in found if it.person in entry.needs and it.last == entry.start]


def _lengths_in(stated: Iterable[Statement]) -> set[Declared]:
    """The cells of the lengths that these say."""
    found: set[Declared] = set()
    for each in stated:
        if isinstance(each, TaskTold):
            found.add(each.cell)
        elif isinstance(each, TaskBy):
            found.add(each.task.days.declared)
    return found
