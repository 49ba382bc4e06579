"""A plan that is made task by task, as planners make one by hand: of the tasks that may begin that
comes first which has the most work behind it, each as soon as there is room for it. Where they only
wait for each other and for what they share, that is done over and over.

Nothing is claimed of it: a program is asked whether it fits, and tells all that is shown.
"""

from collections.abc import Iterator, Sequence
from dataclasses import dataclass, field
from itertools import combinations, islice, product
from weakref import WeakKeyDictionary

from propbench.model.events import Event
from propbench.model.kinds import Point
from propbench.model.network import Network
from propbench.model.nodes import Declared, cells_in
from propbench.model.record import Record
from propbench.planning.order import SetUp
from propbench.planning.packing import Packing
from propbench.planning.resources import KeptWithin
from propbench.planning.tasks import (
    Away,
    KeptApart,
    KeptOff,
    NotYet,
    Task,
    TaskBy,
    TaskDone,
    TaskMade,
    TaskOrdered,
    TaskTold,
    Wished,
)
from propbench.planning.wishes import WorkWished

# Of a project with fewer tasks a program finds plans at once.
_FEWEST = 12
# So many ways to staff a task are tried.
_STAFFINGS = 60
# Longer plans aren't made day by day over and over.
_MOST_DAYS = 20_000
# What was made, by what was stated then.
_made: "WeakKeyDictionary[Record, dict[str, Point]]" = WeakKeyDictionary()


def made_by_hand(network: Network) -> dict[str, Point]:
    """Values of some cells at which a plan may be; none where there are few tasks, and where one
    that is made so doesn't keep to the days that there are."""
    record = network.record
    if record not in _made:
        _made[record] = _made_of(network)
    return dict(_made[record])


def _made_of(network: Network) -> dict[str, Point]:
    found: dict[str, Point] = {}
    for known in _projects(network):
        is_large = len(known.jobs) >= _FEWEST
        places = _packed(known) or _Maker(known).places() if is_large else []
        for place in places or ():
            task = place.task
            found |= {task.start.name: place.start, task.end.name: place.end}
            found |= {task.may[who].name: True for who in place.who if who in task.may}
    return found


# --- what is known ---


@dataclass
class _Work:
    """A task to be placed: the least days that it takes, and those of each where these differ; what
    it waits for; the day before which it doesn't begin, and that on which it did."""

    task: Task
    days: int
    speeds: dict[str, int] = field(default_factory=dict)
    after: list[TaskOrdered] = field(default_factory=list)
    earliest: int = 0
    began: int | None = None
    done: int | None = None
    told: dict[str, bool] = field(default_factory=dict)

    @property
    def waits(self) -> bool:
        """Whether it only waits for others, and all who do it are known."""
        is_open = self.task.groups or self.speeds or self.earliest
        return not is_open and self.began is None and all(it.ready(0, 1) == 1 for it in self.after)

    def needs(self, names: Sequence[str]) -> dict[int, int]:
        """How much it needs of these, who do one thing at a time or are used, by their places."""
        needs = {**dict.fromkeys(self.task.people, 1), **self.task.uses}
        return {place: needs[name] for place, name in enumerate(names) if name in needs}

    def staffings(self) -> Iterator[frozenset[str]]:
        """Who may do it: so many of each group, and nobody for two of them, as it is told."""
        for chosen in product(*(combinations(names, number) for number, names in self.task.groups)):
            who = [name for names in chosen for name in names]
            if len({*who}) == len(who) and all(
                (it in who) == is_so for it, is_so in self.told.items()
            ):
                yield frozenset((*self.task.people, *who))


@dataclass
class _KnownWork:
    """What a project believes: its tasks in so many days, who is away, who does one thing at a
    time, how much there is of what, and the days between kinds of tasks."""

    days: int
    jobs: dict[str, _Work] = field(default_factory=dict)
    starts: dict[Declared, _Work] = field(default_factory=dict)
    lengths: dict[Declared, _Work] = field(default_factory=dict)
    aways: dict[str, list[Away]] = field(default_factory=dict)
    single: set[str] = field(default_factory=set)
    holds: dict[str, int] = field(default_factory=dict)
    setups: dict[str, dict[tuple[str, str], int]] = field(default_factory=dict)

    def packing(self) -> Packing | None:
        """The tasks, where they only wait for each other and for what they share."""
        works = list(self.jobs.values())
        names = [*self.single, *(it for it in self.holds if it not in self.single)]
        holds = [1 if name in self.single else self.holds[name] for name in names]
        uses = [work.needs(names) for work in works]
        places = {name: place for place, name in enumerate(self.jobs)}
        fits = all(need <= holds[it] for each in uses for it, need in each.items())
        is_plain = fits and not self.setups and not self.aways and all(it.waits for it in works)
        if not is_plain or sum(work.days for work in works) > _MOST_DAYS:
            return None
        before = [
            (places[it.earlier.name], place)
            for place, work in enumerate(works)
            for it in work.after
        ]
        return Packing([work.days for work in works], before, holds, uses)

    def take(self, event: Event) -> None:
        """Takes in what is stated."""
        if isinstance(event, TaskMade):
            work = _Work(event.task, min(event.ways, default=0))
            self.jobs[event.task.name] = work
            self.starts[event.task.start.declared] = work
            self.lengths[event.task.days.declared] = work
        elif isinstance(event, TaskTold):
            self._take_told(event)
        elif isinstance(event, TaskBy):
            spoken_of = set(cells_in(event.constraint))
            for who, truth in event.task.may.items():
                if truth.declared in spoken_of:
                    self.jobs[event.task.name].speeds[who] = event.days
        elif isinstance(event, TaskOrdered):
            self.jobs[event.later.name].after.append(event)
        elif isinstance(event, NotYet):
            for cell in cells_in(event.constraint):
                self.starts[cell].earliest = max(self.starts[cell].earliest, event.first)
        else:
            self._take_limits(event)

    def _take_told(self, event: TaskTold) -> None:
        work = self.starts.get(event.cell)
        if isinstance(event, TaskDone) and work is not None:
            work.began = int(event.values[0])
        if event.cell in self.lengths:
            self.lengths[event.cell].days = int(event.values[0])
            self.lengths[event.cell].speeds.clear()
        if isinstance(event, TaskDone):
            self._take_done(self.jobs[event.task], event)

    def _take_done(self, work: _Work, event: TaskDone) -> None:
        """Takes in what is told of what was done, by its ends and by whom."""
        if event.cell is work.task.end.declared:
            work.done = int(event.values[0])
        for who, truth in work.task.may.items():
            if event.cell is truth.declared:
                work.told[who] = event.values[0] is True

    def _take_limits(self, event: Event) -> None:
        if isinstance(event, KeptOff):
            self.aways.setdefault(event.away.person, []).append(event.away)
        elif isinstance(event, KeptApart):
            self.single.add(event.person)
        elif isinstance(event, KeptWithin):
            there = self.holds.get(event.resource, event.holds)
            self.holds[event.resource] = min(event.holds, there)
        elif isinstance(event, WorkWished) and event.task is not None:
            work = self.jobs[event.task]
            if event.person not in work.task.may:
                work.earliest = max(work.earliest, event.first or 0)
        elif isinstance(event, SetUp):
            self.setups.setdefault(event.person, {})[event.kinds] = event.days


def _projects(network: Network) -> list[_KnownWork]:
    """What is known of each project, by what is believed."""
    found: dict[int, _KnownWork] = {}
    believed = {None, *network.premises.in_force}
    for event in network.events:
        project = getattr(event, "project", None)
        if getattr(event, "premise", None) not in believed:
            continue
        if project is not None:
            found.setdefault(id(project), _KnownWork(project.days)).take(event)
        elif isinstance(event, Wished) and event.first is not None:
            for work in (known.jobs.get(str(event.task)) for known in found.values()):
                if work is not None:
                    work.earliest = max(work.earliest, event.first)
    return list(found.values())


# --- placing ---


@dataclass(frozen=True)
class _Place:
    """Where a task is, and who does it."""

    task: Task
    start: int
    end: int
    who: frozenset[str]


def _packed(known: _KnownWork) -> list[_Place] | None:
    """All tasks in their places, the best of many tries; None where they wait for more than each
    other and what they share, or there are not so many days."""
    packing = known.packing()
    starts = None if packing is None else packing.shortest()
    if packing is None or starts is None or packing.end(starts) > known.days:
        return None
    return [
        _Place(work.task, start, start + work.days, frozenset(work.task.people))
        for work, start in zip(known.jobs.values(), starts)
    ]


class _Maker:
    """Places the tasks of a project, one after the other."""

    def __init__(self, known: _KnownWork) -> None:
        self._known = known
        self._placed: dict[str, _Place] = {}
        self._behind = _work_behind(known)

    def places(self) -> list[_Place] | None:
        """All tasks in their places, None where one finds none."""
        waiting = dict(self._known.jobs)
        while waiting:
            ready = [it for it in waiting.values() if self._is_ready(it)]
            if not ready:
                return None
            work = min(ready, key=lambda it: (it.began is None, -self._behind[it.task.name]))
            place = self._place(work)
            if place is None:
                return None
            self._placed[work.task.name] = place
            del waiting[work.task.name]
        return list(self._placed.values())

    def _is_ready(self, work: _Work) -> bool:
        return work.began is not None or all(
            each.earlier.name in self._placed or each.ready(0, 0) is None for each in work.after
        )

    def _place(self, work: _Work) -> _Place | None:
        """The place where a task ends soonest, whoever does it."""
        first = work.earliest
        for each in work.after:
            before = self._placed.get(each.earlier.name)
            ready = None if before is None else each.ready(before.start, before.end)
            first = max(first, ready or 0)
        found: _Place | None = None
        for who in islice(work.staffings(), _STAFFINGS):
            place = self._soonest(work, who, first)
            if place is not None and (found is None or place.end < found.end):
                found = place
        return found

    def _soonest(self, work: _Work, who: frozenset[str], first: int) -> _Place | None:
        """The first place of a task that these do."""
        task, known = work.task, self._known
        days = max((work.speeds[it] for it in who if it in work.speeds), default=work.days)
        aways = [away for name in (*who, *task.uses) for away in known.aways.get(name, ())]
        if work.began is not None:
            end = work.done or _end(task, work.began, days, aways, known.days)
            fits = end is not None and self._has_room(task, work.began, end, who)
            return _Place(task, work.began, end, who) if fits and end is not None else None
        for start in range(first, known.days + 1):
            end = _end(task, start, days, aways, known.days)
            if end is not None and end <= known.days and self._has_room(task, start, end, who):
                return _Place(task, start, end, who)
        return None

    def _has_room(self, task: Task, start: int, end: int, who: frozenset[str]) -> bool:
        """Whether those who do a task are free then, and there is enough of what it uses."""
        for other in self._placed.values():
            shared = {name for name in task.uses if name in other.task.uses}
            for name in (who & other.who) | shared:
                there, back = self._between(name, other.task, task)
                is_apart = other.end + there <= start or end + back <= other.start
                if not is_apart and (name in self._known.single or there or back):
                    return False
        return all(self._has_enough(task, name, start, end) for name in task.uses)

    def _between(self, name: str, one: Task, other: Task) -> tuple[int, int]:
        """The days between two tasks of somebody, or of a machine, in either order."""
        times, kinds = self._known.setups.get(name, {}), (str(one.kind), str(other.kind))
        return times.get(kinds, 0), times.get(kinds[::-1], 0)

    def _has_enough(self, task: Task, name: str, start: int, end: int) -> bool:
        """Whether there is enough of a resource on each day, where it is told how much there is."""
        if name not in self._known.holds:
            return True
        others = [it for it in self._placed.values() if name in it.task.uses]
        begins = {start, *(it.start for it in others if start <= it.start < end)}
        return start == end or all(
            task.uses[name] + sum(it.task.uses[name] for it in others if it.start <= day < it.end)
            <= self._known.holds[name]
            for day in begins
        )


def _work_behind(known: _KnownWork) -> dict[str, int]:
    """The days of each task and of all that waits for it, on the longest way."""
    waits = {
        name: [it.earlier.name for it in work.after if it.ready(0, 0) is not None]
        for name, work in known.jobs.items()
    }
    before = {name: 0 for name in waits}
    for earlier in (it for names in waits.values() for it in names):
        before[earlier] += 1
    found = {name: known.jobs[name].days for name in waits}
    # (from the last ones on; what is in a ring has no plan)
    last = [name for name, number in before.items() if not number]
    while last:
        name = last.pop()
        for earlier in waits[name]:
            found[earlier] = max(found[earlier], known.jobs[earlier].days + found[name])
            before[earlier] -= 1
            last += [] if before[earlier] else [earlier]
    return found


def _end(task: Task, start: int, days: int, aways: Sequence[Away], last: int) -> int | None:
    """When a task ends that begins on a day, with its pauses; None where it can't begin then."""
    off = [away for away in aways if away.last > start]
    if not task.pauses or not days:
        end = start + days
        return end if all(it.first >= end or it.last <= start for it in off) else None
    day, left = start, days
    while left:
        over = [it for it in off if it.first <= day < it.last]
        if any(it.first <= start or it.last >= last for it in over):
            return None
        day = max((it.last for it in over), default=day + 1)
        left -= 0 if over else 1
    return day
