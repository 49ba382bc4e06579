"""Work that pauses while who does it is away: how many days that takes, and what isn't done then.

A truth says of a task and an absence that the task goes on behind it, as it was begun before. Days
of two absences count once. Where an absence is given up the work may pause then, and needn't.
"""

from collections.abc import Callable, Iterable, Iterator, Sequence
from dataclasses import dataclass, replace
from typing import TYPE_CHECKING

from propbench.model.cells import TruthCell
from propbench.model.events import Event, Required
from propbench.model.expressions import Number, Truth, if_else, implies, total
from propbench.model.nodes import TRUE
from propbench.planning.tasks import Away, KeptOff, Task, TaskMade, aways_of

if TYPE_CHECKING:
    from propbench.planning.project import Project


@dataclass(frozen=True)
class Paused(Required):
    """Whether a task pauses through an absence: it is begun before then, and goes on behind."""

    project: "Project"
    task: Task
    away: Away
    cell: TruthCell


@dataclass(frozen=True)
class TaskSpan(Required):
    """How long a task takes with its pauses."""

    project: "Project"
    task: Task


def pauses_of(events: Iterable[Event], task: Task) -> list[Paused]:
    """The pauses that a task may make."""
    return [each for each in events if isinstance(each, Paused) and each.task is task]


def keep_off(
    project: "Project", tasks: Sequence[Task], aways: Sequence[Away], then: Callable[[], None]
) -> None:
    """Has nothing of these tasks be done while who does them is away, and states more then."""
    network = project.workbench.network
    pausing = [task for task in tasks if task.pauses]

    def state() -> None:
        for task in tasks:
            for away in aways:
                if away.person in task.needs:
                    _state_off(project, task, away)
        for task in pausing:
            _state_span(project, task)
        then()

    if pausing:
        network.restate(_without_spans(network.events, pausing), state)
    else:
        network.whole(state)


def state_pauses(project: "Project", task: Task, aways: Sequence[Away]) -> None:
    """The same of a task that is being made."""
    for away in aways:
        _state_off(project, task, away)
    if task.pauses and aways:
        _state_span(project, task)


def span_of(events: Iterable[Event], task: Task) -> Number:
    """How many days a task takes with its pauses."""
    pauses = pauses_of(events, task) if task.pauses else []
    return task.days + _pause(pauses) if pauses else task.days


def _without_spans(events: Iterable[Event], tasks: Sequence[Task]) -> Iterator[Event]:
    """Events without what says how long these tasks take with their pauses."""
    for each in events:
        if isinstance(each, TaskMade) and each.task in tasks:
            yield replace(each, constraint=TRUE)
        elif not (isinstance(each, TaskSpan) and each.task in tasks):
            yield each


def _state_off(project: "Project", task: Task, away: Away) -> None:
    """Nothing of a task is done during an absence: it pauses then where it may."""
    apart = (task.end <= away.first) | (task.start >= away.last)
    by = task.may.get(away.person)
    if task.pauses and 0 < away.first and away.last < project.days:
        cell = project.workbench.truth(_unused(project, f"{task.name} waits for {away}"))
        within = (task.start < away.first) & (task.end > away.last)
        says = implies(cell, within if by is None else within & by)
        project.workbench.network.do(Paused(says.node, None, project, task, away, cell))
        apart = cell | apart
    project.state(KeptOff(_for(by, apart).node, away.premise, away, project))


def _for(by: Truth | None, holds: Truth) -> Truth:
    """What holds where somebody does a task, who may or does."""
    return holds if by is None else implies(by, holds)


def _unused(project: "Project", name: str) -> str:
    while name in project.workbench.network.cells:
        name += "'"
    return name


def _state_span(project: "Project", task: Task) -> None:
    """A task ends when its days are over, and its pauses."""
    network = project.workbench.network
    pauses = pauses_of(network.events, task)
    ends = task.end == task.start + task.days + _pause(pauses)
    network.do(TaskSpan(ends.node, None, project, task))


def _pause(pauses: Sequence[Paused]) -> Number | int:
    """How many days a task pauses in all."""
    days: dict[tuple[int, ...], int] = {}
    for first, last in pieces([each.away for each in pauses]):
        over = tuple(
            place
            for place, each in enumerate(pauses)
            if each.away.first <= first and last <= each.away.last
        )
        days[over] = days.get(over, 0) + last - first
    parts = [
        if_else(_any([pauses[it].cell for it in over]), days[over], 0) for over in days if over
    ]
    return total(parts) if parts else 0


def _any(truths: Sequence[Truth]) -> Truth:
    found = truths[0]
    for truth in truths[1:]:
        found = found | truth
    return found


def pieces(aways: Iterable[Away]) -> Iterator[tuple[int, int]]:
    """The days from each end of an absence to the next."""
    ends = sorted({end for away in aways for end in (away.first, away.last)})
    yield from zip(ends, ends[1:])


def days_off(aways: Iterable[Away], start: int, end: int) -> list[tuple[int, int]]:
    """The days within others on which somebody is away, those that touch as one."""
    found: list[tuple[int, int]] = []
    for away in sorted(aways, key=lambda each: each.first):
        first, last = max(start, away.first), min(end, away.last)
        if first >= last:
            continue
        if found and first <= found[-1][1]:
            found[-1] = found[-1][0], max(last, found[-1][1])
        else:
            found.append((first, last))
    return found


def days_worked(
    project: "Project", task: Task, days: tuple[int, int], people: Iterable[str] = ()
) -> int:
    """How many of some days a task was worked on by the people who do it in any case, and these."""
    believed, needs = set(project.workbench.believed), {*task.people, *task.uses, *people}
    aways = [
        each
        for each in aways_of(project, project.workbench.network.events)
        if each.premise in believed and each.person in needs and task.pauses
    ]
    start, end = days
    return end - start - sum(last - first for first, last in days_off(aways, start, end))


def pauses_by_task(events: Iterable[Event]) -> dict[Task, list[Paused]]:
    """The pauses of all tasks that may make some."""
    found: dict[Task, list[Paused]] = {}
    for each in events:
        if isinstance(each, Paused):
            found.setdefault(each.task, []).append(each)
    return found
