"""How far the work is: what was done when, and that nothing else begins before today."""

from collections.abc import Sequence
from dataclasses import dataclass
from typing import TYPE_CHECKING, SupportsIndex

from propbench.model.cells import Cell, NumberCell
from propbench.model.given import values_of
from propbench.model.nodes import TRUE
from propbench.planning.bounds import state_bounds_from
from propbench.planning.pausing import days_worked
from propbench.planning.tasks import (
    NotYet,
    Task,
    TaskBegun,
    TaskBy,
    TaskDone,
    TaskMade,
    TaskTold,
)
from propbench.questions.shown import listed
from propbench.showing import printable

if TYPE_CHECKING:
    from propbench.planning.project import Project


@dataclass(frozen=True)
class DoneBy:
    """The premise by which something is said of a task, and who did it, where that is told."""

    premise: str
    people: tuple[str, ...] | None


def state_done(project: "Project", task: Task, days: tuple[int, int], by: DoneBy) -> None:
    """A task was done from the beginning of one day to that of another, however long it was to
    take. Raises ValueError where it can't have been."""
    first, last = days
    _check(project, first, last)
    if last < first:
        raise ValueError(f"{task.name}: it can't be over before it begins")
    worked = days_worked(project, task, (first, last), by.people or ())
    told = _Said(TaskDone, ((task.start, first), (task.end, last)), by)
    _state(project, task, worked, told)


def state_progress(
    project: "Project", task: Task, left: int, began: int | None, by: DoneBy
) -> None:
    """A task that began on a day has so many days of work left from today on. Raises ValueError
    where that can't be, and TypeError for days that are no whole number."""
    today = today_of(project)
    if not isinstance(left, SupportsIndex):
        raise TypeError(f"{printable(task.name)}: {left!r} days are no whole number")
    if int(left) < 0:
        raise ValueError(f"{printable(task.name)}: no days left are less than none")
    if today is None:
        raise ValueError("say first what day it is, by p.today(..)")
    first = today[0] if began is None else began
    _check(project, first)
    if first > today[0]:
        raise ValueError(f"{printable(task.name)}: it can't be under way before it begins")
    days = days_worked(project, task, (first, today[0]), by.people or ()) + int(left)
    _state(project, task, days, _Said(TaskBegun, ((task.start, first), (task.days, days)), by))


@dataclass(frozen=True)
class _Said:
    """What is told of a task: of which sort that is, cells with their values, and by whom."""

    sort: type[TaskDone]
    numbers: tuple[tuple[NumberCell, int], ...]
    by: DoneBy


def _state(project: "Project", task: Task, days: int, said: _Said) -> None:
    """States how it is with a task that takes so many days, in place of what was planned, and of
    what was said of it before while it was under way."""
    w, today = project.workbench, today_of(project)
    for person in said.by.people or ():
        if person not in task.doers:
            raise ValueError(f"{printable(task.name)}: {person!r} is none of those who may do it")
    begun = [it for it in _of_progress(project) if it.task == task.name]
    if any(not isinstance(it, TaskBegun) for it in begun):
        raise ValueError(
            f"{printable(task.name)} was done already: forget the premise of that first"
        )
    other = _planned(project, task, days)
    gone = [*other, *dict.fromkeys(str(it.premise) for it in begun)]
    if said.by.premise in gone:
        raise ValueError(f"{said.by.premise!r} says what was before: give this another name")
    back = [it for it in _out_by(project, task, begun) if it not in other]
    kicked = [name for name in gone if name in w.believed]
    try:
        for name in kicked:
            w.kick(name)
        for name in back:
            w.bring(name)
        w.network.whole(lambda: _tell(project, task, said))
    except BaseException:
        for name in back:
            w.kick(name)
        for name in kicked:
            w.bring(name)
        raise
    if today is not None:
        state_today(project, *today)


def _tell(project: "Project", task: Task, said: _Said) -> None:
    w, people = project.workbench, said.by.people
    w.network.premises.check(said.by.premise)
    told: list[tuple[Cell, object]] = [*said.numbers]
    if people is not None:
        told += [(cell, person in people) for person, cell in task.may.items()]
    for cell, value in told:
        values = values_of(cell.declared, value)
        w.network.do(said.sort(cell.declared, values, said.by.premise, project, task.name))


def _planned(project: "Project", task: Task, days: int) -> list[str]:
    """The premises that say something else of how long a task takes. Raises ValueError where such a
    one says more, and where none of the ways of a task takes so long."""
    w = project.workbench
    told = [
        each
        for each in w.network.events
        if isinstance(each, TaskTold) and each.cell is task.days.declared
        if not isinstance(each, TaskDone)
    ]
    [made] = [it for it in w.network.events if isinstance(it, TaskMade) and it.task is task]
    if len(made.ways) > 1 and days not in made.ways:
        ways = listed([str(each) for each in made.ways], "or")
        raise ValueError(f"{printable(task.name)} takes {ways} days, and can't have taken {days}")
    others = [each.premise for each in told if each.values != (days, days) and each.premise]
    by = [it for it in w.network.events if isinstance(it, TaskBy) and it.task is task]
    if by and days not in [it.days for it in by]:
        others += dict.fromkeys(it.premise for it in by if it.premise)
    for name in others:
        stated = w.network.premises.statements[name]
        if any(it not in told and it not in by for it in stated):
            raise ValueError(
                f"{name!r} says more than how long {printable(task.name)} takes: forget it first"
            )
    return [name for name in others if name]


def _out_by(project: "Project", task: Task, begun: Sequence[TaskDone]) -> list[str]:
    """The premises that are out since what was said of a task while it was under way."""
    days = [int(it.values[0]) for it in begun if it.cell is task.days.declared]
    names = [name for each in days for name in _planned(project, task, each)]
    believed = set(project.workbench.believed)
    return [name for name in dict.fromkeys(names) if name not in believed]


def today_of(project: "Project") -> tuple[int, str] | None:
    """Today, and its premise, where that is stated and believed."""
    w = project.workbench
    for each in w.network.events:
        if isinstance(each, NotYet) and each.project is project and each.premise in w.believed:
            return each.first, str(each.premise)
    return None


def state_today(project: "Project", day: int, premise: str) -> None:
    """What isn't done begins on a day or later, which takes the place of an earlier such day."""
    w, before = project.workbench, today_of(project)
    _check(project, day)
    w.network.premises.check(premise)
    for name in {premise, *([before[1]] if before else [])}:
        stated = w.network.premises.statements.get(name, ())
        if not all(isinstance(each, NotYet) and each.project is project for each in stated):
            raise ValueError(f"{name!r} says more than what day it is: give that a name of its own")
    done = tasks_done(project)
    written = f"what isn't done begins {project.day_said(day)} or later"

    def state() -> None:
        # (where all is done or under way, it is known what day it is)
        said = NotYet(TRUE, premise, project, written, day)
        w.network.do(said)
        for name, task in project.tasks.items():
            if name not in done:
                node = (task.start >= day).node
                w.network.do(NotYet(node, premise, project, written, day))
        state_bounds_from(project, said)

    if before is not None and before[1] == premise:
        w.forget(premise)
    w.network.whole(state)
    if before is not None and before[1] != premise:
        w.forget(before[1])


def _check(project: "Project", *days: int) -> None:
    """Raises ValueError for a day that the plan doesn't have."""
    for day in days:
        if not 0 <= day <= project.days:
            raise ValueError(f"the plan has the days 0 to {project.days}, and no day {day}")


def tasks_done(project: "Project") -> set[str]:
    """The tasks that were done, or are under way, by premises that are believed."""
    return {each.task for each in _of_progress(project)}


def _of_progress(project: "Project") -> list[TaskDone]:
    """What is said of tasks that were done, or are under way, by premises that are believed."""
    believed = set(project.workbench.believed)
    return [
        each
        for each in project.workbench.network.events
        if isinstance(each, TaskDone) and each.project is project and each.premise in believed
    ]
