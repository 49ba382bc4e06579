"""What makes a project of a file's events: notes beside them, which say of what is stated which
task it is about, who is away, what was wished for."""

from collections.abc import Callable, Mapping, Sequence
from datetime import date
from typing import TYPE_CHECKING, Any

from propbench.model.cells import NumberCell, TruthCell
from propbench.model.events import Event, Required, Told
from propbench.model.kinds import Plain
from propbench.model.nodes import Declared
from propbench.planning.calendar import Calendar
from propbench.planning.order import SetUp, TaskLagged
from propbench.planning.pausing import Paused, TaskSpan
from propbench.planning.project import Project
from propbench.planning.resources import KeptWithin
from propbench.planning.schedule import Entry, Schedule, Staff
from propbench.planning.tasks import (
    Away,
    KeptApart,
    KeptOff,
    NotYet,
    Rate,
    Task,
    TaskBegun,
    TaskBy,
    TaskDone,
    TaskMade,
    TaskOrdered,
    TaskTold,
    Wished,
)
from propbench.planning.wishes import WorkWished

if TYPE_CHECKING:
    from propbench.workbench import Workbench

# What JSON gives may be anything: what has another form than a note raises as it is read.
Note = Mapping[str, Any]


class Notes:
    """Notes of events, one after the other. The first of a project has what that is."""

    def __init__(self) -> None:
        self._known: list[Project] = []

    def of(self, event: Event) -> dict[str, object] | None:
        """The note of an event, None of one that is no project's."""
        parts = _parts(event)
        if parts is None:
            return None
        project = project_of(event)
        if project is not None:
            is_new = all(each is not project for each in self._known)
            self._known += [project] if is_new else []
            parts["of"] = [each is project for each in self._known].index(True)
            parts |= {"project": _project_parts(project)} if is_new else {}
        return parts


def project_of(event: Event) -> Project | None:
    """The project of an event, None where it is none's."""
    project = getattr(event, "project", None)
    return project if isinstance(project, Project) else None


def _project_parts(project: Project) -> dict[str, object]:
    calendar = project.calendar
    dates = None
    if calendar is not None:
        off = sorted(each.isoformat() for each in calendar.dates_off)
        dates = [calendar.start.isoformat(), sorted(calendar.weekdays_off), off]
    return {
        "days": project.days,
        "people": project.people,
        "dates": dates,
        "skills": project.staffing.skills,
        "goals": project.goals_made,
        **_baseline_parts(project.baseline),
    }


def _baseline_parts(baseline: Schedule | None) -> dict[str, object]:
    """What was agreed on, where something was."""
    if baseline is None:
        return {}
    aways = [_away_parts(each) for each in baseline.staff.aways]
    return {"baseline": [[vars(each) for each in baseline.entries], aways]}


def _baseline(parts: Note, project: Project, resources: Mapping[str, int]) -> Schedule:
    """The schedule that was agreed on."""
    entries, aways = parts["baseline"]
    away = tuple(Away(*each) for each in aways)
    staff = Staff(project.people, project.days, project.calendar, away, resources)
    return Schedule([_entry(each) for each in entries], staff)


def _entry(parts: Note) -> Entry:
    """A task of that schedule."""
    several = {key: tuple(parts[key]) for key in ("people",)}
    several |= {key: tuple(map(tuple, parts[key])) for key in ("pauses", "uses")}
    return Entry(**{**parts, **several})


def _parts(event: Event) -> dict[str, object] | None:
    """What a note says of an event, by its sort."""
    if isinstance(event, TaskMade):
        return {"is": "task", "ways": event.ways, **_task_parts(event.task)}
    if isinstance(event, Told):
        return _told_parts(event)
    if isinstance(event, Wished):
        return _wish_parts(event)
    if isinstance(event, KeptApart):
        return {"is": "apart", "person": event.person}
    if isinstance(event, KeptWithin):
        return {"is": "within", "resource": event.resource, "holds": event.holds}
    if isinstance(event, SetUp):
        return {"is": "setup", "person": event.person, "kinds": event.kinds, "days": event.days}
    if isinstance(event, KeptOff):
        return {"is": "off", "away": _away_parts(event.away)}
    return _order_parts(event)


def _wish_parts(event: Wished) -> dict[str, object]:
    """The same of what is wished for."""
    says = [event.written, event.task, event.first, event.weight]
    if isinstance(event, WorkWished):
        return {"is": "work wish", "says": says, "person": event.person, "last": event.last}
    return {"is": "wish", "says": says}


def _order_parts(event: Event) -> dict[str, object] | None:
    """The same of what is stated of tasks alone."""
    if isinstance(event, TaskOrdered):
        tasks = [event.earlier.name, event.later.name]
        if isinstance(event, TaskLagged):
            return {"is": "lag", "tasks": tasks, "least": event.least, "from": event.of}
        return {"is": "order", "tasks": tasks}
    if isinstance(event, Paused):
        away = _away_parts(event.away)
        return {"is": "pause", "task": event.task.name, "away": away, "cell": event.cell.name}
    if isinstance(event, TaskSpan):
        return {"is": "span", "task": event.task.name}
    if isinstance(event, TaskBy):
        return {"is": "by", "task": event.task.name, "days": event.days, "says": event.written}
    if isinstance(event, NotYet):
        return {"is": "today", "says": event.written, "first": event.first}
    return None


def _told_parts(event: Told) -> dict[str, object] | None:
    if isinstance(event, TaskDone):
        return {"is": "begun" if isinstance(event, TaskBegun) else "done", "task": event.task}
    if isinstance(event, Rate):
        return {"is": "rate", "name": event.name}
    return {"is": "told"} if isinstance(event, TaskTold) else None


def _task_parts(task: Task) -> dict[str, object]:
    cells = [task.start.name, task.end.name, task.days.name]
    return {
        "name": task.name,
        "people": task.people,
        "cells": [*cells, *([] if task.cost is None else [task.cost.name])],
        "pauses": task.pauses,
        "may": {person: cell.name for person, cell in task.may.items()},
        "kind": task.kind,
        "uses": dict(task.uses),
        "roles": [[place, who, cell.name] for (place, who), cell in task.roles.items()],
        "groups": task.groups,
    }


def _away_parts(away: Away) -> list[object]:
    return [away.person, away.first, away.last, away.premise, away.written, away.is_usual]


class Restored:
    """Makes the events of a project of those that a file has, by their notes."""

    def __init__(self, workbench: "Workbench") -> None:
        self._workbench = workbench
        self._projects: list[tuple[Project, Note]] = []
        self._tasks: dict[tuple[int, str], Task] = {}
        self._required: dict[str, Callable[[Required, Note], Required]] = {
            "task": self._task_made,
            "wish": lambda it, note: Wished(*_wished(it, note)),
            "work wish": lambda it, note: WorkWished(
                *_wished(it, note), self._own(note), note["person"], note["last"]
            ),
            "apart": lambda it, note: KeptApart(*_under(it), note["person"], self._own(note)),
            "within": lambda it, note: KeptWithin(
                *_under(it), note["resource"], note["holds"], self._own(note)
            ),
            "setup": lambda it, note: SetUp(
                *_under(it), self._own(note), note["person"], _two(note["kinds"]), note["days"]
            ),
            "off": lambda it, note: KeptOff(*_of(it), Away(*note["away"]), self._own(note)),
            "order": lambda it, note: TaskOrdered(*_of(it), self._own(note), *self._two(note)),
            "lag": lambda it, note: TaskLagged(
                *_of(it), self._own(note), *self._two(note), note["least"], note["from"]
            ),
            "pause": self._paused,
            "span": lambda it, note: TaskSpan(*_of(it), self._own(note), self._named(note)),
            "by": lambda it, note: TaskBy(
                *_of(it), self._own(note), self._named(note), note["days"], note["says"]
            ),
            "today": lambda it, note: NotYet(
                *_of(it), self._own(note), note["says"], note["first"]
            ),
        }

    def event(self, event: Event, note: Note | None) -> Event:
        """The event that a file means. Raises KeyError, TypeError or ValueError for a note that is
        none."""
        if note is None:
            return event
        if "project" in note:
            self._make(note["project"])
        if isinstance(event, Told):
            return self._told(event, note)
        if not isinstance(event, Required):
            raise ValueError("a note is of what is stated")
        return self._required[note["is"]](event, note)

    def finish(self) -> None:
        """Has projects know the cells of their goals."""
        for project, parts in self._projects:
            goals = [None if it is None else self._number(it) for it in parts["goals"]]
            project.goals_are(goals)
            if "baseline" in parts:
                project.agree(_baseline(parts, project, project.resources))

    def _make(self, parts: Note) -> None:
        calendar = None
        if parts["dates"] is not None:
            start, weekdays, dates = parts["dates"]
            off = frozenset(map(date.fromisoformat, dates))
            calendar = Calendar(date.fromisoformat(start), frozenset(weekdays), off)
        skills = {person: tuple(has) for person, has in parts["skills"].items()}
        made = Project(self._workbench, parts["days"], tuple(parts["people"]), calendar, skills)
        self._projects.append((made, parts))

    def _own(self, note: Note) -> Project:
        return self._projects[note["of"]][0]

    def _named(self, note: Note) -> Task:
        return self._tasks[note["of"], note["task"]]

    def _two(self, note: Note) -> tuple[Task, Task]:
        first, second = (self._tasks[note["of"], name] for name in note["tasks"])
        return first, second

    def _number(self, name: str) -> NumberCell:
        return NumberCell(self._declared(name, Plain.NUMBER), self._workbench)

    def _truth(self, name: str) -> TruthCell:
        return TruthCell(self._declared(name, Plain.TRUTH), self._workbench)

    def _declared(self, name: str, kind: Plain) -> Declared:
        found = self._workbench.network.cells[name]
        if found.kind is not kind:
            raise ValueError(f"{name} is of another kind")
        return found

    def _task_made(self, event: Required, note: Note) -> Required:
        start, end, days, *cost = map(self._number, note["cells"])
        task = Task(
            note["name"],
            tuple(note["people"]),
            start,
            end,
            days,
            cost[0] if cost else None,
            note["pauses"],
            {person: self._truth(cell) for person, cell in note["may"].items()},
            note["kind"],
            dict(note["uses"]),
            {(place, who): self._truth(cell) for place, who, cell in note["roles"]},
            _groups(note),
        )
        self._tasks[note["of"], task.name] = task
        return TaskMade(*_of(event), task, self._own(note), tuple(note["ways"]))

    def _paused(self, event: Required, note: Note) -> Required:
        away, cell = Away(*note["away"]), self._truth(note["cell"])
        return Paused(*_of(event), self._own(note), self._named(note), away, cell)

    def _told(self, event: Told, note: Note) -> Told:
        own = event.cell, event.values, event.premise, self._own(note)
        if note["is"] in ("done", "begun"):
            return (TaskBegun if note["is"] == "begun" else TaskDone)(*own, note["task"])
        return Rate(*own, note["name"]) if note["is"] == "rate" else TaskTold(*own)


def _of(event: Required) -> tuple[Any, str | None]:
    return event.constraint, event.premise


def _under(event: Required) -> tuple[Any, str]:
    if event.premise is None:
        raise ValueError("this is stated under a premise")
    return event.constraint, event.premise


def _wished(event: Required, note: Note) -> tuple[Any, str, str, str | None, int | None, float]:
    written, task, first, weight = note["says"]
    return *_under(event), written, task, first, weight


def _groups(note: Note) -> tuple[tuple[int, tuple[str, ...]], ...]:
    """How many of which others do a task. (An older file says how many alone.)"""
    if "groups" in note:
        return tuple((int(number), tuple(names)) for number, names in note["groups"])
    return ((note["number"], tuple(note["may"])),) if note["number"] else ()


def _two(names: Sequence[str]) -> tuple[str, str]:
    one, other = names
    return one, other
