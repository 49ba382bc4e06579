"""What is wished for by days: that all, a task, or what somebody does, is done before a day, begins
after it or on it, or isn't done on it. Each wish is a premise, and weighs something."""

from collections.abc import Iterable, Iterator, Mapping
from dataclasses import dataclass, replace
from datetime import timedelta
from typing import TYPE_CHECKING, SupportsIndex

from propbench.model.events import Event
from propbench.model.expressions import Truth, implies
from propbench.model.nodes import TRUE, all_of
from propbench.nearby import near_names
from propbench.planning.calendar import date_given, day_named
from propbench.planning.tasks import Task, Wished
from propbench.showing import printable

if TYPE_CHECKING:
    from propbench.planning.project import Day, Project

# How a wish may be said of a day, and how it is called.
_WORDS = {"before": "before", "after": "after", "on": "on", "not_on": "not on"}
_SAY = "say before=, after=, on= or not_on= a day"
# Who is meant by this is all.
_ALL = "all"


@dataclass(frozen=True)
class WorkWished(Wished):
    """What is wished for of all that somebody does, or that uses a resource: it is done before the
    day `last`. It is said of all tasks, where the constraint is nothing, or of one."""

    project: "Project"
    person: str
    last: int | None

    def speaks_of(self, task: str, needs: Iterable[str]) -> bool:
        """Whether it is wished for of a task, and they do that or it uses that."""
        return self.task == task and self.person in needs


@dataclass(frozen=True)
class DaysWanted:
    """Days that are wished for: to begin on the day `first` or later, or on it where it `is_on`, to
    be done before the day `last`, and not to be done in the days `off`, the second of which is that
    of the return."""

    first: int | None = None
    last: int | None = None
    off: tuple[int, int] | None = None
    is_on: bool = False


@dataclass(frozen=True)
class WishSaid:
    """How a wish is called, and what it weighs."""

    premise: str
    weight: float = 1


def weights_of(events: Iterable[Event]) -> dict[str, float]:
    """What the wishes weigh, by their premises."""
    return {each.premise: each.weight for each in events if isinstance(each, Wished)}


# --- as it is given ---


def weight_given(premise: str, weight: object) -> float:
    """What a wish weighs. Raises TypeError for what is no number, and ValueError for less than
    nothing."""
    if not isinstance(weight, int | float):
        raise TypeError(f"{premise}: a weight is a number, and {weight!r} is none")
    if not 0 <= weight < float("inf"):
        raise ValueError(f"{premise}: a weight is 0 or more, and not {weight}")
    return weight


def wished_of(project: "Project", given: Task | str) -> Task | str | None:
    """Of whom, or of which task, something is wished for, None of all; of somebody where a task is
    called so too. Raises ValueError where there is nothing of that name."""
    if isinstance(given, Task):
        return given
    known = [*project.people, *project.resources]
    if given in known:
        return given
    if given in project.tasks:
        return project.tasks[given]
    if given == _ALL:
        return None
    near = near_names(given, [*known, *project.tasks])
    hint = f" Did you mean {near[0]}?" if near else ""
    raise ValueError(f"nobody and nothing in the plan is called {given!r}.{hint}")


def days_wanted(
    project: "Project", who: Task | str | None, given: Mapping[str, "Day"]
) -> tuple[DaysWanted, str]:
    """The days that are wished for, and how that is called: `ana before 2026-12-12`. Raises
    ValueError for what can't be wished for of these, and TypeError."""
    name = who.name if isinstance(who, Task) else who or _ALL
    if not given:
        raise TypeError(f"{name}: {_SAY}")
    if wrong := [word for word in given if word not in _WORDS]:
        raise TypeError(f"{name}: {_SAY}, and not {wrong[0]}=")
    if who is None and {*given} != {"before"}:
        raise ValueError(f"of all it can be wished that it is done before a day: {_SAY} of a task")
    if "on" in given and (not isinstance(who, Task) or "after" in given):
        raise ValueError(f"{name}: on= says on which day a task begins, and stands without after=")
    first = _behind(project, given["after"]) if "after" in given else None
    if "on" in given:
        first = _working(project, name, given["on"])
    last = project.day(given["before"]) if "before" in given else None
    off = None
    if "not_on" in given:
        off = project.day(given["not_on"]), _behind(project, given["not_on"])
    said = " and ".join(f"{_WORDS[word]} {day_named(day)}" for word, day in given.items())
    return DaysWanted(first, last, off, "on" in given), f"{name} {said}"


def _behind(project: "Project", day: "Day") -> int:
    """The first day behind one, on which something is done."""
    if isinstance(day, SupportsIndex):
        return project.day(day) + 1
    return project.day(date_given(day) + timedelta(days=1))


def _working(project: "Project", name: str, day: "Day") -> int:
    """A day on which something can begin."""
    found = project.day(day)
    if not isinstance(day, SupportsIndex) and project.date(found) != date_given(day):
        raise ValueError(f"{name}: nothing begins on {date_given(day)}, which is off")
    return found


# --- as it is stated ---


def state_days(
    project: "Project", who: Task | str | None, days: DaysWanted, said: WishSaid
) -> None:
    """States a wish for days, of a task, of all that somebody does, or of all."""
    if isinstance(who, str):
        _state_work(project, who, days, said)
        return
    task, name = who, None if who is None else who.name

    def state() -> None:
        for holds, written, first in _parts(project, task, days):
            constraint = project.workbench.constraint_of(holds)
            project.state(Wished(constraint, said.premise, written, name, first, said.weight))

    project.workbench.network.whole(state)


def _parts(
    project: "Project", task: Task | None, days: DaysWanted
) -> Iterator[tuple[Truth, str, int | None]]:
    """What is wished for of a task, or of all, in words, and the first day of it."""
    name = _ALL if task is None else printable(task.name)
    if days.last is not None:
        end = project.end if task is None else task.end
        yield end <= days.last, f"{name} done {project.until_said(days.last)}", None
    if task is not None and days.first is not None:
        begins = f"{name} begins {project.day_said(days.first)}"
        if days.is_on:
            yield task.start == days.first, begins, days.first
        else:
            yield task.start >= days.first, f"{begins} or later", days.first
    if task is not None and days.off is not None:
        apart = (task.end <= days.off[0]) | (task.start >= days.off[1])
        is_day = days.off[0] < days.off[1]
        span = project.span_said(*days.off) if is_day else "on days off"
        yield apart if is_day else Truth(TRUE), f"{name} not {span}", None


def _state_work(project: "Project", person: str, days: DaysWanted, said: WishSaid) -> None:
    """The same of all that somebody does, also of tasks that are added later. Where nothing is to
    be done in some days work pauses then, as in any absence."""
    name, written = printable(person), list[str]()
    off = [day for day in range(*(days.off or (0, 0))) if 0 <= day < project.days]
    if off:
        written.append(f"no task of {name} {project.span_said(off[0], off[-1] + 1)}")
    if days.first is not None:
        written.append(f"{name} begins {project.day_said(days.first)} or later")
    if days.last is not None:
        written.append(f"{name} is done {project.until_said(days.last)}")
    told = " and ".join(written) or f"{name} is off"
    parts = None, days.first, said.weight, project, person, days.last
    event = WorkWished(TRUE, said.premise, told, *parts)

    def state() -> None:
        if off:
            project.off(person, off, said.premise)
        # (a premise under which nothing is stated yet would not be known)
        project.state(event)
        for task in project.tasks.values():
            _state_of(event, task)

    network = project.workbench.network
    if off:
        # (an absence restates tasks: should more of it not come to that these are as before, too)
        network.restate(list(network.events), state)
    else:
        network.whole(state)


def state_wishes(project: "Project", task: Task) -> None:
    """Has a task that is being made be done as those wish for who do it."""
    for each in list(project.workbench.network.events):
        if isinstance(each, WorkWished) and each.project is project and each.constraint is TRUE:
            _state_of(each, task)


def _state_of(said: WorkWished, task: Task) -> None:
    """What is wished for of all that somebody does, of one task."""
    days = DaysWanted(said.first, said.last)
    nodes = [holds.node for holds, _, _ in _parts(said.project, task, days)]
    if said.person in task.needs and nodes:
        holds = Truth(all_of(nodes))
        if said.person in task.may:
            holds = implies(task.may[said.person], holds)
        said.project.state(replace(said, constraint=holds.node, task=task.name))
