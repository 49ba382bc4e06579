"""What lies between tasks: days that have to pass from one to the other, or may at the most, and
those in which somebody, or a machine, is set up for another kind of task."""

from collections.abc import Iterable, Iterator, Mapping
from dataclasses import dataclass, replace
from itertools import combinations
from typing import TYPE_CHECKING, SupportsIndex

from propbench.model.events import Required
from propbench.model.expressions import Truth, implies
from propbench.model.nodes import TRUE
from propbench.planning.tasks import Task, TaskOrdered, by_both
from propbench.showing import printable

if TYPE_CHECKING:
    from propbench.planning.project import Project

# Kinds of tasks, the one before in front, and the days between.
Times = Mapping[tuple[str, str], int]
_ENDS = ("end", "start")


@dataclass(frozen=True)
class TaskLagged(TaskOrdered):
    """So many days pass from an end of a task of a project to the start of another."""

    least: int | None
    of: str

    def ready(self, start: int, end: int) -> int | None:
        """When the other may begin, of a task that is done from a day to a day."""
        return None if self.least is None else (end if self.of == "end" else start) + self.least


@dataclass(frozen=True)
class SetUp(Required):
    """Somebody, or a machine, is set up from one kind of task to another in some days: said of all
    tasks, where the constraint is nothing, or of two."""

    premise: str
    project: "Project"
    person: str
    kinds: tuple[str, str]
    days: int

    @property
    def told(self) -> str:
        """What is stated, of all tasks of these kinds."""
        days = f"{self.days} {'day' if self.days == 1 else 'days'}"
        return printable(f"{self.person} takes {days} from {' to '.join(self.kinds)}")


def lag_said(first: Task, then: Task, days: tuple[int | None, int | None], of: str) -> str:
    """The premise of an unnamed lag. Raises ValueError and TypeError for what is none."""
    least, most = days
    for each in days:
        if each is not None and not isinstance(each, SupportsIndex):
            raise TypeError(f"{then.name}: {each!r} days are no whole number")
    if of not in _ENDS:
        raise ValueError(f'a lag is of the "end" of a task, or of its "start", and not of {of!r}')
    if least is None and most is None:
        raise ValueError(f"{then.name}: say how many days pass at least, or at the most")
    if least is not None and most is not None and least > most:
        raise ValueError(f"{then.name}: no days are at least {least} and at most {most}")
    behind = first.name if of == "end" else f"the start of {first.name}"
    if least is None:
        return f"{then.name} at most {most} after {behind}"
    return f"{then.name} {least}{' or more' if most is None else f' to {most}'} after {behind}"


def lags(
    first: Task, then: Task, days: tuple[int | None, int | None], of: str
) -> Iterator[tuple[Truth, int | None]]:
    """What a lag says, and how many days that are at least."""
    begun = first.end if of == "end" else first.start
    least, most = days
    if least is not None:
        yield begun + least <= then.start, least
    if most is not None:
        yield then.start <= begun + most, None


def setting_up(person: str, kinds: tuple[str, str], days: int) -> str:
    """The premise that somebody is set up from one kind of task to another in some days."""
    return f"{person} takes {days} from {' to '.join(kinds)}"


def state_setup(project: "Project", said: SetUp, tasks: Iterable[Task]) -> None:
    """Has somebody, or a machine, be set up between these tasks."""
    # (a premise under which nothing is stated yet would not be known)
    project.state(said)
    for one, other in combinations(tasks, 2):
        _state_between(project, said, one, other)


def state_setups(project: "Project", task: Task, others: Iterable[Task]) -> None:
    """The same for a task that is being made."""
    known = [
        each
        for each in project.workbench.network.events
        if isinstance(each, SetUp) and each.project is project and each.constraint is TRUE
    ]
    for said in known:
        for other in others:
            _state_between(project, said, other, task)


def _state_between(project: "Project", said: SetUp, one: Task, other: Task) -> None:
    """Of two tasks of these kinds the one behind begins so many days later."""
    if not said.days or any(said.person not in it.needs for it in (one, other)):
        return
    for first, then in ((one, other), (other, one)):
        if (first.kind, then.kind) == said.kinds:
            # (they are kept apart by who does one thing at a time)
            later = implies(first.end <= then.start, first.end + said.days <= then.start)
            both = by_both(said.person, one, other, later)
            project.state(replace(said, constraint=both.node))


def times_given(person: str, times: object) -> tuple[tuple[tuple[str, str], int], ...]:
    """Days between kinds. Raises TypeError for what says none, and ValueError for less than 0."""
    if not isinstance(times, Mapping) or not times:
        raise TypeError(f'{person}: days between kinds are as {{("red", "blue"): 2}}: {times!r}')
    for kinds, days in times.items():
        is_pair = isinstance(kinds, tuple) and len(kinds) == 2
        if not is_pair or not all(isinstance(kind, str) for kind in kinds):
            raise TypeError(f"{person}: {kinds!r} are no two kinds of tasks")
        if not isinstance(days, SupportsIndex):
            raise TypeError(f"{person}: {days!r} days are no whole number")
        if int(days) < 0:
            raise ValueError(f"{person}: {days} days between tasks are less than none")
    return tuple((kinds, int(days)) for kinds, days in times.items())
