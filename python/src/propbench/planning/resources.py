"""Resources that several tasks may use at once: a hall for two talks, a crew of four, a lift.

No more of a resource is in use at once than there is, which is stated of all tasks that use it at
once. What takes no day uses nothing.
"""

from collections.abc import Callable, Collection, Container, Iterable, Iterator, Mapping, Sequence
from dataclasses import dataclass
from typing import TYPE_CHECKING, SupportsIndex, TypeVar

from propbench.model.events import Event, Required
from propbench.model.expressions import Number, if_else
from propbench.model.nodes import TRUE, Declared, Op, cell
from propbench.model.sharing import Shared, TaskUse
from propbench.nearby import near_names
from propbench.planning.pausing import span_of
from propbench.planning.tasks import Rate, Task
from propbench.showing import printable

if TYPE_CHECKING:
    from propbench.planning.project import Project

AnyStated = TypeVar("AnyStated")


@dataclass(frozen=True)
class KeptWithin(Required):
    """No more of a resource is in use at once than it holds: said of all, where the constraint is
    nothing, or of some tasks."""

    premise: str
    resource: str
    holds: int
    project: "Project"

    @property
    def told(self) -> str:
        """What is stated, of all that uses it."""
        return f"no more than {self.holds} of {printable(self.resource)} at once"


def holding(resource: str, holds: int) -> str:
    """The premise that there is so much of a resource."""
    return f"{resource} holds {holds}"


def holds_given(resource: str, holds: object) -> int:
    """How much there is of a resource. Raises TypeError for what is no whole number, and ValueError
    for less than one."""
    if not isinstance(holds, SupportsIndex):
        raise TypeError(f"{resource}: {holds!r} is no whole number")
    if int(holds) < 1:
        raise ValueError(f"{resource}: of a resource there is one or more, and not {holds}")
    return int(holds)


def kept_within(project: object, events: Iterable[Event]) -> list[KeptWithin]:
    """How much there is of each resource of a project, as it was said."""
    return [
        each
        for each in events
        if isinstance(each, KeptWithin) and each.project is project and each.constraint is TRUE
    ]


def resources_of(project: object, events: Iterable[Event]) -> dict[str, int]:
    """The resources of a project, and how much there is of each, as it was said first."""
    found: dict[str, int] = {}
    for each in kept_within(project, events):
        found.setdefault(each.resource, each.holds)
    return found


def uses_given(task: str, uses: object, known: Mapping[str, int]) -> dict[str, int]:
    """How much a task uses of each resource. Raises ValueError for a resource that there isn't, for
    more than there is and for less than nothing, and TypeError for what says none."""
    if isinstance(uses, str):
        uses = {uses: 1}
    if not isinstance(uses, Mapping):
        raise TypeError(f'{printable(task)}: say what it uses as {{"hall": 1}}: {uses!r}')
    for resource, number in uses.items():
        if resource not in known:
            near = near_names(str(resource), known)
            hint = f"Did you mean {near[0]}?" if near else f'Say p.resource("{resource}", 1) first'
            raise ValueError(f"{printable(task)}: no resource is called {resource!r}. {hint}")
        if not isinstance(number, SupportsIndex):
            raise TypeError(f"{printable(task)}: {number!r} of {resource} is no whole number")
        if not 0 <= int(number) <= known[resource]:
            there = f"there is {known[resource]} of {resource}"
            raise ValueError(f"{printable(task)}: {there}, and {number} can't be used")
    return {resource: int(number) for resource, number in uses.items() if int(number)}


def state_resource(project: "Project", said: KeptWithin, tasks: Iterable[Task]) -> None:
    """States how much there is of a resource, of these tasks."""
    # (a premise under which nothing is stated yet would not be known)
    project.state(said)
    _state_room(project, said, [task for task in tasks if said.resource in task.uses])


def state_rooms(project: "Project", names: Container[str]) -> None:
    """States the same of all tasks that use these resources, where it isn't stated."""
    network = project.workbench.network
    tasks = list(project.tasks.values())
    for said in kept_within(project, network.events):
        if said.resource in names:
            _state_room(project, said, [task for task in tasks if said.resource in task.uses])


def restated(
    project: "Project", names: Collection[str], state: Callable[[], AnyStated]
) -> AnyStated:
    """Has what a function states take the place of what is stated of these resources: so of a task
    more that uses them, or of one that takes another time."""
    network = project.workbench.network
    return network.restate(_without_rooms(project, names), state) if names else network.whole(state)


def _without_rooms(project: "Project", names: Container[str]) -> Iterator[Event]:
    """What is stated but that there is room for all that use these resources."""
    for each in project.workbench.network.events:
        is_room = isinstance(each, KeptWithin) and each.constraint.op is Op.ROOM
        if not (is_room and _is_of(each, project, names)):
            yield each


def _is_of(each: Event, project: "Project", names: Container[str]) -> bool:
    """Whether an event is of one of these resources of a project."""
    return isinstance(each, KeptWithin) and each.project is project and each.resource in names


def work_of(task: Task, resource: str) -> Number:
    """How many days a task takes of a resource, each as often as it uses it."""
    number = task.uses[resource]
    return task.days if number == 1 else task.days * number


def rates_of(project: object, events: Iterable[Event]) -> dict[str, Declared]:
    """The cells of what people and resources cost a day, by their names."""
    found = (each for each in events if isinstance(each, Rate) and each.project is project)
    return {each.name: each.cell for each in found}


def paid(task: Task, rates: Mapping[str, Declared]) -> list[Number]:
    """What is paid for a task by the day, for each who does it and all that it uses."""
    found: list[Number] = []
    for name in (it for it in task.needs if it in rates):
        if name in task.uses:
            days = work_of(task, name)
        else:
            days = task.days if name in task.people else if_else(task.may[name], task.days, 0)
        found.append(days * Number(cell(rates[name])))
    return found


def _state_room(project: "Project", said: KeptWithin, tasks: Sequence[Task]) -> None:
    """There is room for these tasks, as often as they run at once."""
    events = project.workbench.network.events
    uses = [
        TaskUse(task.start.node, span_of(events, task).node, task.uses[said.resource])
        for task in tasks
    ]
    shared = Shared(said.holds, tuple(uses))
    if shared.most > said.holds:
        project.state(KeptWithin(shared.room(), said.premise, said.resource, said.holds, project))
