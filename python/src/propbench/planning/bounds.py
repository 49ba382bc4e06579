"""Why all can't end sooner than the work takes: of each person, and of each resource, the days of
work and those off before the end are no more than there are until then.

All of it is so anyway. Where it is said, a search needn't find it out task by task. Days off count
where nothing is done in them, which follows where an absence is believed.
"""

from collections.abc import Iterable, Sequence
from typing import TYPE_CHECKING

from propbench.model.cells import NumberCell
from propbench.model.expressions import Number, Truth, if_else, maximum, minimum, total
from propbench.model.nodes import TRUE, Node, all_of, any_of
from propbench.planning.pausing import pieces
from propbench.planning.resources import KeptWithin, kept_within, work_of
from propbench.planning.tasks import KeptApart, KeptOff, NotYet, Task, aways_of

if TYPE_CHECKING:
    from propbench.planning.project import Project


def limit_of(person: str) -> str:
    """The premise that a person does one thing at a time."""
    return f"{person} does one thing at a time"


def state_end(project: "Project", end: NumberCell) -> None:
    """The end is that of the last task, and no sooner than the work takes."""
    tasks = project.tasks.values()
    project.workbench.require(end == maximum(*(task.end for task in tasks)))
    for name in (*project.people, *project.resources):
        state_bound(project, name, end)
    if any(task.may for task in tasks):
        _state_shares(project, list(tasks))
    for each in list(project.workbench.network.events):
        if isinstance(each, NotYet) and each.project is project and each.constraint is TRUE:
            state_bounds_from(project, each)


def state_bounds(project: "Project", names: Iterable[str], end: NumberCell) -> None:
    """The same of these people and resources, once more is known of when they are away."""
    for name in dict.fromkeys(names):
        state_bound(project, name, end)


def state_bound(project: "Project", name: str, end: NumberCell) -> None:
    """The work of somebody, or what is used of a resource, and the days off lie before the end."""
    tasks = [task for task in project.tasks.values() if name in task.needs]
    if len(tasks) > 1:
        _state_work(project, name, (tasks, _days_off(project, name, 0, end)), end)


def state_bounds_from(project: "Project", said: NotYet) -> None:
    """The work of tasks that begin on a day or later is done between that and the end, where there
    is an end yet."""
    end, day = project.end_made, said.first
    if end is None:
        return
    later = {
        each.constraint
        for each in project.workbench.network.events
        if isinstance(each, NotYet) and each.project is project and each.premise == said.premise
    }
    tasks = [it for it in project.tasks.values() if (it.start >= day).node in later]
    for name in (*project.people, *project.resources):
        own = [task for task in tasks if name in task.needs]
        if len(own) > 1:
            all_later = Truth(all_of([(task.start >= day).node for task in own]))
            lost = [if_else(all_later, day, 0), *_days_off(project, name, day, end)]
            _state_work(project, name, (own, lost), end)


def _state_work(
    project: "Project", name: str, parts: tuple[Sequence[Task], Sequence[Number]], end: NumberCell
) -> None:
    """The work of tasks, and the days in which nothing is done, are no more than there are."""
    tasks, lost = parts
    work = total([_work(task, name) for task in tasks])
    if name in project.people:
        bound = (total([work, *lost]) <= end).node
        project.state(KeptApart(bound, limit_of(name), name, project))
        return
    for said in kept_within(project, project.workbench.network.events):
        if said.resource == name:
            bound = (total([work, *(it * said.holds for it in lost)]) <= end * said.holds).node
            project.state(KeptWithin(bound, said.premise, name, said.holds, project))


def _work(task: Task, name: str) -> Number:
    """How many days somebody works on a task, or how much of a resource it uses in all."""
    if name in task.uses:
        return work_of(task, name)
    return task.days if name in task.people else if_else(task.may[name], task.days, 0)


def _state_shares(project: "Project", tasks: Sequence[Task]) -> None:
    """All people together do the work of all tasks, whoever does it."""
    shares = [_work(task, name) for task in tasks for name in task.doers]
    whole: list[Number] = []
    for task in tasks:
        number = len(task.people) + task.number
        if number:
            whole.append(task.days if number == 1 else task.days * number)
    by_person = [
        total([_work(task, name) for task in tasks if name in task.doers])
        for name in project.people
        if any(name in task.doers for task in tasks)
    ]
    if len(shares) > 1:
        project.workbench.require(total(by_person) == total(whole))


def _days_off(project: "Project", name: str, since: int, end: NumberCell) -> list[Number]:
    """How many days from one on, and before the end, somebody is away, from each end of an absence
    to the next."""
    events = project.workbench.network.events
    aways = [each for each in aways_of(project, events) if each.person == name]
    found: list[Number] = []
    for begin, last in pieces(aways):
        first = max(begin, 0)
        kept: list[Node] = []
        for away in (it for it in aways if it.first <= begin and last <= it.last):
            stated = [it for it in events if isinstance(it, KeptOff) and it.away == away]
            kept.append(all_of(it.constraint for it in stated if it.project is project))
        if kept and since <= first < min(last, project.days):
            lost = maximum(minimum(end, last), first) - first
            found.append(if_else(Truth(any_of(kept)), lost, 0))
    return found
