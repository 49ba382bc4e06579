"""Goals of a plan beside its end and its cost: how much of what was wished for is given up, and how
many tasks move from an earlier plan."""

from collections.abc import Iterator, Mapping, Sequence
from typing import TYPE_CHECKING, SupportsIndex

from propbench.model.cells import NumberCell
from propbench.model.events import Required, Told
from propbench.model.expressions import Number, Truth, if_else, total
from propbench.model.kinds import Plain
from propbench.model.nodes import Node, Op, all_of, cell, constant, node, number
from propbench.nearby import near_names
from propbench.planning.schedule import Entry, Schedule
from propbench.planning.tasks import Task

if TYPE_CHECKING:
    from propbench.planning.project import Project

Weights = Mapping[str, float] | Sequence[str] | None


def given_up_of(project: "Project", weights: Weights, name: str) -> NumberCell:
    """A number that is the weight of what is given up, which nothing has to hold any more. Raises
    ValueError where there is no such premise, and TypeError for a weight that is no whole number.
    """
    w = project.workbench
    wanted = _weights(project, weights)
    truths = {premise: _holds(project, premise) for premise in wanted}
    costs = [if_else(holds, 0, wanted[premise]) for premise, holds in truths.items()]

    def state() -> NumberCell:
        made = w.number(name, 0, sum(wanted.values()))
        w.require(made == total(costs))
        return made

    made = w.network.whole(state)
    for premise in wanted:
        if premise in w.believed:
            w.kick(premise)
    return made


def _weights(project: "Project", weights: Weights) -> dict[str, int]:
    """What may be given up, and its weight; without any said each wish, at its own."""
    w = project.workbench
    if weights is None:
        weights = {it: weight for it, weight in project.weights.items() if it in w.believed}
    if not isinstance(weights, Mapping):
        weights = {premise: 1 for premise in weights}
    for premise, weight in weights.items():
        if premise not in w.premises:
            near = near_names(premise, w.premises)
            hint = f" Did you mean {near[0]}?" if near else ""
            raise ValueError(f"there is no premise {premise!r}.{hint}")
        if not isinstance(weight, SupportsIndex):
            raise TypeError(f"{premise}: a weight is a whole number here, and {weight!r} is none")
        if int(weight) < 0:
            raise ValueError(f"{premise}: a weight is 0 or more, and not {weight}")
    return {premise: int(weight) for premise, weight in weights.items()}


def _holds(project: "Project", premise: str) -> Truth:
    """Whether all holds that is stated under a premise."""
    nodes: list[Node] = []
    for each in project.workbench.network.premises.statements[premise]:
        if isinstance(each, Required):
            nodes.append(each.constraint)
        elif isinstance(each, Told) and each.cell.kind is Plain.NUMBER:
            own, (low, high) = cell(each.cell), each.values
            nodes.append(node(Op.AT_LEAST, (own, number(int(low)))))
            nodes.append(node(Op.AT_MOST, (own, number(int(high)))))
        elif isinstance(each, Told) and len(each.values) == 1:
            kind = each.cell.kind
            nodes.append(node(Op.EQUAL, (cell(each.cell), constant(each.values[0], kind))))
        else:
            raise ValueError(f"{premise!r} states what can't be weighed")
    return Truth(all_of(nodes))


def moved_of(
    project: "Project", before: Schedule, weights: Mapping[str, int] | None, name: str
) -> NumberCell:
    """A number that counts the tasks that are done at another time than in an earlier schedule, and
    those that are done by somebody else or in another way, each as often as its weight says. Raises
    ValueError for the weight of no task."""
    w, tasks, known = project.workbench, project.tasks, dict(weights or {})
    for task in known:
        if task not in tasks:
            raise ValueError(f"there is no task {task!r}")
    costs: list[Number] = []
    for entry in (each for each in before.entries if each.task in tasks):
        for holds in _as_before(tasks[entry.task], entry):
            costs.append(if_else(holds, 0, known.get(entry.task, 1)))

    def state() -> NumberCell:
        made = w.number(name, 0, 2 * sum(known.get(entry.task, 1) for entry in before.entries))
        w.require(made == total(costs))
        return made

    return w.network.whole(state)


def _as_before(task: Task, entry: Entry) -> Iterator[Truth]:
    """Whether a task is done when it was planned, and by whom and in which way it was."""
    yield (task.start == entry.start) & (task.end == entry.end)
    nodes = [cell.node if it in entry.people else (~cell).node for it, cell in task.may.items()]
    if entry.way is not None:
        nodes.append((task.days == entry.days).node)
        if task.cost is not None and entry.cost is not None:
            nodes.append((task.cost == entry.cost - entry.paid).node)
    if nodes:
        yield Truth(all_of(nodes))
