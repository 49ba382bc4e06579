"""Who does a task of several groups of people: so many of each, and nobody for two of them.

A truth says of everybody who may do a task whether they do. Of somebody who is in several groups
another one of each says whether it is for that.
"""

from typing import TYPE_CHECKING

from propbench.model.cells import TruthCell
from propbench.model.expressions import Truth, count
from propbench.planning.tasks import Task
from propbench.planning.who import Doers

if TYPE_CHECKING:
    from propbench.workbench import Workbench

# A truth of each place of a group and person in it, who is in others too.
Roles = dict[tuple[int, str], TruthCell]


def roles_of(workbench: "Workbench", task: str, doers: Doers) -> Roles:
    """Truths for those who are in several groups."""
    return {
        (place, person): workbench.truth(f"{task} by {person} for group {place + 1}")
        for place, (_, names) in enumerate(doers.groups)
        for person in names
        if person in doers.shared
    }


def state_groups(workbench: "Workbench", task: Task, doers: Doers) -> None:
    """So many of each group do a task, and nobody else."""
    for place, (number, names) in enumerate(doers.groups):
        truths: list[Truth] = [
            task.roles.get((place, person), task.may[person]) for person in names
        ]
        workbench.require(count(truths) == number)
    for person in doers.shared:
        own = [cell for (_, name), cell in task.roles.items() if name == person]
        workbench.require(count(own) == count(task.may[person]))
