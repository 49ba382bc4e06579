"""Of which kind a statement is, by which a planner counts it: a length, an order, a wish."""

from propbench.model.events import CellMade, DomainMade, Event, Read, Required, Told
from propbench.planning.order import SetUp
from propbench.planning.pausing import Paused, TaskSpan
from propbench.planning.resources import KeptWithin
from propbench.planning.tasks import (
    KeptApart,
    KeptOff,
    NotYet,
    Rate,
    TaskBy,
    TaskDone,
    TaskMade,
    TaskOrdered,
    TaskTold,
    Wished,
)

# The kinds by what is stated, the first that fits; what only makes a task has none.
_KINDS: tuple[tuple[tuple[type[object], ...], str], ...] = (
    ((CellMade, DomainMade, TaskMade, TaskSpan, Paused), ""),
    ((Wished,), "wish"),
    ((KeptOff,), "absence"),
    ((KeptApart, KeptWithin), "limit"),
    ((SetUp,), "setup"),
    ((TaskOrdered,), "order"),
    ((TaskDone, NotYet), "report"),
    ((Rate,), "rate"),
    ((TaskBy,), "length"),
    ((Read,), "reading"),
    ((Told,), "statement"),
    ((Required,), "constraint"),
)


def kind_of(event: Event) -> str:
    """The kind of a statement, "" for what is no reason by itself."""
    if isinstance(event, TaskTold) and not isinstance(event, TaskDone | Rate):
        lengths = (task.days.declared for task in event.project.tasks.values())
        return "length" if event.cell in lengths else "cost"
    return next((kind for types, kind in _KINDS if isinstance(event, types)), "choice")
