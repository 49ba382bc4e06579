"""What was stated to a network, as a record, and what there is by it.

The record is all that there is to keep: it is small, and never changes, so to go back to it is to
put it in the place of another. Cells, premises, names and lines follow from it, and are worked out
anew wherever they are those of another record.
"""

from dataclasses import dataclass, field, replace

from propbench.model.events import (
    CellMade,
    ConstraintChoice,
    DomainMade,
    Event,
    Required,
    Told,
    ValueChoice,
)
from propbench.model.first import First
from propbench.model.kinds import Domain
from propbench.model.nodes import Declared
from propbench.model.premises import PremisesInOrder


@dataclass(frozen=True, eq=False)
class Record:
    """What was stated: the first `count` of these events, to which others may be added behind. And
    which premises are kicked out, and whose values questions try out first."""

    events: list[Event] = field(default_factory=list)
    count: int = 0
    kicked: frozenset[str] = frozenset()
    first: tuple[First, ...] = ()

    def with_events(self, events: list[Event]) -> "Record":
        """The same with these events."""
        return replace(self, events=events, count=len(events))

    def believing(self, premise: str, is_believed: bool) -> "Record":
        """The same, where a premise is believed, or isn't."""
        others = self.kicked - {premise}
        return replace(self, kicked=others if is_believed else others | {premise})


class Index:
    """What there is by a record: events, and by their names cells, domains and premises."""

    def __init__(self, record: Record) -> None:
        """What there is by this record."""
        # The record of which all this is so; None while it becomes that of another.
        self.record: Record | None = record
        self.events: list[Event] = []
        self.cells: dict[str, Declared] = {}
        self.domains: dict[str, Domain] = {}
        self.premises = PremisesInOrder()
        for event in record.events[: record.count]:
            self.add(event)
        for premise in record.kicked:
            self.premises.believed[premise] = False

    def add(self, event: Event) -> None:
        """Takes in what an event brings."""
        self.events.append(event)
        if isinstance(event, CellMade):
            self.cells[event.cell.name] = event.cell
        elif isinstance(event, DomainMade):
            self.domains[event.domain.name] = event.domain
        elif isinstance(event, (Required, Told)):
            self.premises.state(event)
        elif isinstance(event, (ValueChoice, ConstraintChoice)):
            self.premises.choices[event.name] = event

    def forget(self, premise: str) -> None:
        """Takes in that all that was stated under a premise is gone."""
        self.premises.forget(premise)
        self.events = [each for each in self.events if each.premise != premise]
