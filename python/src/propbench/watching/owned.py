"""What calls and statements of a workbench are for, in the words of its user."""

from collections.abc import Mapping, Sequence

from propbench.model.answers import value_text
from propbench.model.choosing import first_name
from propbench.model.events import CellMade, DomainMade, Event, Required, Told
from propbench.model.network import Network
from propbench.model.nodes import cells_in
from propbench.model.reading import Reader
from propbench.model.script import Owner
from propbench.planning.kinds import kind_of
from propbench.replies import Called, Stated, Value
from propbench.showing import printable
from propbench.values import Held
from propbench.watching.claims import Source, Wording
from propbench.watching.instances import Instances


def is_use(event: Event) -> bool:
    """Whether it is shown as a use: a constraint on several cells."""
    return isinstance(event, Required) and len(cells_in(event.constraint)) > 1


def use_names(events: Sequence[Event]) -> dict[Event, str]:
    """The names of the uses, by what states them."""
    found: dict[Event, str] = {}
    uses = (event for event in events if is_use(event))
    for count, event in enumerate(uses, 1):
        found.setdefault(event, str(count))
    return found


class Owned:
    """What the lines are for that make a network."""

    def __init__(self, network: Network, owners: Mapping[str, Owner], lines: Sequence[str]) -> None:
        """A network that these lines have made, each of what owns it."""
        self._uses = use_names(network.events)
        self._owners = owners
        self._attached = [line for line in lines if line.startswith("attach ")]
        self._stated = {_key(line): owner for line, owner in owners.items() if _states(line)}

    def of_call(self, call: Called, instances: Instances) -> Owner | None:
        """What a call is for, None where that isn't told."""
        attach = instances.attach_of(call)
        return self._owners.get(self._attached[attach - 1]) if attach else None

    def of_statement(self, stated: Stated) -> Owner | None:
        """What a statement is for, None for a side of a choice."""
        return self._stated.get(_key(stated.line))

    def use(self, event: Event) -> str:
        """The name of the use that states this, "" where none does."""
        return self._uses.get(event, "")

    def source(self, owner: Owner | None) -> Source | None:
        """What something that is owned so comes from. (Of choices the sides tell it.)"""
        if owner is None:
            return None
        event, kind = owner.event, kind_of(owner.event)
        if isinstance(event, CellMade):
            return Source("as", "declared", kind=kind)
        if isinstance(event, Told):
            told = ("told by", event.premise) if event.premise else ("as", "fixed")
            return Source(*told, premise=event.premise or "", kind=kind)
        if isinstance(event, Required):
            premise = event.premise or ""
            text = f"{event.told} ({premise})" if premise else event.told
            return Source("by", text, self.use(event), premise, weak=owner.makes, kind=kind)
        return None


def wording_of(network: Network, instances: Instances, sides: Sequence[str]) -> Wording:
    """How the parts of a value are told, in the plan that these sides make."""
    owned = Owned(network, network.owners(), network.session.lines)
    reader = Reader(network.vocabulary, network.premises)
    names, plan = network.vocabulary.cells, reader.plan(sides)

    def says(cell: str, value: Held, because: tuple[str, ...]) -> str:
        declared = network.cells[names.text(cell)]
        return value_text(reader.answer(declared, Value(cell, value, True, because), plan).value)

    def source(part: Called | Stated) -> Source | None:
        if isinstance(part, Called):
            return owned.source(owned.of_call(part, instances))
        choice, mark, _ = part.premise.partition("=")
        if mark:
            text = network.vocabulary.premises.text(first_name(choice))
            return Source("on", reader.premise(part.premise, plan), choice=text, kind="choice")
        return owned.source(owned.of_statement(part))

    return Wording(says, source, lambda cell: not names.has(cell), names.text)


def _states(line: str) -> bool:
    return line.startswith(("fix ", "tell "))


def _key(line: str) -> tuple[tuple[str, ...], frozenset[str]]:
    """A statement however its elements are written: their order, and braces around one."""
    words = line.replace("{", "").replace("}", "").split(" ")
    front = 2 if words[0] == "fix" else 3
    return tuple(words[:front]), frozenset(words[front:])
