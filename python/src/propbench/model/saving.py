"""A workbench as a file, and a file as a workbench."""

from collections.abc import Callable, Iterator, Mapping, Sequence
from dataclasses import dataclass
from typing import Any

from propbench.finding import SAVED
from propbench.model.events import Event
from propbench.model.network import Network
from propbench.model.script import Script
from propbench.model.storing import Records, comments, record_of, records
from propbench.model.vocabulary import Vocabulary
from propbench.showing import cut

_FORM = 1
# What comes of records that are none of a workbench's, or are nested without end.
WRONG: tuple[type[Exception], ...] = (KeyError, TypeError, ValueError, IndexError, AttributeError)
WRONG += (ArithmeticError, AssertionError, RecursionError)


# What is noted of an event beside what it states.
Noted = Callable[[Event], Mapping[str, object] | None]


@dataclass(frozen=True)
class Saved:
    """What a file has: events with what is noted of each, and the premises that are kicked out."""

    events: list[Event]
    notes: list[Mapping[str, Any] | None]
    kicked: list[str]


def _nothing(event: Event) -> None:
    return None


def saved(network: Network, noted: Noted = _nothing) -> Iterator[str]:
    """The lines of a file, each event with what is noted of it, and with the lines that say it."""
    yield SAVED
    yield from comments({"workbench": _FORM, "kit": sorted(network.offered)})
    script = network.new_script()
    yield from script.writer.taken()
    for event in network.events:
        note = noted(event)
        yield from comments(record_of(event) | ({} if note is None else {"note": note}))
        yield from script.lines_of(event)
    kicked = [name for name, believed in network.premises.believed.items() if not believed]
    yield from comments({"kicked": kicked})
    yield from network.kicks(script.vocabulary)


class NotAWorkbench(ValueError):
    """A file is not one that a workbench has saved, or its lines were changed since."""


def read(lines: Sequence[str], owner: object) -> Saved:
    """What a file has. The cells are the owner's.

    Raises NotAWorkbench: the lines of a file have to be those that its events stand for.
    """
    try:
        head, *middle, last = records(lines)
        if head["workbench"] != _FORM:
            raise NotAWorkbench(f"the file is of another form: {cut(repr(head['workbench']))}")
        kit, kicked = frozenset(head["kit"]), list(last["kicked"])
        found = Records(owner)
        events = [found.event(record) for record in middle]
        _check(lines, events, kit, kicked)
    except WRONG as error:
        if isinstance(error, NotAWorkbench):
            raise
        raise NotAWorkbench("the file was not saved by a workbench") from error
    return Saved(events, [record.get("note") for record in middle], kicked)


def _check(
    lines: Sequence[str], events: Sequence[Event], kit: frozenset[str], kicked: Sequence[str]
) -> None:
    """Compares the lines of a file with those that the events stand for."""
    vocabulary = Vocabulary(lambda name: True)
    script = Script(vocabulary, lambda name: name in kit)
    wanted = script.writer.taken()
    for event in events:
        wanted += script.lines_of(event)
    wanted += [f"kick {vocabulary.premises.line(name)}" for name in kicked]
    there = [(place, line) for place, line in enumerate(lines, 1) if line and line[0] != "#"]
    for (number, line), meant in zip(there, wanted):
        if line != meant:
            said = f"{cut(repr(line))} stands for {cut(repr(meant))}"
            raise NotAWorkbench(f"line {number} was changed: {said}")
    if len(there) != len(wanted):
        raise NotAWorkbench(f"the file has {len(there)} lines where {len(wanted)} are meant")
