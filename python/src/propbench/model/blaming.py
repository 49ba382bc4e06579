"""What else is known of a conflict: which value lies beyond 10^18, and, where what holds always
can't hold by itself, which of it.
"""

from collections.abc import Iterable, Iterator, Sequence
from dataclasses import replace

from propbench.clock import Clock
from propbench.model.events import ConstraintChoice, Event, Required, Told
from propbench.model.kinds import Plain
from propbench.model.network import Network
from propbench.model.nodes import Declared, Node, Op, cells_in
from propbench.model.ranges import Range, Ranges, declared_range, range_of
from propbench.model.shrinking import shrunk
from propbench.model.writing import text_of
from propbench.program import OutOfTime
from propbench.replies import Contradiction, Value
from propbench.values import Span
from propbench.words import MOST_NUMBER

# Among so many constraints that hold always it is looked which of them can't.
_MOST_LOOKED_AT = 1000


def beyond(network: Network, premises: Sequence[str], seconds: float | None = None) -> list[str]:
    """The expressions whose values lie beyond 10^18, where that is why these premises are in
    conflict, as notes, as far as that is found out in time. `premises` are those of a conflict, of
    which none can be left out."""
    clock = Clock(seconds, None)
    concerned = [
        node
        for event in network.events
        if event.premise is None or event.premise in premises
        for constraint in _constraints(event)
        for node in _large(constraint)
    ]
    if not concerned:
        return []
    cells = list(dict.fromkeys(cell for node in concerned for cell in cells_in(node)))
    numbers = [cell for cell in cells if cell.kind is Plain.NUMBER]
    for premise in premises or [""]:
        if clock.is_over():
            break
        try:
            ranges = Ranges(_without(network, premise, numbers, clock).__getitem__)
        except OutOfTime:
            break
        found = list(dict.fromkeys(node for node in concerned if _is_beyond(ranges.uncut(node))))
        if found:
            return [f"{text_of(node)} lies beyond 10^18, which no cell holds" for node in found]
    return []


def always(network: Network, seconds: float | None = None) -> list[str]:
    """What can't hold of that which holds always, each a text, none of which can be left out; none
    where that isn't found out in time."""
    clock = Clock(seconds, None)
    kept: list[Event] = []
    named: dict[str, Event] = {}
    for event in network.events:
        if isinstance(event, (Required, Told)):
            if event.premise is None:
                name = f"always {len(named)}"
                named[name] = event
                kept.append(replace(event, premise=name))
        else:
            kept.append(event)
    if not 0 < len(named) <= _MOST_LOOKED_AT or clock.is_over():
        return []
    copy = network.copy(kept)
    try:
        copy.session.end_by(clock.latest)
        reply = copy.session.send("settle", seconds=clock.seconds_left())
        if not isinstance(reply, Contradiction):
            return []
        names = copy.vocabulary.premises
        lines = shrunk(
            copy.session,
            [names.line(name) for name in named],
            reply.premises,
            clock.seconds_left(),
        )
        if clock.is_over():
            return []
        return [_text(named[names.text(line)]) for line in lines]
    except OutOfTime:
        return []
    finally:
        copy.close()


def _text(event: Event) -> str:
    return event.text if isinstance(event, (Required, Told)) else ""


def _constraints(event: Event) -> Iterator[Node]:
    if isinstance(event, Required):
        yield event.constraint
    elif isinstance(event, ConstraintChoice):
        for _, nodes in event.alternatives:
            yield from nodes


def _large(constraint: Node) -> Iterable[Node]:
    """The operations in a constraint that may lie beyond 10^18."""
    waiting, seen = [constraint], {constraint}
    while waiting:
        each = waiting.pop()
        if each.kind is Plain.NUMBER and each.op not in (Op.CELL, Op.CONSTANT):
            if MOST_NUMBER in (range_of(each)[1], -range_of(each)[0]):
                yield each
        fresh = [arg for arg in each.args if arg not in seen]
        seen.update(fresh)
        waiting += fresh


def _is_beyond(range_: Range) -> bool:
    low, high = range_
    return low > MOST_NUMBER or high < -MOST_NUMBER


def _without(
    network: Network, premise: str, cells: Sequence[Declared], clock: Clock
) -> dict[Declared, Range]:
    """Between which numbers the cells lie by all that is believed but the premise, and by what is
    told under it of the cells themselves. Raises OutOfTime."""
    names = network.vocabulary
    found = {cell: declared_range(cell) for cell in cells}
    line = names.premises.line(premise) if premise else ""
    with network.tried() as session:
        if line:
            session.send_all([f"kick {line}"], until=clock.last)
            session.send("settle", seconds=clock.seconds_left())
        asks = [f"ask {names.cells.line(cell.name)}" for cell in cells]
        replies = session.look(asks, until=clock.last)
        if line:
            session.send_all([f"bring {line}"], until=clock.last)
    for cell, reply in zip(cells, replies):
        if isinstance(reply, Value) and isinstance(reply.value, Span):
            found[cell] = _both(found[cell], (reply.value.low, reply.value.high))
    for event in network.events:
        if isinstance(event, Told) and event.premise in (None, premise) and event.cell in found:
            low, high = event.values
            found[event.cell] = _both(found[event.cell], (int(low), int(high)))
    return found


def _both(one: Range, other: Range) -> Range:
    """What both ranges have; the second where that is nothing."""
    low, high = max(one[0], other[0]), min(one[1], other[1])
    return (low, high) if low <= high else other
