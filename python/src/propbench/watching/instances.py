"""Whose an instance is: by which `attach` it was made, and what its cells are called, as `list`
tells where the program has that.
"""

from dataclasses import replace

from propbench.refusals import Refused, UnknownCommand
from propbench.replies import Called, How, Listing, Reply
from propbench.session import Session


def listing_of(session: Session, until: float | None = None) -> Listing | None:
    """What there is, None where the program doesn't list it."""
    try:
        found = _told(session, "list", until)
    except UnknownCommand:
        return None
    assert isinstance(found, Listing)
    return found


def how_of(session: Session, cell: str, until: float | None = None) -> How:
    """What makes up what is known of a cell. Raises UnknownCommand where the program doesn't tell,
    and OutOfTime."""
    found = _told(session, f"how {cell}", until)
    assert isinstance(found, How)
    return found


def _told(session: Session, question: str, until: float | None) -> Reply:
    """The reply to a question, which leaves no trace. Raises its refusal, and OutOfTime."""
    [reply] = session.look([question], until=until)
    if isinstance(reply, Refused):
        raise reply
    return reply


class Instances:
    """The instances of a session, as they were when this was made."""

    def __init__(self, session: Session, until: float | None = None) -> None:
        listing = listing_of(session, until)
        self._known = {each.number: each for each in listing.instances} if listing else {}

    def attach_of(self, call: Called) -> int:
        """The number of the `attach` that made what is called, from 1; 0 where that isn't told."""
        found = self._known.get(call.instance)
        return int(found.part.partition(".")[0]) if found else 0

    def is_part(self, call: Called) -> bool:
        """Whether what is called is a part of a compound."""
        found = self._known.get(call.instance)
        return found is not None and "." in found.part

    def named(self, call: Called) -> Called:
        """The call, with the names of locals by their uses (`2.k`)."""
        found = self._known.get(call.instance)
        return replace(call, inputs=found.inputs, output=found.output) if found else call


def named(how: How, instances: Instances) -> How:
    """What makes up a value, with the names of locals."""
    parts = how.parts or ()
    told = tuple(instances.named(each) if isinstance(each, Called) else each for each in parts)
    return how if how.parts is None else replace(how, parts=told)
