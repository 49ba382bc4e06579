"""Conflicts made small: premises are left out as long as the others still contradict each other."""

from collections.abc import Iterable, Sequence
from contextlib import suppress

from propbench.clock import Clock
from propbench.program import OutOfTime
from propbench.replies import Contradiction
from propbench.session import Session


def shrunk(
    session: Session, believed: Sequence[str], found: Iterable[str], seconds: float | None = None
) -> tuple[str, ...]:
    """Of premises that contradict each other, some that do, of which none can be left out; as far
    as that is found out in these seconds.

    `believed` are those that are believed, by their names on lines, and are so again in the end,
    unless the session lasts no longer. What a run that isn't settled leaves open counts as no
    contradiction.
    """
    kept = list(found)
    with suppress(OutOfTime):
        shrink(session, believed, kept, Clock(seconds, None))
    return tuple(kept)


def shrink(session: Session, believed: Sequence[str], kept: list[str], clock: Clock) -> None:
    """The same in place, of those that are kept. Raises OutOfTime where there was none to have
    those that are believed be so again."""
    if clock.is_over():
        return
    try:
        with suppress(OutOfTime):
            _shrink(session, believed, kept, clock)
    finally:
        _send(session, "bring", believed, clock)


def _shrink(session: Session, believed: Sequence[str], kept: list[str], clock: Clock) -> None:
    """Leaves out of what is kept what can be left out."""
    _send(session, "kick", [name for name in believed if name not in kept], clock)
    tried = list(kept)
    while tried and not clock.is_over():
        name = tried.pop()
        _send(session, "kick", [name], clock)
        reply = session.send("settle", seconds=clock.seconds_left())
        if isinstance(reply, Contradiction):
            gone = [each for each in kept if each != name and each not in reply.premises]
            _send(session, "kick", gone, clock)
            kept[:] = [each for each in kept if each in reply.premises]
            tried = [each for each in tried if each in kept]
        else:
            _send(session, "bring", [name], clock)


def _send(session: Session, command: str, names: Sequence[str], clock: Clock) -> None:
    """Sends a command for each name."""
    if names:
        session.send_all([f"{command} {name}" for name in names], until=clock.last)
