"""Conflicts and repairs of a session: which premises contradict each other, what to give up.

propwide is asked for them by a line each. Over propbench they are found in a session of its own, by
replies alone: there a conflict is a contradiction of which no premise can be left out, and a repair
is what can be given up so that the program settles, which says that it finds nothing against the
rest, and not that single values fit.
"""

from collections.abc import Sequence
from contextlib import suppress
from dataclasses import dataclass

from propbench.clock import Clock
from propbench.model.shrinking import shrunk
from propbench.program import OutOfTime
from propbench.questions.hitting import Hitting
from propbench.replies import Contradiction, Blamed, Reply, Settled
from propbench.session import Session


@dataclass(frozen=True)
class Mending:
    """Conflicts and repairs as premises by name, `complete` where these are all. `says` is what
    holds of the rest by a repair."""

    conflicts: tuple[tuple[str, ...], ...]
    repairs: tuple[tuple[str, ...], ...]
    complete: bool
    says: str


SETTLES = "The program finds nothing against the rest."
NOT_MENDED = Mending((), (), False, SETTLES)
FITS = "The rest can hold: the program has found values that fit."


def told(session: Session, most: int, clock: Clock) -> Mending:
    """The conflicts and repairs of a session of which this is the only use, and whose program is
    asked for them; so many of each at the most, and as far as there is time."""
    found: dict[str, Blamed] = {}

    def hear(_: int, reply: Reply) -> None:
        if isinstance(reply, Blamed):
            found[reply.command] = reply
            known = ", ".join(f"{len(each.sets)} {name}" for name, each in found.items())
            clock.tell(f"{known} so far")

    with suppress(OutOfTime):
        for command in ("conflicts", "repairs"):
            line = f"{command} {most}"
            hear(0, session.send(line, seconds=clock.seconds_left(), progress=hear))
    complete = len(found) == 2 and all(each.is_all for each in found.values())
    conflicts, repairs = found.get("conflicts"), found.get("repairs")
    return Mending(
        conflicts.sets if conflicts else (), repairs.sets if repairs else (), complete, FITS
    )


def mended(session: Session, premises: Sequence[str], most: int, clock: Clock) -> Mending:
    """The conflicts and the repairs among these premises, all of them believed in a session of
    which this is the only use; so many of both at the most, and as far as there is time."""
    found = _Found(session, premises)
    with suppress(OutOfTime):
        while len(found.conflicts) + len(found.repairs) < most and found.step(clock):
            clock.tell(f"{len(found.conflicts)} conflicts, {len(found.repairs)} repairs so far")
    return Mending(tuple(found.conflicts), tuple(found.repairs), found.complete, SETTLES)


class _Found:
    """The conflicts and repairs that are known, all there are where it is complete."""

    def __init__(self, session: Session, premises: Sequence[str]) -> None:
        self._session, self._premises = session, premises
        self._bits = {premise: 1 << place for place, premise in enumerate(premises)}
        self._hitting = Hitting([1.0] * len(premises))
        self._is_sure = True
        self.conflicts: list[tuple[str, ...]] = []
        self.repairs: list[tuple[str, ...]] = []
        self.complete = False

    def step(self, clock: Clock) -> bool:
        """Finds one more; whether there may be others, and time for them. Raises OutOfTime."""
        hit = self._hitting.next(clock.is_over)
        if hit is None or clock.is_over():
            self.complete = self._is_sure and self._hitting.is_done
            return False
        session = self._session
        out = [premise for premise in self._premises if self._bits[premise] & hit]
        rest = [premise for premise in self._premises if not self._bits[premise] & hit]
        session.send_all([f"kick {premise}" for premise in out])
        end = session.send("settle", seconds=clock.seconds_left(), progress=lambda *_: clock.tick())
        if isinstance(end, Contradiction):
            least = shrunk(session, rest, end.premises, clock.seconds_left())
            if clock.is_over():
                return False
            self.conflicts.append(tuple(each for each in self._premises if each in least))
            self._hitting.learn(sum(self._bits[each] for each in least))
        else:
            if isinstance(end, Settled):
                self.repairs.append(tuple(out))
            self._is_sure = self._is_sure and isinstance(end, Settled)
            self._hitting.finish(hit)
        session.send_all([f"bring {premise}" for premise in out])
        return True
