"""A run told step by step: what is done in each step, what is known after it, and what changed.

The run is that of a session of its own, which is told the same lines and begins from nothing. Each
step is a `step` of propwide, which tells what was called or which choice moved. Of another program
it is a `settle` under `limit 1`, and nothing says what it called. After it each cell is asked.
"""

from collections.abc import Callable, Sequence
from dataclasses import dataclass, replace

from propbench.refusals import Refused, UnknownCommand
from propbench.replies import Called, Contradiction, Moved, Nogoods, Reply, Settled, Value
from propbench.session import Session
from propbench.watching.instances import Instances
from propbench.watching.network import Reason, ValueSeen


@dataclass(frozen=True)
class CellChange:
    """A cell that another value is known of after a step, or the same for other reasons."""

    cell: str
    before: str
    after: str
    because: tuple[Reason, ...]


@dataclass(frozen=True)
class Frame:
    """What a step did and changed: frame 0 has what is known before the first.

    `nogoods` are the sets that were found to be impossible in it, as texts, and `end` how the run
    ended, "" where it goes on. `does` says what was called or moved, and `use` names the use that
    the procedure belongs to; both are "" where the program doesn't tell.
    """

    number: int
    changes: tuple[CellChange, ...]
    nogoods: tuple[tuple[str, ...], ...] = ()
    end: str = ""
    does: str = ""
    use: str = ""


@dataclass(frozen=True)
class CallInWords:
    """A call in a user's words, the name of the use that it is of, "" where it is of none, and that
    of its output where this is a cell within a compound, else ""."""

    text: str
    use: str
    inner: str = ""


@dataclass(frozen=True)
class RunReading:
    """How a run is read: how the reply about a cell is shown, what a premise of a line is called,
    and whose call it is that a step tells."""

    shown: Callable[[Value], ValueSeen]
    named: Callable[[str], str]
    call: Callable[[Called, Instances], CallInWords]


class Steps:
    """The frames of a run, taken as far as they are looked at."""

    def __init__(
        self, session: Session, lines: Sequence[str], cells: Sequence[str], reading: RunReading
    ) -> None:
        """The run of a fresh session, which is told these lines, over cells by their names on
        lines. The session is closed by `close`."""
        self._session, self._reading = session, reading
        self._read, self._named = reading.shown, reading.named
        self._tells = True
        self._instances: Instances | None = None
        self._asks = [f"why {cell}" for cell in cells]
        self._known: dict[str, ValueSeen] = {}
        self._nogoods: set[frozenset[str]] = set()
        session.send_all(lines)
        session.drop_lines()
        [end] = self._looked(["settle"])
        self.frames = [Frame(0, self._changes(), (), self._end(end))]

    def close(self) -> None:
        """Ends the session."""
        self._session.close()

    @property
    def is_over(self) -> bool:
        """Whether the last frame is the end of the run."""
        return bool(self.frames[-1].end)

    def take(self, number: int) -> list[Frame]:
        """The frames up to this one, or to the end of the run where that comes sooner."""
        while len(self.frames) <= number and not self.is_over:
            self.frames.append(self._step())
        return self.frames[: number + 1]

    def _step(self) -> Frame:
        did = self._taken()
        [end] = self._looked(["settle"])
        frame = Frame(len(self.frames), self._changes(), self._new_nogoods(), self._end(end))
        if isinstance(did, Called):
            self._instances = self._instances or Instances(self._session)
            call = self._reading.call(did, self._instances)
            inner = [Value(call.inner, did.value, True, did.because)] if call.inner else []
            changes = (*self._among(inner), *frame.changes)
            return replace(frame, changes=changes, does=call.text, use=call.use)
        if isinstance(did, Moved):
            does = f"{self._named(did.left)} is left for {self._named(did.taken)}"
            return replace(frame, does=does)
        return frame

    def _taken(self) -> Called | Moved | None:
        """What is done in the step that is taken here, None where the program doesn't tell."""
        if self._tells:
            try:
                did = self._session.step().did
                return did if isinstance(did, Called | Moved) else None
            except UnknownCommand:
                self._tells = False
        self._session.send("limit 1")
        self._session.send("settle")
        return None

    def _end(self, reply: Reply | Refused) -> str:
        if isinstance(reply, Contradiction):
            return f"contradiction: {', '.join(map(self._named, reply.premises)) or 'no premise'}"
        return "settled" if isinstance(reply, Settled) else ""

    def _changes(self) -> tuple[CellChange, ...]:
        """The cells of which something else is known than before."""
        return self._among(self._looked(self._asks))

    def _among(self, replies: Sequence[Reply | Refused]) -> tuple[CellChange, ...]:
        """Those among the cells that are told of."""
        found: list[CellChange] = []
        for reply in replies:
            if not isinstance(reply, Value):
                continue
            shown = self._read(reply)
            before = self._known.get(shown.cell)
            is_new = before is None or (before.text, before.because) != (shown.text, shown.because)
            if is_new and (before or shown.is_known):
                text = before.text if before else ""
                found.append(CellChange(shown.cell, text, shown.text, shown.because))
            self._known[shown.cell] = shown
        return tuple(found)

    def _new_nogoods(self) -> tuple[tuple[str, ...], ...]:
        [reply] = self._looked(["nogoods"])
        sets = reply.sets if isinstance(reply, Nogoods) else ()
        found = [each for each in sets if frozenset(each) not in self._nogoods]
        self._nogoods.update(map(frozenset, found))
        return tuple(tuple(map(self._named, each)) for each in found)

    def _looked(self, questions: Sequence[str]) -> list[Reply | Refused]:
        replies = self._session.look(questions)
        self._session.drop_lines()
        return replies
