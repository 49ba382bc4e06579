"""A session as views see it: its cells, the procedures and compounds on them, its premises."""

from collections.abc import Callable, Sequence
from contextlib import suppress

from propbench.clock import Clock
from propbench.clock import Progress
from propbench.grammar import ASKING
from propbench.known import Known
from propbench.listing import ToldLines
from propbench.model.kinds import point_text
from propbench.program import OutOfTime
from propbench.questions.asking import so_far
from propbench.questions.bounding import Optimum
from propbench.questions.ends import find_optimum
from propbench.replies import Called, Contradiction, Stated, Value, Worldview
from propbench.runs import RunProgress
from propbench.session import Session
from propbench.values import Nothing
from propbench.watching import BestPlan
from propbench.watching.claims import Claim, Source, Wording, claim_of
from propbench.watching.instances import Instances, how_of, listing_of, named
from propbench.watching.lines import SessionLines
from propbench.watching.mending import NOT_MENDED, Mending, mended, told
from propbench.watching.network import Clash, NetworkSeen, Reason, SeenNow, ValueSeen
from propbench.watching.session_model import SessionModel
from propbench.watching.steps import CallInWords, RunReading, Steps

# What is said of a plan: the program finds nothing against its values.
SETTLES = "With one value for each cell the program settles."
# So many conflicts and repairs are looked for at the most.
_MOST_MENDS = 30
# So many seconds the program's search for these has: it looks for points, and where numbers have no
# end it may narrow one for good.
_SEARCH = 3.0


class SessionWatched:
    """A session of the language. Its lines may be sent by others too, between what is asked
    here."""

    is_workbench = False

    def __init__(self, session: Session, source: Sequence[str] = ()) -> None:
        """A session, and the lines of a file that it was told so far, with comments and all."""
        self.session = session
        self._source = list(source)
        self._since = len(session.lines)
        self._lines = SessionLines(lambda until: listing_of(session, until))
        # The premises under which a side of a choice is wished for.
        self._wishes: dict[tuple[str, int], str] = {}

    def network(self) -> NetworkSeen:
        return self._read().network(self._known)

    def see(self, progress: RunProgress | None = None) -> SeenNow:
        self.session.send("settle", progress=progress)
        return self._known_in(self.session)

    def known(self) -> SeenNow:
        return self._known_in(self.session)

    def core(self, cell: str, progress: RunProgress | None = None) -> ValueSeen | None:
        reply = self.session.send(f"core {cell}", progress=progress)
        return self._shown(reply) if isinstance(reply, Value) else None

    def believe(self, premise: str, is_believed: bool) -> None:
        self.session.send(f"{'bring' if is_believed else 'kick'} {premise}")

    def wish(self, choice: str, side: int | None) -> None:
        sides = self._told.choices[choice]
        believed = set(self._believed())
        for (other, _), premise in self._wishes.items():
            if other == choice and premise in believed:
                self.session.send(f"kick {premise}")
        if side is None:
            return
        premise = self._wishes.get((choice, side), "")
        if not premise:
            premise = self._fresh(f"wish_{choice}_{side + 1}")
            self.session.send(f"tell {premise} {sides[side].cell} {sides[side].value}")
            self._wishes[choice, side] = premise
        else:
            self.session.send(f"bring {premise}")

    def wished(self) -> dict[str, int]:
        believed = set(self._believed())
        return {choice: side for (choice, side), each in self._wishes.items() if each in believed}

    def mend(self, progress: Progress | None = None, seconds: float | None = None) -> Mending:
        clock = Clock(seconds, progress)
        searched = self._mended_by(clock, self._by_search)
        return searched if searched.complete else self._mended_by(clock, self._by_what_follows)

    def _mended_by(self, clock: Clock, mend: Callable[[Session, Clock], Mending]) -> Mending:
        """What one way of mending finds, in a session of its own, as far as there is time."""
        with self.session.fresh() as other:
            other.end_by(clock.latest)
            with suppress(OutOfTime):
                return mend(other, clock)
        return NOT_MENDED

    def _by_search(self, other: Session, clock: Clock) -> Mending:
        if not other.blames:
            return NOT_MENDED
        other.send_all(self.lines())
        return told(other, _MOST_MENDS, clock.turn(_SEARCH))

    def _by_what_follows(self, other: Session, clock: Clock) -> Mending:
        believed = self._believed(self._read(clock.last).told)
        other.send_all(self.lines())
        return mended(other, believed, _MOST_MENDS, clock)

    def without(self, premises: Sequence[str], progress: RunProgress | None = None) -> SeenNow:
        with self.session.fresh() as other:
            other.send_all([*self.lines(), *(f"kick {premise}" for premise in premises)])
            other.send("settle", progress=progress)
            return self._known_in(other)

    def best(
        self, cell: str, sort: str, progress: Progress | None = None, seconds: float | None = None
    ) -> BestPlan:
        clock = Clock(seconds, progress)
        model = SessionModel(self.session, self.lines(), self._read(clock.last).told)
        left = clock.seconds_left()
        found = so_far(lambda: find_optimum(model, cell, sort, Clock(left, progress)), Optimum)
        return BestPlan(
            found.headline(),
            tuple((name, point_text(value)) for name, value in (found.plan or {}).items()),
            found.proved,
            SETTLES,
        )

    def how(self, cell: str) -> Claim:
        instances = Instances(self.session)
        found = named(how_of(self.session, cell), instances)

        def source(part: Called | Stated) -> Source:
            if isinstance(part, Called):
                call = self._call(part, instances)
                return Source("by", call.text, call.use, kind="call")
            choice, mark, _ = part.premise.partition("=")
            if mark:
                return Source("on", self._named(part.premise), choice=choice, kind="choice")
            told = ("told by", part.premise) if part.premise else ("as", "fixed")
            return Source(*told, premise=part.premise)

        return claim_of(
            found, Wording(lambda _, value, __: str(value), source, lambda _: False, lambda it: it)
        )

    def steps(self) -> Steps:
        reading = RunReading(self._shown, self._named, self._call)
        return Steps(self.session.fresh(), self.lines(), list(self._known.cells), reading)

    def lines(self) -> list[str]:
        return [line for line in self.session.lines if not _is_aside(line)]

    def saved(self) -> list[str]:
        since = self.session.lines[self._since :]
        return [*self._source, *(line for line in since if not _is_aside(line))]

    def replay(self) -> None:
        self.session.replay()

    @property
    def _known(self) -> Known:
        return self.session.known

    @property
    def _told(self) -> ToldLines:
        return self._read().told

    def _read(self, until: float | None = None) -> SessionLines:
        """What the lines say. Raises OutOfTime."""
        self._lines.take(self.session.lines, self._known, until)
        return self._lines

    def _call(self, did: Called, instances: Instances) -> CallInWords:
        """A call, with the compound that it is a part of."""
        call = instances.named(did)
        own = " ".join((call.procedure, *call.inputs, call.output))
        attach = instances.attach_of(did)
        if not attach:
            return CallInWords(own, "")
        use = self._read().uses[attach - 1]
        whole = f", of {use.text} {' '.join(use.cells)}" if instances.is_part(did) else ""
        is_inner = call.output not in self._known.cells
        return CallInWords(f"{own}{whole}", use.name, call.output if is_inner else "")

    def _believed(self, told: ToldLines | None = None) -> list[str]:
        told = told or self._told
        return [each for each in told.premises if each and each not in told.kicked]

    def _fresh(self, name: str) -> str:
        """A name that no premise and no choice has."""
        taken = self._known.premises.keys() | self._known.choices.keys()
        while name in taken:
            name += "_"
        return name

    def _known_in(self, session: Session) -> SeenNow:
        """What is known in a session that has this one's cells and choices."""
        replies = session.look([*(f"why {cell}" for cell in session.known.cells), "worldview"])
        found = next((each for each in replies if isinstance(each, Contradiction)), None)
        if found:
            return SeenNow(clash=self._clash(found))
        shown = [self._shown(reply) for reply in replies if isinstance(reply, Value)]
        plan: dict[str, int] = {}
        if isinstance(replies[-1], Worldview):
            sides = (each.partition("=") for each in replies[-1].inside)
            plan = {choice: int(place) - 1 for choice, mark, place in sides if mark}
        is_sure = isinstance(replies[-1], Worldview)
        return SeenNow({each.cell: each for each in shown}, is_sure, None, plan)

    def _clash(self, found: Contradiction) -> Clash:
        told = self._told.premises
        says = {
            each: ", ".join(map(str, told.get(each, ()))) or "(nothing was told)"
            for each in found.premises
        }
        return Clash(found.premises, says, "" if says else "What is fixed can't all hold.")

    def _shown(self, reply: Value) -> ValueSeen:
        reasons = tuple(map(self._reason, reply.because or ()))
        known = not isinstance(reply.value, Nothing)
        return ValueSeen(reply.cell, str(reply.value), reasons, reply.settled, reply.reduced, known)

    def _reason(self, name: str) -> Reason:
        choice, mark, _ = name.partition("=")
        return Reason(self._named(name), choice=choice) if mark else Reason(name, premise=name)

    def _named(self, name: str) -> str:
        """A premise, or what a side of a choice says."""
        side = self._told.side(name)
        return f"{name.partition('=')[0]}: {side}" if side else name


def _is_aside(line: str) -> bool:
    """Whether a line states nothing."""
    return line.split(None, 1)[0] in ASKING | {"limit"}
