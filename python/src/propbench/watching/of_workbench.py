"""A workbench as views see it: the user's cells, and constraints in place of procedures."""

from collections.abc import Iterator, Sequence
from dataclasses import replace

from propbench.clock import Clock
from propbench.clock import Progress
from propbench.model.answers import value_text
from propbench.model.blaming import always
from propbench.model.choosing import first_name
from propbench.model.events import (
    CellMade,
    ConstraintChoice,
    DomainMade,
    Event,
    Required,
    Told,
    ValueChoice,
    values_text,
)
from propbench.model.kinds import Plain, kind_text, point_text
from propbench.model.nodes import Declared, cells_in
from propbench.model.reading import Reader
from propbench.model.saving import saved
from propbench.plain import PlainWorkbench
from propbench.planning.kinds import kind_of
from propbench.questions.asking import so_far
from propbench.questions.bounding import LEAST, Optimum
from propbench.questions.conflicts import SetSearch, find_both
from propbench.questions.needed import believe, believing, needed_in
from propbench.replies import Called, Contradiction, Value, Worldview
from propbench.runs import RunProgress
from propbench.session import Session
from propbench.values import Nothing, Span
from propbench.watching import BestPlan
from propbench.watching.claims import SEARCH, Claim, KnownBy, Source, claim_of
from propbench.watching.instances import Instances, how_of
from propbench.watching.mending import FITS, Mending
from propbench.watching.network import (
    CellSeen,
    ChoiceSeen,
    Clash,
    NetworkSeen,
    Premise,
    Reason,
    SeenNow,
    StatedSeen,
    Use,
    ValueSeen,
)
from propbench.watching.owned import Owned, is_use, wording_of
from propbench.watching.steps import CallInWords, RunReading, Steps
from propbench.words import MOST_NUMBER

# What is said of a plan.
PLAN = "Each constraint was evaluated on this plan."
# So many conflicts, and so many repairs, are looked for at the most.
_MOST_MENDS = 30
# Constraints between cells, and what is said of one cell by premise, "" for what always holds.
_Stated = tuple[tuple[Use, ...], dict[str, tuple[StatedSeen, ...]]]


class WorkbenchWatched:
    """A workbench, in the words of its user."""

    is_workbench = True

    def __init__(self, workbench: PlainWorkbench) -> None:
        self.workbench = workbench
        self._wishes: dict[tuple[str, int], str] = {}
        self._events: list[Event] = []
        self._stated: _Stated = ((), {})

    @property
    def session(self) -> Session:
        return self.workbench.session

    def network(self) -> NetworkSeen:
        made = self.workbench.network
        if self._events != made.events:
            self._events = list(made.events)
            self._stated = _stated(made.events)
        uses, says = self._stated
        premises = (
            Premise(name, name, says.get(name, ()), is_believed)
            for name, is_believed in made.premises.believed.items()
        )
        return NetworkSeen(
            tuple(CellSeen(name, name, kind_text(cell.kind)) for name, cell in made.cells.items()),
            uses,
            tuple(premises),
            tuple(map(_choice, made.premises.choices.values())),
            (*map(_declared, made.cells.values()), *says.get("", ())),
        )

    def see(self, progress: RunProgress | None = None) -> SeenNow:
        self.session.send("settle", progress=progress)
        return self.known()

    def known(self) -> SeenNow:
        made = self.workbench.network
        names = [made.vocabulary.cells.line(cell) for cell in made.cells]
        replies = made.session.look([*(f"why {name}" for name in names), "worldview"])
        found = next((each for each in replies if isinstance(each, Contradiction)), None)
        if found:
            return SeenNow(clash=self._clash(found))
        stands = replies[-1]
        plan = self._reader().plan(stands.inside) if isinstance(stands, Worldview) else {}
        shown = [self._shown(reply, plan) for reply in replies if isinstance(reply, Value)]
        return SeenNow(
            {each.cell: each for each in shown}, isinstance(stands, Worldview), None, plan
        )

    def core(self, cell: str, progress: RunProgress | None = None) -> ValueSeen | None:
        made = self.workbench.network
        line = f"core {made.vocabulary.cells.line(cell)}"
        reply = made.session.send(line, progress=progress)
        if not isinstance(reply, Value):
            return None
        made.session.send("settle", progress=progress)
        [found] = made.session.look(["worldview"])
        plan = self._reader().plan(found.inside) if isinstance(found, Worldview) else {}
        return self._shown(reply, plan)

    def believe(self, premise: str, is_believed: bool) -> None:
        (self.workbench.bring if is_believed else self.workbench.kick)(premise)

    def wish(self, choice: str, side: int | None) -> None:
        made = self.workbench.network
        for (other, _), premise in self._wishes.items():
            if other == choice and made.premises.believed.get(premise):
                made.kick(premise)
        if side is None:
            return
        premise = self._wishes.get((choice, side), "")
        if made.premises.believed.get(premise) is not None:
            made.bring(premise)
            return
        premise = self._state_wish(made.premises.choices[choice], side)
        self._wishes[choice, side] = premise

    def _state_wish(self, event: ValueChoice | ConstraintChoice, side: int) -> str:
        """States that a choice takes an alternative; the premise of that."""
        made = self.workbench.network
        premise = f"{event.name}: {event.sides[side]}"
        while premise in made.premises.believed or premise in made.premises.choices:
            premise += " (wished)"
        if isinstance(event, ValueChoice):
            made.do(Told(event.cell, event.alternatives[side], premise))
        else:
            made.do(*(Required(each, premise) for each in event.alternatives[side][1]))
        return premise

    def wished(self) -> dict[str, int]:
        believed = self.workbench.network.premises.believed
        return {choice: side for (choice, side), each in self._wishes.items() if believed.get(each)}

    def mend(self, progress: Progress | None = None, seconds: float | None = None) -> Mending:
        model = self.workbench.model
        search = SetSearch(_MOST_MENDS, seconds=seconds, progress=progress)
        conflicts, repairs = so_far(lambda: find_both(model, search), tuple)
        return Mending(
            tuple(each.names for each in conflicts),
            tuple(each.names for each in repairs),
            conflicts.complete and repairs.complete,
            FITS,
        )

    def without(self, premises: Sequence[str], progress: RunProgress | None = None) -> SeenNow:
        with self.workbench.what_if(kick=list(premises)):
            return self.see(progress)

    def best(
        self, cell: str, sort: str, progress: Progress | None = None, seconds: float | None = None
    ) -> BestPlan:
        ask = self.workbench.least if sort == "least" else self.workbench.greatest
        found = so_far(lambda: ask(cell, seconds=seconds, progress=progress), Optimum)
        plan = found.plan or {}
        rows = tuple((name, point_text(value)) for name, value in plan.items())
        return BestPlan(found.headline(), rows, found.proved, PLAN)

    def how(self, cell: str, until: float | None = None) -> Claim:
        made = self.workbench.network
        names = made.vocabulary.cells
        found = how_of(made.session, names.line(cell), until)
        return claim_of(found, wording_of(made, Instances(made.session, until), found.sides))

    def how_best(self, found: Optimum, clock: Clock) -> Claim:
        """What makes up that nothing is better than an optimum, by premises that it names; as far
        as that follows without a search. Raises ValueError where that isn't proved."""
        if not found.proved or found.value is None:
            raise ValueError(f"there is no best {found.cell} that is proved: {found.headline()}")
        w = self.workbench
        with believing(w, found.because):
            needed = needed_in(w, found, clock.seconds_left())
            if needed is not None:
                believe(w, needed)
                w.settle(seconds=clock.seconds_left())
                return replace(self.how(found.cell, clock.last), end=_end_of(found))
            # (where there are choices, what is known is that of one plan)
            below = () if w.network.premises.choices else (self.how(found.cell, clock.last),)
            value = _side_of(found)
            sources = (Source("by", "a search", kind=SEARCH), *self._under(found.because))
            way = KnownBy(value_text(value), sources, below, value)
            return Claim(found.cell, value_text(value), (way,), value=value, end=_end_of(found))

    def _under(self, premises: Sequence[str]) -> Iterator[Source]:
        """What is stated under premises, as that from which something comes."""
        stated = self.workbench.network.premises.statements
        for name in premises:
            kinds = [kind_of(each) for each in stated.get(name, ())]
            yield Source("under", name, premise=name, kind=(kinds or ["statement"])[0])

    def steps(self) -> Steps:
        made = self.workbench.network
        names = [made.vocabulary.cells.line(cell) for cell in made.cells]
        lines = made.base()
        owned = Owned(made, made.base_owners(), lines)

        def call(did: Called, instances: Instances) -> CallInWords:
            owner = owned.of_call(did, instances)
            if owner is None or isinstance(owner.event, DomainMade | CellMade):
                return CallInWords(did.procedure, "")
            return CallInWords(f"{did.procedure}, of {owner.event.text}", owned.use(owner.event))

        reading = RunReading(lambda reply: self._shown(reply, {}), self._named, call)
        return Steps(made.session.fresh(), lines, names, reading)

    def lines(self) -> list[str]:
        return self.workbench.network.base()

    def saved(self) -> list[str]:
        return list(saved(self.workbench.network, self.workbench._noted()))

    def replay(self) -> None:
        self.workbench.network.begin_anew()

    def _reader(self) -> Reader:
        made = self.workbench.network
        return Reader(made.vocabulary, made.premises)

    def _named(self, line: str) -> str:
        """What the user calls a premise of a line, or an alternative."""
        return self._reader().premise(line, {})

    def _clash(self, found: Contradiction) -> Clash:
        made = self.workbench.network
        names = list(dict.fromkeys(made.vocabulary.premises.text(each) for each in found.premises))
        says = {name: made.premises.text(name) for name in names}
        if says:
            return Clash(tuple(says), says, "")
        texts = "; ".join(always(made))
        return Clash((), {}, f"What always holds can't hold by itself: {texts or 'see the lines'}.")

    def _shown(self, reply: Value, plan: dict[str, int]) -> ValueSeen:
        made = self.workbench.network
        cell = made.cells[made.vocabulary.cells.text(reply.cell)]
        answer = self._reader().answer(cell, reply, plan)
        reasons = tuple(dict.fromkeys(self._reason(each, plan) for each in reply.because or ()))
        known = not isinstance(reply.value, Nothing)
        text = value_text(answer.value)
        return ValueSeen(cell.name, text, reasons, reply.settled, reply.reduced, known)

    def _reason(self, line: str, plan: dict[str, int]) -> Reason:
        text = self._reader().premise(line, plan)
        choice, mark, _ = line.partition("=")
        if not mark:
            return Reason(text, premise=text)
        return Reason(
            text, choice=self.workbench.network.vocabulary.premises.text(first_name(choice))
        )


def _end_of(found: Optimum) -> int:
    """The end of the number that an optimum is."""
    return 0 if found.sort == LEAST else 1


def _side_of(found: Optimum) -> Span:
    """The values that an optimum leaves."""
    assert found.value is not None
    is_least = found.sort == LEAST
    return Span(found.value, MOST_NUMBER) if is_least else Span(-MOST_NUMBER, found.value)


def _declared(cell: Declared) -> StatedSeen:
    """What holds of a cell as it was declared; of a number without ends nothing."""
    if cell.kind is not Plain.NUMBER:
        return StatedSeen(f"{cell.name} is {kind_text(cell.kind)}", cell.name)
    if (cell.low, cell.high) == (None, None):
        return StatedSeen(f"{cell.name} is a number")
    low = -MOST_NUMBER if cell.low is None else cell.low
    high = MOST_NUMBER if cell.high is None else cell.high
    return StatedSeen(f"{cell.name} = {values_text(cell, (low, high))}", cell.name)


def _stated(events: Sequence[Event]) -> _Stated:
    """What events state. A constraint on a single cell is what is said of that."""
    uses: list[Use] = []
    says: dict[str, list[StatedSeen]] = {}
    for event in events:
        if isinstance(event, Required):
            cells = tuple(cell.name for cell in cells_in(event.constraint))
            said = StatedSeen(event.text, cells[0] if len(cells) == 1 else "")
            if is_use(event):
                uses.append(Use(str(len(uses) + 1), event.text, cells, "", event.premise or ""))
            if len(cells) < 2 or event.premise:
                says.setdefault(event.premise or "", []).append(said)
        elif isinstance(event, Told):
            says.setdefault(event.premise or "", []).append(StatedSeen(event.text, event.cell.name))
    return tuple(uses), {name: tuple(said) for name, said in says.items()}


def _choice(event: ValueChoice | ConstraintChoice) -> ChoiceSeen:
    if isinstance(event, ValueChoice):
        cells: tuple[str, ...] = (event.cell.name,)
    else:
        nodes = [node for _, constraints in event.alternatives for node in constraints]
        cells = tuple(dict.fromkeys(cell.name for node in nodes for cell in cells_in(node)))
    return ChoiceSeen(event.name, event.name, event.sides, cells)
