"""The network of a workbench: what was stated so far, and the session that holds it.

What is stated is carried out whole or not at all: a record of all of it is put in the place of the
one before only when the program was told everything. A copy has a session of its own.
"""

from collections.abc import Callable, Iterable, Iterator, Sequence
from contextlib import contextmanager
from dataclasses import dataclass, field, replace
from typing import TypeVar

from propbench.model.either import Either
from propbench.model.events import ConstraintChoice, Event, Required, ValueChoice
from propbench.model.first import First
from propbench.model.kinds import Domain
from propbench.model.kit import offered, written
from propbench.model.nodes import Declared, Node
from propbench.model.premises import PremisesInOrder
from propbench.model.record import Index, Record
from propbench.model.script import Owner, Script
from propbench.model.vocabulary import Vocabulary
from propbench.model.writer import YES
from propbench.refusals import LimitReached, LineTooLong, NotAName, Refused
from propbench.session import Session


_Found = TypeVar("_Found")


@dataclass
class ProgramKnown:
    """What is known of the program: procedures that it offers, and whether it takes words for
    names. It is the same for all copies."""

    offered: frozenset[str] = frozenset()
    names: dict[str, bool] = field(default_factory=dict)


class Network:
    """Events in order, premises, and the program that was told all of it.

    All that is kept is the record. The index, the script and the session know of which record they
    are; where that is another, as behind a line that was refused, they are made anew when they are
    needed next.
    """

    def __init__(
        self, session: Session, program: ProgramKnown | None = None, record: Record | None = None
    ) -> None:
        """What a record has, or nothing as yet, in a session to which nothing was said."""
        self._session = session
        self._program = program or ProgramKnown()
        self._record = record or Record()
        self._index = Index(self._record)
        self._script = self.new_script()
        # The records of which the script has the lines, and of which the session was told them.
        self._written: Record | None = None
        self._told: Record | None = None
        # Whether the session was never told anything.
        self._is_fresh = True
        # Whether something is being stated, of which the index has more than the record.
        self._is_stating = False
        # The names of premises that the session knows and nothing is stated under any more.
        self._forgotten: set[str] = set()
        # What makes the network from nothing, while that is known, and whether the script does.
        self._base: Script | None = None
        self._is_whole = True
        # What the session was told last, where the record was restated since then.
        self._before: Record | None = None
        if program is None:
            self._program.offered = offered(self.session, YES)

    # --- what there is ---

    @property
    def events(self) -> Sequence[Event]:
        """What was stated, in order."""
        return self._now().events

    @property
    def record(self) -> Record:
        """All that is kept: another one since anything was stated, kicked out or brought in."""
        return self._record

    @property
    def cells(self) -> dict[str, Declared]:
        """The cells by name, in the order in which they were made."""
        return self._now().cells

    @property
    def domains(self) -> dict[str, Domain]:
        """The domains by name."""
        return self._now().domains

    @property
    def premises(self) -> PremisesInOrder:
        """The premises and choices."""
        return self._now().premises

    @property
    def first(self) -> tuple[First, ...]:
        """Whose values questions try out first."""
        return self._record.first

    @property
    def offered(self) -> frozenset[str]:
        """The procedures of the wider kit that the program has."""
        return self._program.offered

    @property
    def session(self) -> Session:
        """The session, which was told all that is stated, and nothing else."""
        if self._told is not self._record:
            self._catch_up()
        return self._session

    @property
    def vocabulary(self) -> Vocabulary:
        """How things are called on lines."""
        return self._writing().vocabulary

    @property
    def lacks(self) -> list[str]:
        """What was written for which the program has no procedure, as a user writes it."""
        return written(self._writing().writer.missed)

    # --- what is stated ---

    def do(self, *events: Event) -> None:
        """Carries out events. Where a line of one is refused, nothing of any is kept.

        Raises ValueError where the program has no room for it, or it can't be said on lines.
        """
        self.whole(lambda: self._add(events))

    def whole(self, state: Callable[[], _Found]) -> _Found:
        """Has all events that a function carries out be told at once in the end, or none: where one
        is refused, or it ends by another exception, Ctrl-C included, all is as it was before.
        Within another it is a part of that."""
        # (no context manager: Ctrl-C between a block and what ends it would leave that undone)
        if self._is_stating:
            return state()
        self._now()
        try:
            self._is_stating = True
            found = state()
            self._carry_out()
            return found
        finally:
            self._is_stating = False

    def restate(self, events: Iterable[Event], state: Callable[[], _Found]) -> _Found:
        """Has these events take the place of all that is stated, and then what a function states;
        or all is as it was before. The premises stay as they are. (The program is told all of it
        with the next use, so that what is restated several times is told once.)"""
        before, was_stating = self._record, self._is_stating
        try:
            self._is_stating, self._record = True, before.with_events(list(events))
            self._index = Index(self._record)
            found = state()
            stands = self._record.with_events(self._index.events)
            self._record = self._index.record = stands
            self._before = self._before or before
            return found
        except BaseException:
            self._record = before
            raise
        finally:
            self._is_stating = was_stating

    def kick(self, premise: str) -> None:
        """A premise is no longer believed."""
        self._believe(premise, False)

    def bring(self, premise: str) -> None:
        """A premise is believed again."""
        self._believe(premise, True)

    def forget(self, premise: str) -> None:
        """All that was stated under a premise goes, and the premise with it."""
        name = self.vocabulary.premises.line(premise)
        self._leave()
        # (a premise that nothing names is believed, in case that it is named again)
        self._session.send_all([f"bring {name}", f"forget {name}"])
        self._script.forget(premise)
        self._forgotten.add(premise)
        self._base, self._is_whole = None, False
        self._index.forget(premise)
        self._stand(self._record.believing(premise, True))

    def try_first(self, first: tuple[First, ...]) -> None:
        """Questions try out these values first from now on."""
        self._leave()
        self._stand(replace(self._record, first=first))

    @contextmanager
    def tried(self) -> Iterator[Session]:
        """The session, to try something in it that is taken back in the end. Where it doesn't come
        to that, the session is told anew what is stated."""
        session, record = self.session, self._record
        self._told = None
        yield session
        self._told = record

    def _believe(self, premise: str, is_believed: bool) -> None:
        name = self.vocabulary.premises.line(premise)
        self._leave()
        self._session.send(f"{'bring' if is_believed else 'kick'} {name}")
        self._index.premises.believed[premise] = is_believed
        self._stand(self._record.believing(premise, is_believed))

    def _add(self, events: Sequence[Event]) -> None:
        self._index.record = None
        for event in events:
            self._index.add(event)

    def _carry_out(self) -> None:
        """Tells the program what is stated and it wasn't told."""
        events = self._index.events[self._record.count :]
        if not events:
            return
        choices = (each for each in events if isinstance(each, (ValueChoice, ConstraintChoice)))
        if any(choice.name in self._forgotten for choice in choices):
            # (the program keeps the name of a premise, and gives it to no choice)
            self._written = None
        self._leave()
        try:
            lines = [line for event in events for line in self._script.lines_of(event)]
            self._session.send_all(lines)
        except (LimitReached, LineTooLong, RecursionError) as error:
            raise ValueError(f"{_why_not(error)}; nothing of this was stated") from None
        self._base = None
        self._stand(self._record)

    def _leave(self) -> None:
        """The index, the script and the session become those of another record: of none, should it
        not come to that."""
        self._now()
        self._catch_up()
        self._written = self._told = self._index.record = None

    def _stand(self, record: Record) -> None:
        """The index, the script and the session are those of this record from now on, with all
        events that the index has."""
        stands = record.with_events(self._index.events)
        self._index.record = self._written = self._told = stands
        self._record = stands

    # --- what follows from the record ---

    def _now(self) -> Index:
        """The index, which is that of the record, or of what is being stated."""
        if self._index.record is not self._record and not self._is_stating:
            self._index = Index(self._record)
        return self._index

    def _writing(self) -> Script:
        """The script, which has the lines of the record."""
        if self._written is not self._record:
            self._written = self._told = self._base = None
            self._script, self._is_whole = self.new_script(), True
            for event in self._record.events[: self._record.count]:
                self._script.lines_of(event)
            self._script.writer.taken()
            self._written = self._record
        return self._script

    def _catch_up(self) -> None:
        """Sees to it that the session was told the lines of the record, and nothing else. Where the
        program has no room for what was restated, raises ValueError, and it is gone."""
        before, self._before = self._before, None
        try:
            self._tell_all()
        except (LimitReached, LineTooLong, RecursionError) as error:
            if before is None:
                raise
            self._record = before
            raise ValueError(f"{_why_not(error)}; what was said last is gone") from None
        except BaseException:
            self._before = before
            raise

    def _tell_all(self) -> None:
        script = self._writing()
        if self._told is not self._record:
            lines = [*script.writer.lines, *self.kicks(script.vocabulary)]
            is_fresh, self._is_fresh = self._is_fresh, False
            if is_fresh:
                self._session.send_all(lines)
            else:
                self._session.replay(lines)
            self._forgotten.clear()
            self._told = self._record

    # --- copies ---

    def copy(self, events: Sequence[Event] | None = None) -> "Network":
        """The same in a session of its own; with other events where these are given, of which
        none is kicked out."""
        record = self._record.with_events(list(self.events))
        if events is not None:
            record = replace(record.with_events(list(events)), kicked=frozenset())
        return Network(self._session.fresh(), self._program, record)

    def begin_anew(self) -> None:
        """Has the program begin anew, with what is known to be carried out."""
        self._written = None
        self._catch_up()

    def close(self) -> None:
        """Ends the program."""
        self._session.close()

    # --- lines ---

    def base(self) -> list[str]:
        """The lines that make the network as it is: a fresh session that is sent these is in the
        state of this one."""
        return [*self._based().writer.lines, *self.kicks(self.vocabulary)]

    def new_script(self) -> Script:
        """A script that begins from nothing, with names too: what was forgotten, or refused, has
        left none."""
        return Script(Vocabulary(self._is_taken_as_name), self._offers)

    def kicks(self, vocabulary: Vocabulary) -> list[str]:
        """The lines that kick out what isn't believed, by names of this vocabulary."""
        believed, names = self.premises.believed, vocabulary.premises
        return [f"kick {names.line(name)}" for name, is_in in believed.items() if not is_in]

    @property
    def forks(self) -> dict[str, Either]:
        """Inner truths of the base, by which one way or another is taken where one of some holds,
        by their cells on lines."""
        return self._based().translation.forks

    def lines_of(self, constraint: Node) -> list[str]:
        """The lines of the base that state a constraint, wherever it was required."""
        lines: dict[str, None] = {}
        base = self._based()
        for event in self.events:
            if isinstance(event, Required) and event.constraint is constraint:
                lines.update(dict.fromkeys(base.explained(event)))
        return list(lines)

    def owners(self) -> dict[str, Owner]:
        """What the lines are for that the session was told, by the line."""
        return self._writing().owners()

    def base_owners(self) -> dict[str, Owner]:
        """What the lines of the base are for."""
        return self._based().owners()

    def _based(self) -> Script:
        """A script of what is stated alone, with the names that it has."""
        script = self._writing()
        if self._base is None and self._is_whole:
            self._base = script
        elif self._base is None:
            self._base = Script(script.vocabulary, self._offers)
            for event in self.events:
                self._base.lines_of(event)
        return self._base

    def _offers(self, name: str) -> bool:
        return name in self._program.offered

    def _is_taken_as_name(self, word: str) -> bool:
        """Whether the program takes a word for a name: nothing changes by asking."""
        known = self._program.names
        if word not in known:
            try:
                self._session.send(f"ask {word}")
                known[word] = True
            except NotAName:
                known[word] = False
            except Refused:
                known[word] = True
        return known[word]


def _why_not(error: LimitReached | LineTooLong | RecursionError) -> str:
    """Why something can't be carried out, in the user's words."""
    if isinstance(error, LimitReached):
        return f"the program has no room for more {error.text.rpartition(': ')[2]}"
    if isinstance(error, LineTooLong):
        return "a line of the program has no room for so many and so long names"
    return "an expression is nested too deeply: name parts of it by cells of their own"
