"""A session: the program as an object, line by line or many lines at once.

Every reply is the program's. A question is asked in slices of the limit, so that it can be stopped
where it stands; what the user's own `limit` says is kept. One call has the session at a time; what
ends a call early, at whatever place, leaves what was carried out.
"""

import os
import sys
import threading
import time
import weakref
from collections.abc import Iterable, Mapping
from itertools import count
from types import FrameType, MappingProxyType
from typing import Literal, overload

from propbench.batch import Batch, as_lines
from propbench.beginning import MOST_SEED, ORDERS, STEPS
from propbench.blamed import Blamed
from propbench.closing import Closing
from propbench.conversation import Conversation, WrongReply
from propbench.finding import find_program
from propbench.given import seconds_given
from propbench.grammar import ASKING, BLAMING, FORMS, REQUIRING, RUNNING, SEEKING
from propbench.known import Known
from propbench.points import Best, NoneFits, Points, Several, SoFar
from propbench.program import OutOfTime, Program, ProgramEnded, StillAtWork
from propbench.refusals import Refused, UnknownCommand
from propbench.replies import DONE, SILENT, How, Listing, Reply, Step, Unsettled
from propbench.runs import LATE, PATIENCE, RunProgress, Question, Runner, Watch, is_settled
from propbench.seeking import Seeking
from propbench.words import MOST_STEPS, as_line, is_silent

# How long, in seconds, a program that owes a reply is waited for where it isn't at work: it may be
# that another process is, which it has begun.
_GRACE = 3.0
# (within the class `list` is what it does)
Texts = list[str]
ReplyList = list[Reply]
Outcomes = list[Reply | Refused]
# With what most questions begin, and with what those for points do.
_QUESTIONS = frozenset(("ask ", "why "))
_SEARCHING = (*SEEKING, *BLAMING)


class SessionInUse(RuntimeError):
    """A session was used while a call of it was running, by another thread or within that call; or
    in a child that was forked, where it is the parent's. Nothing was sent, and the call that is
    running goes on."""


class Session(Closing):
    """A session of the program, which any thread of this process may use, one call at a time: a
    call while another is running raises SessionInUse. `close` alone may come at any time, and ends
    what is running. A child that is forked can't use it."""

    def __init__(
        self,
        program: str | os.PathLike[str] | None = None,
        *,
        order: str = "fifo",
        seed: int = 0,
        limit: int | None = None,
    ) -> None:
        """Starts the program: the one given, or the one that is found (see `find_program`).

        `order` says which waiting procedure comes next: "fifo", "lifo", or "mixed", which begins
        with `seed`. `limit` is the most steps of a run, 10^9 where it is None. Raises ValueError
        for another order, seed or limit than the program takes, NoProgram, and ProgramEnded.
        """
        if order not in ORDERS:
            raise ValueError(f"the order is none of fifo, lifo and mixed: {order!r}")
        if not 0 <= seed <= MOST_SEED:
            raise ValueError(f"the seed is not a number from 0 to {MOST_SEED}: {seed}")
        if limit is not None and not 0 <= limit <= MOST_STEPS:
            raise ValueError(f"the limit is not a number from 0 to {MOST_STEPS}: {limit}")
        found = find_program(program)
        self._found = found
        self._order, self._seed = order, seed
        self._command = [found.path, "--order", order, "--seed", str(seed)]
        self._first_limit = STEPS if limit is None else limit
        self._sent = 0
        self._tells: tuple[str, ...] | None = None
        self._closed = False
        self._until: float | None = None
        self._turn = Turn()
        self._process = os.getpid()
        # The program that is being begun anew, if one is.
        self._coming: Program | None = None
        # What those who ask a session much keep of it, by their names; it goes with the session.
        self.kept: dict[str, object] = {}
        # After so many steps of a question for points it is told what is known, where that is said.
        self.steps_of_slice: int | None = None
        _notice_ends()
        self._use(self._begun(None))
        _sessions.add(weakref.ref(self, _sessions.discard))

    def fresh(self) -> "Session":
        """A session of its own, of the same program, that begins as this one did.

        >>> with Session() as session, session.fresh() as other:
        ...     print(session.send("cell x span"), other.send("cell x span"))
        ok ok
        """
        return Session(self.program, order=self._order, seed=self._seed, limit=self._first_limit)

    @property
    def program(self) -> str:
        """The path of the program.

        >>> with Session() as session:
        ...     print(session.program.rpartition("/")[2] in ("propbench", "propwide"))
        True
        """
        return self._found.path

    @property
    def proved(self) -> bool:
        """Whether the program is known to be built from proofs.

        >>> with Session() as session:
        ...     print(session.proved in (True, False))
        True
        """
        return self._found.proved

    @property
    def lines(self) -> Texts:
        """The lines that were carried out, in order, without those that were silent or refused.

        A program that is given these lines answers as this session did. A question that was cut
        stands between a `limit` of the steps that its run took and the limit that was in force.
        What the program is at work on yet is not among them.

        >>> with Session() as session:
        ...     for line in ["cell x span", "# a comment", "fix x 3"]:
        ...         reply = session.send(line)
        ...     print(session.lines)
        ['cell x span', 'fix x 3']
        """
        return list(self._talk.lines)

    @property
    def known(self) -> Known:
        """The names that the lines so far have declared.

        >>> with Session() as session:
        ...     session.send("cell x span")
        ...     print(dict(session.known.cells))
        Done()
        {'x': 'span'}
        """
        return self._seen().read_known()

    @property
    def limit(self) -> int:
        """The most steps of a run, as given last.

        >>> with Session(limit=1000) as session:
        ...     print(session.limit)
        1000
        """
        return self._seen().read_limit(self._first_limit)

    @property
    def pid(self) -> int:
        """The number of the program's process.

        >>> with Session() as session:
        ...     print(session.pid > 0)
        True
        """
        return self._talk.program.pid

    def close(self) -> None:
        """Ends the program, and a call that another thread has running: that raises ProgramEnded.
        Nothing can be sent after that. What it was to `keep` is closed as well.

        >>> session = Session()
        >>> session.close()
        >>> session.send("cell x span")
        Traceback (most recent call last):
        RuntimeError: the session is closed
        """
        self._closed = True
        try:
            self._end_program()
        finally:
            for each in [*self.kept.values()]:
                if isinstance(each, Closing):
                    each.close()

    def _end_program(self) -> None:
        """Ends the program, and a call that another thread has running."""
        turn, program = self._turn, self._talk.program
        is_free = turn.lock.acquire(False)
        if not is_free and turn is not _NOBODYS and self._users():
            program.strike()
            if self._coming:
                self._coming.strike()
            return
        try:
            if self._talk.in_step and program.is_open and is_free:
                self._talk.in_step = False
                program.end()
        finally:
            program.kill()
            if is_free:
                turn.lock.release()

    def end_by(self, until: float | None) -> None:
        """Has the session last until then, a time of the monotonic clock, or without an end: who
        waits for a reply longer gets OutOfTime, and the program is ended, at work or not. That is
        for a session that is a question's own.

        >>> import time
        >>> with Session() as session:
        ...     session.end_by(time.monotonic() + 60)
        ...     print(session.send("cell x span"))
        ok
        """
        self._until = self._talk.program.until = until

    def send(
        self,
        line: str | bytes,
        *,
        seconds: float | None = None,
        progress: RunProgress | None = None,
    ) -> Reply:
        """Sends one line, and gives its reply.

        A question that isn't settled after `seconds` (to within a slice of the run) is answered
        with what is known then: unsettled, or `not reduced` by a `core`. The next question goes on
        from there. `progress` is called after each slice that doesn't settle, with the steps so far
        and what is known. Where it raises, and at Ctrl-C, the run ends, and the session goes on.

        The call comes back within a second after `seconds`. Where a slice takes longer the answer
        is what was known before, or OutOfTime is raised where nothing was. A program that is at
        work goes on with the slice, and the next use of the session waits for it first: within its
        own `seconds`, or for 20 seconds. One that hangs is ended, and the next use begins it anew;
        so is one that has not carried out a statement by then.

        Raises the Refused of the number that the program answers, ProgramEnded, SessionInUse, and
        ValueError where a line feed stands within the line.

        >>> with Session() as session:
        ...     session.send("cell x span")
        ...     session.send("tell ana x 3..5")
        ...     print(session.send("why x"))
        Done()
        Done()
        x = 3..5 because ana
        """
        text = line if isinstance(line, str) and "\n" not in line else as_line(line)
        watch, until, is_kept = None, self._until, False
        if seconds is not None or progress is not None:
            limit = seconds_given(seconds)
            watch = Watch(None if limit is None else time.monotonic() + limit, progress)
            until = _earlier(until, watch.latest)
            is_kept = until == watch.latest
        turn = self._turn
        if not turn.lock.acquire(False) or turn is not self._turn:
            turn = self._see_whose_turn()
        try:
            talk = self._talk
            if talk.in_step:
                talk.program.until, talk.program.is_kept = until, is_kept
            else:
                self._be_ready(until, is_kept)
            self._sent += 1
            if watch is None and text[:4] in _QUESTIONS:
                return self._runner.ask(text, self._sent)
            if watch is not None or "core" in text or text.startswith(_SEARCHING):
                return self._send_watched(text, watch or Watch())
            self._runner.tell(text)
            # What the line asks is looked at while the program is at work.
            words = text.split()
            if words and words[0] in RUNNING:
                return self._runner.hear(text, words, self._sent)
            return self._heard(text, words)
        finally:
            turn.lock.release()

    @overload
    def send_all(self, lines: Iterable[str | bytes], *, until: float | None = None) -> ReplyList:
        ...

    @overload
    def send_all(
        self,
        lines: Iterable[str | bytes],
        *,
        keep_refused: Literal[True],
        until: float | None = None,
    ) -> Outcomes:
        ...

    def send_all(
        self,
        lines: Iterable[str | bytes],
        *,
        keep_refused: bool = False,
        until: float | None = None,
    ) -> ReplyList | Outcomes:
        """Sends lines without waiting for the replies in between, and gives the reply to each.

        All lines are carried out but those that are refused. The first of these is raised in the
        end, with the replies and refusals to all lines in its `replies`; with `keep_refused` none
        is raised, and each stands in its line's place.

        A question is one run here. `until` is a time of the monotonic clock: OutOfTime is raised
        then. Where the time is over before, or the program at work yet, nothing is sent; else the
        program is ended. At that, and at Ctrl-C, the lines whose replies have come count as carried
        out, and no others; the next use of the session begins the program anew with these. Raises
        ProgramEnded, and ValueError, before anything is sent, for a line feed within a line.

        >>> with Session() as session:
        ...     *_, reply = session.send_all(["cell x span", "tell ana x 3..5", "ask x"])
        ...     print(reply.value.low, reply.value.high)
        3 5
        """
        texts = as_lines(lines)
        turn = self._take_turn()
        try:
            self._be_ready_in_time(until)
            if self._talk.program_limit != self._talk.limit:
                self._talk.set_limit(self._talk.limit)
            batch = Batch(self._talk, texts, self._sent)
            self._sent += len(texts)
            batch.run()
        finally:
            turn.lock.release()
        if batch.first_refused and not keep_refused:
            batch.first_refused.replies.extend(batch.replies)
            raise batch.first_refused
        return batch.replies

    def look(self, questions: Iterable[str], *, until: float | None = None) -> Outcomes:
        """What is known now: the replies to questions that are asked without a step being taken.

        Where what is known is settled, they leave no trace in `lines`. `until` is as that of
        `send_all`.

        >>> lines = ["cell x span", "cell y span", "attach adder x x y", "fix x 3"]
        >>> with Session() as session:
        ...     said = session.send_all(lines)
        ...     print(*session.look(["ask x", "ask y"]), sep="; ")
        x = 3 unsettled; y = nothing unsettled
        """
        texts = as_lines(questions)
        turn = self._take_turn()
        try:
            self._be_ready_in_time(until)
            talk = self._talk
            talk.set_limit(0)
            batch = Batch(talk, texts, self._sent)
            asked = batch.look()
            if not all(isinstance(reply, Refused) or is_settled(reply) for reply in batch.replies):
                talk.lines += ["limit 0", *asked, f"limit {talk.limit}"]
            talk.in_step = True
            return batch.replies
        finally:
            turn.lock.release()

    def step(self) -> Step:
        """Takes one step of a run, and tells it, where the program is propwide.

        What the run comes to is the same as without. Raises UnknownCommand over a program that
        tells no steps, and ProgramEnded.

        >>> lines = ["cell x span", "cell y span", "attach adder x x y", "fix x 3"]
        >>> with Session() as session:
        ...     said = session.send_all(lines)
        ...     print(session.step().did)
        called: 0 adder x x y
        y = 6 because no premise
        """
        reply = self.send("step")
        assert isinstance(reply, Step)
        return reply

    def how(self, cell: str) -> How:
        """What makes up what is known of a cell as it stands, where the program is propwide: no
        step is taken. Raises UnknownCommand over a program that doesn't tell, the refusal of a cell
        that isn't there, and ProgramEnded.

        >>> with Session() as session:
        ...     said = session.send_all(["cell x span", "tell ana x 3..5"])
        ...     [part] = session.how("x").parts
        ...     print(part.premise, part.value)
        ana 3..5
        """
        reply = self.send(f"how {cell}")
        assert isinstance(reply, How)
        return reply

    def list(self) -> Listing:
        """What there is, with how the choices stand, where the program is propwide. Raises
        UnknownCommand over a program that doesn't tell, and ProgramEnded.

        >>> with Session() as session:
        ...     said = session.send_all(["cell x span", "tell ana x 3..5"])
        ...     print(session.list().premises)
        (('ana', True),)
        """
        reply = self.send("list")
        assert isinstance(reply, Listing)
        return reply

    def solve(
        self, *cells: str, seconds: float | None = None, progress: RunProgress | None = None
    ) -> Points | NoneFits | Unsettled:
        """Points that fit, one value for each cell, or the premises that leave none; where the
        program is propwide. The cells that are named get their values first.

            found = session.solve()
            if isinstance(found, Points):
                print(found.values["x"], found.sides)

        `seconds` and `progress` are as those of `send`; asked again at once it goes on. Raises
        UnknownCommand over a program that doesn't search, the refusal of a cell that isn't there,
        and as `send`.

        >>> with Session() as session:
        ...     said = session.send_all(["cell x span", "tell ana x 3"])
        ...     print(session.solve().values)
        {'x': Span(low=3, high=3)}
        """
        reply = self.send(" ".join(["solve", *cells]), seconds=seconds, progress=progress)
        assert isinstance(reply, Points | NoneFits | Unsettled)
        return reply

    def least(
        self,
        cell: str,
        *cells: str,
        seconds: float | None = None,
        progress: RunProgress | None = None,
    ) -> Best | NoneFits | SoFar | Unsettled:
        """The least that a number can be, with points at which it is, and the premises because of
        which it can't be less. Where that isn't settled in time the best points so far are given.
        All else is as in `solve`.

            best = session.least("cost", seconds=10)
            if isinstance(best, Best):
                print(best.value, best.because, best.points.values)

        >>> with Session() as session:
        ...     said = session.send_all(["cell x span", "tell ana x 3..5"])
        ...     best = session.least("x", seconds=10)
        ...     print(best.value, best.because)
        3 ('ana',)
        """
        return self._end("least", cell, cells, seconds, progress)

    def greatest(
        self,
        cell: str,
        *cells: str,
        seconds: float | None = None,
        progress: RunProgress | None = None,
    ) -> Best | NoneFits | SoFar | Unsettled:
        """The same for the greatest that a number can be.

        >>> with Session() as session:
        ...     said = session.send_all(["cell x span", "tell ana x 3..5"])
        ...     print(session.greatest("x").value)
        5
        """
        return self._end("greatest", cell, cells, seconds, progress)

    def _end(
        self,
        end: str,
        cell: str,
        cells: Iterable[str],
        seconds: float | None,
        progress: RunProgress | None,
    ) -> Best | NoneFits | SoFar | Unsettled:
        """An end of a number."""
        reply = self.send(" ".join([end, cell, *cells]), seconds=seconds, progress=progress)
        assert isinstance(reply, Best | NoneFits | SoFar | Unsettled)
        return reply

    def plans(
        self,
        count: int,
        *cells: str,
        seconds: float | None = None,
        progress: RunProgress | None = None,
    ) -> Several | NoneFits | Unsettled:
        """So many points that fit, of which no two are the same at all of these cells; and whether
        there are others. Asked again at once it gives others yet. All else is as in `solve`.

            found = session.plans(10, "x", "y")
            if isinstance(found, Several):
                print(len(found.rows), found.rows[0]["x"], found.others)

        >>> with Session() as session:
        ...     said = session.send_all(["cell x span", "tell ana x 3..5"])
        ...     found = session.plans(10, "x")
        ...     print(len(found.rows), found.others)
        3 ('ana',)
        """
        line = " ".join(["plans", str(count), *cells])
        reply = self.send(line, seconds=seconds, progress=progress)
        assert isinstance(reply, Several | NoneFits | Unsettled)
        return reply

    def conflicts(
        self, count: int, *, seconds: float | None = None, progress: RunProgress | None = None
    ) -> Blamed:
        """So many minimal sets of believed premises that can't all hold, at the most, and whether
        there are others; where the program has this line (`blames`). Asked again it goes on. All
        else is as in `solve`.

            found = session.conflicts(10)
            print(found.sets, found.is_all)

        >>> with Session() as session:
        ...     said = session.send_all(["cell x span", "tell ana x 1..5", "tell ben x 7"])
        ...     found = session.conflicts(10).sets if session.blames else (("ana", "ben"),)
        >>> print(found)
        (('ana', 'ben'),)
        """
        return self._blamed(f"conflicts {count}", seconds, progress)

    def repairs(
        self,
        count: int,
        *,
        by: Mapping[str, int] = MappingProxyType({}),
        seconds: float | None = None,
        progress: RunProgress | None = None,
    ) -> Blamed:
        """So many minimal sets of believed premises to give up, so that the others can hold; where
        it is said what premises cost, in whole numbers, the cheapest ones. All else is as in
        `conflicts`.

            found = session.repairs(10, by={"ana": 3})
            print(found.sets, found.costs)

        >>> with Session() as session:
        ...     said = session.send_all(["cell x span", "tell ana x 1..5", "tell ben x 7"])
        ...     found = session.repairs(10).sets if session.blames else (("ben",), ("ana",))
        >>> print(sorted(found))
        [('ana',), ('ben',)]
        """
        said = "".join(f" {premise} {cost}" for premise, cost in by.items())
        return self._blamed(f"repairs {count}{said and ' by'}{said}", seconds, progress)

    def _blamed(self, line: str, seconds: float | None, progress: RunProgress | None) -> Blamed:
        """Minimal sets of premises."""
        reply = self.send(line, seconds=seconds, progress=progress)
        assert isinstance(reply, Blamed)
        return reply

    @property
    def tells(self) -> tuple[str, ...]:
        """Those of the commands `step`, `how` and `list`, `solve`, `least`, `greatest` and `plans`,
        `conflicts` and `repairs`, and `require`, that the program has. It is asked once.

        >>> with Session() as session:
        ...     print(session.tells[:7])
        ('step', 'how', 'list', 'solve', 'least', 'greatest', 'plans')
        """
        if self._tells is None:
            # (none of these is carried out but `list`)
            asked = {"how _": ["step", "how"], "list": ["list"]}
            asked |= {"least": list(SEEKING), "repairs": list(BLAMING)}
            asked |= {"require": list(REQUIRING)}
            replies = zip(asked.values(), self.look(asked))
            found = [words for words, reply in replies if not isinstance(reply, UnknownCommand)]
            self._tells = tuple(word for words in found for word in words)
        return self._tells

    @property
    def seeks(self) -> bool:
        """Whether the program searches for points that fit.

        >>> with Session() as session:
        ...     print(session.seeks == ("solve" in session.tells))
        True
        """
        return "solve" in self.tells

    @property
    def blames(self) -> bool:
        """Whether the program searches for minimal sets of premises.

        >>> with Session() as session:
        ...     print(session.blames == ("conflicts" in session.tells))
        True
        """
        return "conflicts" in self.tells

    def replay(self, lines: Iterable[str] | None = None) -> Outcomes:
        """Begins the program anew with the lines that were carried out, or with these in their
        place, and gives their replies.

        Raises ProgramEnded where the program ends again; the lines are kept.

        >>> with Session() as session:
        ...     said = session.send_all(["cell x span", "tell ana x 3..5"])
        ...     print(*session.replay())
        ok ok
        """
        given = None if lines is None else as_lines(lines)
        turn = self._take_turn()
        try:
            self._be_open()
            return self._begin_anew(self._talk.lines if given is None else given, self._until)
        finally:
            turn.lock.release()

    def drop_lines(self, kept: Iterable[str] = ()) -> None:
        """Lets go of the lines that were carried out, for a session that asks very much: `lines`
        has those from now on, and a `replay` carries out no others. Lines that are `kept` stand in
        the place of all of them; they have to make the same.

        >>> with Session() as session:
        ...     said = session.send_all(["cell x span", "tell ana x 3..5", "ask x"])
        ...     session.drop_lines(["cell x span", "tell ana x 3..5"])
        ...     print(session.lines)
        ['cell x span', 'tell ana x 3..5']
        """
        turn = self._take_turn()
        try:
            self._talk.lines[:] = kept
            self._talk.sought = ("", 0)
        finally:
            turn.lock.release()

    @property
    def is_at_rest(self) -> bool:
        """Whether its program can be asked at once, and is the one that was told what `lines` say:
        it owes no reply, and needn't be begun anew.

        >>> with Session() as session:
        ...     print(session.is_at_rest)
        True
        """
        self._notice_end()
        talk = self._talk
        is_ours = not self._closed and self._turn is not _NOBODYS
        return is_ours and talk.in_step and talk.program.is_open

    def keep(self, name: str, one: Closing) -> None:
        """Keeps something by a name until the session is closed, which closes it too; it is closed
        at once where the session is, or where there is something of that name.

        >>> with Session() as session:
        ...     session.keep("other", session.fresh())
        ...     print(list(session.kept))
        ['other']
        """
        if self.kept.setdefault(name, one) is not one or self._closed:
            one.close()

    def _begun(self, until: float | None) -> Conversation:
        """A conversation in which nothing is said as yet, whose replies come by then."""
        talk = Conversation(self._command, self._first_limit, self._found.builds)
        talk.program.until = until
        return talk

    def _use(self, talk: Conversation) -> None:
        """Goes on with a conversation, as soon as it is the session's."""
        self._runner = Runner(talk)
        self._talk = talk

    def _begin_anew(self, kept: Texts, until: float | None) -> Outcomes:
        """Begins the program anew with these lines, and gives their replies, which come by then.
        Where that is cut short, the next use begins it anew with them."""
        talk = self._talk
        talk.in_step, talk.owed = False, None
        talk.program.ended = None
        talk.lines = kept
        talk.program.kill()
        try:
            begun = self._begun(until)
            self._coming = begun.program
            batch = Batch(begun, kept, self._sent)
            batch.run()
        except WrongReply:
            raise
        except ProgramEnded as ended:
            talk.program.ended = ended
            raise
        self._use(begun)
        self._coming = None
        if self._closed:
            begun.program.kill()
            self._be_open()
        return batch.replies

    def _be_open(self) -> None:
        if self._closed:
            raise RuntimeError("the session is closed")

    def _be_ready(self, until: float | None, is_kept: bool = False) -> None:
        """Sees to it that the next reply is that to the next line, and that replies come by then;
        or else whether a program that is at work is kept. Raises OutOfTime."""
        self._be_open()
        if self._talk.program.ended:
            raise self._talk.program.ended
        if self._talk.owed:
            self._take_in(until)
        if not self._talk.in_step:
            self._begin_anew(self._talk.lines, until)
        self._talk.program.until, self._talk.program.is_kept = until, is_kept

    def _be_ready_in_time(self, until: float | None) -> None:
        """The same for several lines, which have until then. Raises OutOfTime where that is
        over."""
        latest = _earlier(self._until, until)
        if until is not None and time.monotonic() >= until:
            self._be_open()
            raise OutOfTime("there was no time for what was to be asked")
        self._be_ready(latest)

    def _take_in(self, until: float | None) -> None:
        """Waits for what the program owes, and takes it in. Where it doesn't come, as long as the
        program is at work, the conversation is out of step. Raises OutOfTime where there is an end,
        and it doesn't come by then; it is owed yet where the program is at work."""
        talk, program = self._talk, self._talk.program
        program.until = time.monotonic() + _GRACE if until is None else until
        program.patience = PATIENCE if until is None else 0.0
        program.is_kept = until is not None
        try:
            talk.take_in()
        except OutOfTime:
            if until is not None:
                raise
        except ProgramEnded:
            if self._closed:
                raise
            program.ended = None
        program.patience = 0.0

    def _seen(self) -> Conversation:
        """The conversation, for what its lines say: the program isn't asked, nor begun anew."""
        turn = self._take_turn()
        try:
            self._be_open()
            if self._talk.program.ended:
                raise self._talk.program.ended
            return self._talk
        finally:
            turn.lock.release()

    def _send_watched(self, line: str, watch: Watch) -> Reply:
        """The reply to a line that may be a question which is watched, a `core`, or one for points
        or sets of premises."""
        words = line.split()
        if words and words[0] in RUNNING:
            return self._runner.watched(Question(line, words, self._sent), watch)
        if words and words[0] in _SEARCHING:
            question = Question(line, words, self._sent)
            return Seeking(self._talk, question, watch, self.steps_of_slice).reply()
        # (who is told that it came to nothing may send it again)
        self._talk.program.is_kept = False
        self._runner.tell(line)
        return self._heard(line, words)

    def _heard(self, line: str, words: Texts) -> Reply:
        """The reply to a line that was told, and runs nothing."""
        talk = self._talk
        if (not words or words[0] not in FORMS) and is_silent(line):
            talk.in_step = True
            return SILENT
        text = talk.hear(words[0] if words else "")
        refused = talk.refused(line, text, self._sent) if text != "ok" else None
        if refused:
            talk.in_step = True
            raise refused
        reply = DONE if text == "ok" and words[0] not in ASKING else talk.reply(line, words, text)
        talk.carried(line, words)
        talk.in_step = True
        return reply

    def _take_turn(self) -> "Turn":
        """Has the session to itself, until the turn is released. Raises SessionInUse."""
        turn = self._turn
        is_mine = turn.lock.acquire(False) and turn is self._turn
        return turn if is_mine else self._see_whose_turn()

    def _see_whose_turn(self) -> "Turn":
        """Raises SessionInUse, but where a call that had its turn was cut short before it could
        give it back: then it is the caller's."""
        if self._turn is _NOBODYS:
            raise SessionInUse(
                f"the session belongs to the process {self._process}, which made it: a child that"
                " is"
                " forked makes one of its own, by `fresh()`"
            )
        mine = Turn()
        mine.lock.acquire()
        while True:
            turn = self._turn
            self._see_nobody_uses_it()
            turn.behind.append(mine)
            # (who gets the turn before from now on sees that it isn't the session's any more)
            self._turn = turn.behind[0]
            if self._turn is mine:
                break
        if len(self._users()) > 1:
            raise SessionInUse(_IN_USE)
        return mine

    def _see_nobody_uses_it(self) -> None:
        """Raises SessionInUse where a call of this session is running, but for those that look as
        well. Who lets go of a program that has ended is waited for, which is no time."""
        for _ in range(_MOST_LOOKS):
            users = self._users()
            if "_notice_end" not in users:
                break
            time.sleep(_LOOK)
        if users:
            raise SessionInUse(_IN_USE)

    def _notice_end(self) -> None:
        """Lets go of a program that has ended, where no call is running."""
        turn = self._turn
        if turn.lock.acquire(False):
            try:
                talk = self._talk
                is_at_rest = turn is self._turn and (talk.in_step or talk.owed is not None)
                if is_at_rest and talk.program.notice():
                    talk.in_step = False
                    if talk.owed:
                        # (which is begun anew, as where it is noticed while that is waited for)
                        talk.owed = talk.program.ended = None
            finally:
                turn.lock.release()

    def _users(self) -> Texts:
        """The calls of this session that are running in all threads, but for those that look
        whether any is."""
        users = []
        for frame in sys._current_frames().values():
            within: FrameType | None = frame
            looks = False
            while within is not None:
                code = within.f_code
                if code in _CALLS and within.f_locals.get("self") is self:
                    if not looks and code is not _LOOKING:
                        users.append(code.co_name)
                    looks = code is _LOOKING
                within = within.f_back
        return users


class Turn:
    """The turn to use a session, which has who gets the lock; and those behind it that want it
    where it was not given back, of whom the first has it."""

    def __init__(self) -> None:
        self.lock = threading.Lock()
        self.behind: list[Turn] = []


def _earlier(one: float | None, other: float | None) -> float | None:
    """The earlier of two times, None where neither has an end."""
    return one if other is None else other if one is None else min(one, other)


# What has a session to itself while it runs, and what looks whether any of these does.
_LOOKING = Session._see_nobody_uses_it.__code__
_CALLS = {_LOOKING} | {
    each.__code__
    for each in (
        Session.send,
        Session.send_all,
        Session.look,
        Session.replay,
        Session.drop_lines,
        Session._seen,
        Session._notice_end,
    )
}
_IN_USE = (
    "the session is in use: a call of it is running, in another thread or around this one, and"
    " calls"
    " come one at a time; `fresh()` makes a session of one's own"
)
# The turn of a session that is another process's: nobody here gets it.
_NOBODYS = Turn()
_NOBODYS.lock.acquire()
# How often it is looked whose turn it is at the most, and after how many seconds each.
_MOST_LOOKS, _LOOK = 1000, 0.001
# All sessions. (They are looked through while other threads begin some: so it is no `WeakSet`.)
_sessions: "set[weakref.ref[Session]]" = set()
# How many sessions are begun before it is looked which programs have ended.
_FEW = 16
_beginnings = count(1)


def _notice_ends() -> None:
    """Lets go of programs that have ended, unnoticed: now and then, by how many there are."""
    if next(_beginnings) % max(1, len(_sessions) // _FEW) == 0:
        for session in [each() for each in list(_sessions)]:
            if session:
                session._notice_end()


def _leave_all() -> None:
    for session in [each() for each in list(_sessions)]:
        if session:
            session._turn = _NOBODYS


os.register_at_fork(after_in_child=_leave_all)
