"""Runs in slices of the limit, so that a run can be watched and stopped where it stands.

A slice that is used up is gone on from by the next. So the reply at the end is that of one run
under the user's limit; only which of several reasons are named may differ, where there are choices
and the run takes more than one slice.

A slice that isn't done soon after the time of its question is left to the program, which goes on
with it: what is known by then is the answer, and the next use of the session takes the slice in.
"""

import time
from collections.abc import Callable
from dataclasses import dataclass, replace

from propbench.blamed import Blamed
from propbench.conversation import Conversation
from propbench.points import SoFar
from propbench.program import OutOfTime, ProgramEnded, StillAtWork
from propbench.refusals import Refused
from propbench.replies import Reply, Unsettled, Value, unread

# What is told of a run that goes on: the steps that it took, and what is known then.
RunProgress = Callable[[int, Reply], None]

# A slice has so many steps, and should take between these seconds.
_FEWEST_STEPS, _STEPS, _MOST_STEPS = 10_000, 100_000, 100_000_000
_SHORT, _LONG = 0.05, 0.5
# Of a run that has an end the first slice has so many steps, and others as many as take about these
# seconds, so that the end is not missed by much where steps take long.
_FIRST_OF_TIMED, _FEWEST_OF_TIMED = 2_000, 100
_BRIEF, _TIMED = 0.05, 0.2
# How long, in seconds, a slice that was interrupted is waited for before the program is ended; one
# that is not done when the time of its question is over; and one that was left to the program then,
# by the next use of the session, where that has no time of its own, and the program is at work.
_GRACE = 2.0
LATE = 0.6
PATIENCE = 20.0


@dataclass
class Watch:
    """Who may end a run: it is cut after `until`, a time of the monotonic clock, and `progress` is
    told of it, which may raise. `stopped` is what ended it from outside, and `taken` the steps of
    the slices that were used up, of which so many are among the lines. After `latest` no reply is
    waited for."""

    until: float | None = None
    progress: RunProgress | None = None
    stopped: BaseException | None = None
    taken: int = 0
    recorded: int = 0
    steps: int = _FIRST_OF_TIMED

    def adapt(self, seconds: float) -> None:
        """Takes in how long a slice took, for the size of the next."""
        if seconds < _BRIEF:
            self.steps = min(self.steps * 4, _MOST_STEPS)
        elif seconds > _TIMED:
            self.steps = max(self.steps // 2, _FEWEST_OF_TIMED)

    def growth(self, seconds: float) -> float:
        """How many times as long as these seconds something may take that has to be whole, 2 at the
        most."""
        left = None if self.until is None else self.until - time.monotonic()
        return 2.0 if left is None else min(2.0, left / max(seconds, 1e-6))

    @property
    def latest(self) -> float | None:
        """By when a reply has to come."""
        return None if self.until is None else self.until + LATE

    def is_over(self, reply: Reply) -> bool:
        """Tells of a run that isn't settled; whether it is to end here."""
        if self.progress and not self.stopped:
            try:
                self.progress(self.taken, reply)
            except BaseException as stopped:
                self.stopped = stopped
        is_late = self.until is not None and time.monotonic() >= self.until
        return is_late or self.stopped is not None


@dataclass(slots=True)
class Question:
    """A line that runs the network, its words, and its number among the lines that were sent."""

    line: str
    words: list[str]
    number: int


def is_settled(reply: Reply) -> bool:
    """Whether a reply says all that a run under a higher limit would."""
    if isinstance(reply, Value):
        return reply.settled
    if isinstance(reply, Blamed):
        return reply.is_all
    return not isinstance(reply, Unsettled | SoFar)


def late_text(talk: Conversation) -> str:
    """What there is of the reply to a question that was interrupted, where it comes soon; "" where
    all of it was read and lost. Raises OutOfTime and ProgramEnded."""
    talk.program.until, talk.program.is_kept = time.monotonic() + _GRACE, False
    return talk.late()


class Runner:
    """Runs questions of a conversation. The size of a slice is kept from one to the next."""

    def __init__(self, talk: Conversation) -> None:
        self.talk = talk
        self.steps = _STEPS

    def tell(self, line: str) -> None:
        """Sends a line, which runs one slice at the most; its reply is heard next."""
        talk = self.talk
        talk.tell(line, self.steps if self.steps < talk.limit else talk.limit)

    def ask(self, line: str, number: int) -> Reply:
        """The reply to an `ask` or a `why`, which is the one of so many lines that were sent, as
        `hear` gives it. (All that most of them need is done here: calls take as long as they do.)
        """
        talk, program = self.talk, self.talk.program
        steps = self.steps if self.steps < talk.limit else talk.limit
        if steps != talk.program_limit:
            talk.set_limit(steps)
        talk.in_step = False
        program.tell(line)
        # What the line asks is looked at while the program is at work.
        words = line.split()
        begins, kind = f"{words[-1]} = ", talk.kinds.get(words[-1])
        try:
            text = program.hear()
        except KeyboardInterrupt as stopped:
            return self._interrupted(Question(line, words, number), stopped)
        if kind is None or not text.startswith(begins) or "unsettled" in text:
            return self._heard(line, words, number, text)
        talk.lines.append(line)
        talk.in_step = True
        return unread(text, words[0], kind)

    def hear(self, line: str, words: list[str], number: int) -> Reply:
        """The reply to a question that was told, which is no `core`, in as many slices as it needs;
        its words and its number among the lines that were sent are given with it. Raises its
        refusal, and KeyboardInterrupt, after which another question goes on from there."""
        try:
            text = self.talk.hear(words[0])
        except KeyboardInterrupt as stopped:
            return self._interrupted(Question(line, words, number), stopped)
        return self._heard(line, words, number, text)

    def _heard(self, line: str, words: list[str], number: int, text: str) -> Reply:
        """The reply to a question by the text of its first slice."""
        reply = self._reply(Question(line, words, number), text)
        if not is_settled(reply):
            return self._gone_on(Question(line, words, number), Watch(), reply)
        self.talk.lines.append(line)
        self.talk.in_step = True
        return reply

    def _interrupted(self, question: Question, stopped: BaseException) -> Reply:
        """The reply to a question that was told, and interrupted before its reply came."""
        watch = Watch(stopped=stopped)
        return self._gone_on(question, watch, self._late(question, watch))

    def watched(self, question: Question, watch: Watch) -> Reply:
        """The reply to a question that is not told yet, where somebody may end the run. Raises its
        refusal, what they raise, and OutOfTime where nothing is known when the time is over."""
        words, talk = question.words, self.talk
        is_long_core = words[0] == "core" and self.steps < talk.limit
        if not is_long_core or len(words) != 2 or words[1] not in talk.known.cells:
            return self._gone_on(question, watch, self._first_slice(question, watch))
        reply = self._core(question, watch)
        return self._ended(watch, reply)

    def _gone_on(self, question: Question, watch: Watch, first: Reply) -> Reply:
        """The reply to a question, after a first slice that had this one."""
        reply = self._slices(question, watch, first)
        self._take_in(question, watch, reply)
        return self._ended(watch, reply)

    def _ended(self, watch: Watch, reply: Reply) -> Reply:
        """The reply to a question of which all is taken in. (Where the program hangs, which is
        ended then, or is at work yet, what was known before is.)"""
        self.talk.in_step = self.talk.program.is_open and self.talk.owed is None
        if watch.stopped:
            raise watch.stopped
        return reply

    def _take_in(self, question: Question, watch: Watch, reply: Reply) -> None:
        if not self.talk.program.is_open or self.talk.owed:
            return
        if is_settled(reply) or watch.taken == self.talk.limit:
            self.talk.carried(question.line, question.words)
        else:
            self.talk.cut(question.line, watch.taken)

    def _first_slice(self, question: Question, watch: Watch) -> Reply:
        return self._slice(question, watch, min(self._size(watch), self.talk.limit))

    def _size(self, watch: Watch) -> int:
        """How many steps the next slice has."""
        return self.steps if watch.until is None else min(self.steps, watch.steps)

    def _slices(self, question: Question, watch: Watch, reply: Reply) -> Reply:
        """The reply to a question by slices that go on from one another, until it is settled, cut,
        or the limit is used up. The first has been taken, with this reply."""
        talk = self.talk
        while not is_settled(reply):
            watch.taken += talk.program_limit
            if watch.taken == talk.limit or watch.is_over(reply):
                break
            begun = time.monotonic()
            try:
                reply = self._slice(
                    question, watch, min(self._size(watch), talk.limit - watch.taken)
                )
            except OutOfTime:
                if watch.until is None:
                    raise
                break
            self._adapt(watch, time.monotonic() - begun)
        return reply

    def _slice(
        self, question: Question, watch: Watch, steps: int, before: Question | None = None
    ) -> Reply:
        """The reply to a question under so many steps. Where the run was interrupted, and no reply
        came soon, the program is ended, and KeyboardInterrupt raised. Where it is left to the
        program, that is owed, and what was done before is among the lines: the question that was
        answered before it, or what was taken of this one."""
        talk = self.talk
        try:
            talk.tell(question.line, steps)
            try:
                text = talk.hear(question.words[0])
            except KeyboardInterrupt as stopped:
                watch.stopped = stopped
                return self._late(question, watch)
        except StillAtWork:
            if before:
                talk.carried(before.line, before.words)
            self._record(question, watch)
            talk.leave(question.line, question.words, steps)
            raise
        return self._reply(question, text)

    def _record(self, question: Question, watch: Watch) -> None:
        """Takes in the slices that were used up, and are not among the lines yet."""
        if watch.taken > watch.recorded:
            self.talk.cut(question.line, watch.taken - watch.recorded)
            watch.recorded = watch.taken

    def _late(self, question: Question, watch: Watch) -> Reply:
        """The reply to a question that was interrupted, where it comes soon. Raises what
        interrupted it where none does, or a part of it was lost, and where it is refused."""
        assert watch.stopped
        talk = self.talk
        try:
            text = late_text(talk)
            if not text:
                # It was read and lost: what is known by now says as much.
                watch.taken += talk.program_limit
                talk.tell(question.line, 0)
                text = talk.hear(question.words[0])
            return self._reply(question, text)
        except Refused:
            raise watch.stopped from None
        except (OutOfTime, ProgramEnded):
            self._record(question, watch)
            raise watch.stopped from None

    def _reply(self, question: Question, text: str) -> Reply:
        refused = self.talk.refused(question.line, text, question.number)
        if refused:
            self.talk.in_step = True
            raise refused
        return self.talk.reply(question.line, question.words, text)

    def _adapt(self, watch: Watch, seconds: float) -> None:
        if watch.until is not None:
            watch.adapt(seconds)
        elif seconds < _SHORT:
            self.steps = min(self.steps * 2, _MOST_STEPS)
        elif seconds > _LONG:
            self.steps = max(self.steps // 2, _FEWEST_STEPS)

    def _core(self, question: Question, watch: Watch) -> Reply:
        """The reply to a `core` under a limit of more than one slice. The run before its tries goes
        in slices, as that of a `why`. Each try begins anew, so the tries have all that is left of
        the limit; where the run is watched, more and more of it until they are enough."""
        talk = self.talk
        words = ["why", question.words[1]]
        why = replace(question, line=" ".join(words), words=words)
        reply = self._slices(why, watch, self._first_slice(why, watch))
        if not isinstance(reply, Value):
            self._take_in(question, watch, reply)
        elif not reply.settled:
            self._take_in(question, watch, reply)
            reply = replace(reply, reduced=False)
        elif watch.stopped:
            self._take_in(why, watch, reply)
        else:
            return self._tries(question, watch, why, reply)
        return reply

    def _tries(self, question: Question, watch: Watch, why: Question, reply: Value) -> Reply:
        """The reply to a `core` whose run came to rest, with this reply to this `why`."""
        talk = self.talk
        most = talk.limit - watch.taken
        is_watched = watch.until is not None or watch.progress is not None
        steps = min(self._size(watch), most) if is_watched else most
        watch.taken = 0
        found: Reply = replace(reply, reduced=False)
        before: Question | None = why
        while True:
            begun = time.monotonic()
            try:
                found = self._slice(question, watch, steps, before)
            except OutOfTime:
                if watch.until is None:
                    raise
                return found
            is_done = steps == most or not (isinstance(found, Value) and found.reduced is False)
            if before and is_done:
                talk.carried(question.line, question.words)
            else:
                if before:
                    talk.carried(before.line, before.words)
                talk.cut(question.line, steps)
            watch.taken += steps
            watch.recorded = watch.taken
            more = watch.growth(time.monotonic() - begun)
            if is_done or watch.is_over(found) or more < 1:
                return found
            before, steps = None, min(int(steps * more) + 1, most)
