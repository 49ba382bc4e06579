"""Questions for points that fit, in slices of the limit.

propwide goes on with such a question where the same one is asked again, until another one is asked
or it answers a line `ok`, but for `limit`. For plans it is held to less: asked again at once it
tells others; behind any other line it begins anew.
"""

import time
from dataclasses import dataclass

from propbench.blamed import Blamed
from propbench.conversation import Conversation
from propbench.points import Several, SoFar
from propbench.program import OutOfTime, ProgramEnded, StillAtWork
from propbench.refusals import Refused
from propbench.replies import UNSETTLED, Reply
from propbench.runs import Question, Watch, is_settled, late_text

# A slice has so many steps, unless a session says another number, and up to so many times as many
# where they take fewer than so many seconds.
_STEPS = 50_000
_MOST_TIMES, _BRIEF = 16, 0.1


@dataclass
class Seeking:
    """A question for points of a conversation, where somebody may end it. `found` are those of the
    points that were asked for which are known by now."""

    talk: Conversation
    question: Question
    watch: Watch
    most_steps: int | None = None
    found: Several | None = None
    # The text that was read last, and what it says: the best plan so far is often told once more.
    last: tuple[str, Reply] = ("", UNSETTLED)
    # When the last slice began.
    _began: float = 0.0

    def reply(self) -> Reply:
        """The reply, in as many slices as it needs. Raises the refusal, what ends it from outside,
        and OutOfTime where nothing is known when the time is over."""
        talk, watch = self.talk, self.watch
        parts = max(1, -(-talk.limit // (self.most_steps or _STEPS)))
        size = least = talk.limit // parts
        words = self.question.words
        if words[0] == "plans" and talk.sought != self._place():
            talk.begin_anew(words[2:])
        reply = self._slice(size)
        while not self._is_done(reply):
            watch.taken += size
            if watch.taken >= least * parts or watch.is_over(reply):
                break
            size = min(self._next_size(size, least), least * parts - watch.taken)
            try:
                reply = self._slice(size)
            except OutOfTime:
                if watch.until is None:
                    raise
                break
        return self._ended(reply)

    def _next_size(self, size: int, least: int) -> int:
        """How many steps the next slice has, by how long the last one took."""
        is_brief = time.monotonic() - self._began < _BRIEF
        return min(2 * size, _MOST_TIMES * least) if is_brief else max(size // 2, least)

    def _place(self) -> tuple[str, int]:
        """What is asked, and behind how many lines."""
        return " ".join(_sought(self.question.words)), len(self.talk.lines)

    def _slice(self, steps: int) -> Reply:
        """What is known after so many steps more. Where the question is interrupted, and no reply
        comes soon, the program is ended, and KeyboardInterrupt raised."""
        talk, line = self.talk, self._line()
        words, self._began = line.split(), time.monotonic()
        try:
            talk.tell(line, steps)
            try:
                text = talk.hear(words[0])
            except KeyboardInterrupt as stopped:
                self.watch.stopped = stopped
                return self._late(words)
        except StillAtWork:
            talk.sought = self._place() if self.found is None else ("", 0)
            talk.leave(line, words, steps)
            raise
        return self._said(words, text)

    def _line(self) -> str:
        """What is asked next: for the plans that are still to come, or once more."""
        if self.found is None:
            return self.question.line
        command, count, *cells = self.question.words
        return " ".join([command, str(int(count) - len(self.found.rows)), *cells])

    def _said(self, words: list[str], text: str) -> Reply:
        """The reply that a text is, with the plans that were told before."""
        talk, question = self.talk, self.question
        if text == self.last[0] and isinstance(self.last[1], SoFar):
            return self.last[1]
        refused = talk.refused(question.line, text, question.number)
        if refused:
            talk.in_step = True
            raise refused
        reply = talk.reply(" ".join(words), words, text)
        self.last = text, reply
        if isinstance(reply, Several):
            before = self.found.rows if self.found else ()
            self.found = Several((*before, *reply.rows), reply.others)
        return self.found or reply

    def _late(self, words: list[str]) -> Reply:
        """The reply to a question that was interrupted, where it comes soon. Raises what
        interrupted it where none does, and where it is refused."""
        talk, stopped = self.talk, self.watch.stopped
        assert stopped
        try:
            text = late_text(talk)
            return self._said(words, text) if text else self.found or UNSETTLED
        except (Refused, OutOfTime, ProgramEnded):
            raise stopped from None

    def _is_done(self, reply: Reply) -> bool:
        if isinstance(reply, Blamed):
            minimal = len(reply.sets) - len(reply.unsettled)
            return reply.is_all or minimal >= int(self.question.words[1])
        if not isinstance(reply, Several):
            return is_settled(reply)
        return reply.others is not None or len(reply.rows) >= int(self.question.words[1])

    def _ended(self, reply: Reply) -> Reply:
        """The reply, after which all that was done is taken in, unless the program was ended or is
        at work yet."""
        talk = self.talk
        is_at_rest = talk.program.is_open and talk.owed is None
        if is_at_rest:
            self._take_in(reply)
        talk.in_step = is_at_rest
        if self.watch.stopped:
            raise self.watch.stopped
        return reply

    def _take_in(self, reply: Reply) -> None:
        """Takes in what was asked. (Plans that nobody was told of are told once more.)"""
        talk, question, watch = self.talk, self.question, self.watch
        is_lost = isinstance(reply, Several) and watch.stopped is not None
        if self._is_done(reply):
            talk.carried(question.line, question.words)
        elif isinstance(reply, Several):
            told = [question.words[0], str(len(reply.rows)), *question.words[2:]]
            talk.carried(" ".join(told), told)
        elif question.words[0] != "plans":
            talk.cut(question.line, watch.taken)
        talk.sought = ("", 0) if is_lost else self._place()


def _sought(words: list[str]) -> list[str]:
    """What is sought by a question of these words, however many plans of it."""
    return [words[0], *words[2:]] if words[0] == "plans" else words
