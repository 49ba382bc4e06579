"""Many lines at once: they are written while replies are read, and taken in as these come."""

import gc
import threading
from collections import deque
from collections.abc import Iterable

from propbench.conversation import Conversation
from propbench.grammar import ASKING
from propbench.program import ProgramEnded
from propbench.refusals import Refused
from propbench.replies import DONE, SEVERAL, SILENT, NotAReply, Reply, lines_in, reply_of
from propbench.words import as_line, encoded, is_silent

# How many lines are written before replies are looked at.
_BLOCK = 2048
# Where fewer replies than this came at once, and more than this are to come, they are left to
# gather.
_FEW = 512
# With what a silent line begins.
_MAY_BE_SILENT = frozenset(("", " ", "\t", "\r", "#"))


def as_lines(lines: Iterable[str | bytes]) -> list[str]:
    """The texts of lines. Raises ValueError where a line feed stands within one, and TypeError for
    one text, of which each letter would be a line."""
    if isinstance(lines, str | bytes):
        raise TypeError("lines are given one by one: those of a text are its `.splitlines()`")
    given = list(lines)
    # (Lines of bytes make `join` raise TypeError: so 10^6 of them are told apart in one call. The
    # checker of types can't know that behind it all are strings, hence what it is told to ignore.)
    try:
        text = "\n".join(given)  # type: ignore[arg-type]
    except TypeError:
        return [as_line(line) for line in given]
    if text.count("\n") != max(len(given) - 1, 0):
        return [as_line(line) for line in given]
    return given  # type: ignore[return-value]


class Batch:
    """Lines on their way, and what came of them so far."""

    def __init__(self, conversation: Conversation, lines: list[str], sent: int) -> None:
        """Lines before which so many were sent to the session."""
        self._talk = conversation
        self._lines = lines
        self._sent = sent
        self._carried = conversation.carried
        self.replies: list[Reply | Refused] = [SILENT] * len(lines)
        self.first_refused: Refused | None = None
        # The places of the lines to which replies are still to come, and the lines of a reply whose
        # last is still to come.
        self._places: deque[int] = deque()
        self._begun: list[str] = []
        # Whether garbage is looked for at other times, and this may change that: it holds for all
        # threads, so that only the main one does.
        is_main = threading.current_thread() is threading.main_thread()
        self._holds_off = is_main and gc.isenabled()

    def run(self) -> None:
        """Sends all lines and takes in all replies. Where that ends early, what was taken in by
        then counts as carried out, the conversation is out of step, and the program is ended.

        Garbage is looked for only while replies are waited for: of replies none comes, and a look
        goes through all that have come."""
        self._run()
        self._talk.in_step = True

    def look(self) -> list[str]:
        """Sends questions, and takes in the replies, without a trace among what was carried out.
        Gives those that were not refused; what becomes of these is to be taken in before the
        conversation is in step."""
        asked: list[str] = []
        self._carried = lambda line, words: asked.append(line)
        self._run()
        return asked

    def _run(self) -> None:
        """Sends all lines and takes in all replies, or ends the program."""
        self._talk.in_step = False
        is_done = False
        try:
            self._send_with_care()
            is_done = True
        finally:
            # (once more, for what cuts short the end of what was tried)
            if self._holds_off:
                gc.enable()
            if not is_done:
                self._talk.program.kill()

    def _send_with_care(self) -> None:
        """Sends all lines, without looks for garbage; of a program that ends all that came before
        is taken in."""
        try:
            if self._holds_off:
                gc.disable()
            self._send()
        except ProgramEnded:
            self._take_in(self._talk.program.rest())
            raise
        finally:
            if self._holds_off:
                gc.enable()

    def _send(self) -> None:
        program = self._talk.program
        for first in range(0, len(self._lines), _BLOCK):
            block = self._lines[first : first + _BLOCK]
            self._places.extend(
                place
                for place, line in enumerate(block, first)
                if line[:1] not in _MAY_BE_SILENT or not is_silent(line)
            )
            program.put(_encoded(block))
            self._take_in(program.take(wait=False))
        while self._places:
            came = program.take(wait=False) or self._waited_for()
            self._take_in(came)
            if len(came) < _FEW < len(self._places):
                program.gather()

    def _waited_for(self) -> list[str]:
        """Lines that have not come yet."""
        if not self._holds_off:
            return self._talk.program.take(wait=True)
        gc.enable()
        came = self._talk.program.take(wait=True)
        gc.disable()
        return came

    def _take_in(self, lines: list[str]) -> None:
        """Takes in the lines of replies that came last."""
        given, replies, places = self._lines, self.replies, self._places
        carried, kinds = self._carried, self._talk.kinds
        for text in lines:
            if not places:
                raise self._talk.wrong("no line", text)
            place = places[0]
            line = given[place]
            words = line.split()
            if text == "ok" and words[0] not in ASKING:
                replies[place] = DONE
                carried(line, words)
            else:
                whole = self._whole(words, text)
                if whole is None:
                    continue
                refused = self._refused(place, whole)
                if refused:
                    replies[place] = refused
                else:
                    try:
                        replies[place] = reply_of(words, whole, kinds)
                    except NotAReply:
                        raise self._talk.wrong(line, whole) from None
                    carried(line, words)
            places.popleft()

    def _whole(self, words: list[str], text: str) -> str | None:
        """The reply that a line ends, None where others are to come behind it."""
        if not words or words[0] not in SEVERAL:
            return text
        self._begun.append(text)
        if len(self._begun) < lines_in(words[0], self._begun):
            return None
        whole = "\n".join(self._begun)
        self._begun.clear()
        return whole

    def _refused(self, place: int, text: str) -> Refused | None:
        """The refusal of the line at a place, where this reply is one."""
        if not text.startswith("error "):
            return None
        refused = self._talk.refused(self._lines[place], text, self._sent + place + 1)
        self.first_refused = self.first_refused or refused
        return refused


def _encoded(lines: list[str]) -> bytes:
    text = "\n".join(lines) + "\n"
    try:
        return text.encode()
    except UnicodeEncodeError:
        return b"".join(encoded(line) + b"\n" for line in lines)
