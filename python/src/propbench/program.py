"""The running program: lines in, reply lines out, never stuck however much is sent.

What is to be written waits here while the program is not ready to read it, and replies are taken in
meanwhile, so neither side waits for the other for good. What is waited for may have an end: a time
of the monotonic clock, at which the program is ended where it has not answered, or left at work.
"""

import os
import select
import signal
import time
import weakref
from collections import deque
from dataclasses import dataclass
from itertools import islice

from propbench.process import Process, held_back
from propbench.words import encoded

# How much is read at once, and of a single reply at first, in bytes. (For so little Python has room
# at hand, and most replies have fewer.)
_PIECE = 1 << 16
_REPLY = 400
# How long replies are left to gather, and the program is given to end by itself, in seconds.
_GATHER = 0.001
_END = 5.0
# How often replies are looked at while the program takes no line, in thousandths of a second, and
# whether it is at work, in seconds.
_LOOK = 1
_AGAIN = 0.05
_AT_WORK = (
    "the program did not answer in time: it is still at work, and the next use of the session"
    " goes on"
    " from there"
)
# The variable by which a repository's scripts don't say once more that they run unproved.
_TOLD = "PROPBENCH_TOLD"
# The commands of which what they say was shown already.
_shown: set[str] = set()


@dataclass(eq=False)
class ProgramEnded(Exception):
    """The program ended, or could not be started, while replies were wanted.

    `status` is its exit status (2 where reading or writing failed, 4 where memory was refused at
    the start, -N where signal N ended it), None where it never started; `errors` is what it said on
    standard error.
    """

    status: int | None
    errors: str

    def __str__(self) -> str:
        said = f": {self.errors.strip()}" if self.errors.strip() else ""
        if self.status is None:
            return f"the program did not start{said}"
        if self.status < 0:
            return f"the program was ended by {_signal_name(-self.status)}{said}"
        return f"the program ended with status {self.status}{said}"


class OutOfTime(Exception):
    """A reply did not come in the time that there was for it. Where the program was at work on a
    question it is so still, and the next use of the session goes on from there. Else it was ended,
    and the next use begins it anew."""


class StillAtWork(OutOfTime):
    """A reply did not come in its time, and the program was left at work on it."""


def _signal_name(number: int) -> str:
    try:
        return signal.Signals(number).name
    except ValueError:
        return f"signal {number}"


class Program:
    """A process of the program. What it is sent are whole lines, in bytes. Where a reply doesn't
    come by `until`, OutOfTime is raised by whoever waits, and it is ended, or left at work: then
    nothing of what has come is lost, and whoever waits again goes on."""

    def __init__(self, command: list[str], show_errors: bool = False) -> None:
        """Starts the program. What it says on standard error is kept, or shown on that of this
        process. Raises ProgramEnded where it can't be started."""
        told = {_TOLD: "1"} if command[0] in _shown else {}
        if show_errors:
            _shown.add(command[0])
        try:
            with held_back():
                self._process = Process(command, {**os.environ, **told}, show_errors)
                # (a program that nobody has any more)
                self._dropped = weakref.finalize(self, self._process.kill)
        except OSError as error:
            raise ProgramEnded(None, str(error)) from None
        self._in, self._out = self._process.into, self._process.out
        self._waiting = b""
        self._part = b""
        self._lines: deque[str] = deque()
        # How it ended by itself, where that came to light.
        self.ended: ProgramEnded | None = None
        # Until when replies are waited for, by the monotonic clock; None where that has no end. One
        # that is at work then has so many seconds more, and is left at work where it is kept.
        self.until: float | None = None
        self.patience = 0.0
        self.is_kept = False
        self._come, self._room = select.poll(), select.poll()
        self._come.register(self._out, select.POLLIN)
        self._room.register(self._in, select.POLLOUT)

    @property
    def pid(self) -> int:
        """The number of the process."""
        return self._process.pid

    @property
    def is_open(self) -> bool:
        """Whether it can be spoken to: it has not been ended here, nor found to have ended."""
        return self._process.out >= 0

    def notice(self) -> bool:
        """Whether it has ended, found out where nobody asks it; all that leads to it is closed
        then."""
        if self.is_open and self._process.is_over():
            self.ended = self._how_ended(0)
        return self.ended is not None

    def put(self, data: bytes) -> None:
        """Sends whole lines, and takes in replies until they are all sent. Raises ProgramEnded, and
        OutOfTime, as all that waits."""
        self._waiting = data
        self._write()
        while self._waiting:
            if self._left() == 0 and not self._has_more_time():
                self._end_late()
            # Replies are looked at now and then: one by one each would cost a wake-up.
            if self._room.poll(_LOOK):
                self._write()
            if self._is_readable(0):
                self._read()

    def tell(self, line: str) -> None:
        """Sends a line, where no reply is under way. Raises ProgramEnded."""
        try:
            data = f"{line}\n".encode()
        except UnicodeEncodeError:
            data = encoded(line) + b"\n"
        try:
            written = os.write(self._in, data)
        except (BlockingIOError, BrokenPipeError):
            written = 0
        if written != len(data):
            self.put(data[written:])

    def hear(self) -> str:
        """The first line of a reply, where no other is under way. Raises ProgramEnded."""
        if self._lines or self._part:
            return self.next_line()
        if self.until is not None:
            self._wait()
        said = os.read(self._out, _REPLY)
        if said and said.find(b"\n") == len(said) - 1:
            return said[:-1].decode()
        self._come_in(said)
        return self.next_line()

    def next_line(self) -> str:
        """The next reply line, without its line feed. Raises ProgramEnded."""
        while not self._lines:
            self._read()
        return self._lines.popleft()

    def first_lines(self, count: int) -> list[str]:
        """The first lines of a reply, so many, as long as the reply is not taken."""
        while len(self._lines) < count:
            self._read()
        return list(islice(self._lines, count))

    def take(self, wait: bool) -> list[str]:
        """The reply lines that have come; at least one where it is to wait. Raises ProgramEnded."""
        if self._is_readable(0):
            self._read()
        while wait and not self._lines:
            self._read()
        return self.rest()

    def rest(self) -> list[str]:
        """The reply lines that have been read before, without a look for more."""
        lines = list(self._lines)
        self._lines.clear()
        return lines

    def gather(self) -> None:
        """Leaves replies time to gather: taken in one by one, each would cost a wake-up."""
        time.sleep(_GATHER)

    def end(self) -> None:
        """Ends the program by the end of its input, or else by force. It is to be at rest."""
        self._process.end_input()
        self._process.ends_within(_END)
        self.kill()

    def kill(self) -> None:
        """Ends the program at once, with what it has started, and closes what leads to it."""
        self._process.kill()
        self._dropped.detach()

    def strike(self) -> None:
        """Ends the program at once while another thread uses it, which finds it ended."""
        self._process.strike()

    def _is_readable(self, seconds: float) -> bool:
        return bool(self._come.poll(max(0, seconds) * 1000))

    def _write(self) -> None:
        try:
            written = os.write(self._in, self._waiting)
            self._waiting = self._waiting[written:]
        except BlockingIOError:
            pass
        except BrokenPipeError:
            # It has ended; the replies before that are still to be read.
            self._waiting = b""

    def _left(self) -> float | None:
        """How many seconds are left, None where there is no end."""
        return None if self.until is None else max(0.0, self.until - time.monotonic())

    def _wait(self) -> None:
        """Waits for something of a reply, as long as there is time."""
        left = self._left()
        if left is None or (left > 0 and self._is_readable(left)):
            return
        while self._has_more_time():
            if self._is_readable(_AGAIN):
                return
        self._end_late()

    def _has_more_time(self) -> bool:
        """Whether it is given more time: it is at work yet, or what it says has come."""
        if self.until is None or time.monotonic() >= self.until + self.patience:
            return False
        return self._process.is_at_work() or self._is_readable(0)

    def _end_late(self) -> None:
        """Ends the program, since the time is over, unless it is kept, and is at work on all that
        it was sent. (What it says may come in this moment: then it isn't at work any more.)"""
        if self.is_kept and not self._waiting:
            if self._process.is_at_work() or self._is_readable(0):
                raise StillAtWork(_AT_WORK)
        self.kill()
        raise OutOfTime("the program did not answer in time, and was ended")

    def _read(self) -> None:
        if self.until is not None:
            self._wait()
        self._come_in(os.read(self._out, _PIECE))

    def _come_in(self, data: bytes) -> None:
        if not data:
            left = self._left()
            self.ended = self._how_ended(_END if left is None else min(_END, left))
            raise self.ended
        whole, feed, part = (self._part + data).rpartition(b"\n")
        self._part = part
        if feed:
            self._lines.extend(whole.decode().split("\n"))

    def _how_ended(self, seconds: float) -> ProgramEnded:
        """How it ended, where its output has ended, and it does within so many seconds. All that
        leads to it is closed."""
        self._process.ends_within(seconds)
        errors = self._process.errors()
        self.kill()
        return ProgramEnded(self._process.status, errors)
