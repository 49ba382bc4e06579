"""A process of a program with its pipes, and what sees to it that it ends.

It ends with this one, whatever ends that, in the midst of a run too: by the leash. That is a pipe
whose writing end this process alone has, and on which nobody writes. Each program has a reading end
of its own, and the kernel is told (`F_SETOWN`, `F_SETSIG`) to send SIGKILL to the program's group
once something comes of it: that is when the last writer is gone. A child that this process forks
lets go of the writing end.
"""

import fcntl
import os
import signal
import threading
import time
import weakref
from collections.abc import Iterator, Mapping
from contextlib import ExitStack, contextmanager, suppress
from types import FrameType
from typing import IO

# How large a pipe is asked for, in bytes.
_PIPE = 1 << 20
# The number that the leash has in the program, behind its three devices.
_LEASH = 3
# After how many seconds it is looked whether the process has ended, at first and later on.
_LOOK, _LATER = 0.0005, 0.02
# Signals that are held back, and whether they are now.
_HELD = (signal.SIGALRM, signal.SIGUSR1, signal.SIGHUP, signal.SIGTERM, signal.SIGINT)
_is_held = False
# Signals that Python ignores for itself, which a program finds as they are by default.
_OWN_SIGNALS = (signal.SIGPIPE, signal.SIGXFSZ)


@contextmanager
def held_back() -> Iterator[None]:
    """Ctrl-C, and what else has a handler in Python, takes effect behind the block and not within
    it: for lines that must not be cut, which start a process or end it, and so for some
    milliseconds. (Python handles signals in the main thread alone, whichever they were sent to: so
    they are blocked here, and those that another thread gets are noted.)"""
    global _is_held
    if _is_held or threading.current_thread() is not threading.main_thread():
        yield
        return
    came: list[tuple[int, FrameType | None]] = []
    found = {int(each): signal.getsignal(each) for each in _HELD}
    handlers = {number: handler for number, handler in found.items() if callable(handler)}
    blocked = signal.pthread_sigmask(signal.SIG_BLOCK, ())
    try:
        signal.pthread_sigmask(signal.SIG_BLOCK, handlers)
        for number in handlers:
            signal.signal(number, lambda number, frame: came.append((number, frame)))
        _is_held = True
        yield
    finally:
        _is_held = False
        for number, handler in handlers.items():
            signal.signal(number, handler)
        signal.pthread_sigmask(signal.SIG_SETMASK, blocked)
        for number, frame in came:
            handlers[number](number, frame)


class Process:
    """A process of its own session, so that Ctrl-C at a terminal doesn't end it. `into` and `out`
    are the numbers of the pipes to it and from it, -1 once they are closed; `into` never waits.
    `status` is its exit status, -N where signal N ended it, None as long as that isn't known."""

    into = out = -1

    def __init__(
        self, command: list[str], environment: Mapping[str, str], show_errors: bool
    ) -> None:
        """Starts it. What it says on standard error is kept, or shown on that of this process.
        Raises OSError where it can't be started."""
        self.pid = 0
        self.status: int | None = None
        self._said: IO[bytes] | None = None
        self._is_ours = True
        is_started = False
        try:
            with held_back():
                self._start(command, environment, show_errors)
            is_started = True
        finally:
            if not is_started:
                self.kill()

    def _start(self, command: list[str], environment: Mapping[str, str], show_errors: bool) -> None:
        with ExitStack() as theirs:
            into, self.into = os.pipe()
            theirs.callback(os.close, into)
            self.out, out = os.pipe()
            theirs.callback(os.close, out)
            places = {0: into, 1: out}
            leash = _leash_end()
            if leash is not None:
                theirs.callback(os.close, leash)
                places[_LEASH] = leash
            if not show_errors:
                # (a file without a name, which is gone with whoever has it open)
                self._said = open(os.memfd_create("errors"), "w+b")
                places[2] = self._said.fileno()
            self.pid = os.posix_spawn(
                command[0],
                command,
                environment,
                file_actions=[
                    (os.POSIX_SPAWN_DUP2, number, place) for place, number in sorted(places.items())
                ],
                setsid=True,
                setsigmask=(),
                setsigdef=_OWN_SIGNALS,
            )
            _processes.add(weakref.ref(self, _processes.discard))
            if leash is not None:
                _tie(leash, self.pid)
        os.set_blocking(self.into, False)
        for pipe in (self.into, self.out):
            with suppress(OSError):
                fcntl.fcntl(pipe, fcntl.F_SETPIPE_SZ, _PIPE)

    def ends_within(self, seconds: float) -> bool:
        """Whether it ends by itself within so many seconds, which are waited for."""
        until = time.monotonic() + seconds
        pause = _LOOK
        while not self.is_over():
            if time.monotonic() >= until:
                return False
            time.sleep(pause)
            pause = min(2 * pause, _LATER)
        return True

    def is_over(self) -> bool:
        """Whether it has ended by now. (How it did is taken in by `kill`.)"""
        if self.status is not None or not self._is_ours:
            return True
        try:
            how = os.WEXITED | os.WNOWAIT | os.WNOHANG
            return os.waitid(os.P_PID, self.pid, how) is not None
        except ChildProcessError:
            return True

    def is_at_work(self) -> bool:
        """Whether it runs, or would if a processor were free: it doesn't wait, and isn't
        stopped."""
        with suppress(OSError), open(f"/proc/{self.pid}/stat", "rb") as file:
            return file.read().rpartition(b")")[2].split()[0] in (b"R", b"D")
        return False

    def strike(self) -> None:
        """Ends it at once, with what it has started. Nothing is closed, so any thread may do this
        to whoever uses it."""
        if self.pid and self.status is None and self._is_ours:
            # (as long as it is not taken in how it ended, no other process has its number)
            with suppress(ProcessLookupError):
                os.killpg(self.pid, signal.SIGKILL)

    def kill(self) -> None:
        """Ends it at once, with what it has started, and closes what there is of it here."""
        with held_back():
            self.strike()
            if self.pid and self.status is None and self._is_ours:
                self._take_in()
            self._close()

    def end_input(self) -> None:
        """Ends its input."""
        with held_back():
            number, self.into = self.into, -1
            _close(number)

    def errors(self) -> str:
        """What it has said on standard error, where that was kept, and nothing is closed yet."""
        if self._said is None:
            return ""
        self._said.seek(0)
        return self._said.read().decode(errors="replace")

    def leave(self) -> None:
        """Lets go of it in a child that was forked: it is the parent's. (The numbers of the pipes
        stay taken, for whoever has them yet: they lead to nothing.)"""
        self._is_ours = False
        nothing = os.open(os.devnull, os.O_RDWR)
        for number in (self.into, self.out):
            if number >= 0:
                os.dup2(nothing, number, inheritable=False)
        os.close(nothing)

    def _take_in(self) -> None:
        """Takes in how it ended."""
        try:
            self.status = os.waitstatus_to_exitcode(os.waitpid(self.pid, 0)[1])
        except ChildProcessError:
            # Somebody else has taken it in, and that can't be known any more.
            self.status = 0

    def _close(self) -> None:
        numbers = (self.into, self.out)
        self.into = self.out = -1
        for number in numbers:
            _close(number)
        if self._said:
            self._said.close()
            self._said = None


def _close(number: int) -> None:
    if number >= 0:
        with suppress(OSError):
            os.close(number)


def _new_leash() -> int:
    """The writing end of a leash."""
    end, leash = os.pipe()
    os.close(end)
    return leash


def _leash_end() -> int | None:
    """A reading end of the leash, for one program, None where no /proc is there. (It is opened
    anew, since what the kernel is told holds of all that share what was opened.)"""
    try:
        return os.open(f"/proc/self/fd/{_leash}", os.O_RDONLY | os.O_CLOEXEC)
    except OSError:
        return None


def _tie(leash: int, pid: int) -> None:
    """Has the kernel kill a process, with all in its group, once the leash has no writer. (Where a
    kernel can't, the process ends at the end of its input.)"""
    with suppress(OSError):
        fcntl.fcntl(leash, fcntl.F_SETOWN, -pid)
        fcntl.fcntl(leash, fcntl.F_SETSIG, signal.SIGKILL)
        fcntl.fcntl(leash, fcntl.F_SETFL, fcntl.fcntl(leash, fcntl.F_GETFL) | os.O_ASYNC)


_leash = _new_leash()
# The processes that were started here: a child that is forked lets go of them.
# (A `WeakSet` would run lines of Python's own where one is dropped, which may be cut.)
_processes: "set[weakref.ref[Process]]" = set()


def _leave_all() -> None:
    global _leash, _is_held
    _is_held = False
    _close(_leash)
    _leash = _new_leash()
    for process in [each() for each in list(_processes)]:
        if process:
            process.leave()


os.register_at_fork(after_in_child=_leave_all)
