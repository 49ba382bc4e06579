"""Lines that go wrong on purpose: the program refuses one, or ends at it, or Ctrl-C comes there."""

import os
import signal
import sys
from collections.abc import Callable, Sequence
from types import FrameType
from typing import Any

import pytest

import propbench
from propbench import LimitReached, ProgramEnded, Refused, Session

Trace = Callable[[FrameType, str, object], Any]
_PACKAGE = os.path.dirname(propbench.__file__)
# Commands that state nothing.
_QUESTIONS = ("ask", "why", "core", "settle", "worldview", "nogoods", "list", "how", "limit")
KINDS = ("refused", "no room", "ended", "interrupted")
# What such a line may come to.
COMES_TO = (Refused, ValueError, ProgramEnded, KeyboardInterrupt)


class Faults:
    """Has one of the lines that state something go wrong, in whichever session it is told."""

    def __init__(self, patch: pytest.MonkeyPatch) -> None:
        self._left, self._kind, self._has_come = -1, "", False
        send, send_all = Session.send, Session.send_all

        def sends(session: Session, line: str, **how: Any) -> Any:
            if line.split()[0] in _QUESTIONS:
                return send(session, line, **how)
            return self._told(session, [line], lambda lines: [send(session, it) for it in lines])[0]

        def sends_all(session: Session, lines: Sequence[str], **how: Any) -> Any:
            if how:
                return send_all(session, lines, **how)
            return self._told(session, list(lines), lambda lines: send_all(session, lines))

        patch.setattr(Session, "send", sends)
        patch.setattr(Session, "send_all", sends_all)

    def at(self, count: int, kind: str) -> None:
        """Has the line go wrong that comes behind so many others; once."""
        self._left, self._kind, self._has_come = count, kind, False

    def stop(self) -> bool:
        """Has no line go wrong any more; whether one has."""
        self._left = -1
        return self._has_come

    def _told(
        self, session: Session, lines: list[str], send: Callable[[list[str]], list[Any]]
    ) -> list[Any]:
        place, self._left = self._left, self._left - len(lines)
        if not 0 <= place < len(lines):
            return send(lines)
        self._left, self._has_come = -1, True
        if self._kind in ("refused", "no room"):
            try:
                send([*lines[:place], "ask nobody", *lines[place + 1 :]])
            except Refused as refused:
                if self._kind == "refused":
                    raise
                raise LimitReached(16, "limit reached: cells", lines[place], refused.line_number)
        send(lines[:place])
        if self._kind == "interrupted":
            raise KeyboardInterrupt
        os.kill(session.pid, signal.SIGKILL)
        return send(lines[place:])


class Interrupting:
    """Has Ctrl-C come at a line of the package's code, counted from 1; `count` is how many there
    were."""

    def __init__(self, at: int = 0) -> None:
        self._at, self.count = at, 0

    def run(self, call: Callable[[], object]) -> bool:
        """Whether a call came to its end."""
        sys.settrace(self._trace)
        try:
            call()
        except KeyboardInterrupt:
            return False
        finally:
            sys.settrace(None)
        return True

    def _trace(self, frame: FrameType, event: str, arg: object) -> "Trace | None":
        if not frame.f_code.co_filename.startswith(_PACKAGE):
            return None
        self.count += event == "line"
        if event == "line" and self.count == self._at:
            sys.settrace(None)
            # (which comes later where signals are held back)
            signal.raise_signal(signal.SIGINT)
        return self._trace
