"""Cutting a call short at a chosen moment: Ctrl-C at the n-th step of the package that it executes,
or another exception there.

A step is an instruction of Python's that is about to be executed, in any function of the package,
those that are called in between too: a line has several. `signal.raise_signal` is what the kernel
does at Ctrl-C: so a handler that holds it back is asked. `Raised` stands for what a debugger may
do, which asks nobody: it comes at any line but those that hold signals back themselves.
"""

import os
import signal
import sys
from collections.abc import Callable, Iterator
from contextlib import contextmanager
from types import FrameType
from typing import Any

import propbench

PACKAGE = os.path.dirname(propbench.__file__) + os.sep


class Raised(KeyboardInterrupt):
    """An interrupt that comes as an exception, without a signal."""


def by_signal() -> None:
    """Ctrl-C."""
    signal.raise_signal(signal.SIGINT)


def by_exception() -> None:
    """An exception in the midst of any line."""
    raise Raised


class Moment:
    """The n-th step from now on, at which something happens; `seen` counts those that came."""

    def __init__(self, number: int, happens: Callable[[], None]) -> None:
        self.number, self.seen = number, 0
        self._happens, self._asks_nobody = happens, happens is by_exception
        self.where = ""

    def trace(self, frame: FrameType, event: str, _: Any) -> Callable[..., Any] | None:
        """What `sys.settrace` takes."""
        if not frame.f_code.co_filename.startswith(PACKAGE):
            return None
        frame.f_trace_opcodes = not self._asks_nobody
        counted = "line" if self._asks_nobody else "opcode"
        if event == counted and not (self._asks_nobody and frame.f_code.co_name == "held_back"):
            self.seen += 1
            if self.seen == self.number:
                sys.settrace(None)
                self.where = f"{frame.f_code.co_name}:{frame.f_lineno}"
                self._happens()
        return self.trace


@contextmanager
def at(number: int, happens: Callable[[], None] = by_signal) -> Iterator[Moment]:
    """At the n-th step of the package within the block it happens; 0 for never."""
    moment = Moment(number, happens)
    sys.settrace(moment.trace)
    try:
        yield moment
    finally:
        sys.settrace(None)
