"""How long a question may take, and what is told while it runs."""

import sys
import time
from collections.abc import Callable, Iterator, Sequence
from typing import TypeVar

from propbench.given import seconds_given

# What is told of a question that goes on: a line of text.
Progress = Callable[[str], None]

# A terminal is told of a question after so many seconds, and so often.
_FIRST, _AGAIN = 1.0, 0.2
# How long, in seconds, a reply that is under way is waited for when the time is over; and what has
# to be done behind that, as to take back what was tried.
_GRACE, _LAST = 0.4, 0.8
# The seconds of the first turn, where ways of asking take turns, and how many times as many follow.
_FIRST_TURN, _MORE = 0.5, 4
# The same of the slices of several questions.
_FIRST_SLICE, _MORE_OF_SLICE = 2.0, 2

Asked = TypeVar("Asked")


class Clock:
    """The time that a question has."""

    def __init__(self, seconds: float | None, progress: Progress | None) -> None:
        """So many seconds from now, without an end where that is None. Raises as
        `seconds_given`."""
        given = seconds_given(seconds)
        self._began = time.monotonic()
        self._until = None if given is None else self._began + given
        self._progress = progress or _shown_by
        self._is_asked_for = progress is not None
        self._next = self._began + _FIRST
        self._told = False
        self._text = "searching"

    def is_over(self) -> bool:
        """Whether the time is used up."""
        return self._until is not None and time.monotonic() >= self._until

    @property
    def progress(self) -> Progress | None:
        """What is called with what is told, None where it is shown on the terminal."""
        return self._progress if self._is_asked_for else None

    @property
    def latest(self) -> float | None:
        """Until when replies are waited for, by the monotonic clock: a bit longer than there is
        time, so that what is nearly there isn't lost; None where there is no end."""
        return None if self._until is None else self._until + _GRACE

    @property
    def last(self) -> float | None:
        """Until when what is behind that has to come, by the monotonic clock; None where there is
        no end."""
        return None if self._until is None else self._until + _LAST

    def reply_left(self) -> float | None:
        """How many seconds replies are waited for yet, None where there is no end."""
        return None if self.latest is None else max(0.0, self.latest - time.monotonic())

    def seconds_left(self) -> float | None:
        """How many seconds are left, None where there is no end."""
        return None if self._until is None else max(0.0, self._until - time.monotonic())

    def turn(self, seconds: float) -> "Clock":
        """A clock for so many of these seconds, as far as there are as many."""
        left = self.seconds_left()
        return Clock(seconds if left is None else min(seconds, left), self.progress)

    def turns(self) -> Iterator[float]:
        """How many seconds something has at a time, where two ways of asking take turns: more and
        more, and of what is left the half at the most."""
        seconds = _FIRST_TURN
        while True:
            left = self.seconds_left()
            yield seconds if left is None else min(seconds, left / 2)
            if self.is_over():
                return
            seconds *= _MORE

    def slices(
        self, waiting: Callable[[], Sequence[Asked]]
    ) -> Iterator[tuple[Asked, float | None]]:
        """What waits, round by round, with the seconds that each has: more and more, as far as
        there is time, and all that is left where nothing else waits."""
        seconds = _FIRST_SLICE
        while there := waiting():
            for each in there:
                left = self.seconds_left()
                if left == 0:
                    return
                is_all = len(there) == 1 or left is not None and left < seconds
                yield each, left if is_all else seconds
            seconds *= _MORE_OF_SLICE

    def is_telling(self) -> bool:
        """Whether what is told now is passed on: it may take long to make it up."""
        return self._is_asked_for or time.monotonic() >= self._next

    def tell(self, text: str) -> None:
        """Tells of how far a question is, now and then."""
        self._text = text
        self.tick()

    def tick(self) -> None:
        """Tells now and then that it goes on."""
        if self.is_telling():
            now = time.monotonic()
            self._next = now + _AGAIN
            self._told = True
            self._progress(f"{self._text} ({now - self._began:.0f} s)")

    def end(self) -> None:
        """Tells that the question has come to its end."""
        if self._told and not self._is_asked_for:
            self._progress("")


def on_terminal(text: str) -> None:
    """Shows a line on standard error where that is a terminal, in place of the one before."""
    if sys.stderr.isatty():
        print(f"\r\x1b[K{text}", end="", file=sys.stderr, flush=True)


_shown_by: Progress = on_terminal


def show_by(progress: Progress) -> None:
    """From now on what is told of questions without a `progress` of their own is shown by this."""
    global _shown_by
    _shown_by = progress
