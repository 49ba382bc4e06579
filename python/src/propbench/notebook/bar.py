"""A bar for what takes long: how far it is, and how it is stopped. It goes when that is done."""

import time
from html import escape

from IPython.display import HTML, DisplayHandle

from propbench.replies import Reply

# It is shown after so many seconds, and renewed so often.
_FIRST, _AGAIN = 1.0, 0.3
_GONE = "<span></span>"
_HOW = "the stop button ends it, and the session goes on"


class ProgressBar:
    """A bar, which is shown where what it tells of takes long."""

    def __init__(self) -> None:
        self._shown: DisplayHandle | None = None
        self._next = time.monotonic() + _FIRST

    def steps(self, steps: int, reply: Reply) -> None:
        """Tells of a run that took so many steps."""
        self.tell(f"{steps:,} steps so far")

    def tell(self, text: str) -> None:
        """Tells of something that goes on; "" that it has come to its end."""
        if not text:
            self.end()
        elif time.monotonic() >= self._next:
            self._next = time.monotonic() + _AGAIN
            told = HTML(f"<progress></progress> {escape(text)} ({_HOW})")
            if self._shown is None:
                # (kept before it is shown: a stop may come between the two)
                self._shown = DisplayHandle()
                self._shown.display(told)
            else:
                self._shown.update(told)

    def end(self) -> None:
        """Takes the bar away."""
        if self._shown is not None:
            self._shown.update(HTML(_GONE))
        self._shown = None
        self._next = time.monotonic() + _FIRST
