"""What is told on standard error while a program is built.

At a terminal it is one line that moves, and else a line now and then."""
import sys
import time

# Seconds between two lines where they are kept, as in a file.
BETWEEN = 15.0


def say(of: str, text: str) -> None:
    """Tells a text in the name of a program."""
    print(f"{of}: {text}", file=sys.stderr, flush=True)


class Progress:
    """How long a work has taken so far, and what it is at."""

    def __init__(self, of: str, expected: int) -> None:
        """The work, for a program, takes about so many seconds."""
        self.of, self.expected, self.began = of, expected, time.monotonic()
        self.is_moving = sys.stderr.isatty()
        self.last = self.began

    def seconds(self) -> float:
        return time.monotonic() - self.began

    def tell(self, at: str) -> None:
        """Tells what the work is at, where it is time for that."""
        now = time.monotonic()
        if now < self.last + (0.5 if self.is_moving else BETWEEN):
            return
        self.last = now
        seconds, expected = self.seconds(), self.expected
        of = f"of about {expected}" if seconds < expected else f"where {expected} are usual"
        text = f"{at}, {seconds:.0f} seconds so far, {of}"
        if self.is_moving:
            print(f"\r\x1b[K{self.of}: {text}", end="", file=sys.stderr, flush=True)
        else:
            say(self.of, text)

    def end(self) -> None:
        """Takes the line that moves away."""
        if self.is_moving:
            print("\r\x1b[K", end="", file=sys.stderr, flush=True)
