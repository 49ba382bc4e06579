"""A session over two pipes, and how many lines the reply to a line has."""
import re
import subprocess
import threading
from typing import Callable, Iterable, Iterator

SECONDS = 60
# How a reply begins of which it says how many lines follow, and those with one line more.
COUNTED = r"(plans?|conflicts|repairs|list|how|step|nogoods) (\d+)(?: unsettled)?$"
BEHIND = ("plans", "conflicts", "repairs")
Reply = list[str]


class Cut(Exception):
    """The program ended, or didn't answer in time."""


def has_reply(line: str) -> bool:
    return bool(line.strip()) and not line.startswith("#")


def reply_of(line: str, read: Callable[[], str]) -> Reply:
    """The lines of the reply to a line."""
    word, reply = line.split()[0], [read()]
    if word in ("least", "greatest") and reply[0].startswith((f"{word} ", "bound ")):
        reply += [read(), read()]
    counted = re.match(COUNTED, reply[-1])
    more = int(counted[2]) + (counted[1] in BEHIND) if counted else reply[0].startswith("in:")
    return [*reply, *(read() for _ in range(more))]


class Talk:
    """A session."""

    def __init__(self, program: str) -> None:
        pipe = subprocess.PIPE
        self.ran = subprocess.Popen([program], stdin=pipe, stdout=pipe)
        self.timer = threading.Timer(SECONDS, self.ran.kill)
        # What was said, each line with how often.
        self.said: list[tuple[str, int]] = []

    def __enter__(self) -> "Talk":
        self.timer.start()
        return self

    def __exit__(self, *_: object) -> None:
        self.timer.cancel()
        self.ran.kill()
        self.ran.communicate()

    def read(self) -> str:
        assert self.ran.stdout
        line = self.ran.stdout.readline().decode()
        if not line:
            raise Cut
        return line.rstrip("\n")

    def say(self, line: str, times: int = 1) -> list[Reply]:
        """The replies to a line that is said so often."""
        self.said.append((line, times))
        assert self.ran.stdin
        try:
            self.ran.stdin.write(f"{line}\n".encode() * times)
            self.ran.stdin.flush()
        except BrokenPipeError as error:
            raise Cut from error
        return [reply_of(line, self.read) for _ in range(times if has_reply(line) else 0)]

    def all(self, lines: Iterable[str]) -> None:
        """Says lines that have to be answered `ok`."""
        for line in lines:
            if self.say(line) != [["ok"]]:
                raise Cut(f"{line} was not answered ok")

    def told(self) -> Iterator[str]:
        """The lines that were said."""
        for line, times in self.said:
            yield from [line] * times
