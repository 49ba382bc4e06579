"""Sessions that are drawn: lines that look random, with what the reply to each has to be, and the
smallest such session that is still answered wrongly.

A session is a list of acts, each of which says one line. What its reply has to be follows from the
acts before it, so that any of them can be left out: where a reply is wrong, as many are left out as
leave one wrong.
"""
import random
import re
import subprocess
from dataclasses import dataclass
from typing import Any, Callable, Iterator, Optional

from case import NO_END, SECONDS, Case, as_bytes


# A word of a session that is told, and what it is said of.
Act = tuple[Any, ...]


class Unending(Exception):
    """The evaluation takes too many rounds to wait for."""


@dataclass
class Exactly:
    """A reply that has to be just this."""

    text: str

    def is_right(self, reply: str, seen: Any) -> bool:
        return reply == self.text

    def wanted(self, seen: Any) -> str:
        return self.text


OK = Exactly("ok")


def replies_of(output: bytes) -> Iterator[str]:
    """The replies in an output, each with all its lines."""
    lines = iter(output.decode(errors="replace").splitlines())
    for line in lines:
        counted = re.fullmatch(r"nogoods (\d+)", line)
        more = int(counted[1]) if counted else line.startswith("in:")
        yield "\n".join([line, *(next(lines, "") for _ in range(more))])


@dataclass
class Wrong:
    """A line of a session that is answered wrongly."""

    line: int
    came: str
    wanted: str


class Told:
    """A session as far as it is told: its lines, and what the reply to each has to be."""

    # What is kept in mind of the replies while they are read.
    SEEN: Callable[[], Any] = list

    def __init__(self, options: list[str]) -> None:
        self.options = options
        self.lines: list[str] = []
        self.replies: list[Any] = []

    def act(self, word: str, *rest: object) -> None:
        """Says a line by the method of this name."""
        getattr(self, word)(*rest)

    def say(self, line: str, reply: Any = OK) -> None:
        self.lines.append(line)
        self.replies.append(reply)

    def declare(self, line: str) -> None:
        self.say(line)

    def sent(self) -> bytes:
        return as_bytes(*self.lines)

    def wrong_in(self, output: bytes) -> Optional[Wrong]:
        """The first line that is answered wrongly."""
        came, seen = list(replies_of(output)), self.SEEN()
        for at, reply in enumerate(self.replies):
            if at == len(came):
                return Wrong(at, "no reply", reply.wanted(seen))
            if not is_right(reply, came[at], seen):
                return Wrong(at, came[at], reply.wanted(seen))
        return (
            Wrong(len(self.lines) - 1, "\n".join(came[len(self.lines) - 1 :]), "one reply")
            if len(came) > len(self.lines)
            else None
        )

    def wrong_by(self, program: str) -> Optional[Wrong]:
        """The first line that the program answers wrongly."""
        ran = subprocess.run(
            [program, *self.options],
            input=self.sent(),
            capture_output=True,
            timeout=SECONDS,
            check=False,
        )
        wrong = self.wrong_in(ran.stdout)
        if ran.returncode == 0 and not ran.stderr:
            return wrong
        return Wrong(
            wrong.line if wrong else len(self.lines) - 1,
            f"status {ran.returncode}, and on standard error {ran.stderr!r}",
            "status 0",
        )

    def text_of(self, wrong: Wrong) -> str:
        """The lines up to the wrong one, what came and what is wanted."""
        return "\n".join(
            [
                *(f"> {line}" for line in self.lines[: wrong.line + 1]),
                f"came:   {wrong.came}",
                f"wanted: {wrong.wanted}",
            ]
        )


def is_right(reply: Any, came: str, seen: Any) -> bool:
    try:
        return bool(reply.is_right(came, seen))
    except Unending:
        # (what the premises that came are enough for)
        return True
    except (ValueError, TypeError, IndexError):
        # (what came can't be read)
        return False


class Draw:
    """Draws the acts of a session."""

    TOLD: Callable[[list[str]], Any] = Told

    def __init__(self, number: int, options: list[str]) -> None:
        self.chance = random.Random(number)
        self.acts: list[Act] = []
        self.told: Any = type(self).TOLD(options)
        try:
            self.draw()
        except Unending:
            # (the session ends before the question whose evaluation doesn't)
            pass

    def draw(self) -> None:
        """Draws the acts, each by `act`."""
        raise NotImplementedError

    def act(self, *act: object) -> None:
        self.told.act(*act)
        self.acts.append(act)


def shrunk(acts: list[Act], is_wrong: Callable[[list[Act]], bool]) -> list[Act]:
    """What is left of the acts where as many are left out as leave something wrong: none of those
    left can be left out by itself.

    (Hypothesis shrinks only what it has drawn itself. Given the chances of a session, `randoms()`,
    it was not done after two minutes and a thousand runs, where this takes some ten seconds.)"""
    size = len(acts)
    while size:
        before, at = len(acts), 0
        while at < len(acts):
            fewer = acts[:at] + acts[at + size :]
            if is_wrong(fewer):
                acts = fewer
            else:
                at += size
        size = size if size == 1 and len(acts) < before else size // 2
    return acts


def undeclared(acts: list[Act], lines: list[str]) -> list[Act]:
    """The acts without declarations of what no later line names. The lines are those of the
    acts."""
    kept: list[Act] = []
    words: set[str] = set()
    for act, line in zip(reversed(acts), reversed(lines)):
        if act[0] != "declare" or line.split()[1] in words:
            kept.insert(0, act)
            words.update(line.split())
    return kept


@dataclass
class Drawn(Case):
    """A session that is drawn, once it is run."""

    draw: type[Draw] = Draw
    number: int = 0

    def wrong(self, program: str) -> Optional[str]:
        told = self.draw(self.number, self.options).told
        try:
            wrong = told.wrong_by(program)
        except subprocess.TimeoutExpired:
            return NO_END
        return told.text_of(wrong) if wrong else None

    def session(self, acts: list[Act]) -> Any:
        """The session of these acts, or None where its evaluation doesn't end."""
        told = self.draw.TOLD(self.options)
        try:
            for act in acts:
                told.act(*act)
        except Unending:
            return None
        return told

    def smallest(self, program: str) -> Optional[str]:
        """The smallest session found that the program answers wrongly too, with what is wrong, or
        None where it is right the next time."""

        def is_wrong(acts: list[Act]) -> bool:
            told = self.session(acts)
            try:
                return told is not None and told.wrong_by(program) is not None
            except subprocess.TimeoutExpired:
                return False

        acts = self.draw(self.number, self.options).acts
        declared, others = (
            [act for act in acts if (act[0] == "declare") == is_declared]
            for is_declared in (True, False)
        )
        acts = declared + shrunk(others, lambda fewer: is_wrong(declared + fewer))
        fewer = undeclared(acts, self.session(acts).lines)
        told = self.session(fewer if is_wrong(fewer) else acts)
        wrong = told.wrong_by(program)
        return told.text_of(wrong) if wrong else None


def drawn(draw: type[Draw], name: str, count: int) -> Iterator[Drawn]:
    """So many cases of this kind, each drawn when it is run."""
    return (
        Drawn(f"{name}: random session {number}", b"", b"", draw=draw, number=number)
        for number in range(count)
    )
