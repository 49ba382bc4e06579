"""What docs/PIPE.md tells who drives the program: its examples, and how lines and replies go.

The examples are examples/drive.py, drive.sh and drive.c. Each is run in a folder of its own, with
the program as `propbench` on its path. The document shows what the first prints, of which the
others print some lines, and how it reads a reply.
"""
import os
import re
import shutil
import subprocess
import tempfile
import time
from dataclasses import dataclass
from typing import Callable, Iterator, Optional

from case import SECONDS, Case
from refusals import COMPILERS

TOP = os.path.dirname(os.path.dirname(os.path.realpath(__file__)))
DOCUMENT = "docs/PIPE.md"
MEASURES = "docs/BENCHMARKS.md"

# The examples, and which lines of what the document shows each prints.
EXAMPLES = {
    "session.py": [0, 1, 2, 3, 4],
    "drive.py": [0, 1, 2, 3, 4, 5],
    "drive.sh": [1, 4, 5],
    "drive.c": [1, 4, 5],
}

# A pipe's bytes on Linux, and how many of them the document says may be left unanswered.
PIPE, WINDOW = 65_536, 32_768

# Seconds after which a write that waits is taken to wait for ever.
STUCK = 0.5


def document() -> str:
    with open(f"{TOP}/{DOCUMENT}", encoding="utf-8") as it:
        return it.read()


def blocks() -> list[str]:
    """The indented blocks of the document, without what they are indented by."""
    found = re.findall(r"(?:^    .*\n)+", document(), flags=re.M)
    return ["".join(line.removeprefix("    ") for line in each.splitlines(True)) for each in found]


def example(file: str) -> tuple[str, str]:
    """The text of an example, and what it prints."""
    with open(f"{TOP}/examples/{file}", encoding="utf-8") as it:
        text = it.read()
    shown = next(it for it in blocks() if it.endswith("status 0\n"))
    lines = shown.splitlines(True)
    return text, "".join(lines[at] for at in EXAMPLES[file])


def command_for(file: str) -> list[str]:
    """The words that run an example, which is compiled first where it has to be."""
    if not file.endswith(".c"):
        return ["/bin/sh" if file.endswith(".sh") else "/usr/bin/python3", file]
    compiler = next(filter(shutil.which, COMPILERS))
    built, warned = file.removesuffix(".c"), ["-Wall", "-Wextra", "-Werror"]
    subprocess.run([compiler, "-std=gnu11", "-O1", *warned, "-o", built, file], check=True)
    return [built]


@dataclass
class Example:
    """An example, which has to print what the document says."""

    file: str

    @property
    def name(self) -> str:
        return f"pipe: examples/{self.file}"

    def wrong(self, program: str) -> Optional[str]:
        """What is wrong with what the example prints, or None."""
        text, wanted = example(self.file)
        with tempfile.TemporaryDirectory(prefix="pipe-") as room:
            os.symlink(os.path.abspath(program), f"{room}/propbench")
            file = f"{room}/{self.file}"
            with open(file, "w", encoding="utf-8") as it:
                it.write(text)
            env = {
                **os.environ,
                "PATH": f"{room}:{os.environ['PATH']}",
                "PROPBENCH": f"{room}/propbench",
                "PYTHONPATH": f"{TOP}/python/src",
                "PYTHONDONTWRITEBYTECODE": "1",
            }
            words = command_for(file)
            ran = subprocess.run(words, env=env, capture_output=True, text=True, timeout=SECONDS)
        if ran.returncode or ran.stderr or ran.stdout != wanted:
            return f"status {ran.returncode}: {ran.stderr}\n{ran.stdout}\nwanted:\n{wanted}"
        return None


@dataclass
class Driven:
    """A dialogue with the program: a function that says what is wrong with how it goes, or None."""

    name: str
    talk: Callable[["subprocess.Popen[bytes]"], Optional[str]]

    def wrong(self, program: str) -> Optional[str]:
        """What is wrong with the dialogue, or None."""
        pipes = {"stdin": subprocess.PIPE, "stdout": subprocess.PIPE, "bufsize": 0}
        with subprocess.Popen([program], **pipes) as ran:  # type: ignore[call-overload]
            try:
                return self.talk(ran)
            finally:
                ran.kill()


def lines_until_stuck(ran: "subprocess.Popen[bytes]") -> tuple[int, bytes]:
    """How many lines go into a program whose replies nobody reads, and the rest of the last one."""
    assert ran.stdin
    os.set_blocking(ran.stdin.fileno(), False)
    count, waited = 0, 0.0
    line = rest = b"cell c%05d span\n" % count
    while waited < STUCK:
        wrote = ran.stdin.write(rest)
        if wrote:
            rest, waited = rest[wrote:], 0.0
        else:
            time.sleep(0.01)
            waited += 0.01
        if not rest:
            count += 1
            line = rest = b"cell c%05d span\n" % count
    return count, rest if rest != line else b""


def is_stuck_as_told(ran: "subprocess.Popen[bytes]") -> Optional[str]:
    """Without a reader the lines stop at some 26,000, and go on once their replies are read."""
    assert ran.stdin and ran.stdout
    count, rest = lines_until_stuck(ran)
    # (as many replies as their pipe holds, and behind them a read and a pipe of lines)
    most = PIPE // len(b"ok\n") + (PIPE + 4_096) // len(b"cell c00000 span\n")
    if not most - 1_000 <= count <= most + 1_000:
        return f"{count} lines were taken, and not about {most}"
    told = re.search(r"after some ([\d,]+) lines", document())
    if not told or abs(int(told[1].replace(",", "")) - most) > 1_000:
        return f"{DOCUMENT} does not tell that {most} lines are taken"
    replies = b""
    while len(replies) < count * len(b"ok\n"):
        replies += os.read(ran.stdout.fileno(), PIPE)
    os.set_blocking(ran.stdin.fileno(), True)
    ran.stdin.write(rest)
    ran.stdin.write(b"ask c00000\n")
    wanted = b"c00000 = nothing\n"
    while not replies.endswith(wanted):
        more = os.read(ran.stdout.fileno(), PIPE)
        if not more:
            return f"it ended behind {replies[-50:]!r}"
        replies += more
    return None


LONG, PREMISES = b"p" * 4_000, 20


def window_is_enough(ran: "subprocess.Popen[bytes]") -> Optional[str]:
    """With 32 kB of lines unanswered a write never waits, however long the replies are."""
    assert ran.stdin and ran.stdout
    ran.stdin.write(b"cell x span\n")
    os.read(ran.stdout.fileno(), PIPE)
    for number in range(PREMISES):
        ran.stdin.write(b"tell %s%d x %d..1000\n" % (LONG, number, number))
        os.read(ran.stdout.fileno(), PIPE)
    # (the reply to each has more bytes than a pipe holds)
    line = b"worldview".ljust(99) + b"\n"
    asks = WINDOW // len(line)
    os.set_blocking(ran.stdin.fileno(), False)
    sent = ran.stdin.write(line * asks)
    if sent != len(line) * asks:
        return f"{sent} bytes of {len(line) * asks} were taken"
    ran.stdin.close()
    replies = ran.stdout.read()
    count, length = replies.count(b"\n"), len(replies)
    if count != 2 * asks or length < asks * PREMISES * len(LONG):
        return f"{count} lines of {length} bytes, wanted {2 * asks} of more bytes"
    return None


class Speed:
    """The rows that are measured are those that the document tells."""

    name = "pipe: what tools/pipe_speed measures"

    def wrong(self, program: str) -> Optional[str]:
        """What is wrong with the rows, or None."""
        words = [f"{TOP}/tools/pipe_speed", program, "--lines", "100"]
        ran = subprocess.run(words, capture_output=True, text=True, timeout=SECONDS)
        rows = re.findall(r"^\| (.*) \| [\d,]{4,} \| [\d,]{4,} \|$", ran.stdout, flags=re.M)
        with open(f"{TOP}/{MEASURES}", encoding="utf-8") as it:
            shown = it.read().partition("## Lines through pipes")[2]
        told = re.findall(r"^\| (.*) \| [\d,]{4,} \| [\d,]{4,} \|$", shown, flags=re.M)
        if ran.returncode or not rows or rows != told:
            return f"{ran.stderr}it measures {rows}, and {MEASURES} tells {told}"
        return None


class Heart:
    """What the document shows of the example in Python stands there."""

    name = "pipe: what is shown of examples/drive.py"

    def wrong(self, _program: str) -> Optional[str]:
        """What is wrong with it, or None."""
        shown = next(it for it in blocks() if it.startswith("first = "))
        lines = [line.strip() for line in example("drive.py")[0].splitlines()]
        return None if "\n".join(map(str.strip, shown.splitlines())) in "\n".join(lines) else shown


def cases() -> Iterator[Case | Driven | Example | Heart | Speed]:
    yield Speed()
    yield Heart()
    yield from map(Example, EXAMPLES)
    yield Driven("pipe: replies that nobody reads", is_stuck_as_told)
    yield Driven("pipe: 32 kB of lines unanswered", window_is_enough)
    mark = b"error 3: unknown command\n"
    sent = b"cell x span\nmark\n# mark\nmark\nask x\nmark"
    yield Case("pipe: marks", sent, b"ok\n" + mark * 2 + b"x = nothing\n" + mark)
    yield Case("pipe: a last line without its end", b"cell x span\nask x", b"ok\nx = nothing\n")
