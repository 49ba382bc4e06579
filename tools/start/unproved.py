"""Runs an unproved program of the sources, which is built where none is kept.

`of` is the program's name throughout."""
import os
import select
import shutil
import signal
import subprocess
import sys
from collections.abc import Callable, Iterator

import kept
import tried
from proved import TOP
from taken import NotBuilt
from told import Progress, say

# About how many seconds it takes until a program is there that runs, and until one that is fast.
SOON, FAST = 60, 90
# The statuses where there is no program to run, and where the build is interrupted.
NONE, INTERRUPTED = 5, 130

UNPROVED = "this session runs unproved; tools/build proves and builds the program"
FIRST = """\
no program is built here for these sources yet: an unproved one is built now, once,
{of}: in about {seconds} seconds; what you send meanwhile is answered then"""
SLOWLY = """\
this session runs unproved, and slowly: later ones, from about half a minute on, are fast;
{of}: tools/build proves and builds the program"""
# The variable by which a program that starts many has that said by the first alone.
TOLD = "PROPBENCH_TOLD"
# What it is at, by the word that it tells.
AT = {"waiting": "waiting", "building": "reading the sources"}
WAITING = "another start builds the program already; waiting for it"
NO_RT = """\
no program is built here, and rt, which builds it, is not on the path:
{of}: put the folder bin/ of rattle-kit-13f there, or install the Debian package"""
NO_FOLDER = "no folder of yours can be written to for the program that has to be built: {}"
NOT_RUN = "what is kept is not run: {}"
ELSEWHERE = "this kit keeps its program where it can't be taken, so rt try runs the session"
AT_TERMINAL = "which needs a file: ./{of} < examples/first.prop"


class Builder:
    """The process that builds. It goes on where this one has become a program that runs already."""

    def __init__(self, of: str, state: str, where: str, is_soon: bool) -> None:
        """With `is_soon` it tells a program too that runs already, and is slow."""
        words = [f"{TOP}/tools/start/building.py", of, state, where, *["--soon"] * is_soon]
        self.process = subprocess.Popen(
            words,
            stdin=subprocess.DEVNULL,
            stdout=subprocess.PIPE,
            stderr=subprocess.STDOUT,
            start_new_session=True,
        )
        self.progress = Progress(of, SOON if is_soon else FAST)

    def lines(self) -> Iterator[str]:
        """What it tells, line by line, while the time that it takes is told."""
        assert self.process.stdout
        pipe, at, rest = self.process.stdout.fileno(), AT["building"], b""
        while True:
            if not select.select([pipe], [], [], 0.5)[0]:
                self.progress.tell(at)
                continue
            more = os.read(pipe, 65_536)
            *whole, rest = (rest + more).split(b"\n")
            for line in whole:
                word, _, text = line.decode(errors="replace").partition(" ")
                at = text if word == "at" else AT.get(word, at)
                yield line.decode(errors="replace")
            if not more:
                return

    def end(self) -> None:
        """Has it clear up and end."""
        if self.process.poll() is None:
            self.process.terminate()
            self.process.wait()


def outcome(of: str, builder: Builder) -> tuple[str, str]:
    """The word that says how the build went, and what belongs to it."""
    lines = builder.lines()
    for line in lines:
        word, _, text = line.partition(" ")
        if word == "waiting":
            say(of, WAITING)
        elif word == "building":
            say(of, FIRST.format(of=of, seconds=builder.progress.expected))
        elif word in ("done", "soon", "elsewhere"):
            return word, text
        elif word == "failed":
            return word, "\n".join([text, *lines])
        elif word != "at":
            return "failed", "\n".join([line, *lines])
    return "failed", "what builds the program ended without a word"


def build(of: str, state: str, is_soon: bool) -> tuple[str, str]:
    """How a build went: `done` or `soon` and a program, or `elsewhere`. Errors: NotBuilt."""
    if not shutil.which("rt"):
        raise NotBuilt(NO_RT.format(of=of))
    where = kept.folder()
    if not where:
        paths = list(kept.candidates())
        reasons = [kept.not_own(path) for path in paths if os.path.isdir(path)]
        raise NotBuilt("\n".join([NO_FOLDER.format(", ".join(paths)), *filter(None, reasons)]))
    builder = Builder(of, state, where, is_soon)
    try:
        word, text = outcome(of, builder)
    except BaseException:
        builder.end()
        raise
    finally:
        builder.progress.end()
    if word == "failed":
        raise NotBuilt(text)
    return word, text


def end_on_signals() -> None:
    """Has a signal that asks this script to end clear up first, where it is not ignored."""
    for it in (signal.SIGTERM, signal.SIGHUP):
        if signal.getsignal(it) is signal.SIG_DFL:
            signal.signal(it, lambda number, _: sys.exit(128 + number))


def run_unproved(of: str, become: Callable[[str, list[str]], int], words: list[str]) -> int:
    """Runs the session unproved: `become` is given the program and these arguments.

    Returns a status where that can't be."""
    end_on_signals()
    is_terminal = os.isatty(0)
    state = kept.state(of)
    program = kept.kept_program(of, state, lambda why: say(of, NOT_RUN.format(why)))
    word = "done"
    try:
        if not program:
            word, program = build(of, state, is_soon=not is_terminal)
    except NotBuilt as error:
        say(of, f"{error}")
        return NONE
    except KeyboardInterrupt:
        return INTERRUPTED
    if word == "elsewhere":
        say(of, f"{ELSEWHERE}, {AT_TERMINAL.format(of=of)}" if is_terminal else ELSEWHERE)
        if is_terminal:
            return NONE
    if word == "soon":
        say(of, SLOWLY.format(of=of))
    elif not os.environ.get(TOLD):
        say(of, UNPROVED)
    return tried.run(of, words) if word == "elsewhere" else become(program, words)
