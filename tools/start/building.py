#!/usr/bin/python3 -IS
"""Builds an unproved program and keeps it. ./propbench starts this, and may end before it does.

usage: tools/start/building.py PROGRAM STATE FOLDER [--soon]

PROGRAM is propbench or propwide, STATE the checksum of the sources, FOLDER where programs are kept.
What it is at is told in lines on standard output, of a word and what belongs to it:

    waiting                 another one builds in this folder; this one goes on once that has ended
    building                it begins
    at TEXT                 what it is at
    soon PATH               with --soon, one that runs already, and takes some hundred times as long
    done PATH               the program, which is kept
    elsewhere               this kit keeps its program where it can't be taken
    failed TEXT             why there is none: this line and all behind it
"""
import os
import signal
import subprocess
import sys
import tempfile
import time

sys.path.insert(0, os.path.dirname(os.path.realpath(__file__)))

# pylint: disable=wrong-import-position
import kept
from taken import CHECKED, NotBuilt, Try, compile_words, link

# Seconds between two looks.
LOOK = 0.01
# The signals that came and ask this to end.
ENDS: list[int] = []

# A session, with its replies, that a program has to answer before it is kept.
SESSION = (
    b"cell x span\ncell y span\ncell z span\nattach sum x y z\nfix x 3..5\ntell a z 10\nwhy y\n"
)
REPLIES = b"ok\n" * 6 + b"y = 5..7 because a\n"


def tell(line: str) -> None:
    """Tells who started this; where that has ended or become the program, nobody."""
    try:
        print(line, flush=True)
    except OSError:
        sys.stdout = open(os.devnull, "w", encoding="utf-8")


def pause() -> None:
    """Lets a moment pass, and ends this where a signal asks for it. (Wherever else a signal came
    in, something that was just begun might be left behind.)"""
    time.sleep(LOOK)
    if ENDS:
        sys.exit(128 + ENDS[0])


def answers(program: str) -> bool:
    """Whether the program answers a session as it should."""
    try:
        ran = subprocess.run([program], input=SESSION, capture_output=True, timeout=60)
    except (OSError, subprocess.TimeoutExpired):
        return False
    return (ran.returncode, ran.stdout) == (0, REPLIES)


class Build:
    """A build in a folder of its own: `rt try`, and beside it the compiler over its module."""

    def __init__(self, room: str, of: str, is_soon: bool) -> None:
        self.room, self.is_soon = room, is_soon
        self.tried = Try(room, of)
        self.compiler: subprocess.Popen[bytes] | None = None
        self.has_told = False

    def step(self) -> None:
        """Looks at what has turned up, and goes on with it."""
        self.tried.look()
        if self.tried.module and not self.compiler:
            tell("at compiling")
            words = compile_words(self.tried.module, f"{self.room}/module.o", "-O2", *CHECKED)
            # (the other compiler, whose program is waited for, goes first)
            words = ["nice", "-n", "10", *words]
            quiet = subprocess.DEVNULL
            self.compiler = subprocess.Popen(words, stdin=quiet, stdout=quiet, stderr=quiet)
            if not self.is_soon:
                self.tried.end()
        if self.is_soon and self.tried.program and self.tried.ran_well() and not self.has_told:
            self.has_told = True
            tell(f"soon {self.tried.program}")

    def has_ended(self) -> bool:
        return self.tried.has_ended() and (not self.compiler or self.compiler.poll() is not None)

    def program(self) -> str | None:
        """The program that came of it, or None where a kit keeps it elsewhere. Errors: NotBuilt."""
        if self.compiler and self.compiler.returncode == 0:
            fast = f"{self.room}/fast"
            link([f"{self.room}/module.o"], fast, is_checked=True)
            if answers(fast):
                return fast
        if not self.compiler and not self.tried.ran_well():
            raise NotBuilt(f"the sources could not be built; rt try says:\n{self.tried.said()}")
        slow = self.tried.program
        return slow if slow and answers(slow) else None

    def end(self) -> None:
        self.tried.end()
        if self.compiler and self.compiler.poll() is None:
            self.compiler.terminate()
            self.compiler.wait()


def built(room: str, of: str, is_soon: bool) -> str | None:
    """Builds in a folder of its own. Errors and None as `Build.program` has them."""
    build = Build(room, of, is_soon)
    try:
        while not build.has_ended():
            build.step()
            pause()
        build.step()
        return build.program()
    finally:
        build.end()


def main(words: list[str]) -> int:
    of, state, where, is_soon = *words[:3], "--soon" in words
    with kept.held(where, lambda: tell("waiting"), pause):
        # (another start may have built it meanwhile)
        program = kept.kept_program(of, state)
        if not program:
            tell("building")
            kept.swept(where)
            with tempfile.TemporaryDirectory(prefix=kept.BUILD, dir=where) as room:
                program = built(room, of, is_soon)
                program = program and kept.keep(program, where, of, state)
    tell(f"done {program}" if program else "elsewhere")
    return 0


if __name__ == "__main__":
    for it in (signal.SIGTERM, signal.SIGHUP, signal.SIGINT):
        signal.signal(it, lambda number, _: ENDS.append(number))
    try:
        sys.exit(main(sys.argv[1:]))
    except (NotBuilt, OSError) as error:
        tell(f"failed {error}")
        sys.exit(1)
