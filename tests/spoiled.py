#!/usr/bin/python3
"""The program spoiled on purpose: that random sessions find it out, and tell it by a small one.

usage: tests/spoiled.py SPOIL PROGRAM [OPTION ..]

runs PROGRAM on standard input as SPOIL changes what it is given or what it answers: bring, reason,
nothing or alone.
"""
import os
import re
import subprocess
import sys
import tempfile
from dataclasses import dataclass
from typing import Callable, Iterator, Optional

import plain
import steps
from case import as_bytes
from drawn import Draw, Drawn, replies_of
from formulas import NOTHING, Info, info_of, merged, text_of

# What a program writes to what it is sent.
Run = Callable[[bytes], bytes]
# So many random sessions are tried until one is answered wrongly.
TRIED = 100


def bring(run: Run, sent: bytes) -> bytes:
    """A premise that is brought in is kicked out."""
    return run(sent.replace(b"\nbring ", b"\nkick "))


def reason(run: Run, sent: bytes) -> bytes:
    """The first reason of all names no premise."""
    return re.sub(rb" because .*", b" because no premise", run(sent), count=1)


def nothing(run: Run, sent: bytes) -> bytes:
    """Where the limit is used up, nothing is believed of any cell."""
    return re.sub(rb" = .* unsettled", b" = nothing unsettled", run(sent))


def alone(run: Run, sent: bytes) -> bytes:
    """Where the limit is used up, a cell holds what each premise says by itself, and nothing that
    follows from two of them."""
    lines = sent.decode().splitlines()
    replies = list(replies_of(run(sent)))
    for at, (line, reply) in enumerate(zip(lines, replies)):
        if line.startswith("ask ") and reply.endswith(" unsettled"):
            replies[
                at
            ] = f"{line.split()[1]} = {text_of(by_itself(run, lines[: at + 1]))} unsettled"
    return as_bytes(*replies)


def by_itself(run: Run, lines: list[str]) -> Info:
    """What the last line is answered where one premise alone tells, merged over all that do."""
    found: Info = NOTHING
    for premise in {line.split()[1] for line in lines if line.startswith("tell ")}:
        kept = [
            line for line in lines if not line.startswith("tell ") or line.split()[1] == premise
        ]
        answer = run(as_bytes(*kept)).decode().splitlines()[-1]
        # (a premise that clashes by itself says nothing here)
        value = answer.partition(" = ")[2].removesuffix(" unsettled") or NOTHING
        found = merged(found, info_of(value))
    return found


SPOILS = {it.__name__: it for it in [bring, reason, nothing, alone]}


@dataclass
class Spoiled:
    """A program spoiled so, which random sessions of a kind have to find out: the smallest has no
    more than so many lines, of which the last asks so."""

    spoil: Callable[[Run, bytes], bytes]
    draw: type[Draw]
    most: int
    asks: str

    @property
    def name(self) -> str:
        return f"spoiled: {self.spoil.__name__}"

    def wrong(self, program: str) -> Optional[str]:
        with tempfile.TemporaryDirectory() as room:
            spoiled = os.path.join(room, "spoiled")
            with open(spoiled, "w", encoding="utf-8") as script:
                script.write(
                    f"#!/bin/sh\nexec {sys.executable} {os.path.realpath(__file__)}"
                    f' {self.spoil.__name__} {program} "$@"\n'
                )
            os.chmod(spoiled, 0o700)
            for number in range(TRIED):
                case = Drawn("", b"", b"", draw=self.draw, number=number)
                if case.wrong(spoiled):
                    return self.wrong_text(case.smallest(spoiled) or "")
        return f"none of {TRIED} random sessions finds it out"

    def wrong_text(self, text: str) -> Optional[str]:
        found = re.fullmatch(r"((?:> .*\n)+)came:   (.+)\nwanted: (.+)", text)
        lines = found[1].splitlines() if found else []
        return (
            None
            if found and len(lines) <= self.most and lines[-1].split()[1] in self.asks.split()
            else f"it is told by\n{text}"
        )


def cases() -> Iterator[Spoiled]:
    yield Spoiled(bring, plain.Draw, 6, "ask why core settle")
    yield Spoiled(reason, plain.Draw, 4, "why core")
    yield Spoiled(nothing, steps.Draw, 12, "ask why core")
    yield Spoiled(alone, steps.Draw, 16, "ask")


def main(spoil: str, program: str, *options: str) -> None:
    def run(sent: bytes) -> bytes:
        return subprocess.run(
            [program, *options], input=sent, stdout=subprocess.PIPE, check=True
        ).stdout

    sys.stdout.buffer.write(SPOILS[spoil](run, sys.stdin.buffer.read()))


if __name__ == "__main__":
    main(*sys.argv[1:])
