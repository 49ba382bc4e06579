#!/usr/bin/python3
"""Replies about points spoiled on purpose, which the networks of tests/solving.py have to find out.

usage: tests/spoiled_solving.py SPOIL PROGRAM

answers as PROGRAM does but for what SPOIL changes: twice, better, worse, nearer, fewer, elsewhere
or early.
"""
import os
import re
import sys
import tempfile
from dataclasses import dataclass
from typing import Callable, Iterator, Optional

from asked import TWICE
from solving import Session, tried
from talking import Reply, Talk, has_reply
from wide_rules import where_built

# So many networks are tried until one finds it out.
TRIED = 100


def is_end(reply: Reply) -> bool:
    return bool(re.match(r"(least|greatest) -?\d", reply[0]))


def moved(line: str, by: int) -> str:
    """A line with the number at its end moved."""
    return re.sub(r"-?\d+$", lambda it: str(int(it[0]) + by), line)


def twice(line: str, reply: Reply) -> Reply:
    """The first row stands once more in place of the second."""
    if line.startswith("plans ") and len(reply) > 3:
        return [*reply[:2], reply[1], *reply[3:]]
    return reply


def better(line: str, reply: Reply) -> Reply:
    """An end of a number is told one too good, in its plan too."""
    if not is_end(reply):
        return reply
    cell, by = line.split()[1], 1 if reply[0].startswith("greatest ") else -1
    return [
        moved(it, by) if not at or it.startswith(f"{cell} =") else it for at, it in enumerate(reply)
    ]


def worse(line: str, reply: Reply) -> Reply:
    """The best so far is told as the best."""
    reply = reply[2:] if reply[0].startswith("bound ") else reply
    if not reply[0].endswith(" unsettled"):
        return reply
    word, cell, *_ = line.split()
    (number,) = (it.split()[2] for it in reply if it.startswith(f"{cell} = "))
    plan = reply[0].removesuffix(" unsettled")
    return [f"{word} {number}", "because no premise", plan, *reply[1:]]


def nearer(line: str, reply: Reply) -> Reply:
    """How good others can still be is told as one less good."""
    if not reply[0].startswith("bound "):
        return reply
    return [moved(reply[0], -1 if line.startswith("greatest ") else 1), *reply[1:]]


def fewer(_line: str, reply: Reply) -> Reply:
    """The last premise isn't named that refutes all points."""
    if not reply[0].startswith("none: ") or reply == ["none: no premise"]:
        return reply
    names = reply[0].split()[1:-1]
    return [f"none: {' '.join(names) or 'no premise'}"]


def elsewhere(line: str, reply: Reply) -> Reply:
    """The first number of a plan is one more."""
    at = next((at for at, it in enumerate(reply) if re.search(r" = -?\d+$", it)), 0)
    if not line.startswith("solve") or not at:
        return reply
    return [*reply[:at], moved(reply[at], 1), *reply[at + 1 :]]


def early(_line: str, reply: Reply) -> Reply:
    """There are no others, it says, where one is left."""
    if len(reply) < 3 or not reply[-1].startswith("others none:"):
        return reply
    return [f"plans {len(reply) - 3}", *reply[1:-2], reply[-1]]


SPOILS = {it.__name__: it for it in (twice, better, worse, nearer, fewer, elsewhere, early)}
IS_NONE = "is no point of|don't belong together"
# What the networks have to say of it.
SAYS = {
    "twice": TWICE,
    "better": f"the best is|{IS_NONE}",
    "worse": "the best is",
    "nearer": "alone there is",
    "fewer": "alone there is",
    "elsewhere": IS_NONE,
    "early": "there is also",
}


@dataclass
class Spoiled:
    """A program that a script spoils, what has to be said of it, and the sessions that say it."""

    spoil: str
    says: str
    script: str = os.path.realpath(__file__)
    kind: type[Session] = Session

    @property
    def name(self) -> str:
        return f"spoiled {self.kind.word}: {self.spoil}"

    def wrong(self, program: str) -> Optional[str]:
        """That no network finds it out, of those that the program itself answers rightly."""
        with tempfile.TemporaryDirectory() as room:
            spoiled = os.path.join(room, "spoiled")
            with open(spoiled, "w", encoding="utf-8") as script:
                words = [sys.executable, self.script, self.spoil, program]
                script.write(f"#!/bin/sh\nexec {' '.join(words)}\n")
            os.chmod(spoiled, 0o700)
            if any(self.is_found(program, spoiled, seed) for seed in range(TRIED)):
                return None
        return f"none of {TRIED} networks finds it out"

    def is_found(self, program: str, spoiled: str, seed: int) -> bool:
        """Whether a network finds it out."""
        if tried(program, [seed], self.kind).wrong:
            return False
        wrong = tried(spoiled, [seed], self.kind).wrong
        return any(re.search(self.says, it.what) for it in wrong)


def cases() -> Iterator[Spoiled]:
    yield from (Spoiled(spoil, SAYS[spoil]) for spoil in SPOILS)


built = where_built(cases)


def main(spoil: Callable[[str, Reply], Reply], program: str) -> None:
    with Talk(program) as talk:
        for said in sys.stdin.buffer:
            line = said.decode().rstrip("\n")
            if not has_reply(line):
                continue
            (reply,) = talk.say(line)
            print("\n".join(spoil(line, reply)), flush=True)


if __name__ == "__main__":
    main(SPOILS[sys.argv[1]], sys.argv[2])
