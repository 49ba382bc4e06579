#!/usr/bin/python3
"""A program that heeds no change of a kind, which the sessions of tests/changing.py have to find
out.

usage: tests/spoiled_changing.py SPOIL PROGRAM

answers as PROGRAM does, but from the first question on isn't given the lines that begin with SPOIL:
kick, bring or forget, which are answered `ok`. Where SPOIL is stale, a question that was asked
before a change is answered as it was then.
"""
import os
import sys
from dataclasses import dataclass, field
from typing import Iterator

from changing import Session
from spoiled_solving import Spoiled
from talking import Reply, Talk, has_reply
from wide_rules import where_built

DEAF = ["kick", "bring", "forget"]
ASKING = ["solve", "least", "greatest", "plans"]
# What the sessions have to say of it: anything but that a line was refused, or that it hangs.
SAYS = "^(?!it ends or hangs)"


@dataclass
class Deaf:
    """A session that is spoiled so."""

    spoil: str
    talk: Talk
    is_begun: bool = False
    # What was replied to questions, and what is replied to them from now on.
    replies: dict[str, Reply] = field(default_factory=dict)
    stale: dict[str, Reply] = field(default_factory=dict)

    def reply(self, line: str) -> Reply:
        """The reply to a line."""
        word = line.split()[0]
        if word == self.spoil and self.is_begun:
            return ["ok"]
        if self.spoil == "stale" and line in self.stale:
            return self.stale[line]
        (reply,) = self.talk.say(line)
        if word in ASKING:
            self.is_begun = True
            self.replies[line] = reply
        elif reply == ["ok"] and word != "limit":
            self.stale = {**self.replies}
        return reply


def cases() -> Iterator[Spoiled]:
    for spoil in [*DEAF, "stale"]:
        yield Spoiled(spoil, SAYS, os.path.realpath(__file__), Session)


built = where_built(cases)


def main(spoil: str, program: str) -> None:
    with Talk(program) as talk:
        deaf = Deaf(spoil, talk)
        for said in sys.stdin.buffer:
            line = said.decode().rstrip("\n")
            if has_reply(line):
                print("\n".join(deaf.reply(line)), flush=True)


if __name__ == "__main__":
    main(sys.argv[1], sys.argv[2])
