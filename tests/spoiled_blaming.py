#!/usr/bin/python3
"""Replies about conflicts and repairs spoiled on purpose, which the networks of tests/blaming.py
have to find out.

usage: tests/spoiled_blaming.py SPOIL PROGRAM

answers as PROGRAM does but for what SPOIL changes: twice, more, fewer, early, settled, endless or
stale.
"""
import os
import re
import sys
from typing import Iterator

from blaming import MARKS, UNSETTLED, Session
from spoiled_solving import Spoiled
from talking import Reply, Talk, has_reply
from wide_rules import where_built

NONE = "others none"


def twice(reply: Reply) -> Reply:
    """The first line stands once more in place of the second."""
    return [*reply[:2], reply[1], *reply[3:]] if len(reply) > 3 else reply


def more(reply: Reply) -> Reply:
    """The first line names the premises of the second, too."""
    if len(reply) < 4 or reply[2].startswith(UNSETTLED) or "no premise" in reply[2]:
        return reply
    mark, *names = reply[1].split()
    names = [*names, *(it for it in reply[2].split()[1:] if it not in names)]
    return [reply[0], " ".join([mark, *names]), *reply[2:]]


def fewer(reply: Reply) -> Reply:
    """The first line lacks its last premise."""
    if len(reply) < 3 or reply[1].startswith(UNSETTLED) or "no premise" in reply[1]:
        return reply
    mark, *names = reply[1].split()
    return [reply[0], " ".join([mark, *(names[:-1] or ["no premise"])]), *reply[2:]]


def early(reply: Reply) -> Reply:
    """There are no others, it says, where one is left."""
    if len(reply) < 3 or reply[-1] != NONE:
        return reply
    return [f"{reply[0].split()[0]} {len(reply) - 3}", *reply[1:-2], NONE]


def settled(reply: Reply) -> Reply:
    """All premises of each are said to be needed."""
    return [re.sub(f"^{UNSETTLED}", MARKS["conflicts"], it) for it in reply]


def endless(reply: Reply) -> Reply:
    """There may always be others."""
    return [*reply[:-1], "others unknown"]


def same(reply: Reply) -> Reply:
    """As it is: what is stale is told again later."""
    return reply


SPOILS = {it.__name__: it for it in (twice, more, fewer, early, settled, endless)}
# What the networks have to say of it.
SAYS = {
    "twice": "stands twice",
    "more": "that is none",
    "fewer": "that is none",
    "early": "there is ",
    "settled": "that is none",
    "endless": "no end in",
    "stale": "^(?!it ends or hangs)",
}


def cases() -> Iterator[Spoiled]:
    for spoil, says in SAYS.items():
        yield Spoiled(spoil, says, os.path.realpath(__file__), Session)


built = where_built(cases)


def main(spoil: str, program: str) -> None:
    before: dict[str, Reply] = {}
    with Talk(program) as talk:
        for said in sys.stdin.buffer:
            line = said.decode().rstrip("\n")
            if not has_reply(line):
                continue
            (reply,) = talk.say(line)
            if line.split()[0] in MARKS:
                reply = before.get(line) or SPOILS.get(spoil, same)(reply)
            if spoil == "stale" and reply[-1] == NONE:
                before[line] = reply
            print("\n".join(reply), flush=True)


if __name__ == "__main__":
    main(sys.argv[1], sys.argv[2])
