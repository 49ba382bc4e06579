#!/usr/bin/python3
"""Constraints spoiled on purpose on their way; the networks of tests/requiring.py have to find them
out.

usage: tests/spoiled_requiring.py SPOIL PROGRAM

answers as PROGRAM does but for what SPOIL changes of constraints and definitions: bare, turned,
weaker, swapped, forgotten, refused, blunt or other.
"""
import os
import re
import sys
from dataclasses import dataclass
from typing import Callable, Iterator, Optional

import requiring
from spoiled_solving import Spoiled
from talking import Talk, has_reply
from wide_rules import where_built

DONE, WRONG_FORM, WRONG_KIND = "ok", "error 4: wrong form", "error 13: wrong kind"


def bare(line: str) -> str:
    """It is required whether the premise is believed or not."""
    return re.sub(r" under \w+$", "", line)


def turned(line: str) -> str:
    """A comparison looks the other way."""
    return line.translate(str.maketrans("<>", "><"))


def weaker(line: str) -> str:
    """One of two is enough."""
    return re.sub(r"\band\b", "or", line)


def swapped(line: str) -> str:
    """A pair of two of one domain is turned round."""
    return re.sub(r"\((\w+), (\w+)\) in before", r"(\2, \1) in before", line)


SPOILS: dict[str, Callable[[str], str]] = {
    it.__name__: it for it in (bare, turned, weaker, swapped)
}
# What is answered in place of the program, and what in place of any of its refusals.
ANSWERED = {"forgotten": DONE, "refused": WRONG_FORM}
BLUNT = "blunt"
# What a definition says in place of its own value: the next number, or the other truth.
OTHER = "other"
OTHERS = ("{name} = ({value}) + 1", "{name} = not ({value})", "{name} = {value}")
# What the networks have to say of it.
SAYS = {
    "bare": "lost",
    "turned": "lost",
    "weaker": "wrong",
    "swapped": "lost",
    "forgotten": "wrong",
    "refused": WRONG_FORM,
    BLUNT: f"'{WRONG_KIND}'], and not",
    OTHER: "lost",
}


@dataclass
class SpoiledLines(Spoiled):
    """The same of a script that spoils constraints."""

    @property
    def name(self) -> str:
        return f"spoiled requiring: {self.spoil}"

    def is_found(self, program: str, spoiled: str, seed: int) -> bool:
        seeds = range(seed, seed + 1)
        if requiring.tried(program, seeds)[0]:
            return False
        return any(re.search(self.says, it) for it in requiring.tried(spoiled, seeds)[0])


def cases() -> Iterator[SpoiledLines]:
    for spoil, says in SAYS.items():
        yield SpoiledLines(spoil, says, os.path.realpath(__file__))


built = where_built(cases)


def defined_otherwise(talk: Talk, line: str) -> list[str]:
    """What is answered where a cell is defined by another value of its kind, if it has one."""
    name, is_there, value = line.removeprefix("let ").partition(" = ")
    if not is_there:
        return talk.say(line)[0]
    for other in OTHERS:
        reply = talk.say("let " + other.format(name=name, value=value))[0]
        if reply == [DONE]:
            break
    return reply


def reply_to(spoil: str, talk: Talk, line: str) -> Optional[list[str]]:
    """What is answered, None where nothing is."""
    if not has_reply(line):
        return None
    word = line.split()[0]
    if spoil == OTHER and word == "let":
        return defined_otherwise(talk, line)
    if word != "require" or spoil == OTHER:
        return talk.say(line)[0]
    if spoil in ANSWERED:
        return [ANSWERED[spoil]]
    if spoil == BLUNT:
        reply = talk.say(line)[0]
        return [WRONG_KIND] if reply[0].startswith("error") else reply
    return talk.say(SPOILS[spoil](line))[0]


def main(spoil: str, program: str) -> None:
    with Talk(program) as talk:
        for said in sys.stdin.buffer:
            reply = reply_to(spoil, talk, said.decode().rstrip("\n"))
            if reply:
                print("\n".join(reply), flush=True)


if __name__ == "__main__":
    main(sys.argv[1], sys.argv[2])
