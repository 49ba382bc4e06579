#!/usr/bin/python3
"""Random small networks whose points are asked for: each reply to `solve`, `least`, `greatest` and
`plans` is held to all points that there are (tests/points.py).

usage: tests/solving.py PROGRAM [COUNT [FROM]]

PROGRAM is a workbench that answers these, as propwide; of networks that are drawn
(tests/networks.py) COUNT are tried (1,000), whose seeds begin with FROM (0). Looked at is that

- a plan has each cell that has a name and a side of each choice, in order; it satisfies what is
  believed and said by these sides, and its points belong together at each rule and compound;
- the best number is the best one, and what was the best so far gets better; no number is better
  than the bound that is told beside it, which gets no worse;
- `plans`, asked to the end, tells just the rows that there are, each once, and no more at a time
  than were asked for;
- `none:` stands where nothing fits, and else nowhere;
- the premises that are named are believed, and with them alone nothing fits, or nothing better, or
  no other row;
- each question comes to its end, by slices of 1, 10 and 1,000 steps in about as many steps as by
  more; there it is answered the same again; and after another question it begins anew;
- what changes nothing between two `plans`, a `limit` too, changes nothing of the rows that are
told;
- each nogood that `step` tells of a `solve` under way leaves no points by the premises that it
names,
  and step by step it comes to the same end.

A question may stay unsettled for ever where nothing is stated of a symbol, since none is tried, or
little is stated of a number but by choices. How many did is told; so is of how many premises that
were named nothing is known here, since with them alone too much is open; and how often `plans` went
on where it was, or began anew, behind a line that changes nothing. The status is 0 where nothing
was wrong.
"""
import os
import sys
from collections import Counter
from dataclasses import dataclass, field
from random import Random
from typing import Callable, ClassVar, Iterable, Iterator, Optional

from case import Case, Check, as_bytes
from networks import Draw
from asked import MOST_ROWS, TWICE, Best, Question, Rows, Truth
from relations import wrong_rooms
from talking import Cut, Talk
from wide_rules import where_built

# So many networks are tried in the gate, so many in one case, and one besides in which a question
# stood still: a number was ruled out of a cell that the excluder doesn't read.
TRIED, AT_A_TIME, STOOD_STILL = 1000, 25, (314071, 314072)
# Rows are also asked for one by one where they are so few.
FEW_ROWS = 12
# So many steps a line may take at first. Within so many lines each question ends, also where a line
# tells one row, but where too many numbers are left of a cell; there, and where rows aren't asked
# for to the end, so few.
FIRST, LINES, FEW_LINES = 1000, 100 + MOST_ROWS, 5
# By these slices each question is asked again, so many lines at a time.
SLICES = {100_000: 1, 10: 20, 1: 150}
# So many steps are told of a question.
STRIDES = 200

# ---- what is tried

# What is said between two questions and changes nothing.
ASIDES = [
    "",
    "# aside",
    "nonsense",
    "fix",
    "plans 0 n0",
    "solve nowhere",
    "least",
    "settle",
    "list",
]
ASIDES += ["worldview", "nogoods", "step", "ask n0", "why n0", "how n0", "core n0"]
ASIDES += [f"limit {FIRST}"]


@dataclass
class Wrong:
    """What is wrong with the last reply of a session."""

    seed: int
    what: str
    lines: list[str]

    def text(self) -> str:
        """The session, as lines that can be given to the program."""
        lines = "".join(f"{line}\n" for line in self.lines)
        return f"{lines}# network {self.seed}: {self.what}"


@dataclass
class Tried:
    """What came of networks."""

    wrong: list[Wrong] = field(default_factory=list)
    counts: Counter[str] = field(default_factory=Counter)


@dataclass
class Session:
    """A network in a session, and what comes of it."""

    seed: int
    chance: Random
    talk: Talk
    tried: Tried
    # What the drawing of a seed begins with.
    word: ClassVar[str] = "solving"

    def run(self) -> None:
        """Asks all about a network, and again once some premises went or came."""
        drawn, truth = self.drawn()
        self.talk.all([f"limit {FIRST}", *drawn.lines()])
        self.ask_all(truth, [*SLICES])
        told = drawn.network.told()
        if told and self.chance.random() < 0.5:
            for premise in drawn.some(told, 2):
                self.talk.all([self.changed(drawn, premise)])
            truth = Truth(drawn.network, {*drawn.network.told()} - drawn.out)
            if truth.is_whole:
                self.ask_all(truth, [])

    def drawn(self) -> tuple[Draw, Truth]:
        """A network of which all points are known."""
        while True:
            drawn = Draw(self.chance)
            truth = Truth(drawn.network, {*drawn.network.told()} - drawn.out)
            if truth.is_whole:
                return drawn, truth

    def changed(self, drawn: Draw, premise: str) -> str:
        """A line that changes what is believed of a premise, or forgets what it states."""
        network = drawn.network
        if self.chance.random() < 0.2:
            network.stated = [it for it in network.stated if it[0] != premise]
            return f"forget {premise}"
        drawn.out ^= {premise}
        return f"{'kick' if premise in drawn.out else 'bring'} {premise}"

    def ask_all(self, truth: Truth, slices: list[int]) -> None:
        """Asks a question of each kind, in random order."""
        chance, kinds = self.chance, truth.network.kinds
        numbers = [cell for cell, kind in kinds.items() if kind == "span"]
        some = chance.sample([*kinds], chance.randint(1, min(3, len(kinds))))
        more = chance.sample([*kinds], chance.choice([0, 0, 1, min(2, len(kinds))]))
        asked = [Question(truth, "solve", more)]
        asked.append(Rows(truth, "plans", some, most=chance.choice([1, 2, 3, 7, 1000])))
        for word in ("least", "greatest") if numbers else ():
            asked.append(Best(truth, word, [chance.choice(numbers), *more]))
        for question in chance.sample(asked, len(asked)):
            if chance.random() < 0.1:
                self.talk.say(chance.choice(ASIDES))
            self.ask(question, slices)
        self.tried.counts["premises not looked at to the end"] += truth.unknown

    def ask(self, question: Question, slices: list[int]) -> None:
        """Asks a question to its end, and again by slices."""
        self.tried.counts["questions"] += 1
        is_short = question.is_endless() or question.truth.is_open()
        asked = self.follow(question, FIRST, FEW_LINES if is_short else LINES)
        if asked is None or question.end is None:
            self.not_ended(question, asked)
            return
        self.tried.counts[question.end[0].split()[0].rstrip(":")] += 1
        self.follow(question, FIRST, 1)
        if question.word == "solve" and slices:
            self.stride(question.again())
        if is_short:
            # (whether there is an end may rest on what was asked before)
            return
        if slices:
            # (what was asked before may have made it shorter than it is now)
            anew = question.again()
            self.begin_anew(anew, FIRST)
            asked = max(asked, self.follow(anew, FIRST, LINES) or 0)
        for limit in self.chance.sample(slices, len(slices)):
            again = question.again()
            self.begin_anew(question, limit)
            most = asked * (2 * FIRST // limit + 2) + 20
            if self.follow(again, limit, most, SLICES[limit]) and again.end is None:
                self.complain(again, f"no end in {most} lines by {limit} steps")
        self.talk.all([f"limit {FIRST}"])
        if isinstance(question, Rows) and slices and len(question.rows) <= FEW_ROWS:
            self.turn_aside(question)

    def follow(
        self, question: Question, limit: int, most: int, at_a_time: int = 1
    ) -> Optional[int]:
        """Asks so many lines at most, until the end; how many were asked before that, None where
        a reply was wrong."""
        asked = before = 0
        while asked < most and (question.end is None or not asked):
            for reply in self.talk.say(question.line(), at_a_time):
                what = question.wrong(reply)
                self.tried.counts["bounds"] += reply[0].startswith("bound ")
                if what:
                    self.complain(question, f"{what}, by {limit} steps: {' / '.join(reply)}")
                    return None
                asked, before = asked + 1, before + (question.end is None)
        return before + (question.end is not None)

    def stride(self, question: Question) -> None:
        """Asks a question step by step, and then to its end, but where it is answered at once by
        what was learned before."""
        self.talk.all(["limit 0"])
        self.talk.say(f"plans 1 {next(iter(question.truth.network.kinds))}")
        (reply,) = self.talk.say(question.line())
        self.talk.all([f"limit {FIRST}"])
        if reply != ["unsettled"]:
            return
        for _ in range(STRIDES):
            (reply,) = self.talk.say("step")
            if reply[1:] in (["plan"], ["end"]):
                break
            what = question.truth.wrong_stride(reply)
            if what:
                self.complain(question, f"step: {what}: {' / '.join(reply)}")
                return
            self.tried.counts["steps told"] += 1
        self.follow(question, FIRST, LINES)

    def complain(self, question: Question, what: str) -> None:
        text = f"{question.line()}: {what}"
        self.tried.wrong.append(Wrong(self.seed, text, [*self.talk.told()]))

    def not_ended(self, question: Question, asked: Optional[int]) -> None:
        """Counts a question without an end, which may be so over what is open."""
        if asked is None:
            return
        if question.is_endless():
            self.tried.counts["not asked to the end"] += 1
        elif question.truth.is_open():
            self.tried.counts["unsettled over what is open"] += 1
        else:
            self.complain(question, f"no end in {asked} lines by {FIRST} steps")

    def turn_aside(self, question: Rows) -> None:
        """Asks for one row at a time, and says between what changes nothing; and then what does."""
        one = Rows(question.truth, "plans", question.cells, most=1)
        self.begin_anew(question, FIRST)
        for _ in range(LINES):
            (reply,) = self.talk.say(one.line())
            what = one.wrong(reply)
            if what and what.endswith(TWICE):
                self.tried.counts["began anew"] += 1
                break
            if what:
                self.complain(one, f"{what}: {' / '.join(reply)}")
                return
            if one.end is not None:
                self.tried.counts["went on"] += 1
                break
            self.talk.say(self.chance.choice(ASIDES))
        if len(question.rows) > 1:
            self.begin_anew(question, FIRST)
            self.talk.say(one.line())
            self.begin_anew(question, FIRST)
            self.follow(question.again(), FIRST, LINES)

    def begin_anew(self, question: Question, limit: int) -> None:
        """Has a question begin anew, by slices of this size: another one is asked before."""
        cell = next(iter(question.truth.network.kinds))
        self.talk.all(["limit 0"])
        self.talk.say(f"plans 1 {cell}" if question.line() == "solve" else "solve")
        self.talk.all([f"limit {limit}"])


def tried(program: str, seeds: Iterable[int], kind: type[Session] = Session) -> Tried:
    """What comes of the networks of these seeds, in sessions of a kind."""
    found = Tried()
    for seed in seeds:
        found.counts["networks"] += 1
        with Talk(program) as talk:
            try:
                kind(seed, Random(f"{kind.word} {seed}"), talk, found).run()
            except Cut as cut:
                found.wrong.append(Wrong(seed, f"it ends or hangs: {cut}", [*talk.told()]))
    return found


# ---- refusals

SAID = [
    ("cell x span", "ok"),
    ("cell s symbol", "ok"),
    ("fix x 3..4", "ok"),
    ("solve q", "error 9: no such cell"),
    ("solve 3", "error 5: not a name"),
    ("solve {", "error 4: wrong form"),
    ("least", "error 4: wrong form"),
    ("greatest", "error 4: wrong form"),
    ("least s", "error 13: wrong kind"),
    ("greatest s x", "error 13: wrong kind"),
    ("least x q", "error 9: no such cell"),
    ("least s q", "error 9: no such cell"),
    ("least span", "error 5: not a name"),
    ("plans", "error 4: wrong form"),
    ("plans 3", "error 4: wrong form"),
    ("plans x", "error 4: wrong form"),
    ("plans 0 x", "error 6: not a number in range"),
    ("plans 1000000001 x", "error 6: not a number in range"),
    ("plans x x", "error 6: not a number in range"),
    ("plans -1 q", "error 9: no such cell"),
    ("plans 3 q", "error 9: no such cell"),
    ("plans 3 x 3", "error 5: not a name"),
    ("solves", "error 3: unknown command"),
    ("plans 1 x", "plans 1\nx = 3\nothers unknown"),
    ("least s", "error 13: wrong kind"),
    ("plans 000000000001 x", "plans 1\nx = 4\nothers unknown"),
    ("", ""),
    ("plans 1000000000 x", "plans 0\nothers none: no premise"),
    ("solve\ts\tx ", "plan 2\nx = 3\ns = nothing"),
    ("greatest x", "greatest 4\nbecause no premise\nplan 2\nx = 4\ns = nothing"),
    ("least x", "least 3\nbecause no premise\nplan 2\nx = 3\ns = nothing"),
    ("choose k x 5 or 6", "ok"),
    ("tell p x 0..9", "ok"),
    ("solve", "none: no premise"),
    ("limit 0", "ok"),
    ("solve", "none: no premise"),
    ("least x", "none: no premise"),
    ("plans 1 x", "none: no premise"),
    ("cell y span", "ok"),
    ("plans 1 y", "none: no premise"),
]


def refused() -> Case:
    """A session of what is refused, with what isn't between."""
    sent = as_bytes(*(line for line, _ in SAID))
    wanted = as_bytes(*(reply for _, reply in SAID if reply))
    return Case("solving: what is refused", sent, wanted)


# ---- what is run


def first_wrong(seeds: range, kind: type[Session] = Session) -> Callable[[str], Optional[str]]:
    """What says of a program what is wrong with the first of these networks, or None."""

    def look(program: str) -> Optional[str]:
        wrong = tried(program, seeds, kind).wrong
        return f"{len(wrong)} are wrong:\n{wrong[0].text()}" if wrong else None

    return look


def at_once() -> Iterator[Check]:
    """What is looked at but for networks."""
    yield Check("solving: what relations leave of a number", lambda _: wrong_rooms())
    look: Callable[[str], Optional[str]] = refused().wrong
    yield Check("solving: what is refused", look)


def cases() -> Iterator[Check]:
    yield from at_once()
    for first in range(0, TRIED, AT_A_TIME):
        last = first + AT_A_TIME
        yield Check(f"solving: networks {first} to {last - 1}", first_wrong(range(first, last)))
    yield Check("solving: where questions stood still", first_wrong(range(*STOOD_STILL)))


built = where_built(cases)


def tell_of(program: str, seeds: range, kind: type[Session] = Session) -> int:
    """Prints each session of these seeds that is wrong, and what came of all; how many are
    wrong."""
    failed, counts = 0, Counter[str]()
    for seed in seeds:
        found = tried(os.path.abspath(program), [seed], kind)
        counts.update(found.counts)
        failed += len(found.wrong)
        for each in found.wrong:
            print(each.text(), flush=True)
    print(f"{kind.word}: {', '.join(f'{n:,} {what}' for what, n in counts.items())}")
    return failed


def asked_for(words: list[str], many: int) -> tuple[str, range]:
    """The program and the seeds that are asked for: so many where no count is said."""
    program, *numbers = words
    count, first = [*map(int, numbers), *[many, 0][len(numbers) :]]
    return program, range(first, first + count)


def main(words: list[str]) -> int:
    if not words or words[0].startswith("-"):
        print(__doc__)
        return 0 if words == ["--help"] else 2
    program, seeds = asked_for(words, TRIED)
    failed = 0
    for check in at_once():
        look: Callable[[str], Optional[str]] = check.wrong
        wrong = look(program)
        failed += bool(wrong)
        if wrong:
            print(f"{check.name}: {wrong}")
    failed += tell_of(program, seeds)
    print(f"solving: {failed} wrong")
    return 1 if failed else 0


if __name__ == "__main__":
    sys.exit(main(sys.argv[1:]))
