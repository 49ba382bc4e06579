#!/usr/bin/python3
"""Random sessions of questions between changes: each reply to `solve`, `least`, `greatest` and
`plans` is held to all points that there are in the state of that moment (tests/asked.py).

usage: tests/changing.py PROGRAM [COUNT [FROM]]

PROGRAM is a workbench that answers these, as propwide; COUNT sessions are tried (400), whose seeds
begin with FROM (0). What a search learned may be kept for later ones, also through lines that
change the network; what is kept wrongly makes a later answer wrong. So a few questions are asked
again and again, to the end or by slices of a few steps, and between them the network is changed
(tests/changes.py). Each question has to come to its end, too, whatever was asked before, but where
what it asks about is open.

How many questions and changes were judged is told, and how many questions were left unsettled: by
a small slice, or since what they ask about is open, or has more rows than are asked for. A session
in which something is wrong ends there, and is told as lines that can be given to the program. The
status is 0 where nothing was wrong.
"""
import re
import sys
from dataclasses import dataclass, replace
from typing import ClassVar, Iterator, Optional

import solving
from case import Check
from changes import State
from asked import NO_REPLY, Best, Question, Rows, Truth
from solving import ASIDES, FEW_LINES, FIRST, LINES, asked_for, first_wrong, tell_of
from talking import Reply
from wide_rules import where_built

# So many sessions are tried in the gate, so many in one case; by itself so many.
TRIED, AT_A_TIME, BY_ITSELF = 75, 15, 400
# A session has so many questions and changes.
FEWEST, MOST = 10, 40
# How often a line is a change, or what changes nothing; how often a question is asked by a slice of
# so many steps, a few times, and how often steps of it are told then.
CHANGED, ASIDE, SLICED, STEPPED = 0.4, 0.03, 0.3, 0.5
SLICES, TIMES, STEPS = [1, 3, 10, 30, 100], 4, 12
# So many relations a network has at least.
RELATIONS = 3
# How often a question is the last one again, and how often a new one; else it is one of a few.
AGAIN, NEW = 0.4, 0.1


def is_same(one: Question, other: Question) -> bool:
    """Whether one goes on with the other: so it does where other rows are asked for at a time."""
    return (one.word, one.cells) == (other.word, other.cells)


def premises_in(reply: Reply) -> list[str]:
    """The premises that a reply names."""
    found = (re.match("(?:others )?none:(.*)|because(.*)", line) for line in reply)
    return " ".join(it[1] or it[2] for it in found if it).split()


@dataclass
class Session(solving.Session):
    """A session of questions between changes."""

    word: ClassVar[str] = "changing"
    # The question that was asked last, and how many steps a line may take: None where that isn't
    # known.
    last: Optional[Question] = None
    limit: Optional[int] = None

    def run(self) -> None:
        """Asks and changes, to the first reply that is wrong."""
        state = self.state()
        self.talk.all([f"limit {FIRST}", *state.draw.lines()])
        pool = self.questions(state.truth)
        for _ in range(self.chance.randint(FEWEST, MOST)):
            if self.chance.random() < ASIDE:
                self.talk.say(self.chance.choice(ASIDES))
                self.limit = None
            if self.chance.random() < CHANGED:
                self.change(state)
                continue
            if self.chance.random() < NEW:
                pool = self.questions(state.truth)
            is_again = self.chance.random() < AGAIN
            next_one = self.last if self.last and is_again else self.chance.choice(pool)
            asked = self.taken_up(next_one, state.truth)
            if not self.ask_once(asked):
                return
            state.named = premises_in(asked.end or [])
        self.leave()

    def state(self) -> State:
        """A network in which something can be learned, with points that fit."""
        while True:
            drawn, truth = self.drawn()
            if truth.boxes and len(drawn.network.attached) >= RELATIONS:
                return State(self.chance, drawn, truth)

    def change(self, state: State) -> None:
        """Changes the network, after which each question begins anew."""
        lines = state.change()
        self.talk.all(lines)
        self.tried.counts["changes"] += bool(lines)

    def questions(self, truth: Truth) -> list[Question]:
        """A few questions."""
        chance, kinds = self.chance, truth.network.kinds
        numbers = [cell for cell, kind in kinds.items() if kind == "span"]
        more = chance.sample([*kinds], chance.choice([0, 0, 1, min(2, len(kinds))]))
        some = chance.sample([*kinds], chance.randint(1, min(3, len(kinds))))
        asked = [Question(truth, "solve", more)]
        asked.append(Rows(truth, "plans", some, most=chance.choice([1, 2, 7, 1000])))
        for word in ("least", "greatest") if numbers else ():
            asked.append(Best(truth, word, [chance.choice(numbers), *more]))
        return asked

    def taken_up(self, question: Question, truth: Truth) -> Question:
        """The same question as it is asked now: where it was asked last, it goes on, by as many
        rows at a time as are asked for now."""
        last = self.last
        if last and last.truth is truth and is_same(last, question):
            if isinstance(last, Rows) and isinstance(question, Rows):
                last.most = question.most
            return last
        self.leave()
        self.tried.counts["questions"] += 1
        self.last = replace(question.again(), truth=truth)
        return self.last

    def leave(self) -> None:
        """Counts how the question that was asked last ended, or that it didn't."""
        last, counts = self.last, self.tried.counts
        if last:
            counts[last.end[0].split()[0].rstrip(":") if last.end else "left unsettled"] += 1
            counts["premises not looked at to the end"] += last.truth.unknown
            last.truth.unknown = 0

    def limit_to(self, limit: int) -> None:
        """Lets a line take so many steps."""
        if limit != self.limit:
            self.talk.all([f"limit {limit}"])
            self.limit = limit

    def ask_once(self, question: Question) -> bool:
        """Asks a question to its end, or by a slice; whether nothing is wrong."""
        if self.chance.random() < SLICED:
            return self.ask_by_slice(question)
        self.limit_to(FIRST)
        is_short = question.is_endless() or question.truth.is_open()
        asked = self.follow(question, FIRST, FEW_LINES if is_short else LINES)
        if asked is not None and question.end is None:
            self.not_ended(question, asked)
            return is_short
        return asked is not None

    def ask_by_slice(self, question: Question) -> bool:
        """Asks a question a few times by a few steps; whether nothing is wrong."""
        limit = self.chance.choice(SLICES)
        self.limit_to(limit)
        if self.follow(question, limit, self.chance.randint(1, TIMES)) is None:
            return False
        is_bare = question.word == "solve" and question.end is None
        return self.steps(question) if is_bare and self.chance.random() < STEPPED else True

    def steps(self, question: Question) -> bool:
        """Has steps of a question told, which may come to its end; whether nothing is wrong."""
        for _ in range(STEPS):
            (reply,) = self.talk.say("step")
            what = question.truth.wrong_stride(reply)
            if what == NO_REPLY:
                break
            if what:
                self.complain(question, f"step: {what}: {' / '.join(reply)}")
                return False
            self.tried.counts["steps told"] += 1
        return True


def cases() -> Iterator[Check]:
    for first in range(0, TRIED, AT_A_TIME):
        last = first + AT_A_TIME
        look = first_wrong(range(first, last), Session)
        yield Check(f"changing: sessions {first} to {last - 1}", look)


built = where_built(cases)


def main(words: list[str]) -> int:
    if not words or words[0].startswith("-"):
        print(__doc__)
        return 0 if words == ["--help"] else 2
    failed = tell_of(*asked_for(words, BY_ITSELF), Session)
    print(f"changing: {failed} wrong")
    return 1 if failed else 0


if __name__ == "__main__":
    sys.exit(main(sys.argv[1:]))
