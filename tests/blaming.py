#!/usr/bin/python3
"""Random small networks of which it is asked what can't all hold: each reply to `conflicts` and
`repairs` is held to all points of all sets of the believed premises (tests/points.py).

usage: tests/blaming.py PROGRAM [COUNT [FROM]]

PROGRAM is a workbench that answers these, as propwide; of networks that are drawn
(tests/networks.py), with more premises, COUNT are tried (2,000), whose seeds begin with FROM (0).
Of each it is tried for every set of the believed premises whether some points satisfy it. Looked
at is that

- each conflict can't hold, and one that isn't `unsettled` holds without any one of its
  premises; without a repair the others hold, and not with any one of it;
- nothing is told twice, and no more than was asked for;
- what a repair costs is the sum of what its premises do, the cheaper ones come first, and none that
  is cheaper than the last is missing;
- `others none` stands where all are told, only there, and from then on; to the end all are told;
- the same is so by slices of 1, 10 and 1,000 steps: what was told by one is told by the next, too,
  whatever is said between that changes nothing;
- behind a change (tests/changes.py), also between two slices, the replies are about what is there
  then.

How many conflicts and repairs were told is told. The status is 0 where nothing was wrong.
"""
import re
import sys
from dataclasses import dataclass, field, replace
from itertools import combinations
from typing import Callable, ClassVar, Iterator, Optional

import changes
import solving
from asked import FAR, NO_REPLY, Truth
from case import Case, Check, as_bytes
from networks import Draw
from points import Network, Trial
from relations import OTHERS, count, is_in
from solving import ASIDES, asked_for, first_wrong, tell_of
from talking import Reply
from wide_rules import where_built

# So many networks are tried in the gate, so many in one case; by itself so many.
TRIED, AT_A_TIME, BY_ITSELF = 250, 25, 2_000
# A network has so many premises at the most, and so many more are told of than are drawn.
MOST_PREMISES, MORE = 7, 3
# So many steps a line may take at first; within so many lines each question ends, and by slices of
# so many steps within so many times so many.
FIRST, LINES = 100_000, 20
SLICES = {1: (200, 200), 10: (200, 25), 1_000: (60, 1)}
ALL = 1_000_000
# Between two changes it is asked so often at the most, and so often something is said that changes
# nothing. So many rounds of changes there are at the most, each of so many.
TURNS, ASIDE, ROUNDS, CHANGES = 6, 0.2, 3, 4
# How the lines of a reply begin; those of premises that may not all be needed.
MARKS, UNSETTLED = {"conflicts": "conflict:", "repairs": "repair:"}, "unsettled:"

# Of the premises so many have a cost that is said, one of these.
PRICED, COSTS = 0.6, [0, 1, 2, 3, 7, 1_000_000_000]

Premises = frozenset[str]


@dataclass
class Sets:
    """Which sets of the believed premises of a network hold."""

    believed: Premises
    holds: dict[Premises, bool] = field(default_factory=dict)
    is_whole: bool = True

    def conflicts(self) -> set[Premises]:
        """The least that don't."""
        bad = [it for it, holds in self.holds.items() if not holds]
        return {it for it in bad if not any(other < it for other in bad)}

    def repairs(self) -> set[Premises]:
        """The least without which the others do."""
        good = [self.believed - it for it, holds in self.holds.items() if holds]
        return {it for it in good if not any(other < it for other in good)}


def is_open(network: Network) -> bool:
    """Whether little of a number is stated by no premise, or nothing of a symbol: a question may
    stay unsettled for ever, where what follows has no end."""
    stated = {cell: network.stated_of(cell, ()) for cell in network.kinds}
    symbols = [stated[cell] for cell, kind in network.kinds.items() if kind == "symbol"]
    return any(count(it) > FAR for it in stated.values()) or any(
        is_in(OTHERS[0], it) for it in symbols
    )


def sets_of(network: Network, believed: Premises) -> Sets:
    """What holds of all sets of these premises."""
    found = Sets(believed)
    for many in range(len(believed) + 1):
        for names in combinations(sorted(believed), many):
            trial = Trial(network, names)
            found.holds[frozenset(names)] = any(trial.boxes())
            found.is_whole = found.is_whole and trial.is_whole
    return found


@dataclass
class Blame:
    """What is asked, and what was told so far."""

    sets: Sets
    word: str
    most: int = ALL
    told: set[Premises] = field(default_factory=set)
    is_over: bool = False

    def line(self) -> str:
        return f"{self.word} {self.most}"

    def all(self) -> set[Premises]:
        return self.sets.conflicts() if self.word == "conflicts" else self.sets.repairs()

    def wrong(self, reply: Reply) -> Optional[str]:
        """What is wrong with the next reply, or None."""
        first, *lines, last = reply if len(reply) > 1 else [*reply, "", ""]
        if first != f"{self.word} {len(lines)}" or len(lines) > self.most:
            return NO_REPLY
        now: set[Premises] = set()
        for line in lines:
            names, is_marked = self.read(line)
            if names is None or (is_marked and line != lines[-1]):
                return f"{line!r} is no line of it"
            if names in now:
                return f"{line!r} stands twice"
            if not is_marked:
                now.add(names)
            wrong = self.wrong_set(names, is_marked)
            if wrong:
                return f"{line!r}: {wrong}"
        if len(lines) < self.most and not self.told <= now:
            return f"before there was {self.told - now}"
        self.told |= now
        return self.wrong_others(last, now, len(lines))

    def read(self, line: str) -> tuple[Optional[Premises], bool]:
        """The premises that a line names, and whether it is marked."""
        mark, *names = line.split(" ")
        is_marked = mark == UNSETTLED and self.word == "conflicts"
        names = [] if names == ["no", "premise"] else names
        is_so = (is_marked or mark == MARKS[self.word]) and len({*names}) == len(names)
        return frozenset(names) if is_so and {*names} <= self.sets.believed else None, is_marked

    def wrong_set(self, names: Premises, is_marked: bool) -> Optional[str]:
        if is_marked:
            return "that can hold" if self.sets.holds[names] else None
        return None if names in self.all() else "that is none"

    def wrong_others(self, last: str, now: set[Premises], lines: int) -> Optional[str]:
        if last == "others unknown":
            return "before there were no others" if self.is_over else None
        if last != "others none":
            return NO_REPLY
        self.is_over = True
        return None if now == self.all() and len(now) == lines else f"there is {self.all() - now}"


@dataclass
class Cheapest(Blame):
    """Repairs by what each premise costs."""

    costs: dict[str, int] = field(default_factory=dict)

    def line(self) -> str:
        return " ".join(
            [super().line(), "by", *(f"{it} {much}" for it, much in self.costs.items())]
        )

    def cost(self, names: Premises) -> int:
        return sum(self.costs.get(it, 1) for it in names)

    def read(self, line: str) -> tuple[Optional[Premises], bool]:
        said = re.fullmatch(r"repair (\d+): (.*)", line)
        names, _ = super().read(f"repair: {said[2]}") if said else (None, False)
        is_so = said and names is not None and self.cost(names) == int(said[1])
        return names if is_so else None, False

    def wrong(self, reply: Reply) -> Optional[str]:
        """What is wrong with the next reply, or None."""
        wrong = super().wrong(reply)
        sets = [self.read(line)[0] for line in reply[1:-1]]
        told = [it for it in sets if it is not None]
        much = [self.cost(it) for it in told]
        if wrong or not told:
            return wrong
        if much != sorted(much):
            return "a cheaper one stands behind a dearer one"
        missing = [it for it in self.all() if self.cost(it) < much[-1] and it not in told]
        return f"cheaper are {missing}" if missing else None


def afresh(asked: Blame, most: int = ALL) -> Blame:
    """The same question, of which nothing was told."""
    return replace(asked, most=most, told=set(), is_over=False)


@dataclass
class State(changes.State):
    """A network that changes, with which sets of the believed premises hold at the moment."""

    sets: Sets = field(init=False)
    # Those that were looked at last.
    latest: Sets = field(init=False)

    def __post_init__(self) -> None:
        super().__post_init__()
        self.sets = self.latest = Sets(frozenset())

    def known(self) -> Optional[Truth]:
        """All points that there are, None where they or the sets aren't known."""
        network = self.draw.network
        told = frozenset(network.told())
        if len(told) > MOST_PREMISES or is_open(network):
            return None
        self.latest = sets_of(network, told - self.draw.out)
        return super().known() if self.latest.is_whole else None

    def change(self) -> list[str]:
        """Makes a change, whose lines these are: none where none is found."""
        lines = super().change()
        self.sets = self.latest if lines else self.sets
        return lines


@dataclass
class Session(solving.Session):
    """A network in a session, and what comes of it."""

    word: ClassVar[str] = "blaming"

    def run(self) -> None:
        """Asks what can't hold of a network, to the end and between changes."""
        state = self.state()
        self.talk.all([f"limit {FIRST}", *state.draw.lines()])
        is_right = self.ask_of(state.sets)
        for _ in range(self.chance.randint(0, ROUNDS)):
            for _ in range(self.chance.randint(1, CHANGES)):
                is_right = is_right and self.turn(state)
            is_right = is_right and self.ask_of(state.sets)

    def state(self) -> State:
        """A network with several premises, and which sets of them hold."""
        while True:
            drawn = Draw(self.chance)
            for number in range(self.chance.randint(1, MORE)):
                drawn.tell(f"q{number}")
            state = State(self.chance, drawn, Truth(Network(), set()))
            if state.known():
                state.sets = state.latest
                return state

    def ask_of(self, sets: Sets) -> bool:
        """Asks for conflicts and for repairs, at once and by slices; whether nothing is wrong."""
        for asked in self.chance.sample(self.all_asked(sets), 3):
            limit, few = self.chance.choice([*SLICES]), self.chance.choice([1, 2, 3])
            self.begin_over(FIRST)
            is_right = self.ask_blame(afresh(asked), LINES)
            is_right = is_right and self.ask_blame(afresh(asked, few), 1)
            self.begin_over(limit)
            is_right = is_right and self.ask_blame(afresh(asked, few), 1)
            if not (is_right and self.ask_blame(afresh(asked), *SLICES[limit])):
                return False
        self.talk.all([f"limit {FIRST}"])
        return True

    def all_asked(self, sets: Sets) -> list[Blame]:
        """All that may be asked, the cheapest by what some of the premises cost."""
        some = [it for it in sorted(sets.believed) if self.chance.random() < PRICED]
        costs = {it: self.chance.choice(COSTS) for it in some}
        blames = [Blame(sets, word) for word in MARKS]
        return [
            *blames,
            Cheapest(sets, "repairs", costs=costs) if costs else Blame(sets, "repairs"),
        ]

    def turn(self, state: State) -> bool:
        """Asks for both by a few small slices, and then changes something; whether nothing is
        wrong."""
        self.talk.all([f"limit {self.chance.choice([*SLICES])}"])
        asked = self.all_asked(state.sets)
        for _ in range(self.chance.randint(1, TURNS)):
            if self.chance.random() < ASIDE:
                self.talk.say(self.chance.choice(ASIDES))
            if not self.is_right(self.chance.choice(asked)):
                return False
        self.talk.all(state.change())
        self.tried.counts["changes"] += 1
        return True

    def begin_over(self, limit: int) -> None:
        """Has the search begin anew, by slices of this size: a change is made and taken back."""
        self.talk.all([f"cell fresh{len(self.talk.said)} truth", f"limit {limit}"])

    def ask_blame(self, blame: Blame, most: int, at_a_time: int = 1) -> bool:
        """Asks until the end, so often at the most; whether nothing is wrong."""
        self.tried.counts["questions"] += 1
        for _ in range(most):
            if not self.is_right(blame, at_a_time):
                return False
            if blame.is_over:
                break
        self.tried.counts[f"{blame.word} told"] += len(blame.told)
        return (
            blame.is_over
            or blame.most < ALL
            or self.fail(blame, f"no end in {most} times {at_a_time}")
        )

    def is_right(self, blame: Blame, at_a_time: int = 1) -> bool:
        """Whether nothing is wrong with the next replies."""
        for reply in self.talk.say(blame.line(), at_a_time):
            what = blame.wrong(reply)
            if what:
                return self.fail(blame, f"{what}: {' / '.join(reply)}")
        return True

    def fail(self, blame: Blame, what: str) -> bool:
        text = f"{blame.line()}: {what}"
        self.tried.wrong.append(solving.Wrong(self.seed, text, [*self.talk.told()]))
        return False


# ---- refusals

SAID = [
    ("cell x span", "ok"),
    ("conflicts", "error 4: wrong form"),
    ("repairs", "error 4: wrong form"),
    ("conflicts 1 x", "error 4: wrong form"),
    ("repairs 0", "error 6: not a number in range"),
    ("conflicts 1000000001", "error 6: not a number in range"),
    ("repairs x", "error 6: not a number in range"),
    ("conflicts {", "error 4: wrong form"),
    ("conflicts 1 by a 1", "error 4: wrong form"),
    ("repairs 1 by", "error 4: wrong form"),
    ("repairs 1 at a 1", "error 4: wrong form"),
    ("repairs 0 by a 1", "error 6: not a number in range"),
    ("repairs 1 by a 1", "error 10: no such premise"),
    ("conflict 1", "error 3: unknown command"),
    ("conflicts 3", "conflicts 0\nothers none"),
    ("repairs\t1000000000 ", "repairs 1\nrepair: no premise\nothers none"),
    ("tell a x 1..5", "ok"),
    ("tell b x 4..9", "ok"),
    ("tell c x 7", "ok"),
    ("conflicts 10", "conflicts 1\nconflict: a c\nothers none"),
    ("repairs 10", "repairs 2\nrepair: c\nrepair: a\nothers none"),
    ("repairs 10 by a", "error 4: wrong form"),
    ("repairs 10 by a 1 b", "error 4: wrong form"),
    ("repairs 10 by a x", "error 6: not a number in range"),
    ("repairs 10 by a -1", "error 6: not a number in range"),
    ("repairs 10 by a 1000000001", "error 6: not a number in range"),
    ("repairs 10 by 7 1", "error 5: not a name"),
    ("repairs 10 by c 5", "repairs 2\nrepair 1: a\nrepair 5: c\nothers none"),
    ("repairs 1 by a 1000000000 c 0", "repairs 1\nrepair 0: c\nothers unknown"),
    ("repairs 2 by a 7 a 0", "repairs 2\nrepair 0: a\nrepair 1: c\nothers none"),
    ("kick a", "ok"),
    ("conflicts 10", "conflicts 0\nothers none"),
    ("fix x 20", "ok"),
    ("conflicts 10", "conflicts 2\nconflict: b\nconflict: c\nothers none"),
    ("repairs 10", "repairs 1\nrepair: b c\nothers none"),
    ("fix x 21", "ok"),
    ("conflicts 10", "conflicts 1\nconflict: no premise\nothers none"),
    ("repairs 10", "repairs 0\nothers none"),
]


def refused() -> Case:
    """A session of what is refused, with what isn't between."""
    sent = as_bytes(*(line for line, _ in SAID))
    wanted = as_bytes(*(reply for _, reply in SAID if reply))
    return Case("blaming: what is refused", sent, wanted)


def cases() -> Iterator[Check]:
    look: Callable[[str], Optional[str]] = refused().wrong
    yield Check("blaming: what is refused", look)
    for first in range(0, TRIED, AT_A_TIME):
        last = first + AT_A_TIME
        name = f"blaming: networks {first} to {last - 1}"
        yield Check(name, first_wrong(range(first, last), Session))


built = where_built(cases)


def main(words: list[str]) -> int:
    if not words or words[0].startswith("-"):
        print(__doc__)
        return 0 if words == ["--help"] else 2
    program, seeds = asked_for(words, BY_ITSELF)
    look: Callable[[str], Optional[str]] = refused().wrong
    wrong = look(program)
    if wrong:
        print(f"blaming: what is refused: {wrong}")
    failed = tell_of(program, seeds, Session) + bool(wrong)
    print(f"blaming: {failed} wrong")
    return 1 if failed else 0


if __name__ == "__main__":
    sys.exit(main(sys.argv[1:]))
