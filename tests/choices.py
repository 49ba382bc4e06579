"""Random sessions with choices, each answer of which is compared with plain enumeration of the
choice lists (tests/plain.py).

A contradiction has to name believed premises that clash with every choice list, and each line of
`nogoods` premises that clash with every list that takes its sides. The lines cover each
contradiction that was named before: with every list, one of them lies in what was named and the
list.
"""
import re
from dataclasses import dataclass

import drawn
import plain
from typing import Any, Iterator
from drawn import Exactly
from formulas import ELEMENTS, NO, YES, Info, text_of

SESSIONS = 1000

# Where choices and premises meet, and what leads from one of these to another: in every second
# session they are few, so that much is ruled out.
CELLS = [*plain.SPANS[:2], *plain.TRUTHS, *plain.SETS, *plain.SETS]
FEW_CELLS, FEW_PROCEDURES = plain.SETS, ["imager by differ"]


@dataclass
class Listing:
    """The command `nogoods`, of what a session was told before it."""

    plain: plain.Plain

    def is_right(self, reply: str, seen: Any) -> bool:
        head, *lines = reply.split("\n")
        found = [re.fullmatch(r"nogood: (.+)", line) for line in lines]
        if head != f"nogoods {len(lines)}" or None in found:
            return False
        nogoods = [plain.premises_in(it[1]) for it in found if it]
        return (
            self.are_least(nogoods)
            and all(map(self.is_nogood, nogoods))
            and all(self.is_covered(it, nogoods) for it in seen.named)
        )

    def are_least(self, nogoods: list[set[str]]) -> bool:
        return not any(
            one <= other
            for i, one in enumerate(nogoods)
            for j, other in enumerate(nogoods)
            if i != j
        )

    def is_nogood(self, premises: set[str]) -> bool:
        """Whether the premises bear on one cell, and clash."""
        return any(premises <= it for it in self.plain.reaching().values()) and self.plain.refutes(
            premises
        )

    def is_covered(self, premises: set[str], nogoods: list[set[str]]) -> bool:
        return all(any(it <= premises | sides for it in nogoods) for sides in self.plain.lists())

    def wanted(self, seen: Any) -> str:
        named = (
            ", and with every list covering " + "; ".join(" ".join(sorted(it)) for it in seen.named)
            if seen.named
            else ""
        )
        return (
            "sets that clash with every list, each of premises that bear on one cell and none with"
            f" another in it{named}"
        )


class Told(plain.Told):
    """A session with choices."""

    def choose(self, name: str, cell: str, infos: list[Info]) -> None:
        line = f"choose {name} {cell} {' or '.join(map(text_of, infos))}"
        if self.is_choice(name) or name in self.plain.known:
            return self.say(line, Exactly("error 7: name taken"))
        sides = [f"{name}={number}" for number in range(1, len(infos) + 1)]
        self.plain.choices.append(sides)
        self.plain.known += sides
        self.plain.stated += [(side, cell, info) for side, info in zip(sides, infos)]
        self.say(line)

    def nogoods(self) -> None:
        self.say("nogoods", Listing(self.plain.copy()))


class Draw(plain.Draw):
    """Draws lines with a few choices among them."""

    TOLD = Told
    COMMANDS = [
        *["tell"] * 3,
        "fix",
        *["kick"] * 3,
        "forget",
        *["bring"] * 2,
        *["attach"] * 4,
        *["ask"] * 4,
        *["choose"] * 4,
        *["nogoods", "limit", "refused"],
    ]
    QUESTIONS = ["ask", "why", "core", "settle", "worldview", "worldview"]
    PROCEDURES = [*sorted(plain.PROCEDURES), *["imager by differ", "inverter", "comparer"] * 3]
    CELLS, LINES = CELLS, 50
    NAMES, SIDES = [f"k{i}" for i in range(4)], [2, 2, 3, 3, 4]

    def __init__(self, number: int, options: list[str]) -> None:
        if number % 2:
            self.CELLS, self.PROCEDURES = FEW_CELLS, FEW_PROCEDURES
        super().__init__(number, options)

    def draw(self) -> None:
        super().draw()
        self.nogoods()

    def stated(self) -> tuple[str, Info]:
        if self.chance.randrange(5) == 0:
            return super().stated()
        cell = self.chance.choice(self.CELLS)
        return cell, self.info(cell, [1, 2, 2, 2])

    def fix(self) -> None:
        if self.chance.randrange(3) == 0:
            super().fix()

    def choose(self) -> None:
        """A new choice while there are names for one."""
        name, cell = self.chance.choice(self.NAMES), self.chance.choice(self.CELLS)
        if not self.told.is_choice(name):
            infos = [self.info(cell, [1, 1, 1, 2]) for _ in range(self.chance.choice(self.SIDES))]
            self.act("choose", name, cell, infos)

    def info(self, cell: str, sizes: list[int]) -> Info:
        """An information for the cell; for an element so many of which it is one."""
        if cell in plain.TRUTHS:
            return self.chance.choice([YES, NO])
        if cell in plain.SETS:
            return frozenset(self.chance.sample(ELEMENTS, self.chance.choice(sizes)))
        low = self.chance.randrange(-6, 7)
        return (low, low + self.chance.choice([0, 0, 1, 5]))

    def refused(self) -> None:
        """A line that takes a choice's name for a premise's, or that takes a name twice."""
        premise, choice = self.chance.choice(plain.PREMISES), self.chance.choice(self.NAMES)
        act = self.chance.choice(
            [
                ("kick", choice),
                ("bring", choice),
                ("forget", choice),
                ("tell", choice, "t0", YES),
                ("choose", choice, "t0", [YES, NO]),
            ]
        )
        if self.told.is_choice(choice):
            self.act(*act)
        elif premise in self.told.plain.known:
            self.act("choose", premise, "t0", [YES, NO])

    def nogoods(self) -> None:
        self.act("nogoods")


class Limited(Draw):
    """Draws lines of which many ask, with limits that most runs use up."""

    COMMANDS = [
        *["tell"] * 3,
        "kick",
        "bring",
        "bring",
        *["attach"] * 4,
        *["choose"] * 3,
        *["limit"] * 4,
        *["ask"] * 6,
    ]
    QUESTIONS, LIMITS = ["ask", "ask", "why", "core", "settle", "worldview"], plain.Limited.LIMITS


class Stepped(Draw):
    """Draws lines over more choices of which every second asks, with hardly a step for each: a run
    ends below each choice, and goes on after what takes a belief away or adds one."""

    COMMANDS = [
        *["tell"] * 2,
        *["kick", "bring"] * 2,
        "forget",
        *["attach"] * 4,
        *["choose"] * 5,
        *["limit"] * 2,
        "nogoods",
        *["ask"] * 17,
    ]
    QUESTIONS, LIMITS = Limited.QUESTIONS, [0, 1, 1, 1, 2, 3]
    NAMES, SIDES, LINES = [f"k{i}" for i in range(6)], [2, 2, 2, 3], 80


def cases() -> Iterator[drawn.Drawn]:
    yield from drawn.drawn(Draw, "choices", SESSIONS)
    yield from drawn.drawn(Limited, "choices and limited", SESSIONS)
    yield from drawn.drawn(Stepped, "choices and stepped", SESSIONS // 4)
