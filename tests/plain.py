"""Random sessions, each answer of which is compared with a plain and slow evaluation from nothing,
in each order of calls.

The evaluation knows no entries, supports or agenda: it merges the believed statements and calls
each procedure in turn until nothing changes. Nor does it learn anything of choices: it evaluates
their lists one after the other, the first sides first. What a procedure answers is written in
tests/formulas.py anew, over Python's whole numbers.

An unsettled answer has to follow, and to say all that is stated of its cell. And what was answered
before is still said: while no belief is taken away, no answer says less of a cell than an earlier
one, or than what followed when the session was last settled.
"""
import re
from dataclasses import dataclass, field, replace
from itertools import product

from typing import AbstractSet, Any, Callable, Collection, Iterator, Optional

import drawn
from drawn import OK, Exactly, Unending
from formulas import (
    CLASH,
    ELEMENTS,
    NO,
    NOTHING,
    YES,
    Info,
    above,
    alike,
    below,
    clipped,
    compared,
    divided,
    info_of,
    is_below,
    merged,
    multiplied,
    others,
    parted,
    passed,
    squared,
    text_of,
)

SESSIONS, ROUNDS = 1000, 500
SPANS, TRUTHS, SETS = [f"c{i}" for i in range(5)], ["t0", "t1"], ["d0", "d1", "d2"]
PREMISES = [f"p{i}" for i in range(4)]
CELLS = {"s": SPANS, "t": TRUTHS, "d": SETS}
DECLARED = [
    f"domain d {' '.join(ELEMENTS)}",
    f"relation differ d d = {' ; '.join(f'{x} {y}' for x in ELEMENTS for y in ELEMENTS if x != y)}",
    *[
        f"cell {cell} {kind}"
        for cells, kind in [(SPANS, "span"), (TRUTHS, "truth"), (SETS, "d")]
        for cell in cells
    ],
]


def copied(x: Info) -> Info:
    return x


# Each procedure with the kinds of its places, the output last, and what it answers to arguments
# none of which is Nothing.
PROCEDURES: dict[str, tuple[str, Callable[..., Info]]] = {
    "adder": ("sss", lambda x, y: clipped(x[0] + y[0], x[1] + y[1])),
    "subtracter": ("sss", lambda z, x: clipped(z[0] - x[1], z[1] - x[0])),
    "multiplier": ("sss", multiplied),
    "divider": ("sss", divided),
    "squarer": ("ss", squared),
    "copier": ("ss", copied),
    "lesser": ("sst", compared),
    "below": ("tss", below),
    "above": ("tss", above),
    "inverter": ("tt", lambda t: frozenset({"yes": "no", "no": "yes"}[it] for it in t)),
    "comparer": ("ddt", alike),
    "parter": ("tddd", parted),
    "passer": ("tdd", passed),
    "imager by differ": ("dd", others),
}

# From this limit on no session is cut short.
ENOUGH = 10**9

# What is wanted of the premises that an answer names.
ENOUGH_FOR_IT = " because believed premises that bear on it and are enough"
REASONS = {"ask": "", "why": ENOUGH_FOR_IT, "core": ENOUGH_FOR_IT}

IS_A_CHOICE = Exactly("error 17: is a choice")
NO_SUCH_PREMISE = Exactly("error 10: no such premise")


@dataclass
class Plain:
    """What a session was told."""

    stated: list[tuple[Optional[str], str, Info]] = field(default_factory=list)
    attached: list[tuple[str, list[str], str]] = field(default_factory=list)
    # Each choice as the list of its sides.
    choices: list[list[str]] = field(default_factory=list)
    # The user's premises and the sides, in order of number.
    known: list[str] = field(default_factory=list)
    believed: set[str] = field(default_factory=set)
    limit: int = ENOUGH
    # What was evaluated before.
    found: dict[frozenset[str], dict[str, Info]] = field(default_factory=dict)

    def copy(self) -> "Plain":
        """The same, which stays as it is when the session goes on."""
        return replace(
            self,
            stated=[*self.stated],
            attached=[*self.attached],
            choices=[*self.choices],
            known=[*self.known],
            believed={*self.believed},
            found={},
        )

    def values(self, believed: Collection[str]) -> dict[str, Info]:
        """What follows for each cell where these premises are believed."""
        known = frozenset(believed)
        if known not in self.found:
            self.found[known] = self.evaluated(known)
        return self.found[known]

    def evaluated(self, believed: Collection[str]) -> dict[str, Info]:
        values: dict[str, Info] = dict.fromkeys(SPANS + TRUTHS + SETS, NOTHING)
        for premise, cell, info in self.stated:
            if premise is None or premise in believed:
                values[cell] = merged(values[cell], info)
        for _ in range(ROUNDS):
            before = dict(values)
            for name, inputs, output in self.attached:
                values[output] = merged(
                    values[output], answered(name, [values[it] for it in inputs])
                )
            if values == before:
                return values
        raise Unending

    def clashes(self, believed: Collection[str]) -> bool:
        return CLASH in self.values(believed).values()

    def lists(self) -> list[set[str]]:
        """Every choice list, in the order in which they are tried."""
        return [set(sides) for sides in product(*self.choices)]

    def tried(self) -> list[set[str]]:
        """The believed premises with each choice list up to the first that doesn't clash with
        them."""
        tried: list[set[str]] = []
        for sides in self.lists():
            tried.append(self.believed | sides)
            if not self.clashes(tried[-1]):
                break
        return tried

    def worldview(self) -> Optional[set[str]]:
        """The believed premises with the first choice list that doesn't clash with them, or
        None."""
        last = self.tried()[-1]
        return None if self.clashes(last) else last

    def refutes(self, premises: AbstractSet[str]) -> bool:
        """Whether these clash with every choice list that takes the sides among them; where none
        does, they are refuted by nothing."""
        lists = [
            sides
            for sides in self.lists()
            if all(premises & set(choice) <= sides for choice in self.choices)
        ]
        return bool(lists) and all(self.clashes(premises | sides) for sides in lists)

    def reaching(self) -> dict[str, set[str]]:
        """For each cell the premises that something stated of it, or of a cell from which a way of
        procedures leads to it."""
        reaching: dict[str, set[str]] = {cell: set() for cell in SPANS + TRUTHS + SETS}
        for premise, cell, _ in self.stated:
            if premise is not None:
                reaching[cell].add(premise)
        for _ in reaching:
            for _, inputs, output in self.attached:
                reaching[output] |= set().union(*[reaching[it] for it in inputs])
        return reaching

    def are_at_odds(self, premises: set[str]) -> bool:
        """Whether each of the premises takes part in a clash at some cell with others of them and
        sides, that all reach that cell."""
        reaching = self.reaching().values()
        parts = {
            frozenset((premises | sides) & reached)
            for reached in reaching
            for sides in self.lists()
        }
        return premises <= set().union(*[it for it in parts if self.refutes(it)])


def answered(name: str, arguments: list[Info]) -> Info:
    if CLASH in arguments:
        return CLASH
    return NOTHING if NOTHING in arguments else PROCEDURES[name][1](*arguments)


@dataclass
class Seen:
    """What the replies told so far."""

    # The sets that they named as contradictions.
    named: list[set[str]] = field(default_factory=list)
    # What is said at least of each cell where these are believed, since a belief was taken away
    # last.
    least: dict[str, Info] = field(default_factory=dict)
    under: set[str] = field(default_factory=set)

    def settle(self, worldview: set[str], values: dict[str, Info]) -> None:
        """All of this was found in this worldview."""
        self.under, self.least = worldview, values

    def forget(self, premise: str = "") -> None:
        """A belief was taken away, or what stood under a premise: no contradiction that was named
        with that one has to be covered from now on."""
        self.settle(set(), {})
        self.named = [it for it in self.named if premise not in it]

    def of(self, cell: str, worldview: set[str]) -> Info:
        return self.least.get(cell, NOTHING) if self.under <= worldview else NOTHING


@dataclass
class Fewer(Exactly):
    """The reply to a line that takes a belief away, or what stands under a premise."""

    forgotten: str = ""

    def is_right(self, reply: str, seen: Any) -> bool:
        seen.forget(self.forgotten)
        return super().is_right(reply, seen)


def premises_in(text: str) -> set[str]:
    return set() if text == "no premise" else set(text.split())


@dataclass
class Question:
    """A command that runs the network, of what a session was told before it."""

    plain: Plain
    word: str
    cell: str

    def is_right(self, reply: str, seen: Any) -> bool:
        """Whether the reply says what follows, and names premises that are believed and enough for
        it."""
        if "unsettled" in reply:
            return self.plain.limit < ENOUGH and self.is_unsettled(reply, seen)
        worldview = self.plain.worldview()
        if worldview is None:
            return self.is_contradiction(reply, seen)
        seen.settle(worldview, self.plain.values(worldview))
        if self.word not in ("ask", "why", "core"):
            return reply == self.settled(worldview)
        value = self.plain.values(worldview)[self.cell]
        said, _, reason = reply.partition(" because ")
        if self.word == "core" and said == f"{self.settled(worldview)} not reduced":
            return self.plain.limit < ENOUGH and self.is_behind(reason, worldview, value)
        return (
            said == self.settled(worldview)
            and self.is_behind(reason, worldview, value)
            and (self.word != "core" or self.is_least(reason, value))
        )

    def settled(self, worldview: set[str]) -> str:
        """What is answered in this worldview, without a reason."""
        if self.word == "settle":
            return "settled"
        if self.word == "worldview":
            outside = [it for it in self.plain.known if it not in worldview]
            inside = [it for it in self.plain.known if it in worldview]
            return "\n".join([" ".join(["in:", *inside]), " ".join(["out:", *outside])])
        return f"{self.cell} = {text_of(self.plain.values(worldview)[self.cell])}"

    def is_least(self, reason: str, value: Info) -> bool:
        """Whether none of the premises can be left out."""
        premises = premises_in(reason)
        return not any(
            is_below(value, self.plain.values(premises - {it})[self.cell]) for it in premises
        )

    def is_contradiction(self, reply: str, seen: Any) -> bool:
        head, _, reason = reply.partition(": ")
        named = premises_in(reason)
        seen.named.append(named)
        return (
            head == "contradiction"
            and named <= self.plain.believed
            and self.plain.refutes(named)
            and self.plain.are_at_odds(named)
        )

    def is_unsettled(self, reply: str, seen: Any) -> bool:
        """Whether all that the reply says is entailed by one choice list, before which every other
        is refuted, and is no less than what was said before."""
        if self.word in ("settle", "worldview"):
            return reply == "unsettled"
        said, _, reason = reply.partition(" because ")
        found = re.fullmatch(rf"{self.cell} = (.+) unsettled", said)
        tried = self.plain.tried()
        if not found or not any(
            self.follows(info_of(found[1]), reason, seen, worldview) for worldview in tried
        ):
            return False
        if len(tried) == 1:
            seen.settle(tried[0], {**seen.least, self.cell: info_of(found[1])})
        return True

    def follows(self, value: Info, reason: str, seen: Any, worldview: set[str]) -> bool:
        least, most = self.least(seen, worldview), self.plain.values(worldview)[self.cell]
        return (
            is_below(least, value)
            and is_below(value, most)
            and self.is_behind(reason, worldview, value)
        )

    def least(self, seen: Any, worldview: set[str]) -> Info:
        """What an answer says at least of the cell: what is stated of it, and what was said before
        while no belief was taken away."""
        least: Info = seen.of(self.cell, worldview)
        for premise, cell, info in self.plain.stated:
            if cell == self.cell and (premise is None or premise in worldview):
                least = merged(least, info)
        return least

    def is_behind(self, reason: str, worldview: set[str], value: Info) -> bool:
        """Whether the reason is one where one is asked for: it is believed, bears on the cell, and
        is enough for the value."""
        if self.word == "ask" or not reason:
            return self.word == "ask" and not reason
        premises = premises_in(reason)
        return premises <= worldview & self.plain.reaching()[self.cell] and is_below(
            value, self.plain.values(premises)[self.cell]
        )

    def wanted(self, seen: Any) -> str:
        return (
            self.whole()
            if self.plain.limit == ENOUGH
            else " or ".join([self.whole(), *self.unsettled(seen)])
        )

    def whole(self) -> str:
        """What is wanted where the limit is enough."""
        worldview = self.plain.worldview()
        if worldview is None:
            return (
                "contradiction: believed premises that clash with every choice list,"
                " each with others of them"
            )
        return (
            self.settled(worldview)
            + REASONS.get(self.word, "")
            + (", none of which can be left out" if self.word == "core" else "")
        )

    def unsettled(self, seen: Any) -> list[str]:
        """What may be answered where the limit is used up, for each choice list up to the first
        that doesn't clash."""
        if self.word in ("settle", "worldview"):
            return ["unsettled"]
        ends = [
            (self.least(seen, worldview), self.plain.values(worldview)[self.cell])
            for worldview in self.plain.tried()
        ]
        return [
            f"{self.cell} = V unsettled{REASONS[self.word]},"
            f" V from {text_of(least)} to {text_of(most)}"
            for least, most in ends
        ]


class Told(drawn.Told):
    """A session over the cells that are declared."""

    SEEN = Seen

    def __init__(self, options: list[str]) -> None:
        super().__init__(options)
        self.plain = Plain()

    def tell(self, premise: str, cell: str, info: Info) -> None:
        line = f"tell {premise} {cell} {text_of(info)}"
        if self.is_choice(premise):
            return self.say(line, IS_A_CHOICE)
        self.plain.stated.append((premise, cell, info))
        if premise not in self.plain.known:
            self.plain.known.append(premise)
            self.plain.believed.add(premise)
        self.say(line)

    def is_choice(self, name: str) -> bool:
        return f"{name}=1" in self.plain.known

    def fix(self, cell: str, info: Info) -> None:
        self.plain.stated.append((None, cell, info))
        self.say(f"fix {cell} {text_of(info)}")

    def of_premise(self, word: str, premise: str, reply: Exactly) -> bool:
        """Says a line of the premise alone, and whether it isn't refused."""
        refusal = (
            IS_A_CHOICE
            if self.is_choice(premise)
            else None
            if premise in self.plain.known
            else NO_SUCH_PREMISE
        )
        self.say(f"{word} {premise}", refusal or reply)
        return not refusal

    def kick(self, premise: str) -> None:
        if self.of_premise("kick", premise, Fewer("ok")):
            self.plain.believed.discard(premise)

    def bring(self, premise: str) -> None:
        if self.of_premise("bring", premise, OK):
            self.plain.believed.add(premise)

    def forget(self, premise: str) -> None:
        if self.of_premise("forget", premise, Fewer("ok", premise)):
            self.plain.stated = [it for it in self.plain.stated if it[0] != premise]

    def attach(self, name: str, cells: list[str]) -> None:
        self.plain.attached.append((name, cells[:-1], cells[-1]))
        word, *by = name.split(" ", 1)
        self.say(" ".join(["attach", word, *cells, *by]))

    def limit(self, limit: int) -> None:
        self.plain.limit = limit
        self.say(f"limit {limit}")

    def ask(self, word: str, cell: str) -> None:
        question = Question(self.plain.copy(), word, cell)
        question.plain.worldview()
        self.say(word if word in ("settle", "worldview") else f"{word} {cell}", question)


class Draw(drawn.Draw):
    """Draws lines of every kind but of choices."""

    TOLD = Told
    COMMANDS = [
        "tell",
        "tell",
        "tell",
        "tell",
        "fix",
        "fix",
        "kick",
        "kick",
        "bring",
        "bring",
        "forget",
        "attach",
        "attach",
        "ask",
        "ask",
        "limit",
    ]
    QUESTIONS = ["ask", "why", "core", "core", "settle"]
    PROCEDURES, PLACES = sorted(PROCEDURES), CELLS
    LIMITS, LINES = [0, 1, 2, 3, 5, 8, ENOUGH, ENOUGH], 40

    def draw(self) -> None:
        for line in DECLARED:
            self.act("declare", line)
        for _ in range(self.chance.randrange(self.LINES)):
            getattr(self, self.chance.choice(self.COMMANDS))()
        self.act("limit", ENOUGH)
        self.ask()

    def stated(self) -> tuple[str, Info]:
        """A cell and an information for it."""
        chance, places = self.chance, self.PLACES
        if chance.randrange(3) == 0:
            return chance.choice(places["t"]), chance.choice([YES, NO])
        if chance.randrange(3) == 0:
            return chance.choice(places["d"]), frozenset(
                chance.sample(ELEMENTS, chance.choice([1, 2, 3]))
            )
        low = chance.randrange(-6, 7)
        return chance.choice(places["s"]), (low, low + chance.choice([0, 1, 5, 20]))

    def tell(self) -> None:
        cell, info = self.stated()
        self.act("tell", self.chance.choice(PREMISES), cell, info)

    def fix(self) -> None:
        cell, info = self.stated()
        if isinstance(info, tuple):
            info = (info[0] - 15, info[1] + 15)
        self.act("fix", cell, info)

    def kick(self) -> None:
        self.act("kick", self.chance.choice(PREMISES))

    def bring(self) -> None:
        self.act("bring", self.chance.choice(PREMISES))

    def forget(self) -> None:
        self.act("forget", self.chance.choice(PREMISES))

    def attach(self) -> None:
        name = self.chance.choice(self.PROCEDURES)
        self.act(
            "attach", name, [self.chance.choice(self.PLACES[kind]) for kind in PROCEDURES[name][0]]
        )

    def limit(self) -> None:
        self.act("limit", self.chance.choice(self.LIMITS))

    def ask(self) -> None:
        cell = self.chance.choice(sum(self.PLACES.values(), []))
        self.act("ask", self.chance.choice(self.QUESTIONS), cell)


class Limited(Draw):
    """Draws lines of which many ask, with limits that most runs use up, and statements on few cells
    of which many hold at once."""

    COMMANDS = [
        *["tell"] * 6,
        *["kick", "bring"] * 2,
        "forget",
        *["attach"] * 6,
        *["limit"] * 3,
        "rest",
        *["ask"] * 7,
    ]
    QUESTIONS = ["ask", "ask", "ask", "why", "core", "settle"]
    PROCEDURES = [*Draw.PROCEDURES, *["adder", "subtracter", "multiplier"] * 5]
    PLACES = {"s": SPANS[:4], "t": TRUTHS, "d": SETS[:2]}
    LIMITS, LINES = [0, 1, 1, 2, 2, 3, 5], 60

    def stated(self) -> tuple[str, Info]:
        cell, info = super().stated()
        if cell in SPANS:
            return cell, (-self.chance.randrange(10), self.chance.randrange(10))
        return cell, dict(zip(TRUTHS, [NO, YES])).get(cell, info)

    def rest(self) -> None:
        """All that follows is found, and then no more without steps."""
        self.act("limit", ENOUGH)
        self.act("ask", "settle", "")
        self.limit()


def cases() -> Iterator[drawn.Drawn]:
    yield from drawn.drawn(Draw, "plain", SESSIONS)
    yield from drawn.drawn(Limited, "plain and limited", SESSIONS)
