#!/usr/bin/python3
"""Random constraints and definitions as one writes them: what `require` and `let` leave is held to
plain evaluation over all points.

usage: tests/requiring.py PROGRAM [COUNT [FROM]]

PROGRAM is a workbench that takes constraints, as propwide; COUNT networks of numbers, elements
and truths are tried (400), whose seeds begin with FROM (0), with up to two cells that are defined,
and up to three constraints on all of them, some under a premise that may be kicked out and brought
again. Looked at is that

- `plans` of the cells, asked to the end, tells just the points at which each defined cell is what
  its expression is worth, and each constraint holds whose premise is believed, or that has none: no
  point is lost, and none is wrong;
- a constraint or a definition with one part that is wrong, at any place, changes nothing, and is
  refused for what is wrong with that part: its form, a word, a kind, or a number that may be out of
  range; and a definition of a cell that can't be made is refused as the line `cell` is;
- `list` calls what was made by the layer's name.

The status is 0 where nothing was wrong.
"""
import itertools
import os
import re
import sys
from dataclasses import dataclass, field
from random import Random
from typing import Callable, Iterator, Optional, Sequence, Union

from case import Case, Check, as_bytes
from solving import asked_for
from talking import Cut, Talk
from wide_rules import where_built

# So many networks are tried in the gate, so many in one case, and so many by itself.
TRIED, AT_A_TIME, BY_ITSELF = 150, 25, 400
# Rows are asked for so often, each time so many; a line may take so many steps.
TURNS, ROWS, STEPS = 40, 200, 1_000_000
# So many constraints with a wrong part are tried in each network.
MISREAD = 6
MONTHS, PLACES = ("jan", "feb", "mar"), ("hall", "yard")
DOMAINS = {"truth": ("yes", "no"), "month": MONTHS, "place": PLACES}
# Of which domains the pairs of each relation are.
RELATIONS = {"before": ("month", "month"), "free": ("month", "place")}

Value = Union[int, str]
Points = dict[str, Value]
Meaning = Callable[[Points], Value]


@dataclass(frozen=True)
class Part:
    """A part of a constraint: its text, how tightly it binds, and what it is worth at points."""

    text: str
    level: int
    worth: Meaning

    def within(self, least: int) -> str:
        """The text, in brackets where something tighter is wanted."""
        return self.text if self.level >= least else f"({self.text})"


def truth(holds: bool) -> str:
    return "yes" if holds else "no"


def number(value: Value) -> int:
    assert isinstance(value, int)
    return value


# ---- drawn parts

# How an operator between numbers is written, its level, and what it makes.
SUMS: list[tuple[str, int, Callable[[int, int], int]]] = [
    ("+", 13, lambda x, y: x + y),
    ("-", 13, lambda x, y: x - y),
    ("*", 14, lambda x, y: x * y),
]
# The same with a number behind it that is not zero, and with a power.
DIVIDED: list[tuple[str, Callable[[int, int], int]]] = [
    ("//", lambda x, y: x // y),
    ("%", lambda x, y: x % y),
]
GATHERED: list[tuple[str, Callable[[list[int]], int]]] = [("max", max), ("min", min), ("sum", sum)]
COMPARED: list[tuple[str, Callable[[int, int], bool]]] = [
    ("==", lambda x, y: x == y),
    ("!=", lambda x, y: x != y),
    ("<", lambda x, y: x < y),
    ("<=", lambda x, y: x <= y),
    (">", lambda x, y: x > y),
    (">=", lambda x, y: x >= y),
]
# Of truths, with the least levels of the left and of the right.
JOINED: list[tuple[str, int, int, int, Callable[[bool, bool], bool]]] = [
    ("and", 9, 9, 10, lambda x, y: x and y),
    ("or", 8, 8, 9, lambda x, y: x or y),
    ("xor", 7, 7, 8, lambda x, y: x != y),
    ("implies", 6, 7, 6, lambda x, y: not x or y),
    ("iff", 5, 5, 6, lambda x, y: x == y),
]


@dataclass
class Draw:
    """Draws parts of constraints on cells."""

    chance: Random
    kinds: dict[str, str]
    pairs: dict[str, set[tuple[str, str]]]

    def cell(self, kind: str) -> Optional[Part]:
        cells = [cell for cell, of in self.kinds.items() if of == kind]
        if not cells:
            return None
        name = self.chance.choice(cells)
        return Part(name, 17, lambda points: points[name])

    def number(self, depth: int) -> Part:
        chance = self.chance
        if depth == 0 or chance.random() < 0.3:
            constant = chance.randint(0, 5)
            known = Part(str(constant), 17, lambda points: constant)
            return chance.choice([self.cell("number") or known, known])
        shape = chance.randrange(13)
        if shape == 12:
            return self.looked_up(depth, self.number)
        if shape < 4:
            return self.of_one(depth, shape)
        if shape == 4:
            return self.choice(depth, self.number)
        if shape < 7:
            return self.gathered(depth)
        mark, level, makes = chance.choice(SUMS)
        left, right = self.number(depth - 1), self.number(depth - 1)
        text = f"{left.within(level)} {mark} {right.within(level + 1)}"
        return Part(
            text,
            level,
            lambda points: makes(number(left.worth(points)), number(right.worth(points))),
        )

    def of_one(self, depth: int, shape: int) -> Part:
        """What is made of one number."""
        chance, one = self.chance, self.number(depth - 1)
        if shape == 0:
            return Part(f"abs({one.text})", 17, lambda points: abs(number(one.worth(points))))
        if shape == 1:
            return Part(f"-{one.within(15)}", 15, lambda points: -number(one.worth(points)))
        if shape == 2:
            power = chance.randint(0, 2)
            text = f"{one.within(17)} ** {power}"
            return Part(text, 16, lambda points: int(number(one.worth(points)) ** power))
        mark, makes = chance.choice(DIVIDED)
        by = chance.choice([-3, -2, -1, 1, 2, 3, 4])
        text = f"{one.within(14)} {mark} {by}"
        return Part(text, 14, lambda points: makes(number(one.worth(points)), by))

    def gathered(self, depth: int) -> Part:
        """What is made of several numbers, or of truths."""
        chance = self.chance
        count = chance.randint(1, 3)
        if chance.random() < 0.4:
            truths = [self.truth(depth - 1) for _ in range(count)]
            text = f"count({', '.join(it.within(3) for it in truths)})"
            return Part(text, 17, lambda points: sum(it.worth(points) == "yes" for it in truths))
        word, makes = chance.choice(GATHERED)
        parts = [self.number(depth - 1) for _ in range(count)]
        text = f"{word}({', '.join(it.within(3) for it in parts)})"
        return Part(text, 17, lambda points: makes([number(it.worth(points)) for it in parts]))

    def choice(self, depth: int, of: Callable[[int], Part]) -> Part:
        test, left, right = self.truth(depth - 1), of(depth - 1), of(depth - 1)
        text = f"if {test.within(5)} then {left.within(5)} else {right.within(4)}"
        return Part(
            text,
            4,
            lambda points: (left if test.worth(points) == "yes" else right).worth(points),
        )

    def looked_up(self, depth: int, of: Callable[[int], Part]) -> Part:
        """What stands in a table behind the first label that is the same."""
        item, labels = self.keyed(depth - 1)
        rows = [(label, of(depth - 1)) for label in labels]
        text = ", ".join(f"{label}: {it.within(4)}" for label, it in rows)
        # (so that the first of the rows with a label is what stands there)
        table = dict(reversed(rows))
        return Part(
            f"element({item.text}; {text})",
            17,
            lambda points: table[item.worth(points)].worth(points),
        )

    def keyed(self, depth: int) -> tuple[Part, list[Value]]:
        """What is looked up, and labels in any order, with each of its values among them."""
        chance = self.chance
        month, sure = self.cell("month"), self.cell("truth")
        shape = chance.randrange(4)
        labels: list[Value]
        if shape == 0 and month:
            item, labels = month, [*MONTHS]
        elif shape == 1 and sure:
            item, labels = sure, ["yes", "no"]
        else:
            one, by = self.number(depth), chance.choice([-2, 1, 2, 3])
            item = Part(
                f"{one.within(14)} % {by}", 14, lambda points: number(one.worth(points)) % by
            )
            labels = [*range(0, by, 1 if by > 0 else -1), *chance.sample([5, -7, 10**18], 1)]
        labels += chance.sample(labels, chance.randint(0, 1))
        chance.shuffle(labels)
        return item, labels

    def compared(self, depth: int) -> Part:
        mark, holds = self.chance.choice(COMPARED)
        left, right = self.number(depth - 1), self.number(depth - 1)
        return Part(
            f"{left.within(12)} {mark} {right.within(12)}",
            11,
            lambda points: truth(holds(number(left.worth(points)), number(right.worth(points)))),
        )

    def ranged(self, depth: int) -> Part:
        item, low, high = (self.number(depth - 1) for _ in range(3))
        text = f"{item.within(12)} in {low.within(13)}..{high.within(13)}"
        return Part(
            text,
            11,
            lambda points: truth(
                number(low.worth(points))
                <= number(item.worth(points))
                <= number(high.worth(points))
            ),
        )

    def named(self, left: Part) -> Part:
        """An element beside a cell, or two cells of one domain."""
        if self.chance.random() < 0.3:
            return self.among(left, self.chance.sample(MONTHS, self.chance.randint(1, 2)))
        word = self.chance.choice(MONTHS)
        right = self.chance.choice(
            [Part(word, 17, lambda points: word), self.cell("month") or left]
        )
        is_equal = self.chance.random() < 0.5
        return Part(
            f"{left.text} {'==' if is_equal else '!='} {right.text}",
            11,
            lambda points: truth((left.worth(points) == right.worth(points)) == is_equal),
        )

    def among(self, item: Part, words: Sequence[Value]) -> Part:
        """One of some words."""
        # (behind a number a minus sign would take what follows from it)
        between = ", " if any(isinstance(it, int) for it in words) else " "
        text = f"{item.within(12)} in {{{between.join(map(str, words))}}}"
        return Part(text, 11, lambda points: truth(item.worth(points) in words))

    def paired(self, depth: int) -> Part:
        """Two elements that may be a pair of a relation."""
        word = self.chance.choice(list(RELATIONS))
        left, right = (self.element(kind, depth - 1) for kind in RELATIONS[word])
        pairs: set[tuple[Value, Value]] = {*self.pairs[word]}
        return Part(
            f"({left.within(3)}, {right.within(3)}) in {word}",
            11,
            lambda points: truth((left.worth(points), right.worth(points)) in pairs),
        )

    def element(self, kind: str, depth: int) -> Part:
        """An element of a domain, by its word or shown by a cell."""
        word = self.chance.choice(DOMAINS[kind])
        known = Part(word, 17, lambda points: word)
        shown = self.cell(kind) or known
        if depth > 0 and self.chance.random() < 0.2:
            return self.choice(depth, lambda depth: shown)
        return known if self.chance.random() < 0.2 else shown

    def different(self, depth: int) -> Part:
        """Several numbers, months or truths, of which no two are equal."""
        chance = self.chance
        count = chance.randint(1, 4)
        month, sure = self.cell("month"), self.cell("truth")
        if month and chance.random() < 0.4:
            word = chance.choice(MONTHS)
            parts = [month, *([Part(word, 17, lambda points: word)] if count > 1 else [])]
            parts += [self.cell("month") or month for _ in range(count - 2)]
        elif sure and chance.random() < 0.2:
            parts = [sure, *(self.truth(depth - 1) for _ in range(count - 1))]
        else:
            parts = [self.number(depth - 1) for _ in range(count)]
        text = f"different({', '.join(it.within(3) for it in parts)})"
        return Part(
            text, 17, lambda points: truth(len({it.worth(points) for it in parts}) == len(parts))
        )

    def truth(self, depth: int) -> Part:
        chance = self.chance
        if depth <= 0:
            known = chance.choice(["yes", "no"])
            return self.cell("truth") or Part(known, 17, lambda points: known)
        shape = chance.randrange(14)
        if shape >= 12:
            return self.paired(depth)
        if shape == 11:
            return self.looked_up(depth, self.truth)
        if shape == 10:
            return self.different(depth)
        if shape == 9:
            return self.among(self.number(depth - 1), [chance.randint(-3, 9) for _ in range(3)])
        if shape == 0:
            one = self.truth(depth - 1)
            return Part(
                f"not {one.within(10)}", 10, lambda points: truth(one.worth(points) != "yes")
            )
        month = self.cell("month")
        if shape == 1 and month:
            return self.named(month)
        if shape == 2:
            return self.choice(depth, self.truth)
        if shape == 3:
            return self.ranged(depth)
        if shape < 6:
            return self.joined(depth)
        return self.compared(depth)

    def month(self, depth: int) -> Part:
        """A month that a cell shows to be one."""
        found = self.cell("month")
        assert found
        month: Part = found
        if depth == 0 or self.chance.random() < 0.3:
            return month
        return self.chance.choice([self.choice, self.looked_up])(depth, lambda depth: month)

    def of_kind(self, kind: str, depth: int) -> Part:
        return {"number": self.number, "truth": self.truth, "month": self.month}[kind](depth)

    def joined(self, depth: int) -> Part:
        word, level, before, behind, holds = self.chance.choice(JOINED)
        left, right = self.truth(depth - 1), self.truth(depth - 1)
        return Part(
            f"{left.within(before)} {word} {right.within(behind)}",
            level,
            lambda points: truth(holds(left.worth(points) == "yes", right.worth(points) == "yes")),
        )


# ---- wrong parts

# What is told of a part that stands where a number is wanted, or a truth; `far` is any number, and
# `stray` is no cell. A truth's words are elements, so of another word is told that it is none.
NO_NUMBERS = {
    "stray": "error 9: no such cell",
    "sure": "error 13: wrong kind",
    "(far + 1)": "error 6: not a number in range",
    "(0 // far)": "error 6: not a number in range",
    "element(far; 1: 2, 3: 4)": "error 6: not a number in range",
    "element(month; mar: 1, jan: 2)": "error 6: not a number in range",
    "element(month; mar: 1, feb: 3, jan: 2, apr: 4)": "error 15: not in the domain",
    "element(month; apr: 4, mar: 1, feb: 3, jan: 2)": "error 15: not in the domain",
    "element(month; mar: 1, feb: sure, jan: 2)": "error 13: wrong kind",
    "element(stray; mar: 1)": "error 9: no such cell",
}
NO_TRUTHS = {
    "stray": "error 15: not in the domain",
    "far": "error 13: wrong kind",
    "(month == far)": "error 13: wrong kind",
    "(month == apr)": "error 15: not in the domain",
    "(month in {mar apr})": "error 15: not in the domain",
    "(stray == apr)": "error 9: no such cell",
    "different(n0, far, sure)": "error 13: wrong kind",
    "different(stray, n0)": "error 9: no such cell",
    "different(apr, stray)": "error 9: no such cell",
    "((month, n0) in free)": "error 13: wrong kind",
    "((n0, hall) in free)": "error 13: wrong kind",
    "((month, mar) in free)": "error 15: not in the domain",
    "((stray, hall) in free)": "error 15: not in the domain",
    "((month, jan) in stray)": "error 19: no such relation",
    "((month, jan, mar) in before)": "error 4: wrong form",
    "(month in before)": "error 4: wrong form",
}
# The cells that these parts name, beside those of the network.
SPARE = ("cell far span", "cell sure truth", "cell month month")
# What stands where a definition has a name, and is none of a new cell; and what is no definition.
NO_NAMES = ("far", "yes", "9a", "two words", "by", "", "a+b", "far far", "{a}")
NO_DEFINITIONS = ("let", "let x", "let x 5", "let x == 5", "let x =", "let jan = month == jan")


@dataclass
class Misdraw(Draw):
    """Draws parts of which one is wrong, and keeps what is told of it."""

    told: str = ""

    def number(self, depth: int) -> Part:
        return self.misdrawn(NO_NUMBERS, depth) or super().number(depth)

    def truth(self, depth: int) -> Part:
        return self.misdrawn(NO_TRUTHS, depth) or super().truth(depth)

    def different(self, depth: int) -> Part:
        # (of which kind its parts are to be rests on the first of them)
        return self.compared(depth)

    def misdrawn(self, parts: dict[str, str], depth: int) -> Optional[Part]:
        if self.told or self.chance.random() < 0.2 + 0.2 * depth:
            return None
        text = self.chance.choice(list(parts))
        self.told = parts[text]
        return Part(text, 17, lambda points: text)


# ---- a session


def points_of(values: dict[str, list[Value]], defined: dict[str, Part]) -> Iterator[Points]:
    """All points of these values, with those of the cells that are defined behind them."""
    for row in itertools.product(*values.values()):
        points = dict(zip(values, row))
        for cell, part in defined.items():
            points[cell] = part.worth(points)
        yield points


@dataclass
class Required:
    """A constraint, and the premise under which it is required."""

    part: Part
    premise: Optional[str]

    def line(self) -> str:
        under = f" under {self.premise}" if self.premise else ""
        return f"require {self.part.text}{under}"


@dataclass
class Session:
    """Cells with constraints, told to a program line by line."""

    seed: int
    talk: Talk
    wrong: list[str] = field(default_factory=list)
    refused: int = 0
    taken: int = 0

    def run(self) -> None:
        chance = Random(f"requiring {self.seed}")
        kinds = self.kinds(chance)
        values = {cell: self.values(chance, kind) for cell, kind in kinds.items()}
        for name in ("month", "place"):
            self.say(f"domain {name} {' '.join(DOMAINS[name])}")
        pairs = {name: self.related(name, chance) for name in RELATIONS}
        self.say(f"limit {STEPS}")
        for cell, kind in kinds.items():
            self.say(f"cell {cell} {'span' if kind == 'number' else kind}")
            if kind == "number":
                self.say(f"fix {cell} {min(values[cell])}..{max(values[cell])}")
        self.misread(kinds, chance, pairs)
        draw = Draw(chance, kinds, pairs)
        defined = self.defined(draw, chance)
        required = self.required(draw, chance)
        self.held(values, defined, required, set())
        for premise in sorted({it.premise for it in required if it.premise}):
            self.say(f"kick {premise}")
            self.held(values, defined, required, {premise})
            self.say(f"bring {premise}")
        self.held(values, defined, required, set())

    def kinds(self, chance: Random) -> dict[str, str]:
        places = chance.randint(0, 1)
        kinds = {f"n{k}": "number" for k in range(chance.randint(1, 3 - places))}
        kinds.update({f"l{k}": "place" for k in range(places)})
        kinds.update({f"m{k}": "month" for k in range(chance.randint(0, 2))})
        return {**kinds, **{f"t{k}": "truth" for k in range(chance.randint(0, 2))}}

    def values(self, chance: Random, kind: str) -> list[Value]:
        if kind != "number":
            return list(DOMAINS[kind])
        low = chance.randint(-4, 3)
        return list(range(low, low + chance.randint(0, 5) + 1))

    def related(self, name: str, chance: Random) -> set[tuple[str, str]]:
        """The pairs of a relation, which is declared."""
        first, second = RELATIONS[name]
        every = [*itertools.product(DOMAINS[first], DOMAINS[second])]
        pairs = chance.sample(every, chance.randint(1, len(every)))
        self.say(f"relation {name} {first} {second} = {' ; '.join(map(' '.join, pairs))}")
        return {*pairs}

    def misread(
        self, kinds: dict[str, str], chance: Random, pairs: dict[str, set[tuple[str, str]]]
    ) -> None:
        """Holds what is told of constraints with a wrong part to what is wrong with that part."""
        for line in SPARE:
            self.say(line)
        before = self.say("list")
        for _ in range(MISREAD):
            draw = Misdraw(chance, kinds, pairs)
            part = draw.truth(chance.randint(0, 3))
            if not draw.told:
                continue
            for line in (f"require {part.text}", f"let wrong = not ({part.text})"):
                reply = self.say(line)
                if reply != [draw.told]:
                    self.blame(f"{line}: {reply}, and not {draw.told}")
        for name in NO_NAMES:
            if self.say(f"let {name} = 1") != self.say(f"cell {name} span"):
                self.blame(f"let {name} = 1 is not refused as the cell is")
        for line in NO_DEFINITIONS:
            if self.say(line) != ["error 4: wrong form"]:
                self.blame(f"{line} is taken")
        if self.say("list") != before:
            self.blame("what was refused has left something")

    def defined(self, draw: Draw, chance: Random) -> dict[str, Part]:
        """Cells that are defined; those before may be parts. They are drawn from then on."""
        parts: dict[str, Part] = {}
        for k in range(chance.randint(0, 2)):
            kind = chance.choice(sorted({"number", "truth", *draw.kinds.values()} - {"place"}))
            part = draw.of_kind(kind, chance.randint(0, 2))
            line = f"let d{k} = {part.text}"
            reply = self.say(line)
            if reply != ["ok"]:
                self.blame(f"{line}: {reply}")
                continue
            parts[f"d{k}"] = part
            draw.kinds[f"d{k}"] = kind
        self.taken += len(parts)
        return parts

    def required(self, draw: Draw, chance: Random) -> list[Required]:
        taken = []
        for _ in range(chance.randint(1, 3)):
            it = Required(draw.truth(chance.randint(1, 3)), chance.choice([None, None, "p", "q"]))
            reply = self.say(it.line())
            if reply == ["ok"]:
                taken.append(it)
            else:
                self.blame(f"{it.line()}: {reply}")
        self.taken += len(taken)
        return taken

    def held(
        self,
        values: dict[str, list[Value]],
        defined: dict[str, Part],
        required: list[Required],
        out: set[str],
    ) -> None:
        """Holds the rows that are told to those that there are."""
        cells = [*values, *defined]
        wanted = {
            tuple(points.values())
            for points in points_of(values, defined)
            if all(it.premise in out or it.part.worth(points) == "yes" for it in required)
        }
        told: set[tuple[Value, ...]] = set()
        # (so that the rows are told from the first on)
        self.say("solve")
        for _ in range(TURNS):
            reply = self.say(f"plans {ROWS} {' '.join(cells)}")
            told |= {self.row(line, cells) for line in reply[1:-1]}
            if not reply[-1].startswith("others unknown"):
                break
        if told != wanted:
            self.blame(
                f"lost {sorted(map(str, wanted - told))[:3]}, wrong "
                f"{sorted(map(str, told - wanted))[:3]}"
            )

    def row(self, line: str, cells: list[str]) -> tuple[Value, ...]:
        """The values of a row of a reply."""
        said = dict(re.findall(r"(\w+) = (\S+)", line))
        return tuple(
            int(said[cell]) if said[cell].lstrip("-").isdigit() else said[cell] for cell in cells
        )

    def say(self, line: str) -> list[str]:
        return self.talk.say(line)[0]

    def blame(self, what: str) -> None:
        lines = "".join(f"{line}\n" for line, _ in self.talk.said)
        self.wrong.append(f"{lines}# network {self.seed}: {what}")


def tried(program: str, seeds: range) -> tuple[list[str], int]:
    """What was wrong with these networks, and how many constraints were taken."""
    wrong, taken = [], 0
    for seed in seeds:
        with Talk(program) as talk:
            session = Session(seed, talk)
            try:
                session.run()
            except Cut:
                session.blame("no answer in time")
            wrong += session.wrong
            taken += session.taken
    return wrong, taken


# ---- what is refused

REFUSED = [
    ("domain month jan feb mar", "ok"),
    ("cell x span", "ok"),
    ("cell far span", "ok"),
    ("cell t truth", "ok"),
    ("cell m month", "ok"),
    ("fix x 0..3", "ok"),
    ("require", "error 4: wrong form"),
    ("require x +", "error 4: wrong form"),
    ("require x", "error 13: wrong kind"),
    ("require x + 1", "error 4: wrong form"),
    ("require y < 1", "error 9: no such cell"),
    ("require x < m", "error 13: wrong kind"),
    ("require m == apr", "error 15: not in the domain"),
    ("require far * far < 3", "error 6: not a number in range"),
    ("require x < 1 under 1x", "error 5: not a name"),
    ("require x < 1 under", "error 4: wrong form"),
    ("require under p", "error 4: wrong form"),
    ("require x < 1 under no", "error 5: not a name"),
    ("require x // x < 1", "error 6: not a number in range"),
    ("require element(x; 1: 2, 3: 4) < 3", "error 6: not a number in range"),
    ("require element(x; 0: 2, 1: 1, 2: 1, 3: t) < 3", "error 13: wrong kind"),
    ("require element(x; 0: 2, 1: 1, m: 1) < 3", "error 6: not a number in range"),
    ("require element(x < 3) == 3", "error 4: wrong form"),
    ("relation next month month = jan feb ; feb mar", "ok"),
    ("require (x, x) in pairs", "error 19: no such relation"),
    ("require (m, x) in next", "error 13: wrong kind"),
    ("require (m, apr) in next", "error 15: not in the domain"),
    ("require (m, m, m) in next", "error 4: wrong form"),
    ("require m in next", "error 4: wrong form"),
    ("require (m, m) in 2..3", "error 4: wrong form"),
    ("require (m, m) in next + 1", "error 4: wrong form"),
    ("let y = (m, jan) in next < 2", "error 4: wrong form"),
    ("require different(x, t)", "error 13: wrong kind"),
    ("require different(x, y)", "error 9: no such cell"),
    ("require different()", "error 4: wrong form"),
    (f"require x < {'1' * 4090}", "error 1: line too long"),
    ("choose c x 1 or 2", "ok"),
    ("require x < 1 under c", "error 17: is a choice"),
    ("require x*x == 4", "ok"),
    ("\trequire x < 2", "error 3: unknown command"),
    ("require\tt\tunder\tp \r", "ok"),
    ("ask x", "x = 2"),
    ("ask t", "t = yes"),
    ("let y = x < 2 under p", "error 4: wrong form"),
    ("let y = x + t", "error 13: wrong kind"),
    ("let y = apr", "error 9: no such cell"),
    (f"let y = x + {'1' * 4090}", "error 1: line too long"),
    ("\tlet y = 2", "error 3: unknown command"),
    ("let\ty=x + 1 \r", "ok"),
    ("ask y", "y = 3"),
    ("let kept = yes", "ok"),
    ("let late = if t then m else feb", "ok"),
    ("fix m jan", "ok"),
    ("ask late", "late = jan"),
    ("cell n month", "ok"),
    ("require (m, n) in next", "ok"),
    ("ask n", "n = feb"),
    ("require (jan, feb) in next", "ok"),
    ("require not (n, m) in next", "ok"),
    ("let first = (feb, jan) in next", "ok"),
    ("ask first", "first = no"),
]


def refused() -> Case:
    """Lines that are refused, and change nothing."""
    sent = "".join(f"{line}\n" for line, _ in REFUSED).encode()
    return Case("requiring: what is refused", sent, as_bytes(*(reply for _, reply in REFUSED)))


# ---- what is run


def first_wrong(seeds: range) -> Callable[[str], Optional[str]]:
    """What says of a program what is wrong with the first of these networks, or None."""

    def look(program: str) -> Optional[str]:
        wrong, _ = tried(program, seeds)
        return f"{len(wrong)} are wrong:\n{wrong[0]}" if wrong else None

    return look


def cases() -> Iterator[Check]:
    look: Callable[[str], Optional[str]] = refused().wrong
    yield Check("requiring: what is refused", look)
    for first in range(0, TRIED, AT_A_TIME):
        last = first + AT_A_TIME
        yield Check(f"requiring: networks {first} to {last - 1}", first_wrong(range(first, last)))


built = where_built(cases)


def main(words: list[str]) -> int:
    if not words or words[0].startswith("-"):
        print(__doc__)
        return 0 if words == ["--help"] else 2
    program, seeds = asked_for(words, BY_ITSELF)
    wrong, taken = tried(os.path.abspath(program), seeds)
    look: Callable[[str], Optional[str]] = refused().wrong
    wrong += [it for it in [look(program)] if it]
    for each in wrong:
        print(each, flush=True)
    print(f"requiring: {taken} constraints, {len(wrong)} wrong")
    return 1 if wrong else 0


if __name__ == "__main__":
    sys.exit(main(sys.argv[1:]))
