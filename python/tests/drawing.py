"""Random sessions: lines that the language allows, and lines in which one thing is spoiled.

A spoiled line comes with the number of its refusal and the place of the word that was spoiled, by
how it was made: nothing here asks the package what it thinks.
"""

import random
from collections.abc import Callable
from dataclasses import dataclass, field

# Procedures and compounds with the kinds of their cells, as docs/LANGUAGE.md lists them: S for a
# number, T for a truth, A for any kind (the same at each A). Those with a scale take `by`.
USES = {
    "adder": "SSS",
    "subtracter": "SSS",
    "multiplier": "SSS",
    "divider": "SSS",
    "squarer": "SS",
    "rooter": "SSS",
    "lesser": "SST",
    "below": "TSS",
    "above": "TSS",
    "copier": "AA",
    "comparer": "AAT",
    "parter": "TAAA",
    "passer": "TAA",
    "inverter": "TT",
    "conjoiner": "TTT",
    "conjoin_back": "TTT",
    "disjoiner": "TTT",
    "disjoin_back": "TTT",
    "sum": "SSS",
    "product": "SSS",
    "square": "SS",
    "less": "SST",
    "same": "AA",
    "alike": "AAT",
    "switch": "TAA",
    "conditional": "TAAA",
    "not": "TT",
    "and": "TTT",
    "or": "TTT",
}
SCALED = ("multiplier", "divider", "product")
LINKS = ("imager", "coimager", "link")
NO_NAMES = ["by", "span", "truth", "yes", "no", "nothing", "3x", "a-b", "x.y", "contradiction", "?"]
LETTERS = "abcdefgh_äß日"


@dataclass(frozen=True)
class Spoiled:
    """A line that is refused with this number, and the place of its wrong word: from `start` to
    `end`, in characters from 0. Both are None where no word is wrong, and `end` alone is None where
    a word is missing at `start`."""

    line: str
    number: int
    start: int | None = None
    end: int | None = None


@dataclass
class Drawer:
    """Draws lines, and keeps the names that they declare where they are carried out."""

    chance: random.Random
    cells: dict[str, str] = field(default_factory=dict)
    domains: dict[str, list[str]] = field(default_factory=dict)
    relations: dict[str, tuple[str, str]] = field(default_factory=dict)
    definitions: dict[str, int] = field(default_factory=dict)
    premises: list[str] = field(default_factory=list)
    choices: list[str] = field(default_factory=list)
    count: int = 0

    def new_name(self) -> str:
        """A name that nothing has."""
        self.count += 1
        return self.chance.choice(LETTERS) + f"{self.count}" + self.chance.choice(["", "_x", "é"])

    def beginning(self) -> list[str]:
        """Lines with which there is something of everything."""
        lines = [self.domain(), self.domain()]
        lines += [self.cell(kind) for kind in ("span", "truth", "symbol", *self.domains) * 3]
        lines += [self.relation(), self.tell(), self.tell(), self.choose(), self.define()]
        return lines

    def line(self) -> str:
        """A line that is carried out."""
        draws: list[Callable[[], str]] = [self.tell] * 4 + [self.attach] * 3 + [self.question] * 4
        draws += [self.fix, self.of_premise, self.of_premise, self.cell, self.define, self.silent]
        if len(self.choices) < 6:
            draws += [self.choose]
        if self.chance.random() < 0.1:
            draws += [self.domain, self.relation, self.limit]
        return self.chance.choice(draws)()

    def domain(self) -> str:
        name = self.new_name()
        elements = [self.new_name() for _ in range(self.chance.choice([1, 2, 3, 5]))]
        self.domains[name] = elements
        return f"domain {name} {' '.join(elements)}"

    def cell(self, kind: str = "") -> str:
        name = self.new_name()
        kind = kind or self.chance.choice(["span", "truth", "symbol", *self.domains])
        self.cells[name] = kind
        return f"cell {name} {kind}"

    def relation(self) -> str:
        name, first, second = self.new_name(), *self.two_domains()
        self.relations[name] = (first, second)
        return f"relation {name} {first} {second} = {self.pairs(first, second)}"

    def two_domains(self) -> tuple[str, str]:
        domains = list(self.domains)
        return self.chance.choice(domains), self.chance.choice(domains)

    def pairs(self, first: str, second: str) -> str:
        choice = self.chance.choice
        count = choice([1, 2, 4])
        pairs = [
            f"{choice(self.domains[first])} {choice(self.domains[second])}" for _ in range(count)
        ]
        return choice([" ; ", ";"]).join(pairs)

    def define(self) -> str:
        name = self.new_name()
        self.definitions[name] = 2
        return f"define {name} x y = local n like x ; same x n ; same n y"

    def attach(self) -> str:
        name = self.chance.choice(list(USES))
        by = " by 10" if name in SCALED and self.chance.random() < 0.5 else ""
        return f"attach {name} {' '.join(self.cells_for(name))}{by}"

    def cells_for(self, name: str) -> list[str]:
        any_kind = self.chance.choice(list(self.cells.values()))
        kinds = {"S": "span", "T": "truth", "A": any_kind}
        return [self.cell_of(kinds[place]) for place in USES[name]]

    def cell_of(self, kind: str) -> str:
        return self.chance.choice([cell for cell, other in self.cells.items() if other == kind])

    def some_domain(self) -> str:
        """A domain that has a cell."""
        return self.chance.choice([name for name in self.domains if name in self.cells.values()])

    def some_relation(self) -> str:
        """A relation both of whose domains have a cell."""
        peopled = set(self.cells.values())
        return self.chance.choice(
            [name for name, sides in self.relations.items() if peopled.issuperset(sides)]
        )

    def value(self, kind: str) -> str:
        chance = self.chance
        if kind == "span":
            low = chance.randrange(-20, 20)
            return chance.choice([f"{low}", f"{low}..{low + chance.randrange(30)}"])
        if kind == "symbol":
            return chance.choice(["red", "because", "unsettled", "not", "ok", "error"])
        elements = ["yes", "no"] if kind == "truth" else self.domains[kind]
        some = chance.sample(elements, chance.randrange(1, len(elements) + 1))
        return some[0] if len(some) == 1 else "{" + " ".join(some) + "}"

    def any_cell(self) -> tuple[str, str]:
        return self.chance.choice(list(self.cells.items()))

    def fix(self) -> str:
        cell, kind = self.any_cell()
        return f"fix {cell} {self.value(kind)}"

    def tell(self) -> str:
        cell, kind = self.any_cell()
        if not self.premises or (len(self.premises) < 30 and self.chance.random() < 0.3):
            self.premises.append(self.new_name())
            return f"tell {self.premises[-1]} {cell} {self.value(kind)}"
        return f"tell {self.chance.choice(self.premises)} {cell} {self.value(kind)}"

    def of_premise(self) -> str:
        word = self.chance.choice(["kick", "bring", "forget"])
        return f"{word} {self.chance.choice(self.premises)}"

    def choose(self) -> str:
        name = self.new_name()
        self.choices.append(name)
        cell, kind = self.any_cell()
        values = [self.value(kind) for _ in range(self.chance.choice([2, 2, 3, 8]))]
        return f"choose {name} {cell} {' or '.join(values)}"

    def question(self) -> str:
        word = self.chance.choice(["ask", "why", "core", "settle", "worldview", "nogoods"])
        return f"{word} {self.any_cell()[0]}" if word in ("ask", "why", "core") else word

    def limit(self) -> str:
        return f"limit {self.chance.choice([0, 1, 3, 10, 300])}"

    def silent(self) -> str:
        return self.chance.choice(["", "# a note", "\t ", "  #", "\r", " \r"])

    def spoiled(self) -> Spoiled:
        """A line that is refused."""
        spoil = self.chance.choice(SPOILS)
        return spoil(self)

    def gap(self) -> str:
        """What stands between two words."""
        return self.chance.choice([" ", " ", " ", "  ", "\t"])


def joined(drawer: Drawer, number: int, words: list[str], wrong: int | None) -> Spoiled:
    """A line of these words, one of which is wrong; behind the last where it is their count."""
    line = drawer.chance.choice(["", "", "", " "])
    start = end = None
    for place, word in enumerate(words):
        line += drawer.gap() if place else ""
        if place == wrong:
            start, end = len(line), len(line) + len(word)
        line += word
    if wrong == len(words):
        start = len(line)
    return Spoiled(line + drawer.chance.choice(["", "", "\r"]), number, start, end)


def put(words: list[str], place: int, word: str) -> list[str]:
    """The words with another at a place."""
    return [*words[:place], word, *words[place + 1 :]]


def too_long(drawer: Drawer) -> Spoiled:
    return Spoiled("# " + "x" * 4095, 1)


def not_utf8(drawer: Drawer) -> Spoiled:
    cell, _ = drawer.any_cell()
    return joined(drawer, 2, ["ask", cell + "\udcff"], 1)


def unknown_command(drawer: Drawer) -> Spoiled:
    word = drawer.chance.choice(["aks", "Ask", "tells", "hello", "{", "=", "cells", "ok"])
    return joined(drawer, 3, [word, "ana", drawer.any_cell()[0], "3"], 0)


def word_too_many(drawer: Drawer) -> Spoiled:
    cell, kind = drawer.any_cell()
    lines = ["settle", "worldview", "nogoods", f"ask {cell}", f"limit 3", f"cell {cell} span"]
    lines += [f"fix {cell} 3", f"kick {drawer.premises[0]}", f"tell p {cell} 3", "limit 5"]
    words = drawer.chance.choice(lines).split()
    return joined(drawer, 4, [*words, drawer.chance.choice(["more", "3", "*", "}"])], len(words))


def word_missing(drawer: Drawer) -> Spoiled:
    cell, _ = drawer.any_cell()
    lines = ["ask", "why", "core", "cell", "domain", "domain d", "fix", f"fix {cell}", "tell"]
    lines += ["tell p", f"tell p {cell}", "kick", "limit", "attach", "attach sum", "define n"]
    lines += [f"attach sum {cell} by", f"fix {cell} {{", f"choose c {cell} 1", "relation r d"]
    lines += [f"choose c {cell} 1 or", "define n x = sum x x x ;", "relation r d e = a b ;"]
    words = drawer.chance.choice(lines).split()
    return joined(drawer, 4, words, len(words))


def nine_sides(drawer: Drawer) -> Spoiled:
    words = ["choose", "c", drawer.cell_of("span"), *" or ".join("123456789").split()]
    return joined(drawer, 4, words, len(words) - 2)


def mark_for_word(drawer: Drawer) -> Spoiled:
    place = drawer.chance.choice([1, 2])
    words = put(["tell", "ana", drawer.any_cell()[0], "3"], place, drawer.chance.choice("{};=*"))
    return joined(drawer, 4, words, place)


def not_a_name(drawer: Drawer) -> Spoiled:
    cell, kind = drawer.any_cell()
    value = drawer.value("span")
    lines = [(["ask", cell], 1), (["tell", "p", cell, value], 1), (["tell", "p", cell, value], 2)]
    lines += [(["cell", "x", "span"], 1), (["kick", "p"], 1), (["attach", "sum", cell, cell], 3)]
    lines += [(["domain", "d", "a", "b"], 1), (["domain", "d", "a", "b"], 3)]
    lines += [(["define", "n", "x", "=", "same", "x", "x"], 1), (["fix", cell, value], 1)]
    lines += [(["choose", "c", cell, "1", "or", "2"], 1), (["relation", "r", "d", "e"], 2)]
    words, place = drawer.chance.choice(lines)
    words = put(words, place, drawer.chance.choice(NO_NAMES))
    words += ["=", "a", "b"] if words[0] == "relation" else []
    if words[0] == "attach" and words[place] == "by":
        words[place] = "yes"
    return joined(drawer, 5, words, place)


def symbol_that_is_none(drawer: Drawer) -> Spoiled:
    word = drawer.chance.choice(["3", "a-b", "yes", "1..2"])
    return joined(drawer, 5, ["fix", drawer.cell_of("symbol"), word], 2)


def no_number(drawer: Drawer) -> Spoiled:
    bad = ["--1", "1e5", "1.5", "x", "1..", "..3", "1..x", "9" * 19, "1...2", "+3"]
    lines = [["fix", drawer.cell_of("span"), drawer.chance.choice(bad)]]
    lines += [["limit", drawer.chance.choice(["-1", "x", "1.5", "1" * 17])]]
    lines += [
        ["attach", "product", "a", "b", "c", "by", drawer.chance.choice(["0", "-4", "9" * 10])]
    ]
    words = drawer.chance.choice(lines)
    return joined(drawer, 6, words, len(words) - 1)


def no_number_in_choice(drawer: Drawer) -> Spoiled:
    words = ["choose", drawer.new_name(), drawer.cell_of("span"), "1", "or", "2", "or", "3"]
    place = drawer.chance.choice([3, 5, 7])
    return joined(drawer, 6, put(words, place, "many"), place)


def name_taken(drawer: Drawer) -> Spoiled:
    chance, cell = drawer.chance, drawer.any_cell()[0]
    lines = [(["cell", cell, "span"], 1)]
    lines += [(["domain", chance.choice(list(drawer.domains)), "a"], 1)]
    lines += [(["domain", "fresh", "a", "b", "a"], 4)]
    first, second = drawer.two_domains()
    pairs = drawer.pairs(first, second).replace(";", " ; ").split()
    taken = chance.choice(list(drawer.relations))
    lines += [(["relation", taken, first, second, "=", *pairs], 1)]
    taken = chance.choice([*USES, *drawer.definitions, *LINKS])
    lines += [(["define", taken, "x", "=", "same", "x", "x"], 1)]
    lines += [(["define", "fresh", "x", "x", "=", "same", "x", "x"], 3)]
    lines += [(["define", "fresh", "x", "=", "local", "x", "span"], 5)]
    taken = chance.choice(drawer.choices + drawer.premises)
    number = drawer.cell_of("span")
    lines += [(["choose", taken, number, "1", "or", "2"], 1)]
    words, place = chance.choice(lines)
    return joined(drawer, 7, words, place)


def no_domain(drawer: Drawer) -> Spoiled:
    first, second = drawer.two_domains()
    nowhere = drawer.new_name()
    lines = [(["cell", "fresh", nowhere], 2)]
    lines += [(["relation", "fresh", nowhere, second, "=", "a", "b"], 2)]
    lines += [(["relation", "fresh", first, nowhere, "=", "a", "b"], 3)]
    lines += [(["define", "fresh", "x", "=", "local", "n", nowhere], 6)]
    lines += [(["define", "fresh", "x", "=", "sum", "x", "x", "x", ";", "local", "n", nowhere], 11)]
    words, place = drawer.chance.choice(lines)
    return joined(drawer, 8, words, place)


def no_relation(drawer: Drawer) -> Spoiled:
    nope, cell = drawer.new_name(), drawer.any_cell()[0]
    lines = [["attach", drawer.chance.choice(LINKS), cell, cell, "by", nope]]
    lines += [["define", "fresh", "x", "=", "link", "x", "x", "by", nope]]
    words = drawer.chance.choice(lines)
    return joined(drawer, 19, words, len(words) - 1)


def no_cell(drawer: Drawer) -> Spoiled:
    cell, nope = drawer.cell_of("span"), drawer.new_name()
    lines = [([drawer.chance.choice(["ask", "why", "core"]), nope], 1), (["fix", nope, "3"], 1)]
    lines += [(["tell", "p", nope, "{a b}"], 2), (["choose", "fresh", nope, "1", "or", "2"], 2)]
    place = drawer.chance.choice([2, 3, 4])
    lines += [(put(["attach", "sum", cell, cell, cell], place, nope), place)] * 3
    lines += [(["define", "fresh", "x", "=", "same", "x", nope], 6)]
    lines += [(["define", "fresh", "x", "=", "local", "n", "like", nope], 7)]
    lines += [("define fresh x = same x n ; local n span".split(), 6)]
    words, place = drawer.chance.choice(lines)
    return joined(drawer, 9, words, place)


def no_premise(drawer: Drawer) -> Spoiled:
    word = drawer.chance.choice(["kick", "bring", "forget"])
    return joined(drawer, 10, [word, drawer.new_name()], 1)


def no_procedure(drawer: Drawer) -> Spoiled:
    cell, nope = drawer.any_cell()[0], drawer.new_name()
    lines = [(["attach", nope, cell], 1), (["define", "fresh", "x", "=", nope, "x"], 4)]
    words, place = drawer.chance.choice(lines)
    return joined(drawer, 11, words, place)


def wrong_count(drawer: Drawer) -> Spoiled:
    chance, cell = drawer.chance, drawer.cell_of("span")
    name = chance.choice([*USES, *drawer.definitions])
    right = len(USES[name]) if name in USES else drawer.definitions[name]
    count = chance.choice([count for count in range(1, 6) if count != right])
    lines = [(["attach", name, *[cell] * count], 1)]
    lines += [(["define", "fresh", "x", "=", name, *["x"] * count], 4)]
    words, place = chance.choice(lines)
    return joined(drawer, 12, words, place)


def wrong_kind(drawer: Drawer) -> Spoiled:
    """A cell of another kind, in a place whose kind is fixed, or is told by a place before it."""
    chance = drawer.chance
    name = chance.choice([name for name in USES if name != "conditional"])
    cells = drawer.cells_for(name)
    shape = USES[name]
    places = [i for i, kind in enumerate(shape) if kind != "A" or kind in shape[:i]]
    place = chance.choice(places)
    right = drawer.cells[cells[place]]
    wrong = chance.choice([cell for cell, kind in drawer.cells.items() if kind != right])
    return joined(drawer, 13, ["attach", name, *put(cells, place, wrong)], place + 2)


def braces(drawer: Drawer) -> Spoiled:
    cell = drawer.cell_of(drawer.chance.choice(["span", "symbol"]))
    return joined(drawer, 13, ["tell", "p", cell, "{", "a", "}"], 3)


def wrong_parameter(drawer: Drawer) -> Spoiled:
    chance = drawer.chance
    number, truth, relation = (
        drawer.cell_of("span"),
        drawer.cell_of("truth"),
        drawer.some_relation(),
    )
    first, second = (drawer.cell_of(domain) for domain in drawer.relations[relation])
    lines = [(["attach", "adder", number, number, number, "by", "3"], 6)]
    lines += [(["attach", "not", truth, truth, "by", relation], 5)]
    lines += [(["attach", "product", number, number, number, "by", relation], 6)]
    lines += [(["attach", "imager", first, second], 1), (["attach", "link", first, second], 1)]
    lines += [(["attach", "coimager", second, first, "by", "3"], 5)]
    words, place = chance.choice(lines)
    return joined(drawer, 14, words, place)


def not_in_the_domain(drawer: Drawer) -> Spoiled:
    chance = drawer.chance
    domain = drawer.some_domain()
    cell, elements, nope = drawer.cell_of(domain), drawer.domains[domain], drawer.new_name()
    first, second = drawer.two_domains()
    a, b = drawer.domains[first][0], drawer.domains[second][0]
    lines = [(["fix", cell, nope], 2), (["tell", "p", cell, "{", elements[0], nope, "}"], 5)]
    lines += [(["fix", drawer.cell_of("truth"), "maybe"], 2)]
    lines += [(["relation", "fresh", first, second, "=", a, nope], 6)]
    lines += [(["relation", "fresh", first, second, "=", a, b, ";", nope, b], 8)]
    lines += [(["choose", "fresh", cell, elements[0], "or", nope], 5)]
    words, place = chance.choice(lines)
    return joined(drawer, 15, words, place)


def empty_value(drawer: Drawer) -> Spoiled:
    domain = drawer.chance.choice(["truth", drawer.some_domain()])
    lines = [["fix", drawer.cell_of("span"), "5..3"], ["tell", "p", drawer.cell_of(domain), "{}"]]
    words = drawer.chance.choice(lines)
    return joined(drawer, 18, words, len(words) - 1)


def is_a_choice(drawer: Drawer) -> Spoiled:
    choice = drawer.chance.choice(drawer.choices)
    cell = drawer.cell_of("span")
    word = drawer.chance.choice(["kick", "bring", "forget", "tell"])
    words = [word, choice, cell, "3"] if word == "tell" else [word, choice]
    return joined(drawer, 17, words, 1)


def too_many_elements(drawer: Drawer) -> Spoiled:
    words = ["domain", "fresh", *(f"e{i}" for i in range(70))]
    return joined(drawer, 16, words, 2 + 64)


SPOILS: list[Callable[[Drawer], Spoiled]] = [
    too_long,
    not_utf8,
    unknown_command,
    word_too_many,
    word_missing,
    nine_sides,
    mark_for_word,
    not_a_name,
    symbol_that_is_none,
    no_number,
    no_number_in_choice,
    name_taken,
    no_domain,
    no_relation,
    no_cell,
    no_premise,
    no_procedure,
    wrong_count,
    wrong_kind,
    braces,
    wrong_parameter,
    not_in_the_domain,
    empty_value,
    is_a_choice,
    too_many_elements,
]
