"""Small networks that are drawn: rules and compounds of both kits on cells of all kinds, premises
in and out, and choices, around points that mostly belong together.

Most numbers are few from the beginning. In some networks there is a cell of whose number little is
known, or nothing; no relation has two of these. Nothing may be stated of truths, elements, symbols.
"""
import re
from dataclasses import dataclass, field
from random import Random

from points import Network
from relations import BOUND, DECLARED, MAY, OTHERS, RULES, TOGETHER
from relations import Point, Relation, Values, points_of

# The place of the input that an output may be as well.
OWN = {"parter": 2, "rooter": 1, "abs_back": 1, "scaled_rooter": 1, "divisor_back": 1}
OWN["excluder"] = 0
# How often something is stated of a cell, which always is of the others.
STATED = {"truth": 0.2, "symbol": 0.5, "d": 0.6, "b": 0.6, "nine": 0}


def family(relation: Relation) -> str:
    return relation.name.rstrip("0123456789")


def text_of(values: Values) -> str:
    """A statement's value."""
    if isinstance(values, frozenset):
        return "".join(values) if len(values) == 1 else "{" + " ".join(sorted(values)) + "}"
    ((low, high),) = values
    return str(low) if low == high else f"{low}..{high}"


def named(kind: str) -> list[str]:
    """The points of a kind that lines may name."""
    return [it for it in points_of(MAY[kind]) if isinstance(it, str) and it not in OTHERS]


def hidden_of(kind: str) -> list[Point]:
    """The points that may be the hidden one of a cell of this kind."""
    return [*range(-2, 6)] if kind == "span" else [*named(kind)]


def attach_line(relation: Relation, cells: list[str]) -> str:
    return f"attach {relation.name} {' '.join(cells)}{relation.parameter}"


def statement_line(premise: str, cell: str, said: Values) -> str:
    """What a premise states of a cell, or the line that says it without one."""
    return f"{f'tell {premise}' if premise else 'fix'} {cell} {text_of(said)}"


def choice_line(name: str, cell: str, sides: list[Values]) -> str:
    return f"choose {name} {cell} {' or '.join(map(text_of, sides))}"


def is_ready(line: str, waiting: list[str]) -> bool:
    """Whether all that a line names is there when these lines are not said yet."""
    word, *names = re.findall(r"[^\s{};=]+", line)
    needed = ("tell",) if word == "kick" else ("domain", "relation", "cell")
    makers = [it.split()[:2] for it in waiting if it != line]
    return not any(maker in needed and name in names for maker, name in makers)


@dataclass
class Draw:
    """Draws a network."""

    chance: Random
    network: Network = field(default_factory=Network)
    hidden: dict[str, Point] = field(default_factory=dict)
    # Numbers of which little is known.
    wide: list[str] = field(default_factory=list)
    # Premises that are not believed.
    out: set[str] = field(default_factory=set)

    def __post_init__(self) -> None:
        is_large = self.often(0.5)
        self.cells(is_large)
        for _ in range(self.chance.randint(4, 9) if is_large else self.chance.randint(1, 5)):
            self.attach(0.05 if is_large else 0.3)
        for cell in self.network.kinds:
            self.state(cell, 4 if is_large else 2)
        for number in range(self.chance.choice([0, 1, 2, 2, 3, 4])):
            self.tell(f"p{number}")
        for number in range(self.chance.choice([0, 0, 1, 1, 2, 3])):
            self.choose(number)
        told = self.network.told()
        if told and self.often(0.4):
            self.out = {*self.some(told, 2)}

    def often(self, share: float) -> bool:
        return self.chance.random() < share

    def some(self, names: list[str], most: int) -> list[str]:
        """One of these or more."""
        return self.chance.sample(names, self.chance.randint(1, min(most, len(names))))

    def cells(self, is_large: bool) -> None:
        """Cells of some kinds, and their hidden points."""
        chance, kinds = self.chance, self.network.kinds
        if self.often(0.02):
            self.nine()
            return
        many = chance.randint(3, 6) if is_large else chance.randint(1, 4)
        kinds.update({f"n{n}": "span" for n in range(many)})
        kinds.update({f"t{n}": "truth" for n in range(chance.randint(0, 3))})
        for kind, share, most in (("d", 0.5, 3), ("b", 0.4, 2), ("symbol", 0.3, 3)):
            if self.often(share):
                kinds.update({f"{kind[0]}{n}": kind for n in range(chance.randint(1, most))})
        if self.often(0.15):
            self.wide = [f"w{n}" for n in range(chance.choice([1, 1, 2]))]
            kinds.update({cell: "span" for cell in self.wide})
        for kind in sorted({*kinds.values()}):
            self.hide(kind)

    def hide(self, kind: str) -> None:
        """Hidden points for the cells of a kind, which often differ."""
        cells = [cell for cell, its in self.network.kinds.items() if its == kind]
        some = hidden_of(kind)
        if len(cells) <= len(some) and self.often(0.5):
            self.hidden.update(zip(cells, self.chance.sample(some, len(cells))))
        else:
            self.hidden.update(zip(cells, self.chance.choices(some, k=len(cells))))

    def nine(self) -> None:
        """Nine cells of one domain, of which little is left."""
        for n, hidden in enumerate(self.chance.sample(named("nine"), 9)):
            self.network.kinds[f"h{n}"] = "nine"
            self.hidden[f"h{n}"] = hidden
            more = self.chance.sample(named("nine"), self.chance.randint(0, 2))
            self.network.stated.append(("", f"h{n}", frozenset([hidden, *more])))

    def attach(self, loosely: float) -> None:
        """A rule or a compound on cells, so often on any."""
        chance, have = self.chance, {*self.network.kinds.values()}
        pool = [it for it in (TOGETHER if self.often(0.35) else RULES) if {*it.kinds} <= have]
        if not pool:
            return
        name = chance.choice(sorted({*map(family, pool)}))
        for _ in range(12):
            relation = chance.choice([it for it in pool if family(it) == name])
            cells = self.places(relation)
            if relation.holds(tuple(self.hidden[it] for it in cells)):
                self.network.attached.append((relation, cells))
                return
        if self.often(loosely):
            self.network.attached.append((relation, cells))

    def places(self, relation: Relation) -> list[str]:
        """Cells of its kinds, of which at most one is wide."""
        chance, kinds = self.chance, self.network.kinds
        narrow = [cell for cell in kinds if cell not in self.wide]
        of = {kind: [it for it in narrow if kinds[it] == kind] for kind in relation.kinds}
        cells = [chance.choice(of[kind]) for kind in relation.kinds]
        (first, *_), many = relation.kinds, len(cells)
        if {*relation.kinds} == {first} and len(of[first]) >= many and self.often(0.7):
            cells = chance.sample(of[first], many)
        numbers = [at for at, kind in enumerate(relation.kinds) if kind == "span"]
        if self.wide and relation.has_room and self.often(0.6):
            cells[chance.choice(numbers)] = chance.choice(self.wide)
        own = None if relation.name == "excluder8" else OWN.get(family(relation))
        if own is not None and self.often(0.8):
            cells[-1] = cells[own]
        return cells

    def around(self, cell: str, most: int) -> Values:
        """A few points of the kind of the cell, among them the hidden one."""
        hidden, kind = self.hidden[cell], self.network.kinds[cell]
        if isinstance(hidden, int):
            return ((hidden - self.chance.randint(0, most), hidden + self.chance.randint(0, most)),)
        others = [] if kind == "symbol" else self.some(named(kind), 3)
        return frozenset([hidden, *others[1:]])

    def anything(self, cell: str) -> Values:
        """A few points of the kind of the cell."""
        chance, kind = self.chance, self.network.kinds[cell]
        if kind == "span":
            low = chance.randint(-3, 5)
            return ((low, low + chance.choice([0, 0, 1, 3])),)
        return frozenset([chance.choice(named(kind))])

    def state(self, cell: str, most: int) -> None:
        """What is stated of a cell to begin with."""
        premise = f"r_{cell}" if self.often(0.3) else ""
        if cell in self.wide:
            said = self.little()
            if said != MAY["span"]:
                self.network.stated.append((premise, cell, said))
        elif self.often(STATED.get(self.network.kinds[cell], 1)):
            self.network.stated.append((premise, cell, self.around(cell, most)))

    def little(self) -> Values:
        """That a number has one end, that it is wide, or nothing."""
        low, high = self.chance.randint(-900, -3), self.chance.choice([7, 70, 90_000, 10**9])
        ends = [(low, high), (-BOUND, high), (low, BOUND), (-BOUND, BOUND)]
        return (self.chance.choice(ends),)

    def tell(self, premise: str) -> None:
        """What a premise states of a cell beside that."""
        cell = self.chance.choice(sorted(self.network.kinds))
        said = self.around(cell, 1) if self.often(0.6) else self.anything(cell)
        self.network.stated.append((premise, cell, said))

    def choose(self, number: int) -> None:
        """A choice of two or three values."""
        cell = self.chance.choice(sorted(self.network.kinds))
        sides = [self.anything(cell) for _ in range(self.chance.choice([1, 1, 2]))]
        sides.insert(self.chance.randint(0, len(sides)), self.around(cell, self.often(0.3)))
        self.network.choices[f"k{number}"] = (cell, sides)

    def lines(self) -> list[str]:
        """The lines of the session, in a random order; in this order cells and choices are too."""
        network, waiting = self.network, [*DECLARED]
        waiting += [f"cell {cell} {kind}" for cell, kind in network.kinds.items()]
        waiting += [attach_line(*it) for it in network.attached]
        waiting += [statement_line(*it) for it in network.stated]
        waiting += [choice_line(name, *it) for name, it in network.choices.items()]
        waiting += [f"kick {premise}" for premise in sorted(self.out)]
        lines: list[str] = []
        while waiting:
            line = self.chance.choice([it for it in waiting if is_ready(it, waiting)])
            waiting.remove(line)
            lines.append(line)
        network.kinds = {cell: network.kinds[cell] for cell in made("cell", lines)}
        network.choices = {name: network.choices[name] for name in made("choose", lines)}
        return lines


def made(word: str, lines: list[str]) -> list[str]:
    """What lines of a word make, in order."""
    return [it.split()[1] for it in lines if it.split()[0] == word]
