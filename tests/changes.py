"""Changes of a small network that are drawn: premises go and come, what they told is forgotten and
told anew, and statements, rules, compounds, cells and choices are added.

A change after which not all points would be known is not made. One after which nothing fits is made
now and then, and seldom where it can't be taken back.
"""
from dataclasses import dataclass, field
from random import Random
from typing import Callable, Optional

from networks import Draw, attach_line, choice_line, hidden_of, statement_line
from asked import Truth

# How often each change is tried.
SHARES = {"kick or bring": 8, "forget": 4, "tell": 6, "fix": 1, "attach": 3, "cell": 1, "choose": 1}
LASTING = {"fix", "attach", "cell", "choose"}
# How often one is made after which nothing fits, and one of those that last; and how often a rule
# is attached that doesn't hold of the hidden points.
EMPTY, DULL, LOOSE = 0.4, 0.03, 0.1
# How often a premise goes that the last answer named: on it something may rest that was learned.
NAMED = 0.6
# So many changes are tried until one is made.
TRIED = 20


@dataclass
class State:
    """A network that changes, with all points that there are at the moment."""

    chance: Random
    draw: Draw
    truth: Truth
    # All premises that were told of, and how many premises and cells were added.
    names: set[str] = field(init=False)
    added: int = 0
    # The premises that the last answer named.
    named: list[str] = field(default_factory=list)

    def __post_init__(self) -> None:
        self.names = {*self.draw.network.told()}

    def change(self) -> list[str]:
        """Makes a change, whose lines these are: none where none is found."""
        for _ in range(TRIED):
            network, out = self.draw.network, self.draw.out
            self.draw.network, self.draw.out = network.copy(), {*out}
            word = self.chance.choices([*SHARES], [*SHARES.values()])[0]
            lines = self.ways()[word]()
            truth = self.known() if lines else None
            empty = DULL if word in LASTING else EMPTY
            if truth and (truth.boxes or self.chance.random() < empty):
                self.truth = truth
                return lines
            self.draw.network, self.draw.out = network, out
        return []

    def ways(self) -> dict[str, Callable[[], list[str]]]:
        """What makes a change of each kind, and answers its lines."""
        return {
            "kick or bring": self.kick_or_bring,
            "forget": self.forget,
            "tell": self.tell,
            "fix": self.fix,
            "attach": self.attach,
            "cell": self.cell,
            "choose": self.choose,
        }

    def known(self) -> Optional[Truth]:
        """All points that there are, None where not all of them are found."""
        truth = Truth(self.draw.network, {*self.draw.network.told()} - self.draw.out)
        return truth if truth.is_whole else None

    def premise(self) -> Optional[str]:
        """A premise that tells something, None where none does."""
        told = self.draw.network.told()
        named = [it for it in self.named if it in told]
        some = named if named and self.chance.random() < NAMED else told
        return self.chance.choice(some) if some else None

    def kick_or_bring(self) -> list[str]:
        premise = self.premise()
        if premise is None:
            return []
        self.draw.out ^= {premise}
        return [f"{'kick' if premise in self.draw.out else 'bring'} {premise}"]

    def forget(self) -> list[str]:
        network, premise = self.draw.network, self.premise()
        network.stated = [it for it in network.stated if it[0] != premise]
        return [] if premise is None else [f"forget {premise}"]

    def tell(self) -> list[str]:
        """A statement more of a premise, most often of one that was forgotten."""
        told = self.draw.network.told()
        forgotten = sorted(self.names - {*told})
        some = forgotten if forgotten and self.chance.random() < 0.7 else told
        if not some or self.chance.random() < 0.3:
            self.added += 1
            some = [f"q{self.added}"]
        self.draw.tell(self.chance.choice(some))
        statement = self.draw.network.stated[-1]
        self.names.add(statement[0])
        return [statement_line(*statement)]

    def fix(self) -> list[str]:
        """A statement that can't be taken back, around the hidden point."""
        cell = self.chance.choice([*self.draw.network.kinds])
        self.draw.network.stated.append(("", cell, self.draw.around(cell, 3)))
        return [statement_line(*self.draw.network.stated[-1])]

    def attach(self) -> list[str]:
        network = self.draw.network
        many = len(network.attached)
        self.draw.attach(LOOSE)
        return [attach_line(*it) for it in network.attached[many:]]

    def cell(self) -> list[str]:
        """A cell more, of which at once something is stated."""
        network = self.draw.network
        kind = self.chance.choice(sorted({*network.kinds.values()} - {"nine"}) or ["truth"])
        self.added += 1
        name = f"c{self.added}"
        network.kinds[name] = kind
        self.draw.hidden[name] = self.chance.choice(hidden_of(kind))
        premise = f"r_{name}" if self.chance.random() < 0.5 else ""
        network.stated.append((premise, name, self.draw.around(name, 2)))
        self.names |= {premise} - {""}
        return [f"cell {name} {kind}", statement_line(*network.stated[-1])]

    def choose(self) -> list[str]:
        number = len(self.draw.network.choices)
        self.draw.choose(number)
        name = f"k{number}"
        return [choice_line(name, *self.draw.network.choices[name])]
