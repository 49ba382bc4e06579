"""Random sessions under small limits, each answer of which is compared with what is believed after
just the steps that were taken, in each order of calls.

Here every premise stays believed and there are no choices, so what is believed of a cell is the
merge of all that was stated of it and of all that procedures answered, whatever supports it. A step
is a call of a waiting procedure; where it changes what is believed of its output, those that read
that wait too, in order of number and behind those that wait already. An answer that leaves out what
was found, as what follows from two premises together, is another.
"""
from dataclasses import dataclass

import drawn
import plain
from typing import Any, Callable, Iterator
from drawn import Unending
from formulas import CLASH, NOTHING, Info, merged, text_of

SESSIONS, MOST_STEPS = 500, 5_000

# What uses of compounds of the prelude stand for: each procedure with the places of its cells.
COMPOUNDS = {
    "sum": ("sss", [("adder", "012"), ("subtracter", "201"), ("subtracter", "210")]),
    "same": ("ss", [("copier", "01"), ("copier", "10")]),
    "less": ("sst", [("lesser", "012"), ("below", "210"), ("above", "201")]),
    "not": ("tt", [("inverter", "01"), ("inverter", "10")]),
}
KINDS = {
    **{name: kinds for name, (kinds, _) in plain.PROCEDURES.items()},
    **{name: kinds for name, (kinds, _) in COMPOUNDS.items()},
}


class Mixed:
    """Picks by a row of numbers that begins with the seed."""

    def __init__(self, seed: int) -> None:
        self.number = seed

    def __call__(self, waiting: int) -> int:
        self.number = (6364136223846793005 * self.number + 1442695040888963407) % 2**64
        return (self.number >> 33) % waiting


def order_of(options: list[str]) -> Callable[[int], int]:
    """Which of those that wait is called next, by the program's options."""
    word = options[options.index("--order") + 1] if "--order" in options else "fifo"
    if word == "mixed":
        return Mixed(int(options[options.index("--seed") + 1]))
    return (lambda waiting: 0) if word == "fifo" else (lambda waiting: waiting - 1)


class Machine:
    """What is believed of each cell, and which procedures wait."""

    def __init__(self, pick: Callable[[int], int]) -> None:
        self.pick = pick
        cells = plain.SPANS + plain.TRUTHS + plain.SETS
        self.values: dict[str, Info] = dict.fromkeys(cells, NOTHING)
        self.attached: list[tuple[str, list[str], str]] = []
        self.waiting: list[int] = []

    def state(self, cell: str, info: Info) -> None:
        value = merged(self.values[cell], info)
        if value != self.values[cell]:
            self.values[cell] = value
            self.waiting += [
                at
                for at, (_, inputs, _) in enumerate(self.attached)
                if cell in inputs and at not in self.waiting
            ]

    def attach(self, name: str, inputs: list[str], output: str) -> None:
        self.waiting.append(len(self.attached))
        self.attached.append((name, inputs, output))

    def next(self) -> int:
        """Which is called next, and waits no longer: in its place comes the last, unless it is the
        first."""
        place = self.pick(len(self.waiting))
        if place == 0:
            return self.waiting.pop(0)
        self.waiting[place], self.waiting[-1] = self.waiting[-1], self.waiting[place]
        return self.waiting.pop()

    def run(self, limit: int) -> str:
        """How a run ends that takes at most so many steps."""
        for step in range(min(limit, MOST_STEPS) + 1):
            if CLASH in self.values.values():
                return "contradiction"
            if not self.waiting:
                return "settled"
            if step < limit:
                name, inputs, output = self.attached[self.next()]
                self.state(output, plain.answered(name, [self.values[it] for it in inputs]))
        if limit > MOST_STEPS:
            raise Unending
        return "unsettled"


@dataclass
class Question(plain.Question):
    """A command that runs the network, with what its run came to."""

    end: str = ""
    # What is believed of the cell then.
    value: Info = NOTHING

    def is_right(self, reply: str, seen: Any) -> bool:
        if ("unsettled" in reply) != (self.end == "unsettled"):
            return False
        said, _, reason = reply.partition(" because ")
        return super().is_right(reply, seen) and (
            self.end != "unsettled" or self.word == "settle" or said == self.said()
        )

    def said(self) -> str:
        return f"{self.cell} = {text_of(self.value)} unsettled"

    def wanted(self, seen: Any) -> str:
        if self.end != "unsettled":
            return self.whole()
        return self.end if self.word == "settle" else self.said() + plain.REASONS[self.word]


class Told(plain.Told):
    """A session whose premises all stay believed, with what is believed after each step."""

    def __init__(self, options: list[str]) -> None:
        super().__init__(options)
        self.machine = Machine(order_of(options))

    def tell(self, premise: str, cell: str, info: Info) -> None:
        super().tell(premise, cell, info)
        self.machine.state(cell, info)

    def fix(self, cell: str, info: Info) -> None:
        super().fix(cell, info)
        self.machine.state(cell, info)

    def attach(self, name: str, cells: list[str]) -> None:
        self.say(" ".join(["attach", name.split()[0], *cells, *name.split()[1:]]))
        in_order = "".join(map(str, range(len(cells))))
        steps = COMPOUNDS[name][1] if name in COMPOUNDS else [(name, in_order)]
        for procedure, places in steps:
            *inputs, output = [cells[int(place)] for place in places]
            self.plain.attached.append((procedure, inputs, output))
            self.machine.attach(procedure, inputs, output)

    def ask(self, word: str, cell: str) -> None:
        plainly = self.plain.copy()
        plainly.worldview()
        end = self.machine.run(self.plain.limit)
        self.say(
            word if word == "settle" else f"{word} {cell}",
            Question(plainly, word, cell, end, self.machine.values[cell]),
        )


class Draw(plain.Limited):
    """Draws lines that take away no belief."""

    TOLD = Told
    COMMANDS = [*["tell"] * 4, "fix", *["attach"] * 5, *["limit"] * 2, *["ask"] * 5]
    QUESTIONS = ["ask", "ask", "ask", "why", "why", "settle"]
    PROCEDURES = [*sorted(KINDS), *["adder", "sum", "sum", "same", "multiplier"] * 3]

    def draw(self) -> None:
        for line in plain.DECLARED:
            self.act("declare", line)
        for _ in range(self.chance.randrange(4, self.LINES)):
            getattr(self, self.chance.choice(self.COMMANDS))()
        # (what is tried for a core leaves other procedures waiting, so it comes last)
        self.limit()
        self.act(
            "ask", self.chance.choice(["ask", "why", "core"]), self.chance.choice(self.PLACES["s"])
        )

    def attach(self) -> None:
        name = self.chance.choice(self.PROCEDURES)
        self.act("attach", name, [self.chance.choice(self.PLACES[kind]) for kind in KINDS[name]])


def cases() -> Iterator[drawn.Drawn]:
    return drawn.drawn(Draw, "steps", SESSIONS)
