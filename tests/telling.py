"""Random sessions of `step` and `how`, each reply of which is compared with the step that a plain
model takes, or with what the rules answer on what the parts behind a part say, in each order of
calls.

The model (tests/steps.py) knows which instances wait and what is believed of each cell, and calls
one at the place that the order picks: its number, cells and output are what `step` has to name. The
premises that are said to be why are looked at by the plain evaluation (tests/plain.py): they have
to be enough. With choices the model is that evaluation alone: a move goes to the next side, for a
set that is refuted and holds the side that was left, and the end is the one that `settle` tells.

Of `how` each part has to be a statement that was made under one of the premises of the value, or
what its procedure answers on what the parts behind it say; it says more of its cell than they do,
and rests on what they rest on. Together they say the value, and each is read from the cell on.

usage: tests/telling.py PROGRAM [COUNT]

PROGRAM is a workbench that tells these, as propwide; of each kind COUNT are tried.
"""
import os
import re
import sys
from dataclasses import dataclass, replace
from typing import Any, Iterator, Optional

import choices
import drawn
import formulas
import listing
import plain
import steps
from case import ORDERS, Check
from formulas import CLASH, text_of

DRAWN = 100
MOST = 200
BUILT = (
    f"{os.path.dirname(os.path.dirname(os.path.realpath(__file__)))}/crates/propwide/out/propwide"
)


def replies_of(output: bytes) -> Iterator[str]:
    """The replies in an output, each with all its lines."""
    lines = iter(output.decode(errors="replace").splitlines())
    for line in lines:
        counted = re.fullmatch(r"(?:step|how|list) (\d+)", line)
        yield "\n".join(
            [line, *(next(lines, "") for _ in range(int(counted[1]) if counted else 0))]
        )


def first_wrong(told: drawn.Told, output: bytes) -> Optional[drawn.Wrong]:
    """The first line of a session that is answered wrongly."""
    came, seen = list(replies_of(output)), told.SEEN()
    for at, reply in enumerate(told.replies):
        if at == len(came):
            return drawn.Wrong(at, "no reply", reply.wanted(seen))
        if not drawn.is_right(reply, came[at], seen):
            return drawn.Wrong(at, came[at], reply.wanted(seen))
    last = len(told.lines) - 1
    return (
        drawn.Wrong(last, "\n".join(came[last:]), "one reply")
        if len(came) > len(told.lines)
        else None
    )


def is_enough(session: plain.Plain, premises: set[str], cell: str, value: formulas.Info) -> bool:
    """Whether these premises are believed or sides, and say so much of the cell by themselves."""
    found = session.values(premises)
    return CLASH in found.values() or formulas.merged(found[cell], value) == found[cell]


def are_first(session: plain.Plain, sides: list[str]) -> bool:
    """Whether these are sides of the first choices, one of each, in order."""
    named = [it for choice in session.choices for it in choice if it in sides]
    return named == sides and all(it in choice for it, choice in zip(sides, session.choices))


def said_in(line: str) -> tuple[str, str, set[str]]:
    """The cell, the value and the premises of a line that says these."""
    said, _, names = line.partition(" because ")
    cell, _, value = said.partition(" = ")
    return cell, value, plain.premises_in(names)


# What is said of a cell, and on which premises.
Says = tuple[Any, set[str]]
REFUSED = {
    "how": "error 4: wrong form",
    "how c0 c1": "error 4: wrong form",
    "how 1x": "error 5: not a name",
    "how nope": "error 9: no such cell",
}


@dataclass
class Made:
    """What a `how` may tell, by what was stated and by the rules alone."""

    session: plain.Plain
    cell: str
    # What is believed of it, where that is known.
    value: Optional[str] = None

    def is_right(self, reply: str, _seen: object) -> bool:
        lines = reply.split("\n")
        if (
            lines[0] != f"how {len(lines) - 1}"
            or not lines[1].startswith("sides:")
            or len(lines) % 2 == 0
        ):
            return False
        sides, (cell, value, premises) = lines[1].split()[1:], said_in(lines[2])
        parts = [*zip(lines[3::2], map(said_in, lines[4::2]))]
        return (
            are_first(self.session, sides)
            and cell == self.cell
            and value == (self.value or value)
            and premises <= self.session.believed | set(sides)
            and self.is_said(parts, premises, formulas.info_of(value))
            and self.are_read(parts)
        )

    def is_said(
        self,
        parts: list[tuple[str, tuple[str, str, set[str]]]],
        premises: set[str],
        value: formulas.Info,
    ) -> bool:
        """Whether each part is founded on those behind it, and they say the value."""
        made: dict[str, Says] = {}
        for origin, (cell, said, support) in reversed(parts):
            info, (before, on) = formulas.info_of(said), made.get(cell, (formulas.NOTHING, set()))
            both = formulas.merged(before, info)
            if (
                not self.is_founded(origin, made, (cell, said, support))
                or not support <= premises
                or both == before
            ):
                return False
            made[cell] = both, on | support
        found, _ = made.get(self.cell, (formulas.NOTHING, set()))
        return bool(formulas.merged(found, value) == found)

    def is_founded(
        self, origin: str, made: dict[str, Says], part: tuple[str, str, set[str]]
    ) -> bool:
        """Whether it is a statement, or what a procedure answers on what was made."""
        cell, said, support = part
        word, *names = origin.split()
        if word == "told:":
            premise = names[0] if names else None
            told = {(under, at, text_of(info)) for under, at, info in self.session.stated}
            return (premise, cell, said) in told and len(names) < 2 and support == set(names)
        number, name, *cells = names
        procedure, inputs, output = self.session.attached[int(number)]
        args = [made.get(it, (formulas.NOTHING, set())) for it in inputs]
        return (
            [procedure.split()[0], *inputs, output] == [name, *cells]
            and (word, cell) == ("called:", output)
            and said == text_of(plain.answered(procedure, [info for info, _ in args]))
            and support == set().union(*(on for _, on in args))
        )

    def are_read(self, parts: list[tuple[str, tuple[str, str, set[str]]]]) -> bool:
        """Whether each part is at the cell, or at one that a part before it reads."""
        wanted = {self.cell}
        for origin, (cell, _, _) in parts:
            if cell not in wanted:
                return False
            word, *names = origin.split()
            wanted |= set(names[2:-1]) if word == "called:" else set()
        return True

    def wanted(self, _seen: object) -> str:
        value = f" = {self.value}" if self.value else ""
        return f"what makes up {self.cell}{value}, by statements and rules that bear it out"


@dataclass
class Stepped:
    """What a `step` has to tell where there are no choices: the model's next step."""

    session: plain.Plain
    # The lines behind the first, up to the premises.
    lines: list[str]
    cell: str = ""
    value: formulas.Info = formulas.NOTHING
    end: str = ""

    def is_right(self, reply: str, _seen: object) -> bool:
        lines = reply.split("\n")
        if lines[:2] != [f"step {len(lines) - 1}", "sides:"]:
            return False
        if self.end:
            said, _, names = lines[2].partition(":")
            return (
                len(lines) == 3
                and said == self.end
                and (self.end == "settled") == (not names)
                and (not names or self.session.clashes(set(names.split())))
            )
        said, _, names = lines[3].partition(" because")
        premises = set() if names == " no premise" else set(names.split())
        return [*lines[2:3], said] == self.lines and is_enough(
            self.session, premises, self.cell, self.value
        )

    def wanted(self, _seen: object) -> str:
        return "\n".join(
            [f"step {2 if self.end else 3}", "sides:", *([self.end] if self.end else self.lines)]
        )


class Told(steps.Told):
    """A session whose premises all stay believed, which takes one step after another."""

    def step(self) -> None:
        plainly, machine = self.plain.copy(), self.machine
        if CLASH in machine.values.values() or not machine.waiting:
            end = "contradiction" if CLASH in machine.values.values() else "settled"
            self.say("step", Stepped(plainly, [], end=end))
            return
        called = machine.next()
        name, inputs, output = machine.attached[called]
        machine.state(output, plain.answered(name, [machine.values[it] for it in inputs]))
        value = machine.values[output]
        call = f"called: {called} {' '.join([name.split()[0], *inputs, output])}"
        self.say("step", Stepped(plainly, [call, f"{output} = {text_of(value)}"], output, value))

    def how(self, cell: str) -> None:
        self.say(f"how {cell}", Made(self.plain.copy(), cell, text_of(self.machine.values[cell])))

    def refused(self, line: str) -> None:
        self.say(line, drawn.Exactly(REFUSED[line]))

    def wrong_in(self, output: bytes) -> Optional[drawn.Wrong]:
        return first_wrong(self, output)


class Draw(steps.Draw):
    """Draws lines that take away no belief, and steps between them."""

    TOLD = Told
    COMMANDS = [*["tell"] * 4, "fix", *["attach"] * 5, *["step"] * 9, *["how"] * 5]

    def draw(self) -> None:
        for line in plain.DECLARED:
            self.act("declare", line)
        for _ in range(self.chance.randrange(4, self.LINES)):
            getattr(self, self.chance.choice(self.COMMANDS))()
        for _ in range(self.chance.randrange(30)):
            self.step()
        for cell in sum(self.PLACES.values(), []):
            self.act("how", cell)
        self.act("refused", self.chance.choice([*REFUSED]))

    def step(self) -> None:
        self.act("step")

    def how(self) -> None:
        self.act("how", self.chance.choice(sum(self.PLACES.values(), [])))


@dataclass
class Looked:
    """What a `step` may tell of a session with choices, by the plain evaluation alone."""

    session: plain.Plain

    def is_right(self, reply: str, seen: dict[str, Any]) -> bool:
        lines = reply.split("\n")
        if lines[0] != f"step {len(lines) - 1}" or not lines[1].startswith("sides:"):
            return False
        sides = lines[1].split()[1:]
        if not are_first(self.session, sides):
            return False
        kind = lines[2].partition(":")[0]
        return {
            "settled": self.settled,
            "contradiction": self.ends,
            "moved": self.moved,
            "called": self.called,
        }[kind](lines, sides)

    def settled(self, lines: list[str], sides: list[str]) -> bool:
        return len(lines) == 3 and self.session.worldview() == self.session.believed | set(sides)

    def ends(self, lines: list[str], _sides: list[str]) -> bool:
        premises = plain.premises_in(lines[2].partition(": ")[2])
        return (
            len(lines) == 3 and premises <= self.session.believed and self.session.refutes(premises)
        )

    def moved(self, lines: list[str], sides: list[str]) -> bool:
        left, taken = lines[2].split()[1:]
        nogood = plain.premises_in(lines[3].partition(": ")[2])
        choice = next(it for it in self.session.choices if left in it)
        return (
            len(lines) == 4
            and choice.index(taken) == choice.index(left) + 1
            # (a side that is passed over wasn't believed)
            and {left} <= nogood <= self.session.believed | set(sides) | {left}
            and self.session.refutes(nogood)
        )

    def called(self, lines: list[str], sides: list[str]) -> bool:
        _, number, name, *cells = lines[2].split()
        procedure, inputs, output = self.session.attached[int(number)]
        said, _, names = lines[3].partition(" because ")
        premises = plain.premises_in(names)
        found = self.session.values(premises)
        return (
            len(lines) == 4
            and [procedure.split()[0], *inputs, output] == [name, *cells]
            and premises <= self.session.believed | set(sides)
            and said.startswith(f"{output} = ")
            # (what is said follows from the premises, so they say no less)
            and (
                CLASH in found.values()
                or text_of(formulas.merged(found[output], self.info(output, said)))
                == text_of(found[output])
            )
        )

    @staticmethod
    def info(_cell: str, said: str) -> Any:
        return formulas.info_of(said.partition(" = ")[2])

    def wanted(self, _seen: object) -> str:
        return "a step that the plain evaluation bears out"


class ToldOfChoices(choices.Told):
    """A session with choices that takes one step after another."""

    def step(self) -> None:
        self.say("step", Looked(self.plain.copy()))

    def how(self, cell: str) -> None:
        self.say(f"how {cell}", Made(self.plain.copy(), cell))

    def wrong_in(self, output: bytes) -> Optional[drawn.Wrong]:
        return first_wrong(self, output)


class DrawChoices(choices.Draw):
    """Draws lines with choices, and steps between them up to an end."""

    TOLD = ToldOfChoices
    COMMANDS = [
        *["tell"] * 3,
        *["kick", "bring"] * 2,
        *["attach"] * 4,
        *["choose"] * 4,
        *["step"] * 15,
        *["how"] * 5,
    ]
    LINES = 60

    def draw(self) -> None:
        for line in plain.DECLARED:
            self.act("declare", line)
        for _ in range(self.chance.randrange(self.LINES)):
            getattr(self, self.chance.choice(self.COMMANDS))()
        for _ in range(self.chance.randrange(60)):
            self.chance.choice([self.step, self.step, self.step, self.how])()

    def step(self) -> None:
        self.act("step")

    def how(self) -> None:
        self.act("how", self.chance.choice(sum(self.PLACES.values(), [])))


def cases(count: int = DRAWN) -> Iterator[drawn.Drawn]:
    yield from drawn.drawn(Draw, "telling", count)
    yield from drawn.drawn(DrawChoices, "telling with choices", count)
    yield from listing.cases(count)


def over_propwide(case: drawn.Drawn, options: list[str]) -> Check:
    """The case in an order, over propwide where it is built."""
    case = replace(case, options=options)
    return Check(f"{case.name} {' '.join(options)}".rstrip(), lambda _: case.wrong(BUILT))


def built() -> Iterator[Check]:
    """The cases over propwide, where it is built."""
    if os.path.exists(BUILT):
        yield from (over_propwide(case, options) for case in cases() for options in ORDERS)


def main(words: list[str]) -> int:
    if not words or words[0].startswith("-"):
        print(__doc__)
        return 0 if words == ["--help"] else 2
    passed = failed = 0
    for case in cases(int(words[1]) if len(words) > 1 else DRAWN):
        for options in ORDERS:
            wrong = replace(case, options=options).wrong(os.path.abspath(words[0]))
            passed, failed = passed + (not wrong), failed + bool(wrong)
            if wrong and failed < 4:
                print(f"{case.name} {' '.join(options)}: {wrong}")
    print(f"telling: {passed} passed, {failed} failed")
    return 1 if failed else 0


if __name__ == "__main__":
    sys.exit(main(sys.argv[1:]))
