"""What `list` has to tell, from the lines of a session alone, and random sessions of which each
line of it is looked at.

A compound is taken apart here by its definition as its line says it: cells and instances are
numbered in the order of that walk, a local has the name of the use that made it in front, and an
instance is named by the use that it is. What a choice stands on is known where all is settled: it
is the first list that the plain evaluation doesn't find refuted.
"""
from dataclasses import dataclass, field, replace
from typing import Any, Iterator, Optional

import choices
import drawn
import plain
from formulas import text_of

KINDS = {"s": "span", "t": "truth", "d": "d"}
# How the compounds of the kit that are used here are made.
KIT: dict[str, tuple[list[str], list[tuple[str, list[str] | str, str]]]] = {
    "sum": (
        ["x", "y", "z"],
        [
            ("adder", ["x", "y", "z"], ""),
            ("subtracter", ["z", "x", "y"], ""),
            ("subtracter", ["z", "y", "x"], ""),
        ],
    ),
    "scaled": (
        ["x", "y", "z"],
        [
            ("local", "h", "span"),
            ("multiplier", ["x", "y", "h"], "*"),
            ("sum", ["h", "h", "z"], ""),
        ],
    ),
    "deeper": (
        ["x", "z"],
        [
            ("scaled", ["x", "x", "z"], "10"),
            ("local", "m", "like x"),
            ("scaled", ["m", "x", "z"], "*"),
            ("multiplier", ["m", "m", "z"], "7"),
        ],
    ),
    "lone": (["x"], [("local", "a", "like x"), ("local", "b", "d")]),
}
DEFINED = [
    "define scaled x y z = local h span ; multiplier x y h by * ; sum h h z",
    "define deeper x z = scaled x x z by 10 ; local m like x ; scaled m x z by * ;"
    " multiplier m m z by 7",
    " define\tlone x = local a like x ; local b d",
]
USES = [
    ("sum", "sss", ""),
    ("scaled", "sss", "by 3"),
    ("scaled", "sss", ""),
    ("deeper", "ss", "by 5"),
    ("lone", "t", ""),
    ("imager", "dd", "by differ"),
]


@dataclass
class Made:
    """The cells and instances of a session, as its lines make them."""

    cells: list[tuple[str, str]] = field(default_factory=list)
    instances: list[str] = field(default_factory=list)
    uses: int = 0

    def attach(self, line: str) -> None:
        name, *cells = line.split(None, 1)[1].partition(" by ")[0].split()
        self.uses += 1
        self.use(str(self.uses), name, cells, line.partition(" by ")[2])

    def use(self, path: str, name: str, cells: list[str], given: str) -> None:
        if name not in KIT:
            self.instances.append(f"{path} {name} {' '.join(cells)}{' by ' * bool(given)}{given}")
            return
        params, steps = KIT[name]
        there, part = dict(zip(params, cells)), 0
        for word, on, how in steps:
            if word == "local":
                there[str(on)] = f"{path}.{on}"
                kind = dict(self.cells)[there[how.split()[1]]] if how.startswith("like ") else how
                self.cells.append((there[str(on)], kind))
            else:
                part += 1
                self.use(
                    f"{path}.{part}", word, [there[it] for it in on], given if how == "*" else how
                )


@dataclass
class Listed:
    """What a `list` has to tell; of the choices only where what is believed is known."""

    session: plain.Plain
    made: Made
    is_settled: bool = False

    def lines(self) -> list[str]:
        session = self.session
        statements = [
            f"{'tell ' + premise if premise else 'fix'} {cell} {text_of(info)}"
            for premise, cell, info in session.stated
        ]
        return [
            *[f"cell {name} {kind}" for name, kind in self.made.cells],
            *[f"instance {number} {text}" for number, text in enumerate(self.made.instances)],
            *statements,
            *[
                f"premise {name} {'in' if name in session.believed else 'out'}"
                for name in session.known
                if "=" not in name
            ],
        ]

    def choice(self, sides: list[str], line: str, worldview: Optional[set[str]]) -> bool:
        word, name, side, _, count, belief = line.split()
        stands = f"{name}={side}"
        return (
            (word, name, int(count)) == ("choice", sides[0].partition("=")[0], len(sides))
            and stands in sides
            and (
                belief == "in" and stands in worldview
                if worldview is not None
                else belief in ("in", "out")
            )
        )

    def refuted(self, side: str, line: str, taken: set[str]) -> bool:
        """Whether a line tells why a side was left, beside these sides of earlier choices and what
        is believed."""
        word, left, because, *reason = line.split()
        premises = set(reason)
        return (
            [word, left, because] == ["refuted", side, "because"]
            and side in premises <= self.session.believed | taken | {side}
            and (not self.is_settled or self.session.refutes(premises))
        )

    def are_choices(self, lines: list[str], worldview: Optional[set[str]]) -> bool:
        """Whether the lines tell of each choice where it stands, and why it left each side
        before."""
        taken: set[str] = set()
        for sides in self.session.choices:
            head, *lines = lines
            left = int(head.split()[2]) - 1
            refuted, lines = lines[:left], lines[left:]
            if not self.choice(sides, head, worldview) or len(refuted) != left:
                return False
            if not all(self.refuted(side, line, taken) for side, line in zip(sides, refuted)):
                return False
            taken.add(sides[left])
        return not lines

    def is_right(self, reply: str, _seen: Any) -> bool:
        head, *lines = reply.split("\n")
        wanted = self.lines()
        worldview = self.session.worldview() if self.is_settled else None
        return (
            head == f"list {len(lines)}"
            and lines[: len(wanted)] == wanted
            and self.are_choices(lines[len(wanted) :], worldview)
        )

    def wanted(self, _seen: Any) -> str:
        return "\n".join(
            [
                *self.lines(),
                *(f"choice {sides[0].partition('=')[0]} .." for sides in self.session.choices),
            ]
        )


class Told(choices.Told):
    """A session that attaches compounds, and lists what is there."""

    def __init__(self, options: list[str]) -> None:
        super().__init__(options)
        self.made = Made()

    def declare(self, line: str) -> None:
        word, *rest = line.split()
        if word == "cell":
            self.made.cells.append((rest[0], rest[1]))
        self.say(line)

    def compound(self, name: str, cells: list[str], given: str, before: str) -> None:
        line = f"{before}attach {name} {' '.join(cells)} {given}".rstrip()
        self.made.attach(line)
        self.say(line)

    def attach(self, name: str, cells: list[str]) -> None:
        super().attach(name, cells)
        self.made.attach(self.lines[-1])

    def list(self, settled: bool) -> None:
        made = replace(self.made, cells=[*self.made.cells], instances=[*self.made.instances])
        if settled:
            self.say("settle", plain.Question(self.plain.copy(), "settle", ""))
        self.say("list", Listed(self.plain.copy(), made, settled))

    def wrong_in(self, output: bytes) -> Optional[drawn.Wrong]:
        # (telling imports this module)
        from telling import first_wrong

        return first_wrong(self, output)


class Draw(choices.Draw):
    """Draws lines with compounds and procedures among them, and lists between them before anything
    runs."""

    TOLD = Told
    COMMANDS = [
        *["compound", "tell"] * 3,
        "attach",
        "fix",
        "kick",
        "bring",
        "forget",
        *["choose"] * 3,
        *["list"] * 3,
    ]
    SETTLED = False

    def draw(self) -> None:
        for line in [*plain.DECLARED, *DEFINED]:
            self.act("declare", line)
        for _ in range(self.chance.randrange(40)):
            getattr(self, self.chance.choice(self.COMMANDS))()
        self.list()

    def compound(self) -> None:
        name, kinds, given = self.chance.choice(USES)
        cells = [self.chance.choice(plain.CELLS[kind]) for kind in kinds]
        self.act("compound", name, cells, given, self.chance.choice(["", "", " ", "\t"]))

    def list(self) -> None:
        self.act("list", self.SETTLED)


class Settled(Draw):
    """Draws lines with procedures alone, so that the plain evaluation knows where the choices
    stand, and lists between them where all is settled."""

    COMMANDS = [*["tell", "attach"] * 3, "kick", "bring", "forget", *["choose"] * 4, *["list"] * 3]
    SETTLED = True


def cases(count: int) -> Iterator[drawn.Drawn]:
    yield from drawn.drawn(Draw, "lists", count)
    yield from drawn.drawn(Settled, "lists where all is settled", count)
