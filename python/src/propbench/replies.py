"""Replies: what the program answers to a line, and how its text is read.

A reply is read by what was asked, never by how it looks: `because = because because because` is a
symbol, and what it rests on. `str(reply)` is the text of the program.
"""

from collections.abc import Iterator, Mapping, Sequence
from dataclasses import dataclass
from typing import TYPE_CHECKING

from propbench.blamed import Blamed, blamed_in
from propbench.grammar import BLAMING, SEEKING
from propbench.points import Best, NoneFits, Points, Several, SoFar, points_in
from propbench.points import lines_in as lines_of_points
from propbench.values import Elements, Held, Impossible, Nothing, Span, Symbol, value_of
from propbench.words import looks_like_number, named, names_in


__all__ = [
    "Best",
    "Blamed",
    "Called",
    "Contradiction",
    "Done",
    "Elements",
    "How",
    "Impossible",
    "Instance",
    "Listing",
    "Moved",
    "Nogoods",
    "NoneFits",
    "Nothing",
    "Points",
    "Reply",
    "Searched",
    "Settled",
    "Several",
    "Silent",
    "SoFar",
    "Span",
    "Stand",
    "Stated",
    "Step",
    "Symbol",
    "Unsettled",
    "Value",
    "Worldview",
]


@dataclass(frozen=True)
class Silent:
    """A blank line or a comment, to which nothing is answered."""

    def __str__(self) -> str:
        return ""


@dataclass(frozen=True)
class Done:
    """`ok`: the line was carried out."""

    def __str__(self) -> str:
        return "ok"


@dataclass(frozen=True)
class Value:
    """What follows for a cell.

    `settled` is False where the limit was used up before all that follows was found. `because` are
    the premises that are enough for it, as printed (None to an `ask`). `reduced` is True where a
    `core` found that none of them can be left out, False where it was cut before, and None where
    none was asked for.

    The text of a reply is read when a field is first looked at: of many replies few are.
    """

    cell: str
    value: Held
    settled: bool
    because: tuple[str, ...] | None
    reduced: bool | None

    def __init__(
        self,
        cell: str,
        value: Held,
        settled: bool = True,
        because: tuple[str, ...] | None = None,
        reduced: bool | None = None,
    ) -> None:
        vars(self).update(cell=cell, value=value, settled=settled, because=because, reduced=reduced)

    # (The checker of types is not told, since it would let any attribute pass.)
    if not TYPE_CHECKING:

        def __getattr__(self, name: str) -> object:
            """What isn't there. Where the fields are still to be read, they are read now."""
            held = vars(self.read())
            if name not in held:
                raise AttributeError(f"a Value has no {name!r}")
            return held[name]

    def read(self) -> "Value":
        """The same, of which all fields are read: to be called where they are looked at anyway,
        since to find one unread takes longer."""
        unread = self.__dict__.get("_unread")
        if unread:
            # (all at once, since another thread may do the same)
            object.__setattr__(self, "__dict__", dict(zip(_FIELDS, _said(*unread))))
        return self

    def all(self) -> "Said":
        """All fields in order, for who looks at each of them once."""
        unread = self.__dict__.get("_unread")
        if unread:
            return _said(*unread)
        return self.cell, self.value, self.settled, self.because, self.reduced

    def ends(self) -> "Ends | None":
        """The ends of a number with the premises that are enough for them, where the text is still
        to be read, and says that in reply to a `why` that is settled. (To read no more than that is
        twice as fast.)"""
        unread = self.__dict__.get("_unread")
        if unread and unread[1] == "why" and unread[2] == "span":
            return _ends(unread[0])
        return None

    def __str__(self) -> str:
        text = f"{self.cell} = {self.value}"
        if not self.settled:
            text += " unsettled"
        elif self.reduced is False:
            text += " not reduced"
        return text if self.because is None else f"{text} because {named(self.because)}"


# The fields of a Value: their names in order, and what they are.
_FIELDS = ("cell", "value", "settled", "because", "reduced")
Said = tuple[str, Held, bool, tuple[str, ...] | None, bool | None]
# A number from one to another, and the premises that are enough for it.
Ends = tuple[int, int, list[str]]


@dataclass(frozen=True)
class Settled:
    """All that follows was found, and nothing speaks against it."""

    def __str__(self) -> str:
        return "settled"


@dataclass(frozen=True)
class Unsettled:
    """The limit was used up before all that follows was found."""

    def __str__(self) -> str:
        return "unsettled"


@dataclass(frozen=True)
class Contradiction:
    """These believed premises cannot all hold by themselves; it may name more than are needed."""

    premises: tuple[str, ...]

    def __str__(self) -> str:
        return f"contradiction: {named(self.premises)}"


@dataclass(frozen=True)
class Worldview:
    """Which premises and sides of choices (`choice=1`) are believed, and which are not."""

    inside: tuple[str, ...]
    outside: tuple[str, ...]

    def __str__(self) -> str:
        return " ".join(("in:", *self.inside)) + "\n" + " ".join(("out:", *self.outside))


@dataclass(frozen=True)
class Nogoods:
    """The sets of premises and sides that were found to be impossible together."""

    sets: tuple[tuple[str, ...], ...]

    def __str__(self) -> str:
        return "\n".join([f"nogoods {len(self.sets)}", *(f"nogood: {named(s)}" for s in self.sets)])


@dataclass(frozen=True)
class Called:
    """A procedure was called: the instance of this number, from 0, on these inputs. `value` is what
    is known of its output behind that, and `because` are the premises that are enough for it. A
    cell that has no name, as a local of a compound, is `#` with its number."""

    instance: int
    procedure: str
    inputs: tuple[str, ...]
    output: str
    value: Held
    because: tuple[str, ...]

    @property
    def cell(self) -> str:
        """The cell that it says something of: its output."""
        return self.output

    @property
    def says(self) -> str:
        """What is known of the output, as a `why` says it."""
        return _said_of(self.output, self.value, self.because)

    def __str__(self) -> str:
        words = (str(self.instance), self.procedure, *self.inputs, self.output)
        return f"called: {' '.join(words)}\n{self.says}"


@dataclass(frozen=True)
class Moved:
    """A choice went on from a side (`choice=1`) to the next, since the premises and sides of
    `nogood` are impossible together."""

    left: str
    taken: str
    nogood: tuple[str, ...]

    def __str__(self) -> str:
        return f"moved: {self.left} {self.taken}\nnogood: {named(self.nogood)}"


@dataclass(frozen=True)
class Searched:
    """What a search for points did, line by line, where its question is under way: what it supposed,
    what was called or denied, or a nogood that it learned, and how far it went back. `plan` and
    `end` say that there is an answer now."""

    told: tuple[str, ...]

    def __str__(self) -> str:
        return "\n".join(self.told)


@dataclass(frozen=True)
class Step:
    """One step of a run, as propwide tells it: what was done, or how the run has ended. `sides` are
    those of choices that were believed before it."""

    sides: tuple[str, ...]
    did: Called | Moved | Settled | Contradiction | Searched

    def __str__(self) -> str:
        if isinstance(self.did, Searched):
            return "\n".join([f"step {len(self.did.told)}", *self.did.told])
        lines = [" ".join(("sides:", *self.sides)), *str(self.did).split("\n")]
        return "\n".join([f"step {len(lines)}", *lines])


@dataclass(frozen=True)
class Stated:
    """What is stated of a cell: under a premise, by a side of a choice (`choice=1`), or always,
    where `premise` is ""."""

    premise: str
    cell: str
    value: Held
    because: tuple[str, ...]

    @property
    def line(self) -> str:
        """The line that states it, of a side one that would."""
        told = f"tell {self.premise}" if self.premise else "fix"
        return f"{told} {self.cell} {self.value}"

    def __str__(self) -> str:
        told = f"told: {self.premise}" if self.premise else "told:"
        return f"{told}\n{_said_of(self.cell, self.value, self.because)}"


@dataclass(frozen=True)
class How:
    """What makes up what is known of a cell, as propwide tells it: the statements and the calls
    that say it together. The first of the `parts` completes it. Of the inputs of a call it counts
    what the parts behind it say, so nothing supports itself. `parts` is None where they weren't
    found within the limit. `sides` are those of choices that are believed."""

    sides: tuple[str, ...]
    cell: str
    value: Held
    because: tuple[str, ...]
    parts: tuple[Called | Stated, ...] | None

    def __str__(self) -> str:
        lines = [
            " ".join(("sides:", *self.sides)),
            _said_of(self.cell, self.value, self.because),
            *(["cut"] if self.parts is None else "\n".join(map(str, self.parts)).split("\n")),
        ]
        kept = list(filter(None, lines))
        return "\n".join([f"how {len(kept)}", *kept])


@dataclass(frozen=True)
class Instance:
    """A procedure between cells. `number` is the one by which a call names it, and `part` says what
    it was made by: `2.1` is the first part of what the second `attach` made, `2` that itself. What
    stands behind `by` is `given`, "" for nothing."""

    number: int
    part: str
    procedure: str
    inputs: tuple[str, ...]
    output: str
    given: str

    def __str__(self) -> str:
        by = ("by", self.given) if self.given else ()
        words = (str(self.number), self.part, self.procedure, *self.inputs, self.output, *by)
        return f"instance {' '.join(words)}"


@dataclass(frozen=True)
class Stand:
    """The side, from 1, of so many on which a choice stands, and whether it is believed as yet. For
    each side that was left `refuted` has the premises and sides for which it was."""

    choice: str
    side: int
    sides: int
    is_believed: bool
    refuted: tuple[tuple[str, tuple[str, ...]], ...]

    def __str__(self) -> str:
        word = _BELIEVED[self.is_believed]
        lines = [f"choice {self.choice} {self.side} of {self.sides} {word}"]
        lines += [f"refuted {side} because {named(names)}" for side, names in self.refuted]
        return "\n".join(lines)


@dataclass(frozen=True)
class Listing:
    """What there is, as propwide tells it: cells with their kinds, a local of a compound by its use
    (`2.k`); instances; what is stated, sides of choices among it; premises, and whether each is
    believed; and where the choices stand. All in the order in which it came."""

    cells: tuple[tuple[str, str], ...]
    instances: tuple[Instance, ...]
    statements: tuple[Stated, ...]
    premises: tuple[tuple[str, bool], ...]
    choices: tuple[Stand, ...]

    def __str__(self) -> str:
        parts = [
            *(f"cell {name} {kind}" for name, kind in self.cells),
            *map(str, self.instances),
            *(each.line for each in self.statements),
            *(f"premise {name} {_BELIEVED[believed]}" for name, believed in self.premises),
            *map(str, self.choices),
        ]
        lines = [line for part in parts for line in part.split("\n")]
        return "\n".join([f"list {len(lines)}", *lines])


_BELIEVED = {True: "in", False: "out"}


Reply = (
    Silent
    | Done
    | Value
    | Settled
    | Unsettled
    | Contradiction
    | Worldview
    | Nogoods
    | Step
    | How
    | Listing
    | Points
    | SoFar
    | Best
    | Several
    | NoneFits
    | Blamed
)

SILENT = Silent()
DONE = Done()
SETTLED = Settled()
UNSETTLED = Unsettled()

# The commands whose reply may have more than one line.
SEVERAL = frozenset(("worldview", "nogoods", "step", "how", "list", *SEEKING, *BLAMING))
# Those of them whose first line is the command and how many lines follow.
_COUNTED = ("nogoods", "step", "how", "list")
_WORDS: dict[str, Reply] = {"ok": DONE, "settled": SETTLED, "unsettled": UNSETTLED}
# Which of the replies that are a word alone a command has; any other has `ok`.
_OK: tuple[str, ...] = ("ok",)
_PLAIN: dict[str, tuple[str, ...]] = {
    **dict.fromkeys(("ask", "why", "core", *_COUNTED, *BLAMING), ()),
    "settle": ("settled", "unsettled"),
    **dict.fromkeys(("worldview", *SEEKING), ("unsettled",)),
}
_VALUED = frozenset(("ask", "why", "core"))
_RUNS = _VALUED | {"settle", "worldview"}
_new, _put = object.__new__, object.__setattr__


def _said_of(cell: str, value: Held, because: tuple[str, ...]) -> str:
    return f"{cell} = {value} because {named(because)}"


def refusal_in(text: str) -> tuple[int, str] | None:
    """The number and the text of a refusal, where the reply is one."""
    if not text.startswith("error ") or not text[6:7].isdigit():
        return None
    number, _, said = text[6:].partition(": ")
    return int(number), said


def lines_behind(command: str, first: str) -> int:
    """How many lines follow the first of the reply to this command."""
    if command == "worldview" and first.startswith("in:"):
        return 1
    word, _, count = first.partition(" ")
    if word != command or command not in (*_COUNTED, *BLAMING) or not count.isdecimal():
        return 0
    # (behind these stands what is known of others)
    return int(count) + (command in BLAMING)


def lines_in(command: str, begun: Sequence[str]) -> int:
    """How many lines the reply to this command has, as far as its first lines tell."""
    if command in SEEKING:
        return lines_of_points(command, begun)
    return 1 + lines_behind(command, begun[0])


class NotAReply(Exception):
    """A text is no reply to the line that it was taken for."""


def reply_of(words: list[str], text: str, kinds: Mapping[str, str]) -> Reply:
    """The reply that a text is to a line of these words, which is neither silent nor refused;
    `kinds` are those of the cells. Raises NotAReply where it is the reply to another line."""
    command, name = words[0], words[-1]
    # (no name has the mark `=`)
    if command in _VALUED and text.startswith(f"{name} = ") and name in kinds:
        return unread(text, command, kinds[name])
    if command in _RUNS and text.startswith("contradiction:"):
        return Contradiction(names_in(text[15:]))
    if text in _PLAIN.get(command, _OK):
        return _WORDS[text]
    if command in SEEKING:
        return _found(words, text, kinds)
    lines = text.split("\n")
    if command in BLAMING:
        return _blamed(command, lines)
    begins = [line.partition(" ")[0] for line in lines]
    if command == "worldview" and begins == ["in:", "out:"]:
        return Worldview(tuple(lines[0].split(" ")[1:]), tuple(lines[1].split(" ")[1:]))
    if command not in _COUNTED or lines[0] != f"{command} {len(lines) - 1}":
        raise NotAReply
    if command == "nogoods":
        return Nogoods(tuple(names_in(line[8:]) for line in lines[1:]))
    if command == "step":
        return _step(lines[1:], kinds)
    if command == "list":
        return _listing(lines[1:])
    if len(lines) < 3 or not lines[2].startswith(f"{name} = "):
        raise NotAReply
    return _how(lines[1:], kinds)


def _blamed(command: str, lines: list[str]) -> Reply:
    """What can't all hold, by these lines."""
    found = blamed_in(command, lines)
    if found is None:
        raise NotAReply
    return found


def _found(words: list[str], text: str, kinds: Mapping[str, str]) -> Reply:
    """The points that a text says."""
    try:
        found = points_in(words, text, kinds)
    except (ValueError, KeyError, IndexError):
        found = None
    if found is None:
        raise NotAReply
    return found


def unread(text: str, command: str, kind: str) -> Value:
    """The value that a text says in reply to a command, of a cell of this kind."""
    made = _new(Value)
    # (past the freeze; by `vars` it would take twice the time and memory)
    _put(made, "_unread", (text, command, kind))
    return made


def _ends(text: str) -> Ends | None:
    """What the text of a reply to a `why` says of a number, where it is settled."""
    words = text.split(" ")
    if words[3] != "because":
        return None
    low, dots, high = words[2].partition("..")
    if not low[-1].isdigit():
        return None
    least = int(low)
    names = words[4:]
    return least, int(high) if dots else least, names if names[0] != "no" else []


def _said(text: str, command: str, kind: str) -> Said:
    """The fields of the value that a text says in reply to a command, of a cell of this kind."""
    cell, held, behind = _cut(text)
    mark, _, names = behind.partition("because ")
    because = None if command == "ask" else names_in(names)
    reduced = (mark == "") if command == "core" else None
    return cell, value_of(held, kind), mark[:9] != "unsettled", because, reduced


def _step(lines: list[str], kinds: Mapping[str, str]) -> Step:
    """The step that these lines tell, those behind the first."""
    if not lines or not lines[0].startswith("sides:"):
        return Step((), Searched(tuple(lines)))
    sides = tuple(lines[0].split(" ")[1:])
    word, *said = lines[1].split(" ")
    if word == "called:":
        return Step(sides, _called(said, lines[2], kinds))
    if word == "moved:":
        left, taken = said
        return Step(sides, Moved(left, taken, names_in(lines[2][8:])))
    return Step(sides, SETTLED if word == "settled" else Contradiction(names_in(lines[1][15:])))


def _how(lines: list[str], kinds: Mapping[str, str]) -> How:
    """What makes up a value by these lines, those behind the first."""
    said = _known(lines[1], kinds)
    sides, told = tuple(lines[0].split(" ")[1:]), lines[2:]
    if told == ["cut"]:
        return How(sides, *said, None)
    parts: list[Called | Stated] = []
    for first, says in zip(told[::2], told[1::2]):
        word, *words = first.split(" ")
        is_call = word == "called:"
        parts.append(
            _called(words, says, kinds) if is_call else Stated("".join(words), *_known(says, kinds))
        )
    return How(sides, *said, tuple(parts))


def _listing(lines: list[str]) -> Listing:
    """What there is by these lines, those behind the first."""
    told = [line.split(" ") for line in lines]

    def of(*kinds_of_line: str) -> Iterator[list[str]]:
        return (words for words in told if words[0] in kinds_of_line)

    kinds = {name: kind for _, name, kind in of("cell")}
    left = list(of("refuted"))
    return Listing(
        tuple(kinds.items()),
        tuple(_instance(words) for words in of("instance")),
        tuple(_stated(words, kinds) for words in of("fix", "tell")),
        tuple((name, word == "in") for _, name, word in of("premise")),
        tuple(_stand(words, left) for words in of("choice")),
    )


def _instance(words: list[str]) -> Instance:
    _, number, part, procedure, *on = words
    is_given = on[-2] == "by"
    *inputs, output = on[:-2] if is_given else on
    given = on[-1] if is_given else ""
    return Instance(int(number), part, procedure, tuple(inputs), output, given)


def _stated(words: list[str], kinds: Mapping[str, str]) -> Stated:
    premise = words[1] if words[0] == "tell" else ""
    cell, *value = words[2 if premise else 1 :]
    because = (premise,) if premise else ()
    return Stated(premise, cell, value_of(" ".join(value), kinds[cell]), because)


def _stand(words: list[str], refuted: Sequence[list[str]]) -> Stand:
    """Where a choice stands, given all sides that were left."""
    _, choice, side, _, sides, word = words
    left = [
        (name, names_in(" ".join(names)))
        for _, name, _, *names in refuted
        if name.partition("=")[0] == choice
    ]
    return Stand(choice, int(side), int(sides), word == "in", tuple(left))


def _called(words: list[str], says: str, kinds: Mapping[str, str]) -> Called:
    """The call that these words name, and what is known of its output behind it."""
    number, procedure, *inputs, output = words
    _, value, because = _known(says, kinds)
    return Called(int(number), procedure, tuple(inputs), output, value, because)


def _known(text: str, kinds: Mapping[str, str]) -> tuple[str, Held, tuple[str, ...]]:
    """The cell of which a text says a value, that value, and the premises behind it."""
    cell, held, behind = _cut(text)
    # (of a cell without a name the value tells whether it is of numbers: no name begins so)
    kind = kinds.get(cell, "span" if looks_like_number(held) else "")
    return cell, value_of(held, kind), names_in(behind.partition("because ")[2])


def _cut(text: str) -> tuple[str, str, str]:
    """The cell of which a text says a value, that value, and what stands behind it."""
    cell, _, said = text.partition(" = ")
    # (a value has no space but within its braces)
    if said[0] == "{":
        end = said.find("}") + 1
        return cell, said[:end], said[end + 1 :]
    held, _, behind = said.partition(" ")
    return cell, held, behind
