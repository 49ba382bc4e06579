"""Points that fit: what propwide answers to `solve`, `least`, `greatest` and `plans`, and how that
is read.

Points are a value of each cell. What is said of them is proved of the program: they satisfy all
that is believed, with one side of each choice; and the premises that it names refute all others.
"""

from collections.abc import Iterator, Mapping, Sequence
from dataclasses import dataclass
from functools import cached_property

from propbench.grammar import SEEKING
from propbench.values import Held, Span, value_of
from propbench.words import named, names_in

# The kinds of cells by their names.
Kinds = Mapping[str, str]


@dataclass(frozen=True)
class Points:
    """Points that fit: `values` has one value for each cell with a name (Nothing of a symbol that
    may be any), and `sides` the side that is taken of each choice, as `venue=1`.

    >>> print(Points({"x": Span(3, 3)}, ("venue=1",)))
    plan 2
    x = 3
    venue=1
    """

    values: Mapping[str, Held]
    sides: tuple[str, ...]

    def __str__(self) -> str:
        return self.told("")

    def told(self, mark: str) -> str:
        """The text of a reply, with a mark behind its first line."""
        lines = [*(f"{cell} = {value}" for cell, value in self.values.items()), *self.sides]
        return "\n".join([f"plan {len(lines)}{mark}", *lines])


class Values(Mapping[str, Held]):
    """Values by the names of cells, which are read once somebody asks for them: a plan may have
    thousands of cells, and few that anybody asks for; and of many plans so far one is looked at.

    >>> print(Values(["x = 3", "t = yes"], {"x": "span", "t": "truth"}))
    {'x': Span(low=3, high=3), 't': Elements(names=('yes',))}
    """

    def __init__(self, lines: Sequence[str], kinds: Kinds) -> None:
        """Those of lines; what else stands among these is none."""
        self._lines, self._kinds = lines, kinds

    @cached_property
    def texts(self) -> dict[str, str]:
        """The values as texts, by the names of cells."""
        told = (line.partition(" = ") for line in self._lines)
        return {cell: text for cell, mark, text in told if mark}

    def __getitem__(self, cell: str) -> Held:
        return value_of(self.texts[cell], self._kinds[cell])

    def __iter__(self) -> Iterator[str]:
        return iter(self.texts)

    def __len__(self) -> int:
        return len(self.texts)

    def __repr__(self) -> str:
        return repr(dict(self))


@dataclass(frozen=True)
class SoFar:
    """Neither the best points were found by now, nor that there are better ones than these, which
    fit. By what the premises `because` say nothing is better than the `bound`, where that is known.

    >>> print(SoFar(Points({"x": Span(3, 3)}, ()), 2, ("ana",)))
    bound 2
    because ana
    plan 1 unsettled
    x = 3
    """

    points: Points
    bound: int | None = None
    because: tuple[str, ...] = ()

    def __str__(self) -> str:
        told = self.points.told(" unsettled")
        if self.bound is None:
            return told
        return f"bound {self.bound}\nbecause {named(self.because)}\n{told}"


@dataclass(frozen=True)
class Best:
    """The best points: `value` is the `end` of a cell, "least" or "greatest", and by what the
    premises `because` say nothing better fits.

    >>> print(Best("least", 3, ("ana",), Points({"x": Span(3, 3)}, ())))
    least 3
    because ana
    plan 1
    x = 3
    """

    end: str
    value: int
    because: tuple[str, ...]
    points: Points

    def __str__(self) -> str:
        return f"{self.end} {self.value}\nbecause {named(self.because)}\n{self.points}"


@dataclass(frozen=True)
class Several:
    """Points that differ at the cells that were named, which alone have values in the `rows`. By
    what the premises `others` say there are no others beside all that were told; where that is None
    it isn't known.

    >>> print(Several(({"x": Span(3, 3)}, {"x": Span(4, 4)}), ("ana",)))
    plans 2
    x = 3
    x = 4
    others none: ana
    """

    rows: tuple[Mapping[str, Held], ...]
    others: tuple[str, ...] | None

    def __str__(self) -> str:
        rows = [" ".join(f"{cell} = {held}" for cell, held in row.items()) for row in self.rows]
        last = "unknown" if self.others is None else f"none: {named(self.others)}"
        return "\n".join([f"plans {len(rows)}", *rows, f"others {last}"])


@dataclass(frozen=True)
class NoneFits:
    """No points satisfy what these believed premises say, with whatever sides of choices.

    >>> print(NoneFits(("ana", "ben")))
    none: ana ben
    """

    premises: tuple[str, ...]

    def __str__(self) -> str:
        return f"none: {named(self.premises)}"


Found = Points | SoFar | Best | Several | NoneFits


def lines_in(command: str, begun: Sequence[str]) -> int:
    """How many lines the reply to one of these commands has, as far as its first lines tell.

    >>> lines_in("least", ["least 3"]), lines_in("least", ["least 3", "because ana", "plan 8"])
    (3, 11)
    """
    first, *others = begun
    word = first.partition(" ")[0]
    if word == "plan":
        return 1 + _count(first, "plan")
    if word == "plans":
        return 2 + _count(first, "plans")
    if word not in (command, "bound") or command not in ("least", "greatest"):
        return 1
    return 3 + (_count(others[1], "plan") if len(others) > 1 else 0)


def _count(line: str, word: str) -> int:
    """The number behind a word, 0 where there is none."""
    count = line.removeprefix(f"{word} ").partition(" ")[0]
    return int(count) if count.isdecimal() else 0


def points_in(words: Sequence[str], text: str, kinds: Kinds) -> Found | None:
    """What a text says in reply to a line of these words, a question for points; None where it is
    no reply to that. Raises ValueError and KeyError too where it is none.

    >>> points_in(["solve"], "none: ana", {})
    NoneFits(premises=('ana',))
    """
    command = words[0]
    if text.startswith("none: "):
        return NoneFits(names_in(text[6:]))
    lines = text.split("\n")
    if command not in SEEKING or len(lines) != lines_in(command, lines):
        return None
    if command == "plans":
        return _several(lines, words[2:], kinds)
    if command == "solve":
        return _points(lines, "", kinds)
    if lines[0].startswith("plan "):
        points = _points(lines, " unsettled", kinds)
        return points and SoFar(points)
    return _best(lines, kinds)


def _best(lines: Sequence[str], kinds: Kinds) -> Best | SoFar | None:
    """The best points of these lines, or those so far with how good others can still be."""
    end, _, value = lines[0].partition(" ")
    points = _points(lines[2:], " unsettled" if end == "bound" else "", kinds)
    if points is None or not lines[1].startswith("because "):
        return None
    because = names_in(lines[1][8:])
    if end == "bound":
        return SoFar(points, int(value), because)
    return Best(end, int(value), because, points)


def _points(lines: Sequence[str], mark: str, kinds: Kinds) -> Points | None:
    """The points of these lines, where a mark stands behind the first."""
    if lines[0] != f"plan {len(lines) - 1}{mark}":
        return None
    values = Values(lines[1:], kinds)
    # (what is known so far is most often not looked at)
    if not mark and not values.texts.keys() <= kinds.keys():
        return None
    return Points(values, tuple(line for line in lines[1:] if " = " not in line))


def _several(lines: Sequence[str], cells: Sequence[str], kinds: Kinds) -> Several | None:
    """The points of these lines, each of these cells."""
    *rows, last = lines[1:]
    if lines[0] != f"plans {len(rows)}" or not last.startswith(("others unknown", "others none: ")):
        return None
    found = [_row(row.split(" "), kinds) for row in rows]
    if any(list(row) != list(dict.fromkeys(cells)) for row in found):
        return None
    others = None if last == "others unknown" else names_in(last.removeprefix("others none: "))
    return Several(tuple(found), others)


def _row(words: Sequence[str], kinds: Kinds) -> dict[str, Held]:
    """The values of cells that stand on one line."""
    triples = zip(words[::3], words[1::3], words[2::3], strict=True)
    return {cell: value_of(value, kinds[cell]) for cell, _, value in triples}
