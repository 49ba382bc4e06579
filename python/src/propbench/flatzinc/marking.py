"""A model in MiniZinc with a mark at each of its constraints: what is believed is told by name.

MiniZinc works out what it can of a constraint while it makes FlatZinc, and then forgets which it
was. So each constraint of the model's file is put into a call, `propbench_blame(CONSTRAINT, MARK)`:
MiniZinc keeps whether it holds apart from all others. What `/\\` joins is marked one by one, and
what stands in a `forall` once for each of its values. Lines stay as they are.
"""

import re
from collections.abc import Iterable, Sequence
from dataclasses import dataclass, field

from propbench.flatzinc.terms import BLAMED

_TOKEN = re.compile(
    r"(?P<silent>\s+|%[^\n]*|/\*.*?\*/)|(?P<text>\"(?:[^\"\\]|\\.)*\")"
    r"|(?P<name>[A-Za-z_]\w*|'[^'\n]*')"
    r"|(?P<number>[0-9]+(?:\.[0-9]+)?)|(?P<mark><->|->|<-|/\\|\\/|::|\.\.|[<>=!]=|.)",
    re.DOTALL,
)
_OPENING, _CLOSING = {"(", "[", "{", "if"}, {")", "]", "}", "endif"}
# What binds less tightly than `/\`.
_LOOSE = {"<->", "->", "<-", "\\/", "xor", "let"}
_LONGEST = 200
# The annotation that tells what it costs to give up a constraint.
_SOFT = "soft"


@dataclass(frozen=True)
class _Token:
    sort: str
    text: str
    start: int

    @property
    def end(self) -> int:
        return self.start + len(self.text)


@dataclass(frozen=True)
class Marked:
    """A constraint of the model: its line, its name where it has one, which part of the line's it
    is where there are several, how it is written, and what it costs to give it up.

    It stands from one place of the model's text to another, within loops of these names.
    """

    line: int
    name: str
    part: int
    text: str
    weight: int
    place: tuple[int, int]
    loops: tuple[str, ...]

    def label(self, within: str) -> str:
        """What it is called, for these values of what it is told for."""
        part = f"part {self.part}" if self.part else ""
        place = ", ".join(each for each in (f"line {self.line}", part, within) if each)
        return f"{self.name} ({place})" if self.name else place


@dataclass(frozen=True)
class MarkedModel:
    """A model with marks, and its constraints by the numbers of these."""

    text: str
    constraints: tuple[Marked, ...]

    def of(self, mark: str) -> Marked:
        """The constraint of a mark."""
        return self.constraints[int(mark.partition("|")[0])]


def marked(text: str) -> MarkedModel:
    """The model with a mark at each constraint."""
    marking = _Marking(text)
    for item in _items(text):
        if item and item[0].text == "constraint":
            marking.mark_item(item[1:])
    return marking.model()


def label_of(model: MarkedModel, mark: str) -> tuple[str, str]:
    """What the constraint of a mark is called, and how it is written."""
    return model.of(mark).label(mark.partition("|")[2]), model.of(mark).text


def relaxed(text: str, model: MarkedModel, given_up: Iterable[str]) -> str:
    """The model's text without the constraints of some marks: in a loop without those of the values
    that the marks tell. What is given up stands in a note behind it."""
    without: dict[int, list[str]] = {}
    for mark in given_up:
        place, _, within = mark.partition("|")
        without.setdefault(int(place), []).append(within)
    parts, since = [], 0
    for number in sorted(without, key=lambda each: model.constraints[each].place):
        found = model.constraints[number]
        begin, end = found.place
        parts += [text[since:begin], _without(text[begin:end], without[number])]
        since = end
    return "".join([*parts, text[since:]])


def _without(written: str, values: Sequence[str]) -> str:
    """A constraint that needn't hold for these values of its loops; where it has none, at all."""
    if not all(values):
        return f"true /* given up: {written.replace('*/', '* /')} */"
    cases = ["(" + " /\\ ".join(each.split(", ")) + ")" for each in values]
    any_of = " \\/ ".join(cases)
    return f"(not ({any_of}) -> ({written}))"


def _items(text: str) -> list[list[_Token]]:
    items: list[list[_Token]] = [[]]
    deep = 0
    for token in _tokens(text):
        deep += (token.text in _OPENING) - (token.text in _CLOSING)
        if token.text == ";" and deep == 0:
            items.append([])
        else:
            items[-1].append(token)
    return items


def _tokens(text: str) -> list[_Token]:
    found = (_Token(str(each.lastgroup), each[0], each.start()) for each in _TOKEN.finditer(text))
    return [token for token in found if token.sort != "silent"]


@dataclass(frozen=True)
class _Piece:
    """A constraint that is marked: its words, name and loops, and what it costs to give it up."""

    tokens: list[_Token]
    name: str
    loops: tuple[str, ...]
    weight: int


class _Marking:
    """What is put into a model, and where."""

    _weight = 1

    def __init__(self, text: str) -> None:
        self._text = text
        # What is put in at which place, and how much of the text it takes the place of.
        self._put: list[tuple[int, str, int]] = []
        self._pieces: list[_Piece] = []

    def mark_item(self, tokens: Sequence[_Token]) -> None:
        """Marks a constraint."""
        name = ""
        if [each.text for each in tokens[:1]] == ["::"] and tokens[1].sort == "text":
            name, tokens = tokens[1].text[1:-1], tokens[2:]
        weight, kept = _soft(tokens)
        if kept:
            self._weight = weight
            self._mark(list(kept), name, [])
            self._put.append((kept[-1].end, "", tokens[-1].end - kept[-1].end))

    def _mark(self, tokens: list[_Token], name: str, loops: list[str]) -> None:
        """Marks an expression that has to hold, or the parts that all have to."""
        outer = _depths(tokens)
        plain = {token.text for token, deep in zip(tokens, outer) if deep == 0}
        if not plain & _LOOSE:
            if "/\\" in plain:
                for part in _split(tokens, outer, "/\\"):
                    self._mark(part, name, loops)
                return
            if tokens[0].text == "(" and outer.index(0, 1) == len(tokens) - 1:
                self._mark(tokens[1:-1], name, loops)
                return
            forall = _forall(tokens, outer)
            if forall is not None:
                names, body = forall
                self._mark(body, name, [*loops, *names])
                return
        self._put_call(tokens, name, loops)

    def _put_call(self, tokens: list[_Token], name: str, loops: list[str]) -> None:
        within = ", ".join(f"{each}=\\({each})" for each in loops)
        mark = f'"{len(self._pieces)}|{within}"'
        self._pieces.append(_Piece(tokens, name, tuple(loops), self._weight))
        self._put.append((tokens[0].start, f"{BLAMED}(", 0))
        self._put.append((tokens[-1].end, f", {mark})", 0))

    def model(self) -> MarkedModel:
        """The model with all marks."""
        parts, since = [], 0
        for place, text, length in self._put:
            parts += [self._text[since:place], text]
            since = place + length
        lines = [self._text.count("\n", 0, it.tokens[0].start) + 1 for it in self._pieces]
        constraints = [
            self._marked(
                piece, line, lines[:number].count(line) + 1 if lines.count(line) > 1 else 0
            )
            for number, (piece, line) in enumerate(zip(self._pieces, lines))
        ]
        return MarkedModel("".join([*parts, self._text[since:]]), tuple(constraints))

    def _marked(self, piece: "_Piece", line: int, part: int) -> Marked:
        place = piece.tokens[0].start, piece.tokens[-1].end
        written = " ".join(self._text[slice(*place)].split())[:_LONGEST]
        return Marked(line, piece.name, part, written, piece.weight, place, piece.loops)


def _soft(tokens: Sequence[_Token]) -> tuple[int, Sequence[_Token]]:
    """What it costs to give up a constraint that ends with `:: soft(3)`, and the rest of it."""
    texts = [each.text for each in tokens[-5:]]
    if texts[:3] != ["::", _SOFT, "("] or len(texts) < 5 or tokens[-2].sort != "number":
        return 1, tokens
    return int(float(texts[3])), tokens[:-5]


def _depths(tokens: Sequence[_Token]) -> list[int]:
    """How deep within brackets each token is; a bracket is as deep as what it stands in."""
    depths, deep = [], 0
    for token in tokens:
        deep -= token.text in _CLOSING
        depths.append(deep)
        deep += token.text in _OPENING
    return depths


def _split(tokens: list[_Token], depths: list[int], mark: str) -> list[list[_Token]]:
    parts: list[list[_Token]] = [[]]
    for token, deep in zip(tokens, depths):
        if deep == 0 and token.text == mark:
            parts.append([])
        else:
            parts[-1].append(token)
    return [part for part in parts if part]


def _forall(tokens: list[_Token], depths: list[int]) -> tuple[list[str], list[_Token]] | None:
    """The names for which a `forall` tells its body, and that; None for what is none."""
    if [each.text for each in tokens[:2]] != ["forall", "("] or tokens[-1].text != ")":
        return None
    end = depths.index(0, 2)
    if tokens[end + 1 : end + 2] == [] or tokens[end + 1].text != "(":
        return None
    if depths.index(0, end + 2) != len(tokens) - 1 or end + 3 > len(tokens) - 1:
        return None
    inner = tokens[2:end]
    names = []
    for segment in _split(inner, _depths(inner), ","):
        if segment[0].sort != "name" or segment[1:2] and segment[1].text not in ("in", "="):
            return None
        names += [segment[0].text] if segment[0].text != "_" else []
    return names, tokens[end + 2 : -1]
