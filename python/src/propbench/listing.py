"""What a session was told, as lists: statements by premise, choices by side, definitions.

It is read from the lines that were carried out, and nothing is concluded from it. Where the program
lists what is stated and believed, that takes its place.
"""

from collections.abc import Iterable
from dataclasses import dataclass, field

from propbench.grammar import Place, Role, parsed
from propbench.replies import Listing, Stand


@dataclass(frozen=True)
class CellStatement:
    """A cell and the value that is stated of it, as it was written."""

    cell: str
    value: str

    def __str__(self) -> str:
        return f"{self.cell} = {self.value}"


@dataclass
class ToldLines:
    """What lines have told. `premises` has the statements of each premise, "" for what is fixed,
    and `choices` those of each side, in order; `stands` has where a choice stands, where that is
    listed."""

    premises: dict[str, list[CellStatement]] = field(default_factory=dict)
    choices: dict[str, list[CellStatement]] = field(default_factory=dict)
    definitions: dict[str, str] = field(default_factory=dict)
    attached: list[str] = field(default_factory=list)
    kicked: dict[str, None] = field(default_factory=dict)
    stands: dict[str, Stand] = field(default_factory=dict)

    def learn(self, line: str) -> None:
        """Takes in a line that was carried out."""
        words = line.split(None, 2)
        learn = _LEARNS.get(words[0])
        if learn:
            learn(self, words[1], line)

    def take(self, listing: Listing) -> None:
        """Takes in what the program lists of premises and choices, in place of what lines told."""
        stated = [each for each in listing.statements if "=" not in each.premise]
        self.premises = {"": []} if any(not each.premise for each in stated) else {}
        self.premises.update((name, []) for name, _ in listing.premises)
        for each in stated:
            self.premises[each.premise].append(CellStatement(each.cell, str(each.value)))
        self.kicked = {name: None for name, is_believed in listing.premises if not is_believed}
        self.stands = {each.choice: each for each in listing.choices}

    def side(self, name: str) -> CellStatement | None:
        """What a side such as `venue=2` says, None where the name is no side."""
        choice, mark, number = name.partition("=")
        if not mark or choice not in self.choices:
            return None
        return self.choices[choice][int(number) - 1]


def told_by(lines: Iterable[str]) -> ToldLines:
    """What lines that were carried out have told."""
    told = ToldLines()
    for line in lines:
        told.learn(line)
    return told


def _values(line: str) -> list[CellStatement]:
    """The cell of a line, with each value that the line states of it."""
    places = parsed(line).places
    cell = next(place.text for place in places if place.role is Role.CELL)
    values: list[list[Place]] = [[]]
    begun = False
    for place in places:
        if begun and place.role is None and place.text == "or":
            values.append([])
        elif begun:
            values[-1].append(place)
        begun = begun or place.role is Role.CELL
    return [CellStatement(cell, _written(value)) for value in values]


def _written(value: list[Place]) -> str:
    words = [place.text for place in value]
    return words[0] if len(words) == 1 else "{" + " ".join(words[1:-1]) + "}"


def _fix(told: ToldLines, name: str, line: str) -> None:
    told.premises.setdefault("", []).extend(_values(line))


def _tell(told: ToldLines, name: str, line: str) -> None:
    told.premises.setdefault(name, []).extend(_values(line))


def _choose(told: ToldLines, name: str, line: str) -> None:
    told.choices[name] = _values(line)


def _define(told: ToldLines, name: str, line: str) -> None:
    told.definitions[name] = line.strip()


def _attach(told: ToldLines, name: str, line: str) -> None:
    told.attached.append(line.strip())


def _kick(told: ToldLines, name: str, line: str) -> None:
    told.kicked[name] = None


def _bring(told: ToldLines, name: str, line: str) -> None:
    told.kicked.pop(name, None)


def _forget(told: ToldLines, name: str, line: str) -> None:
    told.premises[name] = []


_LEARNS = {
    "fix": _fix,
    "tell": _tell,
    "choose": _choose,
    "define": _define,
    "attach": _attach,
    "kick": _kick,
    "bring": _bring,
    "forget": _forget,
}
