"""The names that a session knows: its cells, domains, relations, definitions, premises, choices.

It is kept in step with the program by the lines that were carried out, so that replies can be read
by the kind of their cell, and a refusal can say which word it speaks of.
"""

from collections.abc import Callable
from dataclasses import dataclass, field
from functools import cache

from propbench.grammar import Parse, Place, Role, parsed
from propbench.kit import KIT, PRELUDE


@dataclass(frozen=True)
class Relation:
    """The domains of a relation."""

    first: str
    second: str


@dataclass(frozen=True)
class DefinitionStep:
    """A step of a definition. A local has its name in `cells` and either a kind or the cell that it
    is `like`; a use has the procedure, its cells, and what stands behind `by` ("" for nothing)."""

    procedure: str
    cells: tuple[str, ...]
    kind: str = ""
    like: str = ""
    given: str = ""


@dataclass(frozen=True)
class Definition:
    """A compound: its parameters and steps."""

    parameters: tuple[str, ...]
    steps: tuple[DefinitionStep, ...]

    @property
    def takes_given(self) -> bool:
        """Whether it hands on what it is given behind `by`."""
        return any(step.given == "*" for step in self.steps)


def steps_of(places: list[Place]) -> list[list[Place]]:
    """The places behind a definition's `=`, cut at each `;`."""
    steps: list[list[Place]] = [[]]
    begun = False
    for place in places:
        if begun and place.text == ";":
            steps.append([])
        elif begun:
            steps[-1].append(place)
        begun = begun or place.text == "="
    return steps


def _step(places: list[Place]) -> DefinitionStep:
    words = [place.text for place in places]
    if words[0] != "local":
        cells = tuple(place.text for place in places if place.role is Role.INNER_CELL)
        given = words[-1] if "by" in words else ""
        return DefinitionStep(words[0], cells, given=given)
    if len(words) == 4:
        return DefinitionStep("", (words[1],), like=words[3])
    return DefinitionStep("", (words[1],), kind=words[2])


def definition_of(parse: Parse) -> Definition:
    """What a line that defines a compound says."""
    parameters = tuple(token.text for token in parse.of(Role.NEW_PARAMETER))
    return Definition(parameters, tuple(_step(each) for each in steps_of(list(parse.places))))


@cache
def _prelude() -> dict[str, Definition]:
    """What the prelude defines, by name."""
    return {line.split()[1]: definition_of(parsed(line)) for line in PRELUDE}


@dataclass
class Known:
    """What lines that were carried out have declared. Nothing of it ever goes: a premise that is
    forgotten keeps its name. To learn a line twice changes nothing."""

    cells: dict[str, str] = field(default_factory=dict)
    domains: dict[str, tuple[str, ...]] = field(default_factory=dict)
    relations: dict[str, Relation] = field(default_factory=dict)
    definitions: dict[str, Definition] = field(default_factory=dict)
    premises: dict[str, None] = field(default_factory=dict)
    choices: dict[str, None] = field(default_factory=dict)

    def __post_init__(self) -> None:
        # What each command declares, by its words as `split` gives them and its line.
        self.learns: dict[str, Callable[[list[str], str], None]] = {
            "cell": self._cell,
            "tell": self._tell,
            "domain": self._domain,
            "relation": self._relation,
            "define": self._define,
            "choose": self._choose,
            "require": self._require,
        }
        self.definitions = {**_prelude(), **self.definitions}

    def domain_of(self, cell: str) -> tuple[str, ...]:
        """The elements of a cell's domain: none where it is no cell of elements."""
        kind = self.cells.get(cell, "")
        return ("yes", "no") if kind == "truth" else self.domains.get(kind, ())

    def is_procedure(self, name: str) -> bool:
        """Whether a procedure or a definition has the name."""
        return name in KIT or name in self.definitions

    def cells_of(self, name: str) -> tuple[str, ...]:
        """The names of the cells that a procedure or definition takes, in order."""
        return KIT[name].cells if name in KIT else self.definitions[name].parameters

    def _cell(self, words: list[str], line: str) -> None:
        self.cells[words[1]] = words[2]

    def _tell(self, words: list[str], line: str) -> None:
        self.premises[words[1]] = None

    def _require(self, words: list[str], line: str) -> None:
        for token in parsed(line).of(Role.TOLD):
            self.premises[token.text] = None

    def _choose(self, words: list[str], line: str) -> None:
        self.choices[words[1]] = None

    def _domain(self, words: list[str], line: str) -> None:
        self.domains[words[1]] = tuple(words[2:])

    def _relation(self, words: list[str], line: str) -> None:
        first, second = (token.text for token in parsed(line).of(Role.DOMAIN))
        self.relations[words[1]] = Relation(first, second)

    def _define(self, words: list[str], line: str) -> None:
        self.definitions[words[1]] = definition_of(parsed(line))
