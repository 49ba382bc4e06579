"""What a file of FlatZinc holds, as data: terms, variables, constraints and the goal."""

from collections.abc import Iterable, Iterator
from dataclasses import dataclass, field
from enum import Enum, auto
from fractions import Fraction
from typing import Union


# The constraint by which a model's own constraint has a name: it holds where that is believed.
BLAMED = "propbench_blame"
# That some numbers are a row of a table, which stands row by row.
TABLE = "propbench_table"
# That numbers are the next ones of nodes on a tour, from a first node on: a mark, which is stated
# beside.
TOUR = "propbench_tour"


class NotSupported(ValueError):
    """A file that is no FlatZinc, or has what the workbench doesn't know; it names the line."""

    def __init__(self, line: int, text: str) -> None:
        super().__init__(f"line {line}: {text}")
        self.line = line


@dataclass(frozen=True)
class Name:
    """A variable or parameter, or an annotation without arguments."""

    text: str


@dataclass(frozen=True)
class Text:
    """A text in quotation marks."""

    text: str


@dataclass(frozen=True)
class Call:
    """A constraint or annotation with arguments."""

    name: str
    args: tuple["FlatTerm", ...]


@dataclass(frozen=True)
class Numbers:
    """A set of whole numbers, as ranges in order between which others lie; it may be empty."""

    ranges: tuple[tuple[int, int], ...]

    @staticmethod
    def of(values: Iterable[int]) -> "Numbers":
        """The set of these numbers."""
        ranges: list[tuple[int, int]] = []
        for value in sorted(set(values)):
            if ranges and ranges[-1][1] == value - 1:
                ranges[-1] = (ranges[-1][0], value)
            else:
                ranges.append((value, value))
        return Numbers(tuple(ranges))

    @staticmethod
    def span(low: int, high: int) -> "Numbers":
        """The numbers from one to another."""
        return Numbers(((low, high),) if low <= high else ())

    def each(self) -> Iterator[int]:
        """The numbers one by one, in order."""
        return (value for low, high in self.ranges for value in range(low, high + 1))

    def count(self) -> int:
        """How many there are."""
        return sum(high - low + 1 for low, high in self.ranges)

    def has(self, value: int) -> bool:
        """Whether a number is one of these."""
        return any(low <= value <= high for low, high in self.ranges)

    @property
    def gaps(self) -> Iterator[tuple[int, int]]:
        """The last number before each gap, and the first behind it."""
        for (_, before), (behind, _) in zip(self.ranges, self.ranges[1:]):
            yield before, behind


@dataclass(frozen=True)
class Reals:
    """The real numbers from one to another, None where there is no end."""

    low: Fraction | None
    high: Fraction | None

    @property
    def value(self) -> Fraction | None:
        """The only one, where there is only one."""
        return self.low if self.low == self.high else None


FlatTerm = Union[bool, int, Fraction, Name, Text, Call, Numbers, Reals, tuple["FlatTerm", ...]]


class Sort(Enum):
    """What a variable is for."""

    TRUTH = auto()
    NUMBER = auto()
    SET = auto()
    FLOAT = auto()


@dataclass(frozen=True)
class Variable:
    """A variable: for truths, for whole numbers, of which `values` are the possible ones, for sets
    of these, or for real numbers, of which `reals` are."""

    name: str
    sort: Sort
    values: Numbers | None
    annotations: tuple[FlatTerm, ...]
    value: FlatTerm | None
    line: int
    reals: Reals = Reals(None, None)

    @property
    def is_truth(self) -> bool:
        """Whether it is for truths."""
        return self.sort is Sort.TRUTH

    @property
    def is_set(self) -> bool:
        """Whether it is for sets."""
        return self.sort is Sort.SET

    @property
    def is_float(self) -> bool:
        """Whether it is for real numbers."""
        return self.sort is Sort.FLOAT

    def has(self, annotation: str) -> bool:
        """Whether it is annotated by this name."""
        return any(_name(each) == annotation for each in self.annotations)


@dataclass(frozen=True)
class Constraint:
    """A constraint: its name, on what, and the variable that it defines, where it says so."""

    name: str
    args: tuple[FlatTerm, ...]
    defined: str | None
    line: int


@dataclass(frozen=True)
class Array:
    """An array, and the index sets by which it is printed, where that is wanted."""

    name: str
    elements: tuple[FlatTerm, ...]
    printed: tuple[Numbers, ...] | None
    line: int = 0


@dataclass(frozen=True)
class Goal:
    """What is asked for: `satisfy`, `minimize` or `maximize`, of which variable, and how."""

    sort: str
    objective: FlatTerm | None
    annotations: tuple[FlatTerm, ...]
    line: int


@dataclass
class Flat:
    """A model in FlatZinc, all in the order of the file."""

    parameters: dict[str, FlatTerm] = field(default_factory=dict)
    variables: dict[str, Variable] = field(default_factory=dict)
    arrays: dict[str, Array] = field(default_factory=dict)
    constraints: list[Constraint] = field(default_factory=list)
    goal: Goal = Goal("satisfy", None, (), 0)

    def resolved(self, term: FlatTerm) -> FlatTerm:
        """A parameter's value, an array's elements; else the term itself."""
        if isinstance(term, Name):
            if term.text in self.parameters:
                return self.parameters[term.text]
            if term.text in self.arrays:
                return self.arrays[term.text].elements
        return term

    def names(self, terms: Iterable[FlatTerm]) -> Iterator[str]:
        """The names in these that aren't those of parameters and arrays, each as often as it
        stands there."""
        for term in terms:
            found = self.resolved(term)
            if isinstance(found, Name):
                yield found.text
            elif isinstance(found, tuple):
                yield from self.names(found)
            elif isinstance(found, Call):
                yield from self.names(found.args)


def _name(term: FlatTerm) -> str | None:
    if isinstance(term, Call):
        return term.name
    return term.text if isinstance(term, Name) else None
