"""A model that is made of lines alone, and what holds of its points in exact whole numbers.

Each cell of it is the user's, and each premise is named as on its line.
"""

from collections.abc import Callable, Iterator, Mapping, Sequence
from dataclasses import dataclass, field
from itertools import product

from propbench import Session
from propbench.listing import CellStatement, ToldLines, told_by
from propbench.questions import Model, Point, Questions
from propbench.questions.model import First

TRUTHS = ("no", "yes")


def _scaled(x: int, y: int, z: int, scale: int) -> bool:
    return scale * (z - 1) < x * y < scale * (z + 1)


# What each procedure wants of its cells' points, by its meaning in the language's description.
RULES: dict[str, Callable[..., object]] = {
    "sum": lambda x, y, z: z == x + y,
    "product": lambda x, y, z: z == x * y,
    "square": lambda x, y: y == x * x,
    "less": lambda x, y, t: t == (x < y),
    "same": lambda x, y: x == y,
    "alike": lambda x, y, t: t == (x == y),
    "switch": lambda t, x, y: not t or x == y,
    "conditional": lambda t, a, b, o: o == (a if t else b),
    "not": lambda x, y: y == (not x),
    "and": lambda x, y, z: z == (x and y),
    "or": lambda x, y, z: z == (x or y),
}


@dataclass
class LineModel(Questions):
    """A network of lines: `cell`, `domain`, `relation`, `attach`, `fix`, `tell`, `choose`,
    `kick`."""

    session: Session
    lines: list[str] = field(default_factory=list)

    def __post_init__(self) -> None:
        given, self.lines = self.lines, []
        self.told, self.kinds = ToldLines(), dict[str, str]()
        self.send(*given)

    @property
    def model(self) -> Model:
        return self

    def send(self, *lines: str) -> None:
        """Carries out more lines."""
        self.session.send_all(lines)
        self.lines += lines
        self.told = told_by(self.lines)
        self.kinds = {w[1]: w[2] for w in map(str.split, self.lines) if w[0] == "cell"}

    def base(self) -> list[str]:
        return list(self.lines)

    def forks(self) -> list[str]:
        return []

    def rooms_by(
        self, forks: Sequence[str], ends: Mapping[str, tuple[int, int]]
    ) -> Mapping[str, tuple[int, int]]:
        return {}

    def premises(self) -> list[str]:
        return list(dict.fromkeys(line.split()[1] for line in self.lines if line[:5] == "tell "))

    def believed(self) -> list[str]:
        kicked = self.told.kicked
        return [premise for premise in self.premises() if premise not in kicked]

    def line_name(self, premise: str) -> str:
        return premise

    def cells(self) -> list[str]:
        return list(self.kinds)

    def check_cell(self, cell: object) -> None:
        pass

    def cell_name(self, cell: str) -> str:
        return cell

    def domains(self) -> dict[str, tuple[str, ...]]:
        """The elements of each domain."""
        words = (line.split() for line in self.lines)
        return {"truth": TRUTHS} | {w[1]: tuple(w[2:]) for w in words if w[0] == "domain"}

    def candidates(self, cell: str) -> range | Sequence[str] | None:
        kind = self.kinds[cell]
        if kind != "span":
            return self.domains()[kind]
        ends = [ends_of(s.value) for s in self.told.premises.get("", []) if s.cell == cell]
        if not ends:
            return None
        return range(max(low for low, _ in ends), min(high for _, high in ends) + 1)

    def literal(self, cell: str, value: Point) -> str:
        return TRUTHS[value] if isinstance(value, bool) else str(value)

    def point(self, cell: str, text: str) -> Point:
        kind = self.kinds[cell]
        return int(text) if kind == "span" else text == "yes" if kind == "truth" else text

    def chosen(self, plan: Mapping[str, Point]) -> Mapping[str, object]:
        return {}

    def scheduled(
        self,
        plan: Mapping[str, Point],
        choices: Mapping[str, object],
        why: Mapping[str, Sequence[str]],
    ) -> None:
        return None

    def is_measured(self, cell: str) -> bool:
        return False

    def telling(self, premise: str, cell: str, value: object, high: object = None) -> str:
        raise NotImplementedError

    def lowered(
        self, plan: Mapping[str, Point], believed: Sequence[str], kept: Sequence[str]
    ) -> Mapping[str, Point]:
        return plan

    def held(self, plan: Mapping[str, Point]) -> Sequence[str]:
        return [
            premise
            for premise in self.premises()
            if all(allows(each, plan) for each in self.told.premises[premise])
        ]

    def violated(self, plan: Mapping[str, Point], believed: Sequence[str]) -> str | None:
        told = self.told
        for premise in ("", *believed):
            for each in told.premises.get(premise, []):
                if not allows(each, plan):
                    return str(each)
        for sides in told.choices.values():
            if not any(allows(side, plan) for side in sides):
                return " or ".join(map(str, sides))
        return next((line for line in told.attached if not self.holds(line, plan)), None)

    def holds(self, line: str, plan: Mapping[str, Point]) -> bool:
        """Whether an `attach` holds at these points."""
        words = line.split()[1:]
        if "by" in words:
            name, cells, given = words[0], words[1:-2], words[-1]
            if name == "product":
                x, y, z = (int(plan[cell]) for cell in cells)
                return _scaled(x, y, z, int(given))
            pairs = next(w for w in map(str.split, self.lines) if w[:2] == ["relation", given])[5:]
            return f"{plan[cells[0]]} {plan[cells[1]]}" in " ".join(pairs).split(" ; ")
        return bool(RULES[words[0]](*(plan[cell] for cell in words[1:])))

    def by_hand(self) -> dict[str, Point]:
        return {}

    def first(self) -> list[First]:
        return []

    def text(self, premise: str) -> str:
        return ", ".join(map(str, self.told.premises[premise]))

    def exactly(self, premise: str) -> str:
        return self.text(premise)

    def all_plans(self, believed: Sequence[str]) -> Iterator[dict[str, Point]]:
        """All plans with these premises, by going through all points."""
        rooms = {cell: self.candidates(cell) or () for cell in self.cells()}
        kinds = self.kinds
        for points in product(*rooms.values()):
            plan = {
                cell: point == "yes" if kinds[cell] == "truth" else point
                for cell, point in zip(rooms, points)
            }
            if self.violated(plan, believed) is None:
                yield plan


def ends_of(value: str) -> tuple[int, int]:
    """The ends of a number's statement."""
    low, _, high = value.partition("..")
    return int(low), int(high or low)


def allows(statement: CellStatement, plan: Mapping[str, Point]) -> bool:
    """Whether what is stated of a cell allows its point."""
    point = plan[statement.cell]
    if isinstance(point, int) and not isinstance(point, bool):
        low, high = ends_of(statement.value)
        return low <= point <= high
    name = TRUTHS[point] if isinstance(point, bool) else point
    return name in statement.value.strip("{}").split()
