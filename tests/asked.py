"""Questions for points of a network, and what may be told of them.

Each reply to `solve`, `least`, `greatest` and `plans` is held to all points that there are in the
state in which it is asked (tests/points.py).
"""
import re
from dataclasses import dataclass, field
from itertools import islice, product
from typing import Optional

from points import Box, Network, Trial
from relations import BOUND, MAY, OTHERS, Point, Points, Values
from relations import both, count, either, is_in, only, points_of
from talking import Reply

# No more points are looked at; where there are more rows, they aren't asked for to the end.
MOST_BOXES, MOST_ROWS = 4000, 150
# Where more numbers are left of a cell a question may have no end.
FAR = 100
TWICE = "is told twice"
NO_REPLY = "that is no reply to it"
# Each step of a question begins so.
STRIDE = "supposed: |called: |denied:|side: |nogood:|back: "

# ---- what is true


@dataclass
class Truth:
    """All points of a network where these premises are believed."""

    network: Network
    believed: set[str]
    boxes: list[Box] = field(default_factory=list)
    # Whether these are all.
    is_whole: bool = True
    # How many named premises were not looked at to the end.
    unknown: int = 0
    refuting: dict[tuple[object, ...], Optional[str]] = field(default_factory=dict)
    rows_of: dict[tuple[str, ...], Optional[set[Points]]] = field(default_factory=dict)

    def __post_init__(self) -> None:
        trial = Trial(self.network, self.believed)
        self.boxes = [*islice(trial.boxes(), MOST_BOXES + 1)]
        self.is_whole = trial.is_whole and len(self.boxes) <= MOST_BOXES

    def best(self, cell: str, is_greatest: bool) -> Optional[int]:
        ends = [end for box in self.boxes for pair in box[cell] for end in pair]
        numbers = [it for it in ends if isinstance(it, int)]
        return (max if is_greatest else min)(numbers, default=None)

    def rows(self, cells: list[str]) -> Optional[set[Points]]:
        """The rows that there are of some cells, None where they are too many."""
        key = tuple(cells)
        if key not in self.rows_of:
            self.rows_of[key] = self.rows_in(cells)
        return self.rows_of[key]

    def rows_in(self, cells: list[str]) -> Optional[set[Points]]:
        found: set[Points] = set()
        for box in self.boxes:
            several = [box[cell] for cell in cells]
            is_any = any(is_in(other, values) for other in OTHERS for values in several)
            if is_any or any(count(values) > MOST_ROWS for values in several):
                return None
            found |= set(product(*map(points_of, several)))
            if len(found) > MOST_ROWS:
                return None
        return found

    def is_row(self, cells: list[str], row: Points) -> bool:
        """Whether some points have this row."""
        less = {cell: only(point) for cell, point in zip(cells, row)}
        return any(Trial(self.network, self.believed, less).boxes())

    def is_open(self) -> bool:
        """Whether nothing is stated of a symbol, or little of a number (but by choices)."""
        network, believed = self.network, self.believed
        stated = [network.stated_of(cell, believed) for cell in network.kinds]
        symbols = [cell for cell, kind in network.kinds.items() if kind == "symbol"]
        is_any = (is_in(OTHERS[0], network.may(cell, believed)) for cell in symbols)
        return any(count(it) > FAR for it in stated) or any(is_any)

    def wrong_premises(
        self, text: str, less: Optional[dict[str, Values]] = None, told: Optional["Rows"] = None
    ) -> Optional[str]:
        """What is wrong where these premises are to refute all points, with some cells less, or
        all rows but those told."""
        names = [] if text.strip() == "no premise" else text.split()
        if not text.startswith(" ") or len({*names}) < len(names) or not {*names} <= self.believed:
            return f"{text!r} are no premises that are believed"
        key = (frozenset(names), str(less), told and (*told.cells, len(told.rows)))
        if key not in self.refuting:
            self.refuting[key] = self.left_by(names, less, told)
        return self.refuting[key]

    def left_by(
        self, names: list[str], less: Optional[dict[str, Values]], told: Optional["Rows"]
    ) -> Optional[str]:
        """Some points that these premises leave."""
        trial = Trial(self.network, names, less)
        for box in trial.boxes():
            if told is None or not told.has(box):
                return f"with {names} alone there is {box}"
        self.unknown += not trial.is_whole
        return None

    def wrong_stride(self, reply: Reply) -> Optional[str]:
        """What is wrong with a step of a question that excuses nothing."""
        first, *lines = reply
        if first != f"step {len(lines)}" or not lines or not re.match(STRIDE, lines[0]):
            return NO_REPLY
        if not lines[0].startswith("nogood:"):
            return None
        less: dict[str, Values] = {}
        for fact in facts_in(lines[0].removeprefix("nogood:")):
            told = told_of(self.network, fact)
            if told is None:
                return None
            cell, values = told
            less[cell] = both(less.get(cell, MAY[self.network.kinds[cell]]), values)
        return self.wrong_premises(lines[1].removeprefix("because"), less=less)

    def wrong_plan(self, lines: list[str]) -> Optional[str]:
        """What is wrong with the lines of a plan."""
        network = self.network
        if len(lines) != len(network.kinds) + len(network.choices):
            return "the plan has too many lines or too few"
        points: dict[str, Point] = {}
        for line, (cell, kind) in zip(lines, network.kinds.items()):
            point = point_in(line, cell, kind)
            if point is None or not is_in(point, network.may(cell, self.believed)):
                return f"{line} is no point of {cell} that is believed"
            points[cell] = point
        for line, (name, (cell, sides)) in zip(lines[len(points) :], network.choices.items()):
            taken = [f"{name}={n}" for n, side in enumerate(sides, 1) if is_in(points[cell], side)]
            if line not in taken:
                return f"{line} doesn't say {cell} = {points[cell]}"
        for relation, cells in network.attached:
            if not relation.holds(tuple(points[it] for it in cells)):
                return f"the points of {relation.name} {' '.join(cells)} don't belong together"
        return None


# ---- what lines say


def point_in(line: str, cell: str, kind: str) -> Optional[Point]:
    """The point that a line has for a cell, None where it has none."""
    name, _, text = line.partition(" = ")
    if name != cell or text in OTHERS:
        return None
    if kind == "span":
        return int(text) if re.fullmatch(r"0|-?[1-9]\d*", text) else None
    word = OTHERS[0] if (text, kind) == ("nothing", "symbol") else text
    return word if is_in(word, MAY[kind]) else None


def told_of(network: Network, fact: str) -> Optional[tuple[str, Values]]:
    """The cell of a fact with what it leaves of it, None where the cell has no name."""
    found = re.fullmatch(r"(\S+?)(=|<=|>=|<>)(.*)", fact)
    assert found, fact
    name, sign, text = found.groups()
    if name in network.choices:
        cell, sides = network.choices[name]
        return cell, either([sides[int(number) - 1] for number in text.split("|")])
    if name not in network.kinds:
        return None
    if network.kinds[name] != "span":
        return name, frozenset(text.strip("{}").split())
    number = int(text.partition("..")[0])
    last = int(text.partition("..")[2] or number)
    less, more = (-BOUND, number), (number, BOUND)
    spans = {"<=": (less,), ">=": (more,), "=": ((number, last),)}
    return name, spans.get(sign, ((-BOUND, number - 1), (number + 1, BOUND)))


def facts_in(text: str) -> list[str]:
    """The facts of a line: a set of elements has spaces within its braces."""
    return re.findall(r"[^\s{]+\{[^}]*\}|\S+", text)


# ---- what is asked, and what may be told


@dataclass
class Question:
    """What is asked, and how it ended."""

    truth: Truth
    word: str
    cells: list[str]
    end: Optional[Reply] = None

    def line(self) -> str:
        return " ".join([self.word, *self.cells])

    def again(self) -> "Question":
        """The same, to which nothing was told."""
        return type(self)(self.truth, self.word, self.cells)

    def is_endless(self) -> bool:
        """Whether it isn't asked to the end."""
        return False

    def wrong(self, reply: Reply) -> Optional[str]:
        """What is wrong with the next reply, or None."""
        if self.end:
            return None if reply == self.after() else f"before it was {self.end}"
        if reply == ["unsettled"]:
            return None
        if reply[0].startswith("none:") and len(reply) == 1:
            return self.wrong_none(reply)
        return self.wrong_found(reply)

    def after(self) -> Optional[Reply]:
        """What has to be answered behind the end."""
        return self.end

    def wrong_none(self, reply: Reply) -> Optional[str]:
        """What is wrong with the reply that nothing fits."""
        self.end = reply
        if self.truth.boxes:
            return f"there is {self.truth.boxes[0]}"
        return self.truth.wrong_premises(reply[0].removeprefix("none:"))

    def wrong_found(self, reply: Reply) -> Optional[str]:
        """What is wrong with a reply that something fits."""
        self.end = reply
        return self.wrong_plan(reply, "")

    def wrong_plan(self, reply: Reply, mark: str) -> Optional[str]:
        if reply[0] != f"plan {len(reply) - 1}{mark}":
            return NO_REPLY
        return self.truth.wrong_plan(reply[1:])


@dataclass
class Best(Question):
    """A question for an end of a number, the first of the cells."""

    so_far: Optional[int] = None
    bound: Optional[int] = None

    def wrong_found(self, reply: Reply) -> Optional[str]:
        if reply[0].startswith("bound "):
            return self.wrong_bound(reply[:2]) or self.wrong_so_far(reply[2:])
        if reply[0].startswith("plan "):
            return self.wrong_so_far(reply)
        self.end = reply
        if len(reply) < 3 or not reply[1].startswith("because "):
            return NO_REPLY
        return self.wrong_plan(reply[2:], "") or self.wrong_best(reply)

    def wrong_so_far(self, reply: Reply) -> Optional[str]:
        """What is wrong with the best plan so far."""
        if not reply:
            return NO_REPLY
        return self.wrong_plan(reply, " unsettled") or self.wrong_step(reply[1:])

    def wrong_bound(self, reply: Reply) -> Optional[str]:
        """What is wrong with how good others are said to be at the best."""
        told = re.fullmatch(r"bound (0|-?[1-9]\d*)", reply[0])
        if not told or not reply[1:] or not reply[1].startswith("because "):
            return NO_REPLY
        before, now = self.bound, int(told[1])
        self.bound = now
        is_better = before is None or before == now or (now < before) == (self.word == "greatest")
        if not is_better:
            return f"before it was {before}"
        return self.wrong_end(now, reply[1])

    def wrong_end(self, end: int, because: str) -> Optional[str]:
        """What is wrong with the premises by which nothing is better than this end."""
        better = (end + 1, BOUND) if self.word == "greatest" else (-BOUND, end - 1)
        return self.truth.wrong_premises(
            because.removeprefix("because"), less={self.cells[0]: (better,)}
        )

    def number_in(self, lines: list[str]) -> Optional[Point]:
        """The number of the cell in a plan."""
        (line,) = (it for it in lines if it.startswith(f"{self.cells[0]} = "))
        return point_in(line, self.cells[0], "span")

    def wrong_step(self, lines: list[str]) -> Optional[str]:
        """What is wrong with the best so far."""
        before, now = self.so_far, self.number_in(lines)
        assert isinstance(now, int)
        self.so_far = now
        is_better = before is None or before == now or (now > before) == (self.word == "greatest")
        return None if is_better else f"before it was {before}"

    def wrong_best(self, reply: Reply) -> Optional[str]:
        """What is wrong with the end, where its plan is none."""
        is_greatest = self.word == "greatest"
        best = self.truth.best(self.cells[0], is_greatest)
        if best is None or reply[0] != f"{self.word} {best}" or self.number_in(reply[3:]) != best:
            return f"the best is {best}"
        return self.wrong_end(best, reply[1])


@dataclass
class Rows(Question):
    """A question for rows of points, so many at a time."""

    most: int = 1
    rows: set[Points] = field(default_factory=set)

    def line(self) -> str:
        return " ".join([self.word, str(self.most), *self.cells])

    def again(self) -> "Rows":
        return Rows(self.truth, self.word, self.cells, most=self.most)

    def is_endless(self) -> bool:
        return self.truth.rows(self.cells) is None

    def has(self, box: Box) -> bool:
        """Whether all rows of these points were told."""
        if any(count(box[cell]) > MOST_ROWS for cell in self.cells):
            return False
        return self.rows.issuperset(product(*(points_of(box[it]) for it in self.cells)))

    def after(self) -> Optional[Reply]:
        is_none = self.end is None or self.end[0].startswith("none:")
        return self.end if self.end is None or is_none else ["plans 0", self.end[-1]]

    def wrong_none(self, reply: Reply) -> Optional[str]:
        return "rows were told before" if self.rows else super().wrong_none(reply)

    def wrong_found(self, reply: Reply) -> Optional[str]:
        *lines, last = reply[1:] or [""]
        if reply[0] != f"plans {len(lines)}" or len(lines) > self.most:
            return NO_REPLY
        wrong = [it for it in map(self.wrong_row, lines) if it]
        if wrong:
            return wrong[0]
        if last == "others unknown":
            return None if lines else "there is no row in it"
        self.end = reply
        if not last.startswith("others none:"):
            return NO_REPLY
        missing = (self.truth.rows(self.cells) or self.rows) - self.rows
        if missing or not self.rows:
            return f"there is also {missing}"
        return self.truth.wrong_premises(last.removeprefix("others none:"), told=self)

    def wrong_row(self, line: str) -> Optional[str]:
        """What is wrong with a row, which now was told."""
        parts = re.findall(r"\S+ = \S+", line)
        kinds = [self.truth.network.kinds[cell] for cell in self.cells]
        points = [point_in(*it) for it in zip(parts, self.cells, kinds)]
        if " ".join(parts) != line or len(parts) != len(self.cells) or None in points:
            return f"{line} has not just the cells with a point each"
        row = tuple(it for it in points if it is not None)
        is_told, rows = row in self.rows, self.truth.rows(self.cells)
        self.rows.add(row)
        if is_told:
            return f"{line} {TWICE}"
        is_there = self.truth.is_row(self.cells, row) if rows is None else row in rows
        return None if is_there else f"no points have {line}"
