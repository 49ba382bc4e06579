"""A trade-off as a picture and as a table: points from the best of one cell to that of another, and
the steps between them, below which nothing fits."""

import csv
import io
from collections.abc import Callable, Iterable, Iterator, Sequence
from dataclasses import dataclass
from html import escape

from propbench.outputs import no_formula
from propbench.questions.shown import said
from propbench.showing import printable

# Sizes, in pixels: of the picture, and around what is drawn.
_WIDE, _HIGH, _LEFT, _RIGHT, _TOP, _BELOW = 640, 400, 84, 130, 24, 52
_INK, _LINE, _EMPTY, _FITS = "#1d2733", "#3366aa", "#f3f4f6", "#e3edf8"
# What is said in a corner is so wide.
_SAID = 120
# So many marks stand on an axis at the most, and so many letters beside a point.
_MARKS, _LETTERS = 6, 22


def csv_of(heads: Sequence[str], rows: Iterable[Sequence[object]]) -> str:
    """A table for a spreadsheet. An apostrophe stands before a text that looks like a formula."""
    out = io.StringIO()
    table = csv.writer(out, lineterminator="\r\n")
    table.writerow([no_formula(head) for head in heads])
    table.writerows([[_plain(value) for value in row] for row in rows])
    return out.getvalue()


def _plain(value: object) -> object:
    is_number = isinstance(value, int) and not isinstance(value, bool)
    return value if is_number else no_formula(said(value))


@dataclass(frozen=True)
class Axis:
    """Where numbers stand between two places of a picture."""

    low: int
    high: int
    begin: int
    end: int

    @staticmethod
    def of(numbers: Sequence[int], begin: int, end: int) -> "Axis":
        """That of some numbers, with room around them."""
        low, high = min(numbers), max(numbers)
        room = max(1, (high - low) // 8)
        return Axis(low - room if low < 0 or low > room else min(low, 0), high + room, begin, end)

    def place(self, number: int) -> float:
        """The place of a number."""
        part = (number - self.low) / (self.high - self.low)
        return round(self.begin + part * (self.end - self.begin), 1)

    def marks(self) -> Iterator[int]:
        """Round numbers on it, a few."""
        span = self.high - self.low
        sizes = (10**power * times for power in range(20) for times in (1, 2, 5))
        size = next(each for each in sizes if span // each <= _MARKS)
        yield from range(-(-self.low // size) * size, self.high + 1, size)


@dataclass(frozen=True)
class Staircase:
    """The pairs of two cells, by the first, with what is said of each. Nothing fits below them;
    where not all were found, that is known up to a number of the first cell alone, the `edge`."""

    cells: tuple[str, str]
    pairs: Sequence[tuple[int, int]]
    says: Sequence[str]
    edge: int | None = None

    def svg(self) -> str:
        """The picture."""
        pairs = self.pairs or [(0, 0)]
        across = Axis.of([pair[0] for pair in pairs], _LEFT, _WIDE - _RIGHT)
        up = Axis.of([pair[1] for pair in pairs], _HIGH - _BELOW, _TOP)
        title = escape(printable(f"{self.cells[0]} against {self.cells[1]}"))
        parts = [
            f'<svg xmlns="http://www.w3.org/2000/svg" width="{_WIDE}" height="{_HIGH}" '
            f'viewBox="0 0 {_WIDE} {_HIGH}" role="img" aria-label="{title}" '
            f'font-family="sans-serif" font-size="12" fill="{_INK}">',
            f'<rect width="{_WIDE}" height="{_HIGH}" fill="#ffffff"/>',
            *self._ground(across, up),
            *self._axes(across, up),
            *(self._points(across, up) if self.pairs else ()),
            "</svg>\n",
        ]
        return "\n".join(parts)

    def _ground(self, across: Axis, up: Axis) -> Iterator[str]:
        """What is known to be empty, and above the steps what fits."""
        wide, high = _WIDE - _RIGHT - _LEFT, _HIGH - _BELOW - _TOP
        right = _WIDE - _RIGHT
        known = right if self.edge is None else across.place(max(self.edge, across.low))
        width = round(known - _LEFT, 1)
        yield f'<rect x="{_LEFT}" y="{_TOP}" width="{wide}" height="{high}" fill="#ffffff"/>'
        yield f'<rect x="{_LEFT}" y="{_TOP}" width="{width}" height="{high}" fill="{_EMPTY}"/>'
        if self.pairs:
            steps = " ".join(self._steps(across, up, right))
            yield f'<path d="{steps} L {right} {_TOP} Z" fill="{_FITS}"/>'
            yield f'<path d="{steps}" fill="none" stroke="{_LINE}" stroke-width="1.5"/>'
        if self.edge is not None:
            x, y = _WIDE - _RIGHT - 6, _HIGH - _BELOW - 8
            yield f'<text x="{x}" y="{y}" text-anchor="end" fill="#666">not searched</text>'
        if width > _SAID and all(map(self._is_beside(across, up), self.pairs)):
            x, y = _LEFT + 6, _HIGH - _BELOW - 8
            yield f'<text x="{x}" y="{y}" fill="#666">nothing fits here</text>'

    def _is_beside(self, across: Axis, up: Axis) -> Callable[[tuple[int, int]], bool]:
        """Whether a point leaves room for what is said in the corner."""
        wide, high = _LEFT + _SAID, _HIGH - _BELOW - 30
        return lambda pair: across.place(pair[0]) > wide or up.place(pair[1]) < high

    def _steps(self, across: Axis, up: Axis, right: int) -> Iterator[str]:
        """The line from the top along the points to the right."""
        first = self.pairs[0]
        yield f"M {across.place(first[0])} {_TOP} L {across.place(first[0])} {up.place(first[1])}"
        for before, now in zip(self.pairs, self.pairs[1:]):
            x, y = across.place(now[0]), up.place(before[1])
            yield f"L {x} {y} L {x} {up.place(now[1])}"
        yield f"L {right} {up.place(self.pairs[-1][1])}"

    def _axes(self, across: Axis, up: Axis) -> Iterator[str]:
        below, right = _HIGH - _BELOW, _WIDE - _RIGHT
        yield f'<path d="M {_LEFT} {_TOP} V {below} H {right}" fill="none" stroke="{_INK}"/>'
        for mark in across.marks():
            x = across.place(mark)
            yield f'<path d="M {x} {below} v 4" stroke="{_INK}"/>'
            yield f'<text x="{x}" y="{below + 17}" text-anchor="middle">{mark}</text>'
        for mark in up.marks():
            y = up.place(mark)
            yield f'<path d="M {_LEFT} {y} h -4" stroke="{_INK}"/>'
            yield f'<text x="{_LEFT - 8}" y="{y + 4}" text-anchor="end">{mark}</text>'
        first, second = (escape(_cut(printable(cell))) for cell in self.cells)
        middle = (_LEFT + right) // 2
        bold = 'text-anchor="middle" font-weight="bold"'
        yield f'<text x="{middle}" y="{_HIGH - 14}" {bold}>{first}</text>'
        yield f'<text x="{_LEFT}" y="{_TOP - 9}" {bold}>{second}</text>'

    def _points(self, across: Axis, up: Axis) -> Iterator[str]:
        for pair, says in zip(self.pairs, self.says):
            x, y = across.place(pair[0]), up.place(pair[1])
            told = f"{self.cells[0]} {pair[0]}, {self.cells[1]} {pair[1]}"
            title = escape(printable(f"{told}: {says}" if says else told))
            label = escape(_cut(says or f"{pair[0]}, {pair[1]}"))
            dot = f'<circle cx="{x}" cy="{y}" r="4.5" fill="{_LINE}">'
            yield f"{dot}<title>{title}</title></circle>"
            yield f'<text x="{round(x + 8, 1)}" y="{round(y - 7, 1)}">{label}</text>'


def _cut(text: str) -> str:
    return text if len(text) <= _LETTERS else f"{text[: _LETTERS - 1]}\u2026"
