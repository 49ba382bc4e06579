"""What follows for quantities, as a table that can be written down."""

import csv
import io
import os
from collections.abc import Iterable, Sequence
from dataclasses import dataclass
from decimal import Decimal
from html import escape

from propbench.files import write_file
from propbench.given import path_given
from propbench.laboratory.rounding import Rounded, rounded_of
from propbench.measuring.quantities import MeasuredAnswer
from propbench.model.measures import Interval
from propbench.model.tabling import Table
from propbench.questions.shown import Shown
from propbench.showing import printable

_HEADS = ("quantity", "value", "half width", "unit", "low", "high", "because of")


@dataclass(frozen=True)
class Result:
    """What follows for a quantity: the interval in which it lies, and the same as a value and a
    half width, rounded outward; None where nothing is known."""

    name: str
    interval: Interval | None
    rounded: Rounded | None
    because: tuple[str, ...]
    settled: bool


class Results(Shown, list[Result]):
    """What follows for quantities, one a row: value and half width as a certificate of calibration
    writes them, and the ends, which hold all of it."""

    _certificate = None

    def __init__(self, found: Iterable[Result], notes: Sequence[str] = ()) -> None:
        super().__init__(found)
        self.notes = tuple(notes)
        self.complete = all(each.settled for each in self)

    def headline(self) -> str:
        is_cut = "" if self.complete else "; the time was over, and they may become narrower"
        return f"Each quantity lies within the half width around its value: bounds{is_cut}."

    def __str__(self) -> str:
        return "\n".join([super().__str__(), *map(printable, self.notes)])

    def _repr_html_(self) -> str:
        notes = "".join(f"<p>{escape(printable(note))}</p>" for note in self.notes)
        return super()._repr_html_() + notes

    def heads(self) -> Sequence[str]:
        return _HEADS

    def rows(self) -> Sequence[Sequence[object]]:
        return [_row(values) for values in self._values()]

    def _values(self) -> Sequence[Sequence[object]]:
        return [_values_of(each) for each in self]

    def to_csv(self, path: str | os.PathLike[str] | None = None) -> str:
        """The table as comma-separated values, written to a file where one is named. A text that a
        sheet would take for a formula has a `'` in front. Raises OSError."""
        text = io.StringIO()
        write = csv.writer(text, lineterminator="\n")
        write.writerow(self.heads())
        write.writerows([[_in_sheet(each) for each in row] for row in self.rows()])
        if path is not None:
            write_file(path_given(path), text.getvalue())
        return text.getvalue()

    def to_html(self) -> str:
        """The table in HTML, as a notebook shows it."""
        return self._repr_html_()


def _values_of(each: Result) -> Sequence[object]:
    """A result in the columns of the table: exact decimals, None where nothing is known."""
    because = ", ".join(each.because) or "what holds always"
    if each.interval is None or each.rounded is None:
        return (each.name, None, None, None, None, None, because)
    rounded, interval = each.rounded, each.interval
    numbers = rounded.value, rounded.half, rounded.unit, interval.low, interval.high
    return (each.name, *numbers, because)


def _row(values: Sequence[object]) -> Sequence[object]:
    """The same as texts."""
    name, value, *others, because = values
    if value is None:
        return (name, "not known", "", "", "", "", because)
    written = [f"{it:f}" if isinstance(it, Decimal) else it for it in (value, *others)]
    return (name, *written, because)


def _in_sheet(value: object) -> str:
    """A cell of a sheet, which is no formula."""
    text = str(value)
    is_formula = text[:1] in ("=", "@", "\t", "\r") or text[:1] in "+-" and not _is_number(text)
    return f"'{text}" if text and is_formula else text


def _is_number(text: str) -> bool:
    try:
        float(text)
    except ValueError:
        return False
    return True


def results_of(table: Table) -> Results:
    """The answers of a table as results."""
    found = []
    for answer in table.answers:
        assert isinstance(answer, MeasuredAnswer)
        interval = answer.value if isinstance(answer.value, Interval) else None
        shown = None if interval is None else rounded_of(interval)
        found.append(Result(answer.name, interval, shown, answer.because, answer.settled))
    return Results(found, table.notes)
