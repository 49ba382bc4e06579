"""Tables of readings as they come: a file of comma-separated values, a sheet of LibreOffice or
Excel, rows, or a frame of pandas.

Each becomes rows of cells under the columns that are known, with the number that a person finds the
row by. What is wrong with a table is told by row and column, all of it at once.
"""

import csv
import os
from collections.abc import Iterable, Mapping, Sequence
from dataclasses import dataclass
from datetime import datetime
from enum import Enum
from typing import Any

from propbench.measuring.exact import is_number, short
from propbench.nearby import near_names
from propbench.showing import printable
from propbench.spreadsheets import ENDINGS, Limits, ending_of, tables_in

# A table has so many rows at the most, and so many of its problems are told.
MOST_ROWS = 50_000
_TOLD, _MOST_COLUMNS = 10, 200


class Column(Enum):
    """A column of a table of readings."""

    QUANTITY = "quantity"
    VALUE = "value"
    UNIT = "unit"
    UNCERTAINTY = "uncertainty"
    PREMISE = "premise"
    DEVICE = "device"
    TAKEN_AT = "taken at"
    NOTE = "note"


_NEEDED = (Column.QUANTITY, Column.VALUE)
_NAMES = {column.value: column for column in Column}


@dataclass(frozen=True)
class Problem:
    """What is wrong with a table, where, and what would do."""

    row: int
    column: str
    says: str

    def __str__(self) -> str:
        place = f"row {self.row:,}"
        return (
            f"{place}, column `{printable(self.column)}`: {self.says}"
            if self.column
            else (f"{place}: {self.says}")
        )


class BadTable(ValueError):
    """A table of readings can't be read: `problems` has what is wrong, row by row. Nothing of it
    was stated."""

    def __init__(self, problems: Sequence[Problem]) -> None:
        self.problems = tuple(problems)
        lines = [str(each) for each in self.problems[:_TOLD]]
        if len(self.problems) > _TOLD:
            lines.append(f"({len(self.problems) - _TOLD:,} problems more)")
        super().__init__("\n".join([*lines, "Nothing of the table was stated."]))


@dataclass(frozen=True)
class SheetRow:
    """The cells of a row: texts, or numbers that a program gave; none for empty ones."""

    number: int
    cells: Mapping[Column, object]

    def text(self, column: Column) -> str:
        """A cell as text, "" where it is empty."""
        return str(self.cells.get(column, ""))

    def problem(self, column: Column | None, says: str) -> Problem:
        """What is wrong with a cell of it, or with all of it."""
        return Problem(self.number, column.value if column else "", says)


@dataclass(frozen=True)
class ReadingSheet:
    """The rows of a table, and what is wrong with others."""

    rows: Sequence[SheetRow]
    problems: Sequence[Problem]


@dataclass(frozen=True)
class Head:
    """Which column stands where, and how many cells a row has at the most: those behind the columns
    are empty."""

    columns: tuple[Column, ...]
    width: int

    @staticmethod
    def of(names: Sequence[object]) -> "Head":
        """That of names as they stand in a head. Raises BadTable."""
        named = list(names)
        while named and _cell(named[-1]) == "":
            named.pop()
        problems, columns = [], []
        for name in named:
            written = " ".join(str(name).replace("_", " ").lower().split())
            column = _NAMES.get(written)
            if column is None:
                problems.append(Problem(1, str(name), _no_column(written)))
            elif column in columns:
                problems.append(Problem(1, str(name), "there are two of this name"))
            else:
                columns.append(column)
        for needed in _NEEDED:
            if needed not in columns and not problems:
                said = f"no column is called so, and each reading needs it; there are {_known()}"
                problems.append(Problem(1, needed.value, said))
        if problems:
            raise BadTable(problems)
        return Head(tuple(columns), len(names))

    def has_room_for(self, cells: Sequence[object]) -> bool:
        """Whether a row has no cells that stand under no column."""
        return len(cells) <= self.width and all(it == "" for it in cells[len(self.columns) :])


def _no_column(written: str) -> str:
    if not written:
        return "a column has no name"
    near = near_names(written, _NAMES)
    hint = f"did you mean `{near[0]}`?" if near else f"there are {_known()}"
    return f"no column of readings is called so: {hint} (what is no reading goes under `note`)"


def _known() -> str:
    return ", ".join(f"`{name}`" for name in _NAMES)


def rows_of_file(path: str | os.PathLike[str], decimal: str = ".") -> ReadingSheet:
    """The rows of a file of values with commas, semicolons or tabs between, or of the first table
    of a spreadsheet; the head is row 1. Raises BadTable, OSError, NoSheetReader, and ValueError
    where it is no such file."""
    lines: Sequence[Sequence[object]]
    if ending_of(os.fspath(path)) in ENDINGS:
        lines = _lines_of_sheet(os.fspath(path))
    else:
        lines, _ = lines_of_file(path)
    if not lines:
        raise BadTable([Problem(1, "", f"the table is empty: its head has {_known()}")])
    head = Head.of(lines[0])
    return _rows(head, enumerate(lines[1:], 2), decimal)


def _lines_of_sheet(path: str) -> list[list[object]]:
    """The cells of each line of a spreadsheet's first table, without the empty ones behind them."""
    tables = tables_in(path, Limits(MOST_ROWS + 1, _MOST_COLUMNS))
    lines = tables[0][1] if tables else []
    for line in lines:
        while line and line[-1] in (None, ""):
            line.pop()
    return lines


def lines_of_file(path: str | os.PathLike[str]) -> tuple[list[list[str]], str]:
    """The cells of each line of a file, and what stands between cells. Raises as `rows_of_file`."""
    with open(path, encoding="utf-8-sig", newline="") as file:
        try:
            text = file.read()
        except UnicodeDecodeError as error:
            shown = printable(os.fspath(path))
            said = f"from byte {error.start + 1:,} on: save it as that"
            raise ValueError(f"{shown}: this is no text in UTF-8, {said}") from None
    first, _, _ = text.partition("\n")
    between = max(";\t,", key=first.count)
    try:
        lines = csv.reader(text.splitlines(keepends=True), delimiter=between, strict=True)
        return list(lines), between
    except csv.Error as error:
        raise BadTable([Problem(1, "", f"this is no table: {error}")]) from None


def rows_of(table: object, decimal: str = ".") -> ReadingSheet:
    """The rows of what a program has: dicts, or lists below one with the names of the columns, or a
    frame of pandas. The first one is row 1, and a list of names has none. Raises BadTable, and
    TypeError for what is no table."""
    if hasattr(table, "columns") and hasattr(table, "itertuples"):
        # (pandas may be missing where types are checked)
        frame: Any = table
        return _rows(
            Head.of(list(frame.columns)), enumerate(frame.itertuples(index=False), 1), decimal
        )
    if isinstance(table, str | Mapping) or not isinstance(table, Iterable):
        raise TypeError(
            "a table is a list of rows, or a frame of pandas; `w.read_csv` reads a file"
        )
    given = list(table)
    if not given:
        return ReadingSheet((), ())
    if all(isinstance(row, Mapping) for row in given):
        names = dict.fromkeys(str(name) for row in given for name in row)
        head = Head.of(list(names))
        cells = ([row.get(name, "") for name in names] for row in given)
        return _rows(head, enumerate(cells, 1), decimal)
    if not all(isinstance(row, Sequence) and not isinstance(row, str) for row in given):
        raise TypeError("the rows of a table are dicts, or lists below a list of column names")
    return _rows(Head.of(given[0]), enumerate(given[1:], 1), decimal)


def _rows(head: Head, lines: Iterable[tuple[int, Sequence[object]]], decimal: str) -> ReadingSheet:
    """The rows that are not blank. Raises BadTable for a table that is too long."""
    rows: list[SheetRow] = []
    problems: list[Problem] = []
    for number, line in lines:
        cells = [_cell(each) for each in line]
        if all(each == "" for each in cells):
            continue
        if len(rows) == MOST_ROWS:
            said = f"a table has {MOST_ROWS:,} rows at the most: read it in parts, or means of some"
            raise BadTable([Problem(number, "", said)])
        row = SheetRow(number, {it: cell for it, cell in zip(head.columns, cells) if cell != ""})
        if not head.has_room_for(cells):
            wrong = [row.problem(None, _too_many(len(cells), len(head.columns)))]
        else:
            wrong = [row.problem(each, _EMPTY) for each in _NEEDED if each not in row.cells]
        if decimal == ",":
            row = _with_points(row, wrong)
        problems += wrong
        if not wrong:
            rows.append(row)
    return ReadingSheet(rows, problems)


def _cell(given: object) -> object:
    """A cell without spaces around it; a number that is none, as pandas has it, is empty."""
    if _is_missing(given):
        return ""
    if isinstance(given, str):
        return given.strip()
    if isinstance(given, float) and given.is_integer() and abs(given) < 1e15:
        return int(given)
    if isinstance(given, datetime) and not (given.hour or given.minute or given.second):
        return given.date().isoformat()
    return given if is_number(given) else str(given).strip()


def _is_missing(given: object) -> bool:
    """Whether a cell has nothing: None, a number or a time that is none, or what stands for nothing
    in pandas, which is neither itself nor another."""
    try:
        return given is None or bool(given != given)
    except TypeError:
        return True


_EMPTY = "the cell is empty: fill it in, or leave out the row"


def _too_many(count: int, wanted: int) -> str:
    return (
        f"it has {count} cells, and the head {wanted}: where a comma stands within a number, write "
        'a point, or put semicolons between the cells and read it with `decimal=","`'
    )


def _with_points(row: SheetRow, problems: list[Problem]) -> SheetRow:
    """A row whose numbers are written with commas, with points."""
    cells = dict(row.cells)
    for column in (Column.VALUE, Column.UNCERTAINTY):
        written = cells.get(column)
        if not isinstance(written, str):
            continue
        if "." in written.replace("..", ""):
            said = f"{short(written)!r} has a point, and numbers are to have commas (`decimal`)"
            if "," in written:
                said = f"{short(written)!r}: leave out what stands between thousands"
            problems.append(row.problem(column, said))
        cells[column] = written.replace(",", ".")
    return SheetRow(row.number, cells)
