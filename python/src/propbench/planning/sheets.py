"""Tables of a spreadsheet as texts, each with its place: of CSV files, of LibreOffice and of Excel.

The last two are read by `spreadsheets`.
"""

import csv
import io
import os
from collections.abc import Iterable
from dataclasses import dataclass
from datetime import date, datetime
from pathlib import Path

from propbench.showing import printable
from propbench.spreadsheets import ENDINGS, Limits, bytes_of, ending_of, tables_in
from propbench.spreadsheets import NoSheetReader as NoSheetReader
from propbench.spreadsheets import SheetError as SheetError

# More of a sheet than this is no plan that somebody wrote.
MOST_ROWS, MOST_COLUMNS = 20_000, 200


@dataclass(frozen=True)
class Sheet:
    """A table: its name, and its rows of texts by their numbers, the empty ones left out."""

    name: str
    rows: tuple[tuple[int, tuple[str, ...]], ...]


@dataclass(frozen=True)
class Field:
    """A text in a sheet, and where it stands."""

    text: str
    sheet: str
    row: int
    column: str

    def wrong(self, says: str) -> "FieldError":
        """That it can't be taken, and what would do."""
        return FieldError(self, says)


class FieldError(SheetError):
    """What stands in a field can't be taken: `says` is why."""

    def __init__(self, field: Field, says: str) -> None:
        where = f"{printable(field.sheet)}, row {field.row}, column {printable(field.column)}"
        super().__init__(f"{where}: {says}")
        self.field, self.says = field, says


# --- files ---


def sheets_of(path: str) -> list[Sheet]:
    """The tables of a file, or of all CSV files in a folder. Raises OSError, SheetError for what is
    no table, and NoSheetReader."""
    if os.path.isdir(path):
        found = sorted(each for each in Path(path).iterdir() if each.suffix.lower() == ".csv")
        if not found:
            raise SheetError(f"{printable(path)}: there is no .csv file in this folder")
        return [_csv_sheet(str(each)) for each in found]
    ending = ending_of(path)
    if ending == ".csv":
        return [_csv_sheet(path)]
    if ending not in ENDINGS:
        raise SheetError(f"{printable(path)}: a plan is a folder, or a file .csv, .ods or .xlsx")
    return [_sheet(name, rows) for name, rows in tables_in(path, Limits(MOST_ROWS, MOST_COLUMNS))]


def _csv_sheet(path: str) -> Sheet:
    """The table of a CSV file, with commas, semicolons or tabs."""
    text = bytes_of(path).decode("utf-8-sig")
    head = text.split("\n", 1)[0]
    comma = max((",", ";", "\t"), key=head.count)
    try:
        rows = list(csv.reader(io.StringIO(text, newline=""), delimiter=comma, strict=True))
    except csv.Error as error:
        raise SheetError(f"{printable(path)} is no table: {error}") from None
    return _sheet(os.path.splitext(os.path.basename(path))[0], rows)


def _sheet(name: str, rows: Iterable[Iterable[object]]) -> Sheet:
    """A sheet of what its cells hold."""
    texts: list[tuple[int, tuple[str, ...]]] = []
    for number, row in enumerate(rows, 1):
        cells = tuple(_text(each) for each in row)
        if any(cells if number > MOST_ROWS else cells[MOST_COLUMNS:]):
            limit = f"{MOST_ROWS:,} rows and {MOST_COLUMNS} columns"
            raise SheetError(f"{printable(name)} is too large: a plan has at most {limit}")
        if any(cells):
            texts.append((number, cells))
    return Sheet(name, tuple(texts))


def _text(value: object) -> str:
    """What a cell holds, as one would write it: dates as 2026-03-03, whole numbers without a
    point."""
    if value is None:
        return ""
    if isinstance(value, datetime):
        value = value.date() if (value.hour, value.minute, value.second) == (0, 0, 0) else value
    if isinstance(value, date):
        return value.isoformat()
    if isinstance(value, float) and value.is_integer() and abs(value) < 1e15:
        return str(int(value))
    return str(value).strip()
