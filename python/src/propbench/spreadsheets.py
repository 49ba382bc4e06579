"""What stands in the cells of spreadsheets of LibreOffice (.ods) and of Excel (.xlsx), as it
stands.

They are read by Debian's python3-odf and python3-openpyxl, where these are installed.
"""

import io
import os
import warnings
from collections.abc import Callable, Iterable, Iterator
from dataclasses import dataclass
from importlib import import_module
from typing import Any

from propbench.showing import cut, printable

# A file has so many bytes at the most.
MOST_BYTES = 50_000_000
# The endings of files that are read.
ENDINGS = (".ods", ".xlsx")

Rows = Iterator[Iterable[object]]


class NoSheetReader(Exception):
    """What reads a sort of spreadsheet isn't installed."""


class SheetError(ValueError):
    """What stands in a sheet can't be taken; the text says where, and what would do."""


@dataclass(frozen=True)
class Limits:
    """So many rows and columns are read of a sheet, and one of each more, where there are any."""

    rows: int
    columns: int


def ending_of(path: str) -> str:
    """The ending of a file's name."""
    return os.path.splitext(path)[1].lower()


def tables_in(path: str, limits: Limits) -> list[tuple[str, list[list[object]]]]:
    """The tables of a file by name: their rows, and in each the texts, numbers and dates of cells.
    Raises OSError, SheetError for what is no such file, and NoSheetReader."""
    data = bytes_of(path)
    read = {".xlsx": _of_excel, ".ods": _of_libreoffice}[ending_of(path)]
    try:
        # (what is said of parts that aren't read, as of colours, is nothing to who reads a table)
        with warnings.catch_warnings():
            warnings.simplefilter("ignore")
            return [(name, [list(row) for row in rows]) for name, rows in read(path, data, limits)]
    except (SheetError, NoSheetReader):
        raise
    except Exception as error:  # (of several libraries, whatever the file may be)
        raise SheetError(
            f"{printable(path)} is no {ending_of(path)} file: {cut(str(error))}"
        ) from None


def bytes_of(path: str) -> bytes:
    """What a file holds. Raises OSError, and SheetError where that is too much."""
    with open(path, "rb") as file:
        data = file.read(MOST_BYTES + 1)
    if len(data) > MOST_BYTES:
        raise SheetError(f"{printable(path)}: more than {MOST_BYTES:,} bytes are no table")
    return data


def _of_excel(path: str, data: bytes, limits: Limits) -> Iterator[tuple[str, Rows]]:
    openpyxl = _module("openpyxl", "python3-openpyxl", path)
    # (a formula counts as what it came to when the file was saved)
    book = openpyxl.load_workbook(io.BytesIO(data), read_only=True, data_only=True)
    for sheet in book.worksheets:
        most = {"max_row": limits.rows + 1, "max_col": limits.columns + 1}
        yield sheet.title, sheet.iter_rows(**most, values_only=True)


def _of_libreoffice(path: str, data: bytes, limits: Limits) -> Iterator[tuple[str, Rows]]:
    load = _module("odf.opendocument", "python3-odf", path).load
    table = _module("odf.table", "python3-odf", path)
    for sheet in load(io.BytesIO(data)).spreadsheet.getElementsByType(table.Table):
        yield sheet.getAttribute("name"), _rows(sheet.getElementsByType(table.TableRow), limits)


def _rows(rows: Iterable[Any], limits: Limits) -> Rows:
    """The rows of a sheet, of which several that are alike stand once."""
    for row in rows:
        cells: list[object] = []
        for cell in row.childNodes:
            times = int(cell.getAttribute("numbercolumnsrepeated") or 1)
            value = _value(cell)
            # (behind the last one a row is filled up with empty cells)
            cells += [value] * min(times, limits.columns + 1)
        while cells and cells[-1] == "":
            cells.pop()
        times = int(row.getAttribute("numberrowsrepeated") or 1)
        yield from [cells] * min(times, limits.rows + 1)


def _value(cell: Any) -> object:
    kind = cell.getAttribute("valuetype")
    if kind == "date":
        return str(cell.getAttribute("datevalue")).partition("T")[0]
    if kind in ("float", "currency"):
        return float(cell.getAttribute("value"))
    text: Callable[[Any], str] = import_module("odf.teletype").extractText
    parts = [part for part in cell.childNodes if getattr(part, "qname", ("", ""))[1] == "p"]
    return "\n".join(map(text, parts))


def _module(name: str, package: str, path: str) -> Any:
    try:
        return import_module(name)
    except ImportError:
        raise NoSheetReader(
            f"{printable(path)} can't be read: install Debian's {package}, or save it as .csv"
        ) from None
