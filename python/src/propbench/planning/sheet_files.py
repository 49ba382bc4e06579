"""Tables as files of spreadsheets: .csv of one table, .ods and .xlsx of several.

The last two are written by Debian's python3-odf and python3-openpyxl, where these are installed.
"""

import csv
import io
import re
from collections.abc import Sequence
from importlib import import_module
from typing import Any

from propbench.outputs import no_formula
from propbench.planning.sheets import Sheet, SheetError
from propbench.showing import printable
from propbench.spreadsheets import ENDINGS, NoSheetReader, ending_of

# What stands in a cell as a number, so that a spreadsheet counts with it.
_NUMBER = re.compile(r"\d{1,9}", re.ASCII)


def written(sheets: Sequence[Sheet], path: str) -> bytes:
    """The bytes of a file of this name with these tables. Raises SheetError for another ending, and
    where a .csv file would have several tables, and NoSheetReader."""
    ending = ending_of(path)
    if ending == ".csv":
        if len(sheets) > 1:
            raise SheetError(
                f"{printable(path)}: a .csv file has one table, and this plan has more: save it as"
                " .ods or .xlsx"
            )
        return _csv(sheets)
    if ending not in ENDINGS:
        raise SheetError(f"{printable(path)}: a plan is saved as .ods, .xlsx or .csv")
    return _excel(sheets, path) if ending == ".xlsx" else _libreoffice(sheets, path)


def _csv(sheets: Sequence[Sheet]) -> bytes:
    out = io.StringIO()
    rows = csv.writer(out, lineterminator="\r\n")
    for sheet in sheets:
        rows.writerows([no_formula(text) for text in row] for _, row in sheet.rows)
    return out.getvalue().encode("utf-8", "surrogateescape")


def _excel(sheets: Sequence[Sheet], path: str) -> bytes:
    openpyxl = _module("openpyxl", "python3-openpyxl", path)
    book = openpyxl.Workbook()
    book.remove(book.active)
    for sheet in sheets:
        page = book.create_sheet(sheet.name[:31])
        for number, (_, row) in enumerate(sheet.rows, 1):
            for place, text in enumerate(row, 1):
                if text:
                    cell = page.cell(number, place)
                    cell.value = int(text) if _NUMBER.fullmatch(text) else printable(text)
                    # (a text that begins with `=` is no formula)
                    cell.data_type = "n" if _NUMBER.fullmatch(text) else "s"
    if not sheets:
        book.create_sheet("tasks")
    out = io.BytesIO()
    book.save(out)
    return out.getvalue()


def _libreoffice(sheets: Sequence[Sheet], path: str) -> bytes:
    document = _module("odf.opendocument", "python3-odf", path).OpenDocumentSpreadsheet()
    table = _module("odf.table", "python3-odf", path)
    paragraph = _module("odf.text", "python3-odf", path).P
    for sheet in sheets:
        page = table.Table(name=sheet.name)
        for _, texts in sheet.rows:
            row = table.TableRow()
            for text in texts:
                is_number = _NUMBER.fullmatch(text)
                told = {"valuetype": "float", "value": text} if is_number else {}
                cell = table.TableCell(**(told or ({"valuetype": "string"} if text else {})))
                if text:
                    cell.addElement(paragraph(text=printable(text)))
                row.addElement(cell)
            page.addElement(row)
        document.spreadsheet.addElement(page)
    out = io.BytesIO()
    document.write(out)
    return out.getvalue()


def _module(name: str, package: str, path: str) -> Any:
    try:
        return import_module(name)
    except ImportError:
        raise NoSheetReader(
            f"{printable(path)} can't be written: install Debian's {package}"
        ) from None
