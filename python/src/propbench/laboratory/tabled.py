"""Rows of a table as readings of quantities, each under its premise: all of them, or none."""

from collections.abc import Iterable, Mapping
from dataclasses import dataclass, replace
from typing import TypeVar

from propbench.laboratory.sheets import BadTable, Column, Problem, SheetRow, ReadingSheet
from propbench.measuring.devices import Device
from propbench.measuring.exact import Exact, is_number, number_in, short
from propbench.measuring.quantities import Quantity
from propbench.measuring.readings import Reading, reading_of
from propbench.nearby import near_names
from propbench.showing import quoted

_Found = TypeVar("_Found", Quantity, Device)
# So many readings can each be given up by itself: questions have premises of their own beside them.
MOST_ALONE = 2_000
# The columns by which readings may stand or fall together.
_TOGETHER = {
    column.value: column
    for column in (Column.QUANTITY, Column.PREMISE, Column.DEVICE, Column.TAKEN_AT)
}


@dataclass(frozen=True)
class KnownNames:
    """What there is of a workbench: quantities, devices, the names that premises have, and which
    quantities each has readings of."""

    quantities: Mapping[str, Quantity]
    devices: Mapping[str, Device]
    premises: Mapping[str, frozenset[str]]
    choices: Iterable[str]


@dataclass(frozen=True)
class TableReading:
    """A reading of a table: what it is under, of what, by what device, and what it says."""

    premise: str
    quantity: Quantity
    reading: Reading
    device: Device | None


def together_of(under: str | None) -> Column | None:
    """The column whose readings stand or fall together, None where each stands by itself."""
    if under is None or under in _TOGETHER:
        return None if under is None else _TOGETHER[under]
    raise ValueError(
        f"readings are together under={', '.join(map(repr, _TOGETHER))}, or each alone"
    )


def readings_in(
    sheet: ReadingSheet, known: KnownNames, together: Column | None, coverage: Exact
) -> list[TableReading]:
    """The readings of a table. Raises BadTable, which tells all that is wrong with it."""
    naming = _Naming(known, together)
    found, problems = [], list(sheet.problems)
    for row in sheet.rows:
        try:
            found.append(_reading(row, known, naming, coverage))
        except _Wrong as wrong:
            problems.append(wrong.problem)
    if problems:
        raise BadTable(sorted(problems, key=lambda each: each.row))
    return found


class _Wrong(Exception):
    """What is wrong with a row."""

    def __init__(self, problem: Problem) -> None:
        super().__init__(str(problem))
        self.problem = problem


def _reading(row: SheetRow, known: KnownNames, naming: "_Naming", coverage: Exact) -> TableReading:
    quantity = _named(row, Column.QUANTITY, known.quantities)
    device = None
    if Column.DEVICE in row.cells:
        device = _named(row, Column.DEVICE, known.devices)
    reading = _read(row, quantity, coverage)
    when = row.text(Column.TAKEN_AT)
    if when:
        reading = replace(reading, written=f"{reading.written}, taken at {when}")
    return TableReading(naming.premise(row, quantity.name), quantity, reading, device)


def _named(row: SheetRow, column: Column, known: Mapping[str, _Found]) -> _Found:
    """What a cell names."""
    name = row.text(column)
    if name in known:
        return known[name]
    near = near_names(name, known)
    hint = f": did you mean {quoted(near[0])}?" if near else ""
    if not near:
        made = "measured(..)" if column is Column.QUANTITY else "device(..)"
        hint = f"; there is {_some(known)}: make it by `w.{made}`"
    raise _Wrong(row.problem(column, f"no {column.value} is called {quoted(name)}{hint}"))


def _some(known: Mapping[str, object]) -> str:
    names = [quoted(name) for name in list(known)[:6]]
    return ", ".join([*names, *([".."] if len(known) > 6 else [])]) or "none yet"


def _read(row: SheetRow, quantity: Quantity, coverage: Exact) -> Reading:
    """What the cells of value, unit and uncertainty say together."""
    value, unit, off = (
        row.cells.get(column, "") for column in (Column.VALUE, Column.UNIT, Column.UNCERTAINTY)
    )
    if off == "" and not isinstance(value, str) and is_number(value):
        said = "a number doesn't say how exact it is: fill in `uncertainty` (0 where it is exact)"
        raise _Wrong(row.problem(Column.VALUE, f"{value} as {said}, or give the value as a text"))
    if unit == "" and any(letter.isalpha() for letter in str(off)) and _is_plain(value):
        # (else a unit of the uncertainty would be taken for that of both)
        unit = "" if quantity.unit.text == "1" else quantity.unit.text
    text = f"{value} {unit}".strip()
    if off != "":
        sign = "" if str(off).startswith(("u=", "U=", "s=", "+-", "±", "+/-")) else "+- "
        text = f"{text} {sign}{off}"
    try:
        return reading_of(text, quantity.unit, coverage)
    except ValueError as error:
        raise _Wrong(row.problem(_at_fault(row, quantity), _told(row, quantity, error))) from None


def _is_plain(value: object) -> bool:
    """Whether a value is a number without a unit."""
    try:
        number_in(str(value))
    except ValueError:
        return False
    return True


def _at_fault(row: SheetRow, quantity: Quantity) -> Column:
    """In which of the cells an error lies: the first that is wrong by itself."""
    if _has_two_units(row, quantity):
        return Column.UNIT
    alone = {Column.UNIT: f"1 {row.text(Column.UNIT)}", Column.VALUE: row.text(Column.VALUE)}
    for column, text in alone.items():
        if column in row.cells and not _is_reading(text, quantity):
            return column
    return Column.UNCERTAINTY if Column.UNCERTAINTY in row.cells else Column.VALUE


def _is_reading(text: str, quantity: Quantity) -> bool:
    try:
        reading_of(text, quantity.unit)
    except ValueError:
        return False
    return True


def _has_two_units(row: SheetRow, quantity: Quantity) -> bool:
    """Whether a value has its unit with it, and another stands in its column."""
    if Column.UNIT not in row.cells or not isinstance(row.cells[Column.VALUE], str):
        return False
    if not _is_reading(row.text(Column.VALUE), quantity):
        return False
    return any(letter.isalpha() for letter in row.text(Column.VALUE).replace("e", ""))


def _told(row: SheetRow, quantity: Quantity, error: ValueError) -> str:
    """An error as a table tells it: what would do where a comma is meant, or a unit stands
    twice."""
    if _has_two_units(row, quantity):
        return "the value has its unit with it: leave this cell empty"
    column = _at_fault(row, quantity)
    written = row.text(column)
    if "," in written and "." in written:
        return f"{short(written)!r}: leave out what stands between thousands"
    if "," in written:
        return f'{short(written)!r}: write a point, or read it with `decimal=","`'
    if column is Column.UNIT:
        return f"{error}; `{quantity.name}` is in {quantity.unit.text}: write a unit of that sort"
    return str(error)


class _Naming:
    """Under which premise each reading of a table is stated."""

    def __init__(self, known: KnownNames, together: Column | None) -> None:
        self._together, self._choices = together, frozenset(known.choices)
        self._taken = {name: dict.fromkeys(cells, 0) for name, cells in known.premises.items()}
        self._count: dict[str, int] = {}
        self._alone = 0

    def premise(self, row: SheetRow, quantity: str) -> str:
        """The premise of a row that reads this quantity: the one that it names, or that of all
        that are together with it, or one of its own."""
        if self._together is not None and self._together in row.cells:
            name = row.text(self._together)
            self._check(row, self._together, name)
            return name
        if Column.PREMISE in row.cells:
            return self._given(row, quantity)
        self._alone += 1
        if self._alone == MOST_ALONE + 1:
            raise _Wrong(row.problem(Column.PREMISE, _TOO_MANY))
        name = self._own(quantity)
        self._taken[name] = {quantity: row.number}
        return name

    def _given(self, row: SheetRow, quantity: str) -> str:
        name = row.text(Column.PREMISE)
        self._check(row, Column.PREMISE, name)
        before = self._taken.setdefault(name, {})
        if quantity in before:
            where = f"row {before[quantity]:,}" if before[quantity] else "what was read before"
            said = f"{quoted(name)} is that of {where} too, which reads {quoted(quantity)} as well"
            raise _Wrong(row.problem(Column.PREMISE, f"{said}: {_ANOTHER}"))
        before[quantity] = row.number
        return name

    def _check(self, row: SheetRow, column: Column, name: str) -> None:
        if name in self._choices:
            said = f"{quoted(name)} is a choice, under which nothing is stated: call it otherwise"
            raise _Wrong(row.problem(column, said))

    def _own(self, quantity: str) -> str:
        """A name for one reading of a quantity: its own, and a number."""
        while True:
            self._count[quantity] = self._count.get(quantity, 0) + 1
            name = f"{quantity} {self._count[quantity]}"
            if name not in self._taken and name not in self._choices:
                return name


_ANOTHER = (
    "call one otherwise, or leave both empty to have them numbered; where such readings are to "
    'stand or fall together, read the table with `under="premise"`'
)
_TOO_MANY = (
    f"{MOST_ALONE:,} readings can stand each for itself: read the table with "
    '`under="quantity"` (or "device", "taken at"), so that those of one stand or fall together'
)
