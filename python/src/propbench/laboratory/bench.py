"""What a workbench does for a laboratory: it has these methods beside those of measured
quantities."""

import os
from collections.abc import Iterable, Sequence

from propbench.given import path_given
from propbench.laboratory.results import Results, results_of
from propbench.laboratory.sheets import ReadingSheet, rows_of, rows_of_file
from propbench.laboratory.tabled import KnownNames, readings_in, together_of
from propbench.measuring.bench import Measuring
from propbench.measuring.devices import DevicePart, ShownMade
from propbench.measuring.elementary import Calibration
from propbench.measuring.exact import Exact
from propbench.measuring.law_texts import NotALaw
from propbench.measuring.quantities import Quantity
from propbench.measuring.readings import COVERAGE
from propbench.measuring.stating import RootMade, read
from propbench.model.cells import Cell
from propbench.model.events import CellMade, Read
from propbench.model.tabling import Table
from propbench.showing import printable


class Laboratory(Measuring):
    """Tables of readings, laws in files, and results."""

    def read_csv(
        self,
        path: str | os.PathLike[str],
        *,
        decimal: str = ".",
        under: str | None = None,
        coverage: Exact = COVERAGE,
    ) -> int:
        """States the readings of a file of comma-separated values (or semicolons, or tabs), or of
        the first table of a spreadsheet (.ods, .xlsx), whose columns are those of `read_table`. Its
        head is row 1. How many there were is given back.

        Raises BadTable, which tells row, column and what would do, of all that is wrong; nothing
        of the file is stated then. Raises OSError too, and NoSheetReader where what reads a
        spreadsheet isn't installed.

        >>> w = Workbench()
        >>> height = w.measured("height", "m", 0, 100, step="0.1")
        >>> with open("readings.csv", "w", encoding="utf-8") as file:
        ...     print("quantity,value,premise", file=file)
        ...     print("height,12.0 m +- 0.5 m,tape", file=file)
        >>> w.read_csv("readings.csv")
        1
        >>> print(height.ask())
        height = 11.5..12.5 m because of tape
        """
        return self._read_rows(rows_of_file(path_given(path), _decimal(decimal)), under, coverage)

    def read_table(
        self,
        table: object,
        *,
        decimal: str = ".",
        under: str | None = None,
        coverage: Exact = COVERAGE,
    ) -> int:
        """States the readings of a table: dicts, lists below one of column names, or a frame of
        pandas. The columns are `quantity` and `value`, and where they are wanted `unit`,
        `uncertainty`, `premise`, `device`, `taken at` and `note`.

        A reading without a premise has one of its own: the quantity and a number. By
        `under="quantity"` (or "premise", "device", "taken at") those with the same cell there stand
        or fall together, under a premise of that name. Raises as `read_csv`.

        >>> w = Workbench()
        >>> height = w.measured("height", "m", 0, 100, step="0.1")
        >>> w.read_table([dict(quantity="height", value="12.0 m +- 0.5 m", premise="tape")])
        1
        >>> print(height.ask())
        height = 11.5..12.5 m because of tape
        """
        return self._read_rows(rows_of(table, _decimal(decimal)), under, coverage)

    def read_laws(self, path: str | os.PathLike[str], *, curves: Iterable[Calibration] = ()) -> int:
        """States the laws of a file, one a line, as one writes them; what stands behind a `#` is
        for people. How many there were is given back. Raises OSError, and NotALaw with the line;
        nothing of the file is stated then.

        >>> w = Workbench()
        >>> height = w.measured("height", "m", 0, 100, step="0.1")
        >>> half = w.measured("half", "m", 0, 50, step="0.1")
        >>> with open("laws.txt", "w", encoding="utf-8") as file:
        ...     print("height == 2 * half  # as it is built", file=file)
        >>> w.read_laws("laws.txt")
        1
        """
        return self._state_laws(path_given(path), list(curves))

    def results(self, *, seconds: float | None = None) -> Results:
        """What follows for each quantity that was made by `w.measured`, as a table that can be
        written down. Raises Conflict and OutOfTime as `table`.

        >>> w = Workbench()
        >>> height = w.measured("height", "m", 0, 100, step="0.1")
        >>> w.read("tape", height, "12.0 m +- 0.5 m")
        >>> [row[0] for row in w.results().rows()]
        ['height']
        """
        return results_of(self.table(*self.quantities, seconds=seconds))

    @property
    def quantities(self) -> tuple[Quantity, ...]:
        """The quantities that were made by `w.measured`.

        >>> w = Workbench()
        >>> height = w.measured("height", "m", 0, 100, step="0.1")
        >>> w.quantities
        (height,)
        """
        found = self._quantities()
        inner = (DevicePart, ShownMade, RootMade)
        return tuple(
            found[each.cell.name]
            for each in self._network.events
            if isinstance(each, CellMade) and not isinstance(each, inner) and each.cell.measure
        )

    @property
    def sought(self) -> tuple[Quantity, ...]:
        """The quantities that were made by `w.measured`, and of which nothing was read.

        >>> w = Workbench()
        >>> height = w.measured("height", "m", 0, 100, step="0.1")
        >>> w.sought
        (height,)
        >>> w.read("tape", height, "12.0 m +- 0.5 m")
        >>> w.sought
        ()
        """
        of = {each.cell: each.of for each in self._network.events if isinstance(each, ShownMade)}
        read_of = (each.cell for each in self._network.events if isinstance(each, Read))
        were_read = {of.get(cell, cell) for cell in read_of}
        return tuple(each for each in self.quantities if each.declared not in were_read)

    def table(self, *cells: Cell, seconds: float | None = None) -> Table:
        """What follows for cells, as a table."""
        raise NotImplementedError

    def _state_laws(self, path: str | os.PathLike[str], curves: Sequence[Calibration]) -> int:
        with open(path, encoding="utf-8-sig") as file:
            lines = [line.partition("#")[0].strip() for line in file.read().splitlines()]
        laws = [(number, line) for number, line in enumerate(lines, 1) if line]

        def state() -> None:
            for number, line in laws:
                try:
                    self.law(line, curves=curves)
                except ValueError as error:
                    shown = printable(os.fspath(path))
                    raise NotALaw(f"{shown}, line {number}: {error}") from None

        self._network.whole(state)
        return len(laws)

    def _read_rows(self, sheet: ReadingSheet, under: str | None, coverage: Exact) -> int:
        premises = self._network.premises
        of = {each.cell: each.of for each in self._network.events if isinstance(each, ShownMade)}
        stated = {
            name: frozenset(of.get(it.cell, it.cell).name for it in premises.readings(name))
            for name in premises.believed
        }
        made = {each.name: each for each in self.quantities}
        known = KnownNames(made, dict(self.devices), stated, premises.choices)
        readings = readings_in(sheet, known, together_of(under), coverage)

        def state() -> None:
            cells = {}
            for each in readings:
                key = each.quantity.declared, each.device
                if key not in cells:
                    cell, device = key
                    cells[key] = cell if device is None else self._shown_by(device, cell)
            self._network.do(
                *(
                    read(cells[it.quantity.declared, it.device], it.reading, it.premise)
                    for it in readings
                )
            )

        self._network.whole(state)
        return len(readings)


def _decimal(given: str) -> str:
    """What stands before the decimals of numbers."""
    if given not in (".", ","):
        raise ValueError(f"decimal is `.` or `,`, and not {given!r}")
    return given
