"""`propdesk measure`: a bench and its readings from files, and what follows."""

from collections.abc import Sequence
from dataclasses import dataclass
from pathlib import Path

from propbench.laboratory.bench_file import BenchFile, bench_in
from propbench.laboratory.results import Results
from propbench.laboratory.sheets import BadTable
from propbench.measuring.exact import Exact
from propbench.measuring.outliers import Outliers
from propbench.measuring.predict import expected
from propbench.measuring.quantities import Quantity
from propbench.measuring.readings import COVERAGE
from propbench.model.answers import Conflict
from propbench.questions.clock import Clock
from propbench.questions.shown import listed
from propbench.showing import printable, quoted, shown
from propbench.workbench import Workbench

# What errors of tables say of Python, and what does the same here.
_HERE = {
    '`decimal=","`': "`--decimal ,`",
    "(`decimal`)": "(`--decimal`)",
    '`under="premise"`': "`--under premise`",
    '`under="quantity"` (or "device", "taken at")': '`--under quantity` (or device, "taken at")',
    "make it by `w.measured(..)`": "make it in `[quantities]` of the bench",
    "make it by `w.device(..)`": "make it in `[devices]` of the bench",
}
# Of so many quantities at the most it is told which reading to improve, where none are named.
_IMPROVED = 3


# A quantity of which there may be a further reading, and its tolerance.
Further = tuple[Quantity, str | None]


@dataclass(frozen=True)
class Tables:
    """How tables are read, as `w.read_csv` has it."""

    decimal: str = "."
    under: str | None = None
    coverage: Exact = COVERAGE


@dataclass(frozen=True)
class MeasureAsked:
    """What a command line asks for: the files, how the tables are read, and what to tell."""

    bench: Path
    readings: Sequence[Path]
    tables: Tables
    seconds: float
    improve: Sequence[str]
    csv: Path | None
    report: Path | None = None
    estimates: bool = False
    predict: Sequence[str] = ()


def measure_files(asked: MeasureAsked, program: str | None) -> int:
    """Tells what follows from readings of a bench: 0, or 1 where readings conflict. Raises
    ValueError for what is wrong in the files, and OSError."""
    bench = bench_in(asked.bench)
    with Workbench(program) as w:
        bench.state(w)
        further = [_further(w, text) for text in asked.predict]
        count = sum(_read(w, path, asked) for path in asked.readings)
        print(_begun(bench, count))
        # (a report has half of the time, and is written once all else is told)
        seconds = asked.seconds if asked.report is None else asked.seconds / 2
        status = _told(w, asked, further, Clock(seconds, None))
        if asked.report is not None:
            w.report(bench.title, seconds=seconds).save(asked.report)
            print(f"The report is in {printable(str(asked.report))}.")
    return status


def _told(w: Workbench, asked: MeasureAsked, further: Sequence[Further], clock: Clock) -> int:
    """Tells what follows, and what is asked for beside it: the exit status."""
    try:
        results = w.results(seconds=clock.seconds_left())
    except Conflict as conflict:
        return _in_conflict(w, conflict, asked, clock)
    _tell(results, asked)
    if asked.estimates:
        print(shown(str(w.adjust(seconds=clock.seconds_left()))))
    for quantity in _to_improve(w, asked):
        print(shown(str(w.improvements(quantity, seconds=clock.seconds_left()))))
    for quantity, tolerance in further:
        print(shown(str(w.predict(quantity, tolerance, seconds=clock.seconds_left()))))
    return 0


def _further(w: Workbench, text: str) -> Further:
    """The quantity of which there may be a further reading, and its tolerance, None for none: a
    quantity's name, and what stands behind it. Raises ValueError."""
    named = [it for it in w.quantities if text == it.name or text.startswith(f"{it.name} ")]
    if not named:
        raise ValueError(
            f"{quoted(text)}: a further reading is of a quantity, as `volume +- 0.1 cm3`"
        )
    quantity = max(named, key=lambda it: len(it.name))
    tolerance = text.removeprefix(quantity.name).strip() or None
    expected(tolerance, quantity.unit)
    return quantity, tolerance


def _read(w: Workbench, path: Path, asked: MeasureAsked) -> int:
    try:
        how = asked.tables
        return w.read_csv(path, decimal=how.decimal, under=how.under, coverage=how.coverage)
    except BadTable as bad:
        said = str(bad)
        for in_python, here in _HERE.items():
            said = said.replace(in_python, here)
        raise ValueError(f"{printable(str(path))}:\n{said}") from None


def _begun(bench: BenchFile, count: int) -> str:
    readings = f"{count:,} reading{'' if count == 1 else 's'}"
    return f"{printable(bench.title)}: {readings} of {len(bench.quantities):,} quantities."


def _tell(results: Results, asked: MeasureAsked) -> None:
    print(shown(str(results)))
    if asked.csv is not None:
        results.to_csv(asked.csv)
        print(f"The results are in {printable(str(asked.csv))}.")


def _in_conflict(w: Workbench, conflict: Conflict, asked: MeasureAsked, clock: Clock) -> int:
    """Tells which readings conflict and which to give up, and what follows without the first of
    these ways."""
    print(f"CONFLICT: {shown(str(conflict))}")
    if asked.estimates:
        print(shown(str(w.adjust(seconds=clock.seconds_left()))))
    outliers = w.outliers(seconds=clock.seconds_left())
    print(shown(str(outliers)))
    given_up = _first(outliers)
    if given_up:
        print(f"Without {printable(listed(given_up))}:")
        with w.what_if(kick=given_up) as without:
            try:
                _tell(without.results(seconds=clock.seconds_left()), asked)
            except Conflict:
                print("In this time no results were found.")
    return 1


def _first(outliers: Outliers) -> list[str]:
    return sorted(outliers[0]) if outliers else []


def _to_improve(w: Workbench, asked: MeasureAsked) -> list[Quantity]:
    """The quantities of which it is told what to improve: those that are named, or a few of which
    nothing was read."""
    if not asked.improve:
        return list(w.sought[:_IMPROVED])
    found = []
    for name in asked.improve:
        cell = w.cell(name)
        if not isinstance(cell, Quantity):
            raise ValueError(f"{quoted(name)} is no quantity")
        found.append(cell)
    return found
