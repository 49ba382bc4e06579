"""`propdesk`: the command line of the package, `python3 -m propbench` too.

What a command needs is imported once it is carried out: the others start at once.
"""

import argparse
import os
import sys
from collections.abc import Callable, Sequence
from contextlib import suppress
from typing import TYPE_CHECKING

from propbench.beginning import ORDERS

if TYPE_CHECKING:
    from decimal import Decimal

    from propbench.files import OpenedFile
    from propbench.journal import Journal
    from propbench.running import RunAs
    from propbench.watching import Watched

# What a schedule is written as, by the endings of files.
_WRITTEN = {
    "html": "as a page to read and print",
    "csv": "as a table",
    "ics": "for calendars",
    "svg": "as a chart",
}
DESCRIPTION = """\
A desk for the workbench propbench: runs files of its language, and speaks it with you line by line.
Every answer is a reply of the program, which is the one that --program or $PROPBENCH names, else
the built one of this repository, else `propbench` on the path, else this repository's unproved one.
For what a workbench has saved it is propwide, found in the same way, where there is one.
"""

STATUS = """\
The exit status is 0 where all went well, 1 where a line was refused, readings conflict, a report is
not what the program says or no plan fits, 2 for wrong arguments and tables, 3 where a file could
not be read or the program was not found or ended, and 130 at Ctrl-C.
"""

# The columns of tables by which readings may stand or fall together.
_TOGETHER = ("quantity", "premise", "device", "taken at")


def parser() -> argparse.ArgumentParser:
    """The reader of the command line, from which manual pages and completion can be made."""
    top = argparse.ArgumentParser(prog="propdesk", description=DESCRIPTION, epilog=STATUS)
    commands = top.add_subparsers(dest="command", metavar="COMMAND", required=True)
    for name, (told, description, add) in _COMMANDS.items():
        each = commands.add_parser(name, help=told, description=description)
        add(each)
        if name != "minizinc":
            each.add_argument("--program", metavar="PATH", help="the program that answers")
        if name == "page":
            _add_resume(each)
        if name in ("shell", "page"):
            each.add_argument(
                "--no-journal",
                action="store_true",
                help="don't keep what is carried out on the disk",
            )
        if name in ("run", "shell", "page", "draw"):
            _add_begin(each)
    return top


def program_parser() -> argparse.ArgumentParser:
    """What the programs themselves read, to be offered by a shell."""
    reader = argparse.ArgumentParser()
    _add_begin(reader)
    reader.add_argument("-V", "--version", action="store_true")
    return reader


def _add_run(to: argparse.ArgumentParser) -> None:
    to.add_argument("file", metavar="FILE", help="the file, or - for standard input")
    to.add_argument(
        "--keep-going", action="store_true", help="go on behind refused lines; the status stays 1"
    )
    to.add_argument(
        "--json", action="store_true", help="write a report, one JSON object, and nothing else"
    )
    to.add_argument(
        "--seconds",
        type=_seconds,
        default=60.0,
        metavar="N",
        help="how long may be worked for the table at the end (60)",
    )


def _add_shell(to: argparse.ArgumentParser) -> None:
    to.add_argument("file", metavar="FILE", nargs="?", help="a file whose lines come first")


def _add_check(to: argparse.ArgumentParser) -> None:
    to.add_argument(
        "file", metavar="FILE", help="what `propdesk run --json` wrote, or a saved certificate"
    )
    to.add_argument(
        "--base", metavar="FILE", help="the saved workbench that the certificate has to be of"
    )


def _add_blame(to: argparse.ArgumentParser) -> None:
    to.add_argument("file", metavar="MODEL", help="the model, .mzn, or FlatZinc with marks")
    to.add_argument("data", metavar="DATA", nargs="*", help="its data, .dzn")
    to.add_argument(
        "--keep", metavar="NAME", action="append", default=[], help="a constraint to keep: `line 4`"
    )
    to.add_argument(
        "--most", type=int, default=100, metavar="N", help="so many of each at the most (100)"
    )
    to.add_argument("--seconds", type=_seconds, metavar="N", help="how long it may take")
    to.add_argument("--relax", metavar="FILE", help="write the model with the cheapest repair")
    to.add_argument(
        "--picture", metavar="FILE", help="draw the conflicts: .svg, .png, .dot, or a page: .html"
    )
    to.add_argument("--certificate", metavar="FILE", help="save what `propdesk check` checks")


def _add_measure(to: argparse.ArgumentParser) -> None:
    to.add_argument("file", metavar="BENCH", help="the bench, .toml")
    to.add_argument("readings", metavar="READINGS", nargs="+", help="tables, .csv, .ods or .xlsx")
    to.add_argument(
        "--decimal", choices=(".", ","), default=".", help="what stands before decimals (.)"
    )
    to.add_argument(
        "--under",
        choices=_TOGETHER,
        help="the column by which readings stand or fall together (each stands by itself)",
    )
    to.add_argument(
        "--coverage",
        type=_coverage,
        default="3",
        metavar="K",
        help="how many times a standard uncertainty is taken for a bound (3)",
    )
    _add_measured(to)


def _add_measured(to: argparse.ArgumentParser) -> None:
    """What `measure` is to find out and to write down."""
    to.add_argument(
        "--improve",
        metavar="QUANTITY",
        action="append",
        default=[],
        help="tell which reading to improve for this one (for three that nothing was read of)",
    )
    to.add_argument(
        "--predict",
        metavar="TEXT",
        action="append",
        default=[],
        help="tell what a further reading has to show: `volume +- 0.1 cm3`, or a quantity alone",
    )
    to.add_argument("--csv", metavar="FILE", help="write the results down as a table")
    to.add_argument(
        "--estimates",
        action="store_true",
        help="estimates by least squares too, which are tested and not proved",
    )
    to.add_argument("--report", metavar="FILE", help="write a report: .html, which prints, or .txt")
    to.add_argument(
        "--seconds", type=_seconds, default=60.0, metavar="N", help="how long it may take (60)"
    )


def _add_minizinc(to: argparse.ArgumentParser) -> None:
    either = to.add_mutually_exclusive_group()
    either.add_argument("--install", action="store_true", help="write the file")
    either.add_argument("--remove", action="store_true", help="remove the file")


def _add_page(to: argparse.ArgumentParser) -> None:
    to.add_argument(
        "file",
        metavar="FILE",
        nargs="?",
        help="the file, which may be the tables of a plan: .csv, .ods, .xlsx (also new ones), a"
        " folder; a new plan where it is left out",
    )
    to.add_argument(
        "--port", type=int, default=0, metavar="N", help="where it is served (any that is free)"
    )


def _add_resume(to: argparse.ArgumentParser) -> None:
    to.add_argument(
        "--resume", action="store_true", help="go on with what a page of the file did that was cut"
    )
    to.add_argument("--forget", action="store_true", help="forget it, and show the file")


def _add_draw(to: argparse.ArgumentParser) -> None:
    to.add_argument("file", metavar="FILE", help="the file")
    to.add_argument("--cell", metavar="X", help="only what bears on this cell")
    to.add_argument(
        "--out", metavar="PICTURE", help="where to, as SVG or .dot (beside the file, as .svg)"
    )


def _add_plan(to: argparse.ArgumentParser) -> None:
    to.add_argument(
        "file", metavar="FILE", help="a folder of .csv files, or a file .csv, .ods or .xlsx"
    )
    to.add_argument("--start", metavar="DATE", help="when the plan begins, as 2026-03-02")
    to.add_argument("--off", metavar="DAYS", help="days off, as `sat sun, 3 April`")
    to.add_argument("--today", metavar="DATE", help="what isn't done begins then or later")
    to.add_argument("--days", type=int, metavar="N", help="how many days it has at the most")
    to.add_argument(
        "--give-up", action="store_true", help="where nothing fits, give up what costs the least"
    )
    to.add_argument(
        "--what-if",
        metavar="TEXT",
        action="append",
        default=[],
        help="tell what becomes of it then: `ana ill 3-7 March`, `review takes 8`",
    )
    to.add_argument("--why", action="store_true", help="tell why it ends no sooner")
    to.add_argument(
        "--trade-off",
        nargs=2,
        metavar="GOAL",
        default=(),
        help="tell what one goal costs the other, as `end cost`, `end wishes`; --csv and --svg are"
        " of that then",
    )
    for ending, what in _WRITTEN.items():
        to.add_argument(f"--{ending}", metavar="FILE", help=f"write the schedule {what}")
    to.add_argument(
        "--seconds",
        type=_seconds,
        default=60.0,
        metavar="N",
        help="how long each question may take (60)",
    )


def _add_begin(to: argparse.ArgumentParser) -> None:
    to.add_argument(
        "--order", choices=ORDERS, default="fifo", help="which waiting procedure comes next (fifo)"
    )
    to.add_argument(
        "--seed", type=int, default=0, metavar="N", help="what the order mixed begins with (0)"
    )
    to.add_argument("--limit", type=int, metavar="N", help="steps of a run at most (1000000000)")


def _seconds(text: str) -> float:
    seconds = float(text)
    if not seconds >= 0:
        raise argparse.ArgumentTypeError("seconds are a number from 0 on")
    return seconds


def _coverage(text: str) -> "Decimal":
    from decimal import Decimal, InvalidOperation

    try:
        return Decimal(text)
    except InvalidOperation:
        raise argparse.ArgumentTypeError("a coverage is a number, as 2") from None


# The commands: what each is for in a line, what it does, and what adds its words.
_COMMANDS: dict[str, tuple[str, str, Callable[[argparse.ArgumentParser], None]]] = {
    "run": (
        "run a file, and show what follows",
        "Runs a file of the language: shows each question with its reply, and at the end each cell"
        " with its value and reasons. Stops at the first line that is refused, and points to the"
        " word.",
        _add_run,
    ),
    "shell": (
        "speak the language line by line",
        "Reads lines from the terminal and answers each. Has a history, completes commands and"
        " names, and points to the word where a line is refused. :help says more.",
        _add_shell,
    ),
    "check": (
        "hold a report of run --json, or a certificate, against the program",
        "Carries out the lines of a report in a fresh session, and compares each answer with that"
        " of the report; or asks what shows the claims of a certificate, and tells these in words."
        " Says what differs, and ends with status 1 then.",
        _add_check,
    ),
    "blame": (
        "say which constraints of a MiniZinc model can't all hold",
        "Has MiniZinc make FlatZinc of a model and its data, and says which of its constraints"
        " can't all hold and which to give up, all minimal sets of both; and solves the model"
        " without what the cheapest repair gives up. Ends with status 1 where that was not found"
        " out in time.",
        _add_blame,
    ),
    "plan": (
        "make a schedule of the tables of a spreadsheet",
        "Reads tables of tasks, people, absences and wishes, and tells a schedule that ends as soon"
        " as can be; or conflicts, which can't all hold, and repairs, what to give up so that the"
        " rest fits: then the status is 1. One table alone, or that called `tasks`, has the columns"
        " task, days, who (`ana, ben` both, `ana or ben` one), after, earliest, latest, cost.",
        _add_plan,
    ),
    "measure": (
        "say what follows from tables of readings",
        "Reads a bench (quantities, devices and laws, in TOML) and tables of readings, and tells"
        " what follows for each quantity, which readings conflict, which to give up, and which to"
        " improve. Ends with status 1 where readings conflict.",
        _add_measure,
    ),
    "minizinc": (
        "tell MiniZinc of the solver",
        "Says whether MiniZinc knows of the solver propbench by a file in your folder for solvers;"
        " writes that file, or removes it.",
        _add_minizinc,
    ),
    "page": (
        "show a file in a browser",
        "Serves a file, of the language or saved by a workbench, as a page on this machine alone:"
        " the network drawn, switches, reasons, conflicts with repairs, steps. Of the tables of a"
        " plan, which may be new, it shows the chart, and forms that change it. Prints its address,"
        " and ends at Ctrl-C.",
        _add_page,
    ),
    "draw": (
        "draw a file as a picture",
        "Draws what a file states and what follows, by Graphviz: cells with values, procedures,"
        " premises, those that are out in grey.",
        _add_draw,
    ),
}


def main(words: Sequence[str] | None = None) -> int:
    """Does what the words of a command line say, those of this process where none are given, and
    gives the exit status."""
    reader = parser()
    if "_ARGCOMPLETE" in os.environ:
        from propbench.offering import offer

        offer(reader, program_parser())
        return 0
    options = reader.parse_args(words)
    from propbench.finding import NoProgram
    from propbench.program import OutOfTime, ProgramEnded
    from propbench.refusals import Refused
    from propbench.running import told_of
    from propbench.showing import printable, said_of

    try:
        return _done(options)
    except KeyboardInterrupt:
        return 130
    except ValueError as error:
        print(f"propdesk: {said_of(error)}", file=sys.stderr)
        return 2
    except RecursionError:
        print(f"propdesk: {printable(options.file)} is nested too deeply", file=sys.stderr)
        return 2
    except Refused as refused:
        print(told_of(refused, printable(options.file)), file=sys.stderr)
        return 1
    except (ImportError, NoProgram, ProgramEnded, OutOfTime, OSError) as error:
        return _failed(error)


def _failed(error: Exception) -> int:
    """Says what failed, and gives the status of that."""
    from propbench.showing import said_of

    print(f"propdesk: {said_of(error)}", file=sys.stderr)
    return 3


def _checked(options: argparse.Namespace) -> int:
    from propbench.checking import check_file
    from propbench.reports import NoReport

    try:
        return check_file(options.file, options.program, options.base)
    except NoReport as error:
        return _failed(error)


def _blamed(options: argparse.Namespace) -> int:
    from pathlib import Path

    from propbench.flatzinc.blame import BlameOptions, blame_file

    asked = BlameOptions(
        options.keep,
        options.most,
        options.seconds,
        Path(options.picture) if options.picture else None,
        Path(options.certificate) if options.certificate else None,
        Path(options.relax) if options.relax else None,
    )
    return blame_file(Path(options.file), list(map(Path, options.data)), asked, options.program)


def _planned(options: argparse.Namespace) -> int:
    from propbench.planning.brief import Given
    from propbench.planning.command import PlanOptions, plan_file
    from propbench.planning.sheets import NoSheetReader

    asked = PlanOptions(
        Given(options.start, options.off, options.days, options.today),
        options.give_up,
        options.what_if,
        options.why,
        {it: getattr(options, it) for it in _WRITTEN if getattr(options, it) is not None},
        options.seconds,
        options.trade_off,
    )
    try:
        return plan_file(options.file, asked, options.program)
    except NoSheetReader as error:
        return _failed(error)


def _measured(options: argparse.Namespace) -> int:
    from pathlib import Path

    from propbench.laboratory.command import MeasureAsked, Tables, measure_files
    from propbench.spreadsheets import NoSheetReader

    asked = MeasureAsked(
        Path(options.file),
        list(map(Path, options.readings)),
        Tables(options.decimal, options.under, options.coverage),
        options.seconds,
        options.improve,
        Path(options.csv) if options.csv else None,
        Path(options.report) if options.report else None,
        options.estimates,
        options.predict,
    )
    try:
        return measure_files(asked, options.program)
    except NoSheetReader as error:
        return _failed(error)


def _told_minizinc(options: argparse.Namespace) -> int:
    from propbench.flatzinc import installing
    from propbench.showing import printable

    if options.remove:
        print(f"{printable(str(installing.remove()))} is removed.")
        return 0
    if options.install:
        installing.install()
    path = printable(str(installing.solver_file()))
    if not installing.installed():
        print(f"{path} isn't there, or is another: `propdesk minizinc --install` writes it.")
        return 1
    print(f"{path} tells of it: `minizinc --solver propbench model.mzn`.")
    return 0


def _done(options: argparse.Namespace) -> int:
    from propbench.running import RunAs, run_as_json, run_file

    if options.command == "minizinc":
        return _told_minizinc(options)
    if options.command == "check":
        return _checked(options)
    if options.command == "blame":
        return _blamed(options)
    if options.command == "plan":
        return _planned(options)
    if options.command == "measure":
        return _measured(options)
    begin = {"order": options.order, "seed": options.seed, "limit": options.limit}
    if options.command in ("page", "draw"):
        if options.command == "page":
            return _plan_page(options) if _is_plan(options.file) else _page(options, RunAs(**begin))
        from propbench.watching.opening import opened

        with opened(options.file, RunAs(**begin), options.program) as watched:
            return _draw(watched, options.file, options.cell, options.out)
    if options.command == "shell":
        from propbench.shell import run_shell

        with RunAs(**begin).session(options.program, _lines(options.file)) as session:
            return run_shell(session, options.file, _journal(options, options.file or ""))
    way = RunAs(options.keep_going, options.seconds, **begin)
    run = run_as_json if options.json else run_file
    return run(options.file, options.program, way)


def _lines(path: str | None) -> list[str]:
    """The lines of the file that a shell begins with, none where it can't be read."""
    from propbench.running import lines_of

    with suppress(OSError):
        return lines_of(path) if path else []
    return []


_OFFERED = "--resume goes on with it, --forget forgets it."


def _journal(options: argparse.Namespace, file: str) -> "Journal | None":
    """The journal of a shell, None where none is kept."""
    from propbench.journal import Journal

    return None if options.no_journal else Journal(options.command, file, None)


class _CutOff:
    """What was cut off of a page of this sort and place: gone on with, forgotten or offered."""

    def __init__(self, options: argparse.Namespace, sort: str, place: str) -> None:
        """As these options want. Raises ValueError where there is nothing to go on with."""
        from propbench.journal import left
        from propbench.showing import printable

        self._is_kept, self._sort, self._place = not options.no_journal, sort, place
        self._found = left(sort, place) if self._is_kept else []
        if options.forget:
            for each in self._found:
                each.forget()
            self._found = []
        if options.resume and not self._found:
            raise ValueError(f"no page of {printable(options.file or place)} was cut off")
        self._resumed = self._found[0] if options.resume else None

    @property
    def lines(self) -> list[str] | None:
        """The lines to go on with, None where the file is begun with."""
        return self._resumed.lines if self._resumed else None

    @property
    def checksum(self) -> str | None:
        """That of the file as it was then."""
        return self._resumed.checksum if self._resumed else None

    def go_on(self, file: "OpenedFile", lines: Sequence[str]) -> None:
        """Begins the journal of a file, which has these lines where one goes on with them."""
        from propbench.journal import Journal
        from propbench.showing import shown

        if self._is_kept:
            file.journal = Journal(self._sort, self._place, file.checksum)
        if self._resumed and file.journal:
            print(file.journal.keep(lines) or shown(str(self._resumed)), flush=True)
            self._resumed.forget()
        elif self._found:
            print(f"{shown(str(self._found[0]))} {_OFFERED}", flush=True)


def _plan_page(options: argparse.Namespace) -> int:
    """Serves a plan that tables tell, or a new one."""
    from datetime import date

    from propbench.files import OpenedFile
    from propbench.page import serve
    from propbench.planning.brief import Given
    from propbench.planning.draft import draft_in, draft_of, new_draft
    from propbench.planning.open_plan import OpenPlan
    from propbench.planning.sheets import NoSheetReader, sheets_of
    from propbench.workbench import Workbench

    def made() -> Workbench:
        return Workbench(
            options.program, order=options.order, seed=options.seed, limit=options.limit
        )

    path = options.file or "-"
    is_folder = os.path.isdir(path)
    place = "-" if path == "-" else os.path.realpath(path)
    cut_off = _CutOff(options, "plan", place)
    # (several files, and one without a name, are saved as another)
    file = OpenedFile("-" if is_folder else path, cut_off.checksum)
    try:
        if cut_off.lines is not None:
            draft = draft_in(cut_off.lines)
        else:
            draft = draft_of(sheets_of(path)) if os.path.exists(path) else new_draft(date.today())
    except NoSheetReader as error:
        return _failed(error)
    folder = path if is_folder else os.path.dirname(path)
    with OpenPlan(draft, made, Given(folder=folder)) as plan:
        cut_off.go_on(file, cut_off.lines or [])
        title = os.path.basename(path.rstrip("/")) if options.file else "A new plan"
        serve(plan, title, path=file, port=options.port)
        if file.journal:
            file.journal.leave()
    return 0


def _is_plan(path: str | None) -> bool:
    """Whether a file, which may be new, has the tables of a plan."""
    return path is None or path.lower().endswith((".csv", ".ods", ".xlsx")) or os.path.isdir(path)


def _page(options: argparse.Namespace, way: "RunAs") -> int:
    from propbench.files import OpenedFile
    from propbench.page import serve
    from propbench.watching.opening import opened

    place = options.file if options.file == "-" else os.path.realpath(options.file)
    cut_off = _CutOff(options, "page", place)
    # (it is taken note of before it is read)
    file = OpenedFile(options.file, cut_off.checksum)
    with opened(options.file, way, options.program, cut_off.lines) as watched:
        cut_off.go_on(file, watched.saved())
        title = "standard input" if place == "-" else os.path.basename(options.file)
        serve(watched, title, path=file, port=options.port)
        if file.journal:
            file.journal.leave()
    return 0


def _draw(watched: "Watched", path: str, cell: str | None, out: str | None) -> int:
    from propbench.pictures import NoGraphviz, picture_of
    from propbench.showing import printable

    where = out if out is not None else f"{os.path.splitext(path)[0]}.svg"
    try:
        picture_of(watched, cell).save(where)
    except NoGraphviz as error:
        return _failed(error)
    print(f"The picture is in {printable(where)}.")
    return 0
