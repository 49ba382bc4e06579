"""`fzn-propbench`: a solver as MiniZinc calls one, by a file of FlatZinc."""

import argparse
import os
import select
import signal
import sys
import threading
import time
from collections.abc import Iterator, Sequence
from contextlib import contextmanager
from functools import partial

from propbench.finding import NoProgram
from propbench.flatzinc.building import Built
from propbench.flatzinc.grammar import read
from propbench.flatzinc.seeking import SearchWay
from propbench.flatzinc.solving import ALL, Wanted, solve
from propbench.flatzinc.terms import NotSupported
from propbench.flatzinc.writing import SOLUTION, UNKNOWN, ending, solution, statistics
from propbench.plain import PlainWorkbench
from propbench.program import OutOfTime, ProgramEnded
from propbench.questions import Plan
from propbench.showing import said_of

# How many milliseconds an end of the search, and one of its readers, may go unnoticed.
_LOOK = 500

DESCRIPTION = """\
Solves a model in FlatZinc by the proved workbench: MiniZinc calls it, by `minizinc --solver
propbench MODEL DATA`. That there is no solution, and none that is better, is what the program says.
"""


def parser() -> argparse.ArgumentParser:
    """The reader of the command line, with the options that MiniZinc gives a solver."""
    made = argparse.ArgumentParser(
        prog="fzn-propbench",
        description=DESCRIPTION,
        allow_abbrev=False,
        # (it is asked for with each option, and the terminal's width takes long to find out)
        formatter_class=partial(argparse.HelpFormatter, width=80),
    )
    made.add_argument("file", metavar="FILE", help="the model in FlatZinc, or - for standard input")
    made.add_argument("-a", "--all", action="store_true", help="all solutions, not one alone")
    made.add_argument("-n", type=int, metavar="N", help="so many solutions (1)")
    made.add_argument("-i", "--intermediate", action="store_true", help="each better solution too")
    made.add_argument("-f", "--free", action="store_true", help="heed no search annotations")
    made.add_argument("-p", type=int, metavar="N", default=1, help="so many searches side by side")
    made.add_argument("-r", type=int, metavar="SEED", help="call procedures in another order")
    made.add_argument("-t", type=float, metavar="MS", help="milliseconds that it may take")
    made.add_argument("-s", "--statistics", action="store_true", help="statistics too")
    made.add_argument("-v", "--verbose", action="store_true", help="tell what is done")
    made.add_argument("--program", metavar="PATH", help="the program that answers")
    made.formatter_class = argparse.HelpFormatter
    return made


def main(words: Sequence[str] | None = None) -> int:
    """Solves the model of a command line, and gives the exit status: 0, or 1 where it can't be
    read or the program ended."""
    options = _options(list(sys.argv[1:] if words is None else words))
    try:
        with _ended_by_interrupt():
            return _solved(options)
    except KeyboardInterrupt:
        # (before anything was sought)
        print(UNKNOWN, flush=True)
        return 0
    except (ValueError, NoProgram, ProgramEnded, OutOfTime, OSError) as error:
        place = f"{options.file}, " if isinstance(error, NotSupported) else ""
        print(f"fzn-propbench: {place}{said_of(error)}", file=sys.stderr)
        return 1


def _solved(options: argparse.Namespace) -> int:
    began = time.monotonic()
    flat = read(_text(options.file))
    with _workbench(options) as workbench:
        built = Built(flat, workbench)
        read_at = time.monotonic()
        if options.verbose:
            print(f"% {built.count} cells, {len(flat.constraints)} constraints", flush=True)

        def tell(plan: Plan) -> None:
            print("\n".join([*solution(built, plan), SOLUTION]), flush=True)

        found = solve(built, _wanted(options, read_at - began), tell)
        for line in ending(found):
            print(line, flush=True)
        if options.statistics:
            times = {"initTime": read_at - began, "solveTime": time.monotonic() - read_at}
            print("\n".join(statistics(built, found, times)))
    return 0


def _options(words: list[str]) -> argparse.Namespace:
    """The options of a command line. (No word like `-node` is taken to be -n with a value.)"""
    read = parser()
    unknown = [word for word in words if len(word) > 2 and word[0] == "-" and word[1].isalpha()]
    if unknown:
        read.error(f"unrecognized arguments: {' '.join(unknown)}")
    return read.parse_args(words)


@contextmanager
def _ended_by_interrupt() -> Iterator[None]:
    """Has MiniZinc end a search as Ctrl-C does, with the best that was found."""
    if threading.current_thread() is not threading.main_thread():
        yield
        return
    before = signal.signal(signal.SIGTERM, signal.default_int_handler)
    over = threading.Event()
    threading.Thread(target=_watch_reader, args=(over,), daemon=True).start()
    try:
        yield
    finally:
        over.set()
        signal.signal(signal.SIGTERM, before)


def _watch_reader(over: threading.Event) -> None:
    """Ends a search whose answers nobody reads any more: MiniZinc that was killed tells nobody."""
    written = select.poll()
    # (that the other end of a pipe was closed is always told)
    written.register(1, 0)
    while not over.is_set():
        if written.poll(_LOOK):
            if not over.is_set():
                os.kill(os.getpid(), signal.SIGTERM)
            return


def _workbench(options: argparse.Namespace) -> PlainWorkbench:
    """The workbench of a command line."""
    if options.r is None:
        return PlainWorkbench(options.program)
    return PlainWorkbench(options.program, order="mixed", seed=options.r)


def _wanted(options: argparse.Namespace, taken: float) -> Wanted:
    """What is asked for, after so many seconds."""
    most = ALL if options.all and options.n is None else options.n or 1
    left = None if options.t is None else max(0.0, options.t / 1000 - taken)
    way = SearchWay(options.intermediate or options.all, options.p, options.r or 0)
    return Wanted(most, left, options.free, way)


def _text(file: str) -> str:
    if file == "-":
        return sys.stdin.read()
    with open(file, encoding="utf-8") as opened:
        return opened.read()
