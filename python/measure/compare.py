#!/usr/bin/python3
"""The same questions put to this package and to other tools, in one table.

usage: measure/compare.py [--markdown] [--only WORD]

Told are seconds of one processor, of the whole process for MiniZinc, SWI-Prolog and clingo, of the
calls for libraries (z3, uncertainties) and for this package with the program that it begins. `-` is
a question that the tool doesn't take; what isn't installed is named. Each tool's answer has to be
this package's, or the script ends with status 1. OR tools isn't measured: Debian doesn't have it.
"""

import argparse
import sys
from collections.abc import Callable, Mapping
from dataclasses import dataclass
from functools import partial
from importlib import import_module
from pathlib import Path
from typing import Any

sys.path.insert(0, str(Path(__file__).resolve().parents[1] / "src"))

import elsewhere  # noqa: E402
import schedules  # noqa: E402
from elsewhere import Missing, Spans, TooLong  # noqa: E402
from spent import Spent  # noqa: E402
from wishes import bench_of, wishes  # noqa: E402

from propbench import Session, Span, Value, Workbench, all_different, find_wide  # noqa: E402
from propbench.tables import table  # noqa: E402

TOOLS = ("Gecode", "SWI-Prolog", "clingo", "z3", "uncertainties")
CELLS, ROUNDS = 1000, 100
SUMS, OTHERS = 20, 10
WISHES, SEED = 20, 1


@dataclass(frozen=True)
class Question:
    """What is asked, how this package is asked, how others are, and of how many answers one
    counts."""

    asked: str
    here: Callable[[], Any]
    there: Mapping[str, Callable[[], Any]]
    answers: int = 1
    # Tools that are asked once, since they begin anew for each answer.
    answers_anew: int = 1


def queens_here() -> int:
    """All ways to put eight queens: how many."""
    with Workbench() as w:
        q = [w.number(f"q{row}", 1, 8) for row in range(8)]
        for slope in (-1, 0, 1):
            w.require(all_different(*(each + slope * row for row, each in enumerate(q))))
        found = w.plans(q, most=200)
        assert found.complete
        return len(found)


def conflicts_here() -> Any:
    """All minimal conflicts and repairs among wishes."""
    with bench_of(wishes(WISHES, SEED)) as w:
        conflicts, repairs = w.conflicts(most=1000), w.repairs(most=1000)
        assert conflicts.complete and repairs.complete
        return set(conflicts), set(repairs)


def chain(session: Session) -> None:
    """A thousand cells, each one more than the one before, of which the first is told."""
    lines = [f"cell x{i} span" for i in range(CELLS + 1)] + ["cell one span", "fix one 1"]
    lines += [f"attach sum x{i} one x{i + 1}" for i in range(CELLS)]
    session.send_all([*lines, "fix x0 -5000..5000", "tell start x0 0..10"])


def what_if_here() -> Spans:
    """What follows at its other end without the premise, and with it, in the last round."""
    with Session(find_wide().path) as session:
        chain(session)
        for _ in range(ROUNDS):
            session.send("kick start")
            without = session.send(f"ask x{CELLS}")
            session.send("bring start")
            with_it = session.send(f"ask x{CELLS}")
        return span(without), span(with_it)


def span(reply: Any) -> tuple[int, int]:
    """The ends of an answer."""
    assert isinstance(reply, Value) and isinstance(reply.value, Span)
    return int(reply.value.low), int(reply.value.high)


def why_here() -> set[str]:
    """The least premises behind the end of a chain of sums, of ten times as many."""
    with Session(find_wide().path) as session:
        lines = [f"cell {name}{i} span" for i in range(SUMS + 1) for name in "xd"] + ["fix x0 0"]
        lines += [f"attach sum x{i} d{i} x{i + 1}" for i in range(SUMS)]
        for i in range(SUMS):
            lines += [f"tell d{i}of{k} d{i} {-k}..{10 + k}" for k in range(OTHERS)]
        session.send_all(lines)
        reply = session.send(f"core x{SUMS}")
        assert span(reply) == (0, 10 * SUMS)
        assert isinstance(reply, Value) and reply.reduced and reply.because is not None
        return set(reply.because)


def measured_here() -> tuple[str, str]:
    """A density from two readings, and then a volume from a third."""
    with Workbench() as w:
        density = w.measured("density", unit="g/cm3", low=1, high=25, step="0.01")
        volume = w.measured("volume", unit="cm3", low=1, high=100, step="0.01")
        mass = w.measured("mass", unit="g", low=0, high=1000, step="0.01")
        w.law(density == mass / volume)
        w.read("balance", mass, "100.0 +- 0.2 g")
        w.read("cylinder", volume, "7.0 +- 0.1 cm3")
        first = str(density.ask())
        w.read("tables", density, "13.8..14.2 g/cm3")
        return first, str(volume.ask())


def measured_there() -> str:
    """The density by standard deviations, a third of each tolerance."""
    try:
        library = import_module("uncertainties")
    except ImportError as error:
        raise Missing("python3-uncertainties") from error
    return str(library.ufloat(100, 0.2 / 3) / library.ufloat(7, 0.1 / 3))


def questions() -> list[Question]:
    """What is asked."""
    return [*of_solutions(), *of_premises()]


def of_solutions() -> list[Question]:
    """Questions for all solutions, and for the best."""
    plan = schedules.drawn(0)
    return [
        Question(
            "8 queens: all 92 ways",
            queens_here,
            {
                "Gecode": elsewhere.queens_by_gecode,
                "SWI-Prolog": elsewhere.queens_by_prolog,
                "clingo": elsewhere.queens_by_clingo,
                "z3": elsewhere.queens_by_z3,
            },
        ),
        Question(
            "20 tasks, 3 people: the shortest plan",
            partial(schedules.shortest_here, plan, elsewhere.SECONDS),
            {
                "Gecode": partial(elsewhere.plan_by_gecode, plan),
                "SWI-Prolog": partial(elsewhere.plan_by_prolog, plan),
                "clingo": partial(elsewhere.plan_by_clingo, plan),
                "z3": partial(elsewhere.plan_by_z3, plan),
            },
        ),
    ]


def of_premises() -> list[Question]:
    """Questions for conflicts and reasons, and what becomes of answers where premises change."""
    known = ((CELLS - 5000, CELLS + 5000), (CELLS, CELLS + 10))
    return [
        Question(
            f"{WISHES} wishes: all minimal conflicts and repairs",
            conflicts_here,
            {"z3": partial(elsewhere.conflicts_there, WISHES, SEED)},
        ),
        Question(
            "1,000 cells: an answer after a premise goes or comes",
            what_if_here,
            {
                "Gecode": partial(elsewhere.what_if_by_gecode, CELLS),
                "SWI-Prolog": partial(elsewhere.what_if_by_prolog, CELLS, ROUNDS),
                "z3": partial(elsewhere.what_if_by_z3, CELLS, ROUNDS, known),
            },
            answers=2 * ROUNDS,
            answers_anew=2,
        ),
        Question(
            "200 premises: the 20 that an answer rests on",
            why_here,
            {"z3": partial(elsewhere.why_by_z3, SUMS, OTHERS)},
        ),
    ]


def told(question: Question, tool: str, answer: Any) -> tuple[str, bool]:
    """What the table says of a tool, and whether its answer is right."""
    if tool not in question.there:
        return "-", True
    try:
        spent = Spent.of(question.there[tool])
    except Missing as missing:
        return f"no {missing}", True
    except TooLong:
        return f"> {elsewhere.SECONDS:.0f}", True
    answers = question.answers_anew if tool == "Gecode" else question.answers
    is_right = spent.result == answer
    return seconds(spent.seconds / answers) + ("" if is_right else " WRONG"), is_right


def seconds(number: float) -> str:
    """Two digits of them."""
    return f"{number:.2g}" if number < 10 else f"{number:.0f}"


def main(words: list[str]) -> int:
    """Measures, and prints a line for each question."""
    read = argparse.ArgumentParser(
        description=__doc__, formatter_class=argparse.RawTextHelpFormatter
    )
    read.add_argument("--markdown", action="store_true", help="a table for a document")
    read.add_argument("--only", default="", metavar="WORD", help="questions that have this word")
    options = read.parse_args(words)
    rows, is_right = [], True
    for question in (each for each in questions() if options.only in each.asked):
        ours = Spent.of(question.here)
        others = [told(question, tool, ours.result) for tool in TOOLS[:-1]]
        is_right = is_right and all(right for _, right in others)
        rows.append(
            (
                question.asked,
                seconds(ours.seconds / question.answers),
                *(said for said, _ in others),
            )
        )
    heads = ("question", "propbench", *TOOLS[:-1])
    if options.markdown:
        print("\n".join(f"| {' | '.join(row)} |" for row in [heads, ["---"] * 6, *rows]))
    else:
        print(table(heads, rows))
    readings()
    return 0 if is_right else 1


def readings() -> None:
    """Prints what is said of readings."""
    ours = Spent.of(measured_here)
    print(f"\nReadings, here ({seconds(ours.seconds)} s): {'; then '.join(ours.result)}")
    try:
        theirs = Spent.of(measured_there)
        print(f"by uncertainties ({seconds(theirs.seconds)} s): {theirs.result}")
    except Missing as missing:
        print(f"no {missing}")


if __name__ == "__main__":
    sys.exit(main(sys.argv[1:]))
