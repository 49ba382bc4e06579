#!/usr/bin/python3
"""Whether a real solution is ever lost: random laws, each at many random reals that fit it.

usage: measure/reals.py [--functions] [--benches] [--count N] [--each N] [--seed N] [--seconds S]
                        [--into FILE]

A law is stated, and some quantities are read as is true at a point that fits it, some by devices
with errors of their own. Then the program is asked for all: each real has to lie in its answer. At
`each` more points that fit the law, all that was told of it is worked out in whole numbers. The
reals are exact fractions; with --functions the laws have functions, and the reals are intervals of
60 digits. With --benches there are up to four laws, of one point: each quantity is asked for, and
no reading may have to be given up; in each fourth bench a quantity is shaved, and in each fourth a
further reading is predicted.

COUNT points (or benches) are looked at, for so many seconds at the most. What is lost is printed,
and makes the status 1. A line that says how far it is is written into FILE now and then.
"""

import argparse
import random
import sys
import time
from collections import Counter
from fractions import Fraction
from pathlib import Path
from types import ModuleType
from typing import Any

sys.path[:0] = [str(Path(__file__).resolve().parents[1] / part) for part in ("src", "tests")]

import real_functions
import real_laws
from many_points import ManyPoints, Unable
from propbench import Conflict, Workbench
from propbench.model.events import Required

# So many cases are between two lines that say how far it is.
_OFTEN = 20
# A question may take so many seconds; in so many benches a quantity is shaved.
_QUESTION, _SOMETIMES = 20, 0.25


class Lost(Exception):
    """What is lost, and of which case."""


def look_at_points(kind: ModuleType, case: Any, each: int, seen: Counter[str]) -> None:
    """Whether all that was told holds at points that fit the laws. Raises Lost."""
    columns: dict[Any, list[int]] = {}
    for _ in range(each):
        try:
            kind.redraw(case, is_good=case.draw.random() < 0.5)
            numbers = kind.numbers(case)
        except (real_functions.Unfit, real_laws.Unfit):
            seen["points that fit no case"] += 1
            continue
        for cell, number in numbers.items():
            columns.setdefault(cell, []).append(number)
    if not columns:
        return
    points = ManyPoints(columns)
    for told in dict.fromkeys(it for it in case.w._network.events if isinstance(it, Required)):
        try:
            places = points.where_false(told.constraint)
        except Unable:
            places = [at for at in range(points.count) if not _holds(told, columns, at)]
        if places:
            raise Lost(f"{told.text} at {[(it.name, columns[it][places[0]]) for it in columns]}")
        seen["constraints at points"] += points.count
    seen["points"] += points.count * len(case.laws)


def _holds(told: Required, columns: dict[Any, list[int]], at: int) -> bool:
    return told.is_met({cell: numbers[at] for cell, numbers in columns.items()})


def ask_bench(kind: ModuleType, case: Any, seen: Counter[str]) -> None:
    """Whether each real lies in what is asked, shaved and predicted, and no reading is convicted.
    Raises Lost, and Conflict."""
    draw, names = case.draw, list(case.quantities)
    found = kind.lost(case)
    seen["asked"] += len(names)
    # (a law may be of no quantity at all)
    if draw.random() < _SOMETIMES and names:
        found += kind.lost_of(case, draw.choice(names), is_shaved=True)
        seen["shaved"] += 1
    if draw.random() < _SOMETIMES and names:
        name = draw.choice(names)
        size = Fraction(draw.randint(0, 100), 10)
        shows = case.w.predict(case.quantities[name], size, seconds=_QUESTION).shows
        # (whatever is within its tolerance of the real has to be allowed)
        found += kind.beyond(case, name, Fraction(shows.low) + size, Fraction(shows.high) - size)
        seen["predicted"] += 1
    outliers = case.w.outliers(most=2, seconds=_QUESTION)
    found += [f"{sorted(each)} is convicted" for each in outliers if each]
    seen["outliers"] += 1
    if found:
        raise Lost(str(found))


def look_at_case(given: argparse.Namespace, number: int, seen: Counter[str]) -> None:
    """One case: all of it, or as a bench. Raises Lost, and Conflict."""
    is_function = given.functions or given.benches and number % 10 == 0
    kind = real_functions if is_function else real_laws
    draw = random.Random(given.seed * 10**9 + number)
    with Workbench() as w:
        try:
            case = kind.stated_case(w, draw, draw.randint(1, 4) if given.benches else 1)
            found = kind.unmet(case)
        except (real_functions.Unfit, real_laws.Unfit, ValueError):
            seen["refused"] += 1
            return
        kind.read_some(case)
        try:
            if given.benches:
                ask_bench(kind, case, seen)
            else:
                found += kind.lost(case)
                seen["asked"] += len(case.quantities)
                look_at_points(kind, case, given.each, seen)
        except (Lost, Conflict) as lost:
            found.append(f"{type(lost).__name__}: {lost}")
        if found:
            raise Lost(f"case {number} of seed {given.seed}, {case.laws}: {found}")
        seen["cases"] += 1
        seen["laws"] += len(case.laws)
        seen["devices"] += len(case.devices)


def main() -> None:
    read = argparse.ArgumentParser(description=(__doc__ or "").partition("\n")[0])
    read.add_argument("--functions", action="store_true")
    read.add_argument("--benches", action="store_true")
    read.add_argument("--count", type=int, default=20_000)
    read.add_argument("--each", type=int, default=200)
    read.add_argument("--seed", type=int, default=0)
    read.add_argument("--seconds", type=float, default=86_400)
    read.add_argument("--into", type=Path)
    given = read.parse_args()
    began, seen, number, lost = time.monotonic(), Counter[str](), 0, ""
    wanted = "cases" if given.benches else "points"

    def told() -> str:
        parts = ", ".join(f"{count} {name}" for name, count in sorted(seen.items()))
        took = time.monotonic() - began
        return f"seed {given.seed}: {parts}; {lost or 'none is lost'}; {took:.0f} s"

    while not lost and seen[wanted] < given.count and time.monotonic() - began < given.seconds:
        try:
            look_at_case(given, number, seen)
        except Lost as found:
            lost = f"LOST: {found}"
        number += 1
        if given.into and (number % _OFTEN == 0 or lost):
            given.into.write_text(told() + "\n", encoding="utf-8")
    if given.into:
        given.into.write_text(told() + "; at its end\n", encoding="utf-8")
    print(told())
    sys.exit(1 if lost else 0)


if __name__ == "__main__":
    main()
