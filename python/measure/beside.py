#!/usr/bin/python3
"""Measured quantities beside Debian's `uncertainties`: what each can say, and how wide.

usage: measure/beside.py

`uncertainties` propagates standard deviations to first order, from what is known to what is wanted.
Here readings are bounds, and laws run in every direction. Where both can say something, widths
stand side by side: `first order` is twice the sum of what each tolerance adds by the derivatives of
`uncertainties`, `three deviations` six times its standard deviation, where each tolerance is three
of them, and `exact` is the width that interval arithmetic gives by hand.
"""

import sys
from collections.abc import Callable, Sequence
from dataclasses import dataclass
from importlib import import_module
from pathlib import Path
from typing import Any

sys.path.insert(0, str(Path(__file__).resolve().parents[1] / "src"))

from propbench import Conflict, Workbench
from propbench.tables import table

HEADS = ("case", "exact", "here", "first order", "three deviations")


@dataclass(frozen=True)
class Case:
    """Middles and tolerances, the formula of what is wanted of them, and the exact width."""

    name: str
    readings: Sequence[tuple[float, float]]
    formula: Callable[..., Any]
    exact: float


SAID = [
    ("a result of what was read", "yes", "yes"),
    ("all that bounds allow, also where a square is near 0", "yes", "no: to first order"),
    ("x - x, and other correlations of one reading", "yes, by shaving", "yes, to first order"),
    ("correlations that are known as numbers", "no", "yes"),
    ("deviations that grow less likely farther out", "yes, by estimates", "yes"),
    ("a law run backwards, to any of its quantities", "yes", "no: solve it first"),
    ("more readings than unknowns, joined", "yes", "no"),
    ("which readings contradict each other", "yes, proved", "no"),
    ("which reading to improve", "yes", "yes, by derivatives"),
    ("because of which readings", "yes", "yes, by error_components"),
]
CASES = [
    Case("mass / volume", [(100, 0.2), (7, 0.1)], lambda m, v: m / v, 100.2 / 6.9 - 99.8 / 7.1),
    Case(
        "two in parallel",
        [(468, 1.2), (330, 3.3)],
        lambda a, b: 1 / (1 / a + 1 / b),
        1 / (1 / 469.2 + 1 / 333.3) - 1 / (1 / 466.8 + 1 / 326.7),
    ),
    Case(
        "a fall of 3 s",
        [(9.81, 0.02), (3, 0.1)],
        lambda g, t: g * t**2 / 2,
        (9.83 * 3.1**2 - 9.79 * 2.9**2) / 2,
    ),
    Case(
        "a diagonal",
        [(3, 0.1), (4, 0.1)],
        lambda a, b: (a**2 + b**2) ** 0.5,
        (3.1**2 + 4.1**2) ** 0.5 - (2.9**2 + 3.9**2) ** 0.5,
    ),
    Case("a square near 0", [(0.1, 0.5)], lambda x: x**2, 0.6**2),
    Case("x - x", [(5, 1)], lambda x: x - x, 0),
]


def here(case: Case) -> str:
    """The width of the answer for what is wanted."""
    with Workbench() as w:
        made = []
        for place, (middle, off) in enumerate(case.readings):
            low = "-10" if middle < 1 else "0.1"
            made.append(w.measured(f"x{place}", low=low, high=1000, step="0.0001"))
            w.read(f"reading {place}", made[-1], f"{middle} +- {off}")
        result = w.measured("wanted", low=-10_000, high=10_000, step="0.0001")
        w.law(result == case.formula(*made))
        answer = w.shave(result)
        assert answer.width is not None
        return f"{answer.width:.4f}"


def beside(case: Case, library: Any) -> tuple[str, str]:
    """The widths that `uncertainties` gives: by the sum of what tolerances add, and by
    deviations."""
    if library is None:
        return "not installed", ""
    given = [library.ufloat(middle, off / 3) for middle, off in case.readings]
    found = case.formula(*given)
    slopes = [abs(found.derivatives.get(each, 0)) for each in given]
    added = sum(slope * off for slope, (_, off) in zip(slopes, case.readings))
    return f"{2 * added:.4f}", f"{6 * found.std_dev:.4f}"


def two_ways() -> str:
    """R1, R2 and both in series, which all are read: what is left for R2, and who is off."""
    with Workbench() as w:
        one, other, both = (w.measured(n, unit="ohm", low=1, high=2000) for n in ("R1", "R2", "R"))
        w.law(both == one + other)
        w.read("R1", one, "468.0 +- 1.2")
        w.read("R2", other, "330 +- 5%")
        w.read("series", both, "798 +- 2")
        left = other.ask().value
        w.read("second look at R2", other, "352 +- 2")
        try:
            other.ask()
        except Conflict as conflict:
            return (
                f"R2 is {left}; a reading of 352 ohm: {', '.join(conflict.premises)} can't all hold"
            )
    return ""


def main() -> None:
    try:
        library = import_module("uncertainties")
    except ImportError:
        library = None
    rows = [(case.name, f"{case.exact:.4f}", here(case), *beside(case, library)) for case in CASES]
    print("Widths, of tolerances as bounds:\n")
    print(table(HEADS, rows))
    print(f"\nTwo resistors, of which each and the series are read:\n{two_ways()}\n")
    print(table(("what can be said", "here", "uncertainties"), SAID))


if __name__ == "__main__":
    main()
