"""Estimates beside `uncertainties`, which propagates deviations by slopes: of laws that give
quantities from readings both say the same, how far errors go together among it."""

import random
from collections.abc import Callable, Mapping
from dataclasses import dataclass
from itertools import combinations
from types import SimpleNamespace
from typing import Any

import pytest

import propbench
from propbench import Workbench
from propbench.laboratory.adjustment import Adjustment
from propbench.measuring.quantities import Quantity

pytest.importorskip("scipy")
pytest.importorskip("mpmath")
uncertainties = pytest.importorskip("uncertainties")
umath = pytest.importorskip("uncertainties.umath")

# The functions of laws, here and there.
OURS = SimpleNamespace(
    **{name: getattr(propbench, name) for name in ("exp", "ln", "sin", "cos", "atan", "hypot")},
    root=lambda term: term.sqrt(),
)
THEIRS = SimpleNamespace(
    **{name: getattr(umath, name) for name in ("exp", "sin", "cos", "atan", "hypot")},
    ln=umath.log,
    root=umath.sqrt,
)
# A formula of functions and of the quantities that there are.
Formula = Callable[[Any, Any], Any]


@dataclass(frozen=True)
class Case:
    """Readings, each a value and its deviation, and what laws give of them, one after another."""

    read: Mapping[str, tuple[float, float]]
    given: Mapping[str, Formula]


CASES = {
    "a density, and what a cube of it weighs": Case(
        {"mass": (100.28, 0.05), "volume": (7.03, 0.02), "side": (2.5, 0.01)},
        {"density": lambda m, q: q.mass / q.volume, "cube": lambda m, q: q.density * q.side**3},
    ),
    "two resistors, in a row and beside each other": Case(
        {"one": (468.0, 0.4), "other": (330.0, 3.3)},
        {
            "row": lambda m, q: q.one + q.other,
            "beside": lambda m, q: 1 / (1 / q.one + 1 / q.other),
            "share": lambda m, q: q.other / q.row,
        },
    ),
    "a thermistor": Case(
        {"resistance": (5.0, 0.01), "constant": (3950.0, 20.0)},
        {
            "log": lambda m, q: m.ln(q.resistance / 10),
            "temperature": lambda m, q: 1 / (0.003354 + q.log / q.constant),
        },
    ),
    "a traverse": Case(
        {"first": (120.0, 0.01), "angle": (0.61, 0.0002), "second": (85.0, 0.01)},
        {
            "east": lambda m, q: q.first * m.cos(q.angle) + q.second,
            "north": lambda m, q: q.first * m.sin(q.angle) - q.second / 2,
            "away": lambda m, q: m.hypot(q.east, q.north),
        },
    ),
    "a difference that is small beside both, and its root": Case(
        {"gross": (152.318, 0.002), "tare": (151.204, 0.002)},
        {"net": lambda m, q: q.gross - q.tare, "size": lambda m, q: m.root(q.net)},
    ),
}


def propagated(case: Case) -> dict[str, Any]:
    """The quantities, as `uncertainties` has them."""
    found = SimpleNamespace()
    for name, (value, u) in case.read.items():
        setattr(found, name, uncertainties.ufloat(value, u))
    for name, formula in case.given.items():
        setattr(found, name, formula(THEIRS, found))
    return vars(found)


def stated(w: Workbench, case: Case, wanted: Mapping[str, Any]) -> dict[str, Quantity]:
    """The same quantities, laws and readings of a workbench, between ends around what is wanted."""
    found = SimpleNamespace()
    for name, value in wanted.items():
        room = 9 * value.std_dev
        low, high = (f"{value.nominal_value + off:.12g}" for off in (-room, room))
        setattr(found, name, w.measured(name, low=low, high=high))
    for name, formula in case.given.items():
        w.law(getattr(found, name) == formula(OURS, found))
    for name, (value, u) in case.read.items():
        w.read(f"{name} is read", getattr(found, name), f"{value:.12f} u={u:.12f}")
    return vars(found)


def check(found: Adjustment, cells: Mapping[str, Quantity], wanted: Mapping[str, Any]) -> None:
    """Whether values, deviations and correlations are those that are wanted."""
    for each in found:
        theirs = wanted[each.name]
        assert each.value == pytest.approx(theirs.nominal_value, rel=1e-9)
        assert each.u == pytest.approx(theirs.std_dev, rel=1e-6), each.name
    names = list(wanted)
    table = uncertainties.correlation_matrix([wanted[name] for name in names])
    for one, other in combinations(range(len(names)), 2):
        ours = found.correlation(cells[names[one]], cells[names[other]])
        assert ours == pytest.approx(table[one][other], abs=1e-6), (names[one], names[other])


@pytest.mark.parametrize("name", CASES)
def test_what_laws_give(name: str) -> None:
    wanted = propagated(CASES[name])
    with Workbench() as w:
        cells = stated(w, CASES[name], wanted)
        check(w.adjust(), cells, wanted)


def drawn(draw: random.Random, depth: int) -> Formula:
    """A random formula of three readings near 2, which has a value and slopes there."""
    if depth == 0:
        name = draw.choice("abc")
        return lambda m, q: getattr(q, name)
    one, other = drawn(draw, depth - 1), drawn(draw, draw.randint(0, depth - 1))
    factor = draw.randint(2, 9)
    return draw.choice(
        [
            lambda m, q: one(m, q) + factor * other(m, q),
            lambda m, q: one(m, q) * other(m, q) / factor,
            lambda m, q: factor * one(m, q) / (5 + other(m, q) ** 2),
            lambda m, q: m.root(9 + one(m, q) ** 2),
            lambda m, q: m.exp(m.sin(one(m, q))) + other(m, q),
            lambda m, q: m.ln(3 + one(m, q) ** 2) - m.atan(other(m, q)),
        ]
    )


@pytest.mark.parametrize("seed", range(12))
def test_random_formulas(seed: int) -> None:
    draw = random.Random(seed)
    read = {name: (draw.uniform(1.5, 2.5), draw.choice([1e-4, 1e-3, 2e-3])) for name in "abc"}
    formulas = {f"x{k}": drawn(draw, draw.randint(1, 3)) for k in range(3)}
    wanted = propagated(Case(read, formulas))
    with Workbench() as w:
        cells = stated(w, Case(read, formulas), wanted)
        check(w.adjust(), cells, wanted)


def test_what_one_device_read_goes_together() -> None:
    """Lengths by one caliper share its offset and its scale: their difference keeps no offset."""
    offset, scale = (uncertainties.ufloat(0, size / 3**0.5) for size in (0.3, 0.01))
    digits = [uncertainties.ufloat(shown, 0.1 / 3**0.5) for shown in (50.0, 20.0)]
    one, other = (shown * (1 + scale) + offset for shown in digits)
    wanted = {"one": one, "other": other, "rest": one - other}
    with Workbench() as w:
        cells = {name: w.measured(name, unit="mm", low=1, high=99) for name in wanted}
        w.law(cells["rest"] == cells["one"] - cells["other"])
        caliper = w.device("caliper", offset="0.3 mm", scale="1 %")
        for name, shown in (("one", "50.0 +- 0.1 mm"), ("other", "20.0 +- 0.1 mm")):
            w.read(f"{name} is read", cells[name], shown, by=caliper)
        check(w.adjust(), cells, wanted)


def test_a_curve_is_off_by_what_is_said_of_it() -> None:
    """Lines from (0, 0) by (1, 25.2) to (2, 49.9), off by 0.3 at the most: by the same error for
    one argument, and by another for another."""
    voltage, other = uncertainties.ufloat(1.5, 0.003), uncertainties.ufloat(0.5, 0.002)
    error, another = (uncertainties.ufloat(0, 0.3 / 3**0.5) for _ in "ab")
    lamp = 25.2 + 24.7 * (voltage - 1) + error
    wanted = {
        "voltage": voltage,
        "other": other,
        "lamp": lamp,
        "again": 2 * lamp,
        "room": 25.2 * other + another,
    }
    with Workbench() as w:
        units = {"voltage": "mV", "other": "mV"}
        ends = {"voltage": (1, 2), "other": (0, 1), "again": (0, 100)}
        cells = {}
        for name in wanted:
            low, high = ends.get(name, (0, 60))
            cells[name] = w.measured(name, unit=units.get(name, "K"), low=low, high=high)
        points: list[tuple[int, int | str]] = [(0, 0), (1, "25.2"), (2, "49.9")]
        probe = propbench.curve("probe", points, of="mV", unit="K", within="0.3")
        w.law(cells["lamp"] == probe(cells["voltage"]))
        w.law(cells["again"] == 2 * probe(cells["voltage"]))
        w.law(cells["room"] == probe(cells["other"]))
        w.read("meter", cells["voltage"], "1.5 mV u=0.003")
        w.read("other meter", cells["other"], "0.5 mV u=0.002")
        found = w.adjust()
        assert found.degrees == 0 and {each.premise for each in found.tests} == {
            "meter",
            "other meter",
        }
        check(found, cells, wanted)


def test_the_table_names_what_goes_together_the_most() -> None:
    """Of x = a + b + c + d each part's correlation is its deviation by that of x."""
    parts = {"a": 0.01, "b": 0.02, "c": 0.04, "d": 0.00005}
    with Workbench() as w:
        cells = {name: w.measured(name, unit="m", low=0, high=9, step="1e-6") for name in parts}
        x = w.measured("x", unit="m", low=0, high=36, step="1e-6")
        exact = w.measured("exact", unit="m", low=0, high=9)
        w.law(x == cells["a"] + cells["b"] + cells["c"] + cells["d"])
        w.read("exact", exact, 5)
        for name, u in parts.items():
            w.read(f"{name} is read", cells[name], f"2 m u={u}")
        found = w.adjust()
        rows = {row[0]: row[-1] for row in found.rows()}
        # (the root of 0.0001 + 0.0004 + 0.0016 is 0.045826)
        assert rows["x"] == "0.87 c, 0.44 b" and rows["a"] == "0.22 x"
        assert rows["d"] == "" and rows["exact"] == ""
        assert found.correlation(cells["a"], x) == pytest.approx(0.01 / 0.045826, rel=1e-4)
        assert found.correlation(x, exact) is None and "0.87 c" in str(found)
