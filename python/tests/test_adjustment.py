"""Least squares beside exact fractions of the normal equations, and published examples."""

import random
from collections.abc import Iterator
from fractions import Fraction
from math import sqrt
from typing import Any

import pytest
from conftest import hide

from normal_equations import normal, solved
from propbench import Workbench, pi
from propbench.laboratory.adjustment import Adjustment, Estimate
from propbench.laboratory.least_squares import NoScipy
from propbench.measuring.quantities import Quantity
from propbench.questions.trial import Seen, Trial

pytest.importorskip("scipy")

LEVELS = [
    ("A", "B", "5.10", "0.02"),
    ("B", "C", "-2.34", "0.03"),
    ("C", "A", "-2.80", "0.02"),
    ("A", "C", "2.75", "0.05"),
    ("C", "D", "1.20", "0.02"),
    ("D", "B", "1.16", "0.04"),
]


@pytest.fixture
def w() -> Iterator[Workbench]:
    with Workbench() as made:
        yield made


def levelled(w: Workbench, lines: list[tuple[str, str, str, str]]) -> None:
    """A net of levels: heights above the mark A, which is exact, and lines with their u."""
    names = sorted({name for line in lines for name in line[:2]})
    heights = {name: w.measured(name, unit="m", low=0, high=300, step="0.00001") for name in names}
    w.read("mark", heights["A"], 100)
    for number, (begin, end, read, u) in enumerate(lines):
        line = w.measured(f"line {number}", unit="m", low=-300, high=300, step="0.00001")
        w.law(line == heights[end] - heights[begin])
        w.read(f"{begin} to {end} {number}", line, f"{read} u={u}")


def height(w: Workbench, name: str) -> Quantity:
    """The height of a mark."""
    cell = w.cell(name)
    assert isinstance(cell, Quantity)
    return cell


def by_name(found: Adjustment) -> dict[str, Estimate]:
    return {each.name: each for each in found}


def test_a_net_of_levels_as_the_normal_equations_have_it(w: Workbench) -> None:
    levelled(w, LEVELS)
    found = w.adjust()
    rows, right = normal(LEVELS)
    heights = dict(zip("BCD", solved(rows, right)))
    square = Fraction(0)
    for place, name in enumerate("BCD"):
        unit = [Fraction(int(each == place)) for each in range(3)]
        variance = solved(rows, unit)[place]
        estimate = by_name(found)[name]
        assert estimate.value == pytest.approx(float(100 + heights[name]), abs=1e-9)
        assert estimate.u == pytest.approx(sqrt(variance), rel=1e-6)
        assert estimate.expanded == pytest.approx(2 * sqrt(variance), rel=1e-6)
        for also, other in enumerate("BCD"):
            spread = solved(rows, [Fraction(int(each == also)) for each in range(3)])
            wanted = float(spread[place]) / sqrt(variance * spread[also])
            assert found.correlation(height(w, name), height(w, other)) == pytest.approx(wanted)
    heights["A"] = Fraction(0)
    residuals = {}
    for number, (begin, end, read, u) in enumerate(LEVELS):
        off = Fraction(read) - (heights[end] - heights[begin])
        square += (off / Fraction(u)) ** 2
        signs = [Fraction(int(name == end) - int(name == begin)) for name in "BCD"]
        share = sum(s * v for s, v in zip(signs, solved(rows, signs)))
        deviation = sqrt(Fraction(u) ** 2 - share)
        residuals[f"{begin} to {end} {number}"] = float(off), float(off) / deviation
    assert found.degrees == 3 and found.chi_square == pytest.approx(float(square), rel=1e-6)
    for test in found.tests:
        wanted, ratio = residuals[test.premise]
        assert test.residual == pytest.approx(wanted, abs=1e-9)
        assert test.w == pytest.approx(ratio, rel=1e-5)
    # (97.5 in 100 of three degrees are below 9.348, 95 below 7.815: tables of chi-square)
    assert found.limit == pytest.approx(7.815, abs=0.001)


def test_both_ways_on_one_net(w: Workbench) -> None:
    """Bounds of three u, and the estimates: each of them lies within what is proved."""
    levelled(w, LEVELS)
    for estimate in w.adjust():
        assert estimate.bounds is not None and estimate.value is not None
        assert float(estimate.bounds.low) <= estimate.value <= float(estimate.bounds.high)


def test_functions_in_laws(w: Workbench) -> None:
    """A circumference, and how high a slope goes: their u from the slopes, by hand."""
    width = w.measured("width", unit="mm", low=1, high=100, step="0.001")
    around = w.measured("around", unit="mm", low=1, high=400, step="0.001")
    side = w.measured("side", unit="m", low=1, high=3, step="0.0001")
    angle = w.measured("angle", unit="deg", low=10, high=50, step="0.001")
    height = w.measured("height", unit="m", low=0, high=3, step="0.0001")
    w.law(around == pi * width)
    w.law("height == side * sin(angle)")
    w.read("caliper", width, "10 mm u=0.02")
    w.read("tape", side, "2 m u=0.001")
    w.read("compass", angle, "30 deg u=0.1")
    found = by_name(w.adjust())
    assert found["around"].value == pytest.approx(31.4159265, abs=1e-6)
    assert found["around"].u == pytest.approx(3.14159265 * 0.02, rel=1e-4)
    assert found["height"].value == pytest.approx(1.0, abs=1e-6)
    parts = (0.5 * 0.001) ** 2 + (sqrt(3) * 0.1 * 3.14159265 / 180) ** 2
    assert found["height"].u == pytest.approx(sqrt(parts), rel=1e-4)


def test_the_concentration_of_a_standard(w: Workbench) -> None:
    """EURACHEM/CITAC CG 4, example A1: c = 1000 m P / V is 1002.7 mg/l, with u = 0.9 mg/l; the
    parts of c add up by their squares."""
    mass = w.measured("mass", unit="mg", low=90, high=110, step="0.001")
    purity = w.measured("purity", low="0.99", high="1.01", step="0.000001")
    volume = w.measured("volume", unit="mL", low=90, high=110, step="0.001")
    content = w.measured("content", unit="mg/L", low=800, high=1300, step="0.01")
    w.law(content == mass * purity / volume)
    w.read("balance", mass, "100.28 mg u=0.05")
    w.read("supplier", purity, "0.9999 +- 0.0001")
    w.read("flask", volume, "100.0 mL u=0.07")
    found = w.adjust()
    estimate = by_name(found)["content"]
    assert estimate.value == pytest.approx(1002.7, abs=0.05)
    assert estimate.u is not None and round(estimate.u, 1) == 0.9
    parts = (0.05 / 100.28) ** 2 + (0.0001 / 0.9999) ** 2 / 3 + (0.07 / 100) ** 2
    assert estimate.u == pytest.approx(1002.7 * sqrt(parts), rel=1e-4)
    assert found.degrees == 0 and "no reading controls another" in str(found)
    assert all(test.w is None for test in found.tests)
    [row] = [each for each in found.rows() if each[0] == "content"]
    assert row[1:5] == ("1002.7", "0.9", "1.7", "mg/L")


def test_shapes_and_standard_uncertainties(w: Workbench) -> None:
    """A bound of one is as a deviation 1/sqrt(3), 1/sqrt(6) or a third; u is what it is."""
    x = w.measured("x", unit="m", low=0, high=9)
    y = w.measured("y", unit="m", low=0, high=9)
    w.read("bound", x, "5 +- 1 m")
    w.read("deviation", y, "5 m u=0.25", coverage=2)
    w.read("certificate", y, "5 m U=0.5 m, k=2", coverage=2)
    assert y.ask().width == 1
    for shape, u in (("rectangular", 3**-0.5), ("triangular", 6**-0.5), ("normal", 1 / 3)):
        found = by_name(w.adjust(shape=shape, k=3))
        assert found["x"].u == pytest.approx(u) and found["x"].expanded == pytest.approx(3 * u)
        assert found["y"].u == pytest.approx(0.25 / sqrt(2))
    for wrong in ({"shape": "round"}, {"k": 0}):
        with pytest.raises(ValueError):
            w.adjust(**wrong)  # type: ignore[arg-type]


def test_a_device_makes_readings_depend_on_each_other(w: Workbench) -> None:
    """Of a difference by one device the offset is gone: u is that of two digits alone."""
    a, b, more = (
        w.measured(name, unit="mm", low=1, high=99, step="0.001") for name in ("a", "b", "more")
    )
    w.law(more == a - b)
    meter = w.device("caliper", offset="0.3 mm")
    w.read("one", a, "50.0 +- 0.1 mm", by=meter)
    w.read("two", b, "20.0 +- 0.1 mm", by=meter)
    found = by_name(w.adjust())
    assert found["more"].u == pytest.approx(sqrt(2 * 0.01 / 3), rel=1e-6)
    assert found["a"].u == pytest.approx(sqrt(0.01 / 3 + 0.09 / 3), rel=1e-6)


def test_what_the_readings_do_not_determine(w: Workbench) -> None:
    x, y, z = (w.measured(name, unit="m", low=0, high=9) for name in "xyz")
    w.law(x + y == z)
    w.read("one", x, "2 +- 0.1 m")
    found = by_name(w.adjust())
    assert found["x"].value == pytest.approx(2) and found["y"].value is None
    assert "not determined" in str(w.adjust())
    w.kick("one")
    assert all(each.value is None for each in w.adjust())


def test_the_blunder_is_the_most_suspect(w: Workbench) -> None:
    """Both ways name it: w is the largest there, and giving it up alone is a way of `outliers`."""
    lines = [(begin, end, read, "0.02") for begin, end, read, _ in LEVELS]
    lines[4] = ("C", "D", "2.20", "0.02")
    lines.append(("A", "D", "3.97", "0.02"))
    levelled(w, lines)
    found = w.adjust()
    assert found.suspects[0] == "C to D 4" and found.chi_square > found.limit
    assert "BEYOND" in str(found) and "readings conflict" in str(found)
    outliers = w.outliers(seconds=60)
    assert frozenset(["C to D 4"]) in outliers
    assert all(list(each) == sorted(each, key=w.premises.index) for each in outliers)


def test_random_nets_beside_exact_fractions() -> None:
    for seed in range(5):
        draw = random.Random(seed)
        names = "ABCDEFG"
        lines = [(names[k], names[k + 1], f"{draw.uniform(-9, 9):.3f}", "0.01") for k in range(6)]
        heights = {"A": 0.0}
        for begin, end, read, _ in lines:
            heights[end] = heights[begin] + float(read)
        for _ in range(6):
            begin, end = draw.sample(names, 2)
            read = f"{heights[end] - heights[begin] + draw.gauss(0, 0.02):.3f}"
            lines.append((begin, end, read, draw.choice(["0.01", "0.03"])))
        with Workbench() as w:
            levelled(w, lines)
            found = by_name(w.adjust())
            for name, wanted in zip(names[1:], solved(*normal(lines))):
                assert found[name].value == pytest.approx(float(100 + wanted), abs=1e-8)


def test_where_scipy_is_not_there(w: Workbench, monkeypatch: pytest.MonkeyPatch) -> None:
    """Statistics say what is missing; what is proved doesn't need it."""
    levelled(w, LEVELS)
    for name in ("scipy", "scipy.linalg", "scipy.stats"):
        hide(monkeypatch, name)
    with pytest.raises(NoScipy, match="sudo apt install python3-scipy"):
        w.adjust()
    assert list(w.outliers(seconds=60)) == [frozenset()]


def test_the_most_suspect_are_tried_first(monkeypatch: pytest.MonkeyPatch) -> None:
    """Of forty lines one is wrong: it is found, and by fewer looks than in the order of reading."""
    looks: list[int] = []
    look = Trial.look

    def counted(trial: Trial, *given: Any) -> Seen:
        looks[-1] += 1
        return look(trial, *given)

    monkeypatch.setattr(Trial, "look", counted)
    draw = random.Random(3)
    heights = [draw.randint(50_000, 99_000) for _ in range(16)]
    pairs = [(k, k + 1) for k in range(15)] + [tuple(draw.sample(range(16), 2)) for _ in range(25)]
    for is_ordered in (True, False):
        if not is_ordered:
            monkeypatch.setattr(Workbench, "_suspects_first", lambda w, names: list(names))
        with Workbench() as w:
            marks = [
                w.measured(f"P{k}", unit="m", low=0, high=100, step="0.001") for k in range(16)
            ]
            w.read("mark", marks[0], Fraction(heights[0], 1000))
            for number, (begin, end) in enumerate(pairs):
                line = w.measured(f"line {number}", unit="m", low=-99, high=99, step="0.001")
                w.law(line == marks[end] - marks[begin])
                shown = heights[end] - heights[begin] + draw.randint(-4, 4) + 100 * (number == 20)
                w.read(f"l{number}", line, f"{shown / 1000:.3f} +- 0.005 m")
            looks.append(0)
            assert list(w.outliers(most=1, seconds=100)) == [frozenset(["l20"])]
    assert looks[0] < looks[1]
