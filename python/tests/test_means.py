"""Means of repeated readings and how readings are distributed, beside exact fractions and SciPy."""

from decimal import Decimal
from fractions import Fraction
from math import sqrt
from pathlib import Path

import pytest

from propbench import NoReading, Workbench
from propbench.measuring.means import mean_in
from propbench.measuring.quantities import Quantity
from propbench.measuring.readings import reading_of
from propbench.measuring.units import unit_of

VOLT = unit_of("V")


@pytest.mark.parametrize(
    ("text", "taken"),
    [
        ("12.34 V s=0.05 n=10", "4.10"),
        ("12.34 V, s = 50 mV, n = 10", "4.10"),
        ("12.34 s=0.05 n=2", "235.81"),
        ("12.34 V s=0.05 V n=31", "3.28"),
        ("12.34 V s=0.05 n=5000", "3.08"),
    ],
)
def test_a_mean_of_readings(text: str, taken: str) -> None:
    """Its bound is s / sqrt(n), so many times (GUM, table G.2, rounded up)."""
    found = reading_of(text, VOLT)
    count = int(text.rpartition("=")[2])
    half = Fraction(taken) * Fraction("0.05") * Fraction(1 / sqrt(count))
    assert found.coverage == Fraction(taken)
    assert found.low + found.high == 2 * Fraction("12.34")
    assert half <= (found.high - found.low) / 2 * (1 + Fraction(1, 10**12))
    assert float(found.high - found.low) == pytest.approx(float(2 * half), rel=1e-12)
    twice = reading_of(text, VOLT, coverage=2)
    assert twice.coverage == Fraction(taken) * Fraction(2, 3)


def test_how_often_it_is_taken_is_what_student_has() -> None:
    """Never less than the 99.73 of 100 of as many degrees, and by less than 0.02 more of few."""
    stats = pytest.importorskip("scipy.stats")
    share = stats.norm.cdf(3)
    for count in range(2, 300):
        made = mean_in(f"1 V s=1 n={count}")
        assert made is not None
        most = float(made[2] * 3)
        exact = float(stats.t.ppf(share, count - 1))
        assert exact <= most, count
        assert most < exact + 0.02 or count > 21, count


@pytest.mark.parametrize(
    ("text", "says"),
    [
        ("12 V s=0.05", "of how many readings"),
        ("12 V s=0.05 n=1", "n is 2 or more"),
        ("12 V s=0.05 n=few", "of how many readings"),
        ("12 V s= n=4", "is no reading"),
        ("12 V s=-0.1 n=4", "less than nothing"),
        ("12 V +- 1 V s=0.1 n=4", "a bound and a standard uncertainty"),
        ("12 V u=0.1 triangular", "a standard uncertainty is one, however"),
        ("12 V s=0.1 n=4 normal", "a standard uncertainty is one, however"),
    ],
)
def test_what_is_no_mean_and_no_distribution(text: str, says: str) -> None:
    with pytest.raises(NoReading, match=says):
        reading_of(text, VOLT)


def test_distributions_of_readings(tmp_path: Path) -> None:
    """Bounds are as they are; u is the half width by the roots of 3 and of 6, and a third."""
    pytest.importorskip("scipy")
    with Workbench() as w:
        shapes = {"rectangular": sqrt(3), "triangular": sqrt(6), "normal": 3.0}
        rows = [
            {"quantity": name, "value": "5.0 V", "uncertainty": f"0.2 {name}"} for name in shapes
        ]
        rows.append({"quantity": "mean", "value": "5.0 V", "uncertainty": "s=0.3 n=9"})
        for name in (*shapes, "mean"):
            w.measured(name, "V", 0, 10, step="0.0001")
        w.read_table(rows)
        w.save(tmp_path / "bench.prop")
        with Workbench.load(tmp_path / "bench.prop") as again:
            for bench in (w, again):
                found = {each.name: each.u for each in bench.adjust()}
                for name, divisor in shapes.items():
                    cell = bench.cell(name)
                    assert isinstance(cell, Quantity)
                    answer = cell.ask()
                    assert (answer.low, answer.high) == (Decimal("4.8"), Decimal("5.2"))
                    assert found[name] == pytest.approx(0.2 / divisor)
                assert found["mean"] == pytest.approx(0.3 / 3)


def test_a_file_with_another_distribution_is_refused(tmp_path: Path) -> None:
    path = tmp_path / "bench.prop"
    with Workbench() as w:
        w.read("meter", w.measured("x", "V", 0, 10), "5.0 +- 0.2 V triangular")
        w.save(path)
    text = path.read_text()
    assert text.count('"triangular"') == 1
    for wrong in ('"round"', '"normal", "normal"', "5", "null"):
        path.write_text(text.replace('"triangular"', wrong))
        with pytest.raises(ValueError):
            Workbench.load(path)


def test_what_repeated_readings_have_in_common_is_within_their_mean_s_bound() -> None:
    """Each has the bound b: their mean has it too, and what they have in common is no wider."""
    shown = ["12.31", "12.36", "12.30", "12.35"]
    with Workbench() as w:
        x = w.measured("x", "V", 0, 20, step="0.001")
        w.read("run", x, [f"{each} V +- 0.04" for each in shown])
        answer = x.ask()
        mean = sum(map(Fraction, shown)) / 4
        assert answer.low == max(map(Fraction, shown)) - Fraction("0.04")
        assert answer.high == min(map(Fraction, shown)) + Fraction("0.04")
        assert answer.low is not None and answer.high is not None
        assert mean - Fraction("0.04") <= Fraction(answer.low)
        assert Fraction(answer.high) <= mean + Fraction("0.04")
