"""Devices whose readings share their errors: answers beside exact fractions and drawn truths."""

import math
import random
from collections.abc import Iterator, Sequence
from fractions import Fraction
from itertools import product
from pathlib import Path

import pytest
from conftest import TIMES
from test_measured import Ends, ends, is_tight

from propbench import Conflict, MixedUnits, UnknownUnit, Workbench, sin
from propbench.measuring.quantities import Quantity

SCALE, OFFSET, DIGIT = Fraction(1, 1000), Fraction(2, 100), Fraction(5, 1000)


@pytest.fixture
def w() -> Iterator[Workbench]:
    with Workbench() as made:
        yield made


def quantity(w: Workbench, name: str, unit: str = "mm", low: int = 1) -> Quantity:
    return w.measured(name, unit=unit, low=low, high=100, step="0.0001")


def corners(of: Sequence[Fraction]) -> Ends:
    return min(of), max(of)


def shown(middle: int) -> tuple[Fraction, Fraction]:
    return middle - DIGIT, middle + DIGIT


@pytest.mark.parametrize("laws_first", [True, False])
def test_a_difference_keeps_no_offset_and_a_ratio_no_scale(w: Workbench, laws_first: bool) -> None:
    """x = shown (1 + s) + o, with the same s and o: the difference is that of what is shown times
    1 + s, and of a device without an offset the ratio is that of what is shown."""
    a, b, difference = (quantity(w, name) for name in ("a", "b", "difference"))
    ratio = quantity(w, "ratio", "1", 0)
    both = w.device("caliper", offset="0.02 mm", scale="0.1 %")
    scale = w.device("tape", scale="0.1 %")
    c, e, other = quantity(w, "c"), quantity(w, "e"), quantity(w, "other", "1", 0)

    def laws() -> None:
        w.law(difference == a - b)
        w.law(ratio == a / b)
        w.law(other == c / e)

    if laws_first:
        laws()
    for name, cell, by, reading in (
        ("one", a, both, "50.00 mm"),
        ("two", b, both, "20.00"),
        ("three", c, scale, "50.00 mm"),
        ("four", e, scale, "20.00 mm"),
    ):
        w.read(name, cell, reading, by=by)
    if not laws_first:
        laws()
    gains = (1 - SCALE, 1 + SCALE)
    assert is_tight(
        a.ask(), corners([y * g + o for y in shown(50) for g in gains for o in (-OFFSET, OFFSET)])
    )
    assert is_tight(
        difference.ask(), corners([(30 + k * DIGIT) * g for k in (-2, 2) for g in gains])
    )
    assert difference.ask().because == ("caliper", "one", "two")
    assert is_tight(other.ask(), corners([y / z for y in shown(50) for z in shown(20)]), "0.01")
    wanted = corners(
        [
            (y * g + o) / (z * g + o)
            for y, z, g, o in product(shown(50), shown(20), gains, (-OFFSET, OFFSET))
        ]
    )
    assert is_tight(w.shave(ratio), wanted, "0.05")


def test_temperatures_of_a_thermometer(w: Workbench) -> None:
    inside = w.measured("inside", unit="degC", low=-50, high=150, step="0.01")
    outside = w.measured("outside", unit="degC", low=-50, high=150, step="0.01")
    more = w.measured("more", unit="K", low=-50, high=50, step="0.01")
    w.law(more == inside - outside)
    meter = w.device("thermometer", offset="0.5 K")
    w.read("in", inside, "20.0 degC", by=meter)
    w.read("out", outside, "15.0", by=meter)
    assert is_tight(inside.ask(), ends("19.45", "20.55"))
    assert is_tight(more.ask(), ends("4.9", "5.1"))
    with pytest.raises(ValueError, match="whose zero is none of a scale"):
        w.read("bad", inside, "20.0", by=w.device("other", scale="1 %"))


def test_no_truth_is_lost_and_no_innocent_reading_convicted() -> None:
    """Drawn truths, errors within what is said of the device, and what it shows then."""
    for seed in range(3 * TIMES):
        draw = random.Random(seed)
        with Workbench() as w:
            reals = [Fraction(draw.randint(20_000, 90_000), 1000) for _ in range(3)]
            names = [quantity(w, name) for name in "abc"]
            cells = {
                "difference": (names[0] - names[1], "mm", reals[0] - reals[1]),
                "ratio": (names[1] / names[2], "1", reals[1] / reals[2]),
                "area": (names[0] * names[2], "mm2", reals[0] * reals[2]),
                "sum": (
                    names[0] + names[1] - names[2] * 2,
                    "mm",
                    reals[0] + reals[1] - 2 * reals[2],
                ),
            }
            error = {role: Fraction(draw.randint(-1000, 1000), 1000) for role in ("s", "o")}
            kinds = draw.choice([("s", "o"), ("s",), ("o",)])
            meter = w.device(
                "meter",
                offset="0.02 mm" if "o" in kinds else None,
                scale="0.1 %" if "s" in kinds else None,
            )
            gain = 1 + SCALE * error["s"] * ("s" in kinds)
            shift = OFFSET * error["o"] * ("o" in kinds)
            wanted = {}
            for name, (term, unit, real) in cells.items():
                made = w.measured(name, unit=unit, low=-10_000, high=10_000, step="0.0001")
                w.law(made == term)
                wanted[made] = real
            for cell, real in zip(names, reals):
                y = (real - shift) / gain
                off = Fraction(draw.randint(-9, 9), 1000)
                w.read(f"of {cell.name}", cell, f"{float(y + off):.6f} mm +- 0.010001", by=meter)
                wanted[cell] = real
            for made, real in wanted.items():
                for answer in (made.ask(), w.shave(made, seconds=1)):
                    assert answer.low is not None and answer.high is not None
                    assert Fraction(answer.low) <= real <= Fraction(answer.high), (seed, made)
            assert list(w.outliers(seconds=20)) == [frozenset()]


def test_no_truth_is_lost_beside_functions() -> None:
    """Lengths by one tape in laws with a sine: all drawn truths lie in the answers."""
    draw = random.Random(5)
    for number in range(15 * TIMES):
        sides, degrees = [draw.uniform(2, 9), draw.uniform(2, 9)], draw.uniform(5, 85)
        offset, gain = draw.uniform(-0.02, 0.02), 1 + draw.uniform(-0.001, 0.001)
        sine = math.sin(math.radians(degrees))
        truths = [sides[0] * sine - sides[1], (sides[0] - sides[1]) * sine]
        with Workbench() as w:
            tape = w.device("tape", offset="0.02 m", scale="0.1 %" if number % 3 else None)
            gain = gain if number % 3 else 1
            one, other = (w.measured(n, unit="m", low=1, high=10) for n in ("one", "other"))
            angle = w.measured("angle", unit="deg", low=1, high=89)
            height = w.measured("height", unit="m", low=-20, high=20)
            laws = [height == one * sin(angle) - other, height == (one - other) * sin(angle)]
            if number % 2:
                w.law(laws[number % 4 // 2])
            for cell, truth in ((one, sides[0]), (other, sides[1])):
                shows = (truth - offset) / gain + draw.uniform(-0.005, 0.005)
                w.read(cell.name, cell, f"{shows:.9f} +- 0.00501 m", by=tape)
            w.read("compass", angle, f"{degrees + draw.uniform(-0.1, 0.1):.9f} +- 0.101 deg")
            if not number % 2:
                w.law(laws[number % 4 // 2])
            wanted = {one: sides[0], other: sides[1], angle: degrees}
            for cell, truth in (*wanted.items(), (height, truths[number % 4 // 2])):
                answer = cell.ask()
                assert answer.low is not None and answer.high is not None
                assert float(answer.low) - 1e-9 <= truth <= float(answer.high) + 1e-9, number


def test_the_device_is_named(w: Workbench) -> None:
    a, b, difference = (quantity(w, name) for name in ("a", "b", "difference"))
    w.law(difference == a - b)
    meter = w.device("caliper", scale="0.1 %")
    w.read("one", a, "50.00 mm", by=meter)
    w.read("two", b, "20.00 mm", by=meter)
    w.read("block", difference, "30.1 +- 0.01 mm")
    with pytest.raises(Conflict) as caught:
        difference.ask()
    assert set(caught.value.premises) == {"caliper", "one", "two", "block"}
    assert caught.value.says["one"] == "a by caliper = 50.00 mm"
    assert frozenset(["caliper"]) in w.outliers()
    w.kick("block")
    found = {each.premise: each for each in w.improvements(difference)}
    halved, without = found["caliper"].halved, found["caliper"].left_out
    assert halved is not None and without is not None
    # (30 with 0.01 of digits and a half permille of the scale, either way)
    assert Fraction(halved.width) == pytest.approx(Fraction("0.05"), rel=0.01)
    assert without.width > 5
    w.kick("caliper")
    assert a.ask().width is not None and float(a.ask().width or 0) > 10


def test_repeated_readings(w: Workbench) -> None:
    x = quantity(w, "x")
    meter = w.device("caliper", offset="0.02 mm")
    w.read("run", x, ["5.10 mm +- 0.05", "5.14 mm +- 0.05", (5, "5.2 mm")], by=meter)
    assert w.premises == ("caliper", "run 1", "run 2", "run 3")
    assert is_tight(x.ask(), ends("5.07", "5.17"))
    w.read("again", x, ["5.12 mm +- 0.01"])
    assert is_tight(x.ask(), ends("5.11", "5.13"))
    before = list(w.network.events)
    with pytest.raises(UnknownUnit):
        w.read("run", x, ["5.10 mm", "5.1 or so"])
    with pytest.raises(ValueError, match="the list is empty"):
        w.read("run", x, [])
    assert list(w.network.events) == before


def test_tables_name_devices(w: Workbench) -> None:
    a, b, difference = (quantity(w, name) for name in ("a", "b", "difference"))
    w.law(difference == a - b)
    w.device("caliper", offset="0.02 mm")
    rows = [
        {"quantity": name, "value": f"{at}.00 mm", "device": "caliper"}
        for name, at in (("a", 50), ("b", 20))
    ]
    assert w.read_table(rows) == 2
    assert is_tight(difference.ask(), ends("29.99", "30.01"), "0.01")
    assert [each.name for each in w.results()] == ["a", "b", "difference"]
    assert [each.name for each in w.sought] == ["difference"]


@pytest.mark.parametrize(
    "given, says",
    [
        ({}, "needs offset= or scale="),
        ({"offset": "0 mm"}, "is more than 0"),
        ({"offset": "-1 mm"}, "is more than 0"),
        ({"scale": "0.1 mm"}, "is a share"),
        ({"scale": "50 %"}, "less than a half"),
        ({"offset": "0.2 degC"}, "write it in K"),
        ({"offset": "0.2 or so"}, "no unit that is known"),
    ],
)
def test_what_is_no_device(w: Workbench, given: dict[str, str], says: str) -> None:
    with pytest.raises(ValueError, match=says):
        w.device("caliper", **given)
    assert not w.devices and not w.cells


@pytest.mark.parametrize(("offset", "scale"), [(None, "1 %"), ("5e11 m", None), ("5 m", "30 %")])
def test_a_quantity_of_as_many_steps_as_a_cell_counts(
    w: Workbench, offset: str | None, scale: str | None
) -> None:
    """What a device shows of it reaches farther, and is counted in a coarser step: the answer holds
    all that the errors allow, and hardly more."""
    x = w.measured("x", unit="m", low=0, high=10**12, step="2e-6")
    device = w.device("device", offset=offset, scale=scale)
    w.read("reading", x, (5 * 10**11, 5 * 10**11 + 1), by=device)
    share = Fraction((scale or "0 %").removesuffix(" %")) / 100
    off = Fraction((offset or "0 m").removesuffix(" m"))
    least = max(Fraction(0), 5 * 10**11 * (1 - share) - off)
    most = min(Fraction(10**12), (5 * 10**11 + 1) * (1 + share) + off)
    assert is_tight(x.ask(), (least, most), "1e-5")


def test_devices_are_of_their_workbench(w: Workbench) -> None:
    x, mass = quantity(w, "x"), quantity(w, "mass", "g")
    meter = w.device("caliper", offset="0.02 mm")
    for name in ("caliper", "mine"):
        w.read("mine", x, "5.00 mm") if name == "mine" and "mine" not in w.premises else None
        with pytest.raises(ValueError, match="there is a premise of this name"):
            w.device(name, scale="1 %")
    before = list(w.network.events)
    with pytest.raises(MixedUnits, match="the offset of 'caliper' is in mm"):
        w.read("heavy", mass, "5.00 g", by=meter)
    with pytest.raises(TypeError, match="make one by `w.device`"):
        w.read("heavy", mass, "5.00 g", by="caliper")  # type: ignore[arg-type]
    with Workbench() as other, pytest.raises(ValueError, match="a cell of another workbench"):
        other.read("far", quantity(other, "y"), "5.00 mm", by=meter)
    assert list(w.network.events) == before
    with w.what_if():
        w.device("tape", scale="1 %")
        assert list(w.devices) == ["caliper", "tape"]
    assert list(w.devices) == ["caliper"]


def test_a_bench_with_devices_is_kept(w: Workbench, tmp_path: Path) -> None:
    a, b, difference = (quantity(w, name) for name in ("a", "b", "difference"))
    w.law(difference == a - b)
    meter = w.device("caliper", offset="0.02 mm", scale="0.1 %")
    w.read("one", a, "50.00 mm", by=meter)
    w.read("two", b, "20.00 mm", by=meter)
    w.save(tmp_path / "bench.prop")
    with Workbench.load(tmp_path / "bench.prop") as again:
        cell = again.cell("difference")
        assert isinstance(cell, Quantity)
        assert str(cell.ask()) == str(difference.ask())
