"""Functions of measured quantities, in every direction: expected values are those of Python's
`math`, and ends have to lie outside them, and near."""

import math
from collections.abc import Callable, Iterator
from decimal import Decimal
from fractions import Fraction
from pathlib import Path

import pytest
from conftest import hide

import propbench as p
from propbench import Conflict, MixedUnits, NoReading, Undefined, Workbench
from propbench.measuring import enclosing
from propbench.measuring.curves import Exponential, Power, Tangent, Wave, inverse
from propbench.measuring.quantities import MeasuredAnswer
from propbench.measuring.readings import reading_of
from propbench.measuring.shapes import Function, FunctionName
from propbench.measuring.slopes_of import value_and_slope
from propbench.measuring.stating import BendTold
from propbench.measuring.terms import Term
from propbench.measuring.units import unit_of
from propbench.model.measures import Interval

pytest.importorskip("mpmath")


@pytest.fixture
def w(wide: str) -> Iterator[Workbench]:
    with Workbench(program=wide) as made:
        yield made


def is_near(answer: MeasuredAnswer, low: float, high: float, most: float = 1.01) -> bool:
    """Whether an answer has all from one number to another, and is hardly wider."""
    assert answer.low is not None and answer.high is not None
    tiny = Decimal(max(abs(low), abs(high)) * 1e-12)
    is_outside = answer.low <= Decimal(low) + tiny and Decimal(high) - tiny <= answer.high
    return is_outside and float(answer.high - answer.low) <= most * (high - low) + 1e-7


def is_near_interval(found: Interval, low: float, high: float) -> bool:
    """Whether an interval has all from one number to another, and is hardly wider."""
    is_outside = float(found.low) <= low and high <= float(found.high)
    return is_outside and float(found.high - found.low) < 1.05 * (high - low)


Plain = Callable[[float], float]
# A function, its unit, what its argument may be, what is read of it, and the same by `math`.
# A function, the unit of its argument, that quantity's ends, what is read, and the same by `math`.
FunctionCase = tuple[
    Callable[[Term], Term], str, tuple[float | str, float], tuple[float, float], Plain
]
CASES: list[FunctionCase] = [
    (p.exp, "1", (0, 10), (1.98, 2.02), math.exp),
    (p.exp, "1", (-20, 20), (-3, -2), math.exp),
    (p.ln, "1", ("0.001", 1000), (7.2, 7.5), math.log),
    (p.ln, "1", ("0.001", 1000), (0.01, 0.012), math.log),
    (p.exp10, "1", (-6, 3), (-2.1, -1.9), lambda x: 10**x),
    (p.log10, "1", ("1e-6", 1), (0.001, 0.0011), math.log10),
    (p.sin, "deg", (0, 90), (29, 31), lambda x: math.sin(math.radians(x))),
    (p.sin, "rad", (-1, 1), (0.1, 0.2), math.sin),
    (p.cos, "deg", (0, 180), (100, 130), lambda x: math.cos(math.radians(x))),
    (p.cos, "rad", (3.2, 6), (4, 5), math.cos),
    (p.tan, "deg", (-80, 80), (-70, 60), lambda x: math.tan(math.radians(x))),
    (p.tan, "rad", (2, 4), (2.9, 3), math.tan),
    (p.asin, "1", (-1, 1), (0.49, 0.51), math.asin),
    (p.acos, "1", (-1, 1), (-0.9, -0.8), math.acos),
    (p.atan, "1", (-100, 100), (-2, 3), math.atan),
    (lambda x: x ** Fraction(2, 3), "1", (0, 100), (26, 28), lambda x: float(x ** (2 / 3))),
    (lambda x: x ** Fraction(5, 2), "1", (0, 10), (2, 2.1), lambda x: float(x**2.5)),
    (lambda x: x ** Fraction(-1, 3), "1", (1, 1000), (8, 9), lambda x: float(x ** (-1 / 3))),
    (
        lambda x: p.degrees(p.asin(x)),
        "1",
        (-1, 1),
        (0.2, 0.3),
        lambda x: math.degrees(math.asin(x)),
    ),
    (lambda x: p.degrees(x) / "1 deg", "rad", (0, 7), (1, 1.1), math.degrees),
    (lambda x: p.radians(x), "deg", (0, 400), (10, 11), math.radians),
]


@pytest.mark.parametrize("case", CASES)
def test_each_function_in_both_directions(w: Workbench, case: FunctionCase) -> None:
    function, unit, ends, read, plain = case
    argument = w.measured("argument", unit=unit, low=ends[0], high=ends[1])
    in_unit = "deg" if function(argument).real.dimension else "1"
    most = 100_000 if function is p.exp else 1000
    value = w.measured("value", unit=in_unit, low=-most, high=most)
    w.law(value == function(argument))
    w.read("argument is read", argument, read)
    expected = sorted(map(plain, read))
    assert is_near(value.ask(), expected[0], expected[1])
    w.kick("argument is read")
    w.read("value is read", value, (Decimal(expected[0]), Decimal(expected[1])))
    assert is_near(argument.ask(), read[0], read[1])


def test_a_sine_beyond_its_turns(w: Workbench) -> None:
    angle = w.measured("angle", unit="deg", low=0, high=360)
    sine = w.measured("sine", low=-1, high=1)
    w.law(sine == p.sin(angle))
    w.read("about the top", angle, "85..100 deg")
    assert is_near(sine.ask(), math.sin(math.radians(100)), 1)
    w.kick("about the top")
    w.read("a sine", sine, "0.5 +- 0.01")
    first, last = (math.degrees(math.asin(each)) for each in (0.49, 0.51))
    assert is_near(angle.ask(), first, 180 - first)
    w.read("to the right", angle, "0..90 deg")
    assert is_near(angle.ask(), first, last)
    w.kick("to the right")
    w.read("to the left", angle, "90..360 deg")
    assert is_near(angle.ask(), 180 - last, 180 - first)


def test_a_thermistor(w: Workbench) -> None:
    """R = R25 exp(B (1/T - 1/T25)), run backwards."""
    resistance = w.measured("R", unit="ohm", low=100, high=200_000, step="0.1")
    temperature = w.measured("T", unit="degC", low=-20, high=120, step="0.001")
    w.law(resistance == "10 kohm" * p.exp("3950 K" / temperature - Fraction(395000, 29815)))
    w.read("meter", resistance, "5.00 +- 0.01 kohm")

    def by_hand(ohm: float) -> float:
        return 1 / (1 / 298.15 + math.log(ohm / 10_000) / 3950) - 273.15

    assert is_near(temperature.ask(), by_hand(5010), by_hand(4990))


def test_an_angle_by_its_legs(w: Workbench) -> None:
    """atan2 left of the origin, and the hypotenuse beside it."""
    beside = w.measured("beside", unit="m", low=-5, high=5, step="0.001")
    above = w.measured("above", unit="m", low=1, high=5, step="0.001")
    angle = w.measured("angle", unit="deg", low=-180, high=180, step="0.001")
    way = w.measured("way", unit="m", low=0, high=10, step="0.001")
    w.law(angle == p.degrees(p.atan2(above, beside)))
    w.law(way == p.hypot(beside, above))
    w.read("x", beside, "-3.0 +- 0.1 m")
    w.read("y", above, "3.00 +- 0.01 m")
    corners = [math.degrees(math.atan2(y, x)) for x in (-3.1, -2.9) for y in (2.99, 3.01)]
    assert is_near(angle.ask(), min(corners), max(corners))
    assert is_near(way.ask(), math.hypot(2.99, 2.9), math.hypot(3.01, 3.1))
    with pytest.raises(Undefined, match="no value at the origin"):
        p.atan2(beside, beside)


def test_pi_is_more_exact_than_what_is_measured(w: Workbench) -> None:
    around = w.measured("around", unit="mm", low=0, high=1000, step="0.0001")
    across = w.measured("across", unit="mm", low=0, high=1000, step="0.0001")
    w.law(around == p.pi * across)
    w.read("tape", around, "314.16 +- 0.01 mm")
    assert is_near(across.ask(), 314.15 / math.pi, 314.17 / math.pi)


def test_a_curve_of_calibration(w: Workbench) -> None:
    probe = p.curve(
        "probe", [(0, 0), (10, 12), (50, 49), (100, "101.5")], of="mV", unit="K", within="0.05"
    )
    voltage = w.measured("voltage", unit="mV", low=0, high=100, step="0.001")
    rise = w.measured("rise", unit="K", low=0, high=110, step="0.001")
    w.law(rise == probe(voltage))
    w.read("thermometer", rise, "30.0 +- 0.1 K")
    assert is_near(voltage.ask(), 10 + 17.85 * 40 / 37, 10 + 18.15 * 40 / 37)
    w.kick("thermometer")
    w.read("meter", voltage, "75 +- 0.5 mV")
    slope = 52.5 / 50
    assert is_near(rise.ask(), 49 + 24.5 * slope - 0.05, 49 + 25.5 * slope + 0.05)


def test_a_curve_that_rises_and_falls(w: Workbench) -> None:
    hill = p.curve("hill", [(0, 0), (1, 10), (2, 4), (3, 8), (4, 8)])
    x, y = w.measured("x", low=0, high=4, step="0.0001"), w.measured("y", low=-5, high=15)
    w.law(y == hill(x))
    w.read("to the right", x, "2.2..2.4")
    assert is_near(w.shave(y), 4.8, 5.6)
    w.kick("to the right")
    w.read("high", y, "9..12")
    assert is_near(w.shave(x), 0.9, 1 + 1 / 6, 1.02)


def test_a_curve_that_is_none() -> None:
    with pytest.raises(ValueError, match="has 1 points, and needs two"):
        p.curve("short", [(1, 2)])
    with pytest.raises(ValueError, match="two points at one argument"):
        p.curve("twice", [(1, 2), (1, 3)])
    with pytest.raises(TypeError, match="is an argument and a value: .1, 2, 3."):
        p.curve("three", [(1, 2, 3)])  # type: ignore[list-item]
    with pytest.raises(ValueError, match="off by 0 or more, and not by -1"):
        p.curve("off", [(1, 2), (2, 3)], within=-1)


def test_levels(w: Workbench) -> None:
    power = w.measured("power", unit="mW", low="0.001", high=100, step="0.000001")
    sent = w.measured("sent", unit="dBm", low=-30, high=20, step="0.001")
    gain = w.measured("gain", unit="dB", low=-100, high=100, step="0.001")
    received = w.measured("received", unit="dBm", low=-60, high=60, step="0.001")
    volts = w.measured("volts", unit="V", low=0, high=100, step="0.0001")
    w.law(sent == p.level(power))
    w.law(received == sent + gain)
    w.law(volts == p.at_level(received, of="W").sqrt() * "7.0710678 ohm^(1/2)")
    w.read("amplifier", gain, "20.0 +- 0.5 dB")
    w.read("power meter", power, "2.00 +- 0.02 mW")
    low, high = (10 * math.log10(each) for each in (1.98, 2.02))
    assert is_near(sent.ask(), low, high)
    assert is_near(received.ask(), low + 19.5, high + 20.5)
    assert is_near(
        volts.ask(), (0.00198 * 50 * 10**1.95) ** 0.5, (0.00202 * 50 * 10**2.05) ** 0.5
    )
    for wrong in (received - sent == sent, sent + received == sent):
        with pytest.raises(MixedUnits, match="write `5 dB` for 5 decibels more"):
            w.law(wrong)
    with pytest.raises(MixedUnits, match="a level is that of a ratio of powers"):
        p.level("3 m")


def test_a_reading_of_dbw_is_one_of_dbm() -> None:
    read = reading_of("-7 dBW +- 0.5 dB", unit_of("dBm"))
    assert (read.low, read.high) == (Fraction(-15, 2), Fraction(-13, 2))
    assert reading_of("23 dBm", unit_of("dBW")).low == Fraction(-15, 2)


def test_how_acid_it_is(w: Workbench) -> None:
    ions = w.measured("ions", unit="mol/L", low="1e-9", high=1, step="1e-12")
    acid = w.measured("acid", unit="pH", low=0, high=9, step="0.001")
    w.law(acid == p.pH(ions))
    w.read("electrode", acid, "4.00 +- 0.05 pH")
    assert is_near(ions.ask(), 10**-4.05, 10**-3.95)
    w.kick("electrode")
    w.read("titration", ions, "0.010 +- 0.001 mol/L")
    assert is_near(acid.ask(), -math.log10(0.011), -math.log10(0.009))


SECOND = Fraction(1, 3600)
ANGLES = [
    ('12°34\'56.7" +- 2"', 45296.7, 2),
    ("12° 34′ 56″", 45296, 0.5),
    ("-12°34'56.7\"", -45296.7, 0.05),
    ("12°34.5'", 45270, 3),
    ("12 deg 34' +- 1'", 45240, 60),
    ('0°00\'05" u=1"', 5, 3),
    ("1°00'00''", 3600, 0.5),
    ("100 gon +- 1 mgon", 324000, 3.24),
]


@pytest.mark.parametrize(("text", "seconds", "off"), ANGLES)
def test_angles_in_minutes_and_seconds(text: str, seconds: float, off: float) -> None:
    read = reading_of(text, unit_of("deg"))
    exact, size = (Fraction(str(each)) * SECOND for each in (seconds, off))
    assert (read.low, read.high, read.written) == (exact - size, exact + size, text)


@pytest.mark.parametrize(
    "text", ["12°61'00\"", "12°34'60\"", "12°34.5'5\"", "12°34'5\"6", "5 m 3'"]
)
def test_angles_that_are_none(text: str) -> None:
    with pytest.raises(ValueError):
        reading_of(text, unit_of("deg"))


def test_a_minute_too_many_says_so() -> None:
    with pytest.raises(NoReading, match="61 minutes or seconds are 60 or more"):
        reading_of("12°61'00\"", unit_of("deg"))


def test_where_a_function_has_no_value(w: Workbench) -> None:
    x = w.measured("x", low=0, high=500)
    y = w.measured("y", low=-5, high=5)
    angle = w.measured("angle", unit="deg", low=0, high=90)
    mV = w.measured("mV", unit="mV", low=0, high=3)
    steps = p.curve("steps", [(1, 2), (2, 3)])
    probe = p.curve("probe", [(0, 2), ("2.4", 3)], of="mV")
    count = len(w.network.events)
    for law, said in (
        (
            y == p.ln(x),
            "`ln(x)` has no value for `x` where that is 0 or less, and it may be 0..500",
        ),
        (y == p.asin(x / 100), "beyond -1..1, and it may be 0..5: give"),
        (y == p.tan(angle), "at 90 deg and each half turn from there, and it may be 0..90 deg:"),
        (y == y ** Fraction(1, 3), "where that is less than 0, and it may be -5..5"),
        (
            y == p.sin(x),
            "`sin(x)` can't be told for `x` over more than 16 half turns, and it may be 0..500: ",
        ),
        (y == steps(x), "for `x` beyond its points, which reach over 1..2, and it may be 0..500"),
        (
            y == probe(mV),
            "beyond its points, which reach over 0..2.4 mV, and it may be 0..3 mV: give",
        ),
        (y == probe(2 * mV), "beyond its points, which reach over 0..0.0024 kg*m2/A/s3, and it"),
        (y == p.exp(x), "`exp(x)` can't be told for `x` above 400, and it may be 0..500: give its"),
    ):
        with pytest.raises(Undefined) as caught:
            w.law(law)
        assert said in str(caught.value)
        assert "give its quantities ends that leave this out" in str(caught.value)
    assert len(w.network.events) == count


def test_units_that_a_function_has_none_of(w: Workbench) -> None:
    angle = w.measured("angle", unit="deg", low=0, high=90)
    length = w.measured("length", unit="m", low=1, high=90)
    with pytest.raises(
        MixedUnits, match="`angle` is in deg, and `exp` is taken of .* a bare number"
    ):
        p.exp(angle)
    with pytest.raises(
        MixedUnits, match="`length` is in m, and `sin` is taken of what is an angle"
    ):
        p.sin(length)
    with pytest.raises(MixedUnits, match="or one as `degrees"):
        w.law(p.asin(length / "90 m") == angle)
    with pytest.raises(ValueError, match="fraction of 1000ths at the most"):
        length ** Fraction(1, 1001)


def test_a_law_with_a_function_under_a_premise(w: Workbench) -> None:
    x, y = w.measured("x", low=0, high=10), w.measured("y", low=0, high=30_000)
    w.law(y == p.exp(x), under="growth")
    w.read("rule", x, "2..2.1")
    assert is_near(y.ask(), math.exp(2), math.exp(2.1))
    w.kick("growth")
    assert y.ask().low == 0
    w.bring("growth")
    w.read("scale", y, "9 +- 0.1")
    with pytest.raises(Conflict) as caught:
        y.ask()
    assert set(caught.value.premises) == {"growth", "rule", "scale"}
    assert caught.value.says["growth"] == "y == exp(x); exp(x)"


def test_a_law_may_be_a_bound_by_a_function(w: Workbench) -> None:
    x, y = w.measured("x", low=0, high=10), w.measured("y", low=0, high=30_000)
    w.law(y <= p.exp(x))
    w.read("scale", y, "100..200")
    assert is_near(x.ask(), math.log(100), 10)


def test_functions_within_functions(w: Workbench) -> None:
    x, y = w.measured("x", low=1, high=10), w.measured("y", low=-1, high=1)
    w.law(y == p.sin(p.ln(x.sqrt() + 1) ** Fraction(3, 2)))
    w.read("rule", x, "2..2.1")
    low, high = (math.sin(math.log(each**0.5 + 1) ** 1.5) for each in (2, 2.1))
    assert is_near(y.ask(), low, high)


def test_pieces_are_halved_within_a_budget(w: Workbench) -> None:
    """Wherever it is asked, again and again."""
    x, y = w.measured("x", low=0, high=10), w.measured("y", low=0, high=30_000)
    w.law(y == p.exp(x))
    for place in range(200):
        middle = Decimal(place) / 20
        w.read("here", x, (middle, middle + Decimal("0.00001")))
        y.ask()
        w.forget("here")
    told = [each for each in w.network.events if isinstance(each, BendTold)]
    assert 200 < len(told) <= 600


def test_where_there_is_no_room_for_pieces_answers_are_wider(
    w: Workbench, monkeypatch: pytest.MonkeyPatch
) -> None:
    x, y = w.measured("x", low=0, high=10), w.measured("y", low=0, high=30_000)
    w.law(y == p.exp(x))
    w.read("here", x, "2 +- 0.01")

    def full(*events: object) -> None:
        raise ValueError("the program has no room for more instances; nothing of this was stated")

    with monkeypatch.context() as held:
        held.setattr(w.network, "do", full)
        answer = y.ask()
    assert answer.low is not None and answer.high is not None
    assert float(answer.low) < 7 and 7.5 < float(answer.high) < 10


def test_what_was_asked_is_asked_again_without_more_pieces(w: Workbench) -> None:
    x, y = w.measured("x", low=0, high=10), w.measured("y", low=0, high=30_000)
    w.law(y == p.exp(x))
    w.read("here", x, "2 +- 0.01")
    first, count = y.ask(), len(w.network.events)
    assert (y.ask(), len(w.network.events)) == (first, count)


def test_asking_changes_nothing_that_a_comparison_tells(w: Workbench) -> None:
    x, y = w.measured("x", low=0, high=10), w.measured("y", low=0, high=30_000)
    w.law(y == p.exp(x), under="growth")
    w.read("here", x, "2 +- 0.01")
    before = w.snapshot()
    assert is_near(y.ask(), math.exp(1.99), math.exp(2.01))
    assert not w.diff(before)


def test_a_reading_that_is_off_is_told_apart(w: Workbench) -> None:
    x, y = w.measured("x", low=0, high=10), w.measured("y", low=0, high=30_000)
    w.law(y == p.exp(x))
    w.read("here", x, "2 +- 0.01")
    w.read("there", y, "7.5 +- 0.01")
    ways = w.outliers()
    assert sorted(sorted(way) for way in ways) == [["here"], ["there"]]
    [left] = [way.off["there"].left for way in ways if "there" in way]
    assert is_near_interval(left, math.exp(1.99), math.exp(2.01))


def test_a_file_keeps_what_was_told(w: Workbench, wide: str, tmp_path: Path) -> None:
    x, y = w.measured("x", low=0, high=10), w.measured("y", low=0, high=30_000)
    w.law(y == p.exp(x))
    w.read("here", x, "2 +- 0.01")
    answer = y.ask()
    w.save(tmp_path / "w.prop")
    with Workbench.load(tmp_path / "w.prop", program=wide) as again:
        assert str(again.answer("why", again.cell("y").declared, None, None)) == str(answer)


def test_without_the_library_it_is_said(w: Workbench, monkeypatch: pytest.MonkeyPatch) -> None:
    x, y = w.measured("x", low=0, high=10), w.measured("y", low=0, high=30_000)
    hide(monkeypatch, "mpmath.ctx_iv")
    enclosing._intervals.cache_clear()
    with pytest.raises(enclosing.NoLibrary, match="apt install python3-mpmath"):
        w.law(y == p.exp(x))
    monkeypatch.undo()
    w.law(y == p.exp(x))


CURVES = [
    (Exponential(), Fraction(1, 3), math.exp),
    (Exponential(10), Fraction(-4, 3), lambda x: 10**x),
    (Power(Fraction(5, 3)), Fraction(7), lambda x: x ** (5 / 3)),
    (Wave(False, 0, True), Fraction(89), lambda x: math.sin(math.radians(x))),
    (Wave(False, -3, False), Fraction(-9), math.sin),
    (Wave(True, 4, False), Fraction(14), math.cos),
    (Tangent(1, True), Fraction(200), lambda x: math.tan(math.radians(x))),
]


@pytest.mark.parametrize(("curve", "at", "plain"), CURVES)
def test_curves_and_their_inverses(
    curve: Exponential | Power | Wave | Tangent, at: Fraction, plain: Plain
) -> None:
    low, high = curve.value(at)
    assert low <= high and math.isclose(float(low), plain(float(at)), rel_tol=1e-12)
    assert high - low < Fraction(1, 10**40)
    first, last = inverse(curve, (low + high) / 2)
    assert first <= at + Fraction(1, 10**30) and at - Fraction(1, 10**30) <= last
    bend = curve.bend(at - Fraction(1, 100), at + Fraction(1, 100))
    step = 1e-4
    by_hand = (plain(float(at) + step) - 2 * plain(float(at)) + plain(float(at) - step)) / step**2
    assert bend is not None and float(bend[0]) - 1e-3 <= by_hand <= float(bend[1]) + 1e-3


def test_a_turn_of_a_wave_has_its_extreme() -> None:
    for wave, extreme in ((Wave(False, 0, False), 1), (Wave(True, 1, False), -1)):
        first, last = inverse(wave, Fraction(extreme))
        half_turns = (float(first) / math.pi, float(last) / math.pi)
        assert any(math.isclose(each, round(2 * each) / 2) for each in half_turns)
        low, high = wave.value(wave.domain[1 if extreme == 1 else 0] or Fraction(0))
        assert low <= extreme <= high


@pytest.mark.parametrize("case", CASES[:17])
def test_values_and_slopes_for_estimates(w: Workbench, case: FunctionCase) -> None:
    function, unit, ends, read, plain = case
    argument = w.measured("argument", unit=unit, low=ends[0], high=ends[1])
    at = (read[0] + read[1]) / 2
    value, slope = value_and_slope(function(argument).real.applied, at)
    step = abs(at) * 1e-6
    assert math.isclose(value, plain(at), rel_tol=1e-12)
    by_hand = (plain(at + step) - plain(at - step)) / (2 * step)
    assert math.isclose(slope, by_hand, rel_tol=1e-5)


def test_where_there_is_no_slope() -> None:
    for name, at in (
        (FunctionName.LN, 0.0),
        (FunctionName.ASIN, 1.0),
        (FunctionName.EXP, 1e6),
        (FunctionName.ACOS, 2.0),
    ):
        with pytest.raises(ValueError):
            value_and_slope(Function(name), at)
    for exponent in (Fraction(2, 3), Fraction(-1, 2)):
        with pytest.raises(ValueError):
            value_and_slope(Function(FunctionName.POWER, exponent=exponent), -2.0)
    steps = p.curve("steps", [(0, 0), (1, 2), (2, 3)])
    applied = steps("1.5").real.applied
    assert value_and_slope(applied, 1.5) == (2.5, 1.0)
    with pytest.raises(ValueError, match="`steps` has no value"):
        value_and_slope(applied, 3)
