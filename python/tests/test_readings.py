"""Units and readings: what stands in them, in base units, worked out by hand."""

import time
from decimal import Decimal
from fractions import Fraction

import pytest

from propbench import MixedUnits, NoReading, UnknownUnit, Workbench
from propbench.measuring.readings import GivenReading, reading_of
from propbench.measuring.units import dimension_text, unit_of
from propbench.model.measures import Measure, rounded

# By hand, from the definitions of the units.
UNITS = {
    "mm": ("m", "0.001"),
    "mm2": ("m2", "0.000001"),
    "mm^2": ("m2", "0.000001"),
    "m/s": ("m/s", "1"),
    "km/h": ("m/s", "1000/3600"),
    "m/s2": ("m/s2", "1"),
    "m s-2": ("m/s2", "1"),
    "1/min": ("1/s", "1/60"),
    "g/mL": ("kg/m3", "1000"),
    "t": ("kg", "1000"),
    "ft": ("m", "0.3048"),
    "kg*m/s2": ("kg*m/s2", "1"),
    "N": ("kg*m/s2", "1"),
    "ohm": ("kg*m2/A2/s3", "1"),
    "kohm": ("kg*m2/A2/s3", "1000"),
    "MΩ": ("kg*m2/A2/s3", "1000000"),
    "µF": ("A2*s4/kg/m2", "0.000001"),
    "mV": ("kg*m2/A/s3", "0.001"),
    "mAh": ("A*s", "3.6"),
    "%": ("a bare number", "0.01"),
    "1": ("a bare number", "1"),
    "m**2": ("m2", "1"),
    "ppm/degC": ("1/K", "0.000001"),
    "%/°F": ("1/K", "9/500"),
    "degC/W": ("K*s3/kg/m2", "1"),
    # (13595.1 kg/m3, and 9.80665 m/s2, of which 0.001 m; a pound's weight on 0.0254 m squared)
    "mmHg": ("kg/m/s2", "133.322387415"),
    "Torr": ("kg/m/s2", "101325/760"),
    "psi": ("kg/m/s2", "44482216152605/6451600000"),
    "lbf": ("kg*m/s2", "4.4482216152605"),
    "ppb": ("a bare number", "1e-9"),
    "turn": ("deg", "360"),
    "rad": ("a bare number", "1"),
    "mrad": ("a bare number", "0.001"),
    "deg": ("deg", "1"),
    "arcsec": ("deg", "1/3600"),
    "°": ("deg", "1"),
    "m^(1/2)": ("m^(1/2)", "1"),
    "cm^(-3/2)": ("1/m^(3/2)", "1000"),
    "1/s^(1/4)": ("1/s^(1/4)", "1"),
    "picohenry": ("kg*m2/A2/s2", "1e-12"),
}


@pytest.mark.parametrize("text", UNITS)
def test_units(text: str) -> None:
    dimension, factor = UNITS[text]
    unit = unit_of(text)
    assert dimension_text(unit.dimension) == dimension
    assert unit.factor == Fraction(factor)


def test_volts_are_amperes_times_ohms() -> None:
    for left, right in (("V", "A*ohm"), ("W", "V*A"), ("C", "F*V"), ("Wb", "H*A"), ("S", "1/ohm")):
        assert unit_of(left).dimension == unit_of(right).dimension
        assert unit_of(left).factor == unit_of(right).factor


@pytest.mark.parametrize("text", ["", "foo", "m//s", "3", "mfoo", "m+s", "m s s-"])
def test_what_is_no_unit(text: str) -> None:
    with pytest.raises(UnknownUnit, match="is no unit that is known"):
        unit_of(text)


@pytest.mark.parametrize(
    "text",
    [
        "m 1",
        "m/12",
        "m0",
        "m01",
        "%2",
        "% m",
        "mm9999999999",
        "mm999",
        "mm^(1/2)",
        "m^(1/3)",
        "m^1/2",
    ],
)
def test_what_would_be_half_a_unit(text: str) -> None:
    """A number within, a share as a factor, a power or a root that is not exact."""
    with pytest.raises(UnknownUnit):
        unit_of(text)


@pytest.mark.parametrize("text", ["pH/m", "pH2", "1/pH"])
def test_a_unit_that_may_be_two_is_asked_for(text: str) -> None:
    with pytest.raises(UnknownUnit, match="a picohenry. A pH stands alone .* written `picohenry`"):
        unit_of(text)


def test_a_ph_is_no_picohenry() -> None:
    assert reading_of("7 pH", unit_of("pH")).low == Fraction(13, 2)
    for unit in ("nH", "1"):
        with pytest.raises(MixedUnits, match="'7 pH' is in pH"):
            reading_of("7 pH", unit_of(unit))


def test_degrees_and_radians_are_not_mixed() -> None:
    """Pi is no fraction, so neither is exactly so many of the other."""
    with pytest.raises(MixedUnits, match="no exact number of radians"):
        reading_of("0.5 rad", unit_of("deg"))
    with Workbench() as w:
        turn = w.measured("turn", unit="deg", low=0, high=360)
        arc = w.measured("arc", unit="rad", low=0, high=7)
        length = w.measured("length", unit="m", low=0, high=70)
        with pytest.raises(MixedUnits, match="`turn` is in deg, .* write all angles in one"):
            turn == arc
        assert repr(length == "10 m" * arc) == 'length == "10 m" * arc'


def test_units_by_pint() -> None:
    pytest.importorskip("pint")
    furlong = unit_of("furlong")
    assert dimension_text(furlong.dimension) == "m"
    assert abs(furlong.factor - Fraction("201.168")) < Fraction(1, 1000)
    # (a fraction for pi is not exact, and a zero of its own is no factor)
    for word in ("degree", "rpm", "celsius"):
        with pytest.raises(UnknownUnit):
            unit_of(word)


# What is read of ohms: between which it lies.
READINGS: list[tuple[GivenReading, str, str]] = [
    ("468.0 +- 1.2 ohm", "466.8", "469.2"),
    ("468.0 ± 1.2 ohm", "466.8", "469.2"),
    ("468.0 ohm +/- 1.2 ohm", "466.8", "469.2"),
    ("(468.0 +- 1.2) ohm", "466.8", "469.2"),
    ("0.468 kohm +- 1.2 ohm", "466.8", "469.2"),
    ("798 +- 8", "790", "806"),
    ("470 ohm +- 5%", "446.5", "493.5"),
    ("470 +- 5% ohm", "446.5", "493.5"),
    ("-470 ohm +- 5 %", "-493.5", "-446.5"),
    ("12.5 kOhm", "12450", "12550"),
    ("5.00", "4.995", "5.005"),
    ("5", "4.5", "5.5"),
    ("1.2e3", "1150", "1250"),
    ("330..345", "330", "345"),
    ("0.33..0.345 kohm", "330", "345"),
    ("330 ohm..0.345 kohm", "330", "345"),
    ("-3..-2", "-3", "-2"),
    ("468.0(47) ohm", "453.9", "482.1"),
    ("4.680(47)e2 ohm", "453.9", "482.1"),
    ("0.4680(47) kohm", "453.9", "482.1"),
    ("468.0 ohm u=4.7", "453.9", "482.1"),
    ("468.0 u=4.7 ohm", "453.9", "482.1"),
    (5, "5", "5"),
    (5.1, "5.1", "5.1"),
    (Decimal("5.00"), "5", "5"),
    (Fraction(1, 3), "1/3", "1/3"),
    ((330, 345), "330", "345"),
    (("0.33 kohm", Decimal("345")), "330", "345"),
]


@pytest.mark.parametrize("given, low, high", READINGS, ids=lambda it: str(it))
def test_readings(given: GivenReading, low: str, high: str) -> None:
    reading = reading_of(given, unit_of("ohm"))
    assert (reading.low, reading.high) == (Fraction(low), Fraction(high))
    is_standard = isinstance(given, str) and ("(47)" in given or "u=" in given)
    assert reading.coverage == (3 if is_standard else None)


# In a unit, a reading, and between which numbers of the unit it lies; by hand.
TOLERANCES = [
    # (a part of what is read, and so much)
    ("m", "5 m +- 5 % of reading + 3 m", "1.75", "8.25"),
    ("m", "5.000 m +- 0.01 % +- 2 mm", "4.9975", "5.0025"),
    ("m", "5.000 m ±(0.01% rdg + 2 mm)", "4.9975", "5.0025"),
    ("m", "5.000 m +- 0.01 % of the reading", "4.9995", "5.0005"),
    ("m", "-5 m +- 1% + 1 cm + 1 mm", "-5.061", "-4.939"),
    ("m", "5 +- 1 +- 2", "2", "8"),
    ("m", "5 m +- 1e+2 mm + 2e-3 m", "4.898", "5.102"),
    ("ohm", "470 ohm +- 200 ppm", "469.906", "470.094"),
    ("ohm", "(470 +- 5% + 1) ohm", "445.5", "494.5"),
    # (so many of the last digit)
    ("V", "12.34 V +- 0.5 % + 2 digits", "12.2583", "12.4217"),
    ("V", "12.34 V +- 3 counts", "12.31", "12.37"),
    ("V", "1.234e2 V +- 1 digit", "123.3", "123.5"),
    ("V", "12340 mV +- 2 dgt", "12.338", "12.342"),
    # (a part of the end of a scale)
    ("V", "5 V +- 0.1 % of 10 V", "4.99", "5.01"),
    ("V", "5 V +- (0.1 % + 0.05 % of 10000 mV)", "4.99", "5.01"),
    # (points, where what is read is told in shares itself)
    ("%", "(50 +- 2) %", "48", "52"),
    ("%", "50 % u=0.5 %", "48.5", "51.5"),
    ("%", "50 +- 2 %", "48", "52"),
    ("%", "50 % +- 100 ppm", "49.99", "50.01"),
    ("%", "50 % +- 2 % of reading", "49", "51"),
    ("1", "50 % +- 2 %", "0.48", "0.52"),
    ("1", "0.5 +- 2 %", "0.49", "0.51"),
    ("ppm", "500 +- 20 ppm", "480", "520"),
    # (standard uncertainties, three times)
    ("ohm", "468 ohm u=1 % + 2 ohm", "447.96", "488.04"),
    ("ohm", "468 ohm u=(0.5 % + 1 digit)", "457.98", "478.02"),
    ("degC", "20 degC +- 0.9 degF", "19.5", "20.5"),
    ("degC", "20.0 degC +- 1 % + 1 digit", "19.7", "20.3"),
    ("deg", "45.0 +- 0.5 °", "44.5", "45.5"),
    ("psi", "14.7 psi +- 0.1 psi", "14.6", "14.8"),
    ("1/s", "51 1/s", "50.5", "51.5"),
]


@pytest.mark.parametrize("unit, text, low, high", TOLERANCES)
def test_tolerances(unit: str, text: str, low: str, high: str) -> None:
    of = unit_of(unit)
    reading = reading_of(text, of)
    found = [(end - of.offset) / of.factor for end in (reading.low, reading.high)]
    assert found == [Fraction(low), Fraction(high)]


# In a unit, what is no reading or may be two, and what is said of it.
NOT_UNDERSTOOD = [
    ("m", "5 m +- 5 % hello", "'hello' behind `%` is not understood"),
    ("m", "5 m +- 5 % m", "'m' behind `%` is not understood"),
    ("ohm", "470 +- 5% hello", "'hello' is no unit"),
    ("m", "5 m +- 5 % of readings", "is no reading"),
    ("m", "5 m +- 2 mm hello", "'hello' in 'mm hello' is no unit"),
    ("m", "5 m +- 5 % +", "a tolerance is missing"),
    ("m", "5 m +- 5 % + hello", "'hello' in it is no tolerance"),
    ("m", "5 m +- 1 mm + -2 mm", "less than nothing"),
    ("m", "5 m +- 1 mm u=2 mm", "is no unit"),
    ("m", "5 m u=1 mm +- 2 mm", "a bound and a standard uncertainty"),
    ("m", "5 m + 2 mm", "is no unit"),
    ("m", "(5 m +- 1) mm", "a unit within the brackets and one behind"),
    ("V", "5 V +- 0.1 % of range", "how much is all of it?"),
    ("V", "5 V +- 0.1 % FS", "how much is all of it?"),
    ("%", "(50 +- 2 %) %", "write `of reading`"),
    ("1", "0.5 +- 100 ppm", "write `ppm of reading`"),
    ("m", "5.000 +- 0.01 % + 2 mm", "is the value in m or in mm?"),
    ("mV", "5 +- 0.1 % of 10 V", "is the value in mV or in V?"),
    ("degC", "20 +- 0.5 K", "is the value in degC or in K?"),
    ("ohm", "1 mohm..345", "is the second end in mohm or in ohm?"),
    ("m", "0.3...4", "from one to another is written `330..345`"),
    ("1/s", "51/s", "is no reading"),
    ("m", "5 m 1", "'1' in 'm 1' is no unit"),
    ("1", "28(14) 1", "is no reading"),
]


@pytest.mark.parametrize("unit, text, says", NOT_UNDERSTOOD)
def test_what_is_not_understood_to_its_end_is_refused(unit: str, text: str, says: str) -> None:
    with pytest.raises(ValueError) as caught:
        reading_of(text, unit_of(unit))
    assert says in str(caught.value)


LONG = "9" * 5000
TOO_LARGE: list[GivenReading] = [
    *(Decimal("1e999999999"), Decimal("1e-999999999"), Decimal(LONG), 10**5000, -(10**5000)),
    *(Fraction(1, 10**5000), (0, 10**5000), ("1e999999999", 3), (0, Decimal("1e999999999"))),
]
TOO_LONG: list[GivenReading] = [
    *TOO_LARGE,
    *["1e999999999", "1e9999999999 m", "1e-999999999", "-1e999999999 m", "1e401", "1e-401 m"],
    *[
        "5 +- 1e999999999 m",
        "5 m +- 1e999999999 %",
        "5 u=1e-999999999",
        "5(1)e999999999",
        "5(3" + LONG,
    ],
    *["1e999999999..2", "1..1e999999999", "(5 +- 1e999999999) m", "5 +- 1 % of 1e999999999 m"],
    *[LONG, f"{LONG} m", f"0.{LONG}", f"5 +- {LONG}", f"5({LONG})", "7" * 401, "5 mm999999999"],
]


@pytest.mark.parametrize("place", range(len(TOO_LONG)))
def test_a_number_that_is_too_long_is_refused_at_once(place: int) -> None:
    """Of 400 digits, and powers of ten up to 400 either way, all is exact; more is refused."""
    began = time.process_time()
    with pytest.raises(ValueError) as caught:
        reading_of(TOO_LONG[place], unit_of("m"))
    assert time.process_time() - began < 1
    assert len(str(caught.value)) < 300


def test_numbers_of_400_digits_are_exact() -> None:
    digits = "7" * 400
    assert reading_of(f"{digits} m +- 1e-400 m", unit_of("m")).low == int(digits) - Fraction(
        1, 10**400
    )
    assert reading_of(Decimal("1e400"), unit_of("m")).high == 10**400
    assert reading_of(10**400 - 1, unit_of("m")).high == 10**400 - 1


class Whole:
    """A whole number of another sort, as numpy's are."""

    def __init__(self, number: int) -> None:
        self.number = number

    def __index__(self) -> int:
        return self.number


def test_whole_numbers_of_other_sorts_are_numbers() -> None:
    ohm, five = unit_of("ohm"), Whole(5)
    assert reading_of(five, ohm).low == 5
    assert reading_of((five, Whole(7)), ohm).high == 7
    assert reading_of("5(1)", ohm, Whole(2)).high == 7


def test_what_is_taken_no_times_is_no_uncertainty() -> None:
    for times in (0, -1):
        with pytest.raises(ValueError, match="more than 0 times"):
            reading_of("468.0(47)", unit_of("ohm"), times)


def test_an_interval_has_two_ends() -> None:
    with pytest.raises(NoReading, match="two ends, and not 3"):
        reading_of((1, 2, 3), unit_of("ohm"))  # type: ignore[arg-type]


def test_the_coverage_is_the_user_s() -> None:
    reading = reading_of("468.0(47)", unit_of("ohm"), 2)
    assert (reading.low, reading.high, reading.coverage) == (
        Fraction("458.6"),
        Fraction("477.4"),
        Fraction(2),
    )
    # (a bound has none)
    assert reading_of("468.0 +- 4.7", unit_of("ohm"), 2).high == Fraction("472.7")


def test_temperatures_have_zeros() -> None:
    celsius = unit_of("degC")
    assert reading_of("20.0 +- 0.5", celsius).low == Fraction("292.65")
    assert reading_of("68 degF..77 degF", celsius).low == Fraction("293.15")
    assert reading_of("20.0 degC +- 1%", celsius).high == Fraction("293.35")


@pytest.mark.parametrize(
    "text", ["", "abc", "468,0 ohm", "5..3", "3 +- -1", "1..2..3", "468.0(4.7)", "+- 3", "5 u= ohm"]
)
def test_what_is_no_reading(text: str) -> None:
    with pytest.raises(NoReading):
        reading_of(text, unit_of("ohm"))


@pytest.mark.parametrize("given", [True, None, float("nan"), [1, 2]])
def test_what_is_no_number(given: object) -> None:
    with pytest.raises((TypeError, ValueError)):
        reading_of(given, unit_of("ohm"))  # type: ignore[arg-type]


def test_mixed_readings_name_both() -> None:
    with pytest.raises(MixedUnits, match="'3 mm' is in mm .m., and what is read is in s"):
        reading_of("3 mm", unit_of("s"))


def measure(digits: str, step: str) -> Measure:
    return Measure("m", *map(Fraction, ("1", "0", step, digits, "-1000", "1000")))


INTERVALS = [
    # (to the step, outward)
    ("466.8001", "469.1999", "466.8..469.2 m"),
    ("466.8", "469.2", "466.8..469.2 m"),
    ("-0.333", "0.999", "-0.34..1.00 m"),
    # (finer, where the step would be much of the width)
    ("11.999999985", "12.000000015", "11.999999985..12.000000015 m"),
    ("11.9999", "12.0002", "11.9999..12.0002 m"),
    ("1/3", "2/3", "0.33..0.67 m"),
    ("100", "100", "100 m"),
]


@pytest.mark.parametrize("low, high, text", INTERVALS)
def test_intervals_are_told_outward(low: str, high: str, text: str) -> None:
    interval = measure("0.01", "0.0001").interval(Fraction(low), Fraction(high))
    assert str(interval) == text
    assert Fraction(interval.low) <= Fraction(low) and Fraction(high) <= Fraction(interval.high)


def test_decimals_are_rounded_outward() -> None:
    third = Fraction(1, 3)
    down, up = rounded(third, False), rounded(third, True)
    assert Fraction(down) < third < Fraction(up) < third + Fraction(1, 10**20)
    assert rounded(Fraction(7, 8), False) == rounded(Fraction(7, 8), True) == Decimal("0.875")


def test_cells_hold_the_nearest_step() -> None:
    it = measure("0.01", "0.01")
    assert [it.count(Fraction(x)) for x in ("0.014", "0.015", "-0.015", "-0.016")] == [1, 2, -1, -2]
    for real in (Fraction("0.014"), Fraction("0.015"), Fraction(-1, 3)):
        low, high = it.reals(it.count(real), it.count(real))
        assert low <= real <= high and high - low == Fraction(1, 100)


def test_a_law_that_mixes_names_both_terms() -> None:
    with Workbench() as w:
        length = w.measured("length", unit="mm", low=0, high=1000)
        time = w.measured("time", unit="s", low=0, high=10)
        with pytest.raises(MixedUnits, match="`length` is in mm, and `time` in s"):
            length + time
        with pytest.raises(MixedUnits, match="`length / time` is in m/s, and `3` a bare number"):
            length / time == 3
        with pytest.raises(MixedUnits, match='`"9.81 m/s2" . time` is in m/s, and `length` in mm'):
            "9.81 m/s2" * time - length
        assert repr(length > 0) == "length > 0"
