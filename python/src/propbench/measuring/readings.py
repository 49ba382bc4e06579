"""Readings as laboratories write them, as bounds in base units.

`468.0 +- 1.2 ohm`, `470 ohm +- 5%` and `330..345 ohm` are bounds; what may stand behind `+-` is in
`tolerances`. `468.0(47) ohm`, `468.0 ohm u=4.7`, `468.0 ohm U=9.4 k=2` and `468.0 ohm s=9.4 n=4`
tell a standard uncertainty, which as a bound would convict a third of innocent readings: it is
taken so many times as its coverage says. `12.5 kohm` holds half a unit of its last digit, and a
number that is no text is exact. Behind a bound may stand how its reading is distributed: `468.0 +-
1.2 ohm triangular`.
"""

import re
from collections.abc import Sequence
from dataclasses import dataclass, replace
from fractions import Fraction

from propbench.measuring.amounts import UNIT, Amount, NoReading, amount_of, check_length, same
from propbench.measuring.angles import in_units
from propbench.measuring.exact import (
    EXPONENT,
    MOST_DIGITS,
    UNSIGNED,
    Exact,
    exact_of,
    number_in,
    short,
)
from propbench.measuring.means import mean_in
from propbench.measuring.tolerances import TolerancePart, ToleranceSort, parts_of, size_of, unit_in
from propbench.measuring.units import SHARES, Unit, unit_of

# What a user gives for a reading: a text, a number, or the two ends of an interval.
GivenReading = str | Exact | tuple["Exact | str", "Exact | str"]
COVERAGE = 3
# A reading has so many characters at the most.
MOST_CHARACTERS = 4000

# A number whose uncertainty stands in brackets, in units of its last digit.
_BRACKETS = re.compile(rf"([-+]?{UNSIGNED})\((\d+)\)({EXPONENT})(?!\d)\s*({UNIT})")
# An expanded uncertainty, as certificates tell it, with its coverage factor.
_EXPANDED = re.compile(rf"(.*?)[,;]?\s*U\s*=(.*?)[,;]?\s*\(?k\s*=\s*({UNSIGNED})\)?")
_HAS_EXPANDED = re.compile(r"U\s*=")
# How a reading may be distributed within its bounds, for estimates.
SHAPES = ("rectangular", "triangular", "normal")
_SHAPE = re.compile(rf"(.*?)[,;]?\s+\(?({'|'.join(SHAPES)})\)?")
# A value with its tolerance in brackets, and the unit of both.
_IN_BRACKETS = re.compile(rf"\((.*)\)\s*({UNIT})")


@dataclass(frozen=True)
class Reading:
    """The real lies from `low` to `high`, in base units. `coverage` says how many times a standard
    uncertainty was taken for that, None where there was none; `shape`, how a bound is distributed,
    where that was said."""

    low: Fraction
    high: Fraction
    written: str
    coverage: Fraction | None = None
    shape: str | None = None


def constant_of(text: str) -> tuple[Fraction, Unit]:
    """A constant in a law, as `9.81 m/s2`: exact, in base units. Raises NoReading."""
    amount = amount_of(in_units(in_ascii(text)), text)
    unit = unit_of(amount.unit or "1")
    return amount.value * unit.factor + unit.offset, unit


def reading_of(given: GivenReading, unit: Unit, coverage: Exact = COVERAGE) -> Reading:
    """A reading of what is in this unit: a text without a unit is in it too.

    Raises NoReading, UnknownUnit, and MixedUnits where it is in a unit of another sort.
    """
    times = _coverage(coverage)
    if isinstance(given, tuple):
        if len(given) != 2:
            raise NoReading(f"an interval has two ends, and not {len(given)}")
        low, high = (_end(each, unit) for each in given)
        return _ordered(low, high, f"{given[0]}..{given[1]}")
    if not isinstance(given, str):
        number = exact_of(given)
        real = number * unit.factor + unit.offset
        return Reading(real, real, _with_unit(str(given), unit))
    text = in_ascii(given)
    shaped = _SHAPE.fullmatch(text)
    read = _read(in_units(shaped[1] if shaped else text), unit, times)
    if shaped and read.coverage is not None:
        raise NoReading(
            f"{short(text)!r}: a standard uncertainty is one, however it is distributed"
        )
    found = _ordered(read.low, read.high, text, read.coverage)
    return replace(found, shape=shaped[2]) if shaped else found


def in_ascii(text: str) -> str:
    """A text with the signs of a tolerance and of what is negative written in one way. Raises
    NoReading where it is longer than any reading is."""
    if len(text) > MOST_CHARACTERS:
        said = f"at most {MOST_DIGITS} digits, and a reading {MOST_CHARACTERS} characters"
        raise NoReading(f"{short(text)!r}: a number has {said}")
    return text.strip().replace("−", "-").replace("±", "+-").replace("+/-", "+-")


def _coverage(given: Exact) -> Fraction:
    """How many times a standard uncertainty is taken."""
    found = exact_of(given)
    if found <= 0:
        raise ValueError(f"a standard uncertainty is taken more than 0 times, and not {given}")
    return found


def _coverage_by(coverage: Fraction, factor: str, text: str) -> Fraction:
    """How many times an expanded uncertainty is taken, so that its standard one is `coverage`
    times."""
    k = number_in(factor)
    if not k:
        raise NoReading(f"{short(text)!r}: a coverage factor is more than 0, as k=2")
    return coverage / k


def _read(text: str, unit: Unit, coverage: Fraction) -> Reading:
    """A reading, by the sign that it has."""
    if ".." in text:
        return _interval(text, unit)
    mean = mean_in(text)
    if mean is not None:
        value, share, more = mean
        taken = coverage * more
        return replace(_with_tolerance(value, "u=", unit, taken * share), coverage=taken)
    if _HAS_EXPANDED.search(text):
        expanded = _EXPANDED.fullmatch(text)
        if not expanded:
            raise NoReading(f"{short(text)!r}: behind `U=` stands its coverage factor: `U=0.5 k=2`")
        value, size, factor = expanded.groups()
        by = _coverage_by(coverage, factor, text)
        return replace(_with_tolerance(f"{value} u={size}", "u=", unit, by), coverage=coverage)
    for sign, is_standard in (("u=", True), ("+-", False)):
        if sign in text:
            return _with_tolerance(text, sign, unit, coverage if is_standard else None)
    bracketed = _BRACKETS.fullmatch(text)
    if bracketed:
        digits, count, exponent, name = bracketed.groups()
        amount, many = Amount(digits + exponent, name), Amount(count, "")
        check_length(amount)
        check_length(many)
        size = many.value * amount.digit * coverage
        return _around(amount, size, same(name, unit, text), text, coverage)
    amount = amount_of(text, text)
    return _around(amount, amount.digit / 2, same(amount.unit, unit, text), text)


def _interval(text: str, unit: Unit) -> Reading:
    if "..." in text:
        raise NoReading(f"{short(text)!r} is no reading: from one to another is written `330..345`")
    low, high = (amount_of(part, text) for part in text.split("..", 1))
    named = same(high.unit, unit, text)
    first = same(low.unit or high.unit, unit, text)
    if not high.unit and (first.factor != unit.factor or first.offset != unit.offset):
        said = f"is the second end in {first.text} or in {unit.text}? Write its unit behind it"
        raise NoReading(f"{short(text)!r}: {said}")
    ends = low.value * first.factor + first.offset, high.value * named.factor + named.offset
    return Reading(*ends, text)


def _with_tolerance(text: str, sign: str, unit: Unit, coverage: Fraction | None) -> Reading:
    """A value, a sign, and how far the real may be from it, or its standard uncertainty."""
    written, outer = text, ""
    in_brackets = _IN_BRACKETS.fullmatch(text)
    if in_brackets:
        written, outer = in_brackets.groups()
    value, _, tolerance = written.partition(sign)
    if coverage is not None and "+-" in tolerance:
        raise NoReading(f"{short(text)!r} has a bound and a standard uncertainty: say one of them")
    amount, parts = amount_of(value, text), parts_of(tolerance, text)
    if outer:
        amount = _in_unit(amount, parts, outer, text)
    named = unit_in(amount, parts, unit, text)
    times = Fraction(1) if coverage is None else coverage
    return _around(amount, size_of(parts, amount, named, text) * times, named, text, coverage)


def _in_unit(amount: Amount, parts: Sequence[TolerancePart], outer: str, text: str) -> Amount:
    """A value whose unit, which is that of its tolerance too, stands behind the brackets of
    both."""
    inner = [name for part in parts for name in part.units]
    if amount.unit or inner:
        raise NoReading(f"{short(text)!r} has a unit within the brackets and one behind them")
    if outer in SHARES and any(part.sort is ToleranceSort.SHARE for part in parts):
        raise NoReading(f"{short(text)!r}: write `of reading` behind a share of what is read")
    return Amount(amount.number, outer)


def _around(
    amount: Amount, size: Fraction, unit: Unit, text: str, coverage: Fraction | None = None
) -> Reading:
    """What lies so far from an amount at the most, in its unit."""
    low, high = ((amount.value + side * size) * unit.factor + unit.offset for side in (-1, 1))
    return Reading(low, high, text, coverage)


def _end(given: object, unit: Unit) -> Fraction:
    """An end of an interval: exact."""
    if isinstance(given, str):
        amount = amount_of(in_units(in_ascii(given)), given)
        named = same(amount.unit, unit, given)
        return amount.value * named.factor + named.offset
    return exact_of(given) * unit.factor + unit.offset


def _ordered(low: Fraction, high: Fraction, text: str, coverage: Fraction | None = None) -> Reading:
    if low > high:
        raise NoReading(f"{short(text)!r}: from the one to the other there is no number")
    return Reading(low, high, text, coverage)


def _with_unit(text: str, unit: Unit) -> str:
    return text if unit.text == "1" else f"{text} {unit.text}"
