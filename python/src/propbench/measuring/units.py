"""Units: a table of those that laboratories use most, with prefixes; others by pint, where it is.

A unit is written as `mm`, `mm2` or `mm^2`, `m/s`, `kg*m/s2`, `ohm`, `kohm`, `ppm/degC`, `m^(1/2)`,
and `1` for a bare number. Its factor is exact. A radian is a bare number, as an arc is its radius
times an angle; a degree is a base unit of its own, for pi is no fraction: they can't be mixed.
"""

import re
from collections.abc import Mapping
from dataclasses import dataclass
from fractions import Fraction
from functools import cache, lru_cache
from importlib import import_module
from math import isqrt

from propbench.measuring.exact import MOST_DIGITS, short

# Powers of base units by name, those that are not zero, in order of the names.
Dimension = tuple[tuple[str, Fraction], ...]
BARE: Dimension = ()


@dataclass(frozen=True)
class Unit:
    """A unit: one of it is `factor` in base units, and its zero is at `offset` there."""

    text: str
    dimension: Dimension
    factor: Fraction = Fraction(1)
    offset: Fraction = Fraction(0)


class UnknownUnit(ValueError):
    """A text is no unit that is known."""


class MixedUnits(ValueError):
    """What is in one unit was added to, compared with or read as what is in another."""


def times(one: Dimension, other: Dimension, power: Fraction = Fraction(1)) -> Dimension:
    """The dimension of a product with a power of another."""
    powers = dict(one)
    for name, exponent in other:
        powers[name] = powers.get(name, Fraction(0)) + exponent * power
    return tuple(sorted((name, exponent) for name, exponent in powers.items() if exponent))


def to_power(dimension: Dimension, power: Fraction) -> Dimension:
    """The dimension of a power."""
    return times(BARE, dimension, power)


def dimension_text(dimension: Dimension) -> str:
    """A dimension in base units, for people: `kg*m/s2`; `a bare number` for none."""
    above = [_powered(name, power) for name, power in dimension if power > 0]
    below = [_powered(name, -power) for name, power in dimension if power < 0]
    if not above and not below:
        return "a bare number"
    return "/".join(["*".join(above) or "1", *below])


def _powered(name: str, power: Fraction) -> str:
    if power == 1:
        return name
    return f"{name}{power}" if power.denominator == 1 else f"{name}^({power})"


def angles_mixed(one: Dimension, other: Dimension) -> str:
    """What an error says more where degrees are mixed with what has none, as radians."""
    if ("deg" in dict(one)) is ("deg" in dict(other)):
        return ""
    return (
        "; a degree is no exact number of radians: write all angles in one of both, or one as "
        "`degrees(..)` or `radians(..)`"
    )


def unit_of(text: str) -> Unit:
    """The unit that a text names. Raises UnknownUnit, and TypeError for what is no text."""
    if not isinstance(text, str):
        raise TypeError(f"a unit is a text, as `mm` and `1`: {text!r}")
    return _unit_of(text.strip())


# (tables name few units many times)
@lru_cache(maxsize=1000)
def _unit_of(written: str) -> Unit:
    """The unit that a text names, without spaces around it."""
    if written in _OFFSETS:
        factor, offset = _OFFSETS[written]
        return Unit(written, _base("K"), factor, offset)
    if written in _LEVELS:
        return Unit(written, _base("dB"), Fraction(1), Fraction(_LEVELS[written]))
    if written == "pH":
        return Unit(written, _base("pH"))
    dimension, factor = _product(written)
    if max(factor.numerator, factor.denominator) > 10**MOST_DIGITS:
        raise UnknownUnit(f"{short(written)!r} is beyond 1e{MOST_DIGITS} or 1e-{MOST_DIGITS}")
    return Unit(written, dimension, factor)


def _product(written: str) -> tuple[Dimension, Fraction]:
    """The dimension and the factor of units with `*` and `/` between them."""
    dimension, factor = BARE, Fraction(1)
    # (a line within brackets is that of a power, as in `m^(1/2)`)
    for place, part in enumerate(re.split(r"/(?![^(]*\))", written.replace("**", "^"))):
        sign = -1 if place else 1
        words = re.split(r"[*·\s]+", part.strip())
        for word in words:
            if place == 0 and words == ["1"]:
                continue
            matched = _WORD.fullmatch(word)
            # (a share has no power, and is no factor: of `5 % m` nobody knows what it says)
            if not matched or matched[1] in SHARES and (matched[2] or len(words) > 1):
                raise UnknownUnit(_unknown(written, word))
            power = sign * Fraction((matched[2] or "1").strip("()"))
            of_word, factor_of_word = _named(matched[1], written)
            dimension = times(dimension, of_word, power)
            factor *= _to_power(factor_of_word, power, written)
    return dimension, factor


# A unit, and its power: three digits at the most, or in brackets one by another, for a root.
_POWER = r"-?[1-9]\d{0,2}"
_ROOT = rf"(?<=\^)\({_POWER}/(?:2|4|8|16|32|64)\)"
_WORD = re.compile(rf"([^\W\d]+|%|Ω|°[CF]?)(?:\^?({_POWER}|{_ROOT}))?")


def _to_power(factor: Fraction, power: Fraction, written: str) -> Fraction:
    """The power of a factor, exact. Raises UnknownUnit where it is no fraction."""
    root, times_rooted = factor, power.denominator
    while times_rooted > 1:
        found = Fraction(isqrt(root.numerator), isqrt(root.denominator))
        if found * found != root:
            raise UnknownUnit(f"{short(written)!r} has the root of a number that is no square")
        root, times_rooted = found, times_rooted // 2
    return Fraction(root**power.numerator)


def _named(word: str, written: str) -> tuple[Dimension, Fraction]:
    """The unit of one name, with a prefix or without."""
    if word in _UNITS:
        return _UNITS[word]
    if word in _OFFSETS:
        # (in a product it is a difference: `ppm/degC` is as much for each kelvin)
        return _base("K"), _OFFSETS[word][0]
    if word in _TWO_WAYS:
        raise UnknownUnit(f"{short(written)!r}: {_TWO_WAYS[word]}")
    for prefix, size in _PREFIXES.items():
        name = word.removeprefix(prefix)
        if name != word and name in _PREFIXED:
            dimension, factor = _UNITS[name]
            return dimension, factor * size
    found = _of_pint(word)
    if found is not None:
        return found
    raise UnknownUnit(_unknown(written, word))


def _unknown(written: str, word: str) -> str:
    part = "" if word == written else f" in {short(written)!r}"
    known = "is no unit that is known; more are where Python's pint is installed"
    return f"{short(word)!r}{part} {known}"


@cache
def _of_pint(word: str) -> tuple[Dimension, Fraction] | None:
    """The same by pint; None where it isn't there, or knows none that is exact."""
    try:
        pint = import_module("pint")
    except ImportError:
        return None
    try:
        registry = pint.UnitRegistry(non_int_type=Fraction)
        found = registry.Quantity(Fraction(1), word).to_base_units()
        powers = {_OF_PINT.get(name, name): power for name, power in found.dimensionality.items()}
        # (in an angle pint takes some fraction for pi, and a zero of its own is no factor)
        zero = registry.Quantity(Fraction(0), word).to_base_units().magnitude
        is_exact = isinstance(found.magnitude, int | Fraction) and zero == 0
        is_exact = is_exact and "radian" not in str(found.units)
    except Exception:  # (what pint raises for a text has no class in common)
        return None
    if not is_exact:
        return None
    dimension = tuple(sorted((name, Fraction(power)) for name, power in powers.items()))
    return dimension, Fraction(found.magnitude)


def _base(text: str) -> Dimension:
    """A dimension of base units: `kg m2 s-3 A-2`."""
    powers = (re.fullmatch(r"([A-Za-z]+)(-?\d+)?", word) for word in text.split())
    return tuple(sorted((it[1], Fraction(int(it[2] or 1))) for it in powers if it))


def _units(table: Mapping[str, str], dimension: str) -> dict[str, tuple[Dimension, Fraction]]:
    """Names with the number of base units that each is."""
    return {
        name: (_base(dimension), Fraction(size))
        for names, size in table.items()
        for name in names.split()
    }


_OF_PINT = {
    "[length]": "m",
    "[mass]": "kg",
    "[time]": "s",
    "[current]": "A",
    "[temperature]": "K",
    "[substance]": "mol",
    "[luminosity]": "cd",
}
_PREFIXES = {
    "da": Fraction(10),
    "p": Fraction(1, 10**12),
    "n": Fraction(1, 10**9),
    "u": Fraction(1, 10**6),
    "µ": Fraction(1, 10**6),
    "μ": Fraction(1, 10**6),
    "m": Fraction(1, 1000),
    "c": Fraction(1, 100),
    "d": Fraction(1, 10),
    "h": Fraction(100),
    "k": Fraction(1000),
    "M": Fraction(10**6),
    "G": Fraction(10**9),
    "T": Fraction(10**12),
}
_PREFIXED = frozenset(
    "m s g A K mol L l V ohm Ohm Ω W J N Hz F H C S T Wb Pa bar eV rad gon".split()
)
# Names of shares: behind a value that has another unit they are of what is read.
SHARES = frozenset(("%", "ppm", "ppb"))
# What may mean one or another.
_TWO_WAYS = {
    "pH": "is it how acid something is, or a picohenry? A pH stands alone in a unit, and a "
    "picohenry is written `picohenry`"
}
_UNITS: dict[str, tuple[Dimension, Fraction]] = {
    **_units({"1 rad": "1", "%": "1/100", "ppm": "1/1000000", "ppb": "1/1000000000"}, ""),
    # angles, none of which is so many radians exactly
    **_units({"deg °": "1", "arcmin": "1/60", "arcsec": "1/3600", "turn": "360"}, "deg"),
    **_units({"gon": "9/10"}, "deg"),
    # levels, which are added
    **_units({"dB": "1"}, "dB"),
    # lengths, areas by powers of these, and volumes
    **_units({"m": "1", "inch in": "0.0254", "ft": "0.3048", "yd": "0.9144"}, "m"),
    **_units({"mi": "1609.344", "nmi": "1852"}, "m"),
    **_units({"L l": "1/1000"}, "m3"),
    # times and frequencies
    **_units({"s": "1", "min": "60", "h": "3600", "d": "86400"}, "s"),
    **_units({"Hz": "1"}, "s-1"),
    # masses, forces, pressures, energies and powers
    **_units({"g": "1/1000", "t": "1000", "lb": "0.45359237", "oz": "0.028349523125"}, "kg"),
    **_units({"N": "1", "lbf": "4.4482216152605"}, "kg m s-2"),
    **_units({"Pa": "1", "bar": "100000", "atm": "101325"}, "kg m-1 s-2"),
    # (a pound's weight on a square inch: lb * 9.80665 m/s2 / in2)
    **_units({"psi": "44482216152605/6451600000"}, "kg m-1 s-2"),
    **_units({"mmHg": "133.322387415", "Torr torr": "101325/760"}, "kg m-1 s-2"),
    **_units({"J": "1", "Wh": "3600", "kWh": "3600000", "cal": "4.184"}, "kg m2 s-2"),
    **_units({"eV": "1.602176634e-19"}, "kg m2 s-2"),
    **_units({"W": "1"}, "kg m2 s-3"),
    # temperatures from zero, amounts and light
    **_units({"K": "1"}, "K"),
    **_units({"mol": "1"}, "mol"),
    **_units({"cd": "1"}, "cd"),
    # electrical ones
    **_units({"A": "1"}, "A"),
    **_units({"C": "1", "Ah": "3600", "mAh": "3.6"}, "A s"),
    **_units({"V": "1"}, "kg m2 s-3 A-1"),
    **_units({"ohm Ohm Ω": "1"}, "kg m2 s-3 A-2"),
    **_units({"S": "1"}, "kg-1 m-2 s3 A2"),
    **_units({"F": "1"}, "kg-1 m-2 s4 A2"),
    **_units({"H": "1", "picohenry": "1e-12"}, "kg m2 s-2 A-2"),
    **_units({"Wb": "1"}, "kg m2 s-2 A-1"),
    **_units({"T": "1"}, "kg s-2 A-1"),
}
# Temperatures whose zero is elsewhere: a degree, and where its zero is.
_OFFSETS = {
    "degC": (Fraction(1), Fraction("273.15")),
    "°C": (Fraction(1), Fraction("273.15")),
    "degF": (Fraction(5, 9), Fraction("459.67") * 5 / 9),
    "°F": (Fraction(5, 9), Fraction("459.67") * 5 / 9),
}
# Levels above something, as so many decibels above 1 W or 1 V.
_LEVELS = {"dBW": 0, "dBm": -30, "dBV": 0, "dBmV": -60, "dBuV": -120, "dBµV": -120, "dBμV": -120}
