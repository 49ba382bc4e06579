"""Readings in every written form, drawn at random, and what they say by an evaluation of its own: a
reader from left to right with a table of units by hand, in exact fractions.

It follows what docs/MEASURING.md says, and has nothing of the package.
"""

import random
from collections.abc import Sequence
from dataclasses import dataclass
from fractions import Fraction

F = Fraction
# The units of quantities, by what can be compared.
UNITS = {
    "resistance": "ohm kohm Ω MΩ mohm",
    "length": "m mm cm km in",
    "speed": "m/s km/h m/h",
    "pressure": "Pa kPa bar mmHg psi",
    "rate": "1/s Hz kHz",
    "angle": "deg ° arcmin",
    "bare": "1 % ppm ppb rad",
    "temperature": "K degC °C degF °F",
    "slope": "ppm/degC %/K",
}
SORT_OF = {name: sort for sort, names in UNITS.items() for name in names.split()}
# By hand: what one is in base units, and of what sort that is; those with prefixes first.
PREFIXED: dict[str, tuple[Fraction | int, str]] = {
    **{"ohm": (1, "R"), "Ω": (1, "R"), "m": (1, "L"), "s": (1, "T"), "Hz": (1, "1/T")},
    **{"Pa": (1, "P"), "bar": (10**5, "P"), "rad": (1, ""), "K": (F(1), "K")},
}
POWERS = {"p": -12, "n": -9, "u": -6, "µ": -6, "m": -3, "c": -2, "d": -1, "da": 1, "h": 2}
POWERS |= {"k": 3, "M": 6, "G": 9, "T": 12, "": 0}
ATOMS: dict[str, tuple[Fraction | int, str]] = {
    prefix + name: (size * F(10) ** power, sort)
    for name, (size, sort) in PREFIXED.items()
    for prefix, power in POWERS.items()
} | {
    **{"in": (F("0.0254"), "L"), "h": (F(3600), "T"), "mmHg": (F("133.322387415"), "P")},
    "psi": (F("0.45359237") * F("9.80665") / F("0.0254") ** 2, "P"),
    **{"deg": (F(1), "A"), "°": (F(1), "A"), "arcmin": (F(1, 60), "A")},
    **{"%": (F(1, 100), ""), "ppm": (F(1, 10**6), ""), "ppb": (F(1, 10**9), "")},
    **{"degC": (F(1), "K"), "°C": (F(1), "K"), "degF": (F(5, 9), "K"), "°F": (F(5, 9), "K")},
}
ZEROS = {name: F("273.15") for name in ("degC", "°C")} | {
    name: F("459.67") * 5 / 9 for name in ("degF", "°F")
}
SHARES = {"%": F(1, 100), "ppm": F(1, 10**6), "ppb": F(1, 10**9)}
READ, DIGIT = ("reading", "rdg", "value"), ("digit", "digits", "dgt", "dgts", "count", "counts")
MOST = 400


class NoReading(Exception):
    """The text is no reading."""


@dataclass(frozen=True)
class Unit:
    """What one is in base units, the powers of these that it has, and where its zero is."""

    factor: Fraction
    sort: tuple[tuple[str, int], ...]
    zero: Fraction | int = 0


def unit_of(name: str) -> Unit:
    """The unit of this name."""
    if name in ZEROS:
        return Unit(F(ATOMS[name][0]), (("K", 1),), ZEROS[name])
    factor, powers = F(1), dict[str, int]()
    for place, part in enumerate(name.split("/")):
        words = part.replace("*", " ").split()
        if part.strip() == "1" and place == 0:
            continue
        if not words or any(word in SHARES for word in words) and len(words) > 1:
            raise NoReading
        for word in words:
            atom, power = _with_power(word)
            power = -power if place else power
            size, sort = ATOMS[atom]
            factor *= F(size) ** power
            if sort:
                letter, times = (sort[-1], -power) if "/" in sort else (sort, power)
                powers[letter] = powers.get(letter, 0) + times
    return Unit(factor, tuple(sorted((it, power) for it, power in powers.items() if power)))


def _with_power(word: str) -> tuple[str, int]:
    """A unit and its power, as `m2`, `m^2` and `m-2` tell it."""
    if word in ATOMS:
        return word, 1
    atom = word.rstrip("0123456789").removesuffix("-").removesuffix("^")
    power = word.removeprefix(atom).removeprefix("^")
    digits = power.removeprefix("-")
    is_power = 1 <= len(digits) <= 3 and digits[0] != "0"
    if atom not in ATOMS or atom in SHARES or not is_power:
        raise NoReading
    return atom, int(power)


@dataclass(frozen=True)
class Amount:
    """A number, what one of its last digit is, and its unit, "" for none."""

    value: Fraction
    digit: Fraction
    unit: str


@dataclass(frozen=True)
class Part:
    """A part of a tolerance: a number of digits, of a share, or of a unit."""

    number: Fraction
    unit: str = ""
    share: str = ""
    is_of_reading: bool = False
    is_digits: bool = False
    of: Amount | None = None


@dataclass(frozen=True)
class Span:
    """What a reading says, in base units, and whether it was a standard uncertainty."""

    low: Fraction
    high: Fraction
    is_standard: bool


class Reader:
    """Reads a text from left to right."""

    def __init__(self, text: str) -> None:
        self.text, self.at = text, 0

    def take(self, sign: str) -> bool:
        """Whether this stands next; it is behind then."""
        found = self.text.startswith(sign, self.at)
        self.at += len(sign) if found else 0
        return found

    def need(self, sign: str) -> None:
        if not self.take(sign):
            raise NoReading

    def spaces(self) -> None:
        while self.take(" "):
            pass

    def digits(self) -> str:
        begin = self.at
        while self.text[self.at : self.at + 1].isdigit():
            self.at += 1
        return self.text[begin : self.at]

    def number(self, may_be_signed: bool) -> tuple[Fraction, Fraction]:
        """A number, and what one of its last digit is."""
        sign = -1 if may_be_signed and self.take("-") else 1
        if sign == 1 and may_be_signed:
            self.take("+")
        before, after, is_range = self.digits(), "", self.text.startswith("..", self.at)
        if not is_range and self.take("."):
            after = self.digits()
        if not before + after or len(before + after) > MOST:
            raise NoReading
        power = self.power()
        if self.text[self.at : self.at + 1].isdigit() or (
            self.text.startswith(".", self.at) and not self.text.startswith("..", self.at)
        ):
            raise NoReading
        digit = F(10) ** (power - len(after))
        return sign * int(before + after) * digit, digit

    def power(self) -> int:
        """A power of ten behind a number, 0 where there is none."""
        begin = self.at
        if self.take("e") or self.take("E"):
            sign = -1 if self.take("-") else 1
            if sign == 1:
                self.take("+")
            written = self.digits()
            if written:
                if int(written) > MOST:
                    raise NoReading
                return sign * int(written)
        self.at = begin
        return 0

    def until_sign(self) -> str:
        """What stands before the next sign of a tolerance, an interval or a bracket."""
        begin = self.at
        while self.at < len(self.text) and (self.text[self.at] not in "+()" or self.is_power()):
            if self.text.startswith("..", self.at) or self.text.startswith("u=", self.at):
                break
            self.at += 1
        return self.text[begin : self.at].strip()

    def is_power(self) -> bool:
        """Whether a plus stands next that is a power's, as in `2.5e+3`."""
        before = self.text[self.at - 2 : self.at]
        return self.stands("+") and before[1:] in ("e", "E") and before[:1] in tuple("0123456789.")

    def stands(self, sign: str) -> bool:
        """Whether this stands next."""
        return self.text.startswith(sign, self.at)

    def unit(self) -> str:
        """A unit, or nothing. (That of a bare number is not written.)"""
        return self.checked(self.until_sign())

    def checked(self, name: str) -> str:
        if name.startswith("1") and not name.startswith("1/"):
            raise NoReading
        if name:
            unit_of(name)
        return name

    def amount(self) -> Amount:
        """A number with a unit or without."""
        self.spaces()
        value, digit = self.number(True)
        self.spaces()
        return Amount(value, digit, self.unit())

    def tolerance(self) -> list[Part]:
        """Groups with `+-` between, each in brackets or not."""
        parts = self.group()
        while self.take("+-"):
            parts += self.group()
        return parts

    def group(self) -> list[Part]:
        self.spaces()
        is_in_brackets = self.take("(")
        parts = [self.part()]
        while not self.text.startswith("+-", self.at) and self.take("+"):
            parts.append(self.part())
        if is_in_brackets:
            self.need(")")
            self.spaces()
        return parts

    def part(self) -> Part:
        self.spaces()
        number, _ = self.number(False)
        self.spaces()
        rest = self.until_sign()
        if rest.lower() in (*DIGIT, "lsd"):
            return Part(number, is_digits=True)
        for share in SHARES:
            behind = rest.removeprefix(share)
            if (
                behind == rest
                or behind.strip()[:1] in ("/", "*")
                or share != "%"
                and behind[:1].isalnum()
            ):
                continue
            return self.share(number, share, behind.strip())
        return Part(number, self.checked(rest))

    def share(self, number: Fraction, name: str, behind: str) -> Part:
        """A share, and what stands behind it."""
        words = behind.lower().split()
        words = words[1:] if words[:1] == ["of"] else words
        words = words[1:] if words[:1] == ["the"] and len(words) > 1 else words
        if len(words) == 1 and words[0] in READ:
            return Part(number, share=name, is_of_reading=True)
        if behind.startswith("of "):
            of = Reader(behind[3:])
            amount = of.amount()
            of.end()
            return Part(number, share=name, of=amount)
        return Part(number, self.checked(behind), name, bool(behind))

    def end(self) -> None:
        if self.at < len(self.text):
            raise NoReading


def span_of(text: str, own: str) -> Span | None:
    """What a reading says of what is in this unit; None where the text is no reading."""
    written = text.strip().replace("−", "-").replace("±", "+-").replace("+/-", "+-")
    try:
        return _span(Reader(written), own)
    except NoReading:
        return None


def _span(reader: Reader, own: str) -> Span:
    if reader.take("("):
        return _in_brackets(reader, own)
    value, digit = reader.number(True)
    if not set("eE") & set(reader.text[: reader.at]) and reader.take("("):
        return _last_digits(reader, value, digit, own)
    reader.spaces()
    amount = Amount(value, digit, reader.unit())
    if reader.take(".."):
        if reader.text.startswith(".", reader.at):
            raise NoReading
        other = reader.amount()
        reader.end()
        first, last = amount.unit or other.unit or own, other.unit or own
        one, second = unit_of(first), unit_of(last)
        if not other.unit and (one.factor, one.zero) != (second.factor, second.zero):
            raise NoReading
        return ordered(base(amount.value, first, own), base(other.value, last, own), False)
    if reader.take("u="):
        parts = reader.group()
        reader.end()
        return around(amount, parts, own, 3)
    if reader.take("+-"):
        parts = reader.tolerance()
        reader.end()
        return around(amount, parts, own, 1)
    reader.end()
    unit = amount.unit or own
    low, high = (base(value + side * digit / 2, unit, own) for side in (-1, 1))
    return ordered(low, high, False)


def _last_digits(reader: Reader, value: Fraction, digit: Fraction, own: str) -> Span:
    """A number whose uncertainty stands in brackets, in units of its last digit."""
    count = reader.digits()
    reader.need(")")
    if not 0 < len(count) <= MOST:
        raise NoReading
    scale = F(10) ** reader.power()
    if reader.text[reader.at : reader.at + 1].isdigit():
        raise NoReading
    reader.spaces()
    unit = reader.unit() or own
    reader.end()
    low, high = (
        base((value + side * 3 * int(count) * digit) * scale, unit, own) for side in (-1, 1)
    )
    return ordered(low, high, True)


def _in_brackets(reader: Reader, own: str) -> Span:
    """A value and its tolerance in brackets, and the unit of both behind them."""
    amount = reader.amount()
    is_standard = reader.take("u=")
    if not is_standard:
        reader.need("+-")
    parts = reader.group() if is_standard else reader.tolerance()
    reader.need(")")
    reader.spaces()
    unit = reader.unit()
    reader.end()
    if unit:
        has_unit = amount.unit or any(part.unit or part.of and part.of.unit for part in parts)
        is_points = any(part.share and not part.is_of_reading and not part.of for part in parts)
        if has_unit or unit in SHARES and is_points:
            raise NoReading
        amount = Amount(amount.value, amount.digit, unit)
    return around(amount, parts, own, 3 if is_standard else 1)


def around(amount: Amount, parts: Sequence[Part], own: str, times: int) -> Span:
    """What is no farther from an amount than a tolerance."""
    unit = amount.unit or _unit_of_parts(parts, own)
    if amount.unit and any(part.share and part.unit for part in parts):
        raise NoReading
    size = times * sum((_size(part, amount, unit) for part in parts), F(0))
    low, high = (base(amount.value + side * size, unit, own) for side in (-1, 1))
    return ordered(low, high, times > 1)


def _unit_of_parts(parts: Sequence[Part], own: str) -> str:
    """The unit of a value that has none."""
    names = [name for part in parts for name in (part.unit, part.of.unit if part.of else "")]
    names = [name for name in names if name]
    for name in names:
        check_same(name, own)
        one, other = unit_of(name), unit_of(own)
        is_of_both = len(parts) == 1 and not parts[0].of
        if one.zero != other.zero or one.factor != other.factor and not is_of_both:
            raise NoReading
    return names[0] if names else own


def _size(part: Part, amount: Amount, unit: str) -> Fraction:
    """A part of a tolerance, in the unit of the value."""
    if part.is_digits:
        return part.number * amount.digit
    one = unit_of(unit).factor
    if not part.share:
        check_same(part.unit or unit, unit)
        return part.number * unit_of(part.unit or unit).factor / one
    share = part.number * SHARES[part.share]
    if part.of:
        check_same(part.of.unit or unit, unit)
        return share * abs(part.of.value) * unit_of(part.of.unit or unit).factor / one
    if part.is_of_reading:
        return share * abs(amount.value)
    if unit == "1" and part.share != "%":
        raise NoReading
    return share / one if unit in SHARES else share * abs(amount.value)


def base(value: Fraction, unit: str, own: str) -> Fraction:
    """A value in base units, of a unit that can be compared with the quantity's own."""
    check_same(unit, own)
    return value * unit_of(unit).factor + unit_of(unit).zero


def check_same(unit: str, other: str) -> None:
    if unit_of(unit).sort != unit_of(other).sort:
        raise NoReading


def ordered(low: Fraction, high: Fraction, is_standard: bool) -> Span:
    if low > high:
        raise NoReading
    return Span(low, high, is_standard)


# --- drawing ---


def drawn_unit(draw: random.Random) -> str:
    """The unit of a quantity."""
    return draw.choice(UNITS[draw.choice(list(UNITS))].split())


def drawn_number(draw: random.Random, is_signed: bool = False) -> str:
    """A number as people write it: with a point or without, a power of ten, zeros at its end."""
    size = draw.choice([1, 2, 3, 3, 4, 5, 8, 12, 20])
    digits = str(draw.randint(0, 10**size))
    places = draw.choice([0, 0, 1, 2, 3, 6])
    number = (
        f"{digits[:-places] or draw.choice(['0', ''])}.{digits[-places:]}" if places else digits
    )
    number += draw.choice(["", "", "", "", "0", ".", "00"]) if "." not in number else ""
    if draw.random() < 0.15:
        sign = draw.choice(["", "-", "+"])
        number += f"{draw.choice('eE')}{sign}{draw.choice([0, 1, 2, 3, 12, 400])}"
    if draw.random() < 0.02:
        number = draw.choice(["9" * 400, "1" + "0" * 400, "1e401", "1e-401", "0." + "1" * 399])
    return draw.choice(["", "", "", "-", "−", "+"]) + number if is_signed else number


def drawn_part(draw: random.Random, own: str, last: bool) -> str:
    """A part of a tolerance."""
    number, gap = drawn_number(draw), draw.choice(["", " ", "  "])
    unit = draw.choice(UNITS[SORT_OF[own]].split())
    share = draw.choice(["%", "%", "%", "ppm", "ppb"])
    of_read = draw.choice(["of reading", "of rdg", "rdg", "reading", "of the reading", "of value"])
    return f"{number}{gap}" + draw.choice(
        [
            *["", "", unit, unit, share, share],
            f"{share} {of_read}",
            draw.choice([*DIGIT, "lsd", "Digits"]),
            f"{share} of {drawn_number(draw)} {unit}",
            f"{share} {unit}" if last else share,
        ]
    )


def drawn_tolerance(draw: random.Random, own: str) -> str:
    """A tolerance behind its sign: one part mostly, or some with `+` or `+-` between."""
    count = draw.choice([1, 1, 1, 2, 2, 3])
    parts = [drawn_part(draw, own, place == count - 1) for place in range(count)]
    if draw.random() < 0.3:
        return f"({' + '.join(parts)})"
    made = parts[0]
    for part in parts[1:]:
        made += draw.choice([" + ", "+", " +- ", " ± "]) + part
    return made


def drawn_reading(draw: random.Random, own: str) -> str:
    """A text of one of the written forms. (Some say what nobody can tell, and are no reading.)"""
    unit = draw.choice(["", *UNITS[SORT_OF[own]].split()])
    behind = draw.choice(["", " "]) + unit if unit else ""
    behind = f" {unit}" if unit.startswith("1") else behind
    number, sign = drawn_number(draw, True), draw.choice([" +- ", "+-", " ± ", " +/- "])
    gap = draw.choice(["", " "])
    form = draw.randrange(8)
    if form < 3:
        return f"{number}{behind}{sign}{drawn_tolerance(draw, own)}"
    if form == 3:
        sign = draw.choice([sign, " u="])
        return f"({number}{sign}{drawn_tolerance(draw, own)}){behind}"
    if form == 4:
        return f"{number}{behind} u={gap}{drawn_part(draw, own, True)}"
    if form == 5:
        mantissa, power = number, ""
        for mark in "eE":
            mantissa, _, after = mantissa.partition(mark)
            power = mark + after if after else power
        return f"{mantissa}({draw.randint(0, 99)}){power}{behind}"
    if form == 6:
        low, high = sorted((number, drawn_number(draw, True)), key=len)
        first = behind if draw.random() < 0.3 else ""
        return f"{low}{first}{gap}..{gap}{high}{behind}"
    return f"{number}{behind}"


JUNK = [" hello", "+", "-", "±", "(", ")", ".", "..", "%", "e", "1", "0", " ", ",", "u=", "/", "+-"]
JUNK += [" of", " of reading", " 3", " m", " ohm", "=", " digits", "+ 2", "51/s"]


def spoilt(draw: random.Random, text: str) -> str:
    """A text with something put in, left out or doubled: it may be a reading still."""
    at = draw.randint(0, len(text))
    if draw.random() < 0.5:
        return text[:at] + draw.choice(JUNK) + text[at:]
    length = draw.choice([1, 1, 2, 4])
    return text[:at] + text[at + length :] if draw.random() < 0.7 else text[:at] + text
