"""Tolerances as laboratories and the makers of meters write them: `1.2 ohm`, `5 %`, `0.01 % of
reading + 2 mm`, `0.5 % + 2 digits`, `0.1 % of 10 V`.

A tolerance is a sum of parts. What stands in one is understood to its end, or it is refused.
"""

import re
from collections.abc import Sequence
from dataclasses import dataclass
from enum import Enum
from fractions import Fraction

from propbench.measuring.amounts import (
    NUMBER,
    UNIT,
    Amount,
    NoReading,
    amount_of,
    check_length,
    same,
)
from propbench.measuring.exact import short
from propbench.measuring.units import SHARES, Unit, unit_of

_PART = re.compile(rf"({NUMBER})\s*({UNIT})")
# A share, and what it is of: what is read, some other amount, or a unit of the value.
_SHARE = re.compile(r"(%|ppm\b|ppb\b)\s*(.*)")
_OF_READING = re.compile(r"(?:of\s+)?(?:the\s+)?(?:reading|rdg|value)", re.IGNORECASE)
_OF_RANGE = re.compile(
    r"(?:of\s+)?(?:the\s+)?(?:range|rng|full[ -]?scale|fs|fsd|span)", re.IGNORECASE
)
_OF = re.compile(r"of\s+(.*)")
_UNIT = re.compile(UNIT)
_DIGITS = re.compile(r"digits?|dgts?|counts?|lsd", re.IGNORECASE)
# (A plus that is no power of ten's.)
_PLUS = re.compile(r"(?<![\d.][eE])\+")


class ToleranceSort(Enum):
    """Of what a part of a tolerance is so much."""

    ABSOLUTE = "a unit"
    SHARE = "of what is read, or points where that is told in shares itself"
    READING = "of what is read"
    AMOUNT = "of some other amount"
    DIGITS = "of the last digit"


@dataclass(frozen=True)
class TolerancePart:
    """A part of a tolerance: so much of what its sort says, a share counted already. `unit` is
    that of an absolute part, or one that stands behind a share and is the value's; "" for none."""

    number: Fraction
    sort: ToleranceSort
    unit: str = ""
    share: str = ""
    whole: Amount | None = None

    @property
    def units(self) -> list[str]:
        """The units that stand in it."""
        return [each for each in (self.unit, self.whole.unit if self.whole else "") if each]


def parts_of(tolerance: str, text: str) -> list[TolerancePart]:
    """The parts of a tolerance: groups with `+-` between, each with `+` in it, in brackets or not.
    Raises NoReading, which names the whole text."""
    parts = []
    for group in tolerance.split("+-"):
        written = group.strip()
        if written.startswith("(") and written.endswith(")"):
            written = written[1:-1]
        parts += [_part(each.strip(), text) for each in _PLUS.split(written)]
    return parts


def _part(written: str, text: str) -> TolerancePart:
    if written.startswith("-"):
        raise NoReading(f"{short(text)!r} has a tolerance of less than nothing")
    matched = _PART.fullmatch(written)
    if not matched:
        raise _not_understood(written, text)
    amount = Amount(matched[1], matched[2].strip())
    check_length(amount)
    if _DIGITS.fullmatch(amount.unit):
        return TolerancePart(amount.value, ToleranceSort.DIGITS)
    share = _SHARE.fullmatch(amount.unit)
    if share and not share[2].startswith(("/", "*", "·", "^")):
        return _share(amount.value, share[1], share[2], text)
    return TolerancePart(amount.value, ToleranceSort.ABSOLUTE, amount.unit)


def _share(number: Fraction, name: str, behind: str, text: str) -> TolerancePart:
    """A share, and what stands behind it."""
    size = number * unit_of(name).factor
    if not behind:
        return TolerancePart(size, ToleranceSort.SHARE, share=name)
    if _OF_READING.fullmatch(behind):
        return TolerancePart(size, ToleranceSort.READING, share=name)
    if _OF_RANGE.fullmatch(behind):
        raise NoReading(
            f"{short(text)!r}: how much is all of it? Write `0.1 % of 10 V`, as an example"
        )
    of = _OF.fullmatch(behind)
    if of:
        return TolerancePart(size, ToleranceSort.AMOUNT, share=name, whole=amount_of(of[1], text))
    if not _UNIT.fullmatch(behind):
        raise _not_understood(behind, text)
    return TolerancePart(size, ToleranceSort.READING, behind, name)


def _not_understood(written: str, text: str) -> NoReading:
    said = f"{short(written)!r} in it is no tolerance" if written else "a tolerance is missing"
    return NoReading(f"{short(text)!r} is no reading: {said}, as `1.2 ohm`, `5 %` and `2 digits`")


def unit_in(amount: Amount, parts: Sequence[TolerancePart], unit: Unit, text: str) -> Unit:
    """The unit of a value: where none stands behind it, the one of its tolerance, or the one at
    hand. Raises NoReading where that can't be told, and where a unit stands behind a share of a
    value that has one itself."""
    names = dict.fromkeys(name for part in parts for name in part.units)
    if amount.unit:
        behind = [part for part in parts if part.share and part.unit]
        if behind:
            said = f"{short(behind[0].unit)!r} behind `{behind[0].share}` is not understood"
            raise NoReading(f"{short(text)!r} is no reading: {said}")
        return same(amount.unit, unit, text)
    is_unit_of_both = len(parts) == 1 and not parts[0].whole
    for name in names:
        named = same(name, unit, text)
        is_other = named.factor != unit.factor or named.offset != unit.offset
        # (of `20 +- 0.5 K` it is not known whether it is 20 K, where degC are read)
        if is_other and not (is_unit_of_both and named.offset == unit.offset):
            said = f"is the value in {unit.text} or in {name}? Write its unit behind it"
            raise NoReading(f"{short(text)!r}: {said}")
    return same(next(iter(names), ""), unit, text)


def size_of(parts: Sequence[TolerancePart], amount: Amount, named: Unit, text: str) -> Fraction:
    """How far the real may be from what was read, in the unit in which that is named."""
    return sum((_size(part, amount, named, text) for part in parts), Fraction(0))


def _size(part: TolerancePart, amount: Amount, named: Unit, text: str) -> Fraction:
    if part.sort is ToleranceSort.DIGITS:
        return part.number * amount.digit
    if part.sort is ToleranceSort.AMOUNT:
        assert part.whole is not None
        factor = same(part.whole.unit, named, text).factor / named.factor
        return part.number * abs(part.whole.value) * factor
    if part.sort is ToleranceSort.ABSOLUTE:
        return part.number * same(part.unit, named, text).factor / named.factor
    return part.number * (abs(amount.value) if is_relative(part, named, text) else 1 / named.factor)


def is_relative(part: TolerancePart, named: Unit, text: str) -> bool:
    """Whether a share is of what is read; else it is in points, as that is told in shares itself.
    Raises NoReading where nobody can tell."""
    if part.sort is ToleranceSort.READING:
        return True
    if part.share != "%" and named.text == "1":
        raise NoReading(
            f"{short(text)!r}: write `{part.share} of reading`, or the tolerance as a number: of a "
            f"bare number nobody can tell whether `{part.share}` is of what is read"
        )
    return named.text not in SHARES
