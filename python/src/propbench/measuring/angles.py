"""Angles in degrees, minutes and seconds: `12°34'56.7"` is read as so many seconds."""

import re
from fractions import Fraction

from propbench.measuring.amounts import NoReading
from propbench.measuring.exact import short

_DEGREES, _MINUTES, _SECONDS = "°|deg", "'|′|’", "\"|″|”|''|′′"
# Degrees and minutes, and behind them seconds; or seconds behind degrees alone.
_ANGLE = re.compile(
    rf"(?P<sign>[-+]?)(?P<degrees>\d+)\s*(?:{_DEGREES})\s*"
    rf"(?:(?P<minutes>\d+(?:\.\d*)?)\s*(?:{_MINUTES})(?!['′]))?\s*"
    rf"(?:(?P<seconds>\d+(?:\.\d*)?)\s*(?:{_SECONDS}))?"
)
# What stands behind a tolerance in seconds or minutes alone.
_ALONE = re.compile(rf"(?P<number>\d+(?:\.\d*)?)\s*(?:(?P<is_seconds>{_SECONDS})|{_MINUTES})")


def in_units(text: str) -> str:
    """A text in which each angle that has minutes or seconds is written in one unit of them: to the
    last digit as it was. Raises NoReading."""
    return _ALONE.sub(_alone, _ANGLE.sub(_joined, text))


def _alone(found: "re.Match[str]") -> str:
    return f"{found['number']} {'arcsec' if found['is_seconds'] else 'arcmin'}"


def _joined(found: "re.Match[str]") -> str:
    minutes, seconds = found["minutes"], found["seconds"]
    if minutes is None and seconds is None:
        return found[0]
    if seconds is not None and "." in (minutes or ""):
        raise NoReading(
            f"{short(found[0])!r}: minutes have no digits behind a point before seconds"
        )
    for part in (minutes, seconds):
        if part is not None and Fraction(part) >= 60:
            raise NoReading(f"{short(found[0])!r}: {part} minutes or seconds are 60 or more")
    last = seconds if seconds is not None else minutes
    places = len(last.partition(".")[2])
    total = int(found["degrees"]) * 60 + Fraction(minutes or 0)
    if seconds is not None:
        total = total * 60 + Fraction(seconds)
    digits = str(int(total * 10**places)).rjust(places + 1, "0")
    number = f"{digits[:-places]}.{digits[-places:]}" if places else digits
    return f"{found['sign']}{number} {'arcmin' if seconds is None else 'arcsec'}"
