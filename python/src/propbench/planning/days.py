"""Days as planners write them: `2026-03-03`, `3 March`, `3.3.2026`, `3-7 March`."""

import re
from collections.abc import Iterator
from dataclasses import dataclass
from datetime import date

_MONTHS = (
    "january february march april may june july august september october november december"
).split()
_NAMED = "|".join([*_MONTHS, *(name[:3] for name in _MONTHS), "sept"])
_NUMBER = r"\d\d?(?:st|nd|rd|th|\.)?"
_DATE = (
    r"(?:\d{4}-\d\d?-\d\d?"
    r"|\d\d?\.\s*\d\d?\.(?:\s*\d{4})?"
    rf"|{_NUMBER}\s*(?:of\s+)?(?:{_NAMED})\.?(?:,?\s*\d{{4}})?)"
)
_JOINT = r"\s*(?:-|\u2013|\u2014|\.\.|\bto\b|\buntil\b|\btill\b)\s*"
_SPAN = re.compile(rf"({_DATE}|{_NUMBER})(?:{_JOINT}({_DATE}))?")
SHOWN = "2026-03-03 or 3 March"
SPAN_SHOWN = "3-7 March or 2026-03-03 to 2026-03-07"
# A day that is in some years alone comes again within so many.
_YEARS = 9
# Days from one to another of which no year is named are no more than this.
_LONGEST = 200


@dataclass(frozen=True)
class Days:
    """The days from the first to the last, both within."""

    first: date
    last: date


@dataclass(frozen=True)
class _Written:
    """A day as it is written: its month and year may be left out."""

    day: int
    month: int | None
    year: int | None


def date_in(text: str, since: date) -> date:
    """The date that a text is; where it names no year, the first one since a day. Raises
    ValueError for what is none."""
    given = " ".join(text.lower().split())
    written = _written(given) if re.fullmatch(_DATE, given) else None
    if written is None or written.month is None:
        raise ValueError(f"`{text}` is no date: write it as {SHOWN}")
    return _since(text, written, since)


def days_in(text: str, since: date) -> Days:
    """The days that a text is: `3-7 March`, `28 Feb to 2 March`, or one date. Where no year is
    named, it is the first time since a day that they are over. Raises ValueError for what is none,
    and where the last comes before the first."""
    given = " ".join(text.lower().split())
    found = _SPAN.fullmatch(given)
    if found is None or (found[2] is None and not re.fullmatch(_DATE, found[1])):
        raise ValueError(f"`{text}` is no date, nor days from one to another: write {SPAN_SHOWN}")
    first = _written(found[1])
    if found[2] is None:
        only = _since(text, first, since)
        return Days(only, only)
    last = _written(found[2])
    if first.year is not None and last.year is None:
        begin = _since(text, first, since)
        return Days(begin, _since(text, last, begin))
    end = _since(text, last, since)
    whole = _Written(first.day, end.month, end.year) if first.month is None else first
    begin = _until(text, whole, end)
    if (end - begin).days > _LONGEST and first.year is None:
        raise ValueError(f"`{text}`: the last day comes before the first; else name both years")
    return Days(begin, end)


def _written(text: str) -> _Written:
    """What stands in a text that is a date, or a day of a month."""
    numbers = [int(each) for each in re.findall(r"\d+", text)]
    if re.fullmatch(r"\d{4}-.*", text):
        return _Written(numbers[2], numbers[1], numbers[0])
    named: list[int] = [n for n, name in enumerate(_MONTHS, 1) if name[:3] in text]
    month: int | None = named[0] if named else None
    if month is None and len(numbers) > 1:
        return _Written(numbers[0], numbers[1], numbers[2] if numbers[2:] else None)
    return _Written(numbers[0], month, numbers[1] if numbers[1:] else None)


def _since(text: str, written: _Written, since: date) -> date:
    """The date itself, or the first one since a day. Raises ValueError where there is none."""
    years = [written.year] if written.year is not None else _years(since.year, 1)
    for found in _dates(written, years):
        if written.year is not None or found >= since:
            return found
    raise ValueError(f"`{text}` is no date: there is no such day")


def _until(text: str, written: _Written, last: date) -> date:
    """The date itself, or the last one up to a day. Raises ValueError where there is none."""
    years = [written.year] if written.year is not None else _years(last.year, -1)
    for found in _dates(written, years):
        if found <= last:
            return found
        if written.year is not None:
            raise ValueError(f"`{text}`: the last day comes before the first")
    raise ValueError(f"`{text}` is no date: there is no such day")


def _years(first: int, step: int) -> list[int]:
    return [first + step * ahead for ahead in range(_YEARS)]


def _dates(written: _Written, years: list[int]) -> Iterator[date]:
    """The dates of a day and a month in these years, where there are such."""
    for year in years:
        try:
            yield date(year, written.month or 0, written.day)
        except ValueError:
            continue
