"""Days of a plan as dates: day 0 is the first one that is worked on, and days off are left out."""

import re
from collections.abc import Iterable, Sequence
from dataclasses import dataclass, field
from datetime import date, datetime, timedelta
from operator import index
from typing import SupportsIndex

_NAMES = ("mon", "tue", "wed", "thu", "fri", "sat", "sun")
MONTHS = ("Jan", "Feb", "Mar", "Apr", "May", "Jun", "Jul", "Aug", "Sep", "Oct", "Nov", "Dec")
# No more days off than these stand between two days of work.
_LONGEST = 366
_ISO = re.compile(r"\d{4}-\d\d-\d\d")


def date_given(given: object) -> date:
    """A date that is given as such, or as a text (`2026-12-04`). Raises ValueError for another
    text, and TypeError for what is neither."""
    if isinstance(given, date):
        return given.date() if isinstance(given, datetime) else given
    if not isinstance(given, str):
        raise TypeError(f"a date is one of Python, or a text as '2026-12-04': {given!r}")
    try:
        if _ISO.fullmatch(given):
            return date.fromisoformat(given)
    except ValueError:
        pass
    raise ValueError(f"{given!r} is no date: write it as 2026-12-04")


def day_named(given: SupportsIndex | date | str) -> str:
    """A day as it was given, by its number or its date, as premises are called by it."""
    return str(index(given) if isinstance(given, SupportsIndex) else date_given(given))


def date_said(day: date) -> str:
    """A date as people read it: `Fri 4 Dec 2026`."""
    return f"{_NAMES[day.weekday()].capitalize()} {day.day} {MONTHS[day.month - 1]} {day.year}"


def dates_said(first: date, last: date) -> str:
    """The days from one to another, in short: `4 Dec`, `4-9 Dec`, `28 Dec-2 Jan`."""
    end = f"{last.day} {MONTHS[last.month - 1]}"
    if first == last:
        return end
    if (first.year, first.month) == (last.year, last.month):
        return f"{first.day}-{end}"
    return f"{first.day} {MONTHS[first.month - 1]}-{end}"


def spans_of(days: Iterable[int]) -> list[tuple[int, int]]:
    """Days of a plan, from one to the beginning of another."""
    found: list[tuple[int, int]] = []
    for day in sorted(set(days)):
        begin = found.pop()[0] if found and found[-1][1] == day else day
        found.append((begin, day + 1))
    return found


@dataclass(frozen=True)
class Calendar:
    """The date of day 0 or of the next one that is no day off, the weekdays that are off, from 0
    for Monday, and other dates that are."""

    start: date
    weekdays_off: frozenset[int] = frozenset()
    dates_off: frozenset[date] = field(default_factory=frozenset)

    @staticmethod
    def of(start: date | str, off: str | date | Iterable[str | date] = ()) -> "Calendar":
        """The calendar from a date on, with weekdays (`"sat sun"`) and dates off. Raises ValueError
        for another weekday or date, and where every day is off, and TypeError for what is neither.
        """
        several = [off] if isinstance(off, date) else off
        given: list[str | date] = [*(several.split() if isinstance(several, str) else several)]
        weekdays = [each for each in given if isinstance(each, str) and not _ISO.fullmatch(each)]
        for name in weekdays:
            if name not in _NAMES:
                raise ValueError(
                    f"{name!r} is no weekday: write {', '.join(_NAMES)}, or a date as 2026-12-24"
                )
        if set(weekdays) == set(_NAMES):
            raise ValueError("every day of the week is off")
        dates = frozenset(date_given(each) for each in given if each not in weekdays)
        return Calendar(date_given(start), frozenset(map(_NAMES.index, weekdays)), dates)

    def is_off(self, day: date) -> bool:
        """Whether nothing is done on that date."""
        return day.weekday() in self.weekdays_off or day in self.dates_off

    def date_of(self, day: int) -> date:
        """The date of a day of the plan. Raises ValueError for one before day 0."""
        if day < 0:
            raise ValueError(f"a plan begins with day 0, and {day} is before")
        found = self._next(self.start)
        for _ in range(day):
            found = self._next(found + timedelta(days=1))
        return found

    def last_date(self, start: int, end: int) -> date:
        """The date of the last day before the day `end`, of what begins with the day `start`; that
        of its beginning where it takes no day."""
        return self.date_of(max(start, end - 1))

    def spans_off(self, weekdays: Sequence[str], days: int) -> list[tuple[int, int]]:
        """The days of a plan of so many days that are no such weekdays, from one to another. Raises
        ValueError for another weekday."""
        for name in weekdays:
            if name not in _NAMES:
                raise ValueError(f"{name!r} is no weekday: write {', '.join(_NAMES)}")
        found: list[tuple[int, int]] = []
        date = self._next(self.start)
        for day in range(days):
            if _NAMES[date.weekday()] not in weekdays:
                begin = found.pop()[0] if found and found[-1][1] == day else day
                found.append((begin, day + 1))
            date = self._next(date + timedelta(days=1))
        return found

    def spans(self, dates: Iterable[date]) -> list[tuple[int, int]]:
        """The days of the plan that are these dates, from one to another; those that are off
        anyway, or come before the plan, are left out."""
        numbers: list[int] = []
        day, there = 0, self._next(self.start)
        for each in sorted(day for day in dates if day >= self.start and not self.is_off(day)):
            while there < each:
                day, there = day + 1, self._next(there + timedelta(days=1))
            numbers.append(day)
        return spans_of(numbers)

    def day_of(self, wanted: date) -> int:
        """The day of the plan on a date, or the next one where that is off. Raises ValueError for a
        date before the plan."""
        if wanted < self.start:
            raise ValueError(f"the plan begins on {self.start}, after {wanted}")
        found, day = self._next(self.start), 0
        while found < wanted:
            found, day = self._next(found + timedelta(days=1)), day + 1
        return day

    def _next(self, day: date) -> date:
        """The date, or the first behind it that is not off."""
        for ahead in range(_LONGEST):
            found = day + timedelta(days=ahead)
            if not self.is_off(found):
                return found
        raise ValueError(f"every day of the year from {day} on is off")
