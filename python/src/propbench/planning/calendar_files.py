"""Days off that a file tells: the whole days of a calendar (iCalendar, RFC 5545), or the dates of a
table (.csv, .ods, .xlsx)."""

import os
import re
from collections.abc import Iterator, Sequence
from datetime import date, timedelta
from pathlib import Path

from propbench.given import path_given
from propbench.planning.days import date_in
from propbench.planning.headings import HOLIDAYS, rows_of
from propbench.planning.sheets import Field, Sheet, SheetError, sheets_of
from propbench.showing import cut, printable
from propbench.spreadsheets import bytes_of

# How files end that tell days off.
ENDINGS = (".ics", ".csv", ".ods", ".xlsx")
# What comes again each year is told up to this one, and no event is longer than so many days.
_LAST_YEAR, _LONGEST = 2100, 400
_DATE = re.compile(r"(\d{4})(\d\d)(\d\d)(T\d{6}Z?)?")
_WEEKS = re.compile(r"P(?:(\d{1,3})W)?(?:(\d{1,3})D)?(?:T.*)?")
# A date that names no year is read as if it were since then.
_NO_YEAR = date(1900, 1, 1)

# The lines of an event: their names in front, with parameters, and what they say.
_Lines = list[tuple[str, str, str]]


def holidays(path: str | os.PathLike[str]) -> tuple[date, ...]:
    """The dates that a file tells, in order: whole days of a calendar's events, those that come
    again each year up to 2100; or the dates of a table, with a last one each where there are
    several days. Raises OSError, SheetError for what can't be taken, and NoSheetReader.

    >>> from datetime import date
    >>> _ = open("free.csv", "w").write("date,holiday\\n2026-04-03,Good Friday\\n")
    >>> holidays("free.csv")
    (datetime.date(2026, 4, 3),)
    """
    given = str(path_given(path))
    ending = os.path.splitext(given)[1].lower()
    if ending not in ENDINGS:
        raise SheetError(f"{printable(given)}: days off are told by a file {', '.join(ENDINGS)}")
    if ending == ".ics":
        text = bytes_of(given).decode("utf-8-sig", "replace")
        found = {day for event in _events(given, text) for day in _days_of(given, event)}
    else:
        found = {day for sheet in sheets_of(given) for day in _days_in(sheet)}
    return tuple(sorted(found))


def is_file(text: str) -> bool:
    """Whether a text names such a file, and no day."""
    return text.lower().endswith(ENDINGS)


def beside(folder: str, name: str) -> str:
    """Where the file is that a table in a folder names."""
    return str(Path(folder) / name)


# --- tables ---


def _days_in(sheet: Sheet) -> Iterator[date]:
    """The dates of a table, which has headings or begins with one."""
    if sheet.rows and re.search(r"\d", sheet.rows[0][1][0]):
        dates = tuple((number, row[:1]) for number, row in sheet.rows if row[0])
        sheet = Sheet(sheet.name, ((0, ("date",)), *dates))
    for row in rows_of(sheet, HOLIDAYS):
        if "date" not in row:
            raise next(iter(row.values())).wrong("say under `date` which day is off")
        first = _dated(row["date"])
        yield from _span(first, _dated(row["to"]) if "to" in row else first, row["date"])


def _dated(given: Field) -> date:
    try:
        found = date_in(given.text, _NO_YEAR)
    except ValueError as error:
        raise given.wrong(str(error)) from None
    if not re.search(r"\d{4}", given.text):
        raise given.wrong(f"`{cut(given.text)}` names no year: write it as 2026-12-24")
    return found


def _span(first: date, last: date, given: Field) -> Iterator[date]:
    if not first <= last < first + timedelta(days=_LONGEST):
        raise given.wrong(f"from {first} to {last} are no days off")
    yield from _dates(first, last + timedelta(days=1))


def _dates(first: date, behind: date) -> Iterator[date]:
    while first < behind:
        yield first
        first += timedelta(days=1)


# --- calendars ---


def _events(path: str, text: str) -> Iterator[_Lines]:
    """The lines of each event of a calendar."""
    unfolded = re.sub(r"\r?\n[ \t]", "", text)
    if "BEGIN:VCALENDAR" not in unfolded.upper():
        raise SheetError(f"{printable(path)} is no calendar: it has no BEGIN:VCALENDAR")
    event: _Lines | None = None
    for line in unfolded.splitlines():
        head, _, value = line.partition(":")
        name, _, more = head.partition(";")
        if (name.upper(), value.strip().upper()) == ("BEGIN", "VEVENT"):
            event = []
        elif (name.upper(), value.strip().upper()) == ("END", "VEVENT") and event is not None:
            yield event
            event = None
        elif event is not None:
            event.append((name.upper(), more.upper(), value.strip()))


def _days_of(path: str, event: _Lines) -> Iterator[date]:
    """The whole days of an event, as often as it comes; none of one that has a time of day, or was
    cancelled."""
    told = {name: value for name, _, value in event}
    if told.get("STATUS", "").upper() == "CANCELLED" or "T" in told.get("DTSTART", "T"):
        return
    first = _day(path, told["DTSTART"])
    days = _length(path, first, told)
    begins = [*_again(path, first, told.get("RRULE")), *_listed(path, event, "RDATE")]
    without = {*_listed(path, event, "EXDATE")}
    for begin in begins:
        if begin not in without:
            yield from _dates(begin, begin + timedelta(days=days))


def _length(path: str, first: date, told: dict[str, str]) -> int:
    """How many days an event has: one where it doesn't say."""
    days = 1
    if "DTEND" in told:
        days = max(1, (_day(path, told["DTEND"]) - first).days)
    elif "DURATION" in told and (found := _WEEKS.fullmatch(told["DURATION"])):
        days = max(1, 7 * int(found[1] or 0) + int(found[2] or 0))
    if days > _LONGEST:
        raise SheetError(f"{printable(path)}: an event from {first} on has {days} days, too many")
    return days


def _again(path: str, first: date, rule: str | None) -> Iterator[date]:
    """The first days of an event that may come again each year."""
    yield first
    if rule is None:
        return
    parts = dict(part.upper().split("=", 1) for part in rule.split(";") if "=" in part)
    fixed = {"BYMONTH": str(first.month), "BYMONTHDAY": str(first.day)}
    others = {key: value for key, value in parts.items() if fixed.get(key) != value}
    if others.pop("FREQ", "") != "YEARLY" or {*others} - {"COUNT", "UNTIL", "INTERVAL", "WKST"}:
        raise SheetError(
            f"{printable(path)}: an event from {first} on comes again by `{cut(rule)}`, which isn't"
            " read: export its days one by one"
        )
    until = _day(path, others["UNTIL"]) if "UNTIL" in others else date(_LAST_YEAR, 12, 31)
    left, step = int(others.get("COUNT", _LAST_YEAR)) - 1, max(1, int(others.get("INTERVAL", "1")))
    for year in range(first.year + step, until.year + 1, step):
        # (the 29th of February comes in some years alone)
        if left > 0 and _is_date(year, first) and first.replace(year=year) <= until:
            left -= 1
            yield first.replace(year=year)


def _is_date(year: int, day: date) -> bool:
    try:
        day.replace(year=year)
    except ValueError:
        return False
    return True


def _listed(path: str, event: Sequence[tuple[str, str, str]], wanted: str) -> Iterator[date]:
    """The days of lines that list some."""
    for name, _, value in event:
        if name == wanted:
            yield from (_day(path, each) for each in value.split(","))


def _day(path: str, text: str) -> date:
    """The day of a date or of a time."""
    found = _DATE.match(text.strip())
    try:
        if found is not None:
            return date(int(found[1]), int(found[2]), int(found[3]))
    except ValueError:
        pass
    raise SheetError(f"{printable(path)}: `{cut(text)}` is no date of a calendar, as 20261224")
