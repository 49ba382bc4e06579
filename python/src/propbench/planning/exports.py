"""Schedules as files for other programs: a table for spreadsheets (CSV), and days for calendars
(iCalendar, RFC 5545)."""

import csv
import hashlib
import io
from collections.abc import Iterator
from datetime import date, datetime, timedelta, timezone

from propbench.nearby import near_names
from propbench.outputs import no_formula
from propbench.planning.schedule import Entry, Schedule
from propbench.questions.shown import said
from propbench.showing import printable

# How the files end that schedules are written as, by what they are.
ENDINGS = {"csv": (".csv",), "ics": (".ics",), "html": (".html", ".htm"), "svg": (".svg",)}
# A line of a calendar has so many bytes at the most, its end not counted.
_LINE = 75
_ESCAPES = str.maketrans({"\\": "\\\\", ";": "\\;", ",": "\\,", "\n": "\\n"})


# --- for spreadsheets ---


def csv_of(schedule: Schedule) -> str:
    """A row for each task, by date. Dates are as 2026-12-04; a text that a spreadsheet would take
    for a formula has an apostrophe in front."""
    out = io.StringIO()
    rows = csv.writer(out, lineterminator="\r\n")
    ends = ("start", "end") if schedule.calendar is None else ("from", "to")
    uses = ["uses"] if any(entry.uses for entry in schedule.entries) else []
    rows.writerow(("task", "who", *ends, "days", "how", "cost", *uses))
    for entry in schedule.by_date():
        rows.writerow(
            (
                no_formula(entry.task),
                no_formula(said(entry.people)),
                *_ends(schedule, entry),
                entry.days,
                no_formula(entry.way or ""),
                "" if entry.cost is None else entry.cost,
                *([no_formula(said(entry.used))] if uses else []),
            )
        )
    return out.getvalue()


def _ends(schedule: Schedule, entry: Entry) -> tuple[object, object]:
    if schedule.calendar is None:
        return entry.start, entry.end
    first, last = schedule.dates(entry)
    return first.isoformat(), last.isoformat()


# --- for calendars ---


def ics_of(schedule: Schedule, who: str | None, now: datetime | None) -> str:
    """All days of the schedule, or of one person. Raises ValueError where there are no dates, and
    where nobody is called so."""
    if schedule.calendar is None:
        raise ValueError("the plan has no calendar, so no dates: give w.project a start")
    known = (*schedule.people, *schedule.staff.resources)
    if who is not None and who not in known:
        near = near_names(who, known)
        hint = f" Did you mean {near[0]}?" if near else ""
        raise ValueError(f"nobody in the plan is called {who!r}.{hint}")
    stamp = (now or datetime.now(timezone.utc)).astimezone(timezone.utc)
    lines = ["BEGIN:VCALENDAR", "VERSION:2.0", "PRODID:-//propbench//plans//EN"]
    for event in _events(schedule, who):
        lines += ["BEGIN:VEVENT", f"DTSTAMP:{stamp:%Y%m%dT%H%M%SZ}", *event, "END:VEVENT"]
    lines.append("END:VCALENDAR")
    return "".join(f"{folded}\r\n" for line in lines for folded in _folded(line))


def _events(schedule: Schedule, who: str | None) -> Iterator[list[str]]:
    """The lines of each event: tasks, and who is away."""
    calendar = schedule.calendar
    assert calendar is not None
    for entry in schedule.by_date():
        if who is None or who in entry.needs:
            by = f" ({said(entry.people)})" if entry.people else ""
            says = [f"how: {entry.way}"] if entry.way else []
            says += [f"cost: {entry.cost}"] if entry.cost else []
            told = ["DESCRIPTION:" + _escaped("\n".join(says))] if says else []
            summary = f"SUMMARY:{_escaped(entry.task + by)}"
            for number, part in enumerate(entry.parts):
                days = calendar.date_of(part[0]), calendar.last_date(*part)
                uid = _uid(schedule, "task", entry.task, *([str(number)] if number else []))
                yield [uid, *_days(*days), summary, *told]
    for away in schedule.shown_aways():
        if away.first < away.last and who in (None, away.person):
            first, last = calendar.date_of(away.first), calendar.last_date(away.first, away.last)
            summary = f"SUMMARY:{_escaped(away.person)} away"
            uid = _uid(schedule, "away", away.person, str(first), str(last))
            yield [uid, *_days(first, last), summary]


def _days(first: date, last: date) -> list[str]:
    """The whole days from one to another: the end is the day behind."""
    behind = last + timedelta(days=1)
    return [f"DTSTART;VALUE=DATE:{first:%Y%m%d}", f"DTEND;VALUE=DATE:{behind:%Y%m%d}"]


def _uid(schedule: Schedule, *what: str) -> str:
    """The name of an event: the same for the same task in a later schedule of the plan, so that a
    calendar moves it."""
    assert schedule.calendar is not None
    known = "\0".join([str(schedule.calendar.start), *schedule.people, *what])
    return (
        f"UID:{hashlib.sha256(known.encode('utf-8', 'surrogatepass')).hexdigest()[:32]}@propbench"
    )


def _escaped(text: str) -> str:
    """A text as it stands in a calendar, with what can't be printed escaped."""
    return "\n".join(map(printable, text.split("\n"))).translate(_ESCAPES)


def _folded(line: str) -> Iterator[str]:
    """A line in pieces of at most 75 bytes, of which no letter is cut; a piece that goes on begins
    with a space."""
    piece, size = "", 0
    for letter in line:
        wide = len(letter.encode())
        if size + wide > _LINE:
            yield piece
            piece, size = " ", 1
        piece, size = piece + letter, size + wide
    yield piece
