"""Schedules: what they print and write is the plan, by dates that are counted one by one."""

import csv
import io
from collections.abc import Callable, Iterator
from datetime import date, datetime, timedelta, timezone
from html.parser import HTMLParser
from pathlib import Path
from xml.etree import ElementTree

import pytest
from conftest import TIMES
from hypothesis import given, settings
from hypothesis import strategies as st
from icalendar import Calendar as Parsed

from propbench import Workbench
from propbench.planning import Project
from propbench.planning.calendar import Calendar, date_said, dates_said
from propbench.planning.exports import csv_of, ics_of
from propbench.planning.paper import page_of
from propbench.planning.schedule import Entry, Schedule, Staff
from propbench.planning.tasks import Away

START, OFF = date(2026, 3, 4), ("sat", "sun", "2026-03-12")
# The days of work from a Wednesday on, by counting: no weekends, and a holiday on a Thursday.
WORK = [
    day
    for day in (START + timedelta(days=ahead) for ahead in range(90))
    if day.weekday() < 5 and day != date(2026, 3, 12)
]


@pytest.fixture
def p() -> Iterator[Project]:
    with Workbench() as w:
        p = w.project(days=40, people="ana ben", start=START, off=OFF)
        ways = {"hotel": dict(days=2, cost=4000), "uni": dict(days=5, cost=1500)}
        venue = p.task("venue", who="ana", options=ways)
        p.task("review", 5, who="ana ben", after=[venue])
        p.away("ben", "2026-03-04", "2026-03-09")
        yield p


def test_a_best_plan_prints_by_date_and_person(p: Project) -> None:
    w = p.workbench
    w.number("guests", 8, 9)
    w.choose("dress", {"plain": [True], "black": [True]})
    assert str(w.least(p.end)) == (
        "The least end is 8:\n"
        "From Wed 4 Mar 2026 to Mon 16 Mar 2026, 8 days of work, at a cost of 4000:\n"
        "  from            to               days  task    who       how    cost\n"
        "  Wed 4 Mar 2026  Thu 5 Mar 2026   2     venue   ana       hotel  4000\n"
        "  Mon 9 Mar 2026  Mon 16 Mar 2026  5     review  ana, ben\n"
        "  who  does\n"
        "  ana  4-5 Mar venue; 9-16 Mar review\n"
        "  ben  4-6 Mar away; 9-16 Mar review\n"
        "  cell    value\n"
        "  guests  8\n"
        "  dress   plain"
    )
    solved = w.solve()
    assert str(solved).startswith("It fits:\nFrom Wed 4 Mar 2026 to ")
    assert p.schedule(solved).entries == p.schedule(dict(solved)).entries
    assert "<td>hotel</td>" in w.least(p.end)._repr_html_()


def test_numbers_stand_where_there_are_no_dates() -> None:
    with Workbench() as w:
        p = w.project(days=9, people="ana")
        p.task("post", 0, after=[p.task("letter", 3, who="ana")])
        assert str(w.least(p.end)) == (
            "The least end is 3:\n"
            "From day 0 to 3:\n"
            "  start  end  days  task    who\n"
            "  0      3    3     letter  ana\n"
            "  3      3    0     post\n"
            "  who  does\n"
            "  ana  0 to 3 letter"
        )
        with pytest.raises(ValueError, match="no calendar, so no dates: give w.project a start"):
            w.least(p.end).to_ics()


def test_which_plan_is_a_schedule() -> None:
    with Workbench() as w:
        x = w.number("x", 0, 3)
        assert str(w.least(x)) == "The least x is 0:\n  cell  value\n  x     0"
        with pytest.raises(ValueError, match="this is no schedule"):
            w.least(x).to_csv()
        p, q = (w.project(days=9) for _ in range(2))
        p.task("a", 2)
        assert w.solve().schedule is not None
        q.task("b", 3)
        best = w.least("a end")
        assert best.schedule is None and "a end" in str(best)
        for plan, name in ((p, "a"), (q, "b")):
            assert [each.task for each in plan.schedule(best).entries] == [name]
        with pytest.raises(ValueError, match="the plan doesn't say when b is done"):
            q.schedule({"a start": 0, "a end": 2})
        w.tell("late", w.cell("a start"), 8)
        with pytest.raises(ValueError, match="there is no plan here: The least x: nothing fits"):
            p.schedule(w.least(x))


def test_conflicts_say_dates(p: Project) -> None:
    """All takes 7 days, and ben is back on day 3; venue can't take 2 of the days 2 to 3."""
    p.done_by("2026-03-14", under="in time")
    p.not_before("2026-03-06", p.tasks["venue"])
    p.done_by(3, task=p.tasks["venue"])
    conflicts = p.workbench.conflicts(keep=p.facts)
    away, late = "ben away 2026-03-04 to 2026-03-09", "venue not before 2026-03-06"
    assert {frozenset(each) for each in conflicts} == {
        frozenset({"in time", away}),
        frozenset({"in time", late}),
        frozenset({"venue done by 3", late}),
    }
    told = str(conflicts)
    # (the 14th is a Saturday, so what is done before it is done by the Friday)
    assert "all done by Fri 13 Mar 2026\n" in told
    assert "venue begins on Fri 6 Mar 2026 or later\n" in told
    assert "venue done by Fri 6 Mar 2026" in told
    assert "no task of ben 4-6 Mar\n" in told and " | " not in told


def test_what_begins_late(p: Project) -> None:
    w, venue = p.workbench, p.tasks["venue"]
    assert p.not_before(3, venue) == "venue not before 3"
    assert w.least(venue.start).value == 3
    with pytest.raises(TypeError, match="a date is one of Python"):
        p.not_before(1.5, venue)  # type: ignore[arg-type]
    w.kick("venue not before 3")
    assert w.least(venue.start).value == 0


# --- what is drawn ---

# Names that a table, a calendar, a page or a terminal might read as something else.
STRANGE = st.text(st.sampled_from("ab,;:\\\"'<>&=+-@ \n\r\t\x1bé漢\u202e"), min_size=1, max_size=90)


@st.composite
def schedules(draw: st.DrawFn) -> Schedule:
    people = tuple(dict.fromkeys(draw(st.lists(STRANGE, min_size=1, max_size=3))))
    entries = []
    for task in dict.fromkeys(draw(st.lists(STRANGE, max_size=5))):
        start, days = draw(st.integers(0, 20)), draw(st.integers(0, 9))
        who = tuple(person for person in people if draw(st.booleans()))
        way, cost = draw(st.none() | STRANGE), draw(st.none() | st.integers(0, 99))
        entries.append(Entry(task, who, start, start + days, way, cost))
    aways = [Away(person, 2, 5, f"{person} away", "2 to 5") for person in people[:1]]
    return Schedule(entries, Staff(people, 40, Calendar.of(START, OFF), tuple(aways)))


def seen(text: str) -> str:
    """A text as it may be shown: what moves a cursor or turns is escaped."""
    return "".join(
        each if each.isprintable() else " " if each == "\t" else ascii(each)[1:-1] for each in text
    )


def dates_of(entry: Entry) -> tuple[date, date]:
    """The first and the last date of a task, by the list of all."""
    return WORK[entry.start], WORK[max(entry.start, entry.end - 1)]


@settings(max_examples=25 * TIMES)
@given(schedules())
def test_a_table_for_spreadsheets(schedule: Schedule) -> None:
    head, *rows = csv.reader(io.StringIO(csv_of(schedule), newline=""))
    assert head == ["task", "who", "from", "to", "days", "how", "cost"]
    ordered = sorted(schedule.entries, key=lambda each: (each.start, each.end))
    for row, entry in zip(rows, ordered, strict=True):
        texts = [seen(each) for each in (entry.task, ", ".join(entry.people), entry.way or "")]
        guarded = ["'" * (text[:1] in ("=", "+", "-", "@")) + text for text in texts]
        days = [each.isoformat() for each in dates_of(entry)]
        cost = "" if entry.cost is None else str(entry.cost)
        assert row == [*guarded[:2], *days, str(entry.end - entry.start), guarded[2], cost]


@settings(max_examples=25 * TIMES)
@given(schedules())
def test_a_calendar(schedule: Schedule) -> None:
    """What icalendar reads of it, and its lines: at most 75 bytes, CRLF, no letter cut."""
    now = datetime(2026, 2, 1, 13, 30, tzinfo=timezone(timedelta(hours=1)))
    for who in (None, schedule.people[0]):
        text = ics_of(schedule, who, now)
        *lines, last = text.encode().split(b"\r\n")
        assert not last and not any(b"\n" in line or b"\r" in line for line in lines)
        assert all(len(line) <= 75 and line.decode() for line in lines)
        told = {}
        uids = set()
        for event in Parsed.from_ical(text).walk("VEVENT"):
            assert event["DTSTAMP"].dt == datetime(2026, 2, 1, 12, 30, tzinfo=timezone.utc)
            uids.add(str(event["UID"]))
            days = event["DTSTART"].dt, event["DTEND"].dt - timedelta(days=1)
            told[str(event["UID"])] = (str(event["SUMMARY"]), *days)
        wanted = []
        for entry in schedule.entries:
            if who is None or who in entry.people:
                by = f" ({', '.join(entry.people)})" if entry.people else ""
                # (icalendar reads a backslash and an n as a new line, whatever stands before them)
                wanted.append((seen(entry.task + by), *dates_of(entry)))
        wanted.append((f"{seen(schedule.people[0])} away", WORK[2], WORK[4]))
        assert sorted(map(unescaped, told.values())) == sorted(map(unescaped, wanted))
        assert ics_of(schedule, who, now) == text


def unescaped(event: tuple[str, date, date]) -> tuple[str, date, date]:
    """An event whose text has no backslashes and no new lines: icalendar takes a backslash that is
    escaped, and an n behind it, for a new line."""
    return event[0].replace("\n", "n").replace("\\", ""), event[1], event[2]


class Texts(HTMLParser):
    """What a browser shows of a page, and of which tags it is made."""

    def __init__(self) -> None:
        super().__init__()
        self.tags: set[str] = set()
        self.cells: list[str] = []

    def handle_starttag(self, tag: str, attrs: object) -> None:
        self.tags.add(tag)
        if tag == "td":
            self.cells.append("")

    def handle_data(self, data: str) -> None:
        if self.cells and self.lasttag == "td":
            self.cells[-1] += data


@settings(max_examples=25 * TIMES)
@given(schedules(), STRANGE)
def test_a_page(schedule: Schedule, title: str) -> None:
    page = Texts()
    page.feed(page_of(schedule, title))
    assert not page.tags & {"script", "img", "link", "iframe", "a"} and "svg" in page.tags
    shown = {cell.strip() for cell in page.cells}
    for entry in schedule.entries:
        assert {seen(entry.task).strip(), *map(date_said, dates_of(entry))} <= shown
    ElementTree.fromstring(schedule.to_svg())


def test_dates_in_short() -> None:
    day = date(2026, 12, 28)
    assert date_said(day) == "Mon 28 Dec 2026" and dates_said(day, day) == "28 Dec"
    assert dates_said(day, date(2026, 12, 30)) == "28-30 Dec"
    assert dates_said(day, date(2027, 1, 2)) == "28 Dec-2 Jan"
    assert dates_said(day, date(2027, 12, 29)) == "28 Dec-29 Dec"


def test_files(p: Project, tmp_path: Path) -> None:
    best = p.workbench.least(p.end)
    writers: dict[str, Callable[[Path], str]] = {"csv": best.to_csv, "ics": best.to_ics}
    writers |= {"html": best.to_html, "svg": best.to_svg}
    for ending, write in writers.items():
        path = tmp_path / f"plan.{ending}"
        text = write(path)
        assert path.read_bytes().decode() == text and len(text) > 100
        for wrong in ("plan.pdf", "plan.xlsx"):
            with pytest.raises(ValueError, match=rf"written as \.{ending}, and not as \."):
                write(tmp_path / wrong)
            assert not (tmp_path / wrong).exists()
    assert "ana" not in best.to_ics(who="ben").replace("ana\\, ben", "")
    with pytest.raises(ValueError, match="nobody in the plan is called 'bem'. Did you mean ben?"):
        best.to_ics(who="bem")
    assert "<title>Spring</title>" in best.to_html(title="Spring")


def test_a_later_schedule_moves_events(p: Project) -> None:
    """The events of a task have one name, whichever day it is on."""

    def uids() -> list[str]:
        events = Parsed.from_ical(p.workbench.least(p.end).to_ics()).walk("VEVENT")
        return sorted(str(event["UID"]) for event in events)

    before = uids()
    p.not_before(5, p.tasks["venue"])
    assert uids() == before and len(set(before)) == 3
