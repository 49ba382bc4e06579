"""Days off of a file: the dates that it tells, counted by hand, and plans that keep them."""

from datetime import date, timedelta
from pathlib import Path

import pytest
from hypothesis import given
from hypothesis import strategies as st
from icalendar import Calendar as Written
from icalendar import Event

from propbench import Workbench, holidays
from propbench.desk import main
from propbench.planning.sheets import SheetError

ICS = """\
BEGIN:VCALENDAR
VERSION:2.0
BEGIN:VEVENT
SUMMARY:Good Friday\\, a long name
 that goes on
DTSTART;VALUE=DATE:20260403
DTEND;VALUE=DATE:20260404
END:VEVENT
BEGIN:VEVENT
SUMMARY:A week
DTSTART;VALUE=DATE:20260406
DURATION:P1W
END:VEVENT
BEGIN:VEVENT
SUMMARY:A meeting
DTSTART:20260420T090000Z
DTEND:20260420T100000Z
END:VEVENT
BEGIN:VEVENT
DTSTART;VALUE=DATE:20260501
STATUS:CANCELLED
END:VEVENT
BEGIN:VEVENT
DTSTART;VALUE=DATE:20241225
DTEND;VALUE=DATE:20241227
RRULE:FREQ=YEARLY;COUNT=3;BYMONTH=12
EXDATE;VALUE=DATE:20251225
END:VEVENT
BEGIN:VEVENT
DTSTART;VALUE=DATE:20260701
RDATE;VALUE=DATE:20260703,20260705
END:VEVENT
END:VCALENDAR
"""
DAYS = [
    date(2024, 12, 25),
    date(2024, 12, 26),
    date(2026, 4, 3),
    *(date(2026, 4, day) for day in range(6, 13)),
    date(2026, 7, 1),
    date(2026, 7, 3),
    date(2026, 7, 5),
    date(2026, 12, 25),
    date(2026, 12, 26),
]


def file_of(text: str, name: str) -> str:
    Path(name).write_text(text, encoding="utf-8", newline="")
    return name


@pytest.fixture(autouse=True)
def here(tmp_path: Path, monkeypatch: pytest.MonkeyPatch) -> None:
    monkeypatch.chdir(tmp_path)


@pytest.mark.parametrize("end", ["\n", "\r\n"])
def test_a_calendar_tells_its_whole_days(end: str) -> None:
    assert list(holidays(file_of(ICS.replace("\n", end), "free.ics"))) == DAYS


def test_what_comes_again_each_year_is_told_up_to_2100() -> None:
    text = "BEGIN:VCALENDAR\nBEGIN:VEVENT\nDTSTART:20200229\nRRULE:FREQ=YEARLY\nEND:VEVENT\n"
    found = holidays(file_of(text, "leap.ics"))
    # (the 29th of February of each fourth year from 2020 on, but for 2100)
    assert found == tuple(date(year, 2, 29) for year in range(2020, 2100, 4))
    limited = text.replace("YEARLY", "YEARLY;INTERVAL=2;UNTIL=20280101").replace("0229", "0301")
    assert [day.year for day in holidays(file_of(limited, "some.ics"))] == [2020, 2022, 2024, 2026]


@pytest.mark.parametrize("rule", ["FREQ=WEEKLY", "FREQ=YEARLY;BYMONTH=11;BYDAY=4TH"])
def test_what_comes_again_otherwise_is_refused(rule: str) -> None:
    text = f"BEGIN:VCALENDAR\nBEGIN:VEVENT\nDTSTART:20261126\nRRULE:{rule}\nEND:VEVENT\n"
    with pytest.raises(SheetError, match="2026-11-26 on comes again by .* export its days"):
        holidays(file_of(text, "free.ics"))


def test_what_is_no_calendar_is_refused() -> None:
    with pytest.raises(SheetError, match="no BEGIN:VCALENDAR"):
        holidays(file_of("date\n2026-04-03\n", "free.ics"))
    with pytest.raises(SheetError, match="days off are told by a file .ics, .csv"):
        holidays("free.txt")
    bad = "BEGIN:VCALENDAR\nBEGIN:VEVENT\nDTSTART:20261399\nEND:VEVENT\n"
    with pytest.raises(SheetError, match="`20261399` is no date"):
        holidays(file_of(bad, "bad.ics"))


def test_a_table_tells_dates() -> None:
    good, easter = date(2026, 4, 3), date(2026, 4, 6)
    headed = "date,to,holiday\n3 April 2026,,Good Friday\n2026-12-24,26.12.2026,Christmas\n"
    christmas = [date(2026, 12, day) for day in (24, 25, 26)]
    assert list(holidays(file_of(headed, "a.csv"))) == [good, *christmas]
    assert holidays(file_of("2026-04-06,Easter\n2026-04-03,Good Friday\n", "b.csv")) == (
        good,
        easter,
    )
    with pytest.raises(SheetError, match="row 2, .*`3 April` names no year"):
        holidays(file_of("date\n3 April\n", "c.csv"))
    with pytest.raises(SheetError, match="row 2, .*no days off"):
        holidays(file_of("date,to\n2026-04-06,2026-04-03\n", "d.csv"))


@given(st.lists(st.tuples(st.dates(date(2020, 1, 1), date(2030, 1, 1)), st.integers(1, 20))))
def test_calendars_of_another_writer(spans: list[tuple[date, int]]) -> None:
    calendar = Written()
    for first, days in spans:
        event = Event()
        event.add("summary", "free " * 20)
        event.add("dtstart", first)
        event.add("dtend", first + timedelta(days=days))
        calendar.add_component(event)
    Path("free.ics").write_bytes(calendar.to_ical())
    wanted = {first + timedelta(days=day) for first, days in spans for day in range(days)}
    assert holidays("free.ics") == tuple(sorted(wanted))


def test_somebody_is_off_on_holidays(wide: str) -> None:
    """From Monday the 30th of March on, 5 days of work with Friday the 3rd and Monday the 6th off
    end with Wednesday the 8th: of the days without weekends that is number 7."""
    with Workbench(wide) as w:
        p = w.project(days=30, people="ana ben", start="2026-03-30", off="sat sun")
        ana = p.task("hers", 5, who="ana")
        ben = p.task("his", 5, who="ben")
        file = file_of("2026-01-01\n2026-04-03\n2026-04-06\n2030-01-01\n", "free.csv")
        assert p.off("ana", holidays(file)) == "ana's days off"
        for task, last in ((ana, date(2026, 4, 7)), (ben, date(2026, 4, 3))):
            value = w.least(task.end).value
            assert value is not None and p.date(value - 1) == last
        w.kick("ana's days off")
        assert w.least(ana.end).value == 5
        assert p.off("ben", [], "none") == "none" and "none" in w.premises
        with pytest.raises(TypeError, match="days off are a list"):
            p.off("ben", "2026-04-03")
        with pytest.raises(ValueError, match="nobody in the plan is called 'bea'"):
            p.off("bea", [3])


def test_tables_name_files_of_days_off(
    wide: str, monkeypatch: pytest.MonkeyPatch, capsys: pytest.CaptureFixture[str]
) -> None:
    """Nobody works on Good Friday, and Ana neither on Easter Monday: his 5 days from the 30th of
    March on end on the 6th, and hers on the 7th."""
    monkeypatch.setenv("PROPBENCH", wide)
    Path("plan").mkdir()
    file_of('start,off\n2026-03-30,"sat sun; good.ics"\n', "plan/plan.csv")
    file_of("person,off\nana,easter.csv\nben,\n", "plan/people.csv")
    file_of("task,days,who\nhers,5,ana\nhis,5,ben\n", "plan/tasks.csv")
    file_of("2026-04-06\n", "plan/easter.csv")
    friday = "BEGIN:VCALENDAR\nBEGIN:VEVENT\nDTSTART:20260403\nEND:VEVENT\nEND:VCALENDAR\n"
    file_of(friday, "plan/good.ics")
    assert main(["plan", "plan", "--csv", "out.csv"]) == 0
    told = capsys.readouterr().out
    assert "6 Apr away" in told and "is not read" not in told
    ends = [line.split(",")[3] for line in Path("out.csv").read_text().splitlines()[1:]]
    assert sorted(ends) == ["2026-04-06", "2026-04-07"]
    # (what the command line says lies where it is said)
    file_of("2026-03-30\n", "monday.csv")
    assert main(["plan", "plan", "--off", "monday.csv, sat sun", "--csv", "out.csv"]) == 0
    starts = [line.split(",")[2] for line in Path("out.csv").read_text().splitlines()[1:]]
    assert starts == ["2026-03-31", "2026-03-31"]
    capsys.readouterr()
    assert main(["plan", "plan", "--off", "gone.csv"]) != 0
    assert "gone.csv: No such file" in capsys.readouterr().err
    file_of("person,off\nana,mon easter.csv\nben,\n", "plan/people.csv")
    assert main(["plan", "plan"]) != 0
    assert "people, row 2" in capsys.readouterr().err
