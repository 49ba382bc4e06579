"""Plans out of spreadsheets: the same by every sort of file, beside trying all starts, and what
can't be read is told by its place."""

import csv
import io
from collections.abc import Callable, Iterator
from dataclasses import dataclass
from datetime import date
from itertools import product
from pathlib import Path

import openpyxl
import pytest
from conftest import TIMES, hide
from examples import EXAMPLES, conflicts_in, repairs_in
from examples import ran as examples_ran
from hypothesis import given, settings
from hypothesis import strategies as st
from odf.opendocument import OpenDocumentSpreadsheet
from odf.table import Table, TableCell, TableRow
from odf.text import P
from test_texts import BAD, is_clean

from propbench.desk import main
from propbench.planning import Calendar
from propbench.planning.brief import Given
from propbench.planning.days import date_in, days_in
from propbench.planning.reading import brief_of
from propbench.planning.sheets import SheetError, sheets_of
from propbench.planning.who import AnyOf

Value = str | int | float | date | None
Tables = dict[str, list[list[Value]]]
Ran = Callable[..., tuple[int, str, str]]

SPRING: Tables = {
    "tasks": [
        ["Task", "Days", "Who", "After", "Latest", "Cost", "Way", "Notes", "Pauses"],
        ["budget", 2, "Ana", None, None, None, None, "a first draft", "yes"],
        ["venue", 2, "Ana", "budget", date(2026, 3, 13), 4000, "hotel", None, "no"],
        ["venue", 5.0, None, None, None, 1500, "uni", None, None],
        [None, None, None, None, None, None, None, "(the rest is Ben's)", None],
        ["call", 3, "Ben", "venue", None, None, None, None, None],
        ["meeting", 1, "Ana, Ben and Cleo Roy", "call; venue", None, 500, None, None, None],
    ],
    "People": [["Person"], ["Ana"], ["Ben"], ["Cleo Roy"]],
    "absences": [
        ["who", "from", "to", "reason"],
        ["Ana", "5 March", date(2026, 3, 9), "holiday"],
        ["Cleo Roy", date(2026, 3, 20), None, None],
    ],
    "wishes": [
        ["wish", "task", "latest", "cost", "way", "weight"],
        ["soon", None, "19 March", None, None, 2],
        ["cheap", None, None, 4200, None, None],
    ],
    "plan": [["start", "off"], [date(2026, 3, 2), "weekends"], [None, "17 March"]],
}


def as_text(value: Value) -> str:
    return "" if value is None else str(value)


def as_folder(tables: Tables, path: Path, comma: str = ",") -> str:
    path.mkdir(exist_ok=True)
    for name, rows in tables.items():
        with open(path / f"{name}.csv", "w", encoding="utf-8", newline="") as file:
            csv.writer(file, delimiter=comma).writerows([map(as_text, row) for row in rows])
    return str(path)


def as_xlsx(tables: Tables, path: Path) -> str:
    book = openpyxl.Workbook()
    book.remove(book.active)
    for name, rows in tables.items():
        sheet = book.create_sheet(name)
        for row in rows:
            sheet.append(row)
    book.save(path)
    return str(path)


def as_ods(tables: Tables, path: Path) -> str:
    book = OpenDocumentSpreadsheet()
    for name, rows in tables.items():
        sheet = Table(name=name)
        for row in rows:
            line = TableRow()
            for value in row:
                line.addElement(ods_cell(value))
            # (as LibreOffice does it: a row is filled up to the last column there may be)
            line.addElement(TableCell(numbercolumnsrepeated=16000))
            sheet.addElement(line)
        empty = TableRow(numberrowsrepeated=1_000_000)
        empty.addElement(TableCell(numbercolumnsrepeated=16000))
        sheet.addElement(empty)
        book.spreadsheet.addElement(sheet)
    book.save(path)
    return str(path)


def ods_cell(value: Value) -> TableCell:
    if isinstance(value, date):
        cell = TableCell(valuetype="date", datevalue=f"{value.isoformat()}T00:00:00")
        cell.addElement(P(text=f"{value:%d.%m.%y}"))
    elif isinstance(value, int | float):
        cell = TableCell(valuetype="float", value=value)
        cell.addElement(P(text=f"{value:.2f}"))
    else:
        cell = TableCell(valuetype="string")
        cell.addElement(P(text=as_text(value)))
    return cell


@pytest.fixture
def ran(wide: str, capsys: pytest.CaptureFixture[str]) -> Ran:
    """What `propdesk plan` prints, and its status."""

    def run(*words: object) -> tuple[int, str, str]:
        status = main(["plan", *map(str, words), "--program", wide])
        told = capsys.readouterr()
        return status, told.out, told.err

    return run


def test_every_sort_of_file_says_the_same(tmp_path: Path) -> None:
    wanted = brief_of(sheets_of(as_folder(SPRING, tmp_path / "one")), Given())
    others = [
        as_folder(SPRING, tmp_path / "two", ";"),
        as_xlsx(SPRING, tmp_path / "plan.xlsx"),
        as_ods(SPRING, tmp_path / "plan.ods"),
    ]
    for path in others:
        found = brief_of(sheets_of(path), Given())
        assert found.jobs == wanted.jobs and found.wishes == wanted.wishes
        assert (found.calendar, found.days, found.people) == (wanted.calendar, None, wanted.people)
        # (the names of absences have their days as they are written)
        assert [each.first for each in found.leaves] == [each.first for each in wanted.leaves]
    assert list(wanted.jobs) == ["budget", "venue", "call", "meeting"]
    assert wanted.jobs["meeting"].people == ("Ana", "Ben", "Cleo Roy")
    # (days of work: 2-6 March are 0-4, 9-13 are 5-9, 16 is 10, the 17th is off, 18-20 are 11-13)
    assert wanted.jobs["venue"].latest == 10 and wanted.wishes[0].latest == 13
    assert [(each.first, each.back) for each in wanted.leaves] == [(3, 6), (13, 14)]
    assert wanted.leaves[0].name == "Ana holiday 5 March to 2026-03-09"


def test_a_schedule_of_a_file(ran: Ran, tmp_path: Path) -> None:
    """Budget on the days 0 to 1; venue behind the holiday, on day 6 or later: 6 to 11 by uni, which
    is too late for its deadline, else 6 to 8; call to 11, meeting on day 11, the 18th."""
    status, out, err = ran(
        as_xlsx(SPRING, tmp_path / "plan.xlsx"), "--csv", tmp_path / "out.csv", "--give-up"
    )
    assert (status, err) == (0, "") and "Without cheap:" in out
    rows = list(csv.reader(io.StringIO((tmp_path / "out.csv").read_text(), newline="")))
    assert rows[1:] == [
        ["budget", "Ana", "2026-03-02", "2026-03-03", "2", "", ""],
        ["venue", "Ana", "2026-03-10", "2026-03-11", "2", "hotel", "4000"],
        ["call", "Ben", "2026-03-12", "2026-03-16", "3", "", ""],
        ["meeting", "Ana, Ben, Cleo Roy", "2026-03-18", "2026-03-18", "1", "", "500"],
    ]
    status, out, err = ran(tmp_path / "plan.xlsx")
    assert (status, err) == (1, "") and "1     cheap\n" in out and "With --give-up" in out
    conflicts = "venue done by 2026-03-13", "Ana holiday 5 March to 2026-03-09", "cheap"
    assert all(name in out for name in conflicts)


def test_empty_sheets_are_none(tmp_path: Path) -> None:
    """A new file has some; and what the only one that isn't is called doesn't matter."""
    tables: Tables = {"Sheet1": [["task", "days"], ["a", 2]], "Sheet2": [], "Sheet3": [[None]]}
    for path in (as_xlsx(tables, tmp_path / "x.xlsx"), as_ods(tables, tmp_path / "x.ods")):
        brief = brief_of(sheets_of(path), Given())
        assert list(brief.jobs) == ["a"] and not brief.unread
    more: Tables = {**SPRING, "colours": [["red"]]}
    brief = brief_of(sheets_of(as_xlsx(more, tmp_path / "x.xlsx")), Given("2026-03-03", "sun", 70))
    assert brief.unread == ["colours"] and brief.days == 70
    assert brief.calendar == Calendar.of("2026-03-03", "sun")


def test_one_table_is_enough(ran: Ran, tmp_path: Path) -> None:
    path = tmp_path / "work.csv"
    path.write_text("task,days,who,after\npaint,2,Ana,floor\nfloor,3,Ben,\nplan,1,Ana,\n")
    status, out, err = ran(path)
    assert (status, err) == (0, "")
    assert out == (
        "From day 0 to 5:\n"
        "  start  end  days  task   who\n"
        "  0      1    1     plan   Ana\n"
        "  0      3    3     floor  Ben\n"
        "  3      5    2     paint  Ana\n"
        "  who  does\n"
        "  Ana  0 to 1 plan; 3 to 5 paint\n"
        "  Ben  0 to 3 floor\n"
    )
    files = {each: tmp_path / f"out.{each}" for each in ("html", "ics", "svg")}
    words = [word for each, file in files.items() for word in (f"--{each}", file)]
    assert ran(path, *words)[0] == 2
    status, out, _ = ran(path, "--start", "2026-03-06", "--off", "sat sun", "--why", *words)
    assert status == 0 and all(file.exists() for file in files.values())
    assert "All is done on Thu 12 Mar 2026, and no sooner because of:" in out
    assert "DTSTART;VALUE=DATE:20260311" in files["ics"].read_text()
    assert ran(path, "--html", tmp_path / "out.pdf")[2] == (
        "propdesk: this is written as .html, and not as .pdf\n"
    )


def test_what_ifs(ran: Ran, tmp_path: Path) -> None:
    """Floor 0 to 3, paint 3 to 5: where Ben is ill on days 1 and 2, floor ends on day 5."""
    path = tmp_path / "work.csv"
    path.write_text("task,days,who,after,cost\nfloor,3,Ben,,\npaint,2,Ana,floor,70\n")
    days = ["--start", "2026-03-06", "--off", "weekends"]
    told = {
        "ben ill 9-10 March": "on Mon 16 Mar 2026.\n"
        "2 tasks moved, and all is done 2 days of work later:",
        "Floor takes 1": "on Tue 10 Mar 2026.\n"
        "2 tasks moved, and all is done 2 days of work sooner:",
        "floor takes 3 days": "on Thu 12 Mar 2026.\nNothing moved.",
        "paint not before 12 March": "on Fri 13 Mar 2026.\n"
        "1 task moved, and all is done 1 day of work later:",
        "without paint after floor": "on Tue 10 Mar 2026.\n1 task moved, and all is done 2 days of",
    }
    for text, says in told.items():
        status, out, err = ran(path, *days, "--what-if", text)
        assert (status, err) == (0, "") and f"What if {text}?\nAll is done {says}" in out
    assert "ben ill 1" not in ran(path, "--what-if", "ben ill 1-3")[1].partition("What if")[0]
    assert "  floor  0 to 3  0 to 5  2\n" in ran(path, "--what-if", "ben ill 1-3")[1]
    wrong = {
        "bem ill 9 March": "nothing in the plan is called `bem`. Did you mean Ben?",
        "floor takes long": "can't be read: say `ana ill 3-7 March`",
        "ben ill soon": "`soon` is no date, nor days from one to another",
        "ben ill 3-4 March 2026": "these days are before the plan begins",
        "without paint": "nothing in the plan is called `paint`",
    }
    for text, says in wrong.items():
        status, _, err = ran(path, *days, "--what-if", text)
        assert status == 2 and says in err


def plain(names: frozenset[str]) -> frozenset[str]:
    """Names without the days that a sheet adds to them."""
    return frozenset(name.removesuffix(" 5 to 15") for name in names)


def test_a_plan_goes_on(ran: Ran, tmp_path: Path) -> None:
    """Floor was to take 3 days and took the 6th to the 11th; it is the 13th, a Friday."""
    path = tmp_path / "work.csv"
    path.write_text(
        "task,days,who,after,started,finished\n"
        "floor,3,Ben,,6 March,11 March\npaint,2,Ana,floor,,\ntidy,1,Ben,,,\n"
    )
    words = ["--start", "2026-03-06", "--off", "weekends", "--csv", tmp_path / "out.csv"]
    told = {"2026-03-13": ("2026-03-13", "2026-03-16"), None: ("2026-03-12", "2026-03-13")}
    for today, days in told.items():
        assert ran(path, *words, *(["--today", today] if today else []))[0] == 0
        found = csv.DictReader(io.StringIO((tmp_path / "out.csv").read_text(), newline=""))
        rows = {row["task"]: (row["from"], row["to"], row["days"]) for row in found}
        assert rows["floor"] == ("2026-03-06", "2026-03-11", "4")
        assert rows["paint"] == (*days, "2")
    assert ran(path, "--today", "soon")[0] == 2


TEAM = (
    "task,days,who,after,cost,pauses\nframe,4,skilled in welding,,,\nlamp,2,ana or ben,,30,\n"
    "lift,1,2 of ana; ben; cem,frame,,no\n"
)
PEOPLE_OF_IT = "person,works,skills\nana,mon tue,welding\nben,,\ncem,,welding; wiring\n"


def test_whoever_suits_best(ran: Ran, tmp_path: Path) -> None:
    """Cem makes the frame by Thursday, and Ben the lamp; they lift it on Friday, as Ana is there on
    Mondays and Tuesdays alone."""
    (tmp_path / "tasks.csv").write_text(TEAM)
    (tmp_path / "people.csv").write_text(PEOPLE_OF_IT)
    words = [tmp_path, "--start", "2026-03-02", "--off", "weekends", "--csv", tmp_path / "out.csv"]
    assert ran(*words)[0] == 0
    rows = list(csv.reader(io.StringIO((tmp_path / "out.csv").read_text(), newline="")))
    found = {row[0]: row[1:5] for row in rows[1:]}
    assert found["frame"] == ["cem", "2026-03-02", "2026-03-05", "4"]
    assert found["lift"] == ["ben, cem", "2026-03-06", "2026-03-06", "1"]
    assert found["lamp"][0] in ("ana", "ben")
    (tmp_path / "out.csv").unlink()
    wrong = [
        ("tasks.csv", "task,days,who\na,1,3 of ana; ben\n", "(who): there are only 2 of them"),
        ("tasks.csv", "task,days,who\na,1,0 of ana; ben\n", "(who): 0 of some people is nobody"),
        ("tasks.csv", "task,days,who\na,1,skilled in weldign\n", "Did you mean welding?"),
        ("tasks.csv", "task,days,pauses\na,1,maybe\n", "`maybe` is neither `yes` nor `no`"),
        ("people.csv", "person,works\nana,moonday\n", "(works): `moonday` is no weekday: write"),
    ]
    for file, text, says in wrong:
        (tmp_path / "tasks.csv").write_text(TEAM)
        (tmp_path / "people.csv").write_text(PEOPLE_OF_IT)
        (tmp_path / file).write_text(text)
        status, _, err = ran(*words)
        assert status == 2 and says in err
    (tmp_path / "people.csv").write_text(PEOPLE_OF_IT)
    assert "weekdays need a start" in ran(tmp_path)[2]


def team_of(who: str, folder: Path) -> str:
    """A folder with a table in which Ana and Ben have tasks, and a third is `who`'s."""
    rows = f'task,days,who\ndesign,3,ana\nengine,9,ben\nguide,4,"{who}"\n'
    (folder / "tasks.csv").write_text(rows)
    return str(folder)


@pytest.mark.parametrize(
    "who, people, groups",
    [
        ("ana or ben", (), (AnyOf(1, ("ana", "ben")),)),
        ("either of ana or ben", (), (AnyOf(1, ("ana", "ben")),)),
        ("either ana or ben", (), (AnyOf(1, ("ana", "ben")),)),
        ("any of ana, ben", (), (AnyOf(1, ("ana", "ben")),)),
        ("ana & ben", ("ana", "ben"), ()),
        ("ana and ben", ("ana", "ben"), ()),
        ("ana lopez", ("ana lopez",), ()),
        ("cem/dan", ("cem/dan",), ()),
    ],
)
def test_who_does_a_task(
    who: str, people: tuple[str, ...], groups: tuple[AnyOf, ...], tmp_path: Path
) -> None:
    job = brief_of(sheets_of(team_of(who, tmp_path)), Given()).jobs["guide"]
    assert (job.people, job.groups) == (people, groups)


@pytest.mark.parametrize("who", ["ana / ben", "ana/ben", "any of ana|ben", "ana ben", "ana/cem"])
def test_several_people_are_no_name(who: str, tmp_path: Path) -> None:
    """What may be meant for several people is not taken for a new one, unless a table has him."""
    folder, other = team_of(who, tmp_path), who[-3:]
    says = rf"row 4, column C \(who\): .*`ana, {other}` for all of them, `ana or {other}` for"
    with pytest.raises(SheetError, match=says):
        brief_of(sheets_of(folder), Given())
    name = who.removeprefix("any of ")
    (tmp_path / "people.csv").write_text(f"person\nana\nben\n{name}\n")
    job = brief_of(sheets_of(folder), Given()).jobs["guide"]
    assert name in (*job.people, *(each for group in job.groups for each in group.names))


SITE = (
    "task,days,who,uses,after,left,started\n"
    "walls,4,skilled in masonry; skilled in wiring,2 crew,,,\n"
    "roof,3,ben,crew; lift,walls,,\ndoors,2,ana,lift,,,\nwindows,2,cem,lift,,,\n"
)
PEOPLE_OF_SITE = (
    "person,holds,skills,cost,weight\nana,,masonry,300,\nben,,wiring,200,\ncem,,,100,\n"
    "crew,3,,10,7\nlift,1,,,3\n"
)


def test_resources(ran: Ran, tmp_path: Path) -> None:
    """Ana and Ben make the walls in 4 days, and meanwhile Cem has the lift. Then Ben makes the roof
    in 3, and Ana the doors in 2, one behind the other, as there is one lift: so all takes 9."""
    (tmp_path / "tasks.csv").write_text(SITE)
    (tmp_path / "people.csv").write_text(PEOPLE_OF_SITE)
    status, out, err = ran(tmp_path, "--csv", tmp_path / "out.csv", "--why")
    assert (status, err) == (0, "")
    rows = list(csv.reader(io.StringIO((tmp_path / "out.csv").read_text(), newline="")))
    found = {row[0]: row[1:] for row in rows[1:]}
    assert rows[0][-1] == "uses" and found["walls"][-1] == "2 crew"
    assert found["walls"][:3] == ["ana, ben", "0", "4"] and found["roof"][0] == "ben"
    assert {found["roof"][2], found["doors"][2]} in ({"9", "6"}, {"9", "7"})
    # (at 300 and 200 and 2 * 10 a day; 200 and 10; and so on)
    assert [int(found[it][5]) for it in ("walls", "roof", "doors")] == [4 * 520, 3 * 210, 2 * 300]
    assert "no sooner because of" in out and "lift, used by" in out
    status, out, _ = ran(tmp_path, "--what-if", "lift holds 2", "--what-if", "crew away 0 to 3")
    assert "What if lift holds 2?\nAll is done by day 7." in out
    assert "What if crew away 0 to 3?\nAll is done by day 10." in out
    (tmp_path / "wishes.csv").write_text("wish,latest\nsoon,7\n")
    status, out, _ = ran(tmp_path, "--give-up")
    assert status == 0 and "Without soon:" in out
    assert "lift holds 1" in out and "ana does one thing at a time" in out
    (tmp_path / "wishes.csv").write_text("wish,latest,weight\nsoon,7,9\n")
    status, out, _ = ran(tmp_path, "--give-up")
    assert "The first of these takes more of lift.\nWithout lift holds 1:" in out


def test_setup_times(ran: Ran, tmp_path: Path) -> None:
    """Red ones take 3 and 1 days, a blue one 2: behind the blue one it takes 4 days to go on with
    red ones, and 1 the other way round. So the blue one is the last, and all takes 7 days, where
    nobody is busy elsewhere."""
    (tmp_path / "tasks.csv").write_text(
        "task,days,who,uses,kind\nposters,3,ana,press,red\ncards,2,ben,press,blue\n"
        "flags,1,ben,press,red\n"
    )
    (tmp_path / "people.csv").write_text("person,holds\nana,\nben,\npress,1\n")
    (tmp_path / "setup times.csv").write_text(
        "machine,from,to,days\npress,red,blue,1\npress,blue,red,4\n"
    )
    status, out, err = ran(tmp_path, "--why", "--csv", tmp_path / "out" / ".." / "out.csv")
    assert (status, err) == (0, "") and "by day 7, and no sooner" in out
    assert "press, set up behind" in out
    (tmp_path / "wishes.csv").write_text("wish\nposters after cards\n")
    assert "by day 10, and" in ran(tmp_path, "--why")[1]
    (tmp_path / "wishes.csv").write_text("wish,latest\nsoon,6\n")
    status, out, err = ran(tmp_path)
    # (the pair that a plan may do without is none of the reasons)
    assert (status, err) == (1, "") and "press takes 1 from red to blue" in out
    with (tmp_path / "setup times.csv").open("a") as file:
        file.write("press,red,blue,2\n")
    with pytest.raises(SheetError, match=r"row 4, column B \(from\): another row says how many"):
        brief_of(sheets_of(str(tmp_path)), Given())
    (tmp_path / "setup times.csv").write_text("machine,from,to,days\npress,red,bleu,1\n")
    with pytest.raises(SheetError, match="no kind of task is called `bleu`. Did you mean blue"):
        brief_of(sheets_of(str(tmp_path)), Given())
    (tmp_path / "people.csv").write_text("person,holds\nana,\nben,\npress,2\n")
    with pytest.raises(SheetError, match="there are 2, and set up is what there is one of"):
        brief_of(sheets_of(str(tmp_path)), Given())


def test_a_plan_is_as_long_as_what_is_waited_for(ran: Ran, tmp_path: Path) -> None:
    """Three lags of five days between tasks of one, of what was to take one 9 days are left, and
    an event of three days finds none together before day 12."""
    tasks, wishes = tmp_path / "tasks.csv", tmp_path / "wishes.csv"
    tasks.write_text("task,days,who\na,1,\nb,1,\nc,1,\nd,1,\n")
    wishes.write_text(
        "wish\nb at least 5 days after a\nc at least 5 days after b\nd at least 5 days after c\n"
    )
    status, out, _ = ran(tmp_path)
    assert status == 0 and out.startswith("From day 0 to 19:")
    wishes.unlink()
    tasks.write_text("task,days,left\na,1,9\nb,1,\n")
    status, out, _ = ran(tmp_path, "--today", "2")
    assert status == 0 and out.startswith("From day 0 to 11:")
    tasks.write_text("task,days,who,pauses\nfair,3,ana,no\n")
    off = ", ".join(f"2026-03-{day:02d}" for day in range(4, 14, 3))
    (tmp_path / "people.csv").write_text(f'person,off\nana,"{off}"\n')
    status, out, _ = ran(tmp_path, "--start", "2026-03-02")
    assert status == 0 and "14-16 Mar fair" in out


def test_what_is_left(ran: Ran, tmp_path: Path) -> None:
    """Of the walls 3 days are left on the third."""
    (tmp_path / "tasks.csv").write_text(SITE.replace("2 crew,,,", "2 crew,,3,0"))
    (tmp_path / "people.csv").write_text(PEOPLE_OF_SITE)
    assert ran(tmp_path, "--today", "2", "--csv", tmp_path / "out.csv")[0] == 0
    rows = list(csv.reader(io.StringIO((tmp_path / "out.csv").read_text(), newline="")))
    found = {row[0]: row[2:5] for row in rows[1:]}
    assert found["walls"] == ["0", "5", "5"] and int(found["roof"][0]) >= 5


def test_wishes_are_traded(ran: Ran, tmp_path: Path) -> None:
    """Two tasks of one, each wished to be first: as soon as can be one of them is given up, and the
    second wish, to begin late, costs days."""
    (tmp_path / "tasks.csv").write_text("task,days,who\na,2,ana\nb,3,ana\n")
    (tmp_path / "wishes.csv").write_text(
        "wish,task,latest,earliest,weight\nfirst,a,2,,2\nsecond,b,3,,5\nlate,a,,6,4\n"
    )
    status, out, err = ran(tmp_path, "--trade-off", "end", "wishes")
    assert (status, err) == (0, "")
    lines = [line.split() for line in out.split("\n")]
    # (b first at 5: `first` and `late` are given up; at 8 a waits, and only `first` is)
    assert lines[2][:2] == ["5", "6"] and lines[3][:2] == ["8", "2"]
    assert "At end 5 and wishes 6: without first and late." in out
    assert "At end 8 and wishes 2: without first." in out


def test_a_trade_off(ran: Ran, tmp_path: Path) -> None:
    """By a library 3 days and 1800, by their own engine 9 days and nothing."""
    path = tmp_path / "work.csv"
    path.write_text(
        "task,days,who,after,cost,way\nengine,9,ben,,,our own\nengine,3,,,1800,a library\n"
        "guide,4,ana,engine,50,\n"
    )
    words = ["--start", "2026-03-02", "--off", "weekends", "--trade-off", "end", "cost"]
    files = ["--csv", tmp_path / "out.csv", "--svg", tmp_path / "out.svg"]
    status, out, err = ran(path, *words, *files)
    assert (status, err) == (0, "")
    lines = [line.split() for line in out.split("\n")]
    assert out.startswith("2 ways to trade end for total cost, no others:\n")
    assert lines[2] == ["7", "1850", "Tue", "10", "Mar", "2026", "a", "library"]
    assert lines[3] == ["13", "50", "Wed", "18", "Mar", "2026", "our", "own"]
    with open(tmp_path / "out.csv", newline="", encoding="utf-8") as file:
        heads, *rows = csv.reader(file)
    assert heads == ["end", "total cost", "done", "engine"]
    assert [row[:2] for row in rows] == [["7", "1850"], ["13", "50"]]
    assert (tmp_path / "out.svg").read_text().count("<circle") == 2
    status, out, err = ran(path, *words[:-2], "engine end", "guide cost")
    assert status == 0 and "One plan is best in both engine end and guide cost:" in out
    assert "not by --html" in ran(path, *words, "--html", tmp_path / "x.html")[2]
    assert "There is no cell" in ran(path, "--trade-off", "end", "costs")[2]


@pytest.mark.parametrize("name", ["release", "conference.ods"])
def test_the_examples(ran: Ran, name: str) -> None:
    """The sheets have the conflicts and repairs of the scripts, which are held to plain search."""
    status, out, err = ran(EXAMPLES / "planning" / name)
    assert (status, err) == (1, "")
    wanted = examples_ran(f"planning/{name.split('.')[0]}").printed
    # (what is wished for of the time to register stands in no conflict)
    [conflicts], [repairs] = conflicts_in(out), repairs_in(out)
    assert [{*map(plain, conflicts)}] == conflicts_in(wanted)
    assert [{plain(each): cost for each, cost in repairs.items()}] == repairs_in(wanted)[:1]
    assert "engine by way of our own engine" in out or "venue by way of hotel" in out


# --- beside trying all starts ---

DAYS, PEOPLE = 9, ("Ana", "Ben")


@dataclass(frozen=True)
class Row:
    """A task as it is drawn: its ways of days and cost, who, the tasks before, its first and last
    day."""

    ways: tuple[tuple[int, int], ...]
    who: tuple[str, ...]
    after: tuple[int, ...]
    earliest: int | None
    latest: int | None


@st.composite
def drawn(draw: st.DrawFn) -> tuple[list[Row], tuple[int, int]]:
    rows = []
    for number in range(draw(st.integers(1, 3))):
        way = st.tuples(st.integers(0, 3), st.integers(0, 9))
        ways = tuple(draw(st.lists(way, min_size=1, max_size=2)))
        who = draw(st.sampled_from([(), ("Ana",), ("Ben",), PEOPLE]))
        after = tuple(it for it in range(number) if draw(st.booleans()))
        day = st.none() | st.integers(0, 3)
        earliest, room = draw(day), draw(st.none() | st.integers(2, 5))
        rows.append(Row(ways, who, after, earliest, room and (earliest or 0) + room))
    first = draw(st.integers(0, 3))
    return rows, (first, first + draw(st.integers(1, 2)))


def best(rows: list[Row], away: tuple[int, int]) -> tuple[int, int] | None:
    """The soonest end, and the least cost with that, by trying all."""
    found = []
    for ways in product(*(row.ways for row in rows)):
        for starts in product(range(DAYS + 1), repeat=len(rows)):
            ends = [start + days for start, (days, _) in zip(starts, ways)]
            if fits(rows, starts, ends, away):
                found.append((max(ends), sum(cost for _, cost in ways)))
    return min(found, default=None)


def fits(rows: list[Row], starts: tuple[int, ...], ends: list[int], away: tuple[int, int]) -> bool:
    for number, row in enumerate(rows):
        start, end = starts[number], ends[number]
        if end > DAYS or start < (row.earliest or 0) or end > (row.latest or DAYS):
            return False
        if any(ends[before] > start for before in row.after):
            return False
        if "Ana" in row.who and end > away[0] and start < away[1]:
            return False
        for other in range(number):
            if {*row.who} & {*rows[other].who} and start < ends[other] and starts[other] < end:
                return False
    return True


@settings(max_examples=20 * TIMES)
@given(drawn())
def test_the_best_schedule_is_that_of_all(
    wide: str, tmp_path_factory: pytest.TempPathFactory, case: tuple[list[Row], tuple[int, int]]
) -> None:
    rows, away = case
    folder = tmp_path_factory.mktemp("plan")
    heads: list[Value] = ["task", "way", "days", "cost", "who", "after", "earliest", "latest"]
    tasks: list[list[Value]] = [[*heads, "pauses"]]
    for number, row in enumerate(rows):
        after = ", ".join(f"t{before}" for before in row.after)
        rest: list[Value] = [" & ".join(row.who), after, row.earliest, row.latest]
        for way, (days, cost) in enumerate(row.ways):
            tasks.append([f"t{number}", f"way {way}", days, cost, *rest, "no"])
    absences: list[list[Value]] = [["who", "from", "to"], ["Ana", *away]]
    people: list[list[Value]] = [["person"], ["Ana"], ["Ben"]]
    plan: list[list[Value]] = [["days"], [DAYS]]
    tables = {"tasks": tasks, "absences": absences, "people": people, "plan": plan}
    path, out = as_folder(tables, folder / "in"), folder / "out.csv"
    wanted = best(rows, away)
    assert main(["plan", path, "--csv", str(out), "--program", wide]) == (wanted is None)
    if wanted is not None:
        found = list(csv.DictReader(io.StringIO(out.read_text(), newline="")))
        ends = [int(each["end"]) for each in found]
        assert (max(ends), sum(int(each["cost"] or 0) for each in found)) == wanted
        by_task = {each["task"]: each for each in found}
        whole = [by_task[f"t{number}"] for number in range(len(rows))]
        starts = tuple(int(each["start"]) for each in whole)
        assert fits(rows, starts, [int(each["end"]) for each in whole], away)


# --- what can't be read ---

HEAD = "task,days,who,after,earliest,latest,cost,way\n"
WRONG = [
    (
        "tasks.csv",
        "task,dayz\na,3\n",
        "row 1, column B: the heading `dayz` isn't known: write task",
    ),
    ("tasks.csv", "task,dayz\na,3\n", "Did you mean days?"),
    ("tasks.csv", "task,days,duration\n", "column C: the heading `duration` says the same as one"),
    ("tasks.csv", "task,who\na,Ana\n", "there is no heading `days`"),
    ("tasks.csv", HEAD + "a,3,,,,,,,x\n", "row 2, column I: `x` stands under no heading"),
    ("tasks.csv", HEAD, "there is no task below the headings"),
    ("tasks.csv", HEAD + ",3\n", "row 2, column B (days): this row has no task"),
    ("tasks.csv", HEAD + "a\n", "row 2, column A (task): say under `days` how long `a` takes"),
    ("tasks.csv", HEAD + "a,2 weeks\n", "column B (days): `2 weeks` is not a whole number, as 5"),
    ("tasks.csv", HEAD + "a,-1\n", "column B (days): `-1` is not a whole number"),
    ("tasks.csv", HEAD + "a,2,,,,,1.5\n", "column G (cost): `1.5` is not a whole number"),
    (
        "tasks.csv",
        HEAD + "a,1\n\nb,2,,c\n",
        "row 4, column D (after): no task is called `c`. There",
    ),
    ("tasks.csv", HEAD + "alpha,1\nb,2,,alhpa\n", "called `alhpa`. Did you mean alpha?"),
    (
        "tasks.csv",
        HEAD + "a,1,,b\nb,2,,a\n",
        "row 2, column D (after): these come after one another",
    ),
    ("tasks.csv", HEAD + "a,1,,a\n", "in a ring: a"),
    ("tasks.csv", HEAD + "a,1\na,2\n", "row 2, column A (task): `a` stands here twice"),
    ("tasks.csv", HEAD + "a,1,Ana,,,,,x\na,2,Ben,,,,,y\n", "row 3, column C (who): another row of"),
    ("tasks.csv", HEAD + "a,1,,,3 March\n", "`3 March` is not a day of the plan, as 5; dates need"),
    ("plan.csv", "start\nsoon\n", "row 2, column A (start): `soon` is no date: write it as 2026"),
    ("plan.csv", "start\n2 March\n", "(start): `2 March` names no year: write it as 2026-03-02"),
    ("tasks.csv", "task,days,started\na,1,2\n", "(started): say `finished` too, or how many days"),
    ("tasks.csv", "task,days,finished\na,1,2\n", "column C (finished): say `started` too"),
    ("tasks.csv", "task,days,left\na,1,2\n", "row 2, column C (left): say what day it is, by"),
    ("tasks.csv", "task,days,uses\na,1,2 lifts\n", "(uses): there is 1 of `lifts`: write how many"),
    ("people.csv", "person,holds\nAna,\nlift,0\n", "row 3, column B (holds): `0` is not a whole"),
    ("people.csv", "person,holds\nAna,2\n", "tasks, row 2, column C (who): no person is called"),
    ("people.csv", "person,holds,skills\nlift,2,up\n", "(skills): what `holds` so many is no"),
    ("people.csv", "person,cost\nAna,much\n", "row 2, column B (cost): `much` is not a whole"),
    (
        "tasks.csv",
        "task,days,started,finished\na,1,3,2\n",
        "(finished): it was over before it began",
    ),
    ("tasks.csv", "", "there is nothing in these sheets: write tasks, with their days"),
    ("plan.csv", "start,off\n2026-03-02,moonday\n", "column B (off): `moonday` is no date"),
    ("plan.csv", "off\nsat\n", "row 2, column A (off): days off need a start of the plan"),
    (
        "plan.csv",
        "start\n2026-03-02\n2026-03-03\n",
        "row 3, column A (start): the plan begins once",
    ),
    ("people.csv", "person\nBen\nBen\n", "row 3, column A (person): `Ben` stands here twice"),
    ("people.csv", "person\nBert\n", "tasks, row 2, column C (who): no person is called `Ana`."),
    ("absences.csv", "who,from\nAnna,3\n", "(who): no person is called `Anna`. Did you mean Ana?"),
    (
        "absences.csv",
        "who,from,to\nAna,3,2\n",
        "column B (from): the absence ends before it begins",
    ),
    ("absences.csv", "who,from\nAna\n", "say under `from` on which day the absence begins"),
    ("wishes.csv", "wish\nsoon\n", "`soon` can't be read. Say `review done by"),
    (
        "wishes.csv",
        "wish,earliest\nlate,3\n",
        "column B (earliest): say under `task` of which task",
    ),
    ("wishes.csv", "wish,task,way\nx,a,uni\n", "no way of a is called `uni`. There is none."),
    (
        "wishes.csv",
        "wish,latest,weight\nx,3,much\n",
        "(weight): `much` is not a weight, as 2 or 0.5",
    ),
    ("wishes.csv", "wish,latest\na,3\n", "a task is called so: give the wish a name of its own"),
    ("setups.csv", "who,from,to,days\n,b,c,1\n", "column B (from): this row has no person"),
    ("setups.csv", "who,from,to,days\nAna,,c,1\n", "(who): say under `from` of which kind the"),
    ("setups.csv", "who,from,to,days\nAnna,b,c,1\n", "no person is called `Anna`. Did you mean"),
    ("setups.csv", "who,from,to,days\nAna,b,c,1\n", "(from): no kind of task is called `b`. There"),
]


@pytest.mark.parametrize("name, text, says", WRONG)
def test_what_cannot_be_read_says_where(name: str, text: str, says: str, tmp_path: Path) -> None:
    (tmp_path / "tasks.csv").write_text("task,days,who\na,2,Ana\n")
    (tmp_path / name).write_text(text)
    with pytest.raises(SheetError) as wrong:
        brief_of(sheets_of(str(tmp_path)), Given())
    assert says in str(wrong.value)


def test_what_is_no_table(ran: Ran, tmp_path: Path, monkeypatch: pytest.MonkeyPatch) -> None:
    for name, text, says in (
        ("x.xlsx", b"PK\x03\x04 no more", "is no .xlsx file"),
        ("x.ods", b"none", "is no .ods file"),
        ("x.csv", b'task,days\n"a,2\n', "is no table"),
        ("x.csv", b"task,days\n\xfc,2\n", "this is no text in UTF-8"),
        ("x.doc", b"", "a plan is a folder, or a file .csv, .ods or .xlsx"),
        ("x.csv", b"task,days\n" + b"a,1\n" * 20_001, "a plan has at most 20,000 rows"),
    ):
        (tmp_path / name).write_bytes(text)
        status, out, err = ran(tmp_path / name)
        assert (status, out) == (2, "") and says in err
    assert ran(tmp_path / "none.csv")[0] == 3 and ran(tmp_path / "none.ods")[0] == 3
    (tmp_path / "empty").mkdir()
    assert "there is no .csv file in this folder" in ran(tmp_path / "empty")[2]
    two = {"tasks": SPRING["tasks"], "Task": SPRING["tasks"]}
    assert "both tell the tasks: join them" in ran(as_folder(two, tmp_path / "two"))[2]
    three = {"one": SPRING["tasks"], "other": SPRING["tasks"]}
    assert (
        "none of the sheets one and other is called `tasks`"
        in ran(as_folder(three, tmp_path / "three"))[2]
    )
    for ending, package in (("xlsx", "openpyxl"), ("ods", "odf.opendocument")):
        hide(monkeypatch, package)
        status, _, err = ran(tmp_path / f"x.{ending}")
        assert status == 3 and f"install Debian's python3-{package.split('.')[0]}" in err


def test_a_terminal_gets_no_orders(ran: Ran, tmp_path: Path) -> None:
    name = "a" + "b".join(BAD) + "z"
    tables: Tables = {
        "tasks": [["task", "days", "who", "notes"], [name, 2, name, name], ["b", 1, name, None]],
        "wishes": [["wish", "latest"], [name + "!", 1]],
        name.replace("/", ""): [["x"]],
    }
    told = ran(as_folder(tables, tmp_path / "plan"), "--what-if", name, "--give-up")
    assert all(map(is_clean, told[1:])) and "\\x1b" in told[1]
    tables["tasks"][0].append(name)
    assert all(map(is_clean, ran(as_folder(tables, tmp_path / "plan"))[1:]))


# --- days ---

SINCE = date(2026, 3, 4)


@pytest.mark.parametrize(
    "text, wanted",
    [
        ("2026-03-03", date(2026, 3, 3)),
        ("3.4.2026", date(2026, 4, 3)),
        ("3 March", date(2027, 3, 3)),
        ("5th of March", date(2026, 3, 5)),
        ("5 Mar. 2030", date(2030, 3, 5)),
        ("29 February", date(2028, 2, 29)),
        ("7 SEPT", date(2026, 9, 7)),
    ],
)
def test_dates(text: str, wanted: date) -> None:
    assert date_in(text, SINCE) == wanted


@pytest.mark.parametrize(
    "text, first, last",
    [
        ("3-7 March", date(2026, 3, 3), date(2026, 3, 7)),
        ("3-7 March 2027", date(2027, 3, 3), date(2027, 3, 7)),
        ("28 Feb - 2 Mar", date(2027, 2, 28), date(2027, 3, 2)),
        ("28 Dec-2 January", date(2026, 12, 28), date(2027, 1, 2)),
        ("2026-03-05 to 2026-03-09", date(2026, 3, 5), date(2026, 3, 9)),
        ("2026-03-05-2026-03-09", date(2026, 3, 5), date(2026, 3, 9)),
        ("5.3.\u20139.3.2026", date(2026, 3, 5), date(2026, 3, 9)),
        ("2026-12-30 until 4 Jan", date(2026, 12, 30), date(2027, 1, 4)),
        ("9 March", date(2026, 3, 9), date(2026, 3, 9)),
    ],
)
def test_days_from_one_to_another(text: str, first: date, last: date) -> None:
    found = days_in(text, SINCE)
    assert (found.first, found.last) == (first, last)


@pytest.mark.parametrize(
    "text", ["", "3", "3-7", "31 Feb", "March", "7-3 March", "30 May to 3 May"]
)
def test_what_is_no_day(text: str) -> None:
    for read in (date_in, days_in):
        with pytest.raises(ValueError, match="is no date|the last day comes before the first"):
            read(text, SINCE)
