"""Work pauses while who does it is away, and events don't."""

from collections.abc import Iterator
from datetime import date, datetime, timedelta, timezone
from xml.etree import ElementTree

import pytest

from propbench import Session, Workbench
from propbench.planning import Project
from propbench.refusals import LineTooLong


@pytest.fixture
def p(wide: str) -> Iterator[Project]:
    with Workbench(wide) as w:
        yield w.project(days=30, people="ana ben")


def parts(p: Project, task: str = "review") -> list[tuple[int, int]]:
    """When a task is worked on where all ends soonest."""
    schedule = p.schedule(p.workbench.least(p.end))
    [entry] = [each for each in schedule.entries if each.task == task]
    assert entry.days == sum(end - start for start, end in entry.parts)
    return entry.parts


@pytest.mark.parametrize("is_first", [True, False])
def test_work_pauses(p: Project, is_first: bool) -> None:
    """Whether leave is told before the task or behind it."""
    if is_first:
        p.away("ana", 2, 5)
    p.task("review", 5, who="ana")
    if not is_first:
        p.away("ana", 2, 5)
    assert parts(p) == [(0, 2), (5, 8)]
    assert p.workbench.least(p.end).value == 8
    told = [line.split() for line in str(p.workbench.least(p.end)).split("\n")]
    assert ["0", "8", "5", "review", "ana"] in told
    assert [
        "ana",
        "0",
        "to",
        "2",
        "review;",
        "2",
        "to",
        "5",
        "away;",
        "5",
        "to",
        "8",
        "review",
    ] in told
    p.workbench.kick("ana away 2 to 5")
    assert parts(p) == [(0, 5)]


def test_events_do_not(p: Project) -> None:
    p.task("fair", 5, who="ana", pauses=False)
    p.away("ana", 2, 5)
    assert parts(p, "fair") == [(5, 10)]


def test_days_count_once(p: Project) -> None:
    """Of leaves that overlap, of one or of two who do it together."""
    p.task("review", 5, who="ana ben")
    for person, first, last in (("ana", 2, 5), ("ana", 4, 7), ("ben", 6, 8), ("ben", 9, 10)):
        p.away(person, first, last)
    assert parts(p) == [(0, 2), (8, 9), (10, 12)]
    p.workbench.kick("ana away 4 to 7")
    assert parts(p) == [(0, 2), (5, 6), (8, 9), (10, 11)]
    p.workbench.kick("ben away 6 to 8")
    assert parts(p) == [(0, 2), (5, 8)]


def test_it_begins_and_ends_on_days_of_work(p: Project) -> None:
    w, review = p.workbench, p.task("review", 2, who="ana")
    p.away("ana", 2, 5)
    starts = {
        plan["review start"]: plan["review end"] for plan in w.plans([review.start, review.end])
    }
    assert {start: starts[start] for start in (0, 1, 5, 6)} == {0: 2, 1: 6, 5: 7, 6: 8}
    assert 2 not in starts and 3 not in starts and 4 not in starts


def test_nothing_else_is_done_in_a_pause(p: Project) -> None:
    """Ben waits for Ana, who is away, and does nothing else meanwhile."""
    w = p.workbench
    p.task("review", 4, who="ana ben")
    other = p.task("letters", 2, who="ben")
    p.away("ana", 2, 5)
    assert w.least(p.end).value == min(4 + 3 + 2, 2 + 3 + 4)
    w.require(other.start >= 1)
    assert w.least(p.end).value == 4 + 3 + 2


def test_part_time(wide: str) -> None:
    """Ana works on Mondays and Tuesdays, from a Wednesday on."""
    with Workbench(wide) as w:
        p = w.project(days=40, people="ana ben", start="2026-03-04", off="sat sun")
        p.task("review", 5, who="ana")
        p.task("talk", 3, who="ana", pauses=False)
        assert p.works("ana", "mon tue") == "ana works mon tue"
        days = [date(2026, 3, 4) + timedelta(days=each) for each in range(60)]
        own = [day for day in days if day.weekday() in (0, 1)]
        with pytest.raises(ValueError, match="nothing fits"):
            w.solve()
        w.forget("talk takes 3")
        w.tell("talk takes 2", p.tasks["talk"].days, 2)
        schedule = p.schedule(w.least(p.end))
        worked = [
            p.date(day)
            for entry in schedule.entries
            for part in entry.parts
            for day in range(*part)
        ]
        assert sorted(worked) == own[:7] and schedule.end_said() == "on Mon 30 Mar 2026"
        assert "away" not in str(schedule)
        w.kick("ana works mon tue")
        assert w.least(p.end).value == 7
        with pytest.raises(ValueError, match="'tues' is no weekday"):
            p.works("ana", "mon tues")
        with pytest.raises(ValueError, match="Did you mean ana?"):
            p.works("anna", "mon")
        assert p.works("ben", "mon tue wed thu fri") in w.believed


def test_weekdays_need_dates(p: Project) -> None:
    with pytest.raises(ValueError, match="ana: weekdays need dates: give the plan a start"):
        p.works("ana", "mon")


def test_it_is_written(wide: str) -> None:
    with Workbench(wide) as w:
        p = w.project(days=20, people="ana", start="2026-03-02", off="sat sun")
        p.task("review", 4, who="ana")
        p.away("ana", "2026-03-04", "2026-03-06")
        schedule = p.schedule(w.least(p.end))
        assert schedule.to_csv().split("\r\n")[1] == "review,ana,2026-03-02,2026-03-09,4,,"
        text = schedule.to_ics(now=datetime(2026, 1, 1, tzinfo=timezone.utc))
        events = [each.split("\r\n") for each in text.split("BEGIN:VEVENT")[1:]]
        own = [each for each in events if "SUMMARY:review (ana)" in each]
        dates = [
            [line[-8:] for line in each if line.startswith("DT") and ";" in line] for each in own
        ]
        # (its last two days are a Friday and the Monday behind)
        assert dates == [["20260302", "20260304"], ["20260306", "20260310"]]
        assert len({line for each in events for line in each if line.startswith("UID")}) == 3
        bars = ElementTree.fromstring(schedule.to_svg()).findall(".//{*}rect")
        titled = [each for each in bars if (each.findtext("{*}title") or "").startswith("review")]
        assert [float(each.attrib["width"]) for each in titled] == [2 * 14, 2 * 14]


def test_a_pause_is_told_of_the_chain(p: Project) -> None:
    p.task("review", 5, who="ana")
    p.away("ana", 2, 5)
    chain = p.critical()
    assert set(chain.premises) == {"review takes 5", "ana away 2 to 5"}
    assert chain.links[0].waits == "ana, away 2 to 5"


def test_how_far_work_can_move(p: Project) -> None:
    """Letters take days 0, 1 and 5, or all behind the leave: they can begin on days 0, 1 and 5 to
    7."""
    p.task("letters", 3, who="ana")
    p.task("review", 10, who="ben")
    p.away("ana", 2, 5)
    chain = p.critical()
    assert chain.tasks == ("review",) and chain.rooms == {"letters": 7}
    assert str(chain).split("\n")[-1].split() == ["letters", "7", "0", "to", "10"]


def test_what_was_done_counts_days_of_work(p: Project) -> None:
    w, review = p.workbench, p.task("review", 5, who="ana")
    p.away("ana", 2, 4)
    p.done(review, 0, 7)
    assert "review takes 5" in w.believed and w.solve()["review end"] == 7
    w.forget("review done 0 to 7")
    p.done(review, 0, 8)
    assert "review takes 5" not in w.believed and w.solve()["review days"] == 6


def test_what_is_refused_leaves_nothing(p: Project) -> None:
    w, review = p.workbench, p.task("review", 5, who="ana")
    p.away("ana", 8, 9)
    w.choose("way", review.start, [1, 2])

    def seen() -> list[object]:
        return [w.model.base(), w.premises, list(w.cells), list(p.tasks), w.session.lines]

    before = seen()
    with pytest.raises(ValueError, match="'way' is a choice"):
        p.away("ana", 2, 5, under="way")
    assert seen() == before
    p.away("ana", 2, 5)
    assert w.least(review.end).value == 1 + 5 + 3 + 1


def test_what_there_is_no_room_for_is_gone(wide: str, monkeypatch: pytest.MonkeyPatch) -> None:
    """Absences that are told of in the end are told to the program with the next question: where
    that has no room for them, all is as it was before them."""
    with Workbench(wide) as w:
        p = w.project(days=30, people="ana")
        p.task("venue", 5, who="ana")
        assert w.least(p.end).value == 5
        p.away("ana", 2, 4, "leave")
        p.away("ana", 5, 6, "dentist")
        assert w.premises[-2:] == ("leave", "dentist")

        def refused(*given: object) -> None:
            raise LineTooLong(1, "the line is too long", "tell leave ..", 1)

        with monkeypatch.context() as patch:
            patch.setattr(Session, "replay", refused)
            with pytest.raises(ValueError, match="no room for .* what was said last is gone"):
                w.least(p.end)
        assert w.premises == ("venue takes 5", "ana does one thing at a time")[: len(w.premises)]
        assert w.least(p.end).value == 5
        p.away("ana", 2, 4, "leave")
        p.away("ana", 5, 6, "dentist")
        assert w.least(p.end).value == 8
