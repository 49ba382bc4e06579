"""Projects hold against trying all starts of a few tasks, and say what is wrong in tasks."""

from collections.abc import Callable, Iterator
from dataclasses import dataclass
from datetime import date, datetime
from itertools import product
from pathlib import Path
from xml.etree import ElementTree

import pytest
from conftest import TIMES
from hypothesis import given, settings
from hypothesis import strategies as st

from propbench import Workbench
from propbench.planning import Calendar, Project, Task
from propbench.questions import NothingFits

DAYS = 6
PEOPLE = ("ana", "ben")


@dataclass(frozen=True)
class Drawn:
    """A task as it is drawn: its ways of days and cost, who does it, and the tasks before it."""

    ways: tuple[tuple[int, int], ...]
    who: str
    after: tuple[int, ...]


@st.composite
def drawn_tasks(draw: st.DrawFn) -> list[Drawn]:
    way = st.tuples(st.integers(0, 3), st.integers(0, 3))
    made = []
    for number in range(draw(st.integers(1, 3))):
        ways = draw(st.lists(way, min_size=1, max_size=2))
        after = [before for before in range(number) if draw(st.integers(0, 2)) == 0]
        made.append(Drawn(tuple(ways), draw(st.sampled_from(PEOPLE)), tuple(after)))
    return made


def project_of(w: Workbench, drawn: list[Drawn], away: tuple[int, int]) -> Project:
    p = w.project(days=DAYS, people=PEOPLE)
    made: list[Task] = []
    for number, each in enumerate(drawn):
        after = [made[before] for before in each.after]
        name, who = f"t{number}", each.who
        if len(each.ways) == 1:
            [(days, cost)] = each.ways
            made.append(p.task(name, days, cost=cost, who=who, after=after, pauses=False))
        else:
            options = {f"way {n}": dict(days=d, cost=c) for n, (d, c) in enumerate(each.ways)}
            made.append(p.task(name, who=who, after=after, options=options, pauses=False))
    p.away("ana", *away, under="ana away")
    return p


def all_plans(drawn: list[Drawn], away: tuple[int, int] | None) -> Iterator[tuple[int, int]]:
    """The end and the cost of each plan, by going through all starts and ways."""
    for ways in product(*(each.ways for each in drawn)):
        for starts in product(range(DAYS + 1), repeat=len(drawn)):
            ends = [start + days for start, (days, _) in zip(starts, ways)]
            if max(ends) <= DAYS and fits(drawn, starts, ends, away):
                yield max(ends), sum(cost for _, cost in ways)


def fits(
    drawn: list[Drawn], starts: tuple[int, ...], ends: list[int], away: tuple[int, int] | None
) -> bool:
    for number, each in enumerate(drawn):
        if any(ends[before] > starts[number] for before in each.after):
            return False
        for other in range(number):
            if drawn[other].who == each.who:
                if starts[number] < ends[other] and starts[other] < ends[number]:
                    return False
        if away and each.who == "ana" and ends[number] > away[0] and starts[number] < away[1]:
            return False
    return True


@settings(max_examples=15 * TIMES)
@given(drawn_tasks(), st.sampled_from([(0, 2), (1, 3), (2, 5), (4, 6)]))
def test_best_plans_are_those_of_all(drawn: list[Drawn], away: tuple[int, int]) -> None:
    with Workbench() as w:
        p = project_of(w, drawn, away)
        for known in (away, None):
            plans = list(all_plans(drawn, known))
            ends, costs = zip(*plans) if plans else ((), ())
            for cell, values in ((p.end, ends), (p.total_cost, costs)):
                for found, wanted in ((w.least(cell), min), (w.greatest(cell), max)):
                    assert found.proved
                    assert found.value == (wanted(values) if values else None)
            w.kick("ana away")


@pytest.fixture
def p() -> Iterator[Project]:
    with Workbench() as w:
        p = w.project(days=60, people="ana ben", start=date(2026, 3, 4), off="sat sun")
        ways = {"hotel": dict(days=2, cost=4000), "uni": dict(days=5, cost=1500)}
        venue = p.task("venue", who="ana", options=ways)
        p.task("review", 5, who="ben", after=[venue], cost=10)
        yield p


def test_facts_are_premises(p: Project) -> None:
    w = p.workbench
    assert p.facts == ("review takes 5", "review costs 10", "review after venue")
    assert set(w.critical(p.end)) == {"review takes 5", "review after venue"}
    assert p.away("ana", 0, 3) == "ana away 0 to 3"
    assert w.least(p.end).value == 10
    assert p.done_by(9) == "all done by 9"
    assert set(w.repairs(keep=p.facts)) == {
        frozenset({"ana away 0 to 3"}),
        frozenset({"all done by 9"}),
    }
    w.forget("review takes 5")
    w.tell("review takes 4", p.tasks["review"].days, 4)
    assert w.least(p.end).value == 9


def test_the_best_plan_says_which_options_it_takes(p: Project) -> None:
    w = p.workbench
    for cell, option in ((p.end, "hotel"), (p.total_cost, "uni")):
        best = w.least(cell)
        assert best.choices == {"venue": option} and best.plan is not None
        [venue] = [each for each in p.schedule(best).entries if each.task == "venue"]
        assert venue.way == option and f"  {option}  " in str(best)
        assert best.rows()[:-1] == list(best.plan.items())


def test_what_is_wrong(p: Project) -> None:
    with pytest.raises(ValueError, match="nobody in the plan is called 'anna'. Did you mean ana?"):
        p.task("talk", 2, who="anna")
    with Workbench() as other:
        elsewhere = other.project(days=60).task("elsewhere", 1)
        with pytest.raises(ValueError, match="talk: the task 'elsewhere' is none of this workben"):
            p.task("talk", 2, after=[elsewhere])
    with pytest.raises(ValueError, match="there is a task 'venue'"):
        p.task("venue", 2)
    with pytest.raises(ValueError, match="say how many days"):
        p.task("talk")
    with pytest.raises(ValueError, match="told by its days and its cost"):
        p.task("talk", options={"long": {"day": 2}, "short": {"days": 1}})
    with pytest.raises(ValueError, match="can't be away"):
        p.away("ana", 5, 5)
    for days, cost in ((2.5, 0), ("2 days", 0), (2, "9 euro")):
        with pytest.raises(TypeError, match="talk: (days|cost)=.* is no whole number"):
            p.task("talk", days, cost=cost)  # type: ignore[arg-type]
    for after in (p.tasks["venue"], "venue", ["venue"]):
        with pytest.raises(TypeError, match="talk: `after` is a list of what p.task gave"):
            p.task("talk", 2, after=after)  # type: ignore[arg-type]
    with pytest.raises(TypeError, match="days='30' is no whole number"):
        p.workbench.project(days="30")  # type: ignore[arg-type]
    assert list(p.tasks) == ["venue", "review"]
    assert p.total_cost.ask(over="all plans").low == 1510
    with pytest.raises(ValueError, match="before the end or the total cost"):
        p.task("talk", 2)


def test_what_is_refused_leaves_nothing(p: Project) -> None:
    """Whatever it is refused for: a name that is taken, or a choice where a premise has to be."""
    w = p.workbench
    w.tell("talk", w.number("talk days", 0, 9), 1)
    w.number("food cost", 0, 9)

    def seen() -> list[object]:
        return [w.model.base(), w.premises, w.cells, p.facts, list(p.tasks), w.session.lines]

    before = seen()
    two = {"one": dict(days=1), "two": dict(days=2)}
    refused: list[tuple[Callable[[], object], str]] = [
        (lambda: p.task("talk", options=two), "there is a cell of this name: 'talk days'"),
        (lambda: p.task("food", 1, cost=3), "there is a cell of this name: 'food cost'"),
        (lambda: p.task("tea", 1, under="venue"), "'venue' is a choice"),
        (lambda: p.task("late", 10**20), "lie"),
        (lambda: p.away("ana", 3, 5, under="venue"), "'venue' is a choice"),
        (lambda: p.done_by(5, under="venue"), "'venue' is a choice"),
        (lambda: p.done_by(5, under="venue", task=p.tasks["review"]), "'venue' is a choice"),
    ]
    for call, says in refused:
        with pytest.raises(ValueError, match=says):
            call()
        assert seen() == before
    p.task("tea", 1, who="ana", under="talk")
    w.number("end", 0, 9)
    with pytest.raises(ValueError, match="there is a cell of this name: 'end'"):
        p.end
    p.task("food", 1)
    assert list(p.tasks) == ["venue", "review", "tea", "food"]


def test_dates(p: Project) -> None:
    calendar = Calendar.of(date(2026, 3, 7), "sat sun")
    assert calendar.date_of(0) == date(2026, 3, 9) and calendar.date_of(5) == date(2026, 3, 16)
    assert calendar.day_of(date(2026, 3, 14)) == 5 and calendar.day_of(date(2026, 3, 13)) == 4
    holiday = Calendar.of(date(2026, 3, 9), ["sun", date(2026, 3, 10)])
    assert [holiday.date_of(day).day for day in range(6)] == [9, 11, 12, 13, 14, 16]
    assert p.date(3) == date(2026, 3, 9)
    p.away("ana", date(2026, 3, 4), date(2026, 3, 9), under="away")
    assert p.workbench.least(p.tasks["venue"].start).value == 3
    for wrong in ("mon tue wed thu fri sat sun", "monday"):
        with pytest.raises(ValueError):
            Calendar.of(date(2026, 3, 7), wrong)
    with pytest.raises(ValueError, match="after 2026-03-01"):
        p.day(date(2026, 3, 1))


def test_an_end_that_was_asked_for_in_a_what_if(p: Project) -> None:
    """What is made there is gone behind it: so tasks can be added, and the end is made anew."""
    w = p.workbench
    with w.what_if(tell=[("late", p.tasks["venue"].start, 4, 60)]):
        assert w.least(p.end).value == 4 + 2 + 5
        assert w.least(p.total_cost).value == 1500 + 10
    p.task("later", 3, after=[p.tasks["review"]])
    assert w.least(p.end).value == 2 + 5 + 3
    assert w.least(p.total_cost).value == 1500 + 10


def test_the_chart(p: Project, tmp_path: Path) -> None:
    w = p.workbench
    strange = p.task("<b>&\x1b", 1, who="ben")
    p.done_by(20, under="soon")
    chart = p.chart()
    chart.save(tmp_path / "chart.svg")
    assert (tmp_path / "chart.svg").read_text() == f"{chart.svg}\n" == f"{chart._repr_svg_()}\n"
    drawn = ElementTree.fromstring(chart.svg)
    texts = [each.text or "" for each in drawn.iter() if each.tag.endswith("text")]
    assert "<b>&\\x1b (ben)" in texts and "4 Mar" in texts
    titles = [each.text or "" for each in drawn.iter() if each.tag.endswith("title")]
    # (the days 0 to 1, and in any plan 0 to 14: three weekends lie between)
    first = titles[0].removesuffix("; it makes the end")
    assert first == "venue (ana): 4-5 Mar, in any plan 4-24 Mar"
    plan = w.least(p.end).plan
    assert plan is not None and len(ElementTree.fromstring(p.chart(plan, rooms=False).svg)) > 10
    w.tell("late", strange.start, 20)
    with pytest.raises(NothingFits):
        p.chart()


def test_dates_may_be_texts(p: Project) -> None:
    assert p.day("2026-03-06") == p.day(date(2026, 3, 6)) == p.day(datetime(2026, 3, 6, 8)) == 2
    assert p.away("ana", "2026-03-06", "2026-03-09") == "ana away 2026-03-06 to 2026-03-09"
    assert p.done_by("2026-03-20") == "all done by 2026-03-20"
    assert p.done_by(12, task=p.tasks["review"]) == "review done by 12"
    for wrong in ("2026-3-6", "2026-02-30", "tomorrow", "20260306"):
        with pytest.raises(ValueError, match=f"'{wrong}' is no date: write it as 2026-12-04"):
            p.done_by(wrong)
    with pytest.raises(TypeError, match="a date is one of Python, or a text"):
        p.done_by(9.5)  # type: ignore[arg-type]
    days = Calendar.of("2026-12-23", "sat sun 2026-12-24")
    assert days == Calendar.of(date(2026, 12, 23), [date(2026, 12, 24), "sat", "sun"])
    assert days.date_of(1) == date(2026, 12, 25)
    assert Calendar.of("2026-12-23", date(2026, 12, 23)).date_of(0) == date(2026, 12, 24)
    with pytest.raises(ValueError, match="'2026-12-32' is no date"):
        Calendar.of("2026-12-23", "2026-12-32")
    with pytest.raises(TypeError, match="a date is one of Python"):
        Calendar.of("2026-12-23", [24])  # type: ignore[list-item]


def test_leave_on_days_off_is_taken(p: Project) -> None:
    w = p.workbench
    assert w.least(p.tasks["venue"].end).value == 2
    # (a Saturday and a Sunday, and then the Saturday alone)
    assert p.away("ana", "2026-03-07", "2026-03-09") == "ana away 2026-03-07 to 2026-03-09"
    assert p.away("ana", date(2026, 3, 7), date(2026, 3, 8), "trip") == "trip"
    assert "trip" in w.believed and w.least(p.tasks["venue"].end).value == 2
    says = "can't be away from 2026-03-06 to 2026-03-06: the second is the day of the return"
    with pytest.raises(ValueError, match=says):
        p.away("ana", "2026-03-06", "2026-03-06")
    with pytest.raises(
        ValueError, match="from day 4 to day 4: the second is the day of the return"
    ):
        p.away("ana", 4, 4)


def test_people_are_names() -> None:
    with Workbench() as w:
        for people in ({"hall": 2}, {"hall": 1, "ana": 1}):
            with pytest.raises(TypeError, match="says more of them.*say p.resource"):
                w.project(days=9, people=people)  # type: ignore[arg-type]
        with pytest.raises(TypeError, match="names are one text"):
            w.project(days=9, people=["ana", 2])  # type: ignore[list-item]
        p = w.project(days=9, people="hall1 hall2")
        with pytest.raises(TypeError, match="names are one text"):
            p.task("talk", 2, who={"hall1": 1})  # type: ignore[arg-type]
        assert not p.tasks and not w.cells


def test_a_chart_says_who_is_waited_for(p: Project, tmp_path: Path) -> None:
    w = p.workbench
    away = p.away("ben", 0, 20)
    w.forget("review after venue")
    svg = p.chart(rooms=False).svg
    assert "review (ben): 1-7 Apr; it starts when ben is back" in svg
    w.kick(away)
    assert "is back" not in p.chart(rooms=False).svg
    chart = p.chart(rooms=False)
    for name in ("x.csv", "x.png", "x.SVGZ"):
        with pytest.raises(ValueError, match=f"written as .svg, and not as .{name.split('.')[1]}"):
            chart.save(tmp_path / name)
        assert not (tmp_path / name).exists()
    for name in ("x.svg", "x", "x.SVG"):
        chart.save(tmp_path / name)
        assert (tmp_path / name).read_text().startswith("<svg")
