"""Resources that several tasks use at once, groups of people, pay by the day, and what is left to
do: beside what one counts by hand, and trying all starts."""

from itertools import product
from pathlib import Path

import pytest

from propbench import NotAWorkbench, Workbench, any_of, skilled


@pytest.fixture(autouse=True)
def here(wide: str, monkeypatch: pytest.MonkeyPatch) -> None:
    monkeypatch.setenv("PROPBENCH", wide)


def test_a_hall_for_two_takes_two_at_once() -> None:
    with Workbench() as w:
        p = w.project(days=9)
        assert p.resource("hall", 2) == "hall holds 2" and p.resources == {"hall": 2}
        one, two, _ = [p.task(f"t{at}", 3, uses="hall") for at in range(3)]
        assert p.limits == ("hall holds 2",)
        best = w.least(p.end)
        # (the third waits for one of them)
        assert best.value == 6
        chain = p.critical(best)
        assert "hall, used by" in str(chain) and "hall holds 2" in chain.premises
        p.done_by(5, "soon")
        [conflict] = w.conflicts(keep=p.facts)
        assert {*conflict.names} == {"hall holds 2", "soon"}
        assert sorted(each.names for each in w.repairs(keep=p.facts)) == [
            ("hall holds 2",),
            ("soon",),
        ]
        w.kick("hall holds 2")
        assert w.least(p.end).value == 3
        w.require((one.start == 0) & (two.start == 0))


@pytest.mark.parametrize("holds", [1, 2, 3, 4])
def test_no_more_is_in_use_than_there_is(holds: int) -> None:
    """Beside all starts of four tasks, one of which takes no day."""
    days, needs = (2, 1, 0, 2), tuple(min(each, holds) for each in (2, 1, 3, 1))
    fits = {
        starts
        for starts in product(range(5), repeat=4)
        if all(
            sum(n for s, d, n in zip(starts, days, needs) if s <= day < s + d) <= holds
            for day in range(6)
        )
        and all(start + long <= 4 for start, long in zip(starts, days))
    }
    with Workbench() as w:
        p = w.project(days=4)
        p.resource("crew", holds)
        tasks = [
            p.task(f"t{at}", long, uses={"crew": need})
            for at, (long, need) in enumerate(zip(days, needs))
        ]
        found = w.plans([task.start for task in tasks], most=1000)
        assert {tuple(each.values()) for each in found} == fits and found.complete


def test_what_is_said_of_a_resource_later_counts_too() -> None:
    with Workbench() as w:
        p = w.project(days=20, people="ana")
        p.resource("hall", 2)
        for at in range(4):
            p.task(f"t{at}", 2, uses={"hall": 1}, pauses=False)
        assert w.least(p.end).value == 4
        with w.what_if():
            assert p.resource("hall", 1, "half of it is closed") == "half of it is closed"
            assert w.least(p.end).value == 8
        p.away("hall", 2, 5, "cleaning")
        # (two before, two behind)
        assert w.least(p.end).value == 7
        w.kick("cleaning")
        assert w.least(p.end).value == 4


def test_a_resource_is_there_by_its_calendar(tmp_path: Path) -> None:
    free = tmp_path / "free.csv"
    free.write_text("date,holiday\n2026-03-04,Founders' day\n")
    with Workbench() as w:
        p = w.project(days=30, people="ana", start="2026-03-02", off="sat sun")
        assert p.resource("press", calendar="mon wed") == "press holds 1"
        assert p.resource("hall", 2, calendar=["2026-03-02"]) == "hall holds 2"
        posters = p.task("posters", 2, uses="press")
        talk = p.task("talk", 1, uses="hall", pauses=False)
        # (Monday and Wednesday; and Tuesday)
        assert w.least(posters.end).value == 3 and w.least(talk.start).value == 1
        assert p.resource("ana", calendar=str(free)) == "ana's days off"
        review = p.task("review", 3, who="ana")
        # (Monday, Tuesday and Thursday)
        assert w.least(review.end).value == 4
        w.kick("ana's days off")
        assert w.least(review.end).value == 3
        before = len(w.session.lines)
        with pytest.raises(ValueError, match="mun"):
            p.resource("van", calendar="mun")
        with pytest.raises(ValueError, match="'ana' is a person, who does one thing at a time"):
            p.resource("ana", 2, calendar="mon")
        assert "van" not in p.resources and len(w.session.lines) == before


def test_work_keeps_its_resource_while_it_pauses() -> None:
    with Workbench() as w:
        p = w.project(days=20, people="ana ben")
        p.resource("press")
        p.away("ana", 1, 3)
        p.task("posters", 2, who="ana", uses="press")
        p.task("leaflets", 1, who="ben", uses="press")
        # (posters on the days 0 and 3: leaflets wait, or come first)
        assert w.least(p.end).value == 5
        assert w.least([p.tasks["leaflets"].start, p.end]).values == (0, 5)


def test_who_is_in_two_groups_stands_for_one() -> None:
    with Workbench() as w:
        skills = {"ana": "weld wire", "ben": "weld", "cem": "paint"}
        p = w.project(days=20, people="ana ben cem", skills=skills)
        frame = p.task("frame", 2, who=[skilled("weld"), skilled("wire")])
        # (ana is the only one who wires, so ben is who welds)
        assert frame.people == ("ana", "ben") and not frame.may
        house = p.task("house", 3, who=[any_of("ana", "ben"), any_of("ben", "cem")])
        found = w.plans([house.may[name] for name in ("ana", "ben", "cem")])
        both = {(True, True, False), (True, False, True), (False, True, True)}
        assert {tuple(each.values()) for each in found} == both
        with pytest.raises(ValueError, match="house2: 3 are needed, and there is only ana and ben"):
            p.task("house2", 3, who=[any_of("ana", "ben")] * 2 + [any_of("ben", "ana")])
        with pytest.raises(ValueError, match="days of each are for a task that one of several"):
            days = {"ana": 1, "ben": 2, "cem": 3}
            p.task("x", days, who=[any_of("ana", "ben"), any_of("ben", "cem")])


def test_pay_by_the_day() -> None:
    with Workbench() as w:
        p = w.project(days=20, people="ana ben")
        p.resource("crew", 3)
        assert p.pays("ana", 300) == "ana costs 300 a day"
        p.pays("crew", 10)
        wall = {"ana": 2, "ben": 5}
        p.task("wall", wall, who=any_of("ana", "ben"), uses={"crew": 2}, cost=7)
        best = w.least([p.total_cost, p.end])
        # (by ben: 5 days of two for 10; by ana 2 days for 300 beside)
        assert best.values == (7 + 5 * 20, 5)
        assert p.schedule(best).cost == 107 and p.schedule(best).entries[0].paid == 100
        assert w.least([p.end, p.total_cost]).values == (2, 7 + 2 * 320)
        assert p.facts[:2] == ("ana costs 300 a day", "crew costs 10 a day")
        with pytest.raises(ValueError, match="before the total cost"):
            p.pays("ben", 1)
    with Workbench() as w:
        p = w.project(days=20, people="ana")
        p.pays("ana", 300)
        for name, says in (("ana", "said already"), ("cem", "nobody in the plan is called")):
            with pytest.raises(ValueError, match=says):
                p.pays(name, 1)


def test_what_is_left_of_a_task_under_way() -> None:
    with Workbench() as w:
        p = w.project(days=30, people="ana ben")
        wall = p.task("wall", 4, who="ana")
        roof = p.task("roof", {"ana": 3, "ben": 6}, who=any_of("ana", "ben"), after=[wall])
        before = p.schedule(w.least(p.end))
        with pytest.raises(ValueError, match="say first what day it is"):
            p.progress(wall, 2)
        p.today(3)
        assert p.progress(wall, 2, 0) == "wall has 2 days left"
        best = w.least(p.end)
        assert best.plan is not None and best.plan["wall end"] == 5 and best.value == 8
        assert p.progress(wall, 4, 0) == "wall has 4 days left"
        assert w.least(p.end).value == 10 and "wall has 2 days left" not in w.believed
        # (wall takes 7 then: both begin, or end, at other times)
        assert w.least(p.moved(before)).value == 2
        assert w.least(p.moved(before, {"wall": 5}, "by weight")).value == 6
        p.today(8)
        p.done(wall, 0, 8)
        p.progress(roof, 1, 8, who="ben")
        both = w.least([p.end, roof.start])
        assert both.values == (9, 8) and p.schedule(both).entries[1].people == ("ben",)
        with pytest.raises(ValueError, match="done already"):
            p.progress(wall, 1)
        with pytest.raises(ValueError, match="none of those who may do it"):
            p.progress(roof, 1, 8, who="cem ana")


def test_days_off_count_in_what_is_left() -> None:
    with Workbench() as w:
        p = w.project(days=30, people="ana")
        p.away("ana", 2, 4)
        p.away("ana", 6, 9)
        wall = p.task("wall", 9, who="ana")
        p.today(5)
        p.progress(wall, 3, 1)
        # (worked on 1 and 4; then on 5, 9 and 10)
        best = w.least(p.end)
        assert best.plan is not None and best.plan["wall days"] == 5 and best.value == 11


def test_each_plan_is_told_once() -> None:
    """Of two tasks of a day with days off, also where these are given up: what bounds the end has
    no values of its own."""
    with Workbench() as w:
        p = w.project(days=5, people="ana")
        p.resource("hall", 2)
        one, two = (p.task(name, 1, who="ana", uses="hall") for name in ("one", "two"))
        assert p.end.ask().value is not None
        p.away("ana", 1, 3, "leave")
        p.today(0)
        for believed, days in ((True, {0, 3, 4}), (False, {0, 1, 2, 3, 4})):
            w.bring("leave") if believed else w.kick("leave")
            found = w.plans(most=100)
            starts = [(each["one start"], each["two start"]) for each in found]
            assert found.complete and len(starts) == len({*starts})
            assert {*starts} == {(a, b) for a in days for b in days if a != b}
        assert one.needs == two.needs == ("ana", "hall")


def test_days_off_before_the_plan_count_for_nothing() -> None:
    with Workbench() as w:
        p = w.project(days=9, people="ana")
        p.task("one", 3, who="ana")
        p.task("two", 3, who="ana")
        p.away("ana", -2, 2)
        p.away("ana", 8, 20)
        assert w.least(p.end).value == 8


def test_the_weight_of_what_is_given_up() -> None:
    with Workbench() as w:
        p = w.project(days=20, people="ana")
        one, two = p.task("one", 3, who="ana"), p.task("two", 4, who="ana")
        p.done_by(3, "one soon", one)
        p.done_by(4, "two soon", two)
        p.away("ana", 3, 6, "leave")
        weights = {"one soon": 2, "two soon": 3, "leave": 4, "ana does one thing at a time": 9}
        lost = p.given_up(weights)
        found = w.trade_off(p.end, lost)
        # (at 4 both at once and no leave; at 7 two, and one behind it; at 10 two behind the leave)
        assert found.pairs == [(4, 9 + 4), (7, 2 + 4), (10, 3)] and found.complete
        assert all(each.check() for each in found.certificates)
        assert not {*weights} & {*w.believed}
        with pytest.raises(ValueError, match="no premise 'leaf'. Did you mean leave?"):
            p.given_up({"leaf": 1}, "more")
        with pytest.raises(TypeError, match="whole number"):
            p.given_up({"leave": 0.5}, "more")


def test_all_wishes_weigh_one() -> None:
    with Workbench() as w:
        p = w.project(days=20, people="ana")
        one, two = p.task("one", 3, who="ana"), p.task("two", 4, who="ana")
        p.done_by(3, "one soon", one)
        p.not_before(2, one, "one late")
        p.done_by(4, "two soon", two)
        assert w.least([p.given_up(), p.end]).values == (1, 7)


def test_the_load_of_each_day() -> None:
    with Workbench() as w:
        p = w.project(days=20, people="ana ben", start="2026-03-02", off="sat sun")
        p.resource("lift", 2)
        wall = p.task("wall", 2, who="ana", uses={"lift": 2})
        p.task("roof", 1, who="ana ben", after=[wall], uses="lift")
        p.away("ben", 0, 1)
        loads = p.schedule(w.least(p.end)).loads()
        assert [each.uses["lift"] for each in loads] == [2, 2, 1]
        assert [each.free for each in loads] == [(), ("ben",), ()]
        assert [each.away for each in loads] == [("ben",), (), ()]
        assert "Mon 2 Mar 2026  wall  away  2 of 2" in str(loads)


def test_a_project_is_saved_whole(tmp_path: Path) -> None:
    path = tmp_path / "plan.prop"
    with Workbench() as w:
        off, skills = ["sat", "sun", "2026-03-17"], {"ana": "weld wire", "ben": "weld"}
        p = w.project(days=40, people="ana ben", start="2026-03-02", off=off, skills=skills)
        p.resource("lift")
        wall = p.task("wall", 3, who=skilled("weld"), uses="lift", kind="red")
        p.task("roof", {"ana": 3, "ben": 6}, who=any_of("ana", "ben"), after=[wall], kind="blue")
        p.setup("ben", {("red", "blue"): 1})
        p.away("ana", "2026-03-04", "2026-03-06")
        p.done_by("2026-03-20", "soon")
        best = w.least([p.end, p.total_cost])
        p.today("2026-03-03")
        p.progress(wall, 4, "2026-03-02", who="ben")
        now = w.least(p.end)
        w.save(path)
        with Workbench.load(path) as other:
            [again] = other.projects
            assert again.calendar == p.calendar and again.facts == p.facts
            assert again.limits == p.limits and again.staffing.skills == p.staffing.skills
            found = other.least(again.end)
            assert (found.value, str(found)) == (now.value, str(now))
            moved = again.schedule(found).since(p.schedule(best))
            assert [each.task for each in moved] == ["wall", "roof"]
            again.done(again.tasks["wall"], "2026-03-02", "2026-03-05", who="ben")
            assert "wall done 2026-03-02 to 2026-03-05" in again.facts
            with pytest.raises(ValueError, match="add tasks before the end.*begin a new"):
                again.task("door", 1)
    text = path.read_text()
    for old, new in (('"is": "task"', '"is": "tasks"'), ('"task": "wall"', '"task": "hall"')):
        path.write_text(text.replace(old, new))
        with pytest.raises(NotAWorkbench):
            Workbench.load(path)


@pytest.mark.parametrize(
    "uses, says",
    [
        ({"hal": 1}, "no resource is called 'hal'. Did you mean hall?"),
        ({"hall": 3}, "there is 2 of hall, and 3 can't be used"),
        ({"hall": -1}, "can't be used"),
        ("lift", 'Say p.resource("lift", 1) first'),
    ],
)
def test_what_cant_be_used(uses: dict[str, int] | str, says: str) -> None:
    with Workbench() as w:
        p = w.project(days=20, people="ana")
        p.resource("hall", 2)
        with pytest.raises(ValueError) as caught:
            p.task("talk", 1, uses=uses)
        assert says in str(caught.value) and not p.tasks
        for wrong in ([1], {"hall": "two"}):
            with pytest.raises(TypeError):
                p.task("talk", 1, uses=wrong)  # type: ignore[arg-type]
        for name, holds in (("ana", 2), ("lift", 0)):
            with pytest.raises(ValueError):
                p.resource(name, holds)
        with pytest.raises(TypeError):
            p.resource("lift", "two")  # type: ignore[arg-type]
