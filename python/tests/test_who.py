"""Who does a task: whoever suits best, with what skills, and in how many days."""

from collections.abc import Callable, Iterator
from typing import Any

import pytest

from propbench import Workbench, any_of, skilled
from propbench.planning import Project
from propbench.planning.who import Who

SKILLS = {"ana": "welding", "ben": ["welding", "wiring"]}


@pytest.fixture
def p(wide: str) -> Iterator[Project]:
    with Workbench(wide) as w:
        yield w.project(days=30, people="ana ben cem", skills=SKILLS)


def who(p: Project) -> dict[str, tuple[str, ...]]:
    """Who does what where all ends soonest."""
    return {each.task: each.people for each in p.schedule(p.workbench.least(p.end)).entries}


def test_whoever_suits_best(p: Project) -> None:
    """Three tasks of two people take as long as two of them."""
    w = p.workbench
    for number in range(3):
        p.task(f"t{number}", 3, who=any_of("ana", "ben"))
    assert w.least(p.end).value == 6
    assert sorted(who(p).values())[0] in {("ana",), ("ben",)}
    away = p.away("ana", 0, 20)
    assert w.least(p.end).value == 9 and {*who(p).values()} == {("ben",)}
    w.kick(away)
    assert w.least(p.end).value == 6


def test_several_of_some(p: Project) -> None:
    task = p.task("lift", 2, who=["cem", any_of(2, "ana", "ben", "cem")])
    assert task.people == ("cem", "ana", "ben")
    other = p.task("carry", 1, who=any_of(2, ["ana", "ben", "cem"]))
    assert len(who(p)["carry"]) == 2 and p.workbench.least(p.end).value == 3
    p.away("ana", 0, 9)
    assert p.workbench.least(other.end).value == 1
    assert {*who(p)["lift"]} == {"ana", "ben", "cem"}


def test_with_a_skill(p: Project) -> None:
    assert p.task("frame", 3, who=skilled("welding")).doers == ("ana", "ben")
    assert p.task("lamp", 3, who=skilled("wiring")).people == ("ben",)
    assert p.task("robot", 3, who=skilled("welding wiring")).people == ("ben",)
    assert p.task("bridge", 1, who=skilled(2, "welding")).people == ("ana", "ben")
    assert who(p)["frame"] == ("ana",) and p.workbench.least(p.end).value == 7


def test_each_in_days_of_his_own(p: Project) -> None:
    w = p.workbench
    task = p.task("review", {"ana": 3, "ben": 5}, who=any_of("ana", "ben"), cost=7)
    assert p.facts == ("review takes 3 by ana or 5 by ben", "review costs 7")
    assert w.least(p.end).value == 3 and who(p) == {"review": ("ana",)}
    assert w.greatest(task.days).value == 5
    p.away("ana", 1, 4)
    assert w.least(p.end).value == 5 and who(p) == {"review": ("ben",)}
    assert w.premises[0] == "review takes 3 by ana or 5 by ben"
    assert w.solve()["review cost"] == 7


def test_it_was_done_in_other_days(p: Project) -> None:
    """Who was to take 3 days or 5 took 4: so that doesn't count, and who it was is open."""
    w = p.workbench
    days, ana_or_ben = {"ana": 3, "ben": 5}, any_of("ana", "ben")
    task = p.task("review", days, who=ana_or_ben)
    with w.what_if():
        other = p.task("talk", days, who=ana_or_ben, cost=2, under="all")
        with pytest.raises(ValueError, match="'all' says more than how long talk takes"):
            p.done(other, 0, 4)
    with w.what_if():
        p.done(task, 0, 5)
        assert who(p) == {"review": ("ben",)}
    p.done(task, 0, 4)
    assert "review takes 3 by ana or 5 by ben" not in w.believed
    assert w.least(task.end).value == 4 and len(who(p)["review"]) == 1


def test_names_are_given_as_everywhere(wide: str) -> None:
    """One by one, as a list, or in one text; a name that has a space is one where there is one."""
    with Workbench(wide) as w:
        p = w.project(days=30, people=["ana", "ben", "Cem Oz"])
        given: list[Who] = [
            any_of("ana", "ben"),
            any_of("ana ben"),
            any_of(["ana", "ben"]),
            any_of(1, "ana", "ben"),
            [any_of("ana ben")],
        ]
        for number, each in enumerate(given):
            assert p.task(f"t{number}", 1, who=each).doers == ("ana", "ben")
        assert p.task("a", 1, who="Cem Oz").people == ("Cem Oz",)
        assert p.task("b", 1, who=any_of("Cem Oz", "ana")).doers == ("Cem Oz", "ana")
        assert p.task("c", 1, who=["ana", "Cem Oz"]).people == ("ana", "Cem Oz")
        assert p.task("d", 1, who="ana ben").people == ("ana", "ben")


def test_it_is_written(wide: str) -> None:
    with Workbench(wide) as w:
        p = w.project(days=30, people="ana ben", start="2026-03-02")
        p.task("review", 3, who=any_of("ana", "ben"))
        p.away("ana", 0, 9)
        schedule = p.schedule(w.least(p.end))
        assert "review,ben," in schedule.to_csv() and "review (ben)" in schedule.to_svg()
        assert "SUMMARY:review (ben)" in schedule.to_ics(who="ben")
        assert "review" not in schedule.to_ics(who="ana")
        before = schedule
        p.workbench.kick("ana away 0 to 9")
        p.away("ben", 0, 9)
        moved = p.schedule(w.least(p.end)).since(before)
        assert [each.task for each in moved] == ["review"]
        assert "by ana" in str(moved) and "by ben" in str(moved)


def test_what_is_wrong_is_said(p: Project) -> None:
    wrong: list[tuple[object, object, str]] = [
        (any_of("ana", "anna"), 1, "nobody in the plan is called 'anna'. Did you mean ana?"),
        ("ana or ben", 1, "nobody in the plan is called 'or'. Whoever suits best of two is any_of"),
        (any_of(3, "ana", "ben"), 1, "t: 3 are needed, and there is only ana and ben"),
        (["ana", any_of("ana")], 1, "t: 1 are needed, and there is nobody else"),
        (skilled("weldign"), 1, "t: nobody is skilled in 'weldign'. Did you mean welding?"),
        (skilled("painting"), 1, "nobody is skilled in 'painting'. Say who, as skills="),
        ([any_of("ana", "ben")] * 3, 1, "t: 3 are needed, and there is only ana and ben"),
        ("ana", {"ana": 3}, "t: days of each are for a task that one of several does"),
        (any_of(2, "ana", "ben", "cem"), {"ana": 3}, "days of each are for a task that one"),
        (any_of("ana", "ben"), {"ana": 3}, "t: say how many days it takes ana and ben"),
        (any_of("ana", "ben"), {"ana": 3, "ben": -1}, "ben can't take less than no days"),
    ]
    for given, days, says in wrong:
        with pytest.raises(ValueError, match=says):
            p.task("t", days, who=given)  # type: ignore[arg-type]
    days_of: Any = {"ana": 3, "ben": "long"}
    with pytest.raises(TypeError, match="'long' days of ben is no whole number"):
        p.task("t", days_of, who=any_of("ana ben"))
    with pytest.raises(TypeError, match="names are one text"):
        p.task("t", 1, who=any_of("ana", 3))
    calls: list[Callable[[], object]] = [lambda: any_of(), lambda: skilled(2)]
    for call in calls:
        with pytest.raises(ValueError, match="name at least one"):
            call()
    with pytest.raises(ValueError, match="any_of: 0 of some people is nobody"):
        any_of(0, "ana")
    with pytest.raises(ValueError, match="nobody in the plan is called 'dan'"):
        p.workbench.project(days=3, people="ana", skills={"dan": "welding"})
    assert not p.tasks and not p.workbench.cells
