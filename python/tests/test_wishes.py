"""What is wished for by days, of somebody, of a task and of all: what it says, how it is called,
what it weighs, and that it is kept."""

from collections.abc import Iterator
from pathlib import Path
from typing import Any

import pytest

from propbench import Workbench, any_of
from propbench.planning import Project
from propbench.planning.brief import Given
from propbench.planning.open_plan import plan_in
from propbench.planning.planner import plan_of
from propbench.planning.reading import brief_of
from propbench.planning.sheets import Sheet, SheetError

# The 2nd of March is a Monday, and day 0; the 9th is day 5.
MONDAY = "2026-03-02"


@pytest.fixture
def p(wide: str) -> Iterator[Project]:
    with Workbench(wide) as w:
        yield w.project(days=30, people="ana ben", start=MONDAY, off="sat sun")


@pytest.mark.parametrize("is_first", [True, False])
def test_what_somebody_does(p: Project, is_first: bool) -> None:
    """Ana has 3 and 2 days. By the 6th all fits in 5; from the 10th on it takes until day 11, and
    what Ben may do as well he does alone by then."""
    w = p.workbench
    wish = p.wish("ana", before="2026-03-09") if is_first else ""
    p.task("venue", 3, who="ana")
    p.task("review", 2, who="ana")
    either = p.task("book", 4, who=any_of("ana", "ben"))
    wish = wish or p.wish("ana", before="2026-03-09")
    assert wish == "ana before 2026-03-09"
    assert w.model.text(wish) == "ana is done by Fri 6 Mar 2026"
    assert w.greatest(p.tasks["venue"].end).value == 5
    w.fix(either.may["ana"], True)
    limit = "ana does one thing at a time"
    assert {each.names for each in w.repairs(keep=p.facts)} == {(limit,), (wish,)}
    w.kick(wish)
    assert p.wish("ana", after="2026-03-09") == "ana after 2026-03-09"
    assert w.least(p.tasks["review"].start).value == 6 and w.least(p.end).value == 6 + 9


def test_what_somebody_may_do(p: Project) -> None:
    """Ben does it, for Ana is to begin later; and a hall is used within some days."""
    w = p.workbench
    p.resource("hall", 2)
    book = p.task("book", 4, who=any_of("ana", "ben"), uses="hall")
    late = p.wish("ana", after=6)
    assert w.least(book.end).value == 4
    w.fix(book.may["ana"], True)
    assert w.least(book.end).value == 7 + 4
    w.kick(late)
    assert p.wish("hall", after=3, before=9) == "hall after 3 and before 9"
    assert (w.least(book.start).value, w.greatest(book.end).value) == (4, 9)
    assert w.model.text("hall after 3 and before 9") == (
        "hall begins on Fri 6 Mar 2026 or later and hall is done by Thu 12 Mar 2026"
    )


def test_what_is_wished_of_a_task(p: Project) -> None:
    """Each by brute force over the days on which 2 days of work may begin."""
    w = p.workbench
    review = p.task("review", 2, who="ana")
    days = range(30 - 2 + 1)
    wishes: list[tuple[dict[str, Any], str, list[int]]] = [
        ({"before": "2026-03-06"}, "review before 2026-03-06", [it for it in days if it + 2 <= 4]),
        ({"after": "2026-03-06"}, "review after 2026-03-06", [it for it in days if it >= 5]),
        ({"after": "2026-03-07"}, "review after 2026-03-07", [it for it in days if it >= 5]),
        ({"on": "2026-03-09"}, "review on 2026-03-09", [5]),
        ({"not_on": 7}, "review not on 7", [it for it in days if it not in (6, 7)]),
        ({"not_on": "2026-03-08"}, "review not on 2026-03-08", [*days]),
        ({"after": 2, "before": 6}, "review after 2 and before 6", [3, 4]),
    ]
    for given, name, wanted in wishes:
        assert p.wish("review", **given) == name
        assert [each["review start"] for each in w.plans([review.start], most=99)] == wanted
        w.forget(name)
    assert p.wish(review, on="2026-03-09", under="fair") == "fair"
    assert w.model.text("fair") == "review begins on Mon 9 Mar 2026"
    assert p.wish("all", before="2026-03-13") == "all before 2026-03-13"
    assert w.model.text("all before 2026-03-13") == "all done by Thu 12 Mar 2026"
    assert w.least(p.end).value == 7


def test_a_day_off_that_is_wished_for(p: Project) -> None:
    """Work pauses over it, and an event doesn't; the plan waits then."""
    w = p.workbench
    wish = p.wish("ana", not_on="2026-03-03", weight=2)
    work = p.task("work", 3, who="ana")
    fair = p.task("fair", 3, who="ana", pauses=False)
    assert wish == "ana not on 2026-03-03" and w.model.text(wish) == "no task of ana 3 Mar"
    assert (w.least(work.end).value, w.least(fair.end).value) == (4, 5)
    assert p.weights == {wish: 2}
    assert p.wish("ben", not_on="2026-03-08") == "ben not on 2026-03-08"


def test_what_a_wish_weighs(p: Project) -> None:
    """Ana's 3 and 4 days don't fit into 6, nor Ben's 3 into 2: the cheapest is to give up two."""
    w = p.workbench
    venue, review = p.task("venue", 3, who="ana"), p.task("review", 4, who="ana")
    book = p.task("book", 3, who="ben")
    names = p.wish("ana", before=6, weight=3), p.wish(book, before=2, weight=2)
    p.wish(venue.end <= review.start, "order", weight=7)
    p.done_by(7, "soon")
    assert p.weights == {names[0]: 3, names[1]: 2, "order": 7, "soon": 1}
    repairs = w.repairs(p.weights, keep=[*p.facts, *p.limits])
    assert [(each.names, each.cost) for each in repairs] == [(names, 5)]
    plan = plan_in(w)
    assert plan is not None and plan.plan is not None and plan.plan.wishes == tuple(p.weights)
    assert (names, 5) in [(each.premises, each.cost) for each in plan.hindrances(60).repairs]
    assert w.least([p.given_up(), p.end]).values == (5, 7)


def test_the_chain_waits_for_a_wish(p: Project) -> None:
    venue = p.task("venue", 3, who="ana")
    p.task("review", 4, who="ben", after=[venue])
    p.wish("ana", after=3)
    chain = p.critical()
    assert [(each.entry.task, each.waits) for each in chain.links] == [
        ("venue", "ana after 3"),
        ("review", "venue"),
    ]
    assert p.how().behind("venue") == ("venue takes 3", "ana after 3")
    assert "ana after 3" not in p.how().behind("review")


def test_wishes_are_kept(p: Project, tmp_path: Path) -> None:
    w = p.workbench
    p.task("venue", 3, who="ana")
    p.wish("ana", before=9, weight=3)
    p.wish("venue", not_on=1, weight=0.5)
    p.wish("ben", not_on=4, weight=2)
    w.save(tmp_path / "plan.prop")
    with Workbench.load(tmp_path / "plan.prop") as other:
        [again] = other.projects
        assert again.weights == p.weights
        assert p.weights == {"ana before 9": 3, "venue not on 1": 0.5, "ben not on 4": 2}
        # (it is of all that Ana does, also of what is added then)
        review = again.task("review", 2, who="ana")
        assert other.greatest(review.end).value == 9


def test_what_cant_be_wished_for(p: Project) -> None:
    w = p.workbench
    p.task("venue", 3, who="ana")
    wrong: list[tuple[str, dict[str, Any], str]] = [
        (
            "anna",
            {"before": 3},
            "nobody and nothing in the plan is called 'anna'. Did you mean ana",
        ),
        ("ana", {"on": 3}, "ana: on= says on which day a task begins"),
        (
            "venue",
            {"on": 3, "after": 1},
            "venue: on= says on which day a task begins, and stands wi",
        ),
        ("venue", {"on": "2026-03-07"}, "venue: nothing begins on 2026-03-07, which is off"),
        ("all", {"after": 3}, "of all it can be wished that it is done before a day"),
        ("ana", {"before": 3, "weight": -1}, "ana before 3: a weight is 0 or more, and not -1"),
        ("ana", {"before": "tomorrow"}, "is no date"),
    ]
    for who, given, says in wrong:
        with pytest.raises(ValueError, match=says):
            p.wish(who, **given)
    mistyped: list[tuple[dict[str, Any], str]] = [
        ({}, "ana: say before=, after=, on= or not_on= a day"),
        ({"befor": 3}, "ana: say before=, after=, on= or not_on= a day, and not befor="),
        ({"before": 3, "weight": "3"}, "ana before 3: a weight is a number, and '3' is none"),
        ({"before": 3.5}, "3.5"),
        ({"before": 3, "says": "soon"}, "says= is for a constraint"),
    ]
    for given, says in mistyped:
        with pytest.raises(TypeError, match=says):
            p.wish("ana", **given)
    with pytest.raises(TypeError, match="a constraint is wished for as it is"):
        p.wish(p.tasks["venue"].end <= 9, "soon", before=3)
    with pytest.raises(ValueError, match="say under="):
        p.wish(p.tasks["venue"].end <= 9)
    assert w.premises == ("venue takes 3",)


SAID = [
    ("ana before 10 March", "venue end", 6),
    ("ana by 10 March", "venue end", 7),
    ("venue before 10 March", "venue end", 6),
    ("all before 10 March", "end", 6),
    ("ana after 6 March", "venue start", 5),
    ("ana not before 6 March", "venue start", 4),
    ("venue after 6 March", "venue start", 5),
    ("ana not on 3 March", "venue start", 0),
    ("venue not on 3 March", "venue start", 2),
    ("venue not on 3-6 March", "venue start", 5),
    ("venue not on 7 March", "venue start", 0),
    ("review before venue", "venue start", 2),
]


def sheets_of(said: str) -> list[Sheet]:
    """Two tasks, and a wish that is said so."""
    tasks = ("task", "days", "who"), ("venue", "3", "ana"), ("review", "2", "ben")
    wishes = ("wish", "weight"), (said, "2")
    return [
        Sheet("tasks", tuple(enumerate(tasks, 1))),
        Sheet("wishes", tuple(enumerate(wishes, 1))),
    ]


@pytest.mark.parametrize("said, cell, value", SAID)
def test_what_sheets_say(wide: str, said: str, cell: str, value: int) -> None:
    """Where it is a first day, that is the least, and where it is a last one the greatest."""
    brief = brief_of(sheets_of(said), Given(start=MONDAY, off="sat sun"))
    with Workbench(wide) as w:
        plan = plan_of(w, brief, 30)
        asked = plan.project.end if cell == "end" else w.cell(cell)
        found = w.least(asked) if cell.endswith("start") else w.greatest(asked)
        assert found.value == value and plan.weights[said] == 2
        assert plan.wishes == (said,)


@pytest.mark.parametrize(
    "said, says",
    [
        ("anna before 10 March", "nothing in the plan is called `anna`. Did you mean ana?"),
        ("venue after revue", "nothing in the plan is called `revue`. Did you mean review?"),
        ("venue before 40 March", "no date"),
        ("all not on 3 March", "nothing in the plan is called `all`"),
    ],
)
def test_what_sheets_cant_say(said: str, says: str) -> None:
    with pytest.raises(SheetError, match="wishes, row 2") as caught:
        brief_of(sheets_of(said), Given(start=MONDAY, off="sat sun"))
    assert says in str(caught.value)
