"""Plans while the work goes on: what was done is fact, nothing else begins before today, and what
moved since is told; beside trying all starts."""

from collections.abc import Callable, Iterator
from itertools import product

import pytest
from conftest import TIMES
from hypothesis import given, settings
from hypothesis import strategies as st

from propbench import NothingFits, Workbench, any_of
from propbench.planning import Project

DAYS = 9


@pytest.fixture
def p() -> Iterator[Project]:
    with Workbench() as w:
        p = w.project(days=40, people="ana ben", start="2026-03-02", off="sat sun")
        ways = {"hotel": dict(days=2, cost=4000), "uni": dict(days=5, cost=1500)}
        venue = p.task("venue", who="ana", options=ways)
        call = p.task("call", 3, who="ben", after=[venue])
        p.task("review", 4, who="ben", after=[call])
        yield p


def test_a_plan_that_is_late(p: Project) -> None:
    """It was to end on day 9; venue took 5 days, call 4 from day 6 on, and it is day 11 now."""
    w = p.workbench
    before = p.schedule(w.least(p.end))
    venue, call = p.tasks["venue"], p.tasks["call"]
    assert p.done(venue, "2026-03-02", "2026-03-09") == "venue done 2026-03-02 to 2026-03-09"
    assert p.done(call, 6, 10) == "call done 6 to 10"
    assert p.today("2026-03-17") == "today is 2026-03-17"
    assert "ben  today is 2026-03-17\n" in f"{p.critical()}\n"
    best = w.least(p.end)
    assert (best.value, best.choices) == (11 + 4, {"venue": "uni"})
    assert {"venue done 2026-03-02 to 2026-03-09", "call done 6 to 10"} <= {*p.facts}
    assert "call takes 3" not in w.believed
    assert str(p.schedule(best).since(before)) == (
        "3 tasks moved, and all is done 6 days of work later:\n"
        "  task    before          now           days later\n"
        "  venue   2-3 Mar, hotel  2-6 Mar, uni  3\n"
        "  call    4-6 Mar         10-13 Mar     5\n"
        "  review  9-12 Mar        17-20 Mar     6"
    )
    assert not before.since(before) and str(before.since(before)) == "Nothing moved."
    # (today is one day, and what is done since isn't bound to it)
    assert p.today(12) == "today is 12" and "today is 2026-03-17" not in w.premises
    assert w.least(p.end).value == 12 + 4
    p.done(p.tasks["review"], 10, 14)
    assert w.least(p.end).value == 14 and not w.conflicts()


def test_what_is_past_may_be_against_the_plan(p: Project) -> None:
    """The facts conflict then, each by its name."""
    w = p.workbench
    p.done(p.tasks["venue"], 0, 5)
    p.done(p.tasks["call"], 3, 6)
    assert [set(each) for each in w.conflicts()] == [
        {"call done 3 to 6", "call after venue", "venue done 0 to 5"}
    ]
    w.kick("call after venue")
    p.today(6)
    p.done_by(11, under="soon")
    assert not w.conflicts() and w.least(p.end).value == 6 + 4
    p.today(8)
    conflicts = w.conflicts(keep=p.facts)
    assert [set(each) for each in conflicts] == [{"today is 8", "soon"}]
    assert "what isn't done begins on Thu 12 Mar 2026 or later" in str(conflicts)


def test_what_cannot_have_been(p: Project) -> None:
    w = p.workbench
    venue, call = p.tasks["venue"], p.tasks["call"]
    before = w.premises, w.believed, p.facts
    cases: list[tuple[Callable[[], object], str]] = [
        (lambda: p.done(venue, 0, 3), "venue takes 2 or 5 days, and can't have taken 3"),
        (lambda: p.done(call, 4, 3), "call: it can't be over before it begins"),
        (lambda: p.done(call, 4, 8, under="venue"), "'venue' is a choice"),
        (lambda: p.done(call, 4, 99), "the plan has the days 0 to 40, and no day 99"),
        (lambda: p.today(99), "the plan has the days 0 to 40, and no day 99"),
        (lambda: p.today("soon"), "'soon' is no date"),
        (lambda: p.today(3, under="venue"), "'venue' is a choice"),
    ]
    for wrong, says in cases:
        with pytest.raises(ValueError, match=says):
            wrong()
        assert (w.premises, w.believed, p.facts) == before
    team = p.task("team", 2, under="team")
    p.task("more", 3, after=[team], under="team")
    with pytest.raises(ValueError, match="'team' says more than how long team takes: forget it"):
        p.done(team, 0, 3)
    assert p.done(team, 0, 2) == "team done 0 to 2"
    with pytest.raises(ValueError, match="team was done already: forget the premise of that first"):
        p.done(team, 0, 2)
    with pytest.raises(ValueError, match="'team' says more than what day it is"):
        p.today(1, under="team")
    p.today(1, under="now")
    w.tell("now", call.start, 3)
    with pytest.raises(ValueError, match="'now' says more than what day it is"):
        p.today(2)
    with Workbench() as other:
        with pytest.raises(ValueError, match="is a cell of another workbench"):
            p.done(other.project(days=9).task("call", 3), 0, 3)


@settings(max_examples=15 * TIMES)
@given(
    st.lists(st.tuples(st.integers(1, 3), st.sampled_from("ab")), min_size=2, max_size=3),
    st.integers(0, 3),
    st.integers(1, 4),
)
def test_the_rest_is_planned_anew(tasks: list[tuple[int, str]], today: int, took: int) -> None:
    """The first task was begun on day 0; of the others the best starts are those of all."""
    with Workbench() as w:
        p = w.project(days=DAYS, people="a b")
        made = [p.task(f"t{n}", days, who=who) for n, (days, who) in enumerate(tasks)]
        p.done(made[0], 0, took)
        p.today(today)
        ends = []
        for starts in product(range(DAYS + 1), repeat=len(tasks) - 1):
            times = [(0, took)]
            times += [(start, start + days) for start, (days, _) in zip(starts, tasks[1:])]
            if all(start >= today for start in starts) and apart(times, [who for _, who in tasks]):
                ends.append(max(end for _, end in times))
        fitting = [end for end in ends if end <= DAYS]
        assert w.least(p.end).value == (min(fitting) if fitting else None)


def apart(times: list[tuple[int, int]], who: list[str]) -> bool:
    """Whether nobody does two things at once."""
    return not any(
        who[one] == who[other]
        and times[one][0] < times[other][1]
        and times[other][0] < times[one][1]
        for one in range(len(times))
        for other in range(one)
    )


def test_what_is_told_anew_has_no_trace_of_what_was_told_before() -> None:
    """One day fits neither Ana's two nor Ben's three: so either may have done it. Three days do:
    then it was Ben, whatever was told before."""

    def told(w: Workbench, *left: tuple[int, int | None]) -> tuple[str, ...]:
        p = w.project(days=12, people="ana ben")
        task = p.task("paint", {"ana": 2, "ben": 3}, who=any_of("ana", "ben"))
        p.away("ben", 8, 9)
        p.today(4)
        for days, began in left:
            p.progress(task, days, began)
        w.require(task.may["ana"], under="ana does it")
        return w.repairs(keep=p.facts)[0].names if not fits(w) else ()

    def fits(w: Workbench) -> bool:
        try:
            w.solve()
        except NothingFits:
            return False
        return True

    cases: list[tuple[list[tuple[int, int | None]], tuple[str, ...]]] = [
        ([(1, None)], ()),
        ([(0, 1)], ("ana does it",)),
        ([(1, None), (0, 1)], ("ana does it",)),
        ([(0, 1), (1, None)], ()),
    ]
    for left, wanted in cases:
        with Workbench() as w:
            assert told(w, *left) == wanted
