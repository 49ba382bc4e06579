"""Days between tasks: lags at least and at the most, from an end or a start, and those of a
set-up."""

from collections.abc import Iterator

import pytest

from propbench import NothingFits, Workbench, any_of
from propbench.planning import Project

# The premises of setup times, by who is set up.
FROM_RED, FROM_BLUE = "{} takes 3 from red to blue", "{} takes 2 from blue to red"


@pytest.fixture
def p(wide: str) -> Iterator[Project]:
    with Workbench(wide) as w:
        yield w.project(days=30, people="press oven")


def test_lags(p: Project) -> None:
    w = p.workbench
    pour, strip = p.task("pour", 2), p.task("strip", 3)
    assert p.lag(pour, strip, 4) == "strip 4 or more after pour"
    assert w.least(p.end).value == 2 + 4 + 3
    assert p.lag(pour, strip, most=5) == "strip at most 5 after pour"
    assert w.greatest(strip.start).value == 27 and w.greatest(pour.start).value == 30 - 3 - 4 - 2
    with w.what_if(tell=[("late", strip.start, 20, 30)]):
        assert w.least(pour.end).value == 15
    w.kick("strip 4 or more after pour")
    assert p.lag(pour, strip, 1, 3, of="start") == "strip 1 to 3 after the start of pour"
    assert w.least(p.end).value == 1 + 3
    assert p.facts[-3:] == (
        "strip 4 or more after pour",
        "strip at most 5 after pour",
        "strip 1 to 3 after the start of pour",
    )
    w.require(strip.start >= pour.start + 4)
    with pytest.raises(NothingFits) as none:
        w.solve()
    assert "strip 1 to 3 after the start of pour" in (none.value.premises or ())


def test_a_task_may_begin_soon_before_another(p: Project) -> None:
    pour, strip = p.task("pour", 2), p.task("strip", 3)
    p.lag(pour, strip, -1, -1)
    assert p.workbench.least(p.end).value == 1 + 3


def test_a_lag_is_of_the_chain(p: Project) -> None:
    pour, strip = p.task("pour", 2), p.task("strip", 3)
    p.lag(pour, strip, 4)
    chain = p.critical()
    assert chain.tasks == ("pour", "strip") and chain.links[1].waits == "pour"
    assert set(chain.premises) == {"pour takes 2", "strip takes 3", "strip 4 or more after pour"}


def test_what_is_no_lag(p: Project) -> None:
    pour, strip = p.task("pour", 2), p.task("strip", 3)
    with pytest.raises(ValueError, match="strip: say how many days pass"):
        p.lag(pour, strip)
    with pytest.raises(ValueError, match="strip: no days are at least 3 and at most 2"):
        p.lag(pour, strip, 3, 2)
    with pytest.raises(ValueError, match='of the "end" of a task, or of its "start", and not of'):
        p.lag(pour, strip, 3, of="middle")
    with pytest.raises(TypeError, match="strip: 'two' days are no whole number"):
        p.lag(pour, strip, "two")  # type: ignore[arg-type]
    assert p.facts == ("pour takes 2", "strip takes 3")


@pytest.mark.parametrize("is_first", [True, False])
def test_setting_up(p: Project, is_first: bool) -> None:
    """Of red, blue and red again on one press the blue one comes first or last."""
    w, times = p.workbench, {("red", "blue"): 3, ("blue", "red"): 2}
    if is_first:
        p.setup("press", times)
    for name, kind in (("posters", "red"), ("cards", "blue"), ("flags", "red")):
        p.task(name, 2, who="press", kind=kind)
    p.task("bread", 1, who="oven", kind="blue")
    if not is_first:
        assert p.setup("press", times) == (FROM_RED.format("press"), FROM_BLUE.format("press"))
    assert w.least(p.end).value == 2 + 2 + 2 + 2
    assert w.least(p.tasks["bread"].end).value == 1
    w.require(p.tasks["cards"].start >= p.tasks["flags"].end)
    assert w.least(p.end).value == 2 + 2 + 3 + 2
    chain = p.critical()
    # (where the other pair took no day all would end as late)
    assert FROM_RED.format("press") in chain.premises
    assert FROM_BLUE.format("press") not in chain.premises
    assert chain.links[-1].waits == "press, set up behind " + chain.links[-2].entry.task
    assert FROM_RED.format("press") in p.how().behind("cards")
    assert FROM_RED.format("press") not in p.how().behind("posters")
    w.kick(FROM_RED.format("press"))
    assert w.least(p.end).value == 6


def test_each_two_kinds_have_a_premise(p: Project) -> None:
    """Three red ones and then a blue one take 6 + 3 + 2 days: 10 only without the 3, or with help,
    for what is done at once isn't done one behind another."""
    w = p.workbench
    red = [p.task(name, 2, who="press", kind="red") for name in ("posters", "flags", "cards")]
    blue = p.task("maps", 2, who="press", kind="blue", after=red)
    names = p.setup("press", {("red", "blue"): 3, ("blue", "red"): 2})
    soon, limit = p.done_by(10, task=blue), "press does one thing at a time"
    assert {it.names for it in w.repairs(keep=p.facts)} == {(names[0],), (limit,), (soon,)}
    [conflict] = w.conflicts(keep=p.facts)
    assert {*conflict.names} == {names[0], limit, soon}
    assert w.model.text(names[0]) == "press takes 3 days from red to blue"


def test_setting_up_for_more_of_a_kind(p: Project) -> None:
    """Three red ones with a day between take 2 + 1 + 2 + 1 + 2 days, and none is lost by pairs that
    take no day."""
    for name in ("posters", "flags", "cards"):
        p.task(name, 2, who="press", kind="red")
    names = p.setup("press", {("red", "red"): 1, ("red", "blue"): 0}, under="cleaning")
    assert names == ("cleaning",) and p.workbench.least(p.end).value == 8
    p.workbench.kick("cleaning")
    assert p.workbench.least(p.end).value == 6


def test_setting_up_whoever_does_it(p: Project) -> None:
    w = p.workbench
    p.setup("press", {("red", "blue"): 9, ("blue", "red"): 9})
    p.task("posters", 2, who="press", kind="red")
    p.task("cards", 2, who=any_of("press", "oven"), kind="blue")
    assert w.least(p.end).value == 2
    p.away("oven", 0, 20)
    assert w.least(p.end).value == 13


@pytest.mark.parametrize("is_first", [True, False])
def test_a_machine_is_set_up(p: Project, is_first: bool) -> None:
    """Of red, blue and red again on one lift the blue one comes first or last, whoever does it."""
    w, times = p.workbench, {("red", "blue"): 3, ("blue", "red"): 2}
    p.resource("lift")
    p.resource("hall", 2)
    if is_first:
        p.setup("lift", times, "lift is set up")
    for name, who, kind in (("posters", "press", "red"), ("cards", "oven", "blue")):
        p.task(name, 2, who=who, kind=kind, uses="lift")
    p.task("flags", 2, kind="red", uses="lift")
    p.task("bread", 1, kind="blue", uses="hall")
    if not is_first:
        assert p.setup("lift", times, "lift is set up") == ("lift is set up",)
    assert w.model.text("lift is set up") == (
        "lift takes 3 days from red to blue; lift takes 2 days from blue to red"
    )
    assert w.least(p.end).value == 2 + 2 + 2 + 2
    w.require(p.tasks["cards"].start >= p.tasks["flags"].end)
    assert w.least(p.end).value == 2 + 2 + 3 + 2
    assert p.critical().links[-1].waits.startswith("lift, set up behind ")
    w.kick("lift is set up")
    assert w.least(p.end).value == 6
    with pytest.raises(ValueError, match="hall: there are 2, and set up is what there is one of"):
        p.setup("hall", times)


def test_what_is_no_set_up(p: Project) -> None:
    for times, says in (
        ({}, "days between kinds are as"),
        ({"red": 2}, "'red' are no two kinds"),
        ({("red", "blue"): "2"}, "'2' days are no whole number"),
    ):
        with pytest.raises(TypeError, match=says):
            p.setup("press", times)  # type: ignore[arg-type]
    with pytest.raises(ValueError, match="-2 days between tasks are less than none"):
        p.setup("press", {("red", "blue"): -2})
    with pytest.raises(ValueError, match="nobody in the plan is called 'pres'"):
        p.setup("pres", {("red", "blue"): 2})
    assert p.workbench.premises == ()
