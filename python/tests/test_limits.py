"""Every question ends in the seconds that it is given, with what is known by then.

On a machine where the steps of a run take long, whether the program is at work on them or waits,
each run that a question waits for beyond its time costs five seconds: so what is asked for here is
far from that.
"""

import inspect
import time
from collections.abc import Callable, Iterator
from concurrent.futures import Executor, Future
from dataclasses import dataclass
from pathlib import Path
from xml.etree import ElementTree

import pytest
from drawn_plans import drawn_plan

from propbench import Conflict, Optimum, OutOfTime, Session, Workbench
from propbench.measuring.quantities import Quantity
from propbench.model.answers import NotSettled
from propbench.model.cells import Cell
from propbench.planning import Project
from propbench.questions import NothingFits
from propbench.watching.of_session import SessionWatched
from propbench.watching.of_workbench import WorkbenchWatched

SLOW = Path(__file__).with_name("slow_program.py")
# What a question is given, and what it may take over that: a second, and more where the machine is
# busy with other things.
SECONDS, OVER = 0.2, 4.0


@dataclass
class Bench:
    """A plan that is hard to find, with quantities beside it."""

    w: Workbench
    p: Project
    other: Workbench
    length: Quantity

    @property
    def cell(self) -> Cell:
        """The first task's beginning."""
        return self.p.tasks["t0"].start


def bench_of(program: str) -> Iterator[Bench]:
    with Workbench(program) as w, Workbench(program) as other:
        p = drawn_plan(w, 40, 10, 1)
        other.number("x", 0, 9)
        length, width, area = (w.measured(name, "m", 1, 9, "0.1") for name in ("l", "w", "a"))
        w.law(length + width == area)
        for premise, quantity, reading in (("l", length, 2), ("w", width, 3), ("a", area, 5)):
            w.read(premise, quantity, f"{reading} +- 0.5")
        assert str(p.end) and str(p.total_cost)
        yield Bench(w, p, other, length)


@pytest.fixture(scope="module")
def bench(wide: str) -> Iterator[Bench]:
    yield from bench_of(wide)


@pytest.fixture(
    scope="module",
    params=[(0.00025, "waits"), (0.00025, "works"), (0.002, "works"), (0.00001, "waits")],
    ids=["slow", "slow and at work", "slower", "less slow"],
)
def slow(wide: str, request: pytest.FixtureRequest) -> Iterator[Bench]:
    """Over a machine on which a step takes so many seconds."""
    with pytest.MonkeyPatch.context() as patch:
        patch.setenv("SLOW_OF", wide)
        by, how = request.param
        patch.setenv("SLOW_BY", str(by))
        patch.setenv("SLOW_HOW", how)
        yield from bench_of(str(SLOW))


class Never(Executor):
    """An executor that never comes to what it is asked."""

    def submit(self, *_: object, **__: object) -> Future:  # type: ignore[type-arg]
        return Future()


Ask = Callable[[Bench, float], object]
SCENARIOS = {f"without {n}": {"kick": [f"wish {n}"]} for n in range(9)}
QUESTIONS: dict[str, Ask] = {
    "conflicts": lambda b, s: b.w.conflicts(seconds=s),
    "repairs": lambda b, s: b.w.repairs(keep=b.p.facts, seconds=s),
    "least": lambda b, s: b.w.least(b.p.end, seconds=s),
    "greatest": lambda b, s: b.w.greatest(b.p.total_cost, seconds=s),
    "trade_off": lambda b, s: b.w.trade_off(b.p.end, b.p.total_cost, seconds=s),
    "plans": lambda b, s: b.w.plans(seconds=s),
    "solve": lambda b, s: b.w.solve(seconds=s),
    "slack": lambda b, s: b.w.slack(b.cell, seconds=s),
    "critical": lambda b, s: b.w.critical(b.p.end, seconds=s),
    "sensitivity": lambda b, s: b.w.sensitivity(b.p.end, seconds=s),
    "scenarios": lambda b, s: b.w.scenarios(SCENARIOS, [b.p.end], seconds=s),
    "sweep": lambda b, s: b.w.sweep(SCENARIOS, [b.p.end], seconds=s),
    "snapshot": lambda b, s: b.w.snapshot(seconds=s),
    "diff": lambda b, s: b.w.diff(b.w.snapshot(seconds=0), seconds=s),
    "compare": lambda b, s: b.w.compare(b.other, seconds=s),
    "table": lambda b, s: b.w.table(seconds=s),
    "settle": lambda b, s: b.w.settle(seconds=s),
    "how": lambda b, s: b.w.how(b.p.end, seconds=s),
    "answer": lambda b, s: b.w.answer("why", b.p.end.declared, s, None),
    "shave": lambda b, s: b.w.shave(b.length, seconds=s),
    "outliers": lambda b, s: b.w.outliers(seconds=s),
    "improvements": lambda b, s: b.w.improvements(b.length, seconds=s),
    "predict": lambda b, s: b.w.predict(b.length, seconds=s),
    "results": lambda b, s: b.w.results(seconds=s),
    "adjust": lambda b, s: b.w.adjust(seconds=s),
    "report": lambda b, s: b.w.report(seconds=s),
    "chart": lambda b, s: b.p.chart(seconds=s),
    "ask": lambda b, s: b.p.end.ask(seconds=s),
    "why": lambda b, s: b.p.end.why(seconds=s),
    "core": lambda b, s: b.p.end.core(seconds=s),
}
MORE: dict[str, Ask] = {
    "least of two": lambda b, s: b.w.least([b.p.end, b.p.total_cost], seconds=s),
    "sensitivity of the least": lambda b, s: b.w.sensitivity(b.p.end, "least", seconds=s),
    "sensitivity of a quantity": lambda b, s: b.w.sensitivity(b.length, seconds=s),
    "over all plans": lambda b, s: b.p.end.ask(over="all plans", seconds=s),
    "how of a plan": lambda b, s: b.p.how(seconds=s),
    "how of a best": lambda b, s: b.w.how(_best(b), seconds=s),
    "least by others": lambda b, s: b.w.least(b.p.end, executor=Never(), seconds=s),
    "slack of a choice": lambda b, s: b.w.slack("t1 start", seconds=s),
    "a sweep by others": lambda b, s: b.w.sweep(SCENARIOS, [b.p.end], Never(), seconds=s),
    "mend": lambda b, s: WorkbenchWatched(b.w).mend(seconds=s),
    "best": lambda b, s: WorkbenchWatched(b.w).best("end", "least", seconds=s),
    "mend of a session": lambda b, s: _watched(b).mend(seconds=s),
    "best of a session": lambda b, s: _watched(b).best("t0_end_", "least", seconds=s),
    "a line": lambda b, s: b.w.session.send("settle", seconds=s),
}
# (where not even the first slice of a run has come to its end by then)
MAY_RAISE = (NothingFits, NotSettled, Conflict, OutOfTime)


def _best(bench: Bench) -> Optimum:
    """An end that is said to be the best, by all that is believed."""
    end = bench.p.end.name
    return Optimum(end, "least", 60, None, 60, True, None, because=bench.w.believed)


def _watched(bench: Bench) -> SessionWatched:
    return SessionWatched(bench.w.session)


def test_each_question_that_takes_seconds_is_asked_here() -> None:
    kinds = (Workbench, Project, Cell, Quantity)
    found = {
        name
        for kind in kinds
        for name, method in inspect.getmembers(kind, callable)
        if not name.startswith("_") and "seconds" in inspect.signature(method).parameters
    }
    assert found == set(QUESTIONS)


def took(ask: Ask, bench: Bench, seconds: float) -> float:
    begun = time.monotonic()
    try:
        ask(bench, seconds)
    except MAY_RAISE:
        pass
    return time.monotonic() - begun


@pytest.mark.parametrize("name", [*QUESTIONS, *MORE])
def test_it_ends_on_a_slow_machine(slow: Bench, name: str) -> None:
    assert took({**QUESTIONS, **MORE}[name], slow, SECONDS) < SECONDS + OVER


def test_a_session_is_mended_in_time_where_its_program_was_ended(
    wide: str, monkeypatch: pytest.MonkeyPatch
) -> None:
    """To begin it anew takes a minute, as it was asked something."""
    for name, value in (("SLOW_OF", wide), ("SLOW_BY", "0"), ("SLOW_HOW", "waits")):
        monkeypatch.setenv(name, value)
    with Session(str(SLOW)) as session:
        session.send_all(["cell x span", "tell ana x 1..5", "tell ben x 7", "ask x"])
        monkeypatch.setenv("SLOW_BY", "1")
        session.end_by(time.monotonic())
        with pytest.raises(OutOfTime):
            session.send("ask x")
        session.end_by(None)
        begun = time.monotonic()
        SessionWatched(session).mend(seconds=SECONDS)
        assert time.monotonic() - begun < SECONDS + OVER


@pytest.mark.parametrize("name", ["plans", "conflicts", "sensitivity", "critical", "chart"])
def test_it_ends_where_plans_are_hard_to_find(bench: Bench, name: str) -> None:
    assert took(QUESTIONS[name], bench, SECONDS) < SECONDS + OVER


def test_batches_take_no_steps_of_their_own(wide: str) -> None:
    """Of 25 tasks 100 plans are there: each cell's ask took a run of its own where a run was cut,
    and the first plan came after minutes."""
    with Workbench(wide) as w:
        p = drawn_plan(w, 25, 3, 2)
        assert str(p.end) and str(p.total_cost)
        begun = time.monotonic()
        plans = w.plans(most=5, seconds=40)
        assert len(plans) == 5 and time.monotonic() - begun < 40


def test_what_is_known_by_then_is_told(slow: Bench) -> None:
    table = slow.w.scenarios(SCENARIOS, [slow.p.end], seconds=0)
    assert not table and not table.complete and "0 scenarios; not all is settled" in str(table)
    found = slow.w.compare(slow.other, seconds=0)
    assert not found.complete and "as far as is known" in str(found)
    assert {each.what for each in found} >= {"premise wish 1"}
    assert not [each for each in found if each.what in ("what is believed", "end")]
    assert "end is not known" in str(slow.w.sensitivity(slow.p.end, seconds=0))
    assert "l is not known" in str(slow.w.improvements(slow.length, seconds=0))
    assert not slow.w.outliers(seconds=0)
    # (where it isn't slow, the first slice has one)
    try:
        assert not slow.p.chart(seconds=0).complete
    except NothingFits as none:
        assert "no plan was found in time" in str(none)


def test_a_conflict_that_could_not_be_made_small_says_so(wide: str) -> None:
    with Workbench(wide) as w:
        x = w.number("x", 0, 9)
        for premise in "abc":
            w.tell(premise, x, ord(premise) - ord("a"))
        for seconds, says in ((0, True), (60, False)):
            with pytest.raises(Conflict) as caught:
                x.ask(seconds=seconds)
            assert len(caught.value.premises) >= 2
            assert ("no time to find out whether fewer of these" in str(caught.value)) is says


def test_one_plan_is_a_beginning_for_both_ends(bench: Bench) -> None:
    """So that where one end is known, the other is."""
    for seconds in (0.5, 3.0):
        found = bench.w.slack(bench.cell, seconds=seconds)
        assert (found.low is None) == (found.high is None)


def spring(w: Workbench) -> Project:
    """Ana has 3 days of work in front of Ben's 5, who has 2 more on days that are free."""
    p = w.project(days=30, people="ana ben", start="2026-03-02", off="sat sun")
    venue = p.task("venue", 3, who="ana", cost=4)
    p.task("review", 5, who="ben", after=[venue])
    p.task("books", 2, who="ben")
    return p


@pytest.mark.parametrize("by", ["chart", "end", "end and cost", "trade-off", "schedule"])
def test_a_picture_frames_what_makes_the_end(wide: str, by: str) -> None:
    with Workbench(wide) as w:
        p = spring(w)
        if by == "chart":
            text = p.chart().svg
        elif by == "trade-off":
            text = w.trade_off(p.end, p.total_cost)[0].to_svg()
        elif by == "schedule":
            text = p.schedule(w.least([p.total_cost, p.end])).to_svg()
        elif by == "end":
            text = w.least(p.end).to_svg()
        else:
            text = w.least([p.end, p.total_cost]).to_svg()
        drawn = ElementTree.fromstring(text)
        texts = {each.text: each for each in drawn.iter() if each.tag.endswith("text")}
        bold = {text for text, each in texts.items() if each.get("font-weight") == "bold"}
        assert bold == {"venue (ana)", "review (ben)"} and {"books (ben)", "2 Mar"} <= {*texts}
        says = [each[0].text or "" for each in drawn.iter() if each.get("stroke-width") == "1.5"]
        assert len(says) == 2 and all(each.endswith("; it makes the end") for each in says)
        assert [each.endswith("; it waits for venue; it makes the end") for each in says] == [0, 1]


def test_no_picture_frames_what_isnt_known_to_make_the_end(wide: str) -> None:
    """That is so of a plan that ends at some time, and of one of which only the cost is the least,
    and of what is told again without a reason."""
    with Workbench(wide) as w:
        p = spring(w)
        found, least = w.solve(), w.least(p.end)
        cheap = w.least(p.total_cost)
        assert least.plan is not None
        texts = [p.chart(found, rooms=False).svg, found.to_svg(), cheap.to_svg(), cheap.to_html()]
        texts += [p.schedule(least.plan).to_svg(), w.greatest(p.end).to_svg()]
        assert not [text for text in texts if "makes the end" in text]
        page = least.to_html()
        assert page.count("; it makes the end</title>") == 2
        table = page.partition("<h2>What makes the end</h2>")[2].partition("</table>")[0]
        rows = [row.split("<td>")[3:] for row in table.split("<tr>")[2:]]
        assert [[it.partition("<")[0] for it in row] for row in rows] == [
            ["venue", "ana", ""],
            ["review", "ben", "venue"],
        ]


def test_charts_and_reasons_tell_how_far_they_are(wide: str) -> None:
    told: list[str] = []
    with Workbench(wide) as w:
        p = drawn_plan(w, 5, 0, 1)
        chart = p.chart(progress=told.append)
        assert chart.complete and chart.svg.count("in any plan from") == 5
        assert any("the rooms of 5 of 5 tasks" in each for each in told)
        told.clear()
        w.require(p.end >= 13, under="late")
        assert set(w.critical(p.end, progress=told.append)) == {"late"}
        assert any("can't all hold" in it or "conflicts so far" in it for it in told)
        bare = p.chart(w.least(p.end).plan, seconds=0)
        assert not bare.complete and "in any plan from" not in bare.svg
        assert p.chart(w.least(p.end).plan, rooms=False, seconds=0).complete
