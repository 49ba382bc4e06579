"""Why a plan ends no sooner, beside all plans of a few tasks, gone through one by one."""

import json
import random
import time
from collections.abc import Collection, Iterator, Mapping
from dataclasses import dataclass
from itertools import product

import pytest
from conftest import TIMES
from hypothesis import given, settings
from hypothesis import strategies as st

from propbench import Workbench
from propbench.planning import Project, Task
from propbench.planning.folded import FoldedChain
from propbench.questions import NothingFits

DAYS = 8
PEOPLE = ("ana", "ben")
Starts = tuple[int, ...]


@dataclass(frozen=True)
class Drawn:
    """A task: its days, who does it, and the tasks before it."""

    days: int
    who: tuple[str, ...]
    after: tuple[int, ...]


@dataclass(frozen=True)
class Case:
    """Some tasks, and when ana is away."""

    tasks: tuple[Drawn, ...]
    away: tuple[int, int]


@st.composite
def cases(draw: st.DrawFn) -> Case:
    tasks = []
    for number in range(draw(st.integers(1, 4))):
        who = draw(st.sampled_from([(), ("ana",), ("ana",), ("ben",), PEOPLE]))
        after = tuple(it for it in range(number) if draw(st.integers(0, 3)) == 0)
        tasks.append(Drawn(draw(st.integers(1, 3)), who, after))
    first = draw(st.integers(0, 3))
    return Case(tuple(tasks), (first, first + draw(st.integers(1, 2))))


def project_of(w: Workbench, case: Case) -> Project:
    p = w.project(days=DAYS, people=PEOPLE)
    made: list[Task] = []
    for number, each in enumerate(case.tasks):
        after = [made[before] for before in each.after]
        made.append(p.task(f"t{number}", each.days, who=each.who, after=after, pauses=False))
    p.away("ana", *case.away, under="ana away")
    return p


def plans(case: Case, premises: Collection[str]) -> Iterator[Starts]:
    """The starts in each plan in which these premises hold. A task that may take any days takes
    none: whatever else holds of it holds then."""
    days = days_in(case, premises)
    for starts in product(range(DAYS + 1), repeat=len(case.tasks)):
        ends = [start + long for start, long in zip(starts, days)]
        if max(ends) <= DAYS and fits(case, starts, ends, premises):
            yield starts


def days_in(case: Case, premises: Collection[str]) -> list[int]:
    told = enumerate(each.days for each in case.tasks)
    return [days if f"t{number} takes {days}" in premises else 0 for number, days in told]


def fits(case: Case, starts: Starts, ends: list[int], premises: Collection[str]) -> bool:
    for number, each in enumerate(case.tasks):
        for before in each.after:
            if f"t{number} after t{before}" in premises and ends[before] > starts[number]:
                return False
        for other in range(number):
            shared = [it for it in each.who if it in case.tasks[other].who]
            if any(f"{person} does one thing at a time" in premises for person in shared):
                if starts[number] < ends[other] and starts[other] < ends[number]:
                    return False
        if "ana away" in premises and "ana" in each.who:
            if ends[number] > case.away[0] and starts[number] < case.away[1]:
                return False
    return True


def end_of(case: Case, starts: Starts, premises: Collection[str]) -> int:
    return max(start + long for start, long in zip(starts, days_in(case, premises)))


def soonest(case: Case, premises: Collection[str]) -> int:
    return min(end_of(case, starts, premises) for starts in plans(case, premises))


@settings(max_examples=20 * TIMES)
@given(cases())
def test_a_chain_is_the_reason(case: Case) -> None:
    """Its premises leave no sooner end, and without any of them there is one. It ends with the end,
    each task starts when what it waits for is over, and the others have the room that they have in
    all plans that end as soon."""
    with Workbench() as w:
        p = project_of(w, case)
        found = list(plans(case, w.premises))
        if not found:
            with pytest.raises(NothingFits, match="no end can be explained"):
                p.critical()
            return
        end = soonest(case, w.premises)
        chain = p.critical()
        assert chain.complete and chain.reasons.value == end == chain.schedule.end
        assert soonest(case, chain.premises) == end
        for premise in chain.premises:
            assert soonest(case, {*chain.premises} - {premise}) < end
        assert max(link.entry.end for link in chain.links) == end
        over = {case.away[1]}
        for link in chain.links:
            assert link.entry.start in over or not link.waits
            over.add(link.entry.end)
        best = [starts for starts in found if end_of(case, starts, w.premises) == end]
        rooms = {f"t{number}": max(each) - min(each) for number, each in enumerate(zip(*best))}
        assert chain.rooms == {task: rooms[task] for task in rooms if task not in chain.tasks}
        assert {*rooms} <= {*str(chain).split()}


def many_tasks(seed: int) -> list[Drawn]:
    """31 tasks of three people in turn."""
    draw = random.Random(seed)
    return [
        Drawn(
            draw.randint(1, 6),
            (("ana", "ben", "cid")[number % 3],),
            tuple(it for it in range(number) if draw.random() < 0.06),
        )
        for number in range(31)
    ]


def ends_by(tasks: list[Drawn], values: Mapping[str, int], names: Collection[str]) -> int:
    """When all is done in a plan, of which these premises are looked at one by one."""
    lasts = [(values[f"t{number} start"], values[f"t{number} end"]) for number in range(31)]
    for number, (start, end) in enumerate(lasts):
        days, who = tasks[number].days, tasks[number].who[0]
        assert end - start == days or f"t{number} takes {days}" not in names
        for before in tasks[number].after:
            assert lasts[before][1] <= start or f"t{number} after t{before}" not in names
        for other in range(number):
            if tasks[other].who[0] == who and f"{who} does one thing at a time" in names:
                assert lasts[other][1] <= start or end <= lasts[other][0]
    return max(end for _, end in lasts)


@pytest.mark.parametrize("seed", range(3))
def test_what_is_critical_of_many_tasks(seed: int, wide: str) -> None:
    """It took longer than ten minutes. Somebody is busy all the time by what is named, so nothing
    ends sooner; and without any one of these premises a plan of the certificate does."""
    tasks, made = many_tasks(seed), list[Task]()
    with Workbench(wide) as w:
        p = w.project(days=99, people="ana ben cid")
        for number, each in enumerate(tasks):
            after = [made[before] for before in each.after]
            made.append(p.task(f"t{number}", each.days, who=each.who, after=after))
        began, best = time.monotonic(), w.least(p.end)
        critical, chain = w.critical(p.end), p.critical(best)
        assert time.monotonic() - began < 240
        assert critical.complete and chain.complete and critical.value == chain.schedule.end
        for names in ({*critical}, {*chain.premises}):
            who = [person for person in p.people if f"{person} does one thing at a time" in names]
            own = [each for each in enumerate(tasks) if each[1].who[0] in who]
            busy = sum(each.days for number, each in own if f"t{number} takes {each.days}" in names)
            assert len(who) == 1 and busy == best.value
        certificate = critical.certificate
        assert certificate is not None and certificate.check(wide)
        lines = {w.model.cell_name(cell): cell for cell in w.model.cells()}
        ends = {}
        for plan in json.loads(certificate.lines[2])["plans"]:
            named = {it for it in critical if w.model.line_name(it) in plan["in"]}
            values = {lines[it]: int(text) for it, text in plan["values"].items() if it in lines}
            ends[frozenset(named)] = ends_by(tasks, values, named)
        without = [ends[frozenset(critical) - {premise}] for premise in critical]
        assert max(without) < critical.value


@settings(max_examples=20 * TIMES)
@given(cases())
def test_a_folded_chain_is_the_reason(case: Case) -> None:
    """Its premises leave no sooner end in all plans, whether or not the program searched for that;
    each task of it begins when what it waits for is over, and stretches have all tasks once."""
    with Workbench() as w:
        p = project_of(w, case)
        best = w.least(p.end)
        if best.plan is None or not best.proved or not (best.because or best.value == 0):
            return
        end = soonest(case, w.premises)
        chain = p.how(best)
        assert best.value == end == soonest(case, chain.premises) == chain.schedule.end
        assert {*chain.premises} <= {*best.because}
        told = {name for link in chain.links for name in chain.behind(link.entry.task)}
        assert {*chain.others} == {*chain.premises} - told
        assert sorted(sum(chain.by_kind.values(), ())) == sorted(chain.others)
        ends = {entry.task: entry.end for entry in chain.schedule.entries}
        for link in chain.links:
            assert all(ends[task] == link.entry.start for task in link.after)
            kept = [f"{task} takes {case.tasks[int(task[1:])].days}" for task in link.after]
            orders = [f"{link.entry.task} after {task}" for task in link.after]
            assert {*kept} <= {*chain.premises} or {*orders} & {*chain.premises}
        assert [task for it in chain.stretches for task in it.tasks] == [
            link.entry.task for link in chain.links
        ]


def days_of(chain: FoldedChain) -> list[list[object]]:
    """What the rows of a chain say but of whom."""
    return [[row[0], row[1], row[2], row[4], row[5]] for row in chain.rows()]


def test_a_long_chain_is_told_in_few_rows() -> None:
    """Ana has eight tasks of two days and ben has eight of one behind, all in order; by hand."""
    with Workbench() as w:
        p = w.project(days=60, people="ana ben")
        made = [p.task("a0", 2, who="ana")]
        for number in range(1, 8):
            made.append(p.task(f"a{number}", 2, who="ana", after=made[-1:]))
        for number in range(8):
            made.append(p.task(f"b{number}", 1, who="ben", after=made[-1:]))
        p.task("aside", 3, who="ben")
        p.not_before(1, made[0], under="not at once")
        best = w.least(p.end)
        assert best.value == 1 + 16 + 8
        if not best.because:
            return
        chain = p.how(best)
        assert len(chain.links) == 16 and len(chain.premises) == 16 + 15 + 1
        assert days_of(chain) == [
            [1, 3, "a0", "not at once", 2],
            *([2 * n + 1, 2 * n + 3, f"a{n}", f"a{n - 1}", 2] for n in range(1, 5)),
            ["", "", "(5 tasks between)", "", 10],
            *([17 + n, 18 + n, f"b{n}", f"b{n - 1}", 2] for n in range(2, 8)),
        ]
        assert chain.others == () and "others" not in str(chain)
        assert chain.whole().count("takes") == 16 and "aside" not in chain.whole()


def test_what_somebody_does_in_a_row_is_one_stretch() -> None:
    """Ana has 14 tasks of two days, from day 3, when she is back, to day 31, in any order."""
    with Workbench() as w:
        p = w.project(days=60, people="ana ben")
        for number in range(14):
            p.task(f"t{number}", 2, who="ana", pauses=False)
        p.away("ana", 0, 3, under="holiday")
        for number in range(4):
            p.task(f"u{number}", 2, who="ben")
        best = w.least(p.end)
        assert best.value == 31
        if not best.because:
            return
        chain = p.how(best)
        kinds = {"holiday", "ana does one thing at a time"}
        assert {*chain.premises} == kinds | {f"t{number} takes 2" for number in range(14)}
        [stretch] = chain.stretches
        assert {*stretch.tasks} == {f"t{number}" for number in range(14)}
        [[first, last, task, who, waits, count]] = chain.rows()
        assert (first, last, who, count) == (3, 31, ("ana",), 16)
        assert str(task).endswith(" (14 tasks in a row)") and waits == "ana, away 0 to 3"
        assert {*chain.behind("t3")} == kinds | {"t3 takes 2"}


def test_what_is_behind_is_counted_by_kind() -> None:
    """A budget, which is behind a length, and a way that is dear."""
    with Workbench() as w:
        p = w.project(days=30, people="ana")
        quick = {"good": dict(days=6, cost=10), "quick": dict(days=2, cost=90)}
        p.task("a", who="ana", options=quick)
        w.require(p.total_cost <= 50, under="the budget")
        w.tell("no gifts", p.total_cost, 0, 60)
        best = w.least(p.end)
        assert best.value == 6
        if not best.because:
            return
        chain = p.how(best)
        assert chain.others == ("the budget",) or chain.others == ("no gifts",)
        assert str(chain).split("\n")[-1] in (
            "and 1 other: 1 constraint.",
            "and 1 other: 1 statement.",
        )
        assert [*chain.by_kind] in (["constraints"], ["statements"])
        html = chain._repr_html_()
        assert "<summary>and 1 other: 1 " in html and f"<dd>{chain.others[0]}</dd>" in html


def test_a_chain_prints_what_is_waited_for() -> None:
    """Ana has 7 days of work, from the day on which she is back; c can wait for as many as b takes
    less two."""
    with Workbench() as w:
        p = w.project(days=40, people="ana ben", start="2026-03-02", off="sat sun")
        a = p.task("a", 3, who="ana")
        p.task("b", 4, who="ana", after=[a])
        p.task("c", 2, who="ben", after=[a])
        p.away("ana", "2026-03-02", "2026-03-04")
        p.done_by("2026-04-01", under="in spring")
        # (b waits for a in two ways, of which either is enough)
        assert str(p.critical()).replace("ana, busy with a", "a") == (
            "All is done on Thu 12 Mar 2026, and no sooner because of:\n"
            "  from            to               task  who  waits for\n"
            "  Wed 4 Mar 2026  Fri 6 Mar 2026   a     ana  ana, away 2-3 Mar\n"
            "  Mon 9 Mar 2026  Thu 12 Mar 2026  b     ana  a\n"
            "The others can move:\n"
            "  task  days  within\n"
            "  c     2     9-12 Mar"
        )


def test_who_is_needed_twice() -> None:
    """Three tasks of 2 days by one person take 6; where somebody helps her, 2."""
    with Workbench() as w:
        p = w.project(days=9, people="ana")
        for name in "abc":
            p.task(name, 2, who="ana")
        chain = p.critical()
        assert p.limits == ("ana does one thing at a time",)
        assert {*chain.premises} == {"a takes 2", "b takes 2", "c takes 2", *p.limits}
        told = str(chain)
        assert len(chain.tasks) == 3 and not chain.rooms and told.count("ana, busy with ") == 2
        p.done_by(4, under="soon")
        assert {frozenset(each) for each in w.repairs(keep=p.facts)} == {
            frozenset(p.limits),
            frozenset({"soon"}),
        }
        assert "no two tasks of ana at once" in str(w.conflicts(keep=p.facts))
        w.kick(p.limits[0])
        assert w.least(p.end).value == 2 and not p.critical().others


def test_a_wish_is_told_beside_the_chain() -> None:
    with Workbench() as w:
        p = w.project(days=20, people="ana")
        a = p.task("a", options={"quick": dict(days=1), "good": dict(days=4)})
        b = p.task("b", 2, after=[a])
        w.require(a.days >= 4, under="good work")
        p.not_before(9, b)
        chain = p.critical()
        assert chain.tasks == ("b",) and chain.links[0].waits == "b not before 9"
        assert chain.rooms == {"a": 5} and chain.others == ("b not before 9",)
        w.forget("b not before 9")
        told = str(p.critical())
        assert "and of good work." in told and p.critical().tasks == ("a", "b")
        late = w.greatest(p.end)
        with pytest.raises(ValueError, match="there is a plan that ends before day 20: ask why of"):
            p.critical(late)
        w.kick("good work")
        assert p.critical(w.least(p.end)).premises == p.critical().premises
        assert p.critical().rooms == {} and p.critical().schedule.end == 3


def test_what_is_the_same_does_not_differ() -> None:
    """However it is told: a project's statements, and the same by hand."""
    with Workbench() as w, Workbench() as other:
        p = w.project(days=9, people="ana")
        p.task("a", 2, who="ana", pauses=False)
        p.away("ana", 3, 5, under="ill")
        start, end, days = (other.number(f"a {it}", 0, 9) for it in ("start", "end", "days"))
        other.require(end == start + days)
        other.tell("a takes 2", days, 2)
        other.require((end <= 3) | (start >= 5), under="ill")
        assert not w.compare(other)


def test_a_chain_of_what_the_program_names() -> None:
    """In short, without a question more: each task of the chain has its premises behind it."""
    with Workbench() as w:
        p = w.project(days=60, people="ana ben")
        first = p.task("first", 3, who="ana")
        second = p.task("second", 4, who="ana")
        p.task("aside", 1, who="ben")
        third = p.task("third", 2, who="ben", after=[first, second])
        p.not_before(5, third, under="late")
        best = w.least(p.end)
        if not best.because:
            return
        asked: list[str] = []
        found = p.how(best, progress=asked.append)
        assert not asked and found.complete and {*found.premises} <= {*best.because}
        assert [link.entry.task for link in found.links][-1] == "third"
        behind = found.behind("third")
        assert "third takes 2" in behind and set(behind) <= set(best.because)
        told = {name for link in found.links for name in found.behind(link.entry.task)}
        assert set(found.others) == set(found.premises) - told
        assert f"no sooner by {len(found.premises)} premises" in str(found)
        with pytest.raises(KeyError):
            found.behind("aside")
        with pytest.raises(ValueError, match="ask for the least of it"):
            p.how(w.greatest(p.end))
