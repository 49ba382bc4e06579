"""Conflicts and repairs that the program searches for itself, held to all points of small networks:
with what is kept, weights, parts of all, in slices, cut short, and behind changes."""

from collections.abc import Callable, Sequence
from typing import Any

import pytest
from conftest import TIMES
from drawn_models import model_lines
from hypothesis import assume, given, settings
from hypothesis import strategies as st
from lines_model import LineModel
from plainly import Names, conflicts_and_repairs

from propbench import Session, Span, Workbench
from propbench.clock import Clock
from propbench.questions import Interrupted
from propbench.questions.blaming import BlamedSets, certificate_of, evidence_of
from propbench.questions.leaving import Leaving, why_not_beyond
from propbench.questions.seeking import Seeker


@pytest.fixture(autouse=True)
def blaming(over: None) -> None:
    """Leaves these tests out over a program that has no such commands."""
    with Session() as session:
        if not session.blames:
            pytest.skip("the program doesn't search for conflicts")


def right(model: LineModel, keep: Sequence[str]) -> tuple[set[Names], set[Names]]:
    """The conflicts and repairs of what is believed beside what is kept, by all points."""
    plans = list(model.all_plans([]))
    held = [frozenset(model.held(plan)) for plan in plans]
    kept = frozenset(keep)
    free = [name for name in model.believed() if name not in kept]
    return conflicts_and_repairs(free, lambda some: any(some | kept <= it for it in held))


@settings(max_examples=30 * TIMES)
@given(model_lines(conflicting=True), st.data())
def test_all_conflicts_and_repairs(lines: list[str], data: st.DataObject) -> None:
    with Session() as session:
        model = LineModel(session, lines)
        for _ in range(2):
            believed = model.believed()
            keep = data.draw(st.lists(st.sampled_from(believed), unique=True)) if believed else []
            conflicts, repairs = right(model, keep)
            found, mended = model.conflicts(keep=keep), model.repairs(keep=keep)
            assert found.complete and mended.complete
            assert set(found) == conflicts and len(found) == len(conflicts)
            assert set(mended) == repairs and len(mended) == len(repairs)
            assert found.certificate.check() and mended.certificate.check()
            premise = data.draw(st.sampled_from(model.premises()))
            model.send(f"{'kick' if premise in believed else 'bring'} {premise}")


@settings(max_examples=10 * TIMES)
@given(model_lines(conflicting=True), st.data())
def test_the_cheapest_repairs_come_first(lines: list[str], data: st.DataObject) -> None:
    with Session() as session:
        model = LineModel(session, lines)
        assume(model.believed())
        weights = {name: data.draw(st.sampled_from([0, 0.5, 1, 3])) for name in model.believed()}
        _, repairs = right(model, [])
        costs = sorted(sum(weights[name] for name in each) for each in repairs)
        for most in (1, 2, 100):
            found = model.repairs(weights, most=most)
            assert [each.cost for each in found] == costs[:most] and set(found) <= repairs
            assert found.complete == (len(repairs) <= most) and found.certificate.check()
            some = model.repairs(most=most)
            assert set(some) <= repairs and len(some) == min(most, len(repairs))
            assert not some.complete or len(some) == len(repairs)
            assert some.certificate.check()


@settings(max_examples=15 * TIMES)
@given(model_lines(conflicting=True), st.integers(1, 30))
def test_what_is_known_when_it_is_cut(lines: list[str], cuts: int) -> None:
    """At Ctrl-C what is told is so, and what is asked next is all there is."""
    with Session() as session:
        model = LineModel(session, lines)
        conflicts, repairs = right(model, [])
        left = [cuts]

        def stop(_: str) -> None:
            left[0] -= 1
            if left[0] == 0:
                raise KeyboardInterrupt

        asks: list[tuple[Callable[..., object], set[frozenset[str]]]] = [
            (model.conflicts, conflicts),
            (model.repairs, repairs),
        ]
        for ask, wanted in asks:
            so_far: Any = None
            try:
                so_far = ask(progress=stop)
            except Interrupted as stopped:
                so_far = stopped.so_far
                assert not so_far.complete or len(so_far) == len(wanted)
            known = [each for each in so_far if getattr(each, "least", True)]
            assert set(known) <= wanted
            assert all(any(it <= each for it in wanted) for each in so_far)
        assert set(model.conflicts()) == conflicts and set(model.repairs()) == repairs


@settings(max_examples=12 * TIMES)
@given(model_lines(), st.sampled_from(["least", "greatest"]))
def test_why_an_end_is_none_other(lines: list[str], end: str) -> None:
    """No premise of those that `critical` names can be left out, and they are enough."""
    with Session() as session:
        model = LineModel(session, lines)
        cell = next(cell for cell, kind in model.kinds.items() if kind == "span")
        values = [int(plan[cell]) for plan in model.all_plans(model.believed())]
        if not values:
            return
        found = model.critical(cell, end)
        best = min if end == "least" else max
        assert found.value == best(values) and found.complete

        def end_by(names: Names) -> int:
            return best(int(plan[cell]) for plan in model.all_plans(sorted(names)))

        assert end_by(frozenset(found)) == found.value
        assert all(end_by(frozenset(found) - {name}) != found.value for name in found)
        assert found.certificate.check()


@settings(max_examples=12 * TIMES)
@given(model_lines(), st.sampled_from(["least", "greatest"]), st.integers(-2, 9))
def test_why_nothing_is_better(lines: list[str], end: str, value: int) -> None:
    """Of a plan that is better nothing is said; else what is named is enough, and needed."""
    with Session() as session:
        model = LineModel(session, lines)
        cell = next(cell for cell, kind in model.kinds.items() if kind == "span")

        def is_better(names: Names) -> bool:
            values = (int(plan[cell]) for plan in model.all_plans(sorted(names)))
            return any(it < value if end == "least" else it > value for it in values)

        found = why_not_beyond(model, cell, end, value, Clock(None, None))
        assert (found is None) == is_better(frozenset(model.believed()))
        if found is not None:
            named = frozenset(found.premises)
            assert found.is_least and not is_better(named)
            assert all(is_better(named - {name}) for name in named)


def test_why_an_end_is_none_other_where_a_search_does_not_end() -> None:
    """Of numbers without bounds, which are told apart by what follows and not by a search."""
    with Workbench() as w:
        one, other = w.number("one"), w.number("other")
        w.require(one * 3 == other + one * 2, under="same")
        w.require(other >= 10, under="much")
        found = w.critical(one)
        assert set(found) == {"same", "much"} and found.value == 10 and found.complete
        assert found.certificate and found.certificate.check()


def test_what_was_left_out_doesnt_come_back() -> None:
    """Of three premises that say the same one stays."""
    with Workbench() as w:
        x = w.number("x", 0, 9)
        for name in "abc":
            w.require(x >= 5, under=name)
        with Seeker(w.model, Clock(None, None)) as seeker:
            leaving = Leaving(seeker, {seeker.lines["x"]: Span(0, 4)}, seeker.given())
            assert leaving.run() and len(leaving.premises) == len(leaving.plans) == 1


def test_what_is_kept_isnt_told_again() -> None:
    """Of the same network and the same that is kept no program is begun again."""
    with Workbench() as w:
        x = w.number("x", 0, 9)
        for name, most in [("a", 8), ("b", 3), ("c", 2), ("d", 1)]:
            w.require(x >= most if name == "a" else x <= most, under=name)
        assert len(w.conflicts(keep="a")) == 3 and len(w.conflicts()) == 3
        pids = {id(each) for each in w.model.session.kept.values()}
        assert len(w.repairs(keep="a")) == 1 and len(w.repairs()) == 2
        assert {id(each) for each in w.model.session.kept.values()} == pids
        assert [each.names for each in w.conflicts(keep="b c d")] == [("a",)]
        w.forget("a")
        assert w.conflicts() == [] and w.repairs(keep="b") == [frozenset()]


def test_a_premise_may_be_called_unsettled() -> None:
    """Which is how a line of what isn't known to be minimal begins."""
    with Workbench() as w:
        x = w.number("x", 0, 9)
        w.require(x >= 8, under="unsettled")
        w.require(x <= 3, under="b")
        [found] = w.conflicts()
        assert found.names == ("unsettled", "b") and found.least
        assert [each.names for each in w.repairs()] == [("unsettled",), ("b",)]


def test_nothing_can_hold() -> None:
    with Workbench() as w:
        x = w.number("x", 0, 9)
        w.require(x * x == 7)
        w.require(x >= 3, under="a")
        [found] = w.conflicts()
        assert found == frozenset() and found.least
        assert not w.repairs() and w.repairs().complete
        assert w.conflicts().certificate.check() and w.repairs().certificate.check()


def test_a_conflict_that_isnt_known_to_be_minimal_is_shown_as_such() -> None:
    lines = ["cell x span", *(f"tell p{n} x {n}" for n in range(3))]
    with Session() as session:
        model = LineModel(session, lines)
        told = BlamedSets(("p0", "p1", "p2"), (), unsettled=(("p0", "p1", "p2"),))
        found = certificate_of(evidence_of(model), told, [], [])
        assert found.check() and '"fails"' in found.lines[1]
