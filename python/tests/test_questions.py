"""Questions of many asks hold against going through all points of random models."""

from collections.abc import Iterable
from itertools import chain, combinations

import pytest
from drawn_models import model_lines
from conftest import TIMES
from hypothesis import given, settings
from hypothesis import strategies as st
from lines_model import LineModel

from propbench import Session
from propbench.questions import Plan


def subsets(names: Iterable[str]) -> list[frozenset[str]]:
    """All sets of some of these names, the smaller ones first."""
    known = list(names)
    each = (combinations(known, size) for size in range(len(known) + 1))
    return [frozenset(some) for some in chain.from_iterable(each)]


def fitting(model: LineModel) -> dict[frozenset[str], bool]:
    """For each set of believed premises whether there is a plan, by going through all points."""
    plans = list(model.all_plans([]))
    holding = [
        frozenset(p for p in model.believed() if model.violated(plan, [p]) is None)
        for plan in plans
    ]
    return {some: any(some <= held for held in holding) for some in subsets(model.believed())}


@settings(max_examples=30 * TIMES)
@given(model_lines(conflicting=True))
def test_conflicts_and_repairs_are_all_there_are(lines: list[str]) -> None:
    with Session() as session:
        model = LineModel(session, lines)
        fits = fitting(model)
        conflicts = {
            some for some, fit in fits.items() if not fit and all(fits[some - {p}] for p in some)
        }
        everything = frozenset(model.believed())
        repairs = {
            some
            for some in fits
            if fits[everything - some] and not any(fits[everything - some | {p}] for p in some)
        }
        found, mended = model.conflicts(most=1000), model.repairs(most=1000)
        if found.complete:
            assert set(found) == conflicts
        else:
            assert all(not fits[each] for each in found)
            assert {each for each in found if each.least} <= conflicts
        assert not mended.complete or set(mended) == repairs
        assert set(mended) <= repairs
        assert found.certificate.check() and mended.certificate.check()


@settings(max_examples=20 * TIMES)
@given(model_lines(conflicting=True), st.data())
def test_a_question_goes_on_from_the_one_before(lines: list[str], data: st.DataObject) -> None:
    """Whatever was asked before, in however small parts, all comes out as if it had not been."""
    with Session() as session, Session() as other:
        model, fresh = LineModel(session, lines), LineModel(other, lines)
        weights = {p: data.draw(st.sampled_from([1, 2, 5])) for p in model.believed()}
        wanted, needed = fresh.repairs(weights, most=1000), fresh.conflicts(most=1000)
        costs = [repair.cost for repair in wanted]
        for kind in data.draw(st.lists(st.sampled_from(["conflicts", "plain", "repairs"]))):
            most = data.draw(st.sampled_from([1, 2, 4]))
            if kind == "conflicts":
                some = model.conflicts(most=most)
                assert len(some) <= most and (not needed.complete or set(some) <= set(needed))
                assert not some.complete or len(some) == len(needed)
                assert some.certificate.check()
            else:
                told = weights if kind == "repairs" else {}
                few = model.repairs(told, most=most)
                assert len(few) <= most and (not wanted.complete or set(few) <= set(wanted))
                assert not few.complete or len(few) == len(wanted)
                if kind == "repairs" and wanted.complete:
                    assert [repair.cost for repair in few] == costs[: len(few)]
                assert few.certificate.check()
        mended, found = model.repairs(weights, most=1000), model.conflicts(most=1000)
        if wanted.complete and mended.complete:
            assert set(mended) == set(wanted) and [repair.cost for repair in mended] == costs
            assert set(found) == set(needed)
        assert mended.complete == wanted.complete
        assert mended.certificate.check() and found.certificate.check()


def test_other_weights_give_another_order() -> None:
    """What the question before found out counts, and not in which order."""
    with Session() as session:
        model = LineModel(session, ["cell x span", *(f"tell p{n} x {n}" for n in range(4))])
        for dear in ("p0", "p3", "p1"):
            [cheapest] = model.repairs({dear: 9}, most=1)
            assert set(cheapest) == set(model.premises()) - {dear} and cheapest.cost == 3


def test_what_is_known_is_not_asked_again(monkeypatch: pytest.MonkeyPatch) -> None:
    """Of the same network no program is begun for what is known, and one for what is not."""
    lines = ["cell x span", *(f"tell p{n} x {n}" for n in range(4))]
    with Session() as session:
        model = LineModel(session, lines)
        begun: list[Session] = []
        fresh = Session.fresh

        def counted(of: Session) -> Session:
            begun.append(fresh(of))
            return begun[-1]

        monkeypatch.setattr(Session, "fresh", counted)
        assert len(model.conflicts(most=2)) == 2
        first = len(begun)
        assert len(model.conflicts(most=1)) == 1 and len(begun) == first
        # (one that searches for them itself is begun once)
        more = 0 if session.blames else 1
        assert len(model.conflicts()) == 6 and len(begun) == first + more
        assert [repair.cost for repair in model.repairs({"p0": 9})] == [3, 11, 11, 11]
        assert len(begun) == first + more
        few = model.repairs(most=3)
        assert len(few) == 3 and not few.complete and few.certificate.check()
        model.send("kick p3")
        assert len(model.conflicts()) == 3 and len(begun) == first + 2 * more


@settings(max_examples=30 * TIMES)
@given(model_lines(), st.data())
def test_bounds_are_those_of_all_plans(lines: list[str], data: st.DataObject) -> None:
    with Session() as session:
        model = LineModel(session, lines)
        cell = data.draw(st.sampled_from([c for c, kind in model.kinds.items() if kind == "span"]))
        values = [plan[cell] for plan in model.all_plans(model.believed())]
        for found, wanted in ((model.least(cell), min), (model.greatest(cell), max)):
            if found.proved:
                assert found.value == (wanted(values) if values else None)
            else:
                assert found.value is None or found.value in values
            if found.plan:
                assert model.violated(found.plan, model.believed()) is None
            if found.value is not None or found.proved:
                assert found.certificate.check()


@settings(max_examples=30 * TIMES)
@given(model_lines(), st.data())
def test_plans_are_all_there_are(lines: list[str], data: st.DataObject) -> None:
    with Session() as session:
        model = LineModel(session, lines)
        show = data.draw(st.lists(st.sampled_from(model.cells()), min_size=1, unique=True))
        wanted: list[Plan] = []
        for plan in model.all_plans(model.believed()):
            shown = {cell: plan[cell] for cell in show}
            if shown not in wanted:
                wanted.append(shown)
        most = data.draw(st.sampled_from([1, 3, 10_000]))
        found = model.plans(show, most=most)
        assert len(found) <= most
        assert all(plan in wanted and found.count(plan) == 1 for plan in found)
        if found.complete:
            assert len(found) == len(wanted)
        assert found.certificate.check()
