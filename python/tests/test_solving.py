"""Plans, optima and rooms by a program that searches, and by cases where it doesn't: against going
through all points, over both programs."""

import os
import signal
import threading
from collections.abc import Callable
from functools import partial
from pathlib import Path

import pytest
from conftest import PROGRAMS, TIMES
from drawn_models import model_lines
from hypothesis import given, settings
from hypothesis import strategies as st
from lines_model import LineModel

from propbench import Interrupted, Session, Workbench, all_different, if_else, pairs
from propbench.model.expressions import Number, Truth
from propbench.questions import NothingFits, Optimum
from propbench.questions import seeking
from propbench.questions.seeking import Seeker, Unlike

# So many plans are asked for where all are.
MOST = 10_000


def crowd(w: Workbench) -> Number:
    """Fourteen that differ, of thirteen values, where a truth is no: so it is yes, which takes long
    to find out."""
    holes = [w.number(f"p{i}", 1, 13) for i in range(14)]
    free = w.truth("free")
    for i, one in enumerate(holes):
        for other in holes[:i]:
            w.require((one != other) | free)
    number = w.number("n", 0, 9)
    w.require(number >= if_else(free, 5, 0))
    return number


def test_numbers_of_one_range_behind_a_condition_are_not_tied() -> None:
    with Workbench() as w:
        x, y, holds = w.number("x", 0, 1), w.number("y", 0, 2), w.truth("holds")
        w.require(holds == (x // y >= 1))
        found = w.plans()
    points = [(a, b, b != 0 and a // b >= 1) for a in range(2) for b in range(3)]
    assert found.complete
    assert sorted((p["x"], p["y"], p["holds"]) for p in found) == sorted(points)


LATER = [("a", "b"), ("a", "c"), ("b", "c")]


def before_and_behind(w: Workbench) -> Truth:
    """Two elements, of which each is to be later than the other."""
    domain = w.domain("d", "a b c")
    x, y = w.element("x", domain), w.element("y", domain)
    return pairs(x, y, LATER) & pairs(y, x, LATER)


def three_of_two(w: Workbench) -> Truth:
    """Three elements of a domain of two, which are to differ."""
    domain = w.domain("d", "a b")
    return all_different(w.element(f"x{i}", domain) for i in range(3))


def three_truths(w: Workbench) -> Truth:
    """Three truths that are to differ."""
    return all_different(w.truth(f"t{i}") for i in range(3))


@pytest.mark.parametrize("impossible", [before_and_behind, three_of_two, three_truths])
def test_what_cannot_hold_denies_nothing_where_it_is_not_said(
    impossible: Callable[[Workbench], Truth],
) -> None:
    with Workbench() as w:
        said, n = impossible(w), w.number("n", 1, 2)
        w.require(said, under="p")
        w.choose("way", {"this": said, "that": n == 2})
        with pytest.raises(NothingFits) as none:
            w.solve()
        assert none.value.premises == ("p",)
        w.kick("p")
        assert w.solve()["n"] == 2
        assert len(w.plans(["n"])) == 1


# Three elements of a domain of two that are to differ, as they were saved before there were
# switched forms among what a workbench uses.
SAVED = """#: {"workbench": 1, "kit": ["different3"]}
cell _yes truth
fix _yes yes
#: {"domain": "d", "elements": ["a", "b"]}
domain d a b
#: {"element": "c0", "domain_of": "d"}
cell c0 d
fix c0 {a b}
#: {"element": "c1", "domain_of": "d"}
cell c1 d
fix c1 {a b}
#: {"element": "c2", "domain_of": "d"}
cell c2 d
fix c2 {a b}
#: {"require": ["ALL_DIFFERENT", [["CELL", "c0"], ["CELL", "c1"], ["CELL", "c2"]]], "under": "p"}
cell _1 truth
tell p _1 yes
cell _2 d
attach passer _1 c0 _2
attach passer _1 _2 c0
cell _3 d
attach passer _1 c1 _3
attach passer _1 _3 c1
cell _4 d
attach passer _1 c2 _4
attach passer _1 _4 c2
attach different3 _2 _3 _4
cell _5 truth
attach alike c0 c1 _5
tell p _5 no
cell _6 truth
attach alike c0 c2 _6
tell p _6 no
cell _7 truth
attach alike c1 c2 _7
tell p _7 no
#: {"kicked": ["p"]}
kick p
"""


def test_what_was_saved_without_switched_forms_is_answered_rightly(
    wide: str, tmp_path: Path
) -> None:
    file = tmp_path / "saved.prop"
    file.write_text(SAVED, encoding="utf-8")
    with Workbench.load(str(file), program=wide) as w:
        assert set(w.solve()) == {"c0", "c1", "c2"}
        w.bring("p")
        with pytest.raises(NothingFits):
            w.solve()


@settings(max_examples=30 * TIMES)
@given(model_lines())
def test_a_plan_is_one_of_all(lines: list[str]) -> None:
    with Session() as session:
        model = LineModel(session, lines)
        plans = list(model.all_plans(model.believed()))
        try:
            found = model.solve()
        except NothingFits as none:
            assert not plans and none.premises is not None
            assert not list(model.all_plans(none.premises))
            assert str(none).startswith("nothing fits: ")
            return
        assert dict(found) in plans and found.complete and found.certificate.check()


@settings(max_examples=30 * TIMES)
@given(model_lines(), st.data())
def test_what_is_because_of_premises_is(lines: list[str], data: st.DataObject) -> None:
    """Over a program that searches the premises behind an answer are enough for it."""
    with Session() as session:
        model = LineModel(session, lines)
        numbers = [cell for cell, kind in model.kinds.items() if kind == "span"]
        cell = data.draw(st.sampled_from(numbers))
        show = data.draw(st.lists(st.sampled_from(model.cells()), min_size=1, unique=True))
        least, greatest = model.least(cell), model.greatest(cell)
        slack, plans = model.slack(cell), model.plans(show, most=MOST)
        if not seeking.seeks(model):
            assert least.because == greatest.because == plans.because == ()
            return
        assert least.proved and greatest.proved and slack.complete
        if not plans.complete:
            assert len(list(plans)) == MOST
            return
        assert (slack.low, slack.high) == (least.value, greatest.value)
        for found, is_beyond in ((least, int.__lt__), (greatest, int.__gt__)):
            there = model.all_plans(found.because)
            values = [each for plan in there if isinstance(each := plan[cell], int)]
            assert not any(found.value is None or is_beyond(each, found.value) for each in values)
        shown = [{each: plan[each] for each in show} for plan in model.all_plans(plans.because)]
        assert all(each in plans for each in shown)
        assert [{each: plan[each] for each in show} for plan in plans.whole] == list(plans)
        wholes = list(model.all_plans(model.believed()))
        assert all(plan in wholes for plan in plans.whole)
        for checked in (least, greatest, slack, plans):
            assert checked.certificate.check()


def answers(w: Workbench) -> list[str]:
    """What is answered of a meeting, but for which plan it is."""
    days, price, cost = (w.number(name, 0, 9000) for name in ("days", "price", "cost"))
    w.choose("venue", {"hotel": [price == 900], "uni": [price == 300]})
    w.require(cost == price * days)
    w.tell("Ana", days, 4, 10)
    w.require(cost <= 2500, under="cheap")
    guest = w.symbol("guest")
    asked = [w.least(cost), w.greatest(cost), w.plans([days, price]), w.slack(cost), w.slack(price)]
    asked += [w.plans(most=2), w.least(days)]
    said = [str(each) for each in asked]
    found = w.solve()
    assert found["cost"] == int(found["price"]) * int(found["days"]) and "guest" in found
    assert found.choices["venue"] == {300: "uni", 900: "hotel"}[int(found["price"])]
    assert all(each.certificate.check() for each in asked) and guest.name == "guest"
    w.require(price >= 500, under="comfort")
    with pytest.raises(NothingFits, match="^nothing fits: Ana, cheap and comfort can't all hold$"):
        w.solve()
    return [each.partition(" guest")[0] for each in said] + [str(w.least(cost)), str(w.plans())]


def test_both_ways_answer_the_same(monkeypatch: pytest.MonkeyPatch) -> None:
    """Also where a plan of the program doesn't hold as it was stated: then cases are gone
    through."""
    with Workbench() as w:
        said = answers(w)

    def unlike(*_: object) -> None:
        raise Unlike

    monkeypatch.setattr(Seeker, "plan_of", unlike)
    with Workbench() as w:
        again = answers(w)
    # (the values of the guest, who may be any, and of the cells that are shown beside are left out)
    assert [each.split("\n")[0] for each in again] == [each.split("\n")[0] for each in said]
    assert again[2:5] == said[2:5]


def test_what_was_shown_by_cases_is_checked_by_all(tmp_path: Path) -> None:
    with Workbench(PROGRAMS["propbench"]) as w:
        x, y = w.number("x", 0, 9), w.number("y", 0, 9)
        w.require(x + y == 7)
        w.require(x >= 3, under="much")
        kept = [w.least(x).certificate, w.plans([x]).certificate, w.slack(y).certificate]
    for certificate in kept:
        assert "optimum" in certificate.lines[1] or "plans_are" in certificate.lines[1]
        assert certificate.check()


def test_the_time_is_over_before_it_is_known() -> None:
    with Workbench() as w:
        number = crowd(w)
        best = w.least("n", seconds=0.6)
        assert not best.proved and best.value in (None, 5) and best.because == ()
        assert best.bound == 0 and (best.value is None or best.certificate.check())
        w.require(number == 0, under="none")
        with pytest.raises(NothingFits, match="no plan was found in time") as caught:
            w.solve(seconds=0.3)
        assert caught.value.premises is None


def test_ctrl_c_tells_what_is_known() -> None:
    told: list[str] = []
    with Workbench() as w:
        number = crowd(w)
        w.require(number == 0, under="none")
        asks: list[Callable[..., object]] = [partial(w.least, "n"), w.solve]
        for ask in asks:
            timer = threading.Timer(0.5, os.kill, (os.getpid(), signal.SIGINT))
            timer.start()
            try:
                with pytest.raises(Interrupted) as caught:
                    ask(progress=told.append)
            finally:
                timer.cancel()
            so_far = caught.value.so_far
            assert isinstance(so_far, Optimum | NothingFits) and told
            assert not (isinstance(so_far, Optimum) and so_far.proved)
        assert w.settle()


def test_a_cell_of_another_kind_is_refused() -> None:
    with Workbench() as w:
        t, s = w.truth("t"), w.symbol("s")
        with pytest.raises(
            ValueError, match="`t` is not for numbers, and only of these one is the least"
        ):
            w.least(t)
        with pytest.raises(ValueError, match="is for symbols, and these are too many"):
            w.plans([s])
        assert list(w.plans([])) == [{}] and w.slack(t).values == (True, False)
        assert w.solve().certificate.check()
