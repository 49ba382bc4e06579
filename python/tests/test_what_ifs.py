"""What-ifs, tables of them, and what differs, over a workbench."""

import os
import pickle
import signal
import threading
from collections.abc import Callable, Iterator
from concurrent.futures import Executor, Future, ProcessPoolExecutor
from functools import partial
from typing import Any

import pytest

from propbench import Conflict, Workbench
from propbench.questions import Interrupted, NoSuchName, NothingFits
from propbench.questions import scenarios as scenarios_file


@pytest.fixture
def w() -> Iterator[Workbench]:
    """Two numbers and their sum, an element, and what people say of them."""
    with Workbench() as made:
        x, y = made.number("x", 0, 40), made.number("y", 0, 40)
        end = made.number("the end", 0, 80)
        made.require(end == x + y)
        made.require(x >= 3 * y - 4, under="steep")
        made.require(end <= 10, under="short")
        made.tell("ana", y, 3, 9)
        made.tell("late", end, 20, 30)
        made.kick("late")
        day = made.domain("day", "mon tue wed")
        made.tell("not monday", made.element("review", day), "tue wed")
        yield made


def state(w: Workbench) -> tuple[Any, ...]:
    """All that can be seen of a workbench."""
    return w.believed, w.premises, list(w.model.base()), [str(cell.ask()) for cell in w.cells]


def test_what_if_leaves_no_trace(w: Workbench) -> None:
    x, end = w.cell("x"), w.cell("the end")
    before, lines = state(w), w.session.lines
    with w.what_if(kick=["ana"], tell=[("guess", x, 3, 5), ("ben", "review", "wed")]) as changed:
        assert changed is w
        assert (x.ask().low, x.ask().high) == (3, 5)
        assert w.cell("review").ask().value == "wed"
        assert w.cell("review").ask().because == ("ben",)
        assert "ana" not in w.believed and "guess" in w.believed
        w.kick("steep")
        with w.what_if(bring="late"):
            with pytest.raises(Conflict):
                end.ask()
        assert end.ask().high == 10
    assert w.session.lines == lines
    assert state(w) == before


def test_what_if_is_over_after_an_error(w: Workbench) -> None:
    before = state(w)
    with pytest.raises(RuntimeError):
        with w.what_if(bring="late"):
            raise RuntimeError
    for wrong in ({"kick": ["nobody"]}, {"tell": [("p", "z", 3)]}):
        with pytest.raises(NoSuchName, match="There is no"):
            with w.what_if(**wrong):  # type: ignore[arg-type]  # (wrong on purpose)
                pass
    with pytest.raises(ValueError, match="review can't be `wend`. Did you mean wed?"):
        with w.what_if(tell=[("p", "review", "wend")]):
            pass
    assert state(w) == before


ROWS: dict[str, dict[str, object]] = {
    "out and in": {"kick": ["steep"], "bring": ["steep"]},
    "now": {},
    "no ana": {"kick": ["ana"]},
    "late": {"bring": ["late"]},
    "guess": {"tell": [("guess", "y", 3), ("ben", "review", ["mon", "tue"])]},
    "both": {"kick": "short", "bring": "late", "tell": [("late", "x", 14, 20)]},
    "told again": {"kick": "short", "tell": [("late", "x", 14, 20)]},
}


def test_scenarios_are_what_ifs(w: Workbench) -> None:
    before = state(w)
    table = w.scenarios(ROWS, [w.cell("x"), "the end", "review"])
    assert state(w) == before
    assert list(table) == list(ROWS) and table.complete
    for name, row in ROWS.items():
        with w.what_if(**row):  # type: ignore[arg-type]  # (as the table takes them)
            try:
                wanted = {cell: w.cell(cell).why() for cell in ("x", "the end", "review")}
                assert table[name] == wanted and table[name].conflict is None
            except Conflict as conflict:
                assert table[name] == {} and table[name].conflict == frozenset(conflict.premises)
    assert table["late"].conflict == frozenset({"short", "late"})
    assert table["guess"]["review"].value == "tue"
    assert set(table["guess"]["review"].because) == {"not monday", "ben"}
    assert table.certificate.check()
    assert "no ana" in str(table) and "<td>no ana</td>" in table._repr_html_()
    with pytest.raises(TypeError, match="don't `kik`. Did you mean kick?"):
        w.scenarios({"wrong": {"kik": ["ana"]}}, ["x"])


def test_a_table_refuses_what_a_what_if_refuses(w: Workbench) -> None:
    """In the same words, which are the user's."""
    w.choose("plan", w.cell("x"), [5, 6])
    wrong: dict[str, tuple[object, ...]] = {
        "'plan' is a choice, and nothing is stated under a choice": ("plan", "x", 3),
        "from 3 to 2 there is no number, for 'x'": ("guess", "x", 3, 2),
        "10000000000000000000 lies beyond": ("guess", "x", 10**19),
        "'3' is no whole number": ("guess", "x", "3"),
        "'review' is one of no elements": ("guess", "review", []),
        "True is no element of day": ("guess", "review", True),
    }
    before = state(w)
    for says, told in wrong.items():
        with pytest.raises((ValueError, TypeError), match=says):
            w.scenarios({"row": {"tell": [told]}}, ["y"])
        with pytest.raises((ValueError, TypeError), match=says):
            with w.what_if(tell=[told]):
                pass
    assert state(w) == before


def test_a_sweep_is_the_same_table(w: Workbench) -> None:
    wanted = w.scenarios(ROWS, ["x", "review"])
    assert w.sweep(ROWS, ["x", "review"]) == wanted
    with ProcessPoolExecutor(2) as processes:
        found = w.sweep(ROWS, ["x", "review"], processes)
    assert found == wanted and list(found) == list(wanted) and str(found) == str(wanted)
    assert list(w.sweep([{}, {"kick": "ana"}], ["x"])) == ["1", "2"]


def _dies(job: scenarios_file.Job) -> scenarios_file.Heard:
    os._exit(1)


class Deadly(ProcessPoolExecutor):
    """An executor whose workers die of the second job."""

    count = 0

    def submit(self, fn: Any, /, *args: Any, **kwargs: Any) -> "Future[Any]":
        self.count += 1
        return super().submit(_dies if self.count == 2 else fn, *args, **kwargs)


class Full(Executor):
    """An executor that takes nothing."""

    def submit(self, fn: Any, /, *args: Any, **kwargs: Any) -> "Future[Any]":
        raise RuntimeError("cannot schedule new futures after shutdown")


def test_a_worker_that_dies_costs_no_answer(w: Workbench) -> None:
    wanted = w.scenarios(ROWS, ["x", "review"])
    with Deadly(2) as executor:
        assert w.sweep(ROWS, ["x", "review"], executor) == wanted
    assert w.sweep(ROWS, ["x", "review"], Full()) == wanted


def test_what_differs(w: Workbench) -> None:
    yesterday = pickle.loads(pickle.dumps(w.snapshot()))
    assert not w.diff(yesterday) and str(w.diff(yesterday)) == "Nothing differs."
    w.kick("ana")
    w.tell("new", w.cell("x"), 3)
    found = {each.what: each for each in w.diff(yesterday)}
    assert set(found) == {"premise ana", "premise new", "x", "y", "the end"}
    assert found["x"].before == "5..7" and found["x"].now == "3" and found["x"].why == ("new",)
    assert found["premise new"].before == "not there"
    assert w.diff(yesterday).certificate.check()
    w.bring("late")
    [conflict] = [each for each in w.diff(yesterday) if each.what == "what is believed"]
    assert conflict.before == "fits" and set(conflict.why) == {"short", "late"}
    with Workbench() as other:
        other.number("x", 0, 3)
        assert {each.what for each in other.compare(w)} >= {"premise new", "what is believed"}


def test_room_and_what_is_critical(w: Workbench) -> None:
    slack = w.slack("the end")
    assert (slack.low, slack.high, slack.room, slack.complete) == (8, 10, 2, True)
    assert w.slack("review").values == ("tue", "wed")
    found = w.critical("the end")
    assert found == frozenset({"steep", "ana"}) and found.value == 8 and found.complete
    assert set(w.critical("the end", "greatest")) == {"short"}
    assert slack.certificate.check() and found.certificate.check()
    w.bring("late")
    with pytest.raises(NothingFits):
        w.critical("the end")
    assert w.slack("the end").room is None


def test_what_premises_are_worth(w: Workbench) -> None:
    found = {each.premise: each for each in w.sensitivity("the end")}
    assert str(found["ana"].left_out) == "0..10" and str(found["short"].left_out) == "8..49"
    assert found["not monday"].halved is None
    least = w.sensitivity("the end", "least")
    assert least.now == 8 and {each.premise: each.left_out for each in least} == {
        "steep": 3,
        "short": 8,
        "ana": 0,
        "not monday": 8,
    }
    assert least.certificate.check() and w.sensitivity("the end").certificate.check()
    w.tell("range", w.number("n", 0, 40), 3, 9)
    [worth] = [each for each in w.sensitivity("n") if each.premise == "range"]
    assert (str(worth.left_out), str(worth.halved)) == ("0..40", "4..8")


def test_ctrl_c_leaves_all_as_it_was() -> None:
    """A pigeonhole that takes for ever: what is known by then comes with the interruption."""
    with Workbench() as w:
        holes = [w.number(f"p{i}", 1, 13) for i in range(14)]
        for i, one in enumerate(holes):
            for other in holes[:i]:
                w.require(one != other)
        w.tell("a", holes[0], 1, 5)
        questions: list[Callable[..., object]] = [w.conflicts, w.repairs, w.plans]
        questions.append(partial(w.least, holes[0]))
        for ask in questions:
            # (It is under way when it first tells of itself.)
            timer = threading.Timer(0.2, os.kill, (os.getpid(), signal.SIGINT))
            with pytest.raises(Interrupted) as caught:
                ask(progress=lambda _, t=timer: None if t.is_alive() else t.start())
            assert caught.value.so_far.complete is False  # type: ignore[attr-defined]
            assert "not refuted" in str(caught.value)
        assert w.settle() and w.believed == ("a",)
        told: list[str] = []
        found = w.least(holes[0], seconds=3, progress=told.append)
        assert not found.proved and found.value is None and "not refuted" in str(found) and told


@pytest.mark.parametrize("count", [400, 1100])
def test_a_plan_of_many_cells(program: str, count: int) -> None:
    """Each cell is a case within that of the one before, and Python's stack is not as deep; beyond
    a thousand no more cases are gone through."""
    with Workbench(program) as w:
        cells = [w.number(f"x{number}", 0, 9) for number in range(count)]
        w.require(cells[-1] == 7)
        found = w.plans(most=1)
        assert len(found) == 1 and found[0]["x0"] == 0 and found[0][cells[-1].name] == 7
        assert not found.complete and found.certificate.check()
