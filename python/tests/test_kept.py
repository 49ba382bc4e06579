"""The session that a workbench keeps for its questions for plans: what it is told, what ends it,
and that nothing which was asked before changes an answer."""

import os
import random
import signal
import threading
import time
from collections.abc import Callable, Iterator
from itertools import product
from typing import Any

import pytest
from conftest import TIMES
from drawn_models import model_lines
from hypothesis import given, settings
from hypothesis import strategies as st
from lines_model import LineModel
from puzzles import plan as drawn_plan

from propbench import Session, Workbench
from propbench.model.cells import NumberCell
from propbench.planning import Project, Task
from propbench.questions import Interrupted, NothingFits
from propbench.questions.clock import Clock
from propbench.questions.kept import WITHOUT_END, Base, Kept
from propbench.questions.seeking import Seeker

NAME = "asked for plans"


@pytest.fixture
def w(wide: str) -> Iterator[Workbench]:
    """Two numbers, and what people say of them."""
    with Workbench(wide) as made:
        x, y = made.number("x", 0, 40), made.number("y", 0, 40)
        made.require(x + y == 40)
        made.require(x >= 3 * y, under="steep")
        made.tell("ana", y, 3, 9)
        made.tell("ben", x, 0, 35)
        yield made


def kept(w: Workbench) -> Kept:
    """What is kept for questions."""
    found = w.session.kept[NAME]
    assert isinstance(found, Kept)
    return found


@pytest.fixture
def told(monkeypatch: pytest.MonkeyPatch) -> list[list[str]]:
    """The lines that sessions for questions are told, each time."""
    found: list[list[str]] = []
    tell = Kept.tell

    def noted(self: Kept, lines: list[str], base: Base, until: float | None) -> None:
        found.append(lines)
        tell(self, lines, base, until)

    monkeypatch.setattr(Kept, "tell", noted)
    return found


# --- what is told ---


def test_only_what_changed_is_told(w: Workbench, told: list[list[str]]) -> None:
    assert w.least("y").value == 5
    pid = kept(w).session.pid
    w.kick("ben")
    assert w.least("y").value == 3 and w.greatest("y").value == 9
    w.bring("ben")
    w.kick("ana")
    assert w.least("y").value == 5
    w.tell("cy", w.cell("x"), 30, 33)
    assert [plan["y"] for plan in w.plans(["y"])] == [7, 8, 9, 10]
    w.forget("cy")
    assert w.slack("x").low == 30
    base, *others = told
    assert base == w.model.base()[: len(base)]
    assert others == [
        ["kick ben"],
        [],
        ["bring ben", "kick ana"],
        ["tell cy x 30..33"],
        ["forget cy"],
    ]
    assert kept(w).session.pid == pid
    assert kept(w).session.lines == [*w.model.base(), WITHOUT_END]


def test_it_is_begun_anew_where_lines_cannot_take_back(w: Workbench) -> None:
    assert w.least("x").value == 31
    pid = kept(w).session.pid
    x = w.cell("x")
    assert isinstance(x, NumberCell)
    w.require(x != 31, under="odd")
    w.forget("steep")
    assert w.greatest("y").value == 8 and w.least("x").value == 32
    assert kept(w).session.pid != pid


def test_bases_change_by_lines() -> None:
    first = Base().followed_by(["cell x span", "tell a x 1", "# silent", "kick a", "tell b x 2"])
    assert first.lines == ["cell x span", "tell a x 1", "kick a", "tell b x 2"]
    assert first.out == {"a"} and first.kinds == {"x": "span"}
    more = first.followed_by([*first.stated, "tell c x _q0_", "bring a", "kick c"])
    assert more.out == {"c"} and more.mark == "_q1_" and first.mark == "_q0_"
    assert first.changed_to(more) == ["bring a", "tell c x _q0_", "kick c"]
    less = Base().followed_by(["cell x span", "tell b x 2"])
    assert more.changed_to(less) == ["bring c", "forget a", "forget c"]
    assert first.changed_to(less) == ["bring a", "forget a"]
    assert first.changed_to(Base().followed_by(["tell b x 2"])) is None
    assert first.changed_to(Base().followed_by(["cell y span", "tell a x 1"])) is None
    assert Base().changed_to(first) == [*first.stated, "kick a"]


def test_the_same_question_has_the_same_answer_again(w: Workbench) -> None:
    asks: list[Callable[[], Any]] = [lambda: w.plans(["y"]), lambda: w.least("y"), w.solve]
    asks.append(lambda: w.slack("x"))
    for ask in asks:
        first, again = ask(), ask()
        assert str(first) == str(again) and first.complete and again.complete
    assert sorted(plan["y"] for plan in w.plans(["y"])) == [5, 6, 7, 8, 9]


# --- what ends it ---


def is_running(pid: int) -> bool:
    """Whether a process is there that has not ended."""
    try:
        with open(f"/proc/{pid}/stat", encoding="ascii") as file:
            return file.read().rpartition(")")[2].split()[0] != "Z"
    except FileNotFoundError:
        return False


def test_it_ends_with_the_workbench(w: Workbench) -> None:
    assert w.solve()
    pid = kept(w).session.pid
    assert is_running(pid)
    w.close()
    assert not is_running(pid)


def test_where_its_program_is_killed_another_is_begun(w: Workbench) -> None:
    for _ in range(2):
        assert w.least("y").value == 5
        os.kill(kept(w).session.pid, signal.SIGKILL)
    w.kick("ben")
    assert w.least("y").value == 3


def test_who_asks_meanwhile_has_another(w: Workbench) -> None:
    first = Seeker(w.model, Clock(None, None))
    second = Seeker(w.model, Clock(None, None))
    assert first.session is not second.session
    second.ask("least y")
    first.ask("greatest y")
    first.close()
    second.close()
    assert kept(w).session is first.session
    with pytest.raises(RuntimeError, match="closed"):
        second.session.send("settle")


def test_threads_may_ask_at_once(w: Workbench) -> None:
    found: list[object] = []
    ask = [lambda: w.least("y").value, lambda: w.greatest("y").value] * 3
    threads = [threading.Thread(target=lambda it=it: found.append(it())) for it in ask]
    w.model.base()
    for thread in threads:
        thread.start()
    for thread in threads:
        thread.join()
    assert sorted(map(str, found)) == ["5"] * 3 + ["9"] * 3


def test_a_child_that_is_forked_asks_by_itself(w: Workbench) -> None:
    assert w.least("y").value == 5
    pid = kept(w).session.pid
    child = os.fork()
    if child == 0:
        # (the status is the least y, or 99)
        status = 99
        try:
            status = w.least("y").value or 99
        finally:
            os._exit(status)
    assert os.waitstatus_to_exitcode(os.waitpid(child, 0)[1]) == 5
    assert kept(w).session.pid == pid and w.least("y").value == 5


# --- what is left behind ---


def project(w: Workbench, count: int, seed: int) -> Project:
    """Tasks of two people, who do one thing at a time."""
    drawn = drawn_plan(count, 2, seed)
    p = w.project(days=200, people="ana ben")
    tasks: list[Task] = []
    for number, days in enumerate(drawn.long):
        before = [tasks[i] for i, j in drawn.before if j == number]
        tasks.append(p.task(f"t{number}", days, who=("ana", "ben")[number % 2], after=before))
    w.require(tasks[-1].start >= 30, under="late")
    return p


@pytest.mark.parametrize("seed", range(3 * TIMES))
def test_a_question_that_is_cut_short_changes_no_answer(wide: str, seed: int) -> None:
    """Cut by its time, or by Ctrl-C, anywhere."""
    pick = random.Random(seed)
    with Workbench(wide) as w, Workbench(wide) as fresh:
        p, end = project(w, 16, seed), project(fresh, 16, seed).end
        wanted = {"kick": fresh.least(end).value}
        fresh.kick("late")
        wanted["bring"] = fresh.least(end).value
        began = time.monotonic()
        assert w.least(p.end).value == wanted["kick"]
        usual = time.monotonic() - began
        for turn in range(6):
            change = ("kick", "bring")[turn % 2]
            (w.kick if change == "kick" else w.bring)("late")
            cut(pick, pick.uniform(0, usual), lambda seconds: w.least(p.end, seconds=seconds))
            best = w.least(p.end)
            assert best.proved and best.value == wanted["bring" if change == "kick" else "kick"]
            assert best.plan is not None and best.plan["end"] == best.value


def cut(pick: random.Random, seconds: float, ask: Callable[[float | None], object]) -> None:
    """Asks, and has that end after so many seconds by its time, or by Ctrl-C."""
    if pick.random() < 0.5:
        ask(seconds)
        return
    timer = threading.Timer(seconds, os.kill, (os.getpid(), signal.SIGINT))
    try:
        timer.start()
        ask(None)
        # (it was answered before)
        timer.join()
        time.sleep(0.1)
    except (Interrupted, KeyboardInterrupt):
        pass
    finally:
        timer.cancel()


@settings(max_examples=30 * TIMES)
@given(model_lines(), st.data())
def test_a_network_that_grows_is_answered_by_what_holds(
    wide: str, lines: list[str], data: st.DataObject
) -> None:
    """Asked again and again while lines come, premises are kicked out and brought in."""
    cells = [line for line in lines if line.split()[0] not in ("tell", "kick", "attach", "choose")]
    others = [line for line in lines if line not in cells]
    with Session(wide) as session:
        model = LineModel(session, cells)
        while others:
            count = data.draw(st.integers(1, 3))
            model.send(*others[:count])
            del others[:count]
            change = data.draw(st.sampled_from(["kick", "bring", ""]))
            names = model.premises()
            if change and names:
                model.send(f"{change} {data.draw(st.sampled_from(names))}")
            asked(model, data)


def asked(model: LineModel, data: st.DataObject) -> None:
    """Asks a question, and holds the answer to all points."""
    plans = list(model.all_plans(model.believed()))
    cell = data.draw(st.sampled_from(model.cells()))
    values = {plan[cell] for plan in plans}
    sort = data.draw(st.sampled_from(["solve", "plans", "least", "greatest"]))
    if sort == "solve":
        try:
            assert dict(model.solve()) in plans
        except NothingFits as none:
            assert not plans and none.premises is not None
            assert not list(model.all_plans(none.premises))
    elif sort == "plans" or model.kinds[cell] != "span":
        found = model.plans([cell])
        assert found.complete and len(found) == len(values)
        assert {plan[cell] for plan in found} == values
        assert {plan[cell] for plan in model.all_plans(found.because)} == values
    else:
        best = model.least(cell) if sort == "least" else model.greatest(cell)
        assert best.proved and best.certificate.check(model.session.program)
        numbers = sorted(int(value) for value in values)
        assert (best.value is None) is not bool(numbers)
        assert not numbers or best.value == numbers[0 if sort == "least" else -1]


# --- the lowest numbers ---


@settings(max_examples=40 * TIMES)
@given(st.randoms(use_true_random=False))
def test_plans_have_the_lowest_numbers(wide: str, pick: random.Random) -> None:
    """Where all that is stated is that a number is no less than others and some more."""
    names, rules = "abcd", list[tuple[str, list[str], int]]()
    for _ in range(pick.randint(1, 5)):
        of, *others = pick.sample(names, pick.randint(2, 3))
        rules.append((of, others, pick.randint(-3, 2)))
    points = [dict(zip(names, values)) for values in product(range(-1, 5), repeat=len(names))]
    there = [
        at
        for at in points
        if all(at[of] >= sum(at[it] for it in others) + more for of, others, more in rules)
    ]
    with Workbench(wide) as w:
        cells = {name: w.number(name, -1, 4) for name in names}
        for of, others, more in rules:
            total = sum((cells[it] for it in others[1:]), cells[others[0]])
            w.require(cells[of] >= total + more)
        if not there:
            with pytest.raises(NothingFits):
                w.solve()
            return
        w.greatest("a")
        lowest = {name: min(at[name] for at in there) for name in names}
        assert lowest in there
        assert dict(w.solve()) == lowest


def test_what_is_taken_of_alternatives_stays(wide: str) -> None:
    with Workbench(wide) as w:
        x, y, z = (w.number(name, 0, 9) for name in "xyz")
        t = w.truth("t")
        w.require((x + 2 <= y) | (y + 2 <= x))
        w.require((z >= x) & (z >= y))
        w.require(~t | (z >= 7))
        w.require(x != 0)
        plan = w.greatest(x).plan
        assert plan is not None and (plan["x"], plan["y"], plan["z"]) == (9, 0, 9)
        plan = w.least(z).plan
        assert plan is not None and (plan["x"], plan["y"], plan["z"]) == (2, 0, 2)
