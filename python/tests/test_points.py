"""Questions for points over propwide: how replies are read, and what sessions make of them, in
slices too. What is expected was worked out by hand, or by going through all points of random
models."""

import time
from collections.abc import Callable

import pytest
from conftest import TIMES
from drawn_models import model_lines
from hypothesis import given, settings
from hypothesis import strategies as st
from lines_model import LineModel
from test_left_at_work import HELD, Holding, held as held
from test_runs import interrupted

from propbench import (
    Best,
    Elements,
    NoneFits,
    NoSuchCell,
    Nothing,
    NotANumberInRange,
    OutOfTime,
    Points,
    Reply,
    Session,
    Several,
    SoFar,
    Span,
    Symbol,
    UnknownCommand,
    Unsettled,
    WrongForm,
    WrongKind,
    seeking,
)
from propbench.questions import Point
from propbench.replies import Blamed, NotAReply, lines_in, reply_of

KINDS = {"x": "span", "plan": "span", "t": "truth", "d": "day", "s": "symbol"}
POINTS = Points(
    {"x": Span(-3, -3), "plan": Span(9, 9), "t": Elements(("yes",)), "s": Nothing()},
    ("venue=1", "because=12"),
)
SAID = "plan 6\nx = -3\nplan = 9\nt = yes\ns = nothing\nvenue=1\nbecause=12"
READ: list[tuple[str, str, Reply]] = [
    ("solve x", SAID, POINTS),
    (
        "least x",
        f"least -3\nbecause because ana\n{SAID}",
        Best("least", -3, ("because", "ana"), POINTS),
    ),
    (
        "greatest x t",
        "greatest 9\nbecause no premise\nplan 0",
        Best("greatest", 9, (), Points({}, ())),
    ),
    ("least x", SAID.replace("plan 6", "plan 6 unsettled"), SoFar(POINTS)),
    (
        "greatest x",
        f"bound 7\nbecause ana\n{SAID.replace('plan 6', 'plan 6 unsettled')}",
        SoFar(POINTS, 7, ("ana",)),
    ),
    ("solve", "none: ana ben", NoneFits(("ana", "ben"))),
    ("plans 3 x", "none: no premise", NoneFits(())),
    ("greatest x", "unsettled", Unsettled()),
    (
        "plans 2 s d",
        "plans 2\ns = because d = mon\ns = x d = tue\nothers none: because",
        Several(
            (
                {"s": Symbol("because"), "d": Elements(("mon",))},
                {"s": Symbol("x"), "d": Elements(("tue",))},
            ),
            ("because",),
        ),
    ),
    ("plans 1 x", "plans 1\nx = 4\nothers unknown", Several(({"x": Span(4, 4)},), None)),
    ("plans 1 x", "plans 0\nothers none: no premise", Several((), ())),
    (
        "conflicts 9",
        "conflicts 2\nunsettled: unsettled ben\nconflict: ana unsettled\nothers unknown",
        Blamed("conflicts", (("unsettled", "ben"), ("ana", "unsettled")), frozenset({0}), False),
    ),
    (
        "conflicts 9",
        "conflicts 1\nconflict: no premise\nothers none",
        Blamed("conflicts", ((),), frozenset(), True),
    ),
    (
        "repairs 1",
        "repairs 1\nrepair: ana\nothers unknown",
        Blamed("repairs", (("ana",),), frozenset(), False),
    ),
]
# Three cells, a sum and a choice: 7 sums, and each with either side.
SUM = "cell x span, cell y span, cell z span, attach sum x y z, tell a x 3..5, tell b y 2..4"
LINES = f"{SUM}, tell c z 6..8, cell u span, choose v u 1 or 2".split(", ")
ROWS = [(3, 3), (3, 4), (4, 2), (4, 3), (4, 4), (5, 2), (5, 3)]


def queue(size: int) -> list[str]:
    """Tasks of three days of which no two share a day: so z, when all are done, is three times as
    much at the least, which takes long to find out where there are many."""
    last = 9 * size
    lines = ["cell long span", "fix long 3", "cell z span", f"fix z 0..{last}"]
    lines += [f"cell s{n} span" for n in range(size)]
    lines += [f"fix s{n} 0..{last}" for n in range(size)]
    lines += [f"attach before s{n} long z" for n in range(size)]
    return lines + [f"attach apart s{n} long s{m} long" for n in range(size) for m in range(n)]


@pytest.mark.parametrize("line, text, wanted", READ)
def test_what_is_found_is_read(line: str, text: str, wanted: Reply) -> None:
    words, lines = line.split(), text.split("\n")
    assert reply_of(words, text, KINDS) == wanted and str(wanted) == text
    begun = lines[:1]
    while lines_in(words[0], begun) > len(begun):
        begun = lines[: lines_in(words[0], begun)]
    assert begun == lines


@pytest.mark.parametrize(
    "line, text",
    [
        ("solve", "settled"),
        ("solve", "ok"),
        ("solve", "plan 2\nx = 3"),
        ("solve", "plan 1 unsettled\nx = 3"),
        ("solve", "plan 1\nnobody = 3"),
        ("solve", "least 3\nbecause a\nplan 0"),
        ("least x", "greatest 3\nbecause a\nplan 0"),
        ("least x", "least 3\nplan 0"),
        ("least x", "least 3\nbecause a"),
        ("least x", "plan 1\nx = 3"),
        ("least x", "bound 3\nbecause a\nplan 1\nx = 3"),
        ("least x", "bound 3\nplan 1 unsettled\nx = 3"),
        ("solve", "bound 3\nbecause a\nplan 1 unsettled\nx = 3"),
        ("plans 1 x", "plans 1\nx = 3"),
        ("plans 1 x", "plans 1\nt = yes\nothers unknown"),
        ("plans 1 x", "plans 2\nx = 3\nothers unknown"),
        ("plans 1 x", "plans 1\nx = \nothers unknown"),
        ("ask x", "none: ana"),
        ("conflicts 3", "conflicts 1\nconflict: ana"),
        ("conflicts 3", "conflicts 2\nconflict: ana\nothers none"),
        ("conflicts 3", "conflicts 1\nrepair: ana\nothers none"),
        ("repairs 3", "repairs 1\nunsettled: ana\nothers none"),
        ("repairs 3", "unsettled"),
    ],
)
def test_what_is_no_reply_is_not_read(line: str, text: str) -> None:
    with pytest.raises(NotAReply):
        reply_of(line.split(), text, KINDS)


def test_a_program_that_does_not_search_says_so(program: str) -> None:
    with Session(program) as session:
        session.send_all(LINES)
        assert session.tells == () and not session.seeks
        asks: list[Callable[[], object]] = [session.solve, lambda: session.least("x")]
        asks.append(lambda: session.plans(2, "x"))
        for ask in asks:
            with pytest.raises(UnknownCommand, match="needs propwide: this program doesn't tell"):
                ask()
        assert session.lines == LINES


# --- over propwide ---


def test_each_question(wide: str) -> None:
    with Session(wide) as session:
        session.send_all(LINES)
        told = ("solve", "least", "greatest", "plans", "conflicts", "repairs", "require")
        assert session.seeks and session.tells[3:] == told
        found = session.solve()
        assert isinstance(found, Points) and found.sides in (("v=1",), ("v=2",))
        x, y, z, u = (str(found.values[cell]) for cell in "xyzu")
        assert (int(x), int(y)) in ROWS and int(x) + int(y) == int(z) and found.sides == (f"v={u}",)
        least, most = session.least("z"), session.greatest("z", "x", "y")
        assert isinstance(least, Best) and (least.value, least.because) == (6, ("c",))
        assert isinstance(most, Best) and (most.value, most.because) == (8, ("c",))
        assert str(least.points.values["z"]) == "6" and least.end == "least"
        session.send("tell d z 90")
        assert (
            session.solve() == session.least("x") == session.plans(3, "x") == NoneFits(("c", "d"))
        )
        conflicts, repairs = session.send("conflicts 9"), session.send("repairs 9")
        assert isinstance(conflicts, Blamed) and isinstance(repairs, Blamed)
        assert sorted(conflicts.sets) == [("a", "b", "d"), ("c", "d")] and not conflicts.unsettled
        assert sorted(repairs.sets) == [("a", "c"), ("b", "c"), ("d",)]
        assert conflicts.is_all and repairs.is_all


def test_minimal_sets(wide: str) -> None:
    with Session(wide) as session:
        if not session.blames:
            pytest.skip("the program doesn't search for conflicts")
        session.send_all([*LINES, "tell d z 90"])
        conflicts, repairs = session.send("conflicts 9"), session.send("repairs 9")
        assert isinstance(conflicts, Blamed) and isinstance(repairs, Blamed)
        assert sorted(conflicts.sets) == [("a", "b", "d"), ("c", "d")] and not conflicts.unsettled
        assert sorted(repairs.sets) == [("a", "c"), ("b", "c"), ("d",)]
        assert conflicts.is_all and repairs.is_all


def test_plans_go_on_at_once_and_begin_anew_later(wide: str) -> None:
    with Session(wide) as session:
        session.send_all(LINES)

        def rows(count: int) -> list[tuple[int, ...]]:
            found = session.plans(count, "x", "y")
            assert isinstance(found, Several)
            return [tuple(int(str(held)) for held in row.values()) for row in found.rows]

        assert sorted(rows(3) + rows(3) + rows(3)) == ROWS
        assert session.plans(3, "x", "y") == Several((), ("a", "b", "c"))
        session.send("ask x")
        some = rows(3)
        # (by the lines it begins anew too)
        assert len(some) == 3 and "limit 1000000000" in session.lines[-3:]
        assert sorted(some + rows(9)) == ROWS
        # (a program that is given the lines answers the same)
        lines = session.lines
        assert [str(reply) for reply in session.replay()] == [
            str(reply) for reply in Session(wide).send_all(lines)
        ]
        assert rows(1) == some[:1]


def test_what_is_refused(wide: str) -> None:
    with Session(wide) as session:
        session.send_all([*LINES, "cell t truth"])
        with pytest.raises(NoSuchCell, match="Did you mean"):
            session.solve("xx")
        with pytest.raises(WrongKind):
            session.least("t")
        with pytest.raises(NotANumberInRange, match="whole number from 1 to 1,000,000,000"):
            session.plans(0, "x")
        with pytest.raises(WrongForm, match="written `plans N X ..`"):
            session.plans(1)
        assert session.lines == [*LINES, "cell t truth"]


def test_many_lines_at_once(wide: str) -> None:
    asked = ["least z", "solve", "plans 2 x", "least z", "plans 9 u", "ask x"]
    with Session(wide) as session, Session(wide) as other:
        replies = session.send_all([*LINES, *asked])[len(LINES) :]
        assert [type(reply).__name__ for reply in replies] == [
            "Best",
            "Points",
            "Several",
            "Best",
            "Several",
            "Value",
        ]
        other.send_all(LINES)
        assert [str(other.send(line)) for line in asked] == list(map(str, replies))


@pytest.mark.parametrize("steps", [1, 2, 7, 50])
def test_slices_tell_the_same(wide: str, steps: int, monkeypatch: pytest.MonkeyPatch) -> None:
    """(Each question in a session of its own: what one learned has others find plans elsewhere.)"""
    told: list[int] = []
    for line in ["solve", "least z", "greatest x y", "plans 4 x y", "plans 9 x y", "plans 3 u x"]:
        with Session(wide) as whole, Session(wide) as session:
            wanted = whole.send_all([*LINES, line])[-1]
            session.send_all(LINES)
            with monkeypatch.context() as patch:
                patch.setattr(seeking, "_STEPS", steps)
                said = session.send(line, progress=lambda n, reply: told.append(n))
            assert str(said) == str(wanted)
            lines = [line for line in session.lines if line[:5] != "limit"]
            assert lines == [*LINES, line] and session.limit == 10**9
    assert told and all(n % told[0] == 0 for n in told)


@settings(max_examples=20 * TIMES)
@given(model_lines(), st.sampled_from([3, 20, 100_000]), st.data())
def test_random_models(wide: str, lines: list[str], steps: int, data: st.DataObject) -> None:
    """All that is told of random models is so of all of their points."""
    with Session(wide) as session, pytest.MonkeyPatch.context() as patch:
        patch.setattr(seeking, "_STEPS", steps)
        model = LineModel(session, lines)
        plans = list(model.all_plans(model.believed()))
        numbers = [cell for cell, kind in model.kinds.items() if kind == "span"]
        cell = data.draw(st.sampled_from(numbers))
        show = data.draw(st.lists(st.sampled_from(model.cells()), min_size=1, unique=True))
        found, least = session.solve(*show), session.least(cell)
        several = session.plans(10**6, *show)
        if not plans:
            for reply in (found, least, several):
                assert isinstance(reply, NoneFits)
                assert not list(model.all_plans(reply.premises))
            return
        assert isinstance(found, Points) and point_of(model, found) in plans
        assert isinstance(least, Best) and point_of(model, least.points) in plans
        assert least.value == min(plan[cell] for plan in plans)
        assert all(int(plan[cell]) >= least.value for plan in model.all_plans(least.because))
        assert isinstance(several, Several) and several.others is not None
        wanted = {tuple(str(model.literal(each, plan[each])) for each in show) for plan in plans}
        rows = [tuple(map(str, row.values())) for row in several.rows]
        assert set(rows) == wanted and len(rows) == len(wanted)
        others = model.all_plans(several.others)
        assert all(
            tuple(str(model.literal(each, plan[each])) for each in show) in wanted
            for plan in others
        )


def point_of(model: LineModel, points: Points) -> dict[str, Point]:
    return {cell: model.point(cell, str(held)) for cell, held in points.values.items()}


def test_a_limit_is_the_most_steps(wide: str) -> None:
    with Session(wide, limit=10) as session:
        session.send_all(queue(4))
        assert isinstance(session.solve(), Unsettled)
        assert session.lines[-3:] == ["limit 10", "solve", "limit 10"]
        # (asked again at once it goes on)
        assert any(isinstance(session.solve(), Points) for _ in range(1000))
        # (under another limit too, but what is asked first)
        session.send("limit 0")
        assert isinstance(session.solve(), Points)
        assert isinstance(session.least("z"), Unsettled)
        session.send("limit 1000000")
        best = session.least("z")
        assert isinstance(best, Best) and best.value == 12


def test_seconds_end_a_question_and_it_goes_on(wide: str) -> None:
    with Session(wide) as session:
        session.send_all(queue(12))
        begun = time.monotonic()
        best = session.least("z", seconds=0.3)
        assert time.monotonic() - begun < 5
        assert isinstance(best, SoFar) and 36 <= int(str(best.points.values["z"])) <= 108
        assert session.limit == 10**9 and session.lines[-2] == "least z"
        taken = int(session.lines[-3].split()[1])
        assert taken > 0 and taken % seeking._STEPS == 0
        told: list[int] = []
        again = session.least("z", seconds=0.3, progress=lambda steps, reply: told.append(steps))
        assert isinstance(again, SoFar) and told
        assert str(session.send("ask z")) == "z = 3..108"


def test_ctrl_c_ends_a_question(wide: str) -> None:
    with Session(wide) as session:
        session.send_all(queue(12))
        number = session.pid
        with interrupted(0.5):
            session.least("z")
        assert session.pid == number and "least z" in session.lines[-2:]
        assert str(session.send("ask z")) == "z = 3..108"
        assert isinstance(session.solve(seconds=60), Points)


def test_plans_that_nobody_was_told_of_come_again(
    wide: str, monkeypatch: pytest.MonkeyPatch
) -> None:
    """Ctrl-C comes between slices, of which some had plans."""
    monkeypatch.setattr(seeking, "_STEPS", 5)
    with Session(wide) as session:
        session.send_all(LINES)

        def stop(steps: int, reply: Reply) -> None:
            if isinstance(reply, Several) and len(reply.rows) > 1:
                raise KeyboardInterrupt

        with pytest.raises(KeyboardInterrupt):
            session.plans(7, "x", "y", progress=stop)
        found = session.plans(9, "x", "y")
        assert isinstance(found, Several) and len(found.rows) == 7


def test_what_is_left_at_work_is_gone_on_with(
    held: Holding, wide: str, monkeypatch: pytest.MonkeyPatch
) -> None:
    """The time is over while the program is at work: the next use of the session waits for that."""
    monkeypatch.setenv("HELD_OF", wide)
    with Session(HELD) as session:
        session.send_all(LINES)
        held.hold("least plans")
        asks: list[Callable[[], object]] = [lambda: session.least("z", seconds=0.2)]
        asks.append(lambda: session.plans(2, "x", seconds=0))
        for ask in asks:
            pid, before = session.pid, session.lines
            with pytest.raises(OutOfTime, match="still at work"):
                ask()
            held.let_go()
            found = session.plans(9, "x")
            assert isinstance(found, Several) and len(found.rows) == 3
            assert session.pid == pid and session.lines[: len(before)] == before
            held.hold("least plans")
        held.let_go()
        best = session.least("z")
        assert isinstance(best, Best) and best.value == 6
