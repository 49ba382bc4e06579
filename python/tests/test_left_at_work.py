"""A program that is at work when the time of a question is over is left at that: the question comes
back in time, and nothing that was done is lost.

The program is held here as long as a file is there, so nothing hangs on how fast a machine is.
"""

import os
import random
import signal
import threading
import time
from collections.abc import Callable, Iterator
from contextlib import contextmanager, suppress
from pathlib import Path

import pytest
from conftest import ENDLESS, TIMES
from moments import at, by_exception, by_signal

from propbench import OutOfTime, ProgramEnded, Refused, Reply, Session, runs
from propbench import session as sessions
from propbench.overview import overview
from propbench.program import StillAtWork

HELD = Path(__file__).with_name("held_program.py")
RUNS = "ask why core settle worldview nogoods"
# How long a call may take behind its `seconds`: a second, and more where the machine is busy with
# other things.
LATE = 4.0
# A statement that changes nothing.
SAID = "tell a one 1"
# A chain of sums: what follows for the last cell takes more steps than a slice has.
LENGTH = 5000
CHAIN = ["cell one span", "fix one 1", "cell c0 span"]
CHAIN += [
    line
    for i in range(LENGTH)
    for line in (f"cell c{i + 1} span", f"attach adder c{i} one c{i + 1}")
]
CHAIN += ["tell a c0 0..5", "tell b c0 3..9", "tell d c0 3..9"]


class Holding:
    """A session over a program that can be held."""

    def __init__(self, held: Session, path: Path) -> None:
        self.session, self._path = held, path
        self.pid = held.pid

    def hold(self, commands: str = RUNS) -> None:
        """From now on lines of these commands are held."""
        # (at once, since the program looks at the file again and again)
        beside = self._path.with_suffix(".new")
        beside.write_text(commands)
        beside.replace(self._path)

    def let_go(self) -> None:
        """No line is held any more."""
        self._path.unlink(missing_ok=True)

    def holding(self, steps: int, reply: Reply) -> None:
        """What to tell of a run, which is held from its second slice on."""
        self.hold()

    @property
    def is_same(self) -> bool:
        """Whether it is the program that was begun, and nothing was replayed."""
        return self.session.pid == self.pid


@pytest.fixture
def held(program: str, tmp_path: Path, monkeypatch: pytest.MonkeyPatch) -> Iterator[Holding]:
    path = tmp_path / "held"
    monkeypatch.setenv("HELD_OF", program)
    monkeypatch.setenv("HELD_BY", str(path))
    with Session(HELD) as made:
        yield Holding(made, path)
        path.unlink(missing_ok=True)


@contextmanager
def within(seconds: float) -> Iterator[None]:
    """The block takes so many seconds, and LATE more at the most."""
    begun = time.monotonic()
    yield
    taken = time.monotonic() - begun
    assert taken < seconds + LATE, taken


def low_of(reply: object) -> int:
    return int(str(reply).split()[2].partition("..")[0])


def same_by_lines(asked: Session, program: str, question: str) -> bool:
    """Whether a session that is given the lines knows the same."""
    known = asked.look([question])
    with Session(program) as other:
        other.replay(asked.lines)
        return other.look([question]) == known


# --- one question ---


@pytest.mark.parametrize("line", ["ask x", "why x", "core x", "settle"])
def test_what_was_known_is_the_answer_and_the_slice_is_taken_in(
    held: Holding, program: str, line: str
) -> None:
    session = held.session
    session.send_all(ENDLESS)
    with within(0.3):
        reply = session.send(line, seconds=0.3, progress=held.holding)
    assert "unsettled" in str(reply)
    begun = session.lines
    asked = "why x" if line == "core x" else line
    assert begun == [*ENDLESS, "limit 2000", asked, f"limit {10**9}"]
    held.let_go()
    assert low_of(session.send("ask x", seconds=0)) > 2000
    assert held.is_same
    # (the slice that was left, and the one of the last question)
    took = session.lines[len(begun) :]
    assert took[1] == asked and took[3:5] == ["limit 2000", "ask x"] and len(took) == 6
    [known] = session.look(["ask x"])
    assert low_of(known) == 4000 + int(took[0].split()[1])
    assert same_by_lines(session, program, "ask x")


def test_where_nothing_is_known_it_is_told_that_the_program_is_at_work(held: Holding) -> None:
    session = held.session
    session.send_all(ENDLESS)
    held.hold()
    for line in ("ask x", "why x", "settle", "core x"):
        with within(0.2), pytest.raises(OutOfTime, match="still at work, and the next use of the"):
            session.send(line, seconds=0.2)
    assert session.lines == ENDLESS
    held.let_go()
    assert str(session.send("kick start")) == "ok" and held.is_same
    assert session.lines == [*ENDLESS, "limit 2000", "ask x", f"limit {10**9}", "kick start"]


def test_a_limit_that_is_late_is_taken_in(held: Holding, program: str) -> None:
    session = held.session
    session.send_all(ENDLESS)
    with within(0.2):
        reply = session.send("ask x", seconds=0.2, progress=lambda *_: held.hold("limit"))
    low = low_of(reply)
    assert session.lines == [*ENDLESS, f"limit {low}", "ask x", f"limit {10**9}"]
    assert session.limit == 10**9
    held.let_go()
    assert low_of(session.send("ask x", seconds=0)) == low + 2000 and held.is_same
    assert session.limit == 10**9 and same_by_lines(session, program, "ask x")


def test_what_is_refused_late_adds_nothing(held: Holding) -> None:
    session = held.session
    session.send_all(ENDLESS)
    held.hold()
    with pytest.raises(OutOfTime):
        session.send("ask nobody", seconds=0)
    held.let_go()
    assert str(session.send(SAID)) == "ok" and held.is_same
    assert session.lines == [*ENDLESS, SAID]


def test_a_statement_that_is_late_is_not_carried_out(held: Holding) -> None:
    """Who is told that may send it again."""
    session = held.session
    session.send_all(ENDLESS)
    held.hold("cell")
    with within(0.2), pytest.raises(OutOfTime, match="was ended"):
        session.send("cell y span", seconds=0.2)
    held.let_go()
    assert str(session.send("cell y span")) == "ok"
    assert session.lines == [*ENDLESS, "cell y span"]


def test_a_run_goes_on_by_many_short_questions(held: Holding, program: str) -> None:
    """Each finds the program at work, and none loses what was done."""
    session = held.session
    session.send_all(ENDLESS)
    lows = []
    for _ in range(4):
        held.let_go()
        lows.append(low_of(session.send("ask x", seconds=0.1, progress=held.holding)))
    assert held.is_same and lows == sorted(set(lows))
    held.let_go()
    assert same_by_lines(session, program, "ask x") and held.is_same


# --- a core ---


def test_a_core_whose_run_is_left_at_work(held: Holding, program: str) -> None:
    session = held.session
    session.send_all(CHAIN)
    last = f"c{LENGTH}"
    with within(0.3):
        reply = session.send(f"core {last}", seconds=0.3, progress=held.holding)
    assert "unsettled" in str(reply)
    held.let_go()
    reply = session.send(f"core {last}")
    assert str(reply) == f"{last} = {3 + LENGTH}..{5 + LENGTH} because a b" and held.is_same
    assert same_by_lines(session, program, f"why {last}")


@pytest.mark.parametrize("is_first", [True, False])
def test_the_tries_of_a_core_are_left_at_work(held: Holding, program: str, is_first: bool) -> None:
    """What was done before is among the lines."""
    session = held.session
    session.send_all(CHAIN[: 3 + 2 * 30] + CHAIN[-3:])
    assert str(session.send("settle")) == "settled"
    before = session.lines
    session._runner.steps = 20
    if is_first:
        held.hold("core")
    with within(0.3):
        reply = session.send("core c30", seconds=0.3, progress=None if is_first else held.holding)
    assert str(reply) == "c30 = 33..35 not reduced because a b"
    assert session.lines[len(before) :][:1] == ["why c30"]
    held.let_go()
    session._runner.steps = 100_000
    assert str(session.send("core c30")) == "c30 = 33..35 because a b" and held.is_same
    lines = session.lines[len(before) :]
    assert same_by_lines(session, program, "why c30")
    assert lines[:4] == ["why c30", "limit 20", "core c30", f"limit {10**9}"]
    assert lines[-1] == "core c30" and len(lines) == (5 if is_first else 8)


# --- the next use ---


def owing(held: Holding) -> Session:
    """The session, which is owed a slice behind another that was owed."""
    held.session.send_all(ENDLESS)
    held.hold()
    with pytest.raises(StillAtWork):
        held.session.send("why x", seconds=0)
    held.let_go()
    held.session.send("ask x", seconds=0, progress=held.holding)
    with pytest.raises(StillAtWork):
        held.session.send("settle", seconds=0)
    return held.session


USES: dict[str, Callable[[Session], object]] = {
    "send": lambda session: session.send("ask x", seconds=0),
    "a statement": lambda session: session.send(SAID),
    "send_all": lambda session: session.send_all([SAID, SAID]),
    "look": lambda session: session.look(["ask one"]),
}


@pytest.mark.parametrize("name", USES)
def test_each_use_takes_it_in(held: Holding, program: str, name: str) -> None:
    session = owing(held)
    before = session.lines
    held.let_go()
    USES[name](session)
    assert session.lines[len(before) :][:3] == ["limit 2000", "settle", f"limit {10**9}"]
    assert held.is_same and same_by_lines(session, program, "ask x")


def test_names_and_the_limit_are_known_at_once(held: Holding) -> None:
    session = owing(held)
    with within(0):
        assert list(session.known.cells) == ["x", "one"] and session.limit == 10**9
    assert held.is_same


def test_a_use_whose_time_is_too_short_leaves_it_owed(held: Holding) -> None:
    session = owing(held)
    before = session.lines
    for line in ("ask x", "settle", SAID):
        with within(0.2), pytest.raises(OutOfTime, match="still at work"):
            session.send(line, seconds=0.2)
    assert session.lines == before and held.is_same
    held.let_go()
    assert low_of(session.look(["ask x"])[0]) == 2000 * 3 and held.is_same


def test_a_use_without_time_waits_for_so_long(
    held: Holding, monkeypatch: pytest.MonkeyPatch
) -> None:
    """Then the program is begun anew with what is known."""
    monkeypatch.setattr(sessions, "PATIENCE", 0.5)
    asked = owing(held)
    before = asked.lines
    held.hold("settle")
    assert low_of(asked.look(["ask x"])[0]) == 2000 * 2
    assert asked.lines[: len(before)] == before and not held.is_same


def test_a_program_that_hangs_over_it_is_ended(held: Holding) -> None:
    asked = owing(held)
    before = asked.lines
    os.kill(held.pid, signal.SIGSTOP)
    with within(0.2), pytest.raises(OutOfTime, match="was ended"):
        asked.send("ask x", seconds=0.2)
    held.let_go()
    assert str(asked.send(SAID)) == "ok" and asked.lines == [*before, SAID]
    held.hold()
    with pytest.raises(StillAtWork):
        asked.send("settle", seconds=0)
    os.kill(asked.pid, signal.SIGSTOP)
    held.let_go()
    # (soon, where it has no time of its own: it might wait for another process)
    with within(sessions._GRACE):
        assert str(asked.send(SAID)) == "ok"


@pytest.mark.parametrize("use", ["send", "look", "noticed"])
def test_a_program_that_dies_over_it_is_begun_anew(held: Holding, use: str) -> None:
    asked = owing(held)
    before = asked.lines
    os.kill(held.pid, signal.SIGKILL)
    held.let_go()
    if use == "noticed":
        for _ in range(20):
            asked.fresh().close()
    if use == "look":
        assert str(asked.look(["ask one"])[0]) == "one = 1 unsettled"
        assert asked.lines[: len(before)] == before
    else:
        assert str(asked.send(SAID)) == "ok" and asked.lines == [*before, SAID]
    assert low_of(asked.look(["ask x"])[0]) == 2000 * 2


def test_many_lines_have_their_time(held: Holding) -> None:
    """Nothing is sent where it is over, or the program at work yet."""
    asked = owing(held)
    before = asked.lines
    for late in (-1.0, 0.2):
        uses: list[Callable[..., object]] = [asked.look, asked.send_all]
        for use in uses:
            with within(0.2), pytest.raises(OutOfTime):
                use(["ask x"], until=time.monotonic() + late)
    assert asked.lines == before and held.is_same
    held.let_go()
    assert str(asked.send_all([SAID], until=time.monotonic() + 60)[0]) == "ok"
    with pytest.raises(OutOfTime, match="no time"):
        asked.send_all([SAID], until=time.monotonic())
    assert held.is_same
    held.hold("cell")
    with within(0.2), pytest.raises(OutOfTime, match="was ended"):
        asked.send_all([SAID, "cell y span"], until=time.monotonic() + 0.2)
    held.let_go()
    assert "cell y span" not in asked.lines
    assert isinstance(asked.look(["ask y"], until=time.monotonic() + 60)[0], Refused)


def test_closing_does_not_wait(held: Holding) -> None:
    asked = owing(held)
    with within(0):
        asked.close()
    with pytest.raises(RuntimeError, match="closed"):
        asked.send("ask x")
    with pytest.raises(RuntimeError, match="closed"):
        asked.limit


def test_closing_ends_a_call_that_waits_for_it(held: Holding) -> None:
    asked = owing(held)
    closing = threading.Timer(0.3, asked.close)
    closing.start()
    with within(0.3), pytest.raises(ProgramEnded):
        asked.send("ask x")
    closing.join()


def test_beginning_anew_does_not_wait(held: Holding) -> None:
    asked = owing(held)
    with within(0):
        assert len(asked.replay(ENDLESS)) == len(ENDLESS)
    held.let_go()
    assert asked.lines == ENDLESS and low_of(asked.look(["ask x"])[0]) == 0


def test_dropped_lines_stay_dropped(held: Holding) -> None:
    asked = owing(held)
    asked.drop_lines()
    held.let_go()
    assert str(asked.send(SAID)) == "ok" and held.is_same
    assert asked.lines == ["limit 2000", "settle", f"limit {10**9}", SAID]


def test_a_session_that_ends_by_a_time_ends_its_program(held: Holding) -> None:
    held.session.send_all(ENDLESS)
    held.hold()
    held.session.end_by(time.monotonic() + 0.2)
    with within(0.2), pytest.raises(OutOfTime, match="was ended"):
        held.session.send("ask x", seconds=60)


def test_an_overview_counts_the_steps_of_what_was_left(held: Holding, program: str) -> None:
    held.session.send_all(ENDLESS)

    def progress(steps: int, reply: Reply) -> None:
        held.hold()
        released.start()

    released = threading.Timer(1.5, held.let_go)
    shown = overview(held.session, 0.2, progress)
    assert held.is_same and shown.steps == low_of(shown.values[0])
    assert not shown.settled


# --- Ctrl-C ---


def test_ctrl_c_while_it_is_waited_for(held: Holding) -> None:
    """The program is begun anew with the lines."""
    asked = owing(held)
    before = asked.lines

    def interrupt(number: int, frame: object) -> None:
        raise KeyboardInterrupt

    was = signal.signal(signal.SIGALRM, interrupt)
    try:
        signal.setitimer(signal.ITIMER_REAL, 0.3)
        with pytest.raises(KeyboardInterrupt):
            asked.send(SAID)
    finally:
        signal.setitimer(signal.ITIMER_REAL, 0)
        signal.signal(signal.SIGALRM, was)
    assert asked.lines == before
    held.let_go()
    assert low_of(asked.look(["ask x"])[0]) == 2000 * 2 and asked.lines[: len(before)] == before


@pytest.mark.parametrize("happens", [by_signal, by_exception])
def test_a_call_over_what_is_owed_that_is_cut_short_loses_nothing(
    held: Holding, program: str, happens: Callable[[], None], monkeypatch: pytest.MonkeyPatch
) -> None:
    """What is known then is what a session knows that is given the lines, and no less."""
    monkeypatch.setattr(runs, "LATE", 0.3)
    chance = random.Random(happens.__name__)
    calls: list[Callable[[Session], object]] = [
        *USES.values(),
        lambda session: session.known,
        lambda session: session.replay(),
    ]

    def begun() -> None:
        held.session.replay([*ENDLESS, "limit 2000", "ask x", f"limit {10**9}"])
        held.hold()
        with pytest.raises(OutOfTime):
            held.session.send("settle", seconds=0)

    with Session(program) as other:
        for _ in range(25 * TIMES):
            begun()
            call, low = chance.choice(calls), 2000
            # (a call within which it comes, and one within which it doesn't)
            if chance.random() < 0.7:
                held.let_go()
            with at(chance.randrange(1, 400), happens) as moment, suppress(KeyboardInterrupt):
                with suppress(OutOfTime):
                    call(held.session)
            held.let_go()
            [known] = held.session.look(["ask x"])
            other.replay(held.session.lines)
            assert other.look(["ask x"]) == [known], moment.where
            assert low_of(known) >= low and held.session.limit == 10**9
