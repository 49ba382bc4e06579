"""Ctrl-C at seeded moments of a call: the session goes on with what was carried out, and nothing is
raised but the interrupt.

A moment is an instruction of the package that is about to be executed within the call, or a time by
the clock, at which the kernel sends a signal. More than 10,000 are tried by `PROPBENCH_TESTS=8`.
"""

import faulthandler
import gc
import os
import random
import signal
import threading
import time
from collections.abc import Callable, Iterator
from contextlib import suppress
from types import FrameType

import pytest
from conftest import TIMES
from moments import at, by_exception, by_signal

from propbench import Refused, Session, runs
from propbench.conversation import Conversation
from propbench.program import Program

FIRST = [
    "cell x span",
    "cell y span",
    "cell z span",
    "attach sum x y z",
    "tell morning x 3..5",
    "choose pace y 10 or 11",
    "tell wrong z 14",
    "kick wrong",
]
# What is answered in the end, whatever was cut short. (z is 3..5 more than 10, the first pace.)
KNOWN = {"why x": "x = 3..5 because morning", "ask z": "z = 13..15", "settle": "settled"}
# A run without an end, which is cut at a limit of so many steps.
ENDLESS = ["cell u span", "cell one span", "fix one 1", "attach adder u one u", "limit 40"]
ENDLESS += ["tell start u 0..1000000000000000000"]
MANY = ["cell v span", "ask x", "# a note", "ask nobody", "tell late v 7", "why v", "worldview"]
LOOKED = ["ask x", "settle", "worldview"]
CARRIED = [line for line in MANY if line not in ("# a note", "ask nobody")]

Call = Callable[[Session], object]


def begin(session: Session) -> None:
    """Begins and ends another session."""
    with session.fresh() as other:
        other.send("cell a span")


def kill(session: Session) -> None:
    """Ends the program, as a run that is given up does."""
    session._talk.in_step = False
    session._talk.program.kill()


# Calls, and the lines that each may add to those that were carried out.
CALLS: dict[str, tuple[Call, list[str]]] = {
    "ask": (lambda session: session.send("ask z"), ["ask z"]),
    "watched": (lambda session: session.send("why z", seconds=60), ["why z"]),
    "core": (lambda session: session.send("core x"), ["core x"]),
    "worldview": (lambda session: session.send("worldview"), ["worldview"]),
    "nogoods": (lambda session: session.send("nogoods"), ["nogoods"]),
    "tell": (lambda session: session.send("tell morning x 3..5"), ["tell morning x 3..5"]),
    "refused": (lambda session: session.send("ask nobody"), []),
    "send_all": (lambda session: session.send_all(MANY, keep_refused=True), CARRIED),
    "look": (lambda session: session.look(LOOKED), ["limit 0", *LOOKED, f"limit {10**9}"]),
    "replay": (lambda session: session.replay(), []),
    "begin": (begin, []),
    "kill": (kill, []),
}


@pytest.fixture(autouse=True)
def no_hang() -> Iterator[None]:
    """Ends the tests where one hangs, and tells where that is."""
    faulthandler.dump_traceback_later(300 * TIMES, exit=True)
    yield
    faulthandler.cancel_dump_traceback_later()


def descriptors() -> int:
    return len(os.listdir("/proc/self/fd"))


def children() -> set[int]:
    """The numbers of the processes that this one has started, those that ended among them."""
    found: set[int] = set()
    for thread in os.listdir("/proc/self/task"):
        with open(f"/proc/self/task/{thread}/children") as numbers:
            found |= set(map(int, numbers.read().split()))
    return found


def cut(session: Session, call: Call, number: int, happens: Callable[[], None]) -> tuple[int, str]:
    """Makes a call of which the n-th step is cut, and gives how many of it were seen, and where it
    was cut. Nothing else may be raised."""
    with at(number, happens) as moment:
        try:
            with suppress(Refused):
                call(session)
        except KeyboardInterrupt:
            assert moment.where
    return moment.seen, moment.where


def checked(session: Session, before: list[str], adds: list[str], where: str) -> None:
    """Sees to it that nothing is lost, and the session answers."""
    begun = session.lines
    adds = [line for line in adds if line not in before or not line.startswith("cell")]
    assert begun[: len(before)] == before, where
    added = begun[len(before) :]
    if where.startswith("send_all"):
        assert added == adds[: len(added)], where
    else:
        # (the run before the tries of a core is that of a `why`)
        assert added in ([], adds) or (added, adds) == (["why x"], ["core x"]), where
    for line, reply in KNOWN.items():
        assert str(session.send(line)) == reply, where
    assert session.lines == [*begun, *KNOWN], where
    assert signal.getsignal(signal.SIGINT) is signal.default_int_handler, where
    assert gc.isenabled(), where


@pytest.mark.parametrize("happens, moments", [(by_signal, 1000), (by_exception, 300)])
def test_a_call_that_is_cut_short_loses_nothing(
    program: str, happens: Callable[[], None], moments: int
) -> None:
    chance = random.Random(happens.__name__)
    longest: dict[str, int] = {}
    gc.collect()
    own = children()
    with Session(program) as session:
        session.send_all(FIRST)
        for name, (call, _) in CALLS.items():
            longest[name], _ = cut(session, call, 0, happens)
            session.replay(FIRST)
        opened = descriptors()
        for _ in range(moments * TIMES):
            name = chance.choice(list(CALLS))
            call, adds = CALLS[name]
            number = chance.randrange(1, longest[name] + 10)
            before = session.lines
            _, where = cut(session, call, number, happens)
            checked(session, before, adds, f"{name} {where}")
            if len(session.lines) > 100:
                session.replay(FIRST)
        gc.collect()
        # (where a signal is held back)
        if happens is by_signal:
            assert descriptors() <= opened and children() - own == {session.pid}


def test_signals_of_the_kernel_lose_nothing(program: str) -> None:
    """They come at some time by the clock, within an instruction too, and by another signal than
    Ctrl-C's that interrupts."""

    def interrupt(number: int, frame: FrameType | None) -> None:
        raise KeyboardInterrupt

    chance = random.Random("kernel")
    moments, cuts = 500 * TIMES, 0
    gc.collect()
    own = children()
    before = signal.signal(signal.SIGALRM, interrupt)
    try:
        with Session(program) as session:
            session.send_all(FIRST)
            taken = {name: seconds_of(session, call) for name, (call, _) in CALLS.items()}
            session.replay(FIRST)
            for _ in range(moments):
                name = chance.choice(list(CALLS))
                call, adds = CALLS[name]
                known = session.lines
                try:
                    signal.setitimer(signal.ITIMER_REAL, chance.uniform(1e-6, taken[name]))
                    with suppress(Refused):
                        call(session)
                    signal.setitimer(signal.ITIMER_REAL, 0)
                except KeyboardInterrupt:
                    cuts += 1
                checked(session, known, adds, name)
                if len(session.lines) > 100:
                    session.replay(FIRST)
            gc.collect()
            assert children() - own == {session.pid}
    finally:
        signal.setitimer(signal.ITIMER_REAL, 0)
        signal.signal(signal.SIGALRM, before)
    assert cuts > moments / 4


def seconds_of(session: Session, call: Call) -> float:
    """How long a call takes, of three the middle."""
    taken = []
    for _ in range(3):
        begun = time.perf_counter()
        with suppress(Refused):
            call(session)
        taken.append(time.perf_counter() - begun)
    return sorted(taken)[1]


@pytest.mark.parametrize("happens", [by_signal, by_exception])
def test_a_long_run_that_is_cut_short_is_what_its_lines_say(
    program: str, happens: Callable[[], None], monkeypatch: pytest.MonkeyPatch
) -> None:
    """Slices of seven steps, of which some are done: what is known then is what a session knows
    that is given the lines, no less than before, and what is asked next goes on from there."""
    monkeypatch.setattr(runs, "_STEPS", 7)
    monkeypatch.setattr(runs, "_MOST_STEPS", 7)
    monkeypatch.setattr(runs, "_GRACE", 0.1)
    chance = random.Random(happens.__name__)
    calls: list[Call] = [
        lambda session: session.send("why u"),
        lambda session: session.send("settle", seconds=60),
        lambda session: session.send("core u", progress=lambda steps, reply: None),
        lambda session: session.send_all(["ask u", "limit 40", "worldview"]),
        lambda session: session.replay(),
    ]
    with Session(program) as session, Session(program) as other:
        session.send_all(ENDLESS)
        longest = [cut(session, call, 0, happens)[0] for call in calls]
        for _ in range(40 * TIMES):
            session.replay(ENDLESS)
            for _ in range(2):
                place = chance.randrange(len(calls))
                _, where = cut(session, calls[place], chance.randrange(1, longest[place]), happens)
            [known] = session.look(["ask u"])
            other.replay(session.lines)
            assert other.look(["ask u"]) == [known], where
            assert session.limit == 40
            low = int(str(known).split()[2].partition("..")[0])
            assert str(session.send("ask u")).split()[2].partition("..")[0] == str(low + 40), where


def test_a_run_that_is_cut_short_between_two_slices_is_what_its_lines_say(
    program: str, monkeypatch: pytest.MonkeyPatch
) -> None:
    """Just behind the limit of its last slice, of five steps, as the others have seven."""
    monkeypatch.setattr(runs, "_STEPS", 7)
    monkeypatch.setattr(runs, "_MOST_STEPS", 7)
    set_limit = Conversation.set_limit

    def is_cut_short(talk: Conversation, steps: int) -> None:
        set_limit(talk, steps)
        if steps == 5:
            raise KeyboardInterrupt

    with Session(program) as session, Session(program) as other:
        session.send_all(ENDLESS)
        with monkeypatch.context() as patch:
            patch.setattr(Conversation, "set_limit", is_cut_short)
            with pytest.raises(KeyboardInterrupt):
                session.send("ask u")
        [known] = session.look(["ask u"])
        other.replay(session.lines)
        assert other.look(["ask u"]) == [known]


def test_ctrl_c_is_held_back_while_a_program_is_started_or_ended(program: str) -> None:
    """At each step of it: no process is left over, and no descriptor open."""
    gc.collect()
    with at(0) as moment:
        Session(program).close()
    opened, own = descriptors(), children()
    for number in range(1, moment.seen + 1, 11 if TIMES == 1 else 1):
        with suppress(KeyboardInterrupt), at(number):
            Session(program).close()
        assert descriptors() <= opened and children() <= own, number


def test_batches_of_two_threads_leave_looks_for_garbage_as_they_were(
    program: str, monkeypatch: pytest.MonkeyPatch
) -> None:
    """That of the main thread ends while the other one is under way."""
    take, main = Program.take, threading.current_thread()
    has_begun, is_over = threading.Event(), threading.Event()

    with Session(program) as session, Session(program) as other:
        beside = threading.Thread(target=other.send_all, args=(FIRST,))

        def take_in_turn(self: Program, wait: bool) -> list[str]:
            if threading.current_thread() is not main:
                has_begun.set()
                assert is_over.wait(60)
                # (so that it waits for its replies)
                return take(self, wait) if wait else []
            if not beside.ident:
                beside.start()
                assert has_begun.wait(60)
            return take(self, wait)

        with monkeypatch.context() as patch:
            patch.setattr(Program, "take", take_in_turn)
            session.send_all(FIRST)
            is_over.set()
            beside.join()
        assert gc.isenabled()
        assert other.lines == session.lines == FIRST
