"""A session is supervised: whose turn it is, that replies belong to their lines, by when they come,
and that its program ends with whoever used it."""

import gc
import multiprocessing
import os
import signal
import subprocess
import sys
import threading
import time
from collections.abc import Callable, Iterator
from concurrent.futures import ThreadPoolExecutor
from contextlib import contextmanager, suppress
from pathlib import Path

import pytest
from conftest import ENDLESS

from propbench import Done, OutOfTime, ProgramEnded, Reply, Session, SessionInUse, WrongReply
from propbench.overview import overview

SOURCES = str(Path(__file__).resolve().parents[1] / "src")
# How long a call may take behind its `seconds`: a second, and more where the machine is busy with
# other things.
LATE = 4.0


def script(path: Path, text: str) -> str:
    """A program that is written in the shell's language."""
    path.write_text(f"#!/bin/sh\n{text}\n")
    path.chmod(0o700)
    return str(path)


def descriptors() -> int:
    """How many are open, without those of what was dropped."""
    gc.collect()
    return len(os.listdir("/proc/self/fd"))


def is_there(pid: int) -> bool:
    """Whether a process is there which has not ended."""
    try:
        with open(f"/proc/{pid}/stat") as file:
            return file.read().rpartition(")")[2].split()[0] not in "ZX"
    except (FileNotFoundError, ProcessLookupError):
        return False


def gone(pid: int, seconds: float = 20) -> bool:
    """Whether a process has ended within so many seconds."""
    until = time.monotonic() + seconds
    while is_there(pid) and time.monotonic() < until:
        time.sleep(0.01)
    return not is_there(pid)


def waited(condition: Callable[[], bool]) -> None:
    """Waits until a condition holds."""
    until = time.monotonic() + 60
    while not condition():
        assert time.monotonic() < until
        time.sleep(0.01)


@contextmanager
def asking(session: Session) -> Iterator[list[BaseException]]:
    """Another thread is in the midst of an endless run, and is stopped behind the block; what ended
    it is in the list then."""
    is_over, begun = threading.Event(), threading.Event()
    ended: list[BaseException] = []

    def progress(steps: int, reply: Reply) -> None:
        begun.set()
        if is_over.is_set():
            raise InterruptedError("enough")

    def ask() -> None:
        try:
            session.send("ask x", progress=progress)
        except (InterruptedError, ProgramEnded) as error:
            ended.append(error)

    thread = threading.Thread(target=ask)
    thread.start()
    begun.wait(60)
    try:
        yield ended
    finally:
        is_over.set()
        thread.join(60)
        assert not thread.is_alive()


# --- whose turn it is ---


def test_two_threads_never_get_each_others_answers(program: str) -> None:
    """Each gets the answer to its own question, or is told that it is not its turn."""
    cells = [f"c{number}" for number in range(40)]
    lines = [
        line for i, cell in enumerate(cells) for line in (f"cell {cell} span", f"fix {cell} {i}")
    ]
    with Session(program) as session:
        session.send_all(lines)
        found: list[tuple[str, str]] = []

        def ask(first: int) -> None:
            for number in range(2000):
                cell = cells[(first + number) % 20 + first]
                try:
                    found.append((f"{cell} = {cell[1:]}", str(session.send(f"ask {cell}"))))
                except SessionInUse as error:
                    found.append(("", str(error)))

        with ThreadPoolExecutor(2) as threads:
            list(threads.map(ask, [0, 20]))
        assert len(found) == 4000
        answers = [(wanted, answer) for wanted, answer in found if wanted]
        assert len(answers) >= 1000 and all(wanted == answer for wanted, answer in answers)
        assert str(session.send("ask c7")) == "c7 = 7"


def test_a_session_goes_from_thread_to_thread(program: str) -> None:
    with Session(program) as session:
        for number in range(5):
            lines = [f"cell c{number} span", f"fix c{number} {number}"]
            thread = threading.Thread(target=session.send_all, args=(lines,))
            thread.start()
            thread.join()
            assert str(session.send(f"ask c{number}")) == f"c{number} = {number}"


def test_another_call_while_one_is_running_is_told_so(program: str) -> None:
    with Session(program) as session:
        session.send_all(ENDLESS)
        uses: list[Callable[[], object]] = [
            lambda: session.send("ask x"),
            lambda: session.send("ask x", seconds=1),
            lambda: session.send_all(["ask x"]),
            lambda: session.look(["ask x"]),
            session.replay,
            session.drop_lines,
            lambda: session.limit,
            lambda: session.known,
        ]
        number = session.pid
        with asking(session) as ended:
            for use in uses:
                with pytest.raises(
                    SessionInUse, match="in use: a call of it is running, in another"
                ):
                    use()
            assert session.lines == ENDLESS and session.pid == number
            own = session.fresh()
            assert str(own.send("settle")) == "settled"
            own.close()
        assert [str(error) for error in ended] == ["enough"]
        assert "unsettled" in str(session.send("ask x", seconds=0)) and session.pid == number


def test_a_call_within_a_call_is_told_so(program: str) -> None:
    told: list[str] = []

    def progress(steps: int, reply: Reply) -> None:
        with pytest.raises(SessionInUse) as caught:
            session.send("settle")
        told.append(str(caught.value))

    with Session(program) as session:
        session.send_all([*ENDLESS, "limit 300000"])
        assert str(session.send("ask x", progress=progress)).startswith("x = 300000..")
        assert len(told) >= 2 and "around this one" in told[0]


def test_closing_ends_a_call_of_another_thread(program: str) -> None:
    session = Session(program)
    session.send_all(ENDLESS)
    opened, number = descriptors(), session.pid
    with asking(session) as ended:
        session.close()
    assert isinstance(ended[0], ProgramEnded) and gone(number)
    assert descriptors() < opened
    with pytest.raises(RuntimeError, match="closed"):
        session.send("settle")


def test_a_forked_child_is_told_whose_session_it_is(program: str) -> None:
    """And the parent's goes on, whatever the child does with it, and however it ends."""

    def child(session: Session) -> None:
        with pytest.raises(SessionInUse, match=f"belongs to the process {os.getppid()}"):
            session.send("ask x")
        with pytest.raises(SessionInUse):
            session.replay()
        with session.fresh() as own:
            own.send_all(["cell y span", "fix y 9"])
            assert str(own.send("ask y")) == "y = 9"
        session.close()

    with Session(program) as session:
        session.send_all(["cell x span", "fix x 3"])
        for _ in range(2):
            forked = multiprocessing.get_context("fork").Process(target=child, args=(session,))
            forked.start()
            forked.join(60)
            assert forked.exitcode == 0
        pid = os.fork()
        if not pid:
            # (a child that drops the session)
            del session
            gc.collect()
            os._exit(0)
        assert os.waitpid(pid, 0)[1] == 0
        assert str(session.send("ask x")) == "x = 3"


# --- replies ---

WRONG = {
    "ask x": ["y = 3", "settled", "ok", "xx = 3", "in:"],
    "why x": ["y = 3 because ana", "unsettled"],
    "core x": ["y = 3 because ana"],
    "tell ana x 3": ["x = 3", "settled"],
    "settle": ["ok", "x = 3"],
    "worldview": ["settled", "x = 3", "out:"],
    "nogoods": ["ok", "x = 3"],
}


@pytest.mark.parametrize("line", WRONG)
@pytest.mark.parametrize("at_once", [False, True])
def test_a_reply_to_another_question_is_found_out(tmp_path: Path, line: str, at_once: bool) -> None:
    for reply in WRONG[line]:
        # It says `ok` to a cell, and to anything else this.
        liar = script(
            tmp_path / "liar",
            'while read -r word rest; do case $word in cell|limit) echo ok;; *) echo "'
            + reply
            + '";; esac; done',
        )
        with Session(liar) as session:
            session.send("cell x span")
            for _ in range(2):
                with pytest.raises(WrongReply) as caught:
                    session.send_all([line]) if at_once else session.send(line)
                # (a core asks for reasons first)
                asked = "why x" if line == "core x" and not at_once else line
                wanted = f"the program answered `{reply}` to `{asked}`, and was ended"
                assert str(caught.value) == wanted
                # (begun anew, with what was carried out)
                assert session.lines == ["cell x span"]


# --- by when ---


@contextmanager
def within(seconds: float) -> Iterator[None]:
    """The block takes so many seconds, and LATE more at the most."""
    begun = time.monotonic()
    yield
    taken = time.monotonic() - begun
    assert taken < seconds + LATE, taken


@pytest.mark.parametrize(
    "line", ["ask x", "why x", "core x", "settle", "worldview", "tell b x 3..9"]
)
def test_a_program_that_is_stopped_has_its_time(program: str, line: str) -> None:
    with Session(program) as session:
        session.send_all(["cell x span", "tell a x 3..5"])
        number = session.pid
        os.kill(number, signal.SIGSTOP)
        with within(0.3), pytest.raises(OutOfTime, match="did not answer in time, and was ended"):
            session.send(line, seconds=0.3)
        assert gone(number)
        assert session.lines == ["cell x span", "tell a x 3..5"]
        assert str(session.send("ask x", seconds=60)) == "x = 3..5"
        assert session.pid != number


def test_a_program_that_is_stopped_in_a_long_run_has_its_time(program: str) -> None:
    """What was known by then is the answer."""
    with Session(program) as session:
        session.send_all(ENDLESS)
        stopped: list[int] = []

        def progress(steps: int, reply: Reply) -> None:
            stopped.append(session.pid)
            os.kill(session.pid, signal.SIGSTOP)

        for line in ("ask x", "core x"):
            with within(0.5):
                reply = session.send(line, seconds=0.5, progress=progress)
            assert str(reply).startswith("x = 2000..") and "unsettled" in str(reply)
            assert gone(stopped[-1])
        assert session.lines == ENDLESS
        assert str(session.send("settle", seconds=0)) == "unsettled"


def test_a_program_that_hangs_as_it_begins_anew_has_its_time(tmp_path: Path) -> None:
    """Begun anew it answers nothing: the call ends in time all the same, and the lines are kept."""
    told = tmp_path / "told"
    hangs = script(
        tmp_path / "hangs",
        f"test -e {told} && exec sleep 1000\nwhile read -r line; do echo ok; touch {told}; done",
    )
    with Session(hangs) as session:
        session.send_all(["cell x span", "cell y span"])
        os.kill(session.pid, signal.SIGSTOP)
        for _ in range(3):
            with within(0.2), pytest.raises(OutOfTime):
                session.send("cell z span", seconds=0.2)
            assert session.lines == ["cell x span", "cell y span"]
        told.unlink()
        assert str(session.send("cell z span", seconds=60)) == "ok"
        assert session.lines == ["cell x span", "cell y span", "cell z span"]


# A program that is at work for three seconds before it answers to a `settle`.
BUSY = """#!/usr/bin/python3 -u
import sys, time
for line in sys.stdin:
    until = time.monotonic() + 3 * line.startswith("settle")
    while time.monotonic() < until:
        pass
    print("settled" if line.startswith("settle") else "ok", flush=True)
"""


def test_a_program_that_is_at_work_is_left_at_that(tmp_path: Path) -> None:
    """It isn't ended, which would cost all that it has done: its steps take long, and it answers to
    the next question. Only a session that ends by a time ends it."""
    busy = tmp_path / "busy"
    busy.write_text(BUSY)
    busy.chmod(0o700)
    with Session(busy) as session:
        session.send("cell x span")
        number = session.pid
        for _ in range(2):
            with within(0.1), pytest.raises(OutOfTime, match="it is still at work"):
                session.send("settle", seconds=0.1)
        assert str(session.send("cell y span")) == "ok" and session.pid == number
        assert "settle" in session.lines
        with within(0.1), pytest.raises(OutOfTime, match="was ended"):
            session.end_by(time.monotonic() + 0.1)
            session.send("settle")


def test_what_is_shown_where_a_program_hangs(program: str) -> None:
    """Of a run in which it hung nothing is among the lines: so the table is of no steps."""
    with Session(program) as session:
        session.send_all(ENDLESS)

        def progress(steps: int, reply: Reply) -> None:
            os.kill(session.pid, signal.SIGSTOP)

        shown = overview(session, 0.3, progress)
        assert not shown.settled and shown.steps == 0
        assert str(shown.values[0]).startswith("x = 0..1000000000000000000 unsettled")
        assert session.lines[: len(ENDLESS)] == ENDLESS


# A program whose `core` takes as many steps as there may be, 200,000 a second, and needs more.
TRIES = """#!/usr/bin/python3 -u
import sys, time
limit = 0
for line in sys.stdin:
    word, *rest = line.split()
    if word == "limit":
        limit = int(rest[0])
    if word == "core":
        time.sleep(limit / 200_000)
    said = {"why": "x = 3 because a b", "core": "x = 3 not reduced because a b"}
    print(said.get(word, "ok"), flush=True)
"""


def test_the_tries_of_a_core_have_their_time(tmp_path: Path) -> None:
    """Each try begins anew, and takes twice as many steps as the one before: the last that is begun
    is one for which there is time."""
    tries = tmp_path / "tries"
    tries.write_text(TRIES)
    tries.chmod(0o700)
    with Session(tries) as session:
        session.send("cell x span")
        number = session.pid
        with within(1.6):
            reply = session.send("core x", seconds=1.6)
        assert str(reply) == "x = 3 not reduced because a b" and session.pid == number


# --- ends ---

HELD = """
import sys, os, time
sys.path.insert(0, {sources!r})
from propbench import Session
sessions = [Session({program!r}) for _ in range(3)]
for session in sessions:
    session.send_all({lines!r})
pids = " ".join(str(session.pid) for session in sessions)
if {forks!r} and not os.fork():
    time.sleep(1000)
print(pids, flush=True)
sessions[1].send_all(["limit 1000000000000000", "ask x"])
"""


@pytest.mark.parametrize("forks", [False, True])
@pytest.mark.parametrize("stopped", [False, True])
def test_a_program_ends_with_its_parent(program: str, forks: bool, stopped: bool) -> None:
    """Killed in the midst of a long run of one of three: all of them end, also where one is
    stopped, and where a child that was forked goes on."""
    source = HELD.format(sources=SOURCES, program=program, lines=ENDLESS, forks=forks)
    parent = subprocess.Popen(
        [sys.executable, "-c", source], stdout=subprocess.PIPE, text=True, start_new_session=True
    )
    try:
        assert parent.stdout
        pids = [int(word) for word in parent.stdout.readline().split()]
        assert len(pids) == 3 and all(map(is_there, pids))
        time.sleep(0.2)
        if stopped:
            os.kill(pids[1], signal.SIGSTOP)
        parent.kill()
        parent.wait()
        assert all(map(gone, pids))
    finally:
        # (the child that was forked)
        with suppress(ProcessLookupError):
            os.killpg(parent.pid, signal.SIGKILL)
        parent.wait()
        if parent.stdout:
            parent.stdout.close()


def test_a_program_goes_on_behind_the_thread_that_began_it(program: str) -> None:
    made: list[Session] = []
    thread = threading.Thread(target=lambda: made.append(Session(program)))
    thread.start()
    thread.join()
    with made[0] as session:
        time.sleep(0.1)
        assert str(session.send("settle")) == "settled"


def test_what_a_script_started_ends_with_it(tmp_path: Path) -> None:
    told = tmp_path / "told"
    starts = script(
        tmp_path / "starts",
        f"sleep 1000 & echo $! > {told}\nwhile read -r line; do echo ok; done",
    )
    session = Session(starts)
    session.send("cell x span")
    number = int(told.read_text())
    os.kill(session.pid, signal.SIGKILL)
    assert is_there(number)
    session.close()
    assert gone(number)


def test_a_dead_program_leaves_no_descriptor(program: str) -> None:
    opened = descriptors()
    kept = []
    for _ in range(30):
        session = Session(program)
        os.kill(session.pid, signal.SIGKILL)
        with pytest.raises(ProgramEnded, match="SIGKILL"):
            session.send("settle")
        kept.append(session)
    assert descriptors() == opened
    assert all(
        str(session.send("settle")) == "settled" for session in kept if session.replay() == []
    )
    kept.clear()
    del session
    assert descriptors() == opened


def test_a_program_that_died_unnoticed_leaves_no_descriptor(program: str) -> None:
    """It is noticed when others begin."""
    with Session(program):
        opened = descriptors()
        kept = []
        for _ in range(20):
            session = Session(program)
            session.send("cell x span")
            os.kill(session.pid, signal.SIGKILL)
            assert gone(session.pid)
            kept.append(session)
        with Session(program):
            pass
        assert descriptors() <= opened
        for session in kept:
            with pytest.raises(ProgramEnded, match="SIGKILL"):
                session.send("cell y span")
            assert session.lines == ["cell x span"] and session.replay() == [Done()]


def test_a_session_that_nobody_has_leaves_no_descriptor(program: str, tmp_path: Path) -> None:
    opened = descriptors()
    for is_killed in (False, True):
        for _ in range(20):
            session = Session(program)
            session.send("cell x span")
            if is_killed:
                os.kill(session.pid, signal.SIGKILL)
        del session
        assert descriptors() == opened
    broken = tmp_path / "broken"
    broken.write_bytes(b"\x7fELF nothing")
    broken.chmod(0o700)
    for _ in range(5):
        with pytest.raises(ProgramEnded, match="did not start"):
            Session(broken)
    assert descriptors() == opened
