"""Journals: what a kill, a power cut or a closed terminal leaves, and who goes on with it."""

import fcntl
import json
import os
import pty
import resource
import select
import signal
import stat
import subprocess
import sys
import time
from collections.abc import Callable
from pathlib import Path

import pytest

from propbench import Session, Workbench
from propbench import journal as journals
from propbench.desk import main
from propbench.files import OpenedFile
from propbench.journal import Journal, left
from propbench.page.asking import ServedNetwork
from propbench.shell import Shell
from propbench.watching import SeenNow, Watched

# So many seconds something is waited for, far longer than it takes on a busy machine.
PATIENCE = 300


@pytest.fixture(autouse=True)
def state(tmp_path: Path, monkeypatch: pytest.MonkeyPatch) -> Path:
    """Journals are on, and lie here."""
    monkeypatch.setenv("PROPBENCH_JOURNAL", "on")
    monkeypatch.setenv("XDG_STATE_HOME", str(tmp_path / "state"))
    return tmp_path / "state/propbench/journal"


def killed(script: str, *words: str) -> None:
    """Runs a script of Python that is killed where it says `kill()`."""
    head = "import os, signal, sys\nkill = lambda: os.kill(os.getpid(), signal.SIGKILL)\n"
    ran = subprocess.run([sys.executable, "-c", head + script, *words], timeout=PATIENCE)
    assert ran.returncode == -signal.SIGKILL


SHELL = """
from propbench import Session
from propbench.journal import Journal
from propbench.shell import Shell
shell = Shell(Session(), print, journal=Journal("shell"))
for line in sys.argv[1:]:
    shell.obey(line)
kill()
"""


def talk(session: Session) -> tuple[Shell, list[str]]:
    """A shell with a journal, and what it says."""
    said: list[str] = []
    return Shell(session, said.append, journal=Journal("shell")), said


def test_a_shell_goes_on_after_a_kill(state: Path) -> None:
    lines = ["cell x span", "tell ana x 3..5", "ask x", "nonsense", "tell ben x 4"]
    killed(SHELL, *lines, "tell cleo x 1", ":undo")
    with Session() as session:
        shell, said = talk(session)
        shell.offer()
        assert said[-1].startswith("A shell that began at 20")
        assert said[-1].endswith(
            "was cut off with 4 lines.\n:resume goes on with it, :resume no forgets it."
        )
        shell.obey(":resume")
        assert said[-1] == "4 lines are carried out."
        shell.obey("ask x")
        assert said[-1].startswith("x = 4")
        # (behind an :undo stands the limit that was in force)
        stated = ["cell x span", "tell ana x 3..5", "tell ben x 4", "limit 1000000000"]
        assert session.lines[:4] == stated
        shell.obey(":resume")
        assert said[-1] == "Nothing was cut off."
    # (its own journal has the lines now, and is held by this process)
    [path] = state.iterdir()
    assert path.read_text().split("\n")[1:] == [*stated, ""] and left("shell") == []


def test_a_line_is_on_the_disk_before_its_reply_is_shown(state: Path) -> None:
    held: list[tuple[str, int]] = []

    def write(text: str) -> None:
        [path] = state.iterdir()
        held.append((text, path.read_text().count("\n") - 1))

    with Session() as session:
        shell = Shell(session, write, journal=Journal("shell"))
        for line in ("cell x span", "cell y span", "fix x 3", "ask x"):
            shell.obey(line)
    assert held == [("ok", 1), ("ok", 2), ("ok", 3), ("x = 3", 3)]


def test_what_is_stated_is_not_lost_to_a_resume(state: Path) -> None:
    killed(SHELL, "cell x span")
    with Session() as session:
        shell, said = talk(session)
        shell.offer()
        shell.obey("cell y span")
        shell.obey(":resume")
        assert said[-1].startswith("Say it first of all") and session.lines == ["cell y span"]
        shell.obey(":resume no")
        shell.obey(":resume")
        assert said[-1] == "Nothing was cut off."
    assert len(list(state.iterdir())) == 1


def test_its_owner_alone_may_read_it(state: Path) -> None:
    mask = os.umask(0)
    try:
        journal = Journal("shell")
        assert journal.keep(["cell x span"]) == ""
    finally:
        os.umask(mask)
    [path] = state.iterdir()
    assert stat.S_IMODE(path.stat().st_mode) == 0o600
    assert stat.S_IMODE(state.stat().st_mode) == stat.S_IMODE(state.parent.stat().st_mode) == 0o700
    state.chmod(0o777)
    assert left("shell") == [] and stat.S_IMODE(state.stat().st_mode) == 0o700
    journal.end()
    assert list(state.iterdir()) == [] and journal.is_empty


def written(state: Path, name: str, lines: bytes, **about: object) -> Path:
    """A journal that nobody holds."""
    state.mkdir(parents=True, exist_ok=True, mode=0o700)
    path = state / f"{name}.prop"
    told: dict[str, object] = {"sort": "shell", "file": "", "checksum": None, "began": "2026"}
    told.update(about)
    path.write_bytes(b"# propbench journal 1 " + json.dumps(told).encode() + b"\n" + lines)
    path.chmod(0o600)
    return path


def test_a_torn_line_is_dropped(state: Path) -> None:
    whole = "cell x span\ntell añá x 3\n".encode()
    for cut in range(len(whole) + 1):
        written(state, "1", whole[:cut])
        found = [each.lines for each in left("shell")]
        wanted = whole[:cut].split(b"\n")[:-1]
        assert found == ([[line.decode() for line in wanted]] if wanted else [])


@pytest.mark.parametrize(
    "data",
    [
        b"",
        b"# propbench journal 1",
        b"# propbench journal 1 {}\ncell x span\n",
        b"# propbench journal 1 [" + b"[" * 100_000 + b"\ncell x span\n",
        b'# propbench journal 1 {"sort": 1, "file": 2, "checksum": 3, "began": 4}\ncell x span\n',
        b'# propbench journal 2 {"sort": "shell"}\ncell x span\n',
        b"cell x span\n",
        b"\0" * 1000 + b"\n",
    ],
)
def test_what_is_no_journal_is_left_alone(state: Path, data: bytes) -> None:
    path = written(state, "1", b"")
    path.write_bytes(data)
    assert left("shell") == []


def test_what_another_may_have_written_is_none(state: Path) -> None:
    path = written(state, "1", b"cell x span\n")
    assert len(left("shell")) == 1
    path.chmod(0o620)
    assert left("shell") == []
    path.chmod(0o600)
    moved = path.rename(state.parent / "moved")
    path.symlink_to(moved)
    assert left("shell") == []
    path.unlink()
    os.mkfifo(path)
    assert left("shell") == []


def test_who_runs_is_not_offered_to_others(state: Path) -> None:
    path = written(state, "1", b"cell x span\n")
    with open(path, "rb") as held:
        fcntl.flock(held, fcntl.LOCK_EX)
        assert left("shell") == []
    assert len(left("shell")) == 1


def test_they_are_few_and_small(state: Path, monkeypatch: pytest.MonkeyPatch) -> None:
    monkeypatch.setattr(journals, "MOST_FILES", 5)
    monkeypatch.setattr(journals, "MOST_BYTES", 1000)
    for number in range(9):
        written(state, f"0{number}", b"cell x span\n")
    old = written(state, "09", b"cell x span\n")
    os.utime(old, (time.time() - 31 * 86_400,) * 2)
    journal = Journal("shell")
    assert journal.keep(["cell x span"]) == ""
    kept = sorted(path.stem for path in state.iterdir() if len(path.stem) == 2)
    assert kept == ["06", "07", "08"]
    assert journal.keep(["cell x span", "#" * 500]) == ""
    assert journal.keep(["cell x span", "#" * 500, "#" * 500]).startswith("The journal is full")
    assert journal.keep(["cell x span", "#" * 500, "#" * 500, "y"]) == ""
    assert max(path.stat().st_size for path in state.iterdir()) < 1200
    journal.end()


def test_a_disk_that_is_full_ends_no_conversation(state: Path) -> None:
    soft, hard = resource.getrlimit(resource.RLIMIT_FSIZE)
    with Session() as session:
        shell, said = talk(session)
        shell.obey("cell x span")
        resource.setrlimit(resource.RLIMIT_FSIZE, (130, hard))
        try:
            shell.obey("cell a_name_for_which_there_is_no_room_any_more_in_it span")
        finally:
            resource.setrlimit(resource.RLIMIT_FSIZE, (soft, hard))
        assert said[-2:] == ["No journal is kept: File too large", "ok"]
        shell.obey("ask x")
        assert said[-1] == "x = nothing" and len(session.lines) == 3


@pytest.mark.parametrize("way", ["option", "variable"])
def test_it_can_be_turned_off(state: Path, monkeypatch: pytest.MonkeyPatch, way: str) -> None:
    words = ["shell"] if way == "variable" else ["shell", "--no-journal"]
    if way == "variable":
        monkeypatch.setenv("PROPBENCH_JOURNAL", "off")
    command = [sys.executable, "-m", "propbench", *words]
    with subprocess.Popen(command, stdin=subprocess.PIPE, stdout=subprocess.PIPE) as ran:
        assert ran.stdin and ran.stdout
        ran.stdin.write(b"cell x span\n")
        ran.stdin.flush()
        while ran.stdout.readline() != b"ok\n":
            pass
        assert not state.exists() or list(state.iterdir()) == []
        ran.kill()


def test_the_desk_offers_it_after_a_kill_and_not_after_an_end(state: Path) -> None:
    command = [sys.executable, "-m", "propbench", "shell"]

    def said(lines: bytes) -> str:
        ran = subprocess.run(command, input=lines, stdout=subprocess.PIPE, timeout=PATIENCE)
        return ran.stdout.decode()

    assert "cut off" not in said(b"") and not state.exists()
    assert "cut off" not in said(b"cell x span\n:quit\n") + said(b"cell x span\n")
    assert list(state.iterdir()) == []
    with subprocess.Popen(command, stdin=subprocess.PIPE, stdout=subprocess.PIPE) as ran:
        assert ran.stdin and ran.stdout
        ran.stdin.write(b"cell x span\ntell ana x 7\n")
        ran.stdin.flush()
        for _ in range(2):
            while ran.stdout.readline() != b"ok\n":
                pass
        # (the journal is written before the next line is read, and this asks for no line)
        until = time.monotonic() + PATIENCE
        while not any(b"ana" in each.read_bytes() for each in state.iterdir()):
            assert time.monotonic() < until
        ran.kill()
    assert "was cut off with 2 lines" in said(b"")
    assert "x = 7" in said(b":resume\nask x\n:quit\n")
    assert "cut off" not in said(b"")


def test_a_closed_terminal_is_a_cut(state: Path, monkeypatch: pytest.MonkeyPatch) -> None:
    monkeypatch.setenv("TERM", "xterm")
    monkeypatch.setenv("PROMPT_TOOLKIT_NO_CPR", "1")
    number, master = pty.fork()
    if number == 0:
        os.execv(sys.executable, [sys.executable, "-m", "propbench", "shell"])
    heard = b""
    until = time.monotonic() + PATIENCE
    # (the cursor is shown once the prompt is drawn)
    while b"\x1b[?25h" not in heard:
        assert time.monotonic() < until, heard
        if select.select([master], [], [], 0.05)[0]:
            heard += os.read(master, 65_536)
    os.write(master, b"cell x span\r")
    while not state.exists() or not any(b"cell x" in each.read_bytes() for each in state.iterdir()):
        assert time.monotonic() < until, heard
        if select.select([master], [], [], 0.05)[0]:
            heard += os.read(master, 65_536)
    os.close(master)
    os.waitpid(number, 0)
    assert [each.lines for each in left("shell")] == [["cell x span"]]


# --- the page ---

PAGE = """
from propbench.files import OpenedFile
from propbench.journal import Journal
from propbench.page.asking import ServedNetwork
from propbench.running import RunAs
from propbench.watching.opening import opened
path = sys.argv[1]
with opened(path, RunAs()) as watched:
    file = OpenedFile(path)
    file.journal = Journal("page", path, file.checksum)
    asking = ServedNetwork(watched, path, file)
    for premise in sys.argv[2:]:
        asking.do({"what": "believe", "premise": premise, "believed": False})
    kill()
"""


@pytest.fixture(params=["session", "workbench"])
def plan(request: pytest.FixtureRequest, tmp_path: Path) -> str:
    """A file of either sort, with the premises ana and ben."""
    path = tmp_path / "plan.prop"
    if request.param == "session":
        path.write_text("# my plan\ncell x span\ntell ana x 3\ntell ben x 3..4\n")
    else:
        with Workbench() as w:
            x = w.number("x", 0, 9)
            w.tell("ana", x, 3)
            w.tell("ben", x, 3, 4)
            w.save(path)
    return str(path)


Served = Callable[..., dict[str, object]]


@pytest.fixture
def served(monkeypatch: pytest.MonkeyPatch) -> Served:
    """Runs `propdesk page` with these words, but for the server, and gives what it was to serve."""

    def run(
        *words: str, does: Callable[[ServedNetwork], object] = lambda asking: None
    ) -> dict[str, object]:
        found: dict[str, object] = {}

        def serve(watched: Watched, title: str, *, path: OpenedFile, port: int) -> None:
            asking = ServedNetwork(watched, title, path)
            found.update(asking.state())
            does(asking)

        monkeypatch.setattr("propbench.page.serve", serve)
        assert main(["page", *words]) == 0
        return found

    return run


def test_a_page_goes_on_after_a_kill(
    plan: str, served: Served, state: Path, capsys: pytest.CaptureFixture[str]
) -> None:
    before = Path(plan).read_text()
    killed(PAGE, plan, "ana", "ben")
    assert Path(plan).read_text() == before
    assert served(plan)["believed"] == ["ana", "ben"]
    out = capsys.readouterr().out
    assert f"A page of {plan} that began at 20" in out and "--resume goes on with it" in out
    saved = served(plan, "--resume", does=lambda asking: asking.do({"what": "save"}))
    assert saved["believed"] == [] and list(state.iterdir()) == []
    assert served(plan)["believed"] == [] and "kick" in Path(plan).read_text()
    assert "cut off" in capsys.readouterr().out
    assert main(["page", plan, "--resume"]) == 2
    assert "no page of" in capsys.readouterr().err


def test_a_change_is_kept_before_it_is_looked_what_follows(
    plan: str, served: Served, state: Path, monkeypatch: pytest.MonkeyPatch
) -> None:
    def change(asking: ServedNetwork) -> None:
        kept: list[bool] = []

        def look() -> SeenNow:
            [path] = state.iterdir()
            kept.append(path.read_text().endswith("kick ana\n"))
            return SeenNow()

        asking.do({"what": "look"})
        if not asking.state()["workbench"]:
            asking.do({"what": "line", "line": "ask x"})
        assert not state.exists() or list(state.iterdir()) == []
        monkeypatch.setattr(asking, "_look", look)
        asking.do({"what": "believe", "premise": "ana", "believed": False})
        assert kept == [True]

    served(plan, does=change)


def test_a_page_goes_on_from_what_it_has_saved(
    plan: str, served: Served, state: Path, tmp_path: Path
) -> None:
    """Also under another name."""

    def change(asking: ServedNetwork) -> None:
        asking.do({"what": "believe", "premise": "ana", "believed": False})
        assert asking.do({"what": "save"})["saved"] == plan
        asking.do({"what": "believe", "premise": "ben", "believed": False})
        assert asking.do({"what": "save", "as": "other.prop"})["saved"]
        asking.do({"what": "believe", "premise": "ana", "believed": True})

    served(plan, does=change)
    assert main(["page", plan, "--resume"]) == 2
    other = str(tmp_path / "other.prop")
    saved = served(other, "--resume", does=lambda asking: asking.do({"what": "save"}))
    assert saved["believed"] == ["ana"] and list(state.iterdir()) == []
    assert served(other)["believed"] == ["ana"] and served(plan)["believed"] == ["ben"]


def test_a_page_that_goes_on_sees_what_another_changed(
    plan: str, served: Served, state: Path
) -> None:
    killed(PAGE, plan, "ana")
    changed = Path(plan).read_text() + "# of somebody else\n"
    Path(plan).write_text(changed)

    def save(asking: ServedNetwork) -> None:
        told = asking.do({"what": "save"})
        assert told["saved"] is None and "- # of somebody else" in str(told["difference"])

    assert served(plan, "--resume", does=save)["believed"] == ["ben"]
    assert Path(plan).read_text() == changed
    # (it isn't saved yet, so that the journal stays)
    assert served(plan, "--forget")["believed"] == ["ana", "ben"]


def test_a_notebook_goes_on_after_a_kill() -> None:
    pytest.importorskip("IPython")
    killed(
        """
from propbench import Session
from propbench.notebook import carried_out
session = Session()
carried_out(session, "cell x span\\ntell ana x 3\\nask x")
carried_out(session, "tell ben x 3..5\\nnonsense")
kill()
"""
    )
    [found] = left("notebook")
    assert found.lines == ["cell x span", "tell ana x 3", "tell ben x 3..5"]
    from propbench.notebook import resume

    with resume() as session:
        assert session.lines == found.lines and str(session.send("ask x")) == "x = 3"
        assert left("notebook") == []
        with pytest.raises(ValueError, match="no session of a notebook was cut off"):
            resume()


def test_the_history_is_its_owners(state: Path) -> None:
    from propbench.terminal import history_file

    state.parent.mkdir(parents=True)
    (state.parent / "history").write_text("")
    (state.parent / "history").chmod(0o644)
    assert stat.S_IMODE(history_file().stat().st_mode) == 0o600
