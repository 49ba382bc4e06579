"""How files are written: whole or not at all, and never over what somebody else has changed.

A disk that is full is a limit on the size of files, at which each write fails as on a full disk.
"""

import ast
import os
import resource
import signal
import stat
import subprocess
import sys
import threading
from collections.abc import Callable, Iterator
from contextlib import contextmanager
from pathlib import Path

import pytest
from conftest import REPOSITORY

from propbench import Session, Workbench
from propbench.files import ChangedSince, OpenedFile, write_file
from propbench.flatzinc.picture import draw
from propbench.page.asking import ServedNetwork
from propbench.shell import Shell
from propbench.watching.of_session import SessionWatched
from propbench.watching.of_workbench import WorkbenchWatched

OLD = "# the plan that was there\ncell old span\n"
SOURCES = REPOSITORY / "python/src/propbench"


@contextmanager
def full_disk(most: int = 100) -> Iterator[None]:
    """No file takes more than so many bytes meanwhile."""
    soft, hard = resource.getrlimit(resource.RLIMIT_FSIZE)
    resource.setrlimit(resource.RLIMIT_FSIZE, (most, hard))
    try:
        yield
    finally:
        resource.setrlimit(resource.RLIMIT_FSIZE, (soft, hard))


def long_workbench() -> Workbench:
    """One of which all that can be saved takes more than 100 bytes."""
    w = Workbench()
    x = w.number("how many there are of all of them", 0, 9)
    w.tell("what ana says of all of them", x, 2, 3)
    return w


def save_workbench(path: Path) -> None:
    with long_workbench() as w:
        w.save(path)


def save_certificate(path: Path) -> None:
    with long_workbench() as w:
        [x] = w.cells
        w.least(x).certificate.save(path)


def save_chart(path: Path) -> None:
    with Workbench() as w:
        plan = w.project(days=5)
        plan.task("paint", days=2)
        plan.chart().save(path)


def save_picture(path: Path) -> None:
    with long_workbench() as w:
        w.picture().save(path)


def draw_blame(path: Path) -> None:
    draw(path, "graph conflicts {" + "\n".join(f"p{n};" for n in range(90)) + "}")


def save_from_shell(path: Path) -> None:
    with Session() as session:
        said: list[str] = []
        shell = Shell(session, said.append)
        for name in range(20):
            shell.obey(f"cell a_cell_{name} span")
        shell.obey(f":save {path}")
        if said[-1] == f"{path}: File too large":
            raise OSError(said[-1])


def draw_from_shell(path: Path) -> None:
    with Session() as session:
        said: list[str] = []
        shell = Shell(session, said.append)
        shell.obey("cell a_cell_with_a_very_long_name span")
        shell.obey(f":draw {path}")
        if said[-1] == f"{path}: File too large":
            raise OSError(said[-1])


def save_from_page(path: Path) -> None:
    with long_workbench() as w:
        asking = ServedNetwork(WorkbenchWatched(w), "plan", OpenedFile(str(path)))
        try:
            asking.do({"what": "save"})
        except ValueError as error:
            assert str(error) == f"{path}: File too large"
            raise OSError(str(error)) from None


SAVES: dict[str, tuple[str, Callable[[Path], None]]] = {
    "workbench": ("plan.prop", save_workbench),
    "certificate": ("least.claim", save_certificate),
    "chart": ("chart.svg", save_chart),
    "picture": ("plan.svg", save_picture),
    "picture as dot": ("plan.dot", save_picture),
    "blame": ("blame.svg", draw_blame),
    "blame as dot": ("blame.dot", draw_blame),
    "shell": ("plan.prop", save_from_shell),
    "shell's picture": ("plan.dot", draw_from_shell),
    "page": ("plan.prop", save_from_page),
}


@pytest.mark.parametrize("what", SAVES)
def test_a_full_disk_leaves_what_was_there(what: str, tmp_path: Path) -> None:
    name, save = SAVES[what]
    path = tmp_path / name
    path.write_text(OLD)
    with full_disk(), pytest.raises(OSError):
        save(path)
    assert path.read_text() == OLD and os.listdir(tmp_path) == [name]
    save(path)
    assert len(path.read_bytes()) > 100 and path.read_text() != OLD
    assert os.listdir(tmp_path) == [name]


@pytest.mark.parametrize("call", ["fsync", "rename"])
def test_a_kill_leaves_what_was_there(call: str, tmp_path: Path) -> None:
    path = tmp_path / "plan.prop"
    path.write_text(OLD)
    script = f"""
import os, signal, sys
from propbench.files import write_file
os.{call} = lambda *words: os.kill(os.getpid(), signal.SIGKILL)
write_file(sys.argv[1], "new" * 99_999)
"""
    ran = subprocess.run([sys.executable, "-c", script, path])
    assert ran.returncode == -signal.SIGKILL and path.read_text() == OLD


def test_it_is_on_the_disk_before_it_takes_the_place(
    tmp_path: Path, monkeypatch: pytest.MonkeyPatch
) -> None:
    done: list[str] = []
    fsync, rename = os.fsync, os.rename

    def synced(descriptor: int) -> None:
        kind = "folder" if stat.S_ISDIR(os.fstat(descriptor).st_mode) else "file"
        done.append(f"{kind} {os.fstat(descriptor).st_size if kind == 'file' else ''}".strip())
        fsync(descriptor)

    def renamed(old: str, new: str) -> None:
        done.append("rename")
        rename(old, new)

    monkeypatch.setattr(os, "fsync", synced)
    monkeypatch.setattr(os, "rename", renamed)
    write_file(tmp_path / "plan.prop", "cell x span\n")
    assert done == ["file 12", "rename", "folder"]


def test_mode_and_links_are_kept(tmp_path: Path) -> None:
    path, link, further = tmp_path / "plan.prop", tmp_path / "a" / "link", tmp_path / "further"
    path.write_text(OLD)
    path.chmod(0o640)
    link.parent.mkdir()
    link.symlink_to("../further")
    further.symlink_to("plan.prop")
    write_file(link, "new\n")
    assert link.is_symlink() and further.is_symlink() and path.read_text() == "new\n"
    assert stat.S_IMODE(path.stat().st_mode) == 0o640
    assert sorted(os.listdir(tmp_path)) == ["a", "further", "plan.prop"]
    mask = os.umask(0o027)
    try:
        write_file(tmp_path / "made", "new\n")
    finally:
        os.umask(mask)
    assert stat.S_IMODE((tmp_path / "made").stat().st_mode) == 0o640
    dangling = tmp_path / "dangling"
    dangling.symlink_to("there.prop")
    write_file(dangling, "new\n")
    assert dangling.is_symlink() and (tmp_path / "there.prop").read_text() == "new\n"


def test_what_may_not_be_written_is_not_replaced(
    tmp_path: Path, monkeypatch: pytest.MonkeyPatch
) -> None:
    path = tmp_path / "plan.prop"
    path.write_text(OLD)
    monkeypatch.setattr(os, "access", lambda path, mode: False)
    with pytest.raises(PermissionError, match="plan.prop"):
        write_file(path, "new\n")
    assert path.read_text() == OLD
    with pytest.raises(FileNotFoundError) as error:
        write_file(tmp_path / "nowhere" / "plan.prop", "new\n")
    assert error.value.filename == str(tmp_path / "nowhere" / "plan.prop")
    with pytest.raises(UnicodeEncodeError):
        write_file(path, "\udc80")
    assert path.read_text() == OLD and os.listdir(tmp_path) == ["plan.prop"]


def test_a_pipe_is_written_to(tmp_path: Path) -> None:
    pipe = tmp_path / "pipe"
    os.mkfifo(pipe)
    got: list[str] = []
    reader = threading.Thread(target=lambda: got.append(pipe.read_text()))
    reader.start()
    write_file(pipe, "cell x span\n")
    reader.join(60)
    assert got == ["cell x span\n"] and stat.S_ISFIFO(pipe.stat().st_mode)


def test_nothing_writes_a_file_in_another_way() -> None:
    """No other module opens a file to write, but in a folder for a moment, or in memory. (A journal
    is no file that takes the place of another: it is begun anew each time.)"""
    found = []
    for path in sorted(SOURCES.rglob("*.py")):
        for node in ast.walk(ast.parse(path.read_text())):
            if isinstance(node, ast.Call):
                name = ast.unparse(node.func).split(".")[-1]
                modes = [each.value for each in node.args[1:2] if isinstance(each, ast.Constant)]
                opens = name == "open" and any(set(str(each)) & set("wax+") for each in modes)
                if opens or name in ("write_text", "write_bytes"):
                    found.append(f"{path.relative_to(SOURCES)}: {name}")
    files = ["files.py: open", "files.py: open", "flatzinc/compiling.py: write_text"]
    assert found == [*files, "process.py: open"]


def test_what_another_changed_is_neither_lost_nor_hidden(tmp_path: Path) -> None:
    path = tmp_path / "plan.prop"
    path.write_text("cell x span\ntell ana x 1\n")
    opened = OpenedFile(str(path))
    opened.save("cell x span\ntell ana x 2\n")
    opened.save("cell x span\ntell ana x 3\n")
    path.write_text("cell x span\ntell ben x 4\n")
    with pytest.raises(ChangedSince) as changed:
        opened.save("cell x span\ntell ana x 5\n")
    assert str(changed.value).split("\n") == [
        f"{path} was changed by somebody else since it was opened; nothing is saved.",
        "- tell ben x 4",
        "+ tell ana x 5",
    ]
    assert path.read_text() == "cell x span\ntell ben x 4\n"
    opened.save("cell x span\ntell ana x 5\n", overwrite=True)
    opened.save("cell x span\n")
    path.unlink()
    opened.save("cell y span\n")
    assert path.read_text() == "cell y span\n"
    other = OpenedFile(str(tmp_path / "other.prop"))
    (tmp_path / "other.prop").write_text("of somebody else\n")
    with pytest.raises(ChangedSince):
        other.save("mine\n")


def test_a_change_at_the_last_moment_is_seen(
    tmp_path: Path, monkeypatch: pytest.MonkeyPatch
) -> None:
    path = tmp_path / "plan.prop"
    path.write_text(OLD)
    opened = OpenedFile(str(path))
    fsync = os.fsync

    def synced(descriptor: int) -> None:
        fsync(descriptor)
        path.write_text("of somebody else\n")

    monkeypatch.setattr(os, "fsync", synced)
    with pytest.raises(ChangedSince):
        opened.save("mine\n")
    assert path.read_text() == "of somebody else\n" and os.listdir(tmp_path) == ["plan.prop"]


def test_the_shell_sees_a_change(tmp_path: Path) -> None:
    path, other = tmp_path / "plan.prop", tmp_path / "other.prop"
    path.write_text("cell x span\n")
    said: list[str] = []
    with Session() as session:
        shell = Shell(session, said.append)
        shell.load(str(path))
        shell.obey("tell ana x 3")
        path.write_text("cell x span\ntell ben x 4\n")
        shell.obey(f":save {path}")
        assert said[-1].split("\n") == [
            f"{path} was changed by somebody else since it was opened; nothing is saved.",
            "- tell ben x 4",
            "+ tell ana x 3",
            "(- is there now, + is what you have)",
            f":save under another name keeps both; `:save {path} overwrite` keeps yours alone.",
        ]
        assert path.read_text() == "cell x span\ntell ben x 4\n"
        shell.obey(f":save {other}")
        assert other.read_text() == "cell x span\ntell ana x 3\n"
        shell.obey(f":save {path} overwrite")
        assert path.read_text() == other.read_text()
        shell.obey("tell ben x 4")
        shell.obey(f":save {path}")
        assert said[-1] == f"3 lines are written to {path}."


def test_a_file_of_which_the_shell_has_a_part_is_not_lost(tmp_path: Path) -> None:
    path = tmp_path / "plan.prop"
    path.write_text("cell x span\ntell ana y 3\ntell ben x 4\n")
    said: list[str] = []
    with Session() as session:
        shell = Shell(session, said.append)
        shell.load(str(path))
        shell.obey(f":save {path}")
    assert said[-1].startswith(f"{path} has lines that were not carried out here; nothing")
    assert "- tell ben x 4" in said[-1]
    assert path.read_text() == "cell x span\ntell ana y 3\ntell ben x 4\n"


@pytest.fixture
def asking(tmp_path: Path) -> Iterator[ServedNetwork]:
    """What a page of a file asks."""
    (tmp_path / "plan.prop").write_text("cell x span\ntell ana x 3\n")
    with Session() as session:
        session.send_all(["cell x span", "tell ana x 3"])
        watched = SessionWatched(session, session.lines)
        yield ServedNetwork(watched, "plan.prop", OpenedFile(str(tmp_path / "plan.prop")))


def test_the_page_sees_a_change(asking: ServedNetwork, tmp_path: Path) -> None:
    path = tmp_path / "plan.prop"
    asking.do({"what": "believe", "premise": "ana", "believed": False})
    path.write_text("cell x span\ntell ana x 4\n")
    told = asking.do({"what": "save"})
    assert told["saved"] is None and "was changed by somebody else" in str(told["says"])
    assert told["difference"] == ["- tell ana x 4", "+ tell ana x 3", "+ kick ana"]
    for name in ("", "..", "../plan.prop", "/tmp/x", ".profile", "a/b", "a\0b", "plan.prop"):
        with pytest.raises(ValueError, match="file|something"):
            asking.do({"what": "save", "as": name, "overwrite": True})
    assert path.read_text() == "cell x span\ntell ana x 4\n"
    told = asking.do({"what": "save", "as": "mine.prop"})
    assert told["saved"] == str(tmp_path / "mine.prop")
    assert (tmp_path / "mine.prop").read_text() == "cell x span\ntell ana x 3\nkick ana\n"
    # (from then on it is the file)
    asking.do({"what": "believe", "premise": "ana", "believed": True})
    assert asking.do({"what": "save"})["saved"] == str(tmp_path / "mine.prop")
    assert path.read_text() == "cell x span\ntell ana x 4\n"


def test_the_page_overwrites_by_a_word(asking: ServedNetwork, tmp_path: Path) -> None:
    path = tmp_path / "plan.prop"
    path.write_text("cell y span\n")
    assert asking.do({"what": "save", "overwrite": "yes"})["saved"] is None
    assert asking.do({"what": "save", "overwrite": True})["saved"] == str(path)
    assert path.read_text() == "cell x span\ntell ana x 3\n"


def test_a_page_of_standard_input_asks_for_a_name(
    tmp_path: Path, monkeypatch: pytest.MonkeyPatch
) -> None:
    monkeypatch.chdir(tmp_path)
    with Session() as session:
        session.send("cell x span")
        watched = SessionWatched(session, session.lines)
        asking = ServedNetwork(watched, "standard input", OpenedFile("-"))
        told = asking.do({"what": "save"})
        assert (told["saved"], told["says"]) == (None, "What shall the file be called?")
        assert os.listdir(tmp_path) == []
        assert asking.do({"what": "save", "as": "plan.prop"})["saved"] == "plan.prop"
        session.send("cell y span")
        assert asking.do({"what": "save"})["saved"] == "plan.prop"
    assert (tmp_path / "plan.prop").read_text() == "cell x span\ncell y span\n"
