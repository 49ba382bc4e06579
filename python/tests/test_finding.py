"""Which program is found, and what is said where one ends."""

import hashlib
import os
import stat
from pathlib import Path

import pytest

from propbench import NoProgram, ProgramEnded, Session, finding
from propbench.finding import SAVED, FoundProgram, find_for, find_program, find_wide


def script(path: Path, text: str) -> Path:
    """A program that is this shell script."""
    path.parent.mkdir(parents=True, exist_ok=True)
    path.write_text(f"#!/bin/sh\n{text}\n", encoding="utf-8")
    path.chmod(path.stat().st_mode | stat.S_IXUSR)
    return path


@pytest.fixture
def repository(tmp_path: Path, monkeypatch: pytest.MonkeyPatch) -> Path:
    """A repository with sources alone, with no program named or on the path."""
    top = tmp_path / "repository"
    script(top / "propbench", "exit 0")
    script(top / "propwide", "exit 0")
    (top / "crates.txt").write_text("", encoding="utf-8")
    monkeypatch.setattr(finding, "repository", lambda: top)
    monkeypatch.delenv("PROPBENCH", raising=False)
    monkeypatch.setenv("PATH", str(tmp_path / "bin"))
    return top


def test_the_order_of_finding(
    repository: Path, tmp_path: Path, monkeypatch: pytest.MonkeyPatch
) -> None:
    assert find_program() == FoundProgram(str(repository / "propbench"), False, builds=True)
    on_path = script(tmp_path / "bin/propbench", "exit 0")
    assert find_program() == FoundProgram(str(on_path), False)
    built = script(repository / "crates/propbench/out/propbench", "exit 0")
    assert find_program() == FoundProgram(str(built), True)
    named = script(tmp_path / "named", "exit 0")
    monkeypatch.setenv("PROPBENCH", str(named))
    assert find_program() == FoundProgram(str(named), False)
    assert find_program(built) == FoundProgram(str(built), True)
    assert find_program("propbench") == FoundProgram(str(on_path), False)


def test_a_workbench_finds_the_wider_program_first(
    repository: Path, tmp_path: Path, monkeypatch: pytest.MonkeyPatch
) -> None:
    """An unproved build is the last, and what is named the first."""
    assert find_wide() == FoundProgram(str(repository / "propwide"), False, builds=True)
    plain = script(tmp_path / "bin/propbench", "exit 0")
    assert find_wide() == FoundProgram(str(plain), False)
    plain = script(repository / "crates/propbench/out/propbench", "exit 0")
    assert find_wide() == find_program() == FoundProgram(str(plain), True)
    on_path = script(tmp_path / "bin/propwide", "exit 0")
    assert find_wide() == FoundProgram(str(on_path), False)
    built = script(repository / "crates/propwide/out/propwide", "exit 0")
    assert find_wide() == FoundProgram(str(built), True)
    assert find_wide(repository / "propwide") == FoundProgram(str(built), True)
    assert find_program() == FoundProgram(str(plain), True)
    assert find_for([SAVED, "cell x span"]) == find_wide()
    assert find_for(["cell x span", SAVED]) == find_for([]) == find_program()
    monkeypatch.setenv("PROPBENCH", str(on_path))
    assert find_wide() == find_program() == FoundProgram(str(on_path), False)
    monkeypatch.setenv("PROPWIDE", str(plain))
    assert find_wide() == FoundProgram(str(plain), True)
    assert find_program() == FoundProgram(str(on_path), False)
    assert (
        find_wide("propwide") == find_for([SAVED], "propwide") == FoundProgram(str(on_path), False)
    )


def test_a_program_of_a_package_is_proved_where_its_checksum_is_told(
    repository: Path, tmp_path: Path
) -> None:
    installed = script(tmp_path / "bin/propbench", "exit 0")
    told = tmp_path / "share/propbench/proved.sha256"
    told.parent.mkdir(parents=True)
    told.write_text(f"{hashlib.sha256(installed.read_bytes()).hexdigest()}  propbench\n")
    assert find_program() == FoundProgram(str(installed), True)
    link = tmp_path / "link"
    link.symlink_to(installed)
    assert find_program(link) == FoundProgram(str(link), True)
    wide = script(tmp_path / "bin/propwide", "exit 2")
    assert find_wide() == FoundProgram(str(wide), False)
    with told.open("a") as file:
        file.write(f"{hashlib.sha256(wide.read_bytes()).hexdigest()}  propwide\n")
    assert find_wide() == FoundProgram(str(wide), True)
    script(installed, "exit 1")
    assert not find_program().proved
    told.write_text("")
    assert not find_program().proved


def test_a_link_to_a_repository_stands_for_what_is_built_there(
    repository: Path, tmp_path: Path
) -> None:
    link = tmp_path / "bin/propbench"
    link.parent.mkdir()
    link.symlink_to(repository / "propbench")
    assert find_program() == FoundProgram(str(link), False, builds=True)
    assert find_program(link) == FoundProgram(str(link), False, builds=True)
    built = script(repository / "crates/propbench/out/propbench", "exit 0")
    assert find_program(link) == FoundProgram(str(built), True)


def test_no_program(repository: Path, monkeypatch: pytest.MonkeyPatch) -> None:
    monkeypatch.setattr(finding, "repository", lambda: None)
    with pytest.raises(NoProgram, match="PROPBENCH"):
        find_program()
    with pytest.raises(NoProgram, match="no program that can be run"):
        find_program(repository / "crates.txt")


def test_a_build_tells_how_far_it_is(repository: Path, capfd: pytest.CaptureFixture[str]) -> None:
    script(repository / "propbench", "echo building >&2; read line; echo ok")
    with Session(limit=5) as session:
        assert not session.proved
        assert str(session.send("cell x span")) == "ok"
    assert capfd.readouterr().err == "building\n"


def test_how_a_program_ended(tmp_path: Path) -> None:
    ends = script(tmp_path / "ends", "echo what went wrong >&2; read line; exit 3")
    with Session(ends) as session:
        with pytest.raises(ProgramEnded) as caught:
            session.send("ask x")
        assert caught.value.status == 3
        assert caught.value.errors == "what went wrong\n"
        assert str(caught.value) == "the program ended with status 3: what went wrong"
        with pytest.raises(ProgramEnded):
            session.send("ask x")
        assert session.lines == []


@pytest.mark.parametrize("pause", [0, 0.5])
def test_a_program_that_ends_in_the_midst(tmp_path: Path, pause: float) -> None:
    """What it answered before counts, also where it never read the rest."""
    ends = script(tmp_path / "ends", f"read a; echo ok; read b; echo ok; sleep {pause}; exit 2")
    lines = [f"cell x{i} span" for i in range(200_000)]
    with Session(ends) as session:
        with pytest.raises(ProgramEnded) as caught:
            session.send_all(lines)
        assert caught.value.status == 2
        assert session.lines == lines[:2]


def test_what_is_no_program(tmp_path: Path) -> None:
    broken = tmp_path / "broken"
    broken.write_bytes(b"\x7fELF nothing")
    broken.chmod(0o700)
    with pytest.raises(ProgramEnded) as caught:
        Session(broken)
    assert caught.value.status is None


def test_a_session_that_is_closed(program: str) -> None:
    session = Session(program)
    number = session.pid
    session.close()
    session.close()
    with pytest.raises(RuntimeError, match="closed"):
        session.send("nogoods")
    with pytest.raises(RuntimeError, match="closed"):
        session.replay()
    with pytest.raises(ProcessLookupError):
        os.kill(number, 0)


@pytest.mark.parametrize(
    "options",
    [{"order": "any"}, {"seed": -1}, {"seed": 2**64}, {"limit": -1}, {"limit": 10**16}],
)
def test_options_out_of_range(program: str, options: dict[str, object]) -> None:
    with pytest.raises(ValueError):
        Session(program, **options)  # type: ignore[arg-type]


def test_a_dropped_session_ends_its_program(program: str) -> None:
    session = Session(program)
    number = session.pid
    del session
    with pytest.raises(ProcessLookupError):
        os.kill(number, 0)


def test_of_many_sessions_the_first_alone_says_that_it_is_unproved(
    repository: Path, capfd: pytest.CaptureFixture[str]
) -> None:
    script(repository / "propbench", 'echo "${PROPBENCH_TOLD:-unproved}" >&2')
    for _ in range(3):
        with pytest.raises(ProgramEnded):
            Session().send("cell x span")
    assert capfd.readouterr().err.split() == ["unproved", "1", "1"]
