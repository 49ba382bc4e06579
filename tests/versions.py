"""The version: VERSION has it, and each other place that says it says the same.

tools/package and tools/release read it from there. The programs say it in a proved text, and
python/pyproject.toml may not read a file above its folder: those are compared here. What is
promised by it stands in docs/PROMISES.md, whose names and statuses python/tests/test_promises.py
tries.
"""
import os
import re
import shutil
import subprocess
import sys
import tempfile
from typing import Iterator, Optional

from case import Check

TOP = os.path.dirname(os.path.dirname(os.path.realpath(__file__)))

# Each other place, and what stands before and behind the version there.
PLACES = {
    "crates/propbench/src/words.rt": r'^    version: "(\S+) \(',
    "crates/propwide/src/words.rt": r'^    version: "(\S+) \(',
    "tools/start/texts/propbench.version": r"^propbench (\S+) \(",
    "tools/start/texts/propwide.version": r"^propwide (\S+) \(",
    "python/pyproject.toml": r'^version = "(.+)"$',
    "CHANGELOG.md": r"^## (\S+)$",
    "README.md": r"propbench_(\S+?)_\w+\.deb",
}


def read(path: str) -> str:
    with open(f"{TOP}/{path}", encoding="utf-8") as it:
        return it.read()


def differences() -> Optional[str]:
    version = read("VERSION").strip()
    for path, pattern in PLACES.items():
        found = re.findall(pattern, read(path), flags=re.M)
        if found[:1] != [version]:
            return f"VERSION says {version}, and {path} says {found}"
    return None


def program_says_it(program: str) -> Optional[str]:
    ran = subprocess.run([program, "--version"], capture_output=True, text=True)
    words = ran.stdout.split(" ")
    wanted = read("VERSION").strip()
    return None if words[1:2] == [wanted] else f"{program} --version says {ran.stdout}"


LOG = """\
150 passed, 0 failed
17723 passed in 170.21s (0:02:50)
python: mypy passes, black passes, pytest passes (1237 passed in 300.11s); 5.1 minutes, 4.0 of one
"""


def released(*words: str) -> "subprocess.CompletedProcess[str]":
    command = [sys.executable, f"{TOP}/tools/release", *words]
    return subprocess.run(command, capture_output=True, text=True)


def dry_run_tells_figures() -> Optional[str]:
    """A dry run makes nothing, and its notes have what the log says."""
    with tempfile.TemporaryDirectory() as room:
        with open(f"{room}/log", "w", encoding="utf-8") as it:
            it.write(LOG)
        ran = released("--dry-run", "--gate", f"{room}/log", "--to", f"{room}/made")
        made = os.listdir(room)
    lacks = [it for it in ("150", "17,723", "1,237", "The first release.") if it not in ran.stdout]
    if ran.returncode or lacks or made != ["log"]:
        return f"status {ran.returncode}, {lacks} is lacking, {made} is there: {ran.stderr}"
    return None


def failed_gate_is_refused() -> Optional[str]:
    """A log in which something failed, or that ends before the last part, makes no release."""
    texts = {
        "wrong bodies": LOG.replace("0 failed", "1 failed"),
        "sessions": LOG.replace("17723 passed", "2 failed, 17721 passed"),
        "Python": LOG.replace("mypy passes", "mypy FAILS"),
        "the end": LOG[: LOG.index("python")],
    }
    with tempfile.TemporaryDirectory() as room:
        for part, text in texts.items():
            with open(f"{room}/log", "w", encoding="utf-8") as it:
                it.write(text)
            ran = released("--dry-run", "--gate", f"{room}/log")
            if ran.returncode != 1 or "gate" not in ran.stderr:
                return f"{part}: status {ran.returncode}, {ran.stdout}{ran.stderr}"
    return None


# What a release reads, and a stand-in for what makes its package.
PARTS = ["tools/release", "VERSION", "CHANGELOG.md", "crates.txt", "docs/BENCHMARKS.md"]
PACKAGE = '#!/bin/sh\nprintf x >"$2/some.deb"\necho "$2/some.deb"\n'
SUM_OF_X = "2d711642b726b04401627ca9fbac32f5c8530fb1903cc4db02258717921a4881"


def git(top: str, *words: str) -> str:
    ran = subprocess.run(["git", "-C", top, *words], capture_output=True, text=True)
    return ran.stdout.strip()


def repository(top: str) -> str:
    """A commit of what a release reads, made in this folder."""
    for path in PARTS:
        os.makedirs(os.path.dirname(f"{top}/{path}"), exist_ok=True)
        shutil.copy(f"{TOP}/{path}", f"{top}/{path}")
    with open(f"{top}/tools/package", "w", encoding="utf-8") as it:
        it.write(PACKAGE)
    os.chmod(f"{top}/tools/package", 0o755)
    git(top, "init", "--quiet")
    git(top, "config", "user.name", "a")
    git(top, "config", "user.email", "a@example.org")
    git(top, "add", "--all")
    git(top, "commit", "--quiet", "--message", "all")
    return git(top, "rev-parse", "HEAD")


def makes_a_release() -> Optional[str]:
    """The package, the notes and the tag of a commit by its gate's log: not by that of another, not
    with a file beside it, and once."""
    with tempfile.TemporaryDirectory() as room:
        top = f"{room}/top"
        commit = repository(top)

        def made(of: str) -> tuple[int, str]:
            with open(f"{room}/log", "w", encoding="utf-8") as it:
                it.write(f".ci/run: the commit is {of}\n{LOG}")
            words = ["--gate", f"{room}/log", "--to", f"{room}/made", "--tag"]
            command = [sys.executable, f"{top}/tools/release", *words]
            ran = subprocess.run(command, capture_output=True, text=True)
            return ran.returncode, ran.stdout + ran.stderr

        ways = {
            "another's log": (made("0" * 40), (1, "not of the commit")),
            "with changes": (made(f"{commit}, with changes"), (1, "not of the commit")),
            "its log": (made(commit), (0, "the tag v")),
            "once more": (made(commit), (1, "is there already")),
        }
        with open(f"{top}/VERSION", "a", encoding="utf-8") as it:
            it.write("\n")
        ways["a file is changed"] = made(commit), (1, "in no commit")
        for way, ((status, said), (wanted, word)) in ways.items():
            if status != wanted or word not in said:
                return f"{way}: status {status}, {said}"
        notes = git(top, "tag", "--list", "--format=%(contents)")
        lacks = [
            it for it in (commit, f"{SUM_OF_X}  some.deb", "17,723 sessions") if it not in notes
        ]
    return f"{lacks} is lacking in {notes}" if lacks else None


def cases() -> Iterator[Check]:
    yield Check("versions: each place says what VERSION does", lambda _: differences())
    yield Check("versions: the program does", program_says_it)
    yield Check("versions: a dry run of tools/release", lambda _: dry_run_tells_figures())
    yield Check("versions: no release behind a failed gate", lambda _: failed_gate_is_refused())
    yield Check("versions: a release of a small repository", lambda _: makes_a_release())
