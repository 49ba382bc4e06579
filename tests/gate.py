"""What .ci/run does around the proofs, and tools/python_gate.

.ci/run is run in a copy of its own, with stand-ins for what proves, for what runs sessions and for
Debian's tools, each of which writes that it ran. tools/python_gate is run over a small package.
"""
import os
import shutil
import subprocess
import tempfile
from dataclasses import dataclass, field
from typing import Iterator, Optional

TOP = os.path.dirname(os.path.dirname(os.path.realpath(__file__)))

# What the stand-ins are called, and what they do: WRONG, LACKING and APT come from the case.
STAND_INS = {
    "tools/laid_out": '[ "$WRONG" != layout ]',
    "tools/timed": 'echo proofs; [ "$WRONG" != proofs ]',
    "bin/pytest-3": 'echo sessions; [ "$WRONG" != sessions ]',
    "tools/python_gate": 'echo python; [ "$WRONG" != python ]',
    "bin/dpkg-query": """\
for it; do :; done
case " $LACKING " in *" $it "*) [ -e installed ] || exit 1 ;; esac
printf installed""",
    "bin/apt-get": """\
echo "apt-get $*" >>called
case "$APT $1" in
none*) exit 100 ;;
old*update) touch updated ;;
old*install) [ -e updated ] || exit 100 ;;
esac
[ "$1" != install ] || touch installed""",
}


@dataclass
class Gate:
    """A run of the gate: what is wrong with its parts, what is lacking, what apt-get does."""

    title: str
    # The parts that run, and the status.
    parts: list[str]
    status: int
    wrong_part: str = ""
    lacking: str = ""
    apt: str = "works"
    # What apt-get is asked for, and what standard error names.
    asked: list[str] = field(default_factory=list)
    named: str = ""
    has_python: bool = True

    @property
    def name(self) -> str:
        return f"gate: {self.title}"

    def wrong(self, _program: str) -> Optional[str]:
        """What is wrong with the run, or None."""
        with tempfile.TemporaryDirectory(prefix="gate-") as room:
            return self.wrong_in(room)

    def wrong_in(self, room: str) -> Optional[str]:
        for path, text in STAND_INS.items():
            os.makedirs(os.path.dirname(f"{room}/{path}"), exist_ok=True)
            with open(f"{room}/{path}", "w", encoding="utf-8") as it:
                it.write(f"#!/bin/sh\n{text}\n")
            os.chmod(f"{room}/{path}", 0o755)
        if self.has_python:
            os.makedirs(f"{room}/python")
        os.makedirs(f"{room}/.ci")
        shutil.copy(f"{TOP}/.ci/run", f"{room}/.ci")
        env = {"PATH": f"{room}/bin:/usr/bin:/bin", "WRONG": self.wrong_part}
        env |= {"LACKING": self.lacking, "APT": self.apt}
        ran = subprocess.run([f"{room}/.ci/run"], env=env, capture_output=True, text=True)
        parts = [it for it in ran.stdout.split("\n") if it in ("proofs", "sessions", "python")]
        asked = []
        if os.path.exists(f"{room}/called"):
            with open(f"{room}/called", encoding="utf-8") as it:
                lines = [line.split() for line in it]
            asked = [words[1] for words in lines]
            if not set(self.lacking.split()) < set(lines[0]):
                return f"apt-get is asked {lines[0]}, and {self.lacking} is lacking"
        got = (parts, ran.returncode, asked)
        if got != (self.parts, self.status, self.asked) or self.named not in ran.stderr:
            return f"{got}, wanted {(self.parts, self.status, self.asked)}; it said {ran.stderr}"
        return None


ALL = ["proofs", "sessions", "python"]

GATES = [
    Gate("all passes, nothing is lacking", ALL, 0),
    Gate("without the Python package", ALL[:2], 0, has_python=False),
    Gate(
        "without it nothing of Python's is installed",
        ALL[:2],
        0,
        lacking="python3-hypothesis",
        has_python=False,
    ),
    Gate("a file is not laid out", [], 1, wrong_part="layout"),
    Gate("proofs fail", ALL, 1, wrong_part="proofs"),
    Gate("sessions fail", ALL, 1, wrong_part="sessions"),
    Gate("the Python package fails", ALL, 1, wrong_part="python"),
    Gate("two packages are lacking", ALL, 0, lacking="black python3-pytest", asked=["install"]),
    Gate(
        "the list is old", ALL, 0, lacking="mypy", apt="old", asked=["install", "update", "install"]
    ),
    Gate(
        "nothing can be installed",
        [],
        1,
        lacking="mypy",
        apt="none",
        asked=["install", "update"],
        named="Debian package mypy could",
    ),
]

GOOD = {
    "../tests/small.py": "SMALL = 2\n",
    "src/propbench/__init__.py": "def double(number: int) -> int:\n    return 2 * number\n",
    "tests/test_double.py": """\
import os

from propbench import double


def test_double() -> None:
    assert double(2) == 4


def test_program() -> None:
    assert os.environ["PROPBENCH"] == "/some/program"
""",
}
# For each check a file that it finds something in.
BAD = {
    "mypy": ("src/propbench/typed.py", 'number: int = "two"\n'),
    "black": ("src/propbench/spaced.py", "number = [1,2]\n"),
    "pytest": ("tests/test_more.py", "def test_more() -> None:\n    assert 2 + 2 == 5\n"),
    "mypy over python/tests/": ("tests/typed.py", 'number: int = "two"\n'),
}


@dataclass
class PythonGate:
    """A run of tools/python_gate over a small package in which these checks find something."""

    bad: list[str]

    @property
    def name(self) -> str:
        return f"gate: python_gate where {' and '.join(self.bad) or 'nothing'} fails"

    def wrong(self, _program: str) -> Optional[str]:
        """What is wrong with the run, or None."""
        with tempfile.TemporaryDirectory(prefix="gate-") as room:
            os.makedirs(f"{room}/tools")
            os.makedirs(f"{room}/examples")
            shutil.copy(f"{TOP}/tools/python_gate", f"{room}/tools")
            files = {**GOOD, **dict(BAD[it] for it in self.bad)}
            for path, text in files.items():
                os.makedirs(os.path.dirname(f"{room}/python/{path}"), exist_ok=True)
                with open(f"{room}/python/{path}", "w", encoding="utf-8") as it:
                    it.write(text)
            words = [f"{room}/tools/python_gate", "--program", "/some/program"]
            ran = subprocess.run(words, capture_output=True, text=True)
            left = sorted(os.listdir(f"{room}/python"))
        told = ran.stdout.strip().split("\n")[-1]
        wanted = [f"{it} {'FAILS' if it in self.bad else 'passes'}" for it in BAD]
        if ran.returncode != bool(self.bad) or any(it not in told for it in wanted):
            return f"status {ran.returncode}: {ran.stdout}{ran.stderr}"
        if "minutes" not in told or (self.bad and told == ran.stdout.strip()):
            return f"it tells too little: {ran.stdout}"
        return None if left == ["src", "tests"] else f"it leaves {left}"


def cases() -> Iterator[Gate | PythonGate]:
    yield from GATES
    several: list[list[str]] = [[], ["mypy", "black"], ["pytest", "mypy over python/tests/"]]
    yield from map(PythonGate, several)
