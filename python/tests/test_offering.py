"""What a shell offers behind `propdesk` and the programs."""

import os
import re
import subprocess
import sys
from pathlib import Path

import pytest

# Has a command write what it offers where a shell would read it.
ASKS = 'exec "$@" 8>&1 9>/dev/null 1>/dev/null 2>&1'
BREAKS = " \t\n\"'><=;|&(:"


def asked(line: str, folder: Path, *python: str) -> list[str]:
    """What is offered at the end of a line, in a folder."""
    told = {
        "_ARGCOMPLETE": "1",
        "_ARGCOMPLETE_COMP_WORDBREAKS": BREAKS,
        "_ARGCOMPLETE_SUPPRESS_SPACE": "1",
        "COMP_LINE": line,
        "COMP_POINT": str(len(line)),
        "COMP_TYPE": "9",
    }
    ran = subprocess.run(
        ["bash", "-c", ASKS, "-", sys.executable, *python, "-m", "propbench"],
        env={**os.environ, **told},
        cwd=folder,
        capture_output=True,
        text=True,
        check=True,
    )
    return ran.stdout.split("\013") if ran.stdout else []


@pytest.mark.parametrize(
    ("line", "offers"),
    {
        "propdesk ru": ["run"],
        "propdesk run --keep": ["--keep-going"],
        "propdesk run some.prop --order ": ["fifo", "lifo", "mixed"],
        "propdesk run --order=m": ["mixed"],
        "propdesk run --seconds ": [],
        "propdesk run s": ["some.prop"],
        "propdesk run other": [],
        "propdesk draw some.prop --cell s": [],
        "propdesk draw some.prop --out s": ["some.prop"],
        "propdesk measure --under d": ["device"],
        "propdesk blame --picture s": ["some.prop"],
        "/usr/bin/propbench --o": ["--order"],
        "propbench --order ": ["fifo", "lifo", "mixed"],
        "propwide --order lifo --s": ["--seed"],
        "propwide --limit ": [],
        "propwide s": [],
    }.items(),
)
def test_what_may_come_next(tmp_path: Path, line: str, offers: list[str]) -> None:
    (tmp_path / "some.prop").touch()
    assert asked(line, tmp_path) == offers


def test_a_program_s_options_are_those_that_it_tells(program: str, tmp_path: Path) -> None:
    told = subprocess.run([program, "--help"], capture_output=True, text=True, check=True).stdout
    options = re.findall(r"--\w+", told)
    assert {"--limit", "--help"} < {*options}
    assert sorted(asked("propbench --", tmp_path)) == sorted(options)


def test_nothing_is_offered_without_argcomplete(tmp_path: Path) -> None:
    """Nor said: the line that somebody types stays as it is."""
    (tmp_path / "argcomplete.py").write_text("raise ImportError\n", encoding="utf-8")
    assert asked("propdesk ru", tmp_path) == []
