"""Hostile files for every reader: of tests/hostile/, and such as are made of them by spoiling.

Each is answered in words and by a status: no traceback, no file that wasn't asked for, no end that
doesn't come, nothing on a terminal that moves it, and of a session no line that wasn't there.
`PROPBENCH_TESTS=100` spoils a hundred times as many.
"""

import contextlib
import io
import json
import os
import re
import signal
from collections.abc import Callable, Iterator
from pathlib import Path
from tempfile import TemporaryDirectory
from types import FrameType

import pytest
from conftest import TIMES
from hypothesis import given, settings
from hypothesis import strategies as st

from propbench.desk import main as desk
from propbench.flatzinc.command import main as solver
from propbench.showing import shown

HOSTILE = Path(__file__).parent / "hostile"
# No end that doesn't come: so many seconds, of which a file takes some hundredths.
PATIENCE = 300
Reader = Callable[[str], int]


def run(path: str) -> int:
    return desk(["run", path, "--seconds", "1", "--limit", "2000", "--keep-going"])


def run_as_json(path: str) -> int:
    return desk(["run", path, "--json", "--seconds", "1", "--limit", "2000"])


def draw(path: str) -> int:
    return desk(["draw", path, "--limit", "2000", "--out", "picture.dot"])


def check(path: str) -> int:
    return desk(["check", path])


def solve(path: str) -> int:
    return solver([path, "-t", "300"])


def blame(path: str) -> int:
    return desk(["blame", path, "--seconds", "0.3", "--most", "3", "--picture", "picture.dot"])


READERS: list[tuple[str, str, Reader]] = [
    ("sessions", "f.prop", run),
    ("sessions", "f.prop", run_as_json),
    ("sessions", "f.prop", draw),
    ("workbenches", "f.prop", draw),
    ("workbenches", "f.prop", run_as_json),
    ("certificates", "f.claim", check),
    ("reports", "f.json", check),
    ("flatzinc", "f.fzn", solve),
    ("flatzinc", "f.fzn", blame),
]
IDS = [f"{folder} {reader.__name__}" for folder, _, reader in READERS]
SEEDS = {
    folder: [path.read_bytes() for path in sorted((HOSTILE / folder).iterdir())]
    for folder in ("sessions", "workbenches", "certificates", "reports", "flatzinc")
}


@contextlib.contextmanager
def patience() -> Iterator[None]:
    """What takes longer is a hang."""

    def stop(number: int, frame: FrameType | None) -> None:
        raise TimeoutError("no end after minutes")

    before = signal.signal(signal.SIGALRM, stop)
    signal.alarm(PATIENCE)
    try:
        yield
    finally:
        signal.alarm(0)
        signal.signal(signal.SIGALRM, before)


def answered(name: str, reader: Reader, data: bytes) -> str:
    """What a reader writes to standard output for a file of this content. Nothing else comes of it
    than words and a status."""
    out, errors, here = io.StringIO(), io.StringIO(), os.getcwd()
    with TemporaryDirectory() as folder, patience():
        Path(folder, name).write_bytes(data)
        os.chdir(folder)
        try:
            with contextlib.redirect_stdout(out), contextlib.redirect_stderr(errors):
                status = reader(name)
        finally:
            os.chdir(here)
        assert status in (0, 1, 2, 3)
        assert set(os.listdir(folder)) <= {name, "picture.dot"}
        assert Path(folder, name).read_bytes() == data
    assert "Traceback" not in errors.getvalue()
    for text in (out.getvalue(), errors.getvalue()):
        assert shown(text) == text.replace("\t", " ")
    assert status == 0 or out.getvalue() or errors.getvalue()
    return out.getvalue()


def check_lines(data: bytes, out: str) -> None:
    """The lines of a report are those of the file, and what is answered are some of them."""
    if not out:
        return
    told = json.loads(out)
    lines = data.decode("utf-8", "surrogateescape").split("\n")
    assert told["lines"] == (lines if lines[-1] else lines[:-1])
    for each in told["asked"]:
        assert told["lines"][each["line"] - 1] == each["text"]


@pytest.mark.parametrize("folder, name, reader", READERS, ids=IDS)
def test_the_files(folder: str, name: str, reader: Reader) -> None:
    for data in SEEDS[folder]:
        out = answered(name, reader, data)
        if reader is run_as_json:
            check_lines(data, out)


TOKENS = [
    *(b"\0", b"\x1b[2J", b"\xff", b"\xe2\x80\xae", b"\r", b"\n", b"\xef\xbb\xbf", b"\xed\xb0\x80"),
    *(b"9" * 30, b"9" * 5000, b"-", b"..", b"1e999999999", b"1/0", b"NaN", b"-1", b"0", b"null"),
    *(b"[", b"]", b"{", b"}", b'"', b"\\", b",", b":", b"[" * 3000, b'{"a":' * 3000, b"true"),
    *(b"a" * 5000, b"x", b"__proto__", b"yes", b"by", b"*", b"var ", b"constraint ", b"::", b"("),
    *(b"tell p x 3\n", b"cell x span\n", b"kick ana\n", b"ask x\n", b"#: {}\n", b"#+ ", b"../../x"),
]
NUMBER = re.compile(rb"-?[0-9]+")


@st.composite
def spoilt(draw: st.DrawFn, folder: str) -> bytes:
    """A file of a folder in which something is changed, put in, left out, or said twice."""
    data = draw(st.sampled_from(SEEDS[folder]))
    for _ in range(draw(st.integers(1, 3))):
        start = draw(st.integers(0, len(data)))
        end = min(len(data), start + draw(st.integers(0, 40)))
        token = draw(st.sampled_from(TOKENS))
        numbers = [found.span() for found in NUMBER.finditer(data)]
        sort = draw(st.sampled_from(["put", "cut", "twice", "other", "number", "end", "splice"]))
        if sort == "number" and numbers:
            start, end = draw(st.sampled_from(numbers))
        if sort == "splice":
            other = draw(st.sampled_from(SEEDS[folder]))
            token = other[draw(st.integers(0, len(other))) :]
        found = {
            "put": data[:start] + token + data[start:],
            "cut": data[:start] + data[end:],
            "twice": data[:end] + data[start:],
            "end": data[:start],
        }
        data = found.get(sort, data[:start] + token + data[end:])
    return data


@pytest.mark.parametrize("folder, name, reader", READERS, ids=IDS)
def test_what_is_made_of_them(folder: str, name: str, reader: Reader) -> None:
    @settings(max_examples=80 * TIMES)
    @given(spoilt(folder))
    def is_answered(data: bytes) -> None:
        out = answered(name, reader, data)
        if reader is run_as_json:
            check_lines(data, out)

    is_answered()
