"""A session answers as the program does on a bare pipe, line by line, however lines are sent."""

import os
import random
import signal
from collections.abc import Iterable
from pathlib import Path

import pytest
from conftest import REPOSITORY, Bare
from drawing import Drawer
from hypothesis import example, given
from hypothesis import strategies as st
from transcripts import Transcript, transcripts

from propbench import ProgramEnded, Refused, Reply, Session, Silent
from propbench.words import as_line

OPTIONS = ["--limit", "2000"]
WORKED = [
    transcript
    for path in sorted((REPOSITORY / "tests/sessions").glob("*.session"))
    for transcript in transcripts(str(path))
]
EXAMPLES = sorted((REPOSITORY / "examples").glob("**/*.prop"))


def said(reply: Reply | Refused) -> str:
    """What the program wrote for a reply."""
    if isinstance(reply, Silent):
        return ""
    return (reply.reply if isinstance(reply, Refused) else str(reply)) + "\n"


def sent(session: Session, line: str | bytes) -> Reply | Refused:
    """The reply to a line that is sent alone."""
    try:
        return session.send(line)
    except Refused as refused:
        return refused


def in_pieces(session: Session, lines: list[str | bytes], sizes: Iterable[int]) -> list[str]:
    """What is written for each line, where pieces of these sizes are sent at once; a piece of 0 is
    one line that is sent alone."""
    texts: list[str] = []
    for size in sizes:
        piece = lines[len(texts) : len(texts) + max(size, 1)]
        if size == 0 and piece:
            texts.append(said(sent(session, piece[0])))
        else:
            texts += [said(reply) for reply in session.send_all(piece, keep_refused=True)]
    texts += [said(reply) for reply in session.send_all(lines[len(texts) :], keep_refused=True)]
    return texts


def drawn(seed: int, count: int) -> list[str | bytes]:
    """A random session, some lines of which are refused."""
    drawer = Drawer(random.Random(seed))
    lines: list[str | bytes] = list(drawer.beginning())
    for _ in range(count):
        spoiled = drawer.chance.random() < 0.2
        lines.append(drawer.spoiled().line if spoiled else drawer.line())
    return lines


ANY_LINE = st.one_of(
    st.text(st.characters(blacklist_characters="\n"), max_size=30),
    st.binary(max_size=30).filter(lambda line: b"\n" not in line),
    st.lists(
        st.sampled_from(
            "cell ask why tell fix choose limit worldview nogoods settle define x y span truth"
            " symbol { } = ; * or by local like 3 1..2 because # \t \r error".split(" ")
        ),
        max_size=8,
    ).map(" ".join),
)


@given(st.lists(ANY_LINE, max_size=30), st.lists(st.integers(0, 5), max_size=12))
@example([b"\xff", "\ud800", "# \udcff", "\r", "\r\r", "x" * 4097, " " * 4097, "\x0c# no"], [0])
@example(["cell error symbol", "tell p error error", "ask error", "why error"], [0, 0, 0, 0])
def test_any_lines_are_answered_as_on_a_bare_pipe(
    program: str, bare: Bare, lines: list[str | bytes], sizes: list[int]
) -> None:
    with Session(program, limit=2000) as session:
        texts = in_pieces(session, lines, sizes)
    assert len(texts) == len(lines)
    assert "".join(texts) == bare(lines, OPTIONS)


@given(st.integers(0, 2**32), st.lists(st.integers(0, 40), max_size=30))
def test_drawn_sessions_are_answered_as_on_a_bare_pipe(
    program: str, bare: Bare, seed: int, sizes: list[int]
) -> None:
    lines = drawn(seed, 60)
    with Session(program, limit=2000) as session:
        texts = in_pieces(session, lines, sizes)
    assert len(texts) == len(lines)
    assert "".join(texts) == bare(lines, OPTIONS)


@given(st.integers(0, 2**32), st.integers(0, 80))
def test_what_was_carried_out_is_answered_alike(
    program: str, bare: Bare, seed: int, killed: int
) -> None:
    """The program is killed behind any line, and the session begun anew: what comes then is as if
    nothing had happened."""
    lines = drawn(seed, 60)
    with Session(program, limit=2000) as session:
        texts = in_pieces(session, lines[:killed], [])
        os.kill(session.pid, signal.SIGKILL)
        with pytest.raises(ProgramEnded, match="SIGKILL"):
            session.send("nogoods")
        session.replay()
        texts += in_pieces(session, lines[killed:], [0, 3, 0])
        carried = session.lines
    assert "".join(texts) == bare(lines, OPTIONS)
    wanted = "".join(text for text in texts if text and not text.startswith("error "))
    assert bare(carried, OPTIONS) == wanted


@pytest.mark.parametrize("transcript", WORKED, ids=lambda transcript: str(transcript.name))
def test_worked_sessions(program: str, transcript: Transcript) -> None:
    options = dict(zip(transcript.options[::2], transcript.options[1::2]))
    with Session(
        program,
        order=options.get("--order", "fifo"),
        seed=int(options.get("--seed", "0")),
        limit=int(options["--limit"]) if "--limit" in options else None,
    ) as session:
        for line, wanted in transcript.exchanges:
            assert said(sent(session, line)).encode() == wanted, line


@pytest.mark.parametrize("path", EXAMPLES, ids=lambda path: str(path.name))
def test_examples(program: str, path: Path) -> None:
    with Session(program) as session, open(path, encoding="utf-8") as lines:
        texts = [said(reply) for reply in session.send_all(lines)]
    assert "".join(texts) == path.with_suffix(".out").read_text(encoding="utf-8")


def worked() -> float:
    """The seconds of one processor that this process has used, and its children that ended: what
    else the machine is at makes no difference."""
    times = os.times()
    return sum(times[:4])


def test_a_million_lines_at_once(program: str) -> None:
    lines = ["cell x span", "attach sum x x x"]
    lines += [("ask x", "# a note", "kick nobody", "nogoods")[i % 4] for i in range(1_000_000)]
    begun = worked()
    with Session(program) as session:
        replies = session.send_all(lines, keep_refused=True)
        assert str(session.send("ask x")) == "x = nothing"
    assert worked() - begun < 60
    assert [said(reply) for reply in replies[2:6]] == [
        "x = nothing\n",
        "",
        "error 10: no such premise\n",
        "nogoods 0\n",
    ]
    assert [type(reply) for reply in replies[2:]] == [
        type(reply) for reply in replies[2:6]
    ] * 250_000
    last = replies[-2]
    assert isinstance(last, Refused) and last.line_number == len(lines) - 1


def test_long_replies_at_once(program: str, bare: Bare) -> None:
    """Replies that fill any pipe while lines are still sent."""
    lines = ["cell x span", *(f"tell premise_with_a_long_name_{i} x 0..9" for i in range(3000))]
    lines += ["worldview", "why x"] * 300
    with Session(program) as session:
        texts = [said(reply) for reply in session.send_all(lines)]
    assert "".join(texts) == bare(lines, [])


def test_a_line_feed_stands_in_no_line(program: str) -> None:
    with Session(program) as session:
        with pytest.raises(ValueError, match="line feed"):
            session.send("cell x span\ncell y span")
        with pytest.raises(ValueError, match="line feed"):
            session.send_all(["cell x span", "cell y span\nask y"])
        assert session.lines == []
        session.send_all(["cell x span\n", b"ask x\n"])
        assert session.lines == ["cell x span", "ask x"]


def test_lines_are_texts_one_by_one(program: str) -> None:
    with Session(program) as session:
        for one in ("cell x span\ncell y span", b"cell x span"):
            with pytest.raises(TypeError, match="one by one: those of a text are its `.splitlines"):
                session.send_all(one)  # type: ignore[arg-type]  # (wrong on purpose)
        with pytest.raises(TypeError, match="a line is a text: 3"):
            session.send(3)  # type: ignore[arg-type]  # (wrong on purpose)
        assert session.lines == [] and str(session.send("settle")) == "settled"


def test_as_line_keeps_what_is_no_text() -> None:
    assert as_line(b"ask \xff\n") == "ask \udcff"
