"""The desk: files that are run, and a conversation."""

import json
import os
import pty
import re
import select
import signal
import subprocess
import sys
import time
from collections.abc import Callable, Iterator
from pathlib import Path
from typing import Any

import pytest
from conftest import ENDLESS, REPOSITORY

from propbench import Reply, Session
from propbench.completion import completions
from propbench.desk import main, parser
from propbench.grammar import FORMS
from propbench.known import Known
from propbench.overview import overview
from propbench.shell import ASIDES, Quit, Shell
from propbench.tables import table

# So many seconds a conversation is waited for, far longer than it takes on a busy machine.
PATIENCE = 300

FIRST = """\
cell x span
cell y span
cell z span
attach sum x y z
tell morning x 3..5
tell evening y 10
why z
"""


@pytest.fixture
def file(tmp_path: Path) -> Callable[[str | bytes], str]:
    """Writes a file, and gives its path."""

    def write(text: str | bytes) -> str:
        path = tmp_path / "plan.prop"
        path.write_bytes(text if isinstance(text, bytes) else text.encode())
        return str(path)

    return write


Write = Callable[[str | bytes], str]


def test_run_shows_replies_and_a_table(
    program: str, file: Write, capsys: pytest.CaptureFixture[str]
) -> None:
    assert main(["run", file(FIRST), "--program", program]) == 0
    out = capsys.readouterr().out.split("\n")
    assert out[:7] == [
        "why z",
        "  z = 13..15 because morning evening",
        "",
        "cell  value   because of",
        "x     3..5    morning",
        "y     10      evening",
        "z     13..15  morning, evening",
    ]
    with Session(program) as session:
        assert ("not known to be proved" in "".join(out)) is not session.proved


def test_run_stops_at_a_refused_line(
    program: str, file: Write, capsys: pytest.CaptureFixture[str]
) -> None:
    path = file(FIRST + "\ntell ana coffe 3\nask x\n")
    assert main(["run", path, "--program", program]) == 1
    shown = capsys.readouterr()
    assert shown.err.split("\n")[:4] == [
        f"{path}:9:10: error 9: no such cell",
        "  tell ana coffe 3",
        "           ^^^^^",
        "  There is no cell `coffe`.",
    ]
    assert "ask x" not in shown.out and "because of" not in shown.out


def test_run_keeps_going(program: str, file: Write, capsys: pytest.CaptureFixture[str]) -> None:
    path = file("ask a\ncell x span\r\nfix x 5..3\nfix x 3\nask x")
    assert main(["run", path, "--keep-going", "--program", program]) == 1
    shown = capsys.readouterr()
    assert [line for line in shown.err.split("\n") if line.startswith(path)] == [
        f"{path}:1:5: error 9: no such cell",
        f"{path}:3:7: error 18: empty value",
    ]
    assert "ask x\n  x = 3\n" in shown.out
    assert "x     3      no premise\n" in shown.out


def test_run_as_json(program: str, file: Write, capsys: pytest.CaptureFixture[str]) -> None:
    path = file(FIRST + "aks x\n")
    assert main(["run", path, "--json", "--keep-going", "--program", program]) == 1
    said = json.loads(capsys.readouterr().out)
    assert said["asked"] == [
        {"line": 7, "text": "why z", "reply": "z = 13..15 because morning evening"}
    ]
    assert said["cells"]["z"] == {"value": "13..15", "because": ["morning", "evening"]}
    [refused] = said["refused"]
    assert (refused["line"], refused["column"], refused["word"]) == (8, 1, "aks")
    assert (refused["number"], refused["near"]) == (3, ["ask"])
    assert (said["complete"], said["settled"], said["conflict"]) == (True, True, None)


Spoil = Callable[[dict[str, Any]], object]


def spoilt(report: dict[str, Any], spoil: Spoil) -> dict[str, Any]:
    """The report with one of its answers changed."""
    copy: dict[str, Any] = json.loads(json.dumps(report))
    spoil(copy)
    return copy


def test_check_of_a_report(
    program: str, file: Write, tmp_path: Path, capsys: pytest.CaptureFixture[str]
) -> None:
    lines = FIRST.encode() + b"# \xff\nask w\nchoose c x 4 or 7\nask x\n"
    assert main(["run", file(lines), "--json", "--keep-going", "--program", program]) == 1
    report = json.loads(capsys.readouterr().out)
    where = tmp_path / "report.json"

    def checked(told: dict[str, Any]) -> tuple[int, str]:
        where.write_text(json.dumps(told))
        status = main(["check", str(where), "--program", program])
        return status, capsys.readouterr().out

    status, out = checked(report)
    assert status == 0
    assert "All 7 answers of the report are the program's.\n" in out
    spoils: list[tuple[Spoil, str]] = [
        (
            lambda it: it["asked"][0].update(reply="z = 13..14 because morning evening"),
            "line 7: the report says `z = 13..14 because morning evening`, the program `z = 13..15",
        ),
        (lambda it: it["asked"].pop(), "line 11: the report says `None`, the program `x = 4`"),
        (lambda it: it["refused"][1].update(number=10), "line 9: the report says `10`"),
        (lambda it: it["cells"]["x"].update(value="7"), "x: the report says"),
        (lambda it: it["cells"].pop("y"), "y: the report says `None`"),
        (lambda it: it["plan"].append("c=2"), "plan: the report says"),
        (lambda it: it.update(conflict=["morning"]), "conflict: the report says"),
        (lambda it: it["lines"].insert(4, "tell dawn x 3"), "line 7: the report says"),
    ]
    for spoil, said in spoils:
        status, out = checked(spoilt(report, spoil))
        assert (status, out.count(said)) == (1, 1), out


def test_check_of_what_is_no_report(
    program: str, file: Write, capsys: pytest.CaptureFixture[str]
) -> None:
    whole = '"file": "f", "lines": [], "way": {}, "cells": {}, "complete": true, "settled": true'
    whole += ', "conflict": null, "plan": []'
    some = [f'{{{whole}, "asked": [{{}}], "refused": []}}', f'{{{whole}, "asked": 3}}']
    paced = whole.replace('"way": {}', '"way": {"seed": []}')
    some.append(f'{{{paced}, "asked": [], "refused": []}}')
    for text in (FIRST, "{}", "[]", '{"way": {"pace": 3}}', *some):
        assert main(["check", file(text), "--program", program]) == 3
        assert "no report of `propdesk run --json`" in capsys.readouterr().err


def test_run_shows_a_conflict(
    program: str, file: Write, capsys: pytest.CaptureFixture[str]
) -> None:
    assert main(["run", file(FIRST + "tell noon z 40\n"), "--program", program]) == 0
    out = capsys.readouterr().out
    assert "CONFLICT: morning, evening, noon can't all hold. They say:" in out
    assert re.search(r"^  noon +z = 40$", out, flags=re.M)


def test_run_shows_the_plan(program: str, file: Write, capsys: pytest.CaptureFixture[str]) -> None:
    assert main(["run", file(FIRST + "choose pace z 20 or 14\n"), "--program", program]) == 0
    out = capsys.readouterr().out
    assert re.search(r"^x +4 +evening, pace: z = 14$", out, flags=re.M)
    assert "this plan, the first that fits: pace: z = 14." in out


def test_run_is_cut_after_seconds(
    program: str, file: Write, capsys: pytest.CaptureFixture[str]
) -> None:
    begun = time.monotonic()
    assert main(["run", file("\n".join(ENDLESS)), "--seconds", "0.2", "--program", program]) == 0
    assert time.monotonic() - begun < 60
    assert "This is not settled" in capsys.readouterr().out


@pytest.mark.parametrize("path", sorted((REPOSITORY / "examples").glob("**/*.prop")))
def test_run_of_the_examples(program: str, path: Path, capsys: pytest.CaptureFixture[str]) -> None:
    assert main(["run", str(path), "--program", program]) == 0
    out = capsys.readouterr().out
    wanted = path.with_suffix(".out").read_text(encoding="utf-8").split("\n")
    replies = [line for line in wanted if line and line != "ok"]
    assert [line[2:] for line in out.split("\n") if line.startswith("  ")][
        : len(replies)
    ] == replies


def test_run_of_what_is_no_file(
    program: str, file: Write, capsys: pytest.CaptureFixture[str]
) -> None:
    assert main(["run", "/nowhere/plan.prop", "--program", program]) == 3
    assert capsys.readouterr().err == "propdesk: /nowhere/plan.prop: No such file or directory\n"
    assert main(["run", file(FIRST), "--program", "/nowhere/propbench"]) == 3
    assert main(["run", file(FIRST), "--program", program, "--limit", "-1"]) == 2
    assert main(["run", file(b"cell x span\nask \xff\n"), "--program", program]) == 1
    assert "plan.prop:2:5: error 2: not UTF-8\n  ask \\xff\n      ^^^^" in capsys.readouterr().err


def test_the_parser_can_be_shown() -> None:
    text = parser().format_help()
    assert re.findall(r"^ {4}(\w+)", text, flags=re.M) == [
        "run",
        "shell",
        "check",
        "blame",
        "plan",
        "measure",
        "minizinc",
        "page",
        "draw",
    ]
    with pytest.raises(SystemExit) as caught:
        main(["no such command"])
    assert caught.value.code == 2


def test_the_module_is_the_desk(program: str, file: Write) -> None:
    ran = subprocess.run(
        [sys.executable, "-m", "propbench", "run", file(FIRST), "--program", program],
        env={**os.environ, "PYTHONPATH": str(REPOSITORY / "python/src")},
        capture_output=True,
        text=True,
        check=False,
    )
    assert (ran.returncode, ran.stderr) == (0, "")
    assert "z = 13..15 because morning evening" in ran.stdout


class Talk:
    """A shell whose texts are kept."""

    def __init__(self, session: Session) -> None:
        self.said: list[str] = []
        self.shell = Shell(session, self.said.append)

    def __call__(self, line: str) -> str:
        """What is written to a line."""
        self.said.clear()
        self.shell.obey(line)
        return "\n".join(self.said)


@pytest.fixture
def talk(program: str) -> Iterator[Talk]:
    """A shell in which the first lines have been said."""
    with Session(program) as session:
        session.send_all(FIRST.split("\n"))
        yield Talk(session)


def test_shell_answers(talk: Talk) -> None:
    assert talk("ask z") == "z = 13..15"
    assert talk("# a note") == ""
    assert talk("ask zz") == (
        "error 9: no such cell\n  ask zz\n      ^^\n  There is no cell `zz`. Did you mean z?"
    )
    assert talk("tell noon z 40") == "ok"
    assert talk("ask z") == (
        "contradiction: morning evening noon\n  morning says x = 3..5\n  evening says y = 10\n"
        "  noon says z = 40"
    )


def test_shell_lists(talk: Talk) -> None:
    talk("choose pace z 20 or 14")
    talk("kick evening")
    assert talk(":list premises") == (
        "premise       says\nmorning  in   x = 3..5\nevening  out  y = 10"
    )
    assert talk(":list choices") == "side    says\npace=1  z = 20\npace=2  z = 14"
    assert "pace: z = 20" in talk(":list cells")
    assert talk(":list attached") == "attach sum x y z"
    talk("define twice x y = sum x x y")
    assert talk(":list def") == "define twice x y = sum x x y"
    whole = talk(":list")
    assert all(f"{name}:" in whole for name in ("cells", "premises", "choices", "attached"))
    assert "no list foo" in talk(":list foo")


def test_shell_takes_back(talk: Talk) -> None:
    talk("tell noon z 40")
    talk("ask z")
    talk("limit 77")
    assert talk(":undo") == "Taken back: tell noon z 40"
    assert talk("ask z") == "z = 13..15"
    assert talk(":limit") == "A run takes at most 77 steps."
    for _ in range(6):
        assert talk(":undo").startswith("Taken back: ")
    assert talk(":undo") == "There is nothing to take back."
    assert "no cell" in talk("ask x")


def test_shell_saves_and_loads(talk: Talk, tmp_path: Path, program: str) -> None:
    path = tmp_path / "saved.prop"
    assert talk(f":save {path}") == f"7 lines are written to {path}."
    assert path.read_text(encoding="utf-8") == FIRST
    with Session(program) as session:
        other = Talk(session)
        text = other(f":load {path}")
        assert text.split("\n") == [
            "why z",
            "z = 13..15 because morning evening",
            f"7 lines of {path} are carried out.",
        ]
        again = other(f":load {path}")
        assert again.startswith(f"{path}:1:6: error 7: name taken")
    assert "No such file" in talk(":load /nowhere/plan.prop")
    assert talk(":save") == "Say where: :save FILE"


def test_shell_steps(program: str) -> None:
    with Session(program) as session:
        session.send_all(ENDLESS)
        talk = Talk(session)
        assert talk(":step").split("\n") == [
            "cell  before                  now",
            "x     0..1000000000000000000  1..1000000000000000000",
            "There is more to do.",
        ]
        assert "6..1000000000000000000" in talk(":step 5")
        assert session.limit == 10**9
        assert talk(":step many") == talk(":step -1") == "Say how many: :step N"


def test_shell_helps(talk: Talk) -> None:
    whole = talk(":help")
    assert all(command in whole for command in [*FORMS, *ASIDES])
    assert "tell P X V" in talk(":help tell")
    assert "There is no :foo" in talk(":foo")
    for word, says in (("help", ":help"), ("?", ":help"), ("quit", ":quit"), ("exit now", ":quit")):
        name = word.split()[0]
        assert talk(word).startswith(f"{name} is no command of the language. Write {says} ")
    with pytest.raises(Quit):
        talk(":quit")


def test_ctrl_c_ends_a_run_and_not_the_shell(program: str, monkeypatch: pytest.MonkeyPatch) -> None:
    with Session(program) as session:
        session.send_all(ENDLESS)
        talk = Talk(session)

        def stop(steps: int, reply: Reply) -> None:
            raise KeyboardInterrupt

        monkeypatch.setattr(talk.shell, "_progress", stop)
        assert talk("ask x") == "Stopped. The next question goes on from there."
        assert talk("kick start") == "ok"


def test_a_program_that_ended_is_begun_anew(talk: Talk) -> None:
    os.kill(talk.shell.session.pid, 9)
    assert "SIGKILL; it is begun anew" in talk("nogoods")
    assert talk("ask z") == "z = 13..15"


@pytest.mark.parametrize(
    "text, begun, found",
    [
        ("", "", [*FORMS, *ASIDES]),
        ("as", "as", ["ask"]),
        ("wor", "wor", ["worldview"]),
        (":s", ":s", [":step", ":save"]),
        ("ask ", "", ["coffee", "open", "review"]),
        ("ask co", "co", ["coffee"]),
        ("ask coffee ", "", []),
        ("cell tea ", "", ["span", "truth", "symbol", "day"]),
        ("attach add", "add", ["adder"]),
        ("attach adder ", "", ["coffee"]),
        ("attach not ", "", ["coffee", "open", "review"]),
        ("attach inverter ", "", ["open"]),
        ("attach imager review review b", "b", ["by"]),
        ("attach imager review review by ", "", ["before"]),
        ("kick ", "", ["ana"]),
        ("tell ana review ", "", ["mon", "tue", "{"]),
        ("tell ana review {mon ", "", ["mon", "tue", "}"]),
        ("tell ana review {m", "m", ["mon"]),
        ("choose c review mon ", "", ["or"]),
        ("choose c review mon or t", "t", ["tue"]),
        ("fix open ", "", ["yes", "no", "{"]),
        ("relation r d", "d", ["day"]),
        ("relation r day day = ", "", ["mon", "tue"]),
        ("define n x y = ", "", None),
        ("define n x y = sum x ", "", ["x", "y", "by", ";"]),
        ("define n x = local m like ", "", ["x", "m", ";"]),
        ("hello ", "", []),
    ],
)
def test_completions(program: str, text: str, begun: str, found: list[str] | None) -> None:
    with Session(program) as session:
        session.send_all(
            [
                "domain day mon tue",
                "relation before day day = mon tue",
                "cell coffee span",
                "cell open truth",
                "cell review day",
                "tell ana coffee 3",
            ]
        )
        word, words = completions(text, session.known, ASIDES)
    assert word == begun
    if found is None:
        assert {"local", "sum", "adder"} <= set(words)
    else:
        assert words == found


def test_completion_of_every_front_of_a_line() -> None:
    """Whatever stands before the cursor, each completion begins with the word that is begun."""
    known = Known()
    for line in [*FIRST.split("\n"), "define n x = local m like x ; sum x m m by *", "fix x {a b}"]:
        for end in range(len(line) + 1):
            begun, words = completions(line[:end], known)
            assert line[:end].endswith(begun)
            assert all(word.startswith(begun) for word in words)


def test_the_lexer_colours_words_by_their_role() -> None:
    lexer = pytest.importorskip("propbench.lexer")
    from pygments.token import Comment, Error, Keyword, Name, Number

    text = "# a note\ntell ana x 3..5\n  ask x y\nhello\n"
    pieces = list(lexer.PropbenchLexer().get_tokens_unprocessed(text))
    assert "".join(piece for _, _, piece in pieces) == text
    assert [place for place, _, _ in pieces] == sorted(place for place, _, _ in pieces)
    kinds = {(kind, piece) for _, kind, piece in pieces}
    assert {(Comment, "# a note"), (Keyword, "tell"), (Name.Decorator, "ana")} <= kinds
    assert {(Number, "3..5"), (Error, " y"), (Error, "hello"), (Name.Variable, "x")} <= kinds


def test_tables_are_aligned() -> None:
    assert table(("a", "bb"), [("日本", "x"), ("\x1b", "")]) == "a     bb\n日本  x\n\\x1b"


def test_long_texts_of_a_table_go_on_below() -> None:
    rows = [("x", "one two three four five six"), ("yy", "seven")]
    assert table(("a", "b"), rows, "  ", most=26) == (
        "  a   b\n  x   one two three four\n      five six\n  yy  seven"
    )


def test_a_premise_that_conflicts_alone(talk: Talk) -> None:
    talk("tell noon x 9")
    talk("kick morning")
    talk("fix x 3")
    assert talk(":list cells").split("\n")[:4] == [
        "CONFLICT: noon can't hold. It says:",
        "  premise  says",
        "  noon     x = 9",
        "Give it up by `kick`.",
    ]


def test_an_overview_leaves_no_trace(talk: Talk) -> None:
    session = talk.shell.session
    session.send("settle")
    before = session.lines
    assert [str(value) for value in overview(session).values][2] == (
        "z = 13..15 because morning evening"
    )
    assert session.lines == [*before, "settle"]


def status_of(pid: int) -> int | None:
    """The exit status of a child that ends, None where it doesn't in time."""
    begun = time.monotonic()
    while time.monotonic() - begun < PATIENCE:
        ended, status = os.waitpid(pid, os.WNOHANG)
        if ended:
            return os.waitstatus_to_exitcode(status)
        time.sleep(0.02)
    return None


def test_a_conversation_at_a_terminal(program: str, tmp_path: Path) -> None:
    """Completion, history, Ctrl-C in a run, and the end by Ctrl-D, at a pseudo-terminal."""
    pytest.importorskip("prompt_toolkit")
    state = {"XDG_STATE_HOME": str(tmp_path), "TERM": "xterm", "PROMPT_TOOLKIT_NO_CPR": "1"}
    pid, terminal = pty.fork()
    if pid == 0:
        os.environ.update(state, PYTHONPATH=str(REPOSITORY / "python/src"))
        os.execv(sys.executable, [sys.executable, "-m", "propbench", "shell", "--program", program])
    seen = ""
    status: int | None = None

    def until(wanted: str) -> str:
        nonlocal seen
        begun = time.monotonic()
        while wanted not in seen:
            assert time.monotonic() - begun < PATIENCE, f"{wanted!r} is not in {seen!r}"
            if select.select([terminal], [], [], 0.1)[0]:
                seen += os.read(terminal, 65536).decode(errors="replace")
        before, seen = seen.split(wanted, 1)
        return before

    def type_in(text: str) -> None:
        os.write(terminal, text.encode())

    try:
        until(">")
        for line in ENDLESS:
            type_in(f"{line}\r")
            until("ok")
            until(">")
        type_in("as\t")
        time.sleep(1)
        type_in(" x\r")
        until("steps so far")
        type_in("\x03")
        until("Stopped.")
        until(">")
        type_in("kick start\r")
        until("ok")
        until(">")
        type_in("ask y\r")
        until("^")
        until(">")
        type_in("\x04")
        status = status_of(pid)
    finally:
        os.close(terminal)
        if status is None:
            os.kill(pid, signal.SIGKILL)
            os.waitpid(pid, 0)
    assert status == 0
    history = (tmp_path / "propbench/history").read_text(encoding="utf-8")
    assert "+kick start" in history and "+ask x" in history
