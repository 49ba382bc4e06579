"""Texts for eyes: nothing that somebody wrote moves the cursor, hides, or turns what is beside
it."""

import json
import unicodedata
from pathlib import Path

import pytest
from hypothesis import given
from hypothesis import strategies as st

from propbench import Conflict, Refused, Session, Workbench
from propbench.desk import main
from propbench.flatzinc.picture import dot_of
from propbench.questions.conflicts import SetSearch, find_both
from propbench.shell import Shell
from propbench.showing import cut, printable

# A colour, a window's title, the cursor, C1's own start of these, a turn, two marks without a
# width, a separator, a filler.
BAD = [
    "\x1b[31m",
    "\x1b]0;x\x07",
    "\x08",
    "\x9b2J",
    "\u202e",
    "\u200b",
    "\ufeff",
    "\u2028",
    "\u3164",
]
NAME = "a" + "b".join(BAD) + "z"
# What no eye may get, by Unicode's own classes, and what has no width though it is a letter.
UNSEEN = ("Cc", "Cf", "Cs", "Co", "Cn", "Zl", "Zp")
FILLERS = "\u115f\u1160\u3164\uffa0\u034f"


def is_clean(text: str) -> bool:
    """Whether a text of lines has nothing for which a terminal does something."""
    return not any(
        unicodedata.category(each) in UNSEEN or each in FILLERS
        for line in text.split("\n")
        for each in line
    )


@given(st.text())
def test_what_is_printable_can_be_seen(text: str) -> None:
    assert is_clean(printable(text)) and "\n" not in printable(text)
    if is_clean(text) and text.isprintable():
        assert printable(text) == text


def test_long_texts_are_cut() -> None:
    assert cut("x" * 200) == "x" * 200
    assert cut("x" * 201) == "x" * 200 + ".. (1 more letters)"
    assert cut("\x1b" * 1000) == r"\x1b" * 200 + ".. (800 more letters)"


@pytest.mark.parametrize(
    "line",
    [
        "x" * 2_000_000,
        "tell ana x " + "y" * 2_000_000,
        "tell ana x " + "y " * 1_000_000,
        "é" * 3000,
        "cell " + "y" * 3000 + " " + "spam" * 200,
        "\udcff" * 3000,
    ],
    ids=["word", "long word", "words", "wide", "behind", "no text"],
)
def test_a_refused_line_is_shown_to_200_letters(program: str, line: str) -> None:
    with Session(program) as session:
        with pytest.raises(Refused) as refused:
            session.send(line)
        said: list[str] = []
        Shell(session, said.append).obey(line)
    for text in (refused.value.told("plan.prop:1"), *said):
        # (of a letter that can't be shown four stand for one)
        assert all(len(row) < 1000 for row in text.split("\n")) and len(text) < 3000
        assert is_clean(text)


def test_the_word_is_pointed_to_in_a_long_line(program: str) -> None:
    with Session(program) as session:
        session.send("cell x span")
        with pytest.raises(Refused) as refused:
            session.send("fix x" + " " * 2000 + "5..3" + " " * 1000)
    line, carets = refused.value.pointed().split("\n")
    assert line[carets.index("^") :].startswith("5..3") and carets.count("^") == 4
    assert len(line) < 300


def test_a_terminal_gets_no_orders(tmp_path: Path, capsys: pytest.CaptureFixture[str]) -> None:
    """Neither by a file's name, nor a line, nor a name in it."""
    path = tmp_path / f"{NAME.replace('/', '')}.prop"
    path.write_text(f"# {NAME}\ncell x span\ncell \u3164y span\n{NAME}\nfix x 3\nask x\n")
    assert main(["run", str(path)]) == 1
    assert main(["run", str(path), "--keep-going"]) == 1
    assert main(["run", f"{tmp_path}/{NAME}"]) == 3
    assert main(["draw", str(path), "--cell", NAME]) in (1, 2)
    assert main(["draw", f"{tmp_path}/{NAME}"]) == 3
    assert main(["page", f"{tmp_path}/{NAME}"]) == 3
    assert main(["check", f"{tmp_path}/{NAME}"]) == 3
    assert main(["blame", f"{tmp_path}/{NAME}.fzn"]) == 3
    shown = capsys.readouterr()
    assert is_clean(shown.out) and is_clean(shown.err) and r"\u202e" in shown.err
    said: list[str] = []
    with Session() as session:
        shell = Shell(session, said.append)
        for line in ("cell \u3164y span", "tell \u115fp \u3164y 3", "tell q \u3164y 4", "settle"):
            shell.obey(line)
        for line in (NAME, f":{NAME}", f":load {NAME}", f":save /nowhere/{NAME}", f":help {NAME}"):
            shell.obey(line)
        for line in (":list", f":draw {NAME}.svg", f":how {NAME}", f":list {NAME}", ":undo"):
            shell.obey(line)
    assert all(map(is_clean, said))


def test_a_report_has_none_either(tmp_path: Path, capsys: pytest.CaptureFixture[str]) -> None:
    """In JSON each is told by its number, so that what is read is the same."""
    path = tmp_path / "plan.prop"
    lines = [f"# {NAME}\U000e0001\x7f", "cell \u3164y span", "# \u05d0 é"]
    path.write_text("\n".join(lines) + "\n")
    main(["run", str(path), "--json"])
    text = capsys.readouterr().out
    assert is_clean(text) and json.loads(text)["lines"] == lines
    assert "\u05d0 é" in text


MARKED = """\
var 1..9: x :: output_var;
var bool: a :: var_is_introduced :: is_defined_var;
constraint int_le_reif(10,x,a) :: defines_var(a);
constraint propbench_blame(a,"LABEL");
solve satisfy;
"""


def test_blame_and_its_picture_have_none(
    program: str, tmp_path: Path, capsys: pytest.CaptureFixture[str]
) -> None:
    model, picture = tmp_path / "m.fzn", tmp_path / "m.dot"
    label = NAME.replace("\n", "")
    model.write_text(MARKED.replace("LABEL", label), encoding="utf-8")
    assert main(["blame", str(model), "--picture", str(picture), "--program", program]) == 0
    out = capsys.readouterr().out
    assert is_clean(out) and r"\u202e" in out
    assert is_clean(picture.read_text()) and r"\\u202e" in picture.read_text()
    with Workbench(program) as w:
        x = w.number(NAME, 0, 9)
        w.tell(NAME, x, 3)
        w.tell("other", x, 4)
        assert is_clean(w.picture().dot)
        assert is_clean(dot_of(*find_both(w.model, SetSearch(10)), {NAME: NAME}))
        with pytest.raises(Conflict) as found:
            x.ask()
        assert is_clean(str(found.value))
        assert is_clean(str(w.conflicts())) and is_clean(str(w.repairs()))
