"""Refusals: each names its line and, where one word is at fault, that word."""

import pickle
import random
import re

import pytest
from conftest import REPOSITORY, TIMES
from drawing import Drawer, Spoiled

from propbench import (
    IsAChoice,
    NoSuchCell,
    NoSuchPremise,
    Refused,
    Session,
    UnknownCommand,
    WrongForm,
)
from propbench.nearby import near_names
from propbench.refusals import CLASSES

# So many sessions are drawn, with so many refused lines each.
SESSIONS, REFUSED = 100 * TIMES, 1000


def drawn(seed: int) -> list[str | Spoiled]:
    """A session in which some lines are refused."""
    drawer = Drawer(random.Random(seed))
    lines: list[str | Spoiled] = list(drawer.beginning())
    for _ in range(REFUSED):
        lines.append(drawer.spoiled())
        if drawer.chance.random() < 0.05:
            lines.append(drawer.choose() if len(drawer.choices) < 6 else drawer.tell())
            lines += [drawer.cell(), drawer.silent()]
    return lines


@pytest.mark.parametrize("seed", range(SESSIONS))
def test_random_refusals_name_line_and_word(program: str, seed: int) -> None:
    lines = drawn(seed)
    texts = [line if isinstance(line, str) else line.line for line in lines]
    with Session(program) as session:
        replies = session.send_all(texts, keep_refused=True)
    count = 0
    for number, (line, reply) in enumerate(zip(lines, replies), 1):
        if isinstance(line, str):
            assert not isinstance(reply, Refused), str(reply)
        else:
            count += 1
            assert isinstance(reply, Refused), f"{line} was answered {reply}"
            assert reply.line == line.line
            assert (reply.number, reply.line_number) == (line.number, number), f"{line}\n{reply}"
            assert found(reply) == wanted(line), f"{line}\n{reply}"
    assert count == REFUSED


def found(refused: Refused) -> tuple[str | None, int | None]:
    """The word of a refusal, and its column."""
    return refused.word, refused.column


def wanted(line: Spoiled) -> tuple[str | None, int | None]:
    """The same as the line was made."""
    if line.start is None:
        return None, None
    word = None if line.end is None else line.line[line.start : line.end]
    return word, line.start + 1


def test_each_number_of_the_document_has_its_class() -> None:
    text = (REPOSITORY / "docs/LANGUAGE.md").read_text(encoding="utf-8")
    table = text.partition("## Refusals")[2]
    rows = re.findall(r"^\| (\d+) \| `([^`:]+)(?:: cells)?` \|", table, flags=re.M)
    assert len(rows) == 20
    names = {int(number): "".join(map(capital, text.split())) for number, text in rows}
    names[2] = "NotUtf8"
    assert {number: made.__name__ for number, made in CLASSES.items()} == names


def capital(word: str) -> str:
    return word[0].upper() + word[1:]


def refusal(session: Session, line: str) -> Refused:
    with pytest.raises(Refused) as caught:
        session.send(line)
    return caught.value


def test_near_names(program: str) -> None:
    with Session(program) as session:
        session.send_all(["cell coffee span", "cell tea span", "tell ana coffee 3"])
        assert refusal(session, "ask coffe").near == ("coffee",)
        assert isinstance(refusal(session, "ask coffe"), NoSuchCell)
        assert refusal(session, "kick anna").near == ("ana",)
        assert isinstance(refusal(session, "kick anna"), NoSuchPremise)
        assert refusal(session, "aks tea").near == ("ask",)
        assert isinstance(refusal(session, "aks tea"), UnknownCommand)
        assert refusal(session, "attach suum tea tea tea").near == ("sum",)
        assert refusal(session, "ask something_else").near == ()


def test_names_that_are_near() -> None:
    """A letter more, less, another or swapped, and capitals; three at the most, the nearest
    first."""
    assert near_names("coffe", ["tea", "coffee", "COFFEE"]) == ("coffee", "COFFEE")
    assert near_names("zz", ["z"]) == ("z",)
    assert near_names("aks", ["ask"]) == ("ask",)
    assert near_names("veneu", ["review", "venue"]) == ("venue",)
    near = near_names("review1", ["reviews", "review", "review12", "review1x"])
    assert {*near[:2]} == {"review12", "review1x"} and near[2:] == ("review",)
    assert len(near_names("review1", [f"review{n}" for n in range(10, 20)])) == 3
    assert near_names("z", ["a", "b"]) == near_names("something", ["tea", "sum"]) == ()
    assert near_names("x", (f"y{n}" for n in range(10**9))) == ()


def test_near_names_are_those_of_the_time(program: str) -> None:
    with Session(program) as session:
        before = refusal(session, "ask coffe")
        session.send("cell coffee span")
        after = refusal(session, "ask coffe")
    assert (before.near, after.near) == ((), ("coffee",))


def test_text_points_to_the_word(program: str) -> None:
    with Session(program) as session:
        session.send("cell kaffee span")
        text = str(refusal(session, "tell anné kaffe 3..5"))
    assert text.split("\n")[:3] == [
        "line 2: error 9: no such cell",
        "  tell anné kaffe 3..5",
        "            ^^^^^",
    ]
    assert "Did you mean kaffee?" in text


def test_carets_stand_under_wide_characters(program: str) -> None:
    with Session(program) as session:
        pointed = refusal(session, "ask 日本").pointed("")
    assert pointed.split("\n") == ["ask 日本", "    ^^^^"]


def test_control_characters_are_escaped(program: str) -> None:
    with Session(program) as session:
        text = str(refusal(session, "ask \x1b[31mx"))
    assert "\x1b" not in text
    assert "ask \\x1b[31mx" in text


def test_a_wrong_form_tells_how_it_is_written(program: str) -> None:
    with Session(program) as session:
        refused = refusal(session, "tell ana")
    assert isinstance(refused, WrongForm)
    assert (refused.word, refused.column) == (None, 9)
    assert "a cell" in refused.says and "`tell P X V`" in refused.says


def test_a_side_of_a_choice_is_no_premise(program: str) -> None:
    with Session(program) as session:
        session.send_all(["cell x span", "choose c x 1 or 2"])
        assert isinstance(refusal(session, "kick c"), IsAChoice)
        assert refusal(session, "kick c=1").word == "="


@pytest.mark.parametrize(
    "line, word",
    [
        ("define n x = local a b c", "local"),
        ("define n x = local a", "local"),
        ("define n x = local a like x by 3", "local"),
        ("relation r truth truth = yes no", "truth"),
        ("attach by x x", "by"),
        ("attach sum by x", "by"),
        ("choose c by 1 or 2", "by"),
    ],
)
def test_words_of_the_language_are_no_names(program: str, line: str, word: str) -> None:
    with Session(program) as session:
        refused = refusal(session, line)
    assert (refused.number, refused.word) == (5, word)


def test_a_refusal_goes_to_another_process_and_back(program: str) -> None:
    with Session(program) as session:
        session.send("cell coffee span")
        refused = refusal(session, "ask coffe")
    again = pickle.loads(pickle.dumps(refused))
    assert (type(again), str(again), again.near) == (NoSuchCell, str(refused), ("coffee",))
