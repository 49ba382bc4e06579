"""Replies are read by what was asked."""

import copy
import dataclasses
import pickle
import sys
from collections.abc import Callable
from concurrent.futures import ThreadPoolExecutor

import pytest

from propbench import (
    Contradiction,
    Done,
    Elements,
    Impossible,
    Nogoods,
    Nothing,
    Refused,
    Reply,
    Session,
    Settled,
    Silent,
    Span,
    Symbol,
    Unsettled,
    Value,
    Worldview,
)
from propbench.replies import reply_of

# A line, the kind of the cell that it asks for, a text of docs/LANGUAGE.md or one of its form, and
# what that says.
READ: list[tuple[str, str, str, Reply]] = [
    ("ask X", "span", "X = 13..15", Value("X", Span(13, 15))),
    ("ask X", "span", "X = 7", Value("X", Span(7, 7))),
    ("ask X", "span", "X = -7..-3", Value("X", Span(-7, -3))),
    ("ask X", "span", "X = nothing", Value("X", Nothing())),
    ("ask X", "span", "X = 3..10 unsettled", Value("X", Span(3, 10), settled=False)),
    ("ask X", "span", "X = contradiction unsettled", Value("X", Impossible(), settled=False)),
    ("why X", "span", "X = 13..15 because a b", Value("X", Span(13, 15), True, ("a", "b"))),
    ("why X", "span", "X = 7 because no premise", Value("X", Span(7, 7), True, ())),
    ("why X", "span", "X = 3 unsettled because a", Value("X", Span(3, 3), False, ("a",))),
    ("core X", "span", "X = 13 because a", Value("X", Span(13, 13), True, ("a",), True)),
    (
        "core X",
        "span",
        "X = 3 not reduced because a b",
        Value("X", Span(3, 3), True, ("a", "b"), False),
    ),
    ("core X", "span", "X = 3 unsettled because a", Value("X", Span(3, 3), False, ("a",), False)),
    ("core X", "span", "contradiction: a b", Contradiction(("a", "b"))),
    ("ask X", "truth", "X = yes", Value("X", Elements(("yes",)))),
    ("ask X", "truth", "X = {yes no}", Value("X", Elements(("yes", "no")))),
    (
        "why X",
        "day",
        "X = {wed thu} because q=2",
        Value("X", Elements(("wed", "thu")), True, ("q=2",)),
    ),
    (
        "why X",
        "day",
        "X = {because unsettled} unsettled because because",
        Value("X", Elements(("because", "unsettled")), False, ("because",)),
    ),
    (
        "why because",
        "symbol",
        "because = because because because",
        Value("because", Symbol("because"), True, ("because",)),
    ),
    ("ask X", "symbol", "X = unsettled", Value("X", Symbol("unsettled"))),
    ("ask X", "symbol", "X = unsettled unsettled", Value("X", Symbol("unsettled"), False)),
    ("core X", "symbol", "X = not because not", Value("X", Symbol("not"), True, ("not",), True)),
    (
        "core X",
        "symbol",
        "X = not not reduced because not",
        Value("X", Symbol("not"), True, ("not",), False),
    ),
    ("why error", "span", "error = 4 because error", Value("error", Span(4, 4), True, ("error",))),
    ("settle", "", "settled", Settled()),
    ("settle", "", "unsettled", Unsettled()),
    ("worldview", "", "unsettled", Unsettled()),
    ("settle", "", "contradiction: no premise", Contradiction(())),
    ("worldview", "", "in: a c=1\nout: b c=2", Worldview(("a", "c=1"), ("b", "c=2"))),
    ("worldview", "", "in:\nout: guess", Worldview((), ("guess",))),
    ("nogoods", "", "nogoods 0", Nogoods(())),
    (
        "nogoods",
        "",
        "nogoods 2\nnogood: r=1 ben\nnogood: no premise",
        Nogoods((("r=1", "ben"), ())),
    ),
    ("fix X 3", "", "ok", Done()),
]


@pytest.mark.parametrize("line, kind, text, reply", READ, ids=lambda each: str(each))
def test_reading(line: str, kind: str, text: str, reply: Reply) -> None:
    assert reply_of(line.split(), text, {line.split()[-1]: kind}) == reply
    assert str(reply) == text


LOOKS: list[Callable[[Reply], object]] = [
    repr,
    hash,
    lambda reply: pickle.loads(pickle.dumps(reply)),
    copy.deepcopy,
    dataclasses.replace,
    dataclasses.asdict,
]


@pytest.mark.parametrize("look", LOOKS, ids=lambda look: str(look.__name__))
def test_a_reply_is_read_however_it_is_looked_at(look: Callable[[Reply], object]) -> None:
    for line, kind, text, reply in READ:
        unread = reply_of(line.split(), text, {line.split()[-1]: kind})
        assert type(unread) is type(reply)
        assert look(unread) == look(reply)
        assert unread == reply


def test_a_value_has_its_fields_alone() -> None:
    for value in (reply_of(["ask", "x"], "x = 3", {"x": "span"}), Value("x", Span(3, 3))):
        assert not hasattr(value, "colour")
        assert isinstance(value, Value) and value.cell == "x"
        with pytest.raises(AttributeError, match="'colour'"):
            getattr(value, "colour")


def test_threads_read_a_value_together() -> None:
    """Whichever of them is the first to look at it."""
    values = [reply_of(["ask", "x"], f"x = {i}", {"x": "span"}) for i in range(3000)]
    wanted = [Value("x", Span(i, i)) for i in range(3000)]
    before = sys.getswitchinterval()
    sys.setswitchinterval(1e-6)
    try:
        with ThreadPoolExecutor(4) as pool:
            found = list(pool.map(lambda _: values == wanted, range(4)))
    finally:
        sys.setswitchinterval(before)
    assert found == [True] * 4


def test_replies_are_frozen() -> None:
    for reply in [Silent(), *(each[3] for each in READ)]:
        assert dataclasses.is_dataclass(reply)
        for each in dataclasses.fields(reply):
            with pytest.raises(dataclasses.FrozenInstanceError):
                setattr(reply, each.name, 3)
        assert hash(reply) == hash(dataclasses.replace(reply))


def test_words_of_the_language_as_names(program: str) -> None:
    """Names that make replies look like others are read by their cells."""
    with Session(program) as session:
        session.send_all(
            [
                "domain because because unsettled not",
                "cell error because",
                "cell because symbol",
                "cell unsettled span",
                "tell because because because",
                "tell contradictions unsettled 1..2",
            ]
        )
        assert session.send("why because") == Value(
            "because", Symbol("because"), True, ("because",)
        )
        session.send("tell not error {because unsettled}")
        assert session.send("why error") == Value(
            "error", Elements(("because", "unsettled")), True, ("not",)
        )
        assert session.send_all(["ask unsettled", "core error", "# nothing"]) == [
            Value("unsettled", Span(1, 2)),
            Value("error", Elements(("because", "unsettled")), True, ("not",), True),
            Silent(),
        ]


def test_a_refusal_is_raised_with_all_replies(program: str) -> None:
    with Session(program) as session:
        with pytest.raises(Refused) as caught:
            session.send_all(["cell x span", "ask y", "fix x 3", "ask z", "ask x"])
        replies = caught.value.replies
        assert caught.value.line_number == 2
        assert [type(reply).__name__ for reply in replies] == [
            "Done",
            "NoSuchCell",
            "Done",
            "NoSuchCell",
            "Value",
        ]
        assert session.lines == ["cell x span", "fix x 3", "ask x"]
        assert caught.value is replies[1]


def test_line_numbers_count_all_lines_of_a_session(program: str) -> None:
    with Session(program) as session:
        session.send("# a note")
        session.send_all(["cell x span", "", "ask x"])
        with pytest.raises(Refused) as caught:
            session.send("ask y")
        assert caught.value.line_number == 5
        session.replay()
        with pytest.raises(Refused) as caught:
            session.send_all(["ask x", "ask y"])
        assert caught.value.line_number == 7
