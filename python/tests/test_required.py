"""Constraints as one writes them: what a session knows of `require`, and what is said where one is
refused."""

import pytest

from propbench import Session
from propbench.completion import completions
from propbench.errors import Refused
from propbench.grammar import Role, parsed
from propbench.known import Known

LINES = [
    "domain day mon tue",
    "cell x span",
    "cell y span",
    "cell when day",
    "cell far span",
    "fix x 0..9",
    "fix y 0..9",
]


def test_the_parts_of_a_line() -> None:
    parse = parsed("require x+2 <= 'max' or when == mon under some")
    assert [token.text for token in parse.of(Role.TERM)] == [
        *("x", "2", "'max'", "or", "when", "mon"),
    ]
    assert [token.text for token in parse.of(Role.TOLD)] == ["some"]
    assert parse.complete and parse.broken is None
    assert not parsed("require").complete and not parsed("require x under").complete
    assert parsed("require x under p q").broken is not None


def test_what_may_be_typed_next() -> None:
    known = Known(cells={"price": "span", "when": "day"}, domains={"day": ("mon", "tue")})
    assert completions("require pr", known) == ("pr", ["price"])
    assert completions("require price < 3 and w", known) == ("w", ["when"])
    assert completions("require when == m", known) == ("m", ["mon", "max", "min"])
    assert "under" in completions("require price < 3 ", known)[1]
    known.premises["cheap"] = None
    assert completions("require price < 3 under c", known) == ("c", ["cheap"])


def test_a_premise_of_a_constraint_is_known(wide: str) -> None:
    with Session(wide) as session:
        session.send_all([*LINES, "require x + y == 12 under sum", "require 2 * x <= 7"])
        assert [*session.known.premises] == ["sum"]
        assert str(session.send("ask x")) == "x = 3" and "require" in session.tells
        session.send("kick sum")
        assert str(session.send("ask x")) == "x = 0..3"


@pytest.mark.parametrize(
    ("line", "number", "start", "says"),
    [
        ("require", 4, 7, "Something is missing at the end: a constraint."),
        ("require x + == 3", 4, None, "It is written `require E [under P]`."),
        ("require x < 3 under", 4, 19, "Something is missing at the end: a premise."),
        ("require x < 3 under p q", 4, 22, "The line is complete before `q`."),
        ("require x < 3 under 7", 5, 20, "a name begins with a letter or `_`"),
        ("require far * far * far < 3", 6, None, "state bounds by `fix` first"),
        ("require x < yy", 9, 12, "There is no cell `yy`, and no element. Did you mean y?"),
        ("require when == mon and q > 1", 9, 24, "There is no cell `q`, and no element."),
        ("require when < 3", 13, None, "of another kind than its place takes"),
    ],
)
def test_what_is_said_of_a_refusal(
    wide: str, line: str, number: int, start: int | None, says: str
) -> None:
    with Session(wide) as session:
        session.send_all(LINES)
        with pytest.raises(Refused) as caught:
            session.send(line)
        assert caught.value.number == number and says in str(caught.value)
        shown = str(caught.value).split("\n")
        marks = [row.index("^") - 2 for row in shown if row.strip("^ ") == "" and "^" in row]
        assert marks == ([] if start is None else [start])
        assert session.lines == LINES


def test_propbench_has_no_such_line(program: str) -> None:
    with Session(program) as session:
        if "require" in session.tells:
            pytest.skip("the program is propwide")
        with pytest.raises(Refused, match="`require` needs propwide"):
            session.send("require x < 3")
