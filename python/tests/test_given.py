"""Times, counts, weights, names and paths that are none: each is told in the caller's words."""

from collections.abc import Callable
from typing import Any

import pytest

from propbench import Elements, Span, Workbench
from propbench.errors import NoSuchName


@pytest.fixture
def bench(program: str) -> Workbench:
    w = Workbench(program)
    x = w.number("x", 0, 9)
    w.tell("Ana", x, 2, 5)
    return w


# (Each call is wrong on purpose: so the workbench is of any type here.)
WRONG: list[tuple[str, Callable[[Any], object], type[Exception], str]] = [
    ("an answer's seconds", lambda w: w.cell("x").ask(seconds="1"), TypeError, "seconds=10: '1'"),
    ("seconds as a text", lambda w: w.least("x", seconds="10"), TypeError, "seconds=10: '10'"),
    ("less than no time", lambda w: w.conflicts(seconds=-1), ValueError, "can't take -1 seconds"),
    ("no number of seconds", lambda w: w.plans(seconds=float("nan")), ValueError, "nan seconds"),
    ("most as a text", lambda w: w.conflicts(most="3"), TypeError, "whole number: '3'"),
    ("most below nothing", lambda w: w.plans(most=-1), ValueError, "from 0: -1"),
    (
        "a weight as a text",
        lambda w: w.repairs({"Ana": "5"}),
        TypeError,
        "of Ana is no number: '5'",
    ),
    ("weights as a list", lambda w: w.repairs(["Ana"]), TypeError, r"\['Ana'\] is none"),
    ("keep as a number", lambda w: w.conflicts(keep=3), TypeError, "or a list of texts: 3"),
    ("kick as a number", lambda w: w.scenarios({"a": {"kick": 3}}, ["x"]), TypeError, "texts: 3"),
    ("a film of fewer than none", lambda w: w.film(-1), ValueError, "steps is .* from 0: -1"),
    ("a film of a text", lambda w: w.film("a"), TypeError, "steps is a whole number: 'a'"),
    ("a port as a text", lambda w: w.serve(port="a"), TypeError, "port is a whole number: 'a'"),
    ("a file as a number", lambda w: w.save(3), TypeError, "named by a text: 3"),
    ("to load a number", lambda w: type(w).load(3), TypeError, "named by a text: 3"),
    ("a picture's file", lambda w: w.picture().save(3), TypeError, "named by a text: 3"),
    ("a plan as a number", lambda w: _planned(w).chart(3), TypeError, "3 is no plan"),
]


def _planned(w: Workbench) -> Any:
    plan = w.project(days=9)
    plan.task("a", 2)
    return plan


@pytest.mark.parametrize(
    "call, kind, says", [each[1:] for each in WRONG], ids=[e[0] for e in WRONG]
)
def test_what_is_given_wrongly(
    bench: Workbench, call: Callable[[Workbench], object], kind: type[Exception], says: str
) -> None:
    with pytest.raises(kind, match=says):
        call(bench)
    assert str(bench.cell("x").ask()) == "x = 2..5 because of Ana"


def test_several_names_in_one_text(program: str) -> None:
    """Wherever several can be given, one by one or in a text; and a name with spaces is the one."""
    w = Workbench(program)
    x, y = w.number("x", 0, 9), w.number("y here", 0, 9)
    w.require(x >= 5, under="much")
    w.require(x <= 4, under="little")
    w.require(x <= 3, under="less")
    w.require(x == y, under="as much")
    with w.what_if(kick="little less", bring="as much"):
        assert (x.ask().value, w.believed) == (Span(5, 9), ("much", "as much"))
    with w.what_if(kick=["little", "less"]):
        assert w.believed == ("much", "as much")
    assert [each.names for each in w.repairs(keep="as much")][-1] == ("little", "less")
    assert [repair.names for repair in w.repairs(keep="little less")] == [("much",)]
    z = w.number("z", 0, 9)
    rows = w.scenarios({"both": {"kick": "little less"}}, "x z")
    assert list(rows["both"]) == ["x", "z"] and rows.columns == ("x", "z")
    assert list(w.sweep([{"kick": "little less"}], "y here")["1"]) == ["y here"]
    w.kick("much")
    w.kick("little")
    assert sorted(plan["x"] for plan in w.plans("x")) == [0, 1, 2, 3]
    assert len(w.plans("x z", most=50)) == 4 * 10
    with pytest.raises(NoSuchName, match="no premise `as mich`. Did you mean as much"):
        w.conflicts(keep="as mich")
    with pytest.raises(NoSuchName, match="no premise `litle`. Did you mean little"):
        w.conflicts(keep="much litle")


def test_people_and_elements_with_spaces(program: str) -> None:
    w = Workbench(program)
    p = w.project(days=9, people=["Ana Maria", "ben"])
    assert p.task("a", 2, who="Ana Maria").people == ("Ana Maria",)
    assert w.project(days=9, people="ana ben").task("b", 2, who="ben ana").people == ("ben", "ana")
    cell = w.element("day", w.domain("days", ["day one", "two", "three"]))
    w.fix(cell, "two three")
    assert cell.ask().value == Elements(("two", "three"))
    w.fix(w.element("other", w.domain("d", ["day one", "two"])), "day one")
    assert w.cell("other").ask().value == "day one"
