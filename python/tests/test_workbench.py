"""What a user of a workbench meets: statements, premises, choices, answers, conflicts, errors."""

import inspect
import re
from collections.abc import Iterator
from typing import Any

import pytest
from hypothesis import given
from hypothesis import strategies as st

from propbench import (
    Conflict,
    Elements,
    NotSettled,
    Nothing,
    Session,
    Span,
    Workbench,
    all_different,
    count,
    element,
    if_else,
    implies,
    maximum,
    minimum,
    pairs,
    total,
)

# A cell that only the workbench knows has such a name on lines.
INNER = re.compile(r"\b_(\d+|yes|of\d|side)\b")


@pytest.fixture
def w(program: str) -> Iterator[Workbench]:
    with Workbench(program) as made:
        yield made


def test_a_first_model(w: Workbench) -> None:
    days, price = w.number("days", 0, 60), w.number("price", 0, 9000)
    w.require(price >= 400 * days)
    w.require(price <= 2000, under="cheap")
    answer = days.ask()
    assert (answer.value, answer.low, answer.high) == (Span(0, 5), 0, 5)
    assert (answer.because, answer.settled, dict(answer.choices)) == (("cheap",), True, {})
    assert str(answer) == "days = 0..5 because of cheap"
    w.kick("cheap")
    assert str(days.ask()) == "days = 0..22"
    assert w.believed == () and w.premises == ("cheap",)
    w.bring("cheap")
    assert days.why() == answer and w.believed == ("cheap",)


def test_values_of_each_kind(w: Workbench) -> None:
    day = w.domain("day", "mon tue wed")
    x, free, t = w.number("x", 1), w.number("free"), w.truth("open")
    d, c = w.element("review", day), w.symbol("colour")
    assert (x.ask().value, x.ask().low, x.ask().high) == (Span(1, 10**18), 1, None)
    assert (free.ask().value, free.ask().low) == (Nothing(), None)
    assert t.ask().value == Elements(("yes", "no")) and c.ask().value == Nothing()
    assert d.ask().value == Elements(("mon", "tue", "wed"))
    w.fix(x, 3, 5)
    w.tell("ana", t, True)
    w.tell("ana", d, ["wed", "mon"])
    w.tell("ben", d, "mon tue")
    w.fix(c, "dark red")
    assert (x.ask().low, x.ask().high) == (3, 5)
    assert t.ask().value is True and t.ask().low is None
    assert d.ask().value == "mon" and d.ask().because == ("ana", "ben")
    assert c.ask().value == "dark red" and str(c.ask()) == "colour = dark red"
    assert [cell.name for cell in w.cells] == ["x", "free", "open", "review", "colour"]
    assert w.cell("review") is d


def test_ends_that_are_not_known(w: Workbench) -> None:
    up, down, free = w.number("up", 3), w.number("down", high=3), w.number("free")
    asked = [up.ask(), down.ask(), free.ask()]
    assert [(each.low, each.high) for each in asked] == [(3, None), (None, 3), (None, None)]
    assert [str(each) for each in asked] == ["up = 3..", "down = ..3", "free = nothing"]


def test_what_is_out_says_nothing(w: Workbench) -> None:
    """False, beyond all numbers, divided by zero: no matter while it is kicked out."""
    x, y, z = w.number("x", 1, 10**18), w.number("y", 10**10), w.number("z")
    day = w.domain("day", "mon tue")
    d = w.element("d", day)
    w.fix(y, 10**10)
    for constraint in (x != x, x * 0 == 1, z == y * y, z == x // 0, 5 % (x - x) == 0):
        w.require(constraint, under="wrong")
    w.require(False, under="wrong")
    w.require((x * x == 7) | (y * y * y == 1), under="wrong")
    w.require(pairs(d, d, [("mon", "tue")]), under="wrong")
    assert w.settle() is False
    w.kick("wrong")
    assert w.settle() is True
    assert (x.ask().low, x.ask().high, z.ask().value) == (1, None, Nothing())
    assert d.ask().value == Elements(("mon", "tue"))
    assert w.session.send("nogoods").__class__.__name__ == "Nogoods"


def test_a_premise_is_forgotten(w: Workbench) -> None:
    x = w.number("x", 0, 9)
    w.require(x > 5, under="high")
    w.tell("high", x, 7, 9)
    w.kick("high")
    w.forget("high")
    assert w.premises == () and x.ask().value == Span(0, 9)
    w.require(x < 4, under="high")
    assert x.ask().value == Span(0, 3) and w.believed == ("high",)
    with Session(w.session.program) as fresh:
        fresh.send_all(w.model.base())
        assert str(fresh.send("why x")) == "x = 0..3 because high"


def test_core(w: Workbench) -> None:
    price, number = w.number("price", 0, 99), w.number("count", 0, 9)
    w.tell("gift", price, 0)
    w.tell("order", number, 3, 5)
    cost = w.number("cost")
    w.require(cost == price * number)
    assert cost.core().because == ("gift",) and cost.core().reduced is True
    assert "gift" in cost.why().because and cost.why().reduced is None


def test_choices_speak_of_alternatives(w: Workbench) -> None:
    days, fee = w.number("days", 0, 60), w.number("fee", 0, 9000)
    w.choose("venue", {"the hotel": [days == 2, fee == 4000], "uni": [days == 5, fee == 1500]})
    w.choose("plan", days, [(10, 20), 5, 2])
    answer = fee.ask()
    assert answer.value == 4000 and answer.choices == {"venue": "the hotel", "plan": 2}
    assert answer.because == ("venue: the hotel",)
    assert str(answer) == (
        "fee = 4000 because of venue: the hotel, in this plan: venue: the hotel, plan: 2"
    )
    w.require(fee <= 2000, under="cheap")
    assert str(w.table(days, fee)).split("\n")[:4] == [
        "cell  value  because of",
        "days  5      plan: 5",
        "fee   1500   venue: uni",
        "in this plan: venue: uni, plan: 5",
    ]
    w.require(days <= 4, under="short")
    with pytest.raises(Conflict) as caught:
        fee.ask()
    assert caught.value.premises == ("cheap", "short")
    assert w.model.violated({"days": 5, "fee": 1500}, ["cheap"]) is None
    assert w.model.violated({"days": 2, "fee": 1500}, []) == "venue: the hotel or uni"
    assert w.model.violated({"days": 5, "fee": 1500}, ["cheap", "short"]) == "days <= 4"


def test_a_conflict_tells_what_each_states(w: Workbench) -> None:
    x, y = w.number("x", 0, 9), w.number("y", 0, 9)
    w.require(x + y >= 15, under="much of both")
    w.tell("ana", x, 0, 7)
    w.tell("ben", y, 3, 8)
    w.tell("eve", y, 4, 7)
    with pytest.raises(Conflict) as caught:
        x.why()
    assert caught.value.premises == ("much of both", "ana", "eve")
    assert str(caught.value) == (
        "much of both, ana, eve can't all hold\n"
        "  much of both: x + y >= 15\n  ana: x = 0..7\n  eve: y = 4..7"
    )
    assert w.believed == ("much of both", "ana", "ben", "eve")


def test_what_lies_beyond_is_named(w: Workbench) -> None:
    x, y, z = w.number("x", 0), w.number("y", 0), w.number("z")
    w.require(z == x * y - 5, under="area")
    w.tell("long", x, 10**10)
    w.tell("wide", y, 10**9, 10**12)
    w.tell("wider", y, 10**10, 10**11)
    with pytest.raises(Conflict) as caught:
        z.ask()
    assert set(caught.value.premises) == {"area", "long", "wider"}
    assert "x * y lies beyond 10^18" in str(caught.value)


def test_what_holds_always_and_can_not(w: Workbench) -> None:
    a, b = w.number("a", 0, 9), w.number("b", 0, 9)
    w.require(a < b)
    w.require(a > 2)
    w.fix(b, 1, 5)
    w.require(b <= a)
    with pytest.raises(Conflict) as caught:
        a.ask()
    assert caught.value.premises == ()
    assert "not all of this: a < b; b <= a" in str(caught.value)


def test_equal_expressions_share_a_cell(w: Workbench) -> None:
    """What one constraint finds out of a product, all others know."""
    x, y, z = w.number("x", -3, 3), w.number("y", -3, 3), w.number("z", -9, 9)
    w.require(x * y >= 5, under="one")
    w.require(z == x * y, under="two")
    assert z.ask().value == Span(5, 9)
    w.kick("one")
    assert z.ask().value == Span(-9, 9)
    assert len([line for line in w.lines(x * y >= 5) if " product " in line]) == 1


def test_what_changes_nothing_takes_no_cell(w: Workbench) -> None:
    x = w.number("x", 0, 9)
    for same in (x + 0, 0 + x, x - 0, x * 1, 1 * x, x // 1, sum([x])):
        assert same is x
    assert repr(x + (x - x)) == "x + (x - x)"
    assert repr(0 - x) == "0 - x"
    assert repr(0 * x) == "0 * x"


@pytest.mark.parametrize("under", [None, "p"])
def test_divisions(w: Workbench, under: str | None) -> None:
    x, y, q = w.number("x", -20, 20), w.number("y", -3, 3), w.number("q")
    w.require(q == x // y, under=under)
    w.fix(x, 7)
    w.fix(q, -4)
    assert y.ask().value == -2
    assert implies(y == 0, q == 3).node.kind == (x == 3).node.kind


def test_what_has_no_value_is_no_power_and_does_not_differ(w: Workbench) -> None:
    """By zero there is no value, so what is made of it is false: its power by 0, and one alone."""
    x, y = w.number("x", 1, 9), w.number("y", 0, 3)
    w.require((x // y) ** 0 == 1, under="power")
    w.require(all_different(x % y), under="alone")
    w.require(~all_different(x // y), under="not")
    for premise, low, high in (("power", 1, 3), ("alone", 1, 3), ("not", 0, 0)):
        for each in ("power", "alone", "not"):
            (w.bring if each == premise else w.kick)(each)
        assert (y.ask().low, y.ask().high) == (low, high)
    # (of what has a value both say nothing)
    assert repr(x**0) == "1" and repr(all_different(x)) == "yes"


def test_a_condition_guards_a_division(w: Workbench) -> None:
    x, y, share = w.number("x", 0, 9), w.number("y", 0, 9), w.number("share", 0, 99)
    w.require(share == if_else(y != 0, x // y, 50))
    w.fix(x, 9)
    w.tell("none", y, 0)
    assert share.ask().value == 50
    w.kick("none")
    w.tell("two", y, 2)
    assert share.ask().value == 4


def test_lists_and_tables(w: Workbench) -> None:
    day = w.domain("day", "mon tue wed")
    d, e = w.element("d", day), w.element("e", day)
    xs = [w.number(f"x{i}", 0, 5) for i in range(5)]
    price = w.number("price")
    w.require(price == element(d, {"mon": 30, "tue": 10, "wed": 20}))
    assert price.ask().value == Span(10, 30)
    w.require(price < 30)
    assert d.ask().value == Elements(("tue", "wed"))
    w.require(pairs(d, e, [("tue", "mon"), ("mon", "tue"), ("wed", "wed")]))
    assert e.ask().value == Elements(("mon", "wed"))
    w.require(total(xs) == 24)
    w.require(sum(xs) <= 24)
    assert xs[0].ask().low == 4
    w.require(count(x == 4 for x in xs) == 1)
    w.require(maximum(xs) == 5)
    w.require(minimum(xs[0], xs[1]) == 4)
    w.require(xs[1] > xs[0])
    assert [x.ask().value for x in xs] == [4, 5, 5, 5, 5]
    w.require(all_different(d, e, "mon"), under="apart")
    with pytest.raises(Conflict):
        d.ask()


def _wrong(w: Workbench) -> dict[str, Any]:
    x, t = w.number("x", 0, 9), w.truth("t")
    day = w.domain("day", "mon tue")
    d = w.element("d", day)
    w.tell("ana", x, 3)
    w.choose("plan", x, [3, 4])
    other = Workbench(w.session.program)
    theirs = other.number("theirs")
    return {"w": w, "x": x, "t": t, "d": d, "day": day, "theirs": theirs}


@pytest.mark.parametrize(
    ("code", "error", "says"),
    [
        ("bool(x < 3)", TypeError, "`x < 3` is a constraint"),
        ("0 <= x <= 5", TypeError, "(a <= x) & (x <= b)"),
        ("bool(x)", TypeError, "ask its cells"),
        ("x / 2", TypeError, "`x // 2`"),
        ("x + 0.5", TypeError, "numbers are whole, and 0.5 is written with a point"),
        ("x == None", TypeError, "an answer has its value in `.value`"),
        ("x == x.ask()", TypeError, "is no whole number"),
        ("x + t", TypeError, "`t` is a truth, where a number is wanted"),
        ("x + 10**18 + 10**19", ValueError, "10000000000000000000 lies beyond 10^18"),
        ("t & 1", TypeError, "write True or False"),
        ("x ** -1", TypeError, "a constant whole number from 0: -1"),
        ("x == '3'", TypeError, "'3' is no whole number"),
        ("list(x)", TypeError, "one value, not several"),
        ("d == 'sun'", ValueError, "'sun' is no element of day (mon tue)"),
        ("d == 3", TypeError, "3 is not an element of day"),
        ("w.require(x)", TypeError, "`x` is a number, no constraint"),
        ("w.require(theirs == 3)", ValueError, "'theirs' is a cell of another workbench"),
        ("w.require(x == 3, under='plan')", ValueError, "'plan' is a choice"),
        ("w.tell('bob', x + 1, 3)", TypeError, "write `w.require(x + 1 == ..)`"),
        ("w.tell('bob', x, 5, 3)", ValueError, "from 5 to 3 there is no number"),
        ("w.tell('bob', t, 1)", TypeError, "write True or False"),
        ("w.tell('bob', d, [])", ValueError, "'d' is one of no elements"),
        ("w.fix(t, True, 3)", TypeError, "'t' holds no numbers"),
        ("w.kick('anna')", ValueError, "nothing is stated under 'anna'. Did you mean 'ana'?"),
        ("w.kick('plan')", ValueError, "'plan' is a choice"),
        ("w.choose('ana', x, [3, 4])", ValueError, "there is a premise of this name: 'ana'"),
        ("w.choose('way', x, [3])", ValueError, "two to 64 alternatives, and 'way' has 1"),
        ("w.number('x')", ValueError, "there is a cell of this name: 'x'"),
        ("w.number('y', 5, 3)", ValueError, "from 5 to 3 there is no number, for 'y'"),
        ("w.number('')", TypeError, "a cell is named by a text"),
        ("w.domain('day', 'a b')", ValueError, "no domain 'day' can be made: there is one"),
        ("w.domain('d2', 'a a')", ValueError, "an element stands twice"),
        ("w.element('e', 'day')", TypeError, "make one by `w.domain`"),
        ("w.cell('xx')", ValueError, "no cell is called 'xx'. Did you mean 'x'?"),
        ("w.lines(x == 8)", ValueError, "`x == 8` was not required: state it by `w.require` first"),
        ("w.lines('way')", TypeError, "or a constraint without quotes"),
        ("w.require('x <= 8')", TypeError, "'x <= 8' is no truth: write True or False, or a con"),
        ("type(x)('y', w)", TypeError, "'y': a workbench makes a cell, as w.number('days', 0, 60)"),
        ("element(d, {'mon': 3})", ValueError, "has nothing for tue"),
        ("maximum()", ValueError, "of no numbers none is the greatest"),
        ("x.ask(over='plans')", ValueError, 'over="all plans"'),
        ("element(x, {1: 3})", TypeError, "for an element of a domain, and `x` is none"),
        ("pairs(d, d, [('mon',)])", ValueError, "('mon',) has 1, not two"),
        ("w.choose('way', x, 3)", TypeError, "between a list of values of a cell"),
        ("w.choose('way', [x == 3, x == 4])", TypeError, "by name, as in a dict"),
        ("w.choose('way', {'a': 3, 'b': 4})", TypeError, "states constraints, and 3 is none"),
        ("w.choose('way', {'a': x, 'b': x < 4})", TypeError, "`x` is a number, where a truth is"),
        ("w.cell(3)", TypeError, "a cell is named by a text: 3"),
        ("w.domain('d2', 3)", TypeError, "or a list of texts: 3"),
        ("w.project(days=9, people=3)", TypeError, "or a list of texts: 3"),
        ("w.measured('q', low=0, high=1, step='x')", ValueError, "'x' is no number, as 5"),
        ("w.conflicts(keep='anna')", ValueError, "no premise `anna`. Did you mean ana?"),
        ("w.scenarios([{}], [x])", TypeError, "a dict, each by its name: [{}] is none"),
        ("w.scenarios({'a': 3}, [x])", TypeError, "kick, bring and tell: 3 is none"),
        ("w.scenarios({'a': dict(tell=('bob', x, 3))}, [x])", ValueError, "'bob' is none of these"),
        ("w.diff(w)", TypeError, "is no snapshot, as `w.snapshot()` gives one"),
        ("w.compare(3)", TypeError, "3 is no workbench"),
    ],
)
def test_errors_say_what_to_write(
    w: Workbench, code: str, error: type[Exception], says: str
) -> None:
    names = _wrong(w) | {"element": element, "maximum": maximum, "pairs": pairs}
    before = w.model.base()
    with pytest.raises(error) as caught:
        exec(code, names)
    assert says in str(caught.value)
    assert not INNER.search(str(caught.value))
    assert w.model.base() == before and w.settle()


def test_one_premise_to_keep_is_named_by_a_text(w: Workbench) -> None:
    x = w.number("x", 0, 9)
    w.tell("ana", x, 3)
    w.tell("ben", x, 4)
    assert w.repairs(keep="ana") == w.repairs(keep=["ana"])
    assert [each.names for each in w.repairs(keep="ana")] == [("ben",)]
    assert [each.names for each in w.conflicts(keep="ana")] == [("ben",)]


texts = st.text(st.characters(blacklist_categories=["Cs"]), min_size=1, max_size=8)


@given(st.lists(texts, min_size=4, max_size=4, unique=True), st.sampled_from(["x", "_1", "span"]))
def test_names_may_be_any_text(program: str, names: list[str], more: str) -> None:
    cell, other, premise, choice = names
    with Workbench(program) as w:
        x, y = w.number(cell, 0, 9), w.number(other, 0, 9)
        w.number(f"{cell}{more}", 0, 9)
        domain = w.domain(premise, names)
        d = w.element(choice + other, domain)
        w.require(x + y >= 3, under=premise)
        w.choose(choice, {cell: [x == 1], other: [x == 0, d == cell]})
        answer = y.ask()
        assert answer.because == (premise, _side(choice, cell)) or set(answer.because) == {
            premise,
            _side(choice, cell),
        }
        assert answer.choices == {choice: cell} and answer.low == 2
        w.kick(premise)
        assert y.ask().low == 0 and w.believed == ()
        w.tell(premise + more, x, 0)
        assert d.ask().value == cell and d.ask().choices == {choice: other}
        assert d.name == choice + other and x.name == cell


def _side(choice: str, alternative: str) -> str:
    from propbench.showing import printable

    return f"{printable(choice)}: {printable(alternative)}"


def test_letters_that_are_no_names(w: Workbench) -> None:
    """What Python and the program take for a letter may differ: the program is asked."""
    for number, text in enumerate(["é", "ℼ", "ǆ", "𐐀", "\U0001e030", "x²", "日", "\u0300a"]):
        cell = w.number(text, number, number)
        assert cell.ask().value == number and cell.ask().name == text


def test_no_room(w: Workbench) -> None:
    x = w.number("x", 0, 9)
    for number in range(4096):
        w.tell(f"p{number}", x, 0, 9)
    with pytest.raises(ValueError, match="no room for more premises; nothing of this was stated"):
        w.require(x * x <= 4, under="one more")
    assert len(w.premises) == 4096
    w.require(x <= 4)
    assert x.ask().value == Span(0, 4)


def test_a_run_is_cut(w: Workbench) -> None:
    x, y = w.number("x", 0, 10**9), w.number("y", 0, 10**9)
    w.require(x < y)
    w.require(y < x, under="also")
    assert x.ask(seconds=0.2).settled is False
    assert "not settled" in str(x.ask(seconds=0.2))
    with pytest.raises(NotSettled):
        w.settle(seconds=0.2)
    w.kick("also")
    assert w.settle() and x.ask().value == Span(0, 10**9 - 1)


def test_a_copy_stands_in_its_place(w: Workbench) -> None:
    x = w.number("x", 0, 9)
    w.require(x <= 7, under="low")
    w.tell("high", x, 5, 9)
    base, lines = w.model.base(), w.session.lines
    with w._set_aside():
        w.kick("high")
        w.tell("new", x, 2)
        w.forget("low")
        assert (x.ask().value, w.believed) == (2, ("new",))
    assert (w.believed, w.model.base(), w.session.lines) == (("low", "high"), base, lines)
    assert x.ask().value == Span(5, 7)


def test_the_manual() -> None:
    """Whatever is public says what it is for."""
    public = {name: getattr(Workbench, name) for name in dir(Workbench) if name[0] != "_"}
    assert len(public) > 50
    for name, member in public.items():
        assert len(inspect.getdoc(member) or "") > 15, name


def test_over_all_plans(w: Workbench) -> None:
    day = w.domain("day", "mon tue wed")
    x, y, d, t = w.number("x", 0, 9), w.number("y", 0, 9), w.element("d", day), w.truth("t")
    w.choose("way", {"slow": [x == 2, d == "mon"], "fast": [x == 7, d == "wed", ~t]})
    w.require(y * y == x + 2, under="square")
    assert x.ask().value == 2 and x.ask(over="all plans").value == Span(2, 7)
    answer = y.ask(over="all plans")
    assert (answer.value, answer.settled, answer.because) == (Span(2, 3), True, ("square",))
    assert d.ask(over="all plans").value == Elements(("mon", "wed"))
    assert t.ask(over="all plans").value == Elements(("yes", "no"))
    w.require(y >= 3, under="much")
    assert d.ask(over="all plans").value == "wed" and t.ask(over="all plans").value is False
    w.tell("none", t, True)
    with pytest.raises(Conflict) as caught:
        y.ask(over="all plans")
    assert set(caught.value.premises) == {"much", "square", "none"}


def test_long_lists(w: Workbench) -> None:
    xs = [w.number(f"x{i}", 0, i) for i in range(400)]
    top, low, some = w.number("top"), w.number("low"), w.number("some")
    w.require(top == maximum(xs))
    w.require(low == minimum(xs))
    w.require(some == count(x > 3 for x in xs))
    w.require(sum(xs[1:], xs[0]) == 0, under="nothing")
    answers = [cell.ask() for cell in (top, low, some, xs[399])]
    assert [answer.value for answer in answers] == [0, 0, 0, 0]
    w.kick("nothing")
    w.fix(xs[399], 399)
    assert (top.ask().value, low.ask().value) == (399, 0)
    assert (some.ask().low, some.ask().high) == (1, 396)


def test_what_no_line_holds(w: Workbench) -> None:
    """What can't be said is refused in the user's words, and leaves nothing behind."""
    x = w.number("x", 0, 9)
    with pytest.raises(ValueError, match="no room for so many and so long names"):
        w.domain("long", [f"{'long' * 15}__{i:02}" for i in range(64)])
    deep = abs(x - 1)
    for _ in range(2999):
        deep = abs(deep - 1)
    with pytest.raises(ValueError, match="nested too deeply"):
        w.require(deep == 3)
    w.require(x <= 3)
    assert x.ask().value == Span(0, 3) and len(w.model.base()) == 5


@pytest.mark.parametrize("under", [None, "p"])
@pytest.mark.parametrize("name", ["d", "a rather long name of a day "])
def test_large_relations(w: Workbench, under: str | None, name: str) -> None:
    """Of which no line holds all pairs: as strong as if one did."""
    days = [f"{name}{i}" for i in range(50)]
    day = w.domain("day", days)
    d, e = w.element("d", day), w.element("e", day)
    later = {(one, other) for i, one in enumerate(days) for other in days[i + 1 :]}
    later |= {(days[49], other) for other in days}
    w.require(pairs(d, e, later), under=under)
    number = {name: i for i, name in enumerate(days)}
    for left, right in [({3, 30}, {10, 31, 2}), ({49, 48}, {0, 1}), ({7}, {7, 8, 9})]:
        w.tell("left", d, [days[i] for i in left])
        assert {number[each] for each in _names(e)} == {
            number[other] for one, other in later if number[one] in left
        }
        w.kick("left")
        w.tell("right", e, [days[i] for i in right])
        assert {number[each] for each in _names(d)} == {
            number[one] for one, other in later if number[other] in right
        }
        w.forget("left")
        w.forget("right")


def _names(cell: Any) -> tuple[str, ...]:
    value = cell.ask().value
    return value.names if isinstance(value, Elements) else (value,)


@pytest.mark.parametrize("count", [9, 20, 64])
def test_many_alternatives(w: Workbench, count: int) -> None:
    """They are tried as they stand, whatever the language's choices are."""
    day = w.domain("day", [f"d{i}" for i in range(count)])
    x, y, d = w.number("x", 0, 999), w.number("y", 0, 99), w.element("d", day)
    order = [(7 * i) % count if count % 7 else i for i in range(count)]
    w.choose("value", x, [100 + i for i in order])
    w.choose("way", {f"way {i}": [y == i, d == f"d{count - 1 - i}"] for i in range(count)})
    w.require(y >= 3, under="late")
    for least in (0, 5, count - 1):
        w.tell("far", x, 100 + least, 999)
        w.tell("far", y, least, 99)
        first = next(i for i in order if i >= least)
        way = max(3, least)
        assert x.ask().value == 100 + first and y.ask().value == way
        assert d.ask().value == f"d{count - 1 - way}"
        assert x.ask().choices == {"value": 100 + first, "way": f"way {way}"}
        assert x.ask().because == (f"value: {100 + first}",)
        assert d.core().because == (f"way: way {way}",)
        w.forget("far")
    w.tell("never", y, count, 99)
    assert w.settle() is False
