"""What propwide tells by `how` and `list`: how the replies are read, and what sessions, the shell,
workbenches and pictures make of them.

What is expected are texts of docs/WIDE.md's form, what was said to the program, and what it answers
to the parts alone.
"""

import random
import re
from collections.abc import Callable, Iterable, Iterator
from dataclasses import dataclass
from itertools import product
from typing import Any

import pytest
from conftest import TIMES
from test_desk import Talk
from test_stepping import DEFINED, ORDERS, bare_lines
from test_watching import random_lines

from propbench import (
    Called,
    Conflict,
    Elements,
    How,
    Impossible,
    Instance,
    Listing,
    NoSuchCell,
    Nothing,
    Session,
    Span,
    Stand,
    Stated,
    Symbol,
    UnknownCommand,
    Workbench,
    all_different,
    implies,
    maximum,
)
from propbench.completion import completions
from propbench.model.cells import Cell
from propbench.model.expressions import Number, Truth
from propbench.pictures import picture_of
from propbench.replies import lines_behind, reply_of
from propbench.values import Held, both
from propbench.watching import bears
from propbench.watching.claims import Claim
from propbench.watching.of_session import SessionWatched

KINDS = {"z": "span", "x": "span", "t": "truth", "d": "day", "s": "symbol", "how": "span"}
# What a `how` is answered, and what that says.
HOW = [
    (
        "how 8\nsides: c=1\nz = 13..15 because p q c=1\ncalled: 17 adder x y z\n"
        "z = 13..15 because p q\ntold: c=1\nx = 3..5 because c=1\ntold:\ny = 10 because no premise",
        How(
            ("c=1",),
            "z",
            Span(13, 15),
            ("p", "q", "c=1"),
            (
                Called(17, "adder", ("x", "y"), "z", Span(13, 15), ("p", "q")),
                Stated("c=1", "x", Span(3, 5), ("c=1",)),
                Stated("", "y", Span(10, 10), ()),
            ),
        ),
    ),
    (
        "how 4\nsides:\nd = {tue wed} because because\n"
        "told: because\nd = {tue wed} because because",
        How(
            (),
            "d",
            Elements(("tue", "wed")),
            ("because",),
            (Stated("because", "d", Elements(("tue", "wed")), ("because",)),),
        ),
    ),
    (
        "how 4\nsides:\ns = because because no premise\ncalled: 1 copier #5 s\n"
        "s = because because no premise",
        How(
            (),
            "s",
            Symbol("because"),
            (),
            (Called(1, "copier", ("#5",), "s", Symbol("because"), ()),),
        ),
    ),
    (
        "how 2\nsides: a=1 b=2\nhow = nothing because no premise",
        How(("a=1", "b=2"), "how", Nothing(), (), ()),
    ),
    ("how 3\nsides:\nz = contradiction because p\ncut", How((), "z", Impossible(), ("p",), None)),
]
LISTED = (
    """list 15
cell x span
cell d day
cell 1.k span
cell 1.2.k truth
cell #7 span
instance 0 1.1 adder x x 1.k
instance 1 2 multiplier x x x by 10
instance 2 3 imager d d by later
fix x 3
tell morning d {mon tue}
tell plan=1 x -2..5
premise morning in
premise guess out
choice plan 2 of 3 in
refuted plan=1 because morning plan=1""",
    Listing(
        (("x", "span"), ("d", "day"), ("1.k", "span"), ("1.2.k", "truth"), ("#7", "span")),
        (
            Instance(0, "1.1", "adder", ("x", "x"), "1.k", ""),
            Instance(1, "2", "multiplier", ("x", "x"), "x", "10"),
            Instance(2, "3", "imager", ("d",), "d", "later"),
        ),
        (
            Stated("", "x", Span(3, 3), ()),
            Stated("morning", "d", Elements(("mon", "tue")), ("morning",)),
            Stated("plan=1", "x", Span(-2, 5), ("plan=1",)),
        ),
        (("morning", True), ("guess", False)),
        (Stand("plan", 2, 3, True, (("plan=1", ("morning", "plan=1")),)),),
    ),
)


@pytest.mark.parametrize("text, wanted", [*HOW, LISTED, ("list 0", Listing((), (), (), (), ()))])
def test_what_is_told_is_read(text: str, wanted: How | Listing) -> None:
    command = text.partition(" ")[0]
    line = [command, wanted.cell] if isinstance(wanted, How) else [command]
    assert reply_of(line, text, KINDS) == wanted and str(wanted) == text
    assert lines_behind(command, text.partition("\n")[0]) == text.count("\n")


def test_what_is_left_of_two_values() -> None:
    some, fewer = Elements(("mon", "tue")), Elements(("tue", "wed"))
    cases: list[tuple[Held, Held, Held]] = [
        (Span(1, 5), Span(3, 9), Span(3, 5)),
        (Span(1, 2), Span(3, 9), Impossible()),
        (some, fewer, Elements(("tue",))),
        (Elements(("mon",)), Elements(("wed",)), Impossible()),
        (Symbol("a"), Symbol("b"), Impossible()),
        (Symbol("a"), Symbol("a"), Symbol("a")),
        (Nothing(), some, some),
        (Nothing(), Nothing(), Nothing()),
        (Impossible(), some, Impossible()),
    ]
    for one, other, wanted in cases:
        assert both(one, other) == both(other, one) == wanted


def test_a_program_that_does_not_tell_says_so(program: str) -> None:
    with Session(program) as session:
        session.send("cell x span")
        with pytest.raises(UnknownCommand) as refused:
            session.how("x")
        assert (
            refused.value.says
            == "`how` needs propwide: this program doesn't tell what makes up a value."
        )
        with pytest.raises(UnknownCommand, match="doesn't tell what it holds"):
            session.list()
        with pytest.raises(UnknownCommand, match="is written `how X`, and needs propwide"):
            session.send("how")
        assert session.tells == () and session.lines == ["cell x span"]
        talk = Talk(session)
        assert "needs propwide" in talk(":how x") and "x" in talk(":list cells")
        assert completions("how ", session.known, [])[1] == ["x"]
    with Workbench(program) as w:
        x = w.number("x", 0, 9)
        with pytest.raises(ValueError, match="told by propwide, and this program is another"):
            x.how()
        assert x.picture().dot.count("shape=box") == 1


# --- over propwide ---


def test_a_session_tells_how(wide: str) -> None:
    lines = ["cell x span", "cell y span", "cell z span", "attach adder x y z"]
    lines += ["tell ana x 3..5", "fix y 10", "choose plan x 9 or 4 or 2"]
    with Session(wide, limit=3) as session:
        session.send_all(lines)
        assert session.tells[:3] == ("step", "how", "list")
        assert session.how("z") == How((), "z", Nothing(), (), ())
        session.send("settle")
        assert session.how("z") == How(
            ("plan=2",),
            "z",
            Span(14, 14),
            ("plan=2",),
            (
                Called(0, "adder", ("x", "y"), "z", Span(14, 14), ("plan=2",)),
                Stated("plan=2", "x", Span(4, 4), ("plan=2",)),
                Stated("", "y", Span(10, 10), ()),
            ),
        )
        with pytest.raises(NoSuchCell):
            session.how("zz")
        listed = session.list()
        assert listed.instances == (Instance(0, "1", "adder", ("x", "y"), "z", ""),)
        assert listed.premises == (("ana", True),) and listed.choices[0].side == 2
        assert session.send_all(["how z", "list", "ask z"])[1] == listed
        assert session.replay()[-2] == listed


def listed_lines(listing: Listing) -> Iterator[str]:
    """The lines that made what is listed, but for compounds, domains and choices."""
    yield from (f"cell {name} {kind}" for name, kind in listing.cells)
    yield from (each.line for each in listing.statements)
    yield from (f"kick {name}" for name, believed in listing.premises if not believed)


@pytest.mark.parametrize("options", ORDERS)
def test_what_is_listed_is_what_was_said(wide: str, options: dict[str, Any]) -> None:
    for seed in range(20 * TIMES):
        lines = random_lines(random.Random(seed), True)
        with Session(wide, **options) as session:
            session.send_all(lines)
            watched = SessionWatched(session)
            session.send_all(["choose c x0 1 or 5..9", "settle"])
            listed, network = session.list(), watched.network()
        sides = [each for each in listed.statements if "=" in each.premise]
        assert [each.line for each in sides] == ["tell c=1 x0 1", "tell c=2 x0 5..9"]
        said = [line for line in lines if not line.startswith("attach")]
        told = [line for line in listed_lines(listed) if "=" not in line]
        assert sorted(told) == sorted(said)
        leaves = [leaf for use in network.uses for leaf in use.leaves()]
        assert [
            (each.part, each.procedure, (*each.inputs, each.output)) for each in listed.instances
        ] == [(leaf.name, leaf.text, leaf.cells) for leaf in leaves]


@pytest.mark.parametrize("options", ORDERS)
def test_what_bears_is_told_and_enough(wide: str, options: dict[str, Any]) -> None:
    """What is lit of a network, with its premises and choices alone, says of the cell what all of
    it says; and each claim says what its ways say together."""
    looked = 0
    shell = [f"--{name}={value}" for name, value in options.items()]
    for seed in range(30 * TIMES):
        lines = random_lines(random.Random(900 + seed), True)
        choice = "choose c x0 1 or 5..9 or 3"
        with Session(wide, **options) as session:
            session.send_all([*lines, choice])
            watched = SessionWatched(session)
            seen = watched.see()
            shown = [each for each in seen.values.values() if each.is_known]
            found = [(each, bears(watched, seen, each), watched.how(each.cell)) for each in shown]
            drawn = [picture_of(watched, each.cell).dot for each in shown]
        attached = [line for line in lines if line.startswith("attach")]
        for (each, lit, claim), dot in zip(found, drawn):
            boxes = len(re.findall('shape=box, style="rounded', dot))
            assert boxes >= sum(cell in seen.values for cell in lit.cells)
            assert claim.says == each.text
            names = {reason.premise or reason.choice for reason in each.because}
            assert lit.premises | lit.choices <= names and lit.says[each.cell] == each.text
            kept = [line for line in lines if line.startswith("cell")]
            kept += [line for at, line in enumerate(attached, 1) if str(at) in lit.uses]
            kept += [line for line in lines if line.startswith("fix")]
            kept += [
                line
                for line in lines
                if line.startswith("tell") and line.split()[1] in lit.premises
            ]
            if lit.choices:
                kept.append(f"fix x0 {choice.split(' or ')[seen.plan['c']].split()[-1]}")
            said = bare_lines(wide, [*kept, f"ask {each.cell}"], shell)[-1]
            assert said == f"{each.cell} = {each.text}", (seed, each, kept)
            looked += 1
    assert looked > 40


def test_the_shell_tells_how_as_a_tree(wide: str) -> None:
    with Session(wide) as session:
        session.send_all(["cell x span", "cell y span", "cell z span", "attach subtracter z x y"])
        session.send_all(["tell ana x 3..5", "fix y 0..99", "tell ben z 0..8", "ask x"])
        talk = Talk(session)
        assert talk(":how y").split("\n") == [
            "y = 0..5",
            "  y = -5..5, by subtracter z x y",
            "    z = 0..8, told by ben",
            "    x = 3..5, told by ana",
            "  y = 0..99, as fixed",
        ]
        assert talk(":how").startswith("Say of which cell")
        assert "There is no cell `w`" in talk(":how w")
        session.send_all(["choose plan z 20 or 7", "kick ben", "ask x", *DEFINED])
        session.send_all(["cell u span", "attach twice x u", "choose more u 3 or 14", "settle"])
        rows = [" ".join(line.split()) for line in talk(":list choices").split("\n")[1:]]
        # (of a side that was left it is told why)
        assert re.fullmatch("more=1 u = 3( impossible: .*more=1.*)?", rows.pop(2))
        assert rows == ["plan=1 z = 20 believed", "plan=2 z = 7", "more=2 u = 14 believed"]
        assert "ben      out  z = 0..8" in talk(":list premises")
        session.send_all(["cell v span", "attach twice y v", "ask v"])
        assert "v = 60..68, by adder 3.m 3.m v, of twice y v\n  3.m = 30..34" in talk(":how v")
        assert completions("h", session.known, session.tells) == ("h", ["how"])


def bench(wide: str) -> Workbench:
    w = Workbench(wide)
    days, price = w.number("days", 0, 60), w.number("the price", 0, 9000)
    w.require(price >= 400 * days)
    w.require(price <= 2000, under="cheap")
    w.require(days * price <= 7000, under="small")
    w.tell("Ana's wish", days, 4, 10)
    fee = w.number("fee")
    w.choose("venue", {"hotel": [days == 6, fee == 300], "uni": [days <= 5, fee == 100]})
    return w


def test_a_workbench_tells_how(wide: str) -> None:
    with bench(wide) as w:
        how = w.cells[0].how()
        assert str(how).split("\n") == [
            "days = 4, by the price >= 400 * days",
            "  the price = 0..1750, by days * the price <= 7000 (small)",
            "    days = 4..10, told by Ana's wish",
            "    the price = 0..2000",
            "      the price = ..2000, by the price <= 2000 (cheap)",
            "      the price = 0..9000, as declared",
            "  days = 4..10, told by Ana's wish",
        ]
        assert str(w.cells[2].how()) == "fee = 100, on venue: uni"
        [way] = how.ways
        assert [each.cell for each in way.inputs] == ["the price", "days"]
        html = how._repr_html_()
        assert "Ana&#x27;s wish" in html and html.count("<ul>") == html.count("</ul>") > 2
        w.tell("Ben", w.cells[1], 5000)
        with pytest.raises(Conflict):
            w.cells[0].how()


NAMES = ("a", "b b", "c'", "d")
# Constraints between three numbers, given another.
FORMS: list[Callable[[Number, Number, Number, int], Truth]] = [
    lambda x, y, z, number: x + y <= z + number,
    lambda x, y, z, number: x + y <= number + 9,
    lambda x, y, z, number: x + y >= number + 4,
    lambda x, y, z, number: x * y >= number,
    lambda x, y, z, number: (x < number) | (y > z),
    lambda x, y, z, number: maximum(x, y) == z + number,
    lambda x, y, z, number: x // number == y,
    lambda x, y, z, number: x - y == number,
    lambda x, y, z, number: all_different(x, y, z),
]


@dataclass(frozen=True)
class Drawn:
    """A constraint on three numbers, always or under a premise."""

    form: Callable[[Number, Number, Number, int], Truth]
    names: list[str]
    number: int
    under: str | None

    def of(self, w: Workbench) -> Truth:
        """The constraint of a workbench."""
        x, y, z = (w.cell(name) for name in self.names)
        assert isinstance(x, Number) and isinstance(y, Number) and isinstance(z, Number)
        return self.form(x, y, z, self.number)

    def text(self, w: Workbench) -> str:
        """What a claim calls it."""
        return repr(self.of(w)) + (f" ({self.under})" if self.under else "")


def numbers(wide: str, highs: Iterable[int]) -> Workbench:
    """A workbench of numbers alone."""
    w = Workbench(wide)
    for name, high in zip(NAMES, highs):
        w.number(name, 0, high)
    return w


def drawn_constraints(draw: random.Random) -> list[Drawn]:
    return [
        Drawn(
            draw.choice(FORMS),
            draw.sample(NAMES, 3),
            draw.randint(1, 9),
            draw.choice((None, "p", "q")),
        )
        for _ in range(draw.randint(3, 7))
    ]


SIDES = {"9": (9, 9), "2..6": (2, 6), "0..30": (0, 30)}


def test_what_a_workbench_tells_is_enough(wide: str) -> None:
    """What is named of a value says the same by itself, and no cell is named that the user didn't
    make."""
    looked = by_choice = 0
    for seed in range(40 * TIMES):
        draw = random.Random(seed)
        highs = [draw.randint(6, 30) for _ in NAMES]
        drawn = drawn_constraints(draw)
        told, low, chosen = draw.choice(NAMES), draw.randint(0, 4), draw.choice(NAMES)
        with numbers(wide, highs) as w:
            for each in drawn:
                w.require(each.of(w), under=each.under)
            w.tell("told", w.cell(told), low, low + 5)
            if seed % 2:
                w.choose("pick", w.cell(chosen), list(SIDES.values()))
            if not w.settle():
                continue
            for cell in w.cells:
                claim = cell.how()
                sources = seen_sources(cell, claim)
                with numbers(wide, highs) as kept:
                    for each in drawn:
                        if each.text(w) in sources:
                            kept.require(each.of(kept), under=each.under)
                    if "told" in sources:
                        kept.tell("told", kept.cell(told), low, low + 5)
                    for text, ends in SIDES.items():
                        if f"pick: {text}" in sources:
                            kept.fix(kept.cell(chosen), *ends)
                            by_choice += 1
                    assert kept.cell(cell.name).ask().value_text == claim.says, (seed, claim)
                looked += 1
    assert looked > 60 and by_choice


def seen_sources(cell: Cell, claim: Claim) -> set[str]:
    """The texts of what a claim rests on, which names the user's cells alone."""
    names = {each.cell for each in claim.claims()}
    assert names <= set(NAMES) and cell.picture().dot.count("rounded") == len(names)
    assert not re.search(r"(?<!\w)_\w|#\d", str(claim))
    return {it.text for each in claim.claims() for way in each.ways for it in way.sources}


def test_a_quantity_tells_how(wide: str) -> None:
    with Workbench(wide) as w:
        one = w.measured("R1", unit="ohm", low=300, high=700, step="0.1")
        two = w.measured("R2", unit="ohm", low=300, high=700, step="0.1")
        both_of = w.measured("series", unit="ohm", low=600, high=1400, step="0.1")
        w.law(both_of == one + two)
        w.read("meter", one, "468.0 +- 1.2 ohm")
        w.read("bridge", both_of, "940 +- 2 ohm")
        how = two.how()
        assert how.says == two.ask().value_text
        text = str(how)
        assert "by series == R1 + R2" in text and "told by meter" in text and "_" not in text


def test_elements_and_truths_tell_how(wide: str) -> None:
    with Workbench(wide) as w:
        day = w.domain("day", "mon tue wed")
        first, second = w.element("first", day), w.element("second", day)
        late, shut, colour = w.truth("late"), w.truth("shut"), w.symbol("colour")
        w.require(first == "tue", under="ana's day")
        w.require(first != second)
        w.tell("ben", second, ["tue", "wed"])
        w.require(shut == (second == "wed"))
        w.tell("cleo", late, True)
        w.require(implies(late, colour == "dark red"))
        assert str(shut.how()).split("\n") == [
            "shut = yes, by shut == (second == wed)",
            "  second = wed, by first != second",
            "    first = tue, by first == tue (ana's day)",
            "    second = {tue wed}, told by ben",
        ]
        assert str(colour.how()).split("\n") == [
            "colour = dark red, by implies(late, colour == dark red)",
            "  late = yes, told by cleo",
        ]


def test_what_only_makes_an_expression_is_not_named(wide: str) -> None:
    with Workbench(wide) as w:
        x, y = w.number("x", 0, 20), w.number("y", 3, 20)
        w.require(x + y != 4)
        w.require(x + y <= 9, under="few")
        text = str(x.how())
        assert text.startswith("x = 0..6\n") and "by x + y <= 9 (few)" in text
        assert "x + y != 4" not in text


def test_a_tree_of_many_parts(wide: str) -> None:
    lines = ["cell x0 span", "fix x0 1..2"]
    for at in range(1, 50):
        lines += [f"cell x{at} span", f"attach sum x{at - 1} x{at - 1} x{at}"]
    with Session(wide) as session:
        session.send_all(lines)
        watched = SessionWatched(session)
        watched.see()
        claim = watched.how("x49")
        talk = Talk(session)
        assert talk(":how x49") == str(claim) and talk(":how x49 all") == claim.whole()
        assert talk(":how x49 x48").startswith("Say of which cell")
    text = claim.whole().split("\n")
    assert len(list(claim.claims())) == 50 and len(text) == 13
    assert text[-1].endswith(" (and more behind)") and text[0].startswith(
        f"x49 = {2**49}..{2**50},"
    )
    # (of 50 steps the first and the last ones)
    told = [f"x{at} = {2**at}..{2 ** (at + 1)}" for at in range(49, -1, -1)]
    folded = [line.strip().partition(",")[0] for line in str(claim).split("\n")]
    assert folded == [*told[:6], "(40 steps between)", *told[-4:]]
    assert claim.is_folded and [each.cell for each in claim.chain] == [
        f"x{49 - n}" for n in range(50)
    ]
    assert claim.of("x3").says == "8..16" and claim.of("x3").premises == ()
    assert claim._repr_html_().count("<details>") == 1
    with pytest.raises(KeyError):
        claim.of("y")


def test_a_picture_shows_what_compounds_hold(wide: str) -> None:
    with Session(wide) as session:
        session.send_all([*DEFINED, "cell x span", "cell y span", "cell z span"])
        session.send_all(["attach twice x y", "attach sum x x z", "tell ana x 3"])
        watched = SessionWatched(session)
        dot = picture_of(watched, "y", parts=True).dot
    assert 'label="m\\n6"' in dot and 'label="k\\n6"' in dot and '"z' not in dot
    with bench(wide) as w:
        dot = w.cells[1].picture().dot
        assert "the price &lt;= 2000" in dot and "fee" not in dot and "small" in dot


# --- reasons that are folded ---

# Constraints between two numbers and another: as the workbench has them, and in whole numbers.
PAIRS: list[tuple[Callable[[Number, Number, int], Truth], Callable[[int, int, int], bool]]] = [
    (lambda x, y, n: x + n <= y, lambda x, y, n: x + n <= y),
    (lambda x, y, n: x + y <= n + 20, lambda x, y, n: x + y <= n + 20),
    (lambda x, y, n: 2 * x >= y + n, lambda x, y, n: 2 * x >= y + n),
    (lambda x, y, n: x * y >= n, lambda x, y, n: x * y >= n),
    (lambda x, y, n: (x < n) | (y > n), lambda x, y, n: x < n or y > n),
]
FEW = ("k", "l", "m", "n")


@dataclass(frozen=True)
class Net:
    """Numbers from 0 to 12 and constraints between two of them, each under a premise of its own."""

    rows: tuple[tuple[int, str, str, int], ...]

    def made(self, wide: str, premises: Iterable[str] | None = None) -> Workbench:
        """A workbench with these premises, or all."""
        w = Workbench(wide)
        cells = {name: w.number(name, 0, 12) for name in FEW}
        for place, (form, one, other, number) in enumerate(self.rows):
            if premises is None or f"p{place}" in premises:
                w.require(PAIRS[form][0](cells[one], cells[other], number), under=f"p{place}")
        return w

    def points(self, premises: Iterable[str]) -> Iterator[dict[str, int]]:
        """All points at which these premises hold."""
        kept = [self.rows[int(name[1:])] for name in premises]
        for values in product(range(13), repeat=len(FEW)):
            at = dict(zip(FEW, values))
            if all(PAIRS[form][1](at[one], at[other], number) for form, one, other, number in kept):
                yield at


def drawn_net(draw: random.Random) -> Net:
    return Net(
        tuple(
            (draw.randrange(len(PAIRS)), *draw.sample(FEW, 2), draw.randint(1, 6))  # type: ignore
            for _ in range(draw.randint(4, 9))
        )
    )


def within(one: Held, other: Held) -> bool:
    """Whether one value says all that another does."""
    return both(one, other) == one


def test_each_step_follows_from_its_premises(wide: str) -> None:
    """By what a claim rests on alone the program says as much; and what the way of a step comes
    from, with what is known of its inputs, says what the step says."""
    looked = 0
    for seed in range(12 * TIMES):
        net = drawn_net(random.Random(seed))
        with net.made(wide) as w:
            if not w.settle():
                continue
            claims = {each: None for cell in w.cells for each in cell.how().claims()}
        for claim in claims:
            with net.made(wide, claim.premises) as kept:
                assert within(span_of(kept, claim.cell), claim.value), (seed, claim)
            for way in claim.ways:
                names = [it.premise for it in way.sources if it.premise]
                with net.made(wide, names) as kept:
                    for each in way.inputs:
                        assert isinstance(each.value, Span)
                        kept.fix(kept.cell(each.cell), each.value.low, each.value.high)
                    assert within(span_of(kept, claim.cell), way.value), (seed, claim, way.text)
            steps = claim.chain
            assert steps[0] is claim and len({each.cell for each in steps}) == len(steps)
            for step, below in zip(steps, steps[1:]):
                assert any(below in way.inputs for way in step.ways)
            looked += 1
    assert looked > 60


def span_of(w: Workbench, name: str) -> Span:
    answer = w.cell(name).ask()
    assert answer.low is not None and answer.high is not None
    return Span(answer.low, answer.high)


def test_why_nothing_is_better(wide: str) -> None:
    """The premises of the reason leave nothing better, by all points; and they are of those that
    the optimum names. What needs a search says so, and has below it what follows without one."""
    searched = followed = 0
    for seed in range(60 * TIMES):
        draw = random.Random(100 + seed)
        net, sort = drawn_net(draw), draw.choice(["least", "greatest"])
        name = draw.choice(FEW)
        with net.made(wide) as w:
            best = w.least(name) if sort == "least" else w.greatest(name)
            if best.value is None:
                with pytest.raises(ValueError, match="there is no best"):
                    w.how(best)
                continue
            believed = w.believed
            claim = w.how(best)
            assert w.believed == believed and claim.cell == name
        assert {*claim.premises} <= {*best.because}
        ends = [at[name] for at in net.points(claim.premises)]
        assert best.value == (min(ends) if sort == "least" else max(ends)), (seed, claim)
        assert isinstance(claim.value, Span)
        assert best.value == (claim.value.low if sort == "least" else claim.value.high)
        is_search = "by a search" in str(claim)
        searched, followed = searched + is_search, followed + (not is_search)
        if is_search:
            [[below]] = [way.inputs for way in claim.ways]
            assert below.cell == name and not within(below.value, claim.value)
    assert followed > 10 and searched


def test_a_long_reason_is_folded_to_its_chain(wide: str) -> None:
    """Each of eight numbers is two more than the one before, the first of which is five at least:
    so the last is nineteen. By hand, but for the high ends, which depend on the order of a run."""
    with Workbench(wide) as w:
        cells = [w.number(f"x{at}", 0, 99) for at in range(8)]
        aside = [w.number(f"y{at}", 0, 99) for at in range(7)]
        w.tell("Ana", cells[0], 5, 99)
        for at, each in enumerate(aside):
            w.require(cells[at + 1] >= cells[at] + each, under=f"rule {at}")
            w.tell(f"Ben {at}", each, 2, 99)
        best = w.least(cells[7])
        assert best.value == 19
        claim = w.how(best)
        assert re.sub(r"\.\.\d+", "..", str(claim)).split("\n") == [
            "x7 = 19.., by x7 >= x6 + y6 (rule 6)",
            "  x6 = 17.., by x6 >= x5 + y5 (rule 5)",
            "  x5 = 15.., by x5 >= x4 + y4 (rule 4)",
            "  x4 = 13.., by x4 >= x3 + y3 (rule 3)",
            "  x3 = 11.., by x3 >= x2 + y2 (rule 2)",
            "  x2 = 9.., by x2 >= x1 + y1 (rule 1)",
            "  x1 = 7.., by x1 >= x0 + y0 (rule 0)",
            "  x0 = 5.., told by Ana",
            "and 7 others: 7 statements",
        ]
        assert len(claim.whole().split("\n")) > 12 and "told by Ben 3" in claim.whole()
        assert [each.cell for each in claim.of("x2").chain] == ["x2", "x1", "x0"]
        best_of_two: Any = w.least([cells[7], cells[6]])
        with pytest.raises(TypeError, match="each goal has a reason of its own"):
            w.how(best_of_two)
        assert str(w.how(best_of_two.steps[0])) == str(claim)
        assert {*claim.of("x2").premises} >= {"rule 1", "Ben 1", "rule 0", "Ben 0", "Ana"}
