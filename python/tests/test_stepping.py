"""Steps that propwide tells: how its replies are read, and what sessions, the shell, films,
pictures and the page make of them.

What is expected are texts of docs/WIDE.md's form, the definitions in the sources, the bare program
under `limit 1`, and its bare `step`.
"""

import random
import re
import subprocess
from collections.abc import Iterator
from itertools import count
from typing import Any

import pytest
from browsing import new_browser, shown
from conftest import REPOSITORY, TIMES
from test_desk import Talk
from test_watching import random_lines

from propbench import (
    Called,
    Contradiction,
    Elements,
    Impossible,
    Moved,
    Nothing,
    Session,
    Settled,
    Span,
    Step,
    Symbol,
    UnknownCommand,
    Workbench,
)
from propbench.page import Page
from propbench.pictures import film_of, picture_of
from propbench.replies import Searched, lines_behind, reply_of
from propbench.watching import Use
from propbench.watching.of_session import SessionWatched
from propbench.watching.of_workbench import WorkbenchWatched

ORDERS: tuple[dict[str, Any], ...] = ({}, {"order": "lifo"}, {"order": "mixed", "seed": 7})
# What a step is answered, the kinds of cells, and what that says.
KINDS = {"z": "span", "t": "truth", "d": "day", "s": "symbol"}
READ = [
    (
        "step 3\nsides: plan=2 more=1\ncalled: 7 adder x y z\nz = 13..15 because ana ben",
        ("plan=2", "more=1"),
        Called(7, "adder", ("x", "y"), "z", Span(13, 15), ("ana", "ben")),
    ),
    (
        "step 3\nsides:\ncalled: 0 inverter t t\nt = {yes no} because no premise",
        (),
        Called(0, "inverter", ("t",), "t", Elements(("yes", "no")), ()),
    ),
    (
        "step 3\nsides:\ncalled: 12 copier d d\nd = {because settled} because because",
        (),
        Called(12, "copier", ("d",), "d", Elements(("because", "settled")), ("because",)),
    ),
    (
        "step 3\nsides:\ncalled: 1 copier s s\ns = because because because",
        (),
        Called(1, "copier", ("s",), "s", Symbol("because"), ("because",)),
    ),
    (
        "step 3\nsides:\ncalled: 1 adder z #12 #13\n#13 = -7..3 because p=1",
        (),
        Called(1, "adder", ("z", "#12"), "#13", Span(-7, 3), ("p=1",)),
    ),
    (
        "step 3\nsides:\ncalled: 2 inverter t #5\n#5 = nothing because no premise",
        (),
        Called(2, "inverter", ("t",), "#5", Nothing(), ()),
    ),
    ("step 2\nsupposed: 1\nz = 3", (), Searched(("supposed: 1", "z = 3"))),
    (
        "step 3\nnogood: z<=3 t=yes\nbecause ana\nback: 1",
        (),
        Searched(("nogood: z<=3 t=yes", "because ana", "back: 1")),
    ),
    ("step 1\nplan", (), Searched(("plan",))),
    ("step 0", (), Searched(())),
    (
        "step 3\nsides:\ncalled: 2 inverter t #5\n#5 = no because q",
        (),
        Called(2, "inverter", ("t",), "#5", Elements(("no",)), ("q",)),
    ),
    (
        "step 3\nsides:\ncalled: 0 adder x y z\nz = contradiction because a b c",
        (),
        Called(0, "adder", ("x", "y"), "z", Impossible(), ("a", "b", "c")),
    ),
    (
        "step 3\nsides: plan=1\nmoved: plan=1 plan=2\nnogood: ana plan=1",
        ("plan=1",),
        Moved("plan=1", "plan=2", ("ana", "plan=1")),
    ),
    ("step 2\nsides: plan=2\nsettled", ("plan=2",), Settled()),
    ("step 2\nsides:\ncontradiction: a b", (), Contradiction(("a", "b"))),
    ("step 2\nsides:\ncontradiction: no premise", (), Contradiction(())),
]


@pytest.mark.parametrize("text, sides, did", READ)
def test_a_step_is_read(text: str, sides: tuple[str, ...], did: object) -> None:
    found = reply_of(["step"], text, KINDS)
    assert isinstance(found, Step) and (found.sides, found.did) == (sides, did)
    assert str(found) == text
    assert lines_behind("step", text.partition("\n")[0]) == text.count("\n")


def test_a_program_that_tells_no_steps_says_so(program: str) -> None:
    with Session(program) as session:
        session.send("cell x span")
        with pytest.raises(UnknownCommand) as refused:
            session.step()
        assert (
            refused.value.says
            == "`step` needs propwide: this program doesn't tell what its runs do."
        )
        assert (refused.value.number, refused.value.column) == (3, 1)
        with pytest.raises(UnknownCommand, match="stands alone on its line, and needs propwide"):
            session.send("step x")
        assert session.lines == ["cell x span"] and str(session.send("ask x")) == "x = nothing"


# --- over propwide ---


def bare_lines(program: str, lines: list[str], options: list[str]) -> list[str]:
    """The lines that the program writes to these."""
    text = "".join(f"{line}\n" for line in lines)
    ran = subprocess.run(
        [program, *options], input=text, stdout=subprocess.PIPE, check=True, text=True
    )
    return ran.stdout.split("\n")[:-1]


def test_a_session_steps(wide: str) -> None:
    lines = ["cell x span", "cell y span", "cell z span", "attach adder x y z"]
    lines += ["tell ana x 3..5", "tell ben y 10", "choose plan z 20 or 14"]
    with Session(wide, limit=3) as session:
        session.send_all(lines)
        assert str(session.step()) == (
            "step 3\nsides:\ncalled: 0 adder x y z\nz = 13..15 because ana ben"
        )
        assert session.step() == Step(
            ("plan=1",), Moved("plan=1", "plan=2", ("ana", "ben", "plan=1"))
        )
        assert session.step().did == Called(0, "adder", ("x", "y"), "z", Span(14, 14), ("plan=2",))
        assert session.step() == Step(("plan=2",), Settled())
        assert session.limit == 3 and session.lines == [*lines, *["step"] * 4]
        session.send_all(["kick ben", "tell cleo z 1", "tell dora z 2"])
        replies = session.send_all(["step", "ask z", "step"])
        assert [type(each) for each in replies] == [Step, Contradiction, Step]
        assert session.replay()[-3:] == replies


@pytest.mark.parametrize("options", ORDERS)
def test_steps_are_those_of_runs_of_one(wide: str, options: dict[str, Any]) -> None:
    """Behind each step the same is known, of all cells and choices, as behind a `settle` under
    `limit 1`; and what a frame says was called is what a bare `step` names."""
    shell = [f"--{name}={value}" for name, value in options.items()]
    moved = called = 0
    small = ["cell x0 span", "cell x1 span", "cell x2 span", "attach sum x0 x1 x2"]
    drawn = [random_lines(random.Random(500 + seed), True) for seed in range(4 * TIMES)]
    for lines in [[*small, "tell p x2 7..9", "tell q x2 4..8"], *drawn]:
        lines += ["choose c x0 1 or 5..9 or 3", "choose d x1 0 or 2"]
        cells = [line.split()[1] for line in lines if line.startswith("cell")]
        asks = [*(f"why {cell}" for cell in cells), "worldview", "nogoods"]
        with Session(wide, **options) as session, Session(wide, **options) as other:
            session.send_all(lines)
            other.send_all(lines)
            watched = SessionWatched(session)
            uses = watched.network().uses
            steps = watched.steps()
            frames = steps.take(30)
            steps.close()
            bare = bare_lines(wide, [*lines, *["step"] * 30], shell)
            told = [line for line in bare if line.startswith(("called:", "moved:"))]
            for frame in frames[1:]:
                other.send_all(["limit 1", "settle"])
                session.step()
                assert session.look(asks) == other.look(asks), (lines, frame)
                [end] = session.look(["settle"])
                assert (frame.end == "") == (str(end) == "unsettled")
                word, *said = told[frame.number - 1].split(" ")
                moved += word == "moved:"
                if word == "called:":
                    called += 1
                    assert frame.does.split(", of ")[0] == " ".join(said[1:])
                    [use] = [each for each in uses if each.name == frame.use]
                    attach = " ".join(("attach", use.text, *use.cells))
                    assert attach in lines and set(said[2:]) <= set(use.cells)
                else:
                    assert " is left for " in frame.does and frame.use == ""
    assert moved and called > 40


DEFINED = [
    "define both a b c = local k like a ; sum a b k ; max a k c",
    "define twice a b = local m span ; both a a m ; adder m m b",
]


def test_whose_call_it_is(wide: str) -> None:
    """Through definitions of the user's over those of propwide, whose lines Python doesn't know."""
    lines = [*DEFINED, "cell x span", "cell y span", "cell z span"]
    lines += ["attach max x y z", "attach twice x y", "attach adder x y z", "attach both x y z"]
    lines += ["tell ana x 3", "tell ben y 0..99"]
    spread = {"1": range(0, 3), "2": range(3, 10), "3": range(10, 11), "4": range(11, 17)}
    numbers = bare_lines(wide, [*lines, *["step"] * 17], [])
    called = [int(line.split()[1]) for line in numbers if line.startswith("called:")]
    assert sorted(called) == [*range(17)]
    with Session(wide) as session:
        session.send_all(lines)
        steps = SessionWatched(session).steps()
        frames = steps.take(17)
        steps.close()
    for number, frame in zip(called, frames[1:]):
        assert number in spread[frame.use]
    by_does = {frame.does: frame for frame in frames}
    first = by_does["adder x x 2.1.k, of twice x y"]
    # the output of a call within a compound is told with its value
    assert [(each.cell, each.after) for each in first.changes] == [("2.1.k", "6")]
    assert by_does["adder x y z"].use == "3"
    assert [reason.premise for reason in first.changes[0].because] == ["ana"]


# --- what compounds of propwide are made of ---


def defined() -> dict[str, tuple[list[str], list[list[str]]]]:
    """The definitions of the sources: parameters and steps of each."""
    found = {}
    for crate in ("prop_arith", "prop_wide", "prop_rows", "prop_many"):
        text = (REPOSITORY / "crates" / crate / "src/prelude.rt").read_text(encoding="utf-8")
        for line in re.findall(r'"define ([^"]*)"', text):
            head, _, steps = line.partition(" = ")
            name, *parameters = head.split()
            found[name] = (parameters, [step.split() for step in steps.split(" ; ")])
    return found


def expanded(
    definitions: dict[str, tuple[list[str], list[list[str]]]],
    name: str,
    cells: list[str],
    numbers: Iterator[int],
) -> Iterator[list[str]]:
    """The procedures that a compound comes to, each with its cells; its own are numbered."""
    if name not in definitions:
        yield [name, *cells]
        return
    parameters, steps = definitions[name]
    inner = dict(zip(parameters, cells))
    for step in steps:
        if step[0] == "local":
            inner[step[1]] = f"#{next(numbers)}"
        else:
            on = [inner[each] for each in step[1 : step.index("by") if "by" in step else None]]
            yield from expanded(definitions, step[0], on, numbers)


def rows_of_compounds() -> list[tuple[str, str, list[str]]]:
    """The compounds of docs/WIDE.md, with what stands behind `by`, and the kinds of their cells."""
    text = (REPOSITORY / "docs/WIDE.md").read_text(encoding="utf-8")
    text = text.partition("## Compounds")[2].partition("## Procedures")[0]
    kinds = {"S": "span", "T": "truth", "A": "span"}
    found = {}
    for form, cells in re.findall(r"^\| `([^`]*)` \| ([^|]*) \|", text, flags=re.M):
        name, _, given = form.partition(" .. by ")
        found[name] = (name, given, [kinds[cell.split()[-1]] for cell in cells.split(", ")])
    return list(found.values())


@pytest.mark.parametrize("name, given, kinds", rows_of_compounds())
def test_what_a_compound_of_propwide_is_made_of(
    wide: str, name: str, given: str, kinds: list[str]
) -> None:
    cells = [f"x{place}" for place in range(len(kinds))]
    by = ["by", given] if given else []
    with Session(wide) as session:
        session.send_all(f"cell {cell} {kind}" for cell, kind in zip(cells, kinds))
        session.send(" ".join(["attach", name, *cells, *by]))
        [use] = SessionWatched(session).network().uses
        assert session.lines[-1].startswith("attach")
    wanted = list(expanded(defined(), name, cells, count()))
    leaves = [[leaf.text, *leaf.cells] for leaf in use.leaves()]
    assert [leaf[0] for leaf in leaves] == [each[0] for each in wanted] and len(leaves) > 1
    assert all(leaf.one_way for leaf in use.leaves())
    own: dict[str, str] = {}
    for leaf, each in zip(leaves, wanted):
        for cell, other in zip(leaf[1:], each[1:]):
            assert (own.setdefault(cell, other) if other.startswith("#") else cell) == other
    assert len(set(own.values())) == len(own) == len(use.locals)


def test_a_procedure_of_propwide_works_one_way(wide: str) -> None:
    lines = ["cell x span", "cell y span", "cell z span", "attach maximizer x y z"]
    with Session(wide) as session:
        session.send_all([*lines, "attach max x y z"])
        one, other = SessionWatched(session).network().uses
        assert one == Use("1", "maximizer", ("x", "y", "z"), one_way=True)
        drawn = picture_of(SessionWatched(session)).dot
    assert [part.text for part in other.parts] == ["maximizer", "max_back", "max_back"]
    assert drawn.count('label="max_back"') == 2 and 'label="max"' in drawn


# --- what is shown ---


def test_the_shell_tells_steps(wide: str) -> None:
    with Session(wide) as session:
        session.send_all(["cell x span", "cell y span", "cell z span", "attach sum x y z"])
        session.send_all(["tell ana x 3..5", "tell ben y 10", "choose plan z 20 or 14"])
        talk = Talk(session)
        assert talk(":step").split("\n") == [
            "called adder x y z: z = 13..15 because ana ben",
            "cell  before  now",
            "z     20      contradiction",
            "There is more to do.",
        ]
        assert talk(":step 3").split("\n") == [
            "called subtracter z x y: y = 10 because ben",
            "called subtracter z y x: x = 3..5 because ana",
            "moved plan=1 to plan=2: impossible together: ana ben plan=1",
            "cell  before         now",
            "z     contradiction  14",
            "There is more to do.",
        ]
        assert talk(":step 100").split("\n")[-1] == "settled"
        assert talk(":step") == "settled"
        assert talk("step") == "step 2\nsides: plan=2\nsettled"
        assert talk(":undo") == "Taken back: choose plan z 20 or 14"
        assert "propwide alone has this command" in talk(":help step")


def test_a_film_tells_what_was_called(wide: str) -> None:
    with Session(wide) as session:
        session.send_all(["cell x span", "cell y span", "attach copier x y", "tell ana x 3"])
        film = film_of(SessionWatched(session), 9)
    assert str(film).split("\n") == [
        "step  called      changed",
        "0                 x = 3",
        "1     copier x y  y = 3    settled",
    ]
    # the procedure that was called is lit in its picture alone
    lit = [dot.count('color="#c2570c", fontcolor') for dot in film._dots()]
    assert lit == [0, 1]
    with Workbench(wide) as w:
        x, y = w.number("x", 0, 9), w.number("y", 0, 9)
        w.require(x + y == 12, under="twelve")
        w.require(x >= 5)
        w.choose("how", y, [9, 4])
        frames = WorkbenchWatched(w).steps()
        taken = frames.take(400)
        frames.close()
    assert taken[-1].end == "settled"
    texts = {frame.does.partition(", of ")[2] for frame in taken if frame.does}
    assert texts <= {"x + y == 12", "x >= 5", ""} and "x + y == 12" in texts
    assert {frame.use for frame in taken if frame.does.endswith("x + y == 12")} == {"1"}
    assert {frame.use for frame in taken if not frame.does.endswith("x + y == 12")} == {""}
    assert "how: 9 is left for how: 4" in {frame.does for frame in taken}


def test_the_page_tells_what_was_called_and_how(wide: str) -> None:
    browser = new_browser()
    try:
        with Session(wide) as session:
            session.send_all(["cell x span", "cell y span", "cell z span", "attach sum x y z"])
            session.send_all(["attach copier z x", "tell ana x 3..5", "tell ben y 10"])
            with shown(browser, Page(SessionWatched(session), "told")) as page:
                page.press("first")
                page.until(lambda: page.text("step") == "step 0")
                assert page.all("#changes .does") == [] and page.marked("bears") == 0
                page.press("forward")
                page.until(lambda: page.text("step") == "step 1")
                assert page.one("#changes .does").text == "adder x y z, of sum x y z"
                assert page.marked("bears") == 1
                page.keep("told")
        lines = [f"cell {name} span" for name in "abcde"]
        lines += ["attach sum a b c", "attach sum c d e", "attach max a b d"]
        with Session(wide) as session:
            session.send_all([*lines, "tell ana a 3..5", "fix b 10", "tell ben e 20..90"])
            with shown(browser, Page(SessionWatched(session), "how")) as page:
                page.click("c")
                page.until(lambda: page.text("cell-name") == "c" and page.marked("bears"))
                # the cells a, b, c and the first use: what is behind c says no more of it
                assert page.marked("bears") == 4
                assert {each.text for each in page.all("#premises li.lit label")} == {"ana"}
                page.one("#how summary").click()
                assert page.text("cell-how").split("\n") == [
                    "c = 13..15, by adder a b c, of sum a b c",
                    "  a = 3..5, told by ana",
                    "  b = 10, as fixed",
                ]
                page.keep("how")
    finally:
        browser.quit()
