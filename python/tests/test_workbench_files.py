"""What stands on lines: a workbench as a file, a constraint's lines, and the seam to questions."""

from pathlib import Path
from tempfile import TemporaryDirectory
from typing import Any

import pytest
from hypothesis import example, given
from hypothesis import strategies as st
from modelling import (
    CELLS,
    TWO_OF_THREE,
    Bench,
    Recipe,
    all_points,
    bench,
    built,
    cell,
    far,
    meant,
    names_in,
    truths,
)

from propbench import (
    NotAWorkbench,
    Refused,
    Session,
    Workbench,
    all_different,
    count,
    if_else,
    maximum,
    minimum,
)
from propbench.model.events import Required
from propbench.model.script import Script


def stated(program: str, recipes: list[Recipe]) -> Bench:
    """A workbench in which recipes are required in turn: always, under a premise, by a choice."""
    made = bench(program)
    w = made.workbench
    for number, recipe in enumerate(recipes):
        constraint = built(recipe, made.cells)
        if number % 3 == 2:
            w.choose(f"choice {number}", {"it": constraint, "or else": [made.cells["x"] <= 2]})
        else:
            w.require(constraint, under=f"p {number}" if number % 3 else None)
    w.tell("ana", made.cells["x"], -2, 3)
    w.tell("ben", made.cells["d"], ["mon", "tue"])
    w.choose("plan", made.cells["y"], [(1, 3), 4])
    w.kick("ana")
    return made


def asked(session: Session) -> list[str]:
    """What follows for each cell, as replies."""
    return [str(session.send(f"ask {name}")) for name in CELLS]


@given(st.lists(truths, min_size=1, max_size=4))
def test_a_file_is_the_workbench(program: str, recipes: list[Recipe]) -> None:
    made = stated(program, recipes)
    with made.workbench as w, TemporaryDirectory() as folder:
        path = Path(folder) / "plan.prop"
        w.forget("ben")
        w.tell("ben", made.cells["e"], "tue")
        w.save(path)
        with Workbench.load(path, program) as loaded:
            assert loaded.model.base() == w.model.base()
            assert asked(loaded.session) == asked(w.session)
            assert loaded.premises == w.premises and loaded.believed == w.believed
            assert [cell.name for cell in loaded.cells] == list(CELLS)
        with Session(program) as session:
            session.send_all(path.read_text(encoding="utf-8").splitlines())
            assert asked(session) == asked(w.session)


PAIR: Recipe = ("later", cell("d"), cell("e"))
LESS: Recipe = ("less", cell("x"), cell("y"))
# (the same elements are never a pair, and one number always differs)
NEVER: Recipe = ("later", cell("d"), cell("d"))
NO: Recipe = ("not", ("different", cell("x")))


@given(st.one_of(truths, truths.map(far)))
@example(recipe=("if", NEVER, NO, cell("b")))
@example(recipe=("and", ("not", PAIR), ("or", PAIR, cell("b"))))
@example(recipe=("and", PAIR, ("equal", PAIR, cell("b"))))
@example(recipe=("and", LESS, ("xor", LESS, far(("less", cell("z"), cell("x"))))))
@example(recipe=TWO_OF_THREE)
def test_the_lines_of_a_constraint_are_all_that_it_needs(program: str, recipe: Recipe) -> None:
    """They say the same in a session that has the cells alone, also where others share cells."""
    alone, among = bench(program), bench(program)
    with alone.workbench, among.workbench, Session(program) as session:
        cells = among.cells
        session.send_all(among.workbench.model.base())
        declared = set(session.lines)
        constraint = built(recipe, cells)
        among.workbench.require(~constraint, under="not")
        among.workbench.require(constraint | (cells["x"] * cells["y"] == 40), under="or")
        among.workbench.require(constraint, under="it")
        lines = among.workbench.lines(constraint)
        session.send_all([line for line in lines if line not in declared])
        alone.workbench.require(built(recipe, alone.cells), under="it")
        assert asked(session) == asked(alone.workbench.session)


def test_the_lines_of_a_constraint_join_its_own_cells(program: str) -> None:
    """Also where they are joined by a cell that joins others too."""
    made = bench(program)
    with made.workbench as w, Session(program) as session:
        session.send_all(w.model.base())
        declared = set(session.lines)
        pair, b = built(PAIR, made.cells), made.cells["b"]
        w.require(~pair, under="other")
        w.require(~pair & (pair | b), under="it")
        lines = w.lines(~pair & (pair | b))
        session.send_all([line for line in lines if line not in declared])
        assert str(session.send("ask b")) == "b = yes"
        w.kick("other")
        assert b.ask().value is True


@given(st.lists(truths, min_size=1, max_size=3), st.data())
def test_what_points_violate(program: str, recipes: list[Recipe], data: st.DataObject) -> None:
    made = bench(program)
    everywhere = set().union(*map(names_in, recipes)) | {"x"}
    at = data.draw(st.sampled_from(list(all_points(everywhere))))
    with made.workbench as w:
        for number, recipe in enumerate(recipes):
            w.require(built(recipe, made.cells), under=f"p{number}")
        w.tell("ana", made.cells["x"], 0, 2)
        w.fix(made.cells["x"], -3, 2)
        held = [f"p{number}" for number, each in enumerate(recipes) if meant(each, at)]
        held += ["ana"] if 0 <= at["x"] <= 2 else []
        assert w.model.held(at) == held
        told = None if at["x"] <= 2 else "x = -3..2"
        assert w.model.violated(at, held) == told
        for premise in w.premises:
            assert (w.model.violated(at, [premise]) is None) is (premise in held and not told)


def test_the_seam(program: str) -> None:
    with Workbench(program) as w:
        day = w.domain("day", ["mon day", "tue"])
        x, free = w.number("x 1", 0, 3), w.number("free")
        t, d, c = w.truth("t"), w.element("d", day), w.symbol("c")
        w.require((x + 1 < 3) & t, under="p q")
        w.tell("p q", free, 3)
        model = w.model
        assert list(model.cells()) == ["x 1", "free", "t", "d", "c"]
        assert [model.candidates(cell) for cell in model.cells()] == [
            range(0, 4),
            None,
            ("no", "yes"),
            ("mon day", "tue"),
            None,
        ]
        plan: dict[str, Any] = {"x 1": 1, "free": 3, "t": True, "d": "mon day", "c": "dark red"}
        for cell, value in plan.items():
            w.session.send(f"fix {model.cell_name(cell)} {model.literal(cell, value)}")
        assert [each.ask().value for each in (x, free, t, d, c)] == list(plan.values())
        assert model.text("p q") == "(x 1 + 1 < 3) & t; free = 3"
        assert model.violated(plan, ["p q"]) is None
        assert model.violated(plan | {"t": "no"}, ["p q"]) == "(x 1 + 1 < 3) & t"
        assert model.violated(plan | {"x 1": 9}, []) == "x 1 is not what it was declared as"
        assert model.violated(plan | {"d": "wed"}, []) == "d is not what it was declared as"


def test_values_beyond_fit_nowhere(program: str) -> None:
    with Workbench(program) as w:
        x = w.number("x", 0)
        w.require((x * x >= 0) | (x == 5), under="square")
        at = {"x": 10**10}
        said = "(x * x >= 0) | (x == 5) (x * x lies beyond 10^18)"
        assert w.model.violated(at, ["square"]) == said and w.model.held(at) == []
        w.fix(x, 10**10)
        assert w.settle() is False


@pytest.mark.parametrize(
    ("old", "new", "says"),
    [
        ("fix x 0..9", "fix x 0..8", "line 7 was changed: 'fix x 0..8' stands for 'fix x 0..9'"),
        ("tell ana x 3\n", "", "has 4 lines where 5 are meant"),
        ('"high": 9', '"high": 8', "line 7 was changed: 'fix x 0..9' stands for 'fix x 0..8'"),
        ("#:", "#", "was not saved by a workbench"),
        ('"number"', '"numbers"', "was not saved by a workbench"),
        ('"workbench": 1', '"workbench": 2', "is of another form: 2"),
    ],
)
def test_a_file_that_was_changed(
    program: str, tmp_path: Path, old: str, new: str, says: str
) -> None:
    path = tmp_path / "plan.prop"
    with Workbench(program) as w:
        w.tell("ana", w.number("x", 0, 9), 3)
        w.save(path)
    text = path.read_text(encoding="utf-8")
    assert old in text
    path.write_text(text.replace(old, new), encoding="utf-8")
    with pytest.raises(NotAWorkbench, match=says.replace("(", r"\(")):
        Workbench.load(path, program)


def test_long_statements_are_saved(program: str, tmp_path: Path) -> None:
    with Workbench(program) as w:
        cells = [w.number(f"a rather long name {i}", 0, 9) for i in range(300)]
        w.require(sum(cells[1:], cells[0]) <= 100)
        w.save(tmp_path / "long.prop")
        with Session(program) as session:
            session.send_all((tmp_path / "long.prop").read_text(encoding="utf-8").splitlines())
        with Workbench.load(tmp_path / "long.prop", program) as loaded:
            assert loaded.model.base() == w.model.base()


def test_a_line_refused_leaves_nothing(program: str) -> None:
    """What a session has by another way is not the workbench's: it tells so, and goes on."""
    with Workbench(program) as w:
        x = w.number("x", 0, 9)
        w.session.send("cell y span")
        with pytest.raises(Refused):
            w.number("y", 0, 3)
        w.require(x <= 3)
        assert x.ask().high == 3
        assert w.number("y", 0, 3).ask().high == 3


WIDER = {"max", "min", "abs", "if", "divide", "count3", "different3"}


def test_the_wider_kit_is_used_where_it_is_there(program: str) -> None:
    """The lines as they would be for a program that has it: by its compounds' order of cells."""
    with Workbench(program) as w:
        x, y, t = w.number("x", 0, 9), w.number("y", 1, 9), w.truth("t")
        stated = [
            (maximum(x, y) == 5, ["attach max x y _1"]),
            (minimum(x, y, 7) == 5, ["attach min y _3 _2", "attach min x _2 _1"]),
            (abs(x - y) == 5, ["attach abs _2 _1"]),
            (if_else(t, x, y) == 5, ["attach if t x y _1"]),
            (x // y == 5, ["attach divide x y _1 _2"]),
            (x % y == 5, ["attach divide x y _2 _1"]),
            (count(t, x == 1, y == 1) == 2, ["attach count3 t _2 _4 _1"]),
            (all_different(x, y, 5), ["attach different3 x y _1"]),
        ]
        events, vocabulary = w._network.events, w._network.vocabulary
        for constraint, wanted in stated:
            script = Script(vocabulary, lambda name: True)
            for event in events:
                script.lines_of(event)
            lines = script.lines_of(Required(constraint.node, None))
            assert [line for line in lines if line.split()[1] in WIDER] == wanted


def test_many_numbers_that_differ_are_told_at_once(program: str) -> None:
    """For each number beside the others, where the program can and a line has room for their
    names."""
    with Workbench(program) as w:
        names = [f"{'x' * 62}{at}" for at in range(10, 71)]
        xs = [w.number(name, 0, 99) for name in names]
        events, vocabulary = w._network.events, w._network.vocabulary
        for count, is_offered in ((8, True), (9, True), (60, True), (61, True), (60, False)):
            script = Script(vocabulary, lambda name: is_offered)
            for event in events:
                script.lines_of(event)
            lines = script.lines_of(Required(all_different(xs[:count]).node, None))
            told = [line for line in lines if line.startswith("attach differ")]
            told = [line for line in told if not line.startswith("attach different")]
            wanted = [
                f"attach differ{count - 1} {' '.join([own, *others])} {own}"
                for own in names[:count]
                for others in [[name for name in names[:count] if name != own]]
            ]
            assert told == (wanted if 8 < count <= 60 and is_offered else [])
            assert all(len(line.encode()) <= 4096 for line in lines)
