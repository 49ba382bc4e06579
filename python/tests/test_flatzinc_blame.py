"""Which constraints of a model are to blame: against brute force, and as `propdesk blame` tells."""

import re
import shutil
import subprocess
from itertools import chain, combinations, product
from pathlib import Path

import pytest
from drawn_flatzinc import ALL, COMPARISONS, Drawn, models
from hypothesis import given

from propbench import Workbench
from propbench.desk import main
from propbench.flatzinc.building import Built
from propbench.flatzinc.compiling import compiled
from propbench.flatzinc.grammar import read
from propbench.flatzinc.marking import label_of, marked, relaxed
from propbench.questions.conflicts import SetSearch, find_both

Sets = set[frozenset[str]]


def with_marks(drawn: Drawn) -> str:
    """The model with each constraint under a mark, its number."""
    lines = drawn.text.split("\n")
    kept = [line for line in lines if line.startswith("var")]
    for number, line in enumerate(line for line in lines if line.startswith("constraint")):
        name, args = line.removeprefix("constraint ").removesuffix(");").split("(", 1)
        kept.append(f"var bool: h{number} :: var_is_introduced :: is_defined_var;")
        kept.append(f"constraint {name}_reif({args},h{number}) :: defines_var(h{number});")
        kept.append(f'constraint propbench_blame(h{number},"{number}");')
    variables = sorted(kept, key=lambda line: not line.startswith("var"))
    return "\n".join([*variables, "solve satisfy;", ""])


def least(sets: Sets) -> Sets:
    return {each for each in sets if not any(other < each for other in sets)}


def conflicts_and_repairs(drawn: Drawn) -> tuple[Sets, Sets]:
    """The minimal sets that can't all hold, and those without which the others can."""
    names = [str(number) for number in range(len(drawn.constraints))]
    every = chain.from_iterable(combinations(names, count) for count in range(len(names) + 1))
    fits: Sets = set()
    fails: Sets = set()
    for some in every:
        part = Drawn(drawn.values, [drawn.constraints[int(name)] for name in some])
        (fits if any(True for _ in part.solutions()) else fails).add(frozenset(some))
    return least(fails), least({frozenset(names) - each for each in fits})


@given(models(tuple(COMPARISONS)))
def test_conflicts_and_repairs_are_those_of_brute_force(program: str, drawn: Drawn) -> None:
    right = conflicts_and_repairs(drawn)
    with Workbench(program) as workbench:
        Built(read(with_marks(drawn)), workbench)
        conflicts, repairs = find_both(workbench.model, SetSearch(1000))
    assert conflicts.complete and repairs.complete
    assert {frozenset(each) for each in conflicts} == right[0]
    assert {frozenset(each) for each in repairs} == right[1]
    assert len(ALL) > len(COMPARISONS)


MARKED = """\
var 1..9: x :: output_var;
var 1..9: y :: output_var;
var bool: a :: var_is_introduced :: is_defined_var;
var bool: b :: var_is_introduced :: is_defined_var;
var bool: c :: var_is_introduced :: is_defined_var;
constraint int_le_reif(7,x,a) :: defines_var(a);
constraint int_lin_le_reif([1,1],[x,y],9,b) :: defines_var(b);
constraint int_le_reif(4,y,c) :: defines_var(c);
constraint propbench_blame(a,"many (line 3)");
constraint propbench_blame(b,"line 4");
constraint propbench_blame(c,"line 5, i=2");
solve maximize x;
"""
SAID = """\
1 conflict, no others:
  conflict  premise        says
  1         many (line 3)  x >= 7
            line 4         x + y <= 9
            line 5, i=2    y >= 4
3 repairs, no others:
  cost  give up
  1     many (line 3)
  1     line 4
  1     line 5, i=2
Without many (line 3), the best solution:
  x = 5;
  y = 4;
"""


def test_the_desk_tells_what_is_to_blame(
    program: str, tmp_path: Path, capsys: pytest.CaptureFixture[str]
) -> None:
    model, claim, picture = (tmp_path / name for name in ("m.fzn", "m.claim", "m.dot"))
    model.write_text(MARKED)
    words = ["--program", program, "--certificate", str(claim), "--picture", str(picture)]
    assert main(["blame", str(model), *words]) == 0
    assert capsys.readouterr().out == SAID
    dot = picture.read_text()
    assert dot.count("shape=box") == 3 and dot.count(" -- c1") == 3 and dot.count("#f4c7a1") == 1
    assert main(["check", str(claim), "--program", program]) == 0
    lines = claim.read_text().split("\n")
    place = next(place for place, line in enumerate(lines) if line.startswith("fix "))
    claim.write_text("\n".join([*lines[:place], *lines[place + 1 :]]))
    assert main(["check", str(claim), "--program", program]) == 1
    capsys.readouterr()


def test_an_order_or_one_of_two_is_a_premise_of_one_line(program: str) -> None:
    truths = "".join(f"var bool: {b} :: var_is_introduced :: is_defined_var;\n" for b in "abcd")
    text = f"""var 0..5: x;\nvar 0..5: y;\nvar 0..5: z;\n{truths}
constraint int_lin_le_reif([1,-1],[x,y],-3,a) :: defines_var(a);
constraint int_lin_le_reif([1,-1],[y,x],-3,b) :: defines_var(b);
constraint array_bool_or([a,b],c) :: defines_var(c);
constraint int_lin_le_reif([1,-1],[y,z],-3,d) :: defines_var(d);
constraint propbench_blame(c,"either");
constraint propbench_blame(d,"order");
solve satisfy;
"""
    with Workbench(program) as workbench:
        Built(read(text), workbench)
        lines = [it.split() for it in workbench.model.base() if it.startswith("tell ")]
        assert sorted(line[1] for line in lines) == ["either", "order"]
        assert len({line[2] for line in lines}) == 2
        points = [(x, y, z) for x in range(6) for y in range(6) for z in range(6)]
        right = [it for it in points if abs(it[0] - it[1]) >= 3 and it[1] + 3 <= it[2]]
        plans = workbench.plans(show=["x", "y", "z"])
        assert sorted(tuple(each[it] for it in "xyz") for each in plans) == right
        workbench.kick("either")
        left = [it for it in points if it[1] + 3 <= it[2]]
        assert len(workbench.plans(show=["x", "y", "z"])) == len(left)


def test_what_is_kept_is_not_given_up(
    program: str, tmp_path: Path, capsys: pytest.CaptureFixture[str]
) -> None:
    model = tmp_path / "m.fzn"
    model.write_text(MARKED)
    words = ["--keep", "many", "--keep", "line 5", "--program", program]
    assert main(["blame", str(model), *words]) == 0
    said = capsys.readouterr().out
    assert "1 repair, no others" in said and "Without line 4, the best" in said
    assert "x = 9;\n" in said


def test_a_model_that_can_be_solved_has_no_blame(
    program: str, tmp_path: Path, capsys: pytest.CaptureFixture[str]
) -> None:
    model = tmp_path / "m.fzn"
    model.write_text(MARKED.replace("],9,b)", "],18,b)"))
    assert main(["blame", str(model), "--program", program]) == 0
    assert capsys.readouterr().out == "No conflict: all that is believed fits together.\n"


@pytest.mark.skipif(shutil.which("minizinc") is None, reason="MiniZinc isn't there")
@pytest.mark.parametrize(
    "constraint, place, said",
    [
        ("x > 2 /\\ x > ", "2.25", "syntax error"),
        ("x > 2 /\\ z > 3", "2.21", "undefined identifier"),
        ('assert(false, "too small")', "2", "too small"),
    ],
)
def test_what_minizinc_says_has_no_marks(
    tmp_path: Path, capsys: pytest.CaptureFixture[str], constraint: str, place: str, said: str
) -> None:
    model = tmp_path / "m.mzn"
    model.write_text(f"var 1..3: x;\nconstraint {constraint};\nsolve satisfy;\n")
    assert main(["blame", str(model)]) == 2
    told = capsys.readouterr().err
    assert said in told and f"{model}:{place}" in told and "propbench_" not in told


@pytest.mark.skipif(shutil.which("dot") is None, reason="Graphviz isn't there")
def test_a_picture_is_drawn(
    program: str, tmp_path: Path, capsys: pytest.CaptureFixture[str]
) -> None:
    model, picture = tmp_path / "m.fzn", tmp_path / "m.svg"
    model.write_text(MARKED)
    assert main(["blame", str(model), "--program", program, "--picture", str(picture)]) == 0
    assert "line 5, i=2" in picture.read_text()
    capsys.readouterr()


SOURCE = """\
% constraint this = comment;
int: n = 3; /* constraint
too */ array[1..n] of var 1..n: q;
constraint :: "big" q[1] > 2;
constraint forall(i, j in 1..n where i < j)(q[i] != q[j] /\\ q[i] >= 1);
constraint (q[1] = 1 /\\ q[2] = 2) \\/ let { var 1..2: k; constraint k > 1 } in q[k] = 1;
constraint forall([q[i] > 0 | i in 1..n]);
output ["constraint \\(q[1]) ; "];
constraint if q[1] = 1 then true else q[2] = 2 /\\ q[3] = 1 endif; solve satisfy;
"""


def test_marks_stand_around_each_constraint() -> None:
    made = marked(SOURCE)
    before, after = SOURCE.split("\n"), made.text.split("\n")
    assert len(before) == len(after)
    assert after[3] == 'constraint :: "big" propbench_blame(q[1] > 2, "0|");'
    assert after[4] == (
        "constraint forall(i, j in 1..n where i < j)("
        'propbench_blame(q[i] != q[j], "1|i=\\(i), j=\\(j)") /\\ '
        'propbench_blame(q[i] >= 1, "2|i=\\(i), j=\\(j)"));'
    )
    assert after[5].startswith("constraint propbench_blame((q[1] = 1 /\\ q[2] = 2) \\/ let {")
    assert after[5].endswith('in q[k] = 1, "3|");')
    assert after[6] == 'constraint propbench_blame(forall([q[i] > 0 | i in 1..n]), "4|");'
    assert after[7] == before[7]
    assert after[8].startswith("constraint propbench_blame(if ")
    assert label_of(made, "0|") == ("big (line 4)", "q[1] > 2")
    assert label_of(made, "2|i=1, j=2") == ("line 5, part 2, i=1, j=2", "q[i] >= 1")


@pytest.mark.skipif(shutil.which("minizinc") is None, reason="MiniZinc isn't there")
def test_labels_come_from_the_model(tmp_path: Path) -> None:
    model, data = tmp_path / "m.mzn", tmp_path / "m.dzn"
    model.write_text(
        "int: n;\narray[1..n] of var 1..n: q;\n"
        'constraint :: "small" forall(i in 1..n)(q[i] <= i);\nconstraint sum(q) > 9;\n'
        "solve satisfy;\n"
    )
    data.write_text("n = 3;\n")
    made = compiled(model, [data])
    assert made.texts == {
        "small (line 3, i=1)": "q[i] <= i",
        "small (line 3, i=2)": "q[i] <= i",
        "small (line 3, i=3)": "q[i] <= i",
        "line 4": "sum(q) > 9",
    }


SOFT = """\
annotation soft(int: cost);
array[1..3] of var 1..9: q;
constraint :: "up" forall(i in 1..2)(q[i] < q[i + 1]) :: soft(3);
constraint q[1] >= 8 :: soft(2);
constraint q[2] + q[3] <= 12 /\\ q[3] <= 9;
solve satisfy;
"""


def test_what_is_soft_costs_so_much() -> None:
    made = marked(SOFT)
    after = made.text.split("\n")
    mark = "\\(i)"
    assert after[2] == (
        'constraint :: "up" forall(i in 1..2)(' f'propbench_blame(q[i] < q[i + 1], "0|i={mark}"));'
    )
    assert after[3] == 'constraint propbench_blame(q[1] >= 8, "1|");'
    assert [each.weight for each in made.constraints] == [3, 2, 1, 1]


def test_a_model_is_relaxed_where_it_says_so() -> None:
    made = marked(SOFT)
    lines = relaxed(SOFT, made, ["2|", "0|i=2", "0|i=1"]).split("\n")
    assert lines[2] == (
        'constraint :: "up" forall(i in 1..2)('
        "(not ((i=2) \\/ (i=1)) -> (q[i] < q[i + 1]))) :: soft(3);"
    )
    assert lines[3] == "constraint q[1] >= 8 :: soft(2);"
    assert lines[4] == "constraint true /* given up: q[2] + q[3] <= 12 */ /\\ q[3] <= 9;"
    assert relaxed(SOFT, made, []) == SOFT


@pytest.mark.skipif(shutil.which("minizinc") is None, reason="MiniZinc isn't there")
def test_the_cheapest_repair_is_written_as_a_model_and_a_page(
    program: str, tmp_path: Path, capsys: pytest.CaptureFixture[str]
) -> None:
    model, cheaper, page = (tmp_path / name for name in ("m.mzn", "new.mzn", "m.html"))
    model.write_text(SOFT)
    words = ["--program", program, "--relax", str(cheaper), "--picture", str(page)]
    assert main(["blame", str(model), *words]) == 0
    said = capsys.readouterr().out
    # (of 8, 9 and 10 the last is too much, so one of both `up` goes, or the least of q[1])
    assert re.findall(r"^  ([0-9]) +(.*)$", said.partition("repairs")[2], re.M)[0] == (
        "2",
        "line 4",
    )
    assert "true /* given up: q[1] >= 8 */" in cheaper.read_text()
    ran = subprocess.run(["minizinc", str(cheaper)], text=True, capture_output=True)
    assert "----------" in ran.stdout
    shown = page.read_text()
    assert '<mark class="up" title="line 4: conflict 1' in shown and "q[1] &gt;= 8</mark>" in shown
    assert "<script" not in shown and "The model" in shown


# A latin square whose rows go up while its columns go down.
LATIN = """\
include "globals.mzn";
int: n = 3;
array[1..n, 1..n] of var 1..n: square;
constraint :: "row" forall(i in 1..n)(alldifferent(row(square, i)));
constraint :: "column" forall(j in 1..n)(alldifferent(col(square, j)));
constraint :: "up" forall(i in 1..n - 1)(lex_less(row(square, i), row(square, i + 1)));
constraint :: "down" forall(j in 1..n - 1)(lex_greater(col(square, j), col(square, j + 1)));
solve satisfy;
"""


def which_hold(cells: tuple[int, ...]) -> frozenset[str]:
    """The constraints of the latin square that its cells meet, by their labels."""
    rows = [cells[:3], cells[3:6], cells[6:]]
    columns = list(zip(*rows))
    found = {f"row (line 4, i={i})" for i, it in enumerate(rows, 1) if len(set(it)) == 3}
    found |= {f"column (line 5, j={j})" for j, it in enumerate(columns, 1) if len(set(it)) == 3}
    found |= {f"up (line 6, i={i})" for i in (1, 2) if rows[i - 1] < rows[i]}
    found |= {f"down (line 7, j={j})" for j in (1, 2) if columns[j - 1] > columns[j]}
    return frozenset(found)


@pytest.mark.skipif(shutil.which("minizinc") is None, reason="MiniZinc isn't there")
def test_a_latin_square_has_the_conflicts_of_brute_force(wide: str, tmp_path: Path) -> None:
    model = tmp_path / "latin.mzn"
    model.write_text(LATIN)
    made = compiled(model, [])
    names = frozenset(made.texts)
    held = {which_hold(cells) for cells in product((1, 2, 3), repeat=9)}
    most = {each for each in held if not any(each < other for other in held)}
    every = chain.from_iterable(combinations(sorted(names), count) for count in range(11))
    fails = {frozenset(some) for some in every if not any(set(some) <= each for each in most)}
    with Workbench(wide) as workbench:
        Built(made.flat, workbench)
        conflicts, repairs = find_both(workbench.model, SetSearch(1000), made.texts)
    assert conflicts.complete and repairs.complete and len(names) == 10
    assert {frozenset(each) for each in conflicts} == least(fails)
    assert {frozenset(each) for each in repairs} == {names - each for each in most}
