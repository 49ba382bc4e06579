"""FlatZinc read and solved: its grammar, what is refused, the options, the order of the search."""

from pathlib import Path

import pytest

from propbench import Workbench
from propbench.flatzinc.building import Built
from propbench.flatzinc.command import main
from propbench.flatzinc.grammar import read
from propbench.flatzinc.solving import ALL, Wanted, solve
from propbench.flatzinc.symbolic import domains
from propbench.flatzinc.terms import Call, Name, NotSupported, Numbers, Text

EVERYTHING = """\
% a note
predicate own(var int: x, string: label);
int: n = 0x10;
array [1..3] of int: a = [1,-2,3]; bool: yes = true;
array [1..2] of set of int: sets = [1..2,{4,7}];
set of int: s = {5,3,4,9};
var 1..3: x :: output_var;
var {1,2,5}: y;
var bool: b ::var_is_introduced :: is_defined_var;
var int: free = x;
array [1..2] of var int: xs :: output_array([1..2]) = [x,7];
constraint int_le_reif(x,2,b) :: defines_var(b) :: mzn_path("a;\\"b\\"|c");
constraint own(x, "5% of \\"it\\"");
solve :: seq_search([int_search(xs,input_order,indomain_min,complete)]) minimize x;
"""


def test_the_grammar() -> None:
    flat = read(EVERYTHING)
    assert flat.parameters["n"] == 16 and flat.parameters["yes"] is True
    assert flat.parameters["s"] == Numbers(((3, 5), (9, 9)))
    assert flat.resolved(Name("a")) == (1, -2, 3)
    assert flat.resolved(Name("sets")) == (Numbers(((1, 2),)), Numbers(((4, 4), (7, 7))))
    assert flat.variables["y"].values == Numbers(((1, 2), (5, 5)))
    assert flat.variables["free"].values is None and flat.variables["free"].value == Name("x")
    assert flat.variables["b"].is_truth and flat.variables["b"].has("is_defined_var")
    assert flat.arrays["xs"].printed == (Numbers(((1, 2),)),)
    reified, own = flat.constraints
    assert (reified.name, reified.args, reified.defined) == (
        "int_le_reif",
        (Name("x"), 2, Name("b")),
        "b",
    )
    assert own.args[1] == Text('5% of "it"') and own.line == 13
    assert (flat.goal.sort, flat.goal.objective) == ("minimize", Name("x"))
    [annotation] = flat.goal.annotations
    assert isinstance(annotation, Call) and annotation.name == "seq_search"


@pytest.mark.parametrize(
    "text, line, said",
    [
        ("var 1..2: x;\nvar float: y;\nsolve satisfy;", 2, "the float y has no ends"),
        ("var 1.5..2: y;\nsolve satisfy;", 1, "a float is wanted"),
        ("var 1..2: x;\nconstraint float_le(x,2.5);\nsolve satisfy;", 2, "has to be a float"),
        ("var 1.0..2.0: x;\nconstraint int_le(x,2);\nsolve satisfy;", 2, "has to be a value"),
        ("var 1.0..2.0: x;\nconstraint float_sin(x,x);\nsolve satisfy;", 2, "float_sin"),
        ("var 1..2: x;\n\nconstraint int_sqrt(x,x);\nsolve satisfy;", 3, "int_sqrt"),
        ("var 1..2: x\nsolve satisfy;", 2, "';' is wanted, and not 'solve'"),
        ("var 1..2: x;\nconstraint int_le(x,?);", 2, "no word of FlatZinc begins with '?'"),
        ("var 1..2: x;\nsolve improve x;", 2, "and not 'improve'"),
        ("var -9..99: x;\nconstraint int_pow(x,x,4);\nsolve satisfy;", 2, "exponents up to 63"),
        ("var 1..2: x;\nconstraint int_le(x,y);\nsolve satisfy;", 2, "nothing is called `y`"),
        ("var 1..2: x;\nsolve minimize y;", 2, "nothing is called `y`"),
        ("var 1..2: x = y;\nsolve satisfy;", 1, "nothing is called `y`"),
        ("\narray [1..1] of var int: a = [y];\nsolve satisfy;", 2, "nothing is called `y`"),
        ("predicate f(", 1, "';' is wanted"),
        ("\npredicate f(var int: x)\n", 3, "';' is wanted"),
        ("var 1..2", 1, "':' is wanted, and not the end of the file"),
        ("var 1..2: x;\nvar 1..3: x;\nsolve satisfy;", 2, "x is declared twice"),
        ("var 1..2: x;\nconstraint int_le(x);\nsolve satisfy;", 2, "has 1 arguments, and takes 2"),
        ("var 1..2: x;\nconstraint set_in(x,3);\nsolve satisfy;", 2, "has to be a set of numbers"),
        ("var 1..2: x;\nconstraint int_lin_le([1],[x,x],3);", 2, "as many factors as variables"),
        ("var 1..2: x;\nconstraint int_lin_le([x],[x],3);", 2, "an array of constants"),
        (
            "var bool: x;\nconstraint propbench_blame(x);\nsolve satisfy;",
            2,
            "the mark of a constraint",
        ),
        ("constraint int_le(" + "[" * 99_999, 1, "more than 100 deep"),
        ("var 1..2: x :: " + "a(" * 5000 + ")" * 5000, 1, "more than 100 deep"),
        ("var 1.." + "9" * 5000 + ": x;", 1, "a number has more than 40 letters"),
        ("array [1..1] of int: a :: output_array([1..99999999999999]) = [1];", 1, "other places"),
        ("array [1..1] of int: a :: output_array(7) = [1];", 1, "printed over sets of numbers"),
    ],
    ids=lambda given: repr(given)[-40:],
)
def test_what_is_refused_names_the_line(program: str, text: str, line: int, said: str) -> None:
    with pytest.raises(NotSupported) as refused, Workbench(program) as workbench:
        Built(read(text), workbench)
    assert str(refused.value).startswith(f"line {line}: ") and said in str(refused.value)
    assert "propbench_" not in str(refused.value) and "Name(" not in str(refused.value)


def test_a_refusal_is_told(
    program: str, tmp_path: Path, capsys: pytest.CaptureFixture[str]
) -> None:
    file = tmp_path / "m.fzn"
    file.write_text("var 1..2: x;\nvar float: y;\nsolve satisfy;\n")
    assert main([str(file), "--program", program]) == 1
    told = capsys.readouterr()
    assert told.out == "" and f"{file}, line 2: the float y" in told.err


THREE = """\
var 1..3: x :: output_var;
var 1..3: y :: output_var;
array [1..2] of var int: both :: output_array([0..1]) = [x,y];
constraint int_lt(x,y);
solve{goal};
"""


@pytest.mark.parametrize(
    "asked, wanted",
    [
        (([], " satisfy"), ("----------\n", 1)),
        ((["-a"], " satisfy"), ("==========\n", 3)),
        ((["-n", "2"], " satisfy"), ("----------\n", 2)),
        ((["-n", "9"], " satisfy"), ("==========\n", 3)),
        (([], " minimize y"), ("==========\n", 1)),
        ((["-t", "60000"], " maximize x"), ("==========\n", 1)),
    ],
)
def test_the_options(
    program: str,
    tmp_path: Path,
    capsys: pytest.CaptureFixture[str],
    asked: tuple[list[str], str],
    wanted: tuple[str, int],
) -> None:
    (words, goal), (ends, count) = asked, wanted
    file = tmp_path / "m.fzn"
    file.write_text(THREE.format(goal=goal))
    assert main([*words, str(file), "--program", program]) == 0
    said = capsys.readouterr().out
    assert said.endswith(ends) and said.count("----------\n") == count
    if "minimize" in goal:
        assert said.startswith("x = 1;\ny = 2;\nboth = array1d(0..1,[1,2]);\n")
    if "maximize" in goal:
        assert said.startswith("x = 2;\ny = 3;\n")


@pytest.mark.parametrize("word", ["-node", "--node", "--all-solutions", "--stat"])
def test_no_option_is_taken_for_another(
    tmp_path: Path, capsys: pytest.CaptureFixture[str], word: str
) -> None:
    with pytest.raises(SystemExit) as ended:
        main([word, str(tmp_path / "m.fzn")])
    assert ended.value.code == 2 and f"unrecognized arguments: {word}" in capsys.readouterr().err


def test_no_time_is_unknown_and_statistics(
    program: str, tmp_path: Path, capsys: pytest.CaptureFixture[str]
) -> None:
    file = tmp_path / "m.fzn"
    file.write_text(THREE.format(goal=" satisfy"))
    assert main(["-t", "0", "-s", "-v", str(file), "--program", program]) == 0
    said = capsys.readouterr().out.split("\n")
    assert said[:2] == ["% 2 cells, 1 constraints", "=====UNKNOWN====="]
    assert "%%%mzn-stat: nSolutions=0" in said and said[-2] == "%%%mzn-stat-end"


# (of such a pair the sum is told, so that neither variable is only told apart)
ORDERED = """\
var 1..8: x :: output_var;
var 1..8: y :: output_var;
constraint int_lin_le([1,1],[x,y],9);
constraint int_lin_le([-1,-1],[x,y],-9);
solve :: int_search([{first}],{by},{value},complete) satisfy;
"""


@pytest.mark.parametrize(
    "first, value, right",
    [
        ("x,y", "indomain_min", {"x": 1, "y": 8}),
        ("x,y", "indomain_max", {"x": 8, "y": 1}),
        ("y,x", "indomain_min", {"x": 8, "y": 1}),
        ("y,x", "indomain_max", {"x": 1, "y": 8}),
    ],
)
def test_the_order_is_that_of_the_annotation(
    program: str, first: str, value: str, right: dict[str, int]
) -> None:
    text = ORDERED.format(first=first, by="input_order", value=value)
    with Workbench(program) as workbench:
        assert solve(Built(read(text), workbench), Wanted()).plans == [right]


def test_what_is_told_apart() -> None:
    flat = read(
        "var 1..4: a; var 2..6: b; var 1..3: c; var 1..3: d; var 1..3: e; var 1..90: f;\n"
        "constraint int_ne(a,b); constraint fzn_all_different_int([a,9]);\n"
        "constraint int_ne(c,d); constraint int_le(d,2); constraint set_in(e,{1,3});\n"
        "constraint int_ne(f,3);\nsolve maximize e;\n"
    )
    values = (1, 2, 3, 4, 5, 6, 9)
    assert domains(flat) == {"a": values, "b": values}


def test_what_a_definition_needs_holds_always(program: str) -> None:
    text = (
        "var -1..1: x; var 0..2: y; var bool: b;\n"
        "var -1..1: z :: var_is_introduced :: is_defined_var;\n"
        "constraint int_div(x,y,z) :: defines_var(z);\n"
        "constraint int_le_reif(z,0,b);\nsolve satisfy;\n"
    )
    with Workbench(program) as workbench:
        built = Built(read(text), workbench)
        assert len(built.cells) == 3
        found = solve(built, Wanted(ALL)).plans
    pairs = [(x, y) for x in (-1, 0, 1) for y in (1, 2)]
    right = [{"x": x, "y": y, "b": not (x, y) == (1, 1)} for x, y in pairs]
    assert sorted(map(str, found)) == sorted(map(str, right))
