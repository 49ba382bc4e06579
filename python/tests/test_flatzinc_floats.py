"""Floats in FlatZinc: what is told of real numbers is held to points that are drawn, and to plain
sums and roots; each solution to its constraints in exact fractions."""

import re
from fractions import Fraction
from pathlib import Path

import pytest
from hypothesis import given, settings
from hypothesis import strategies as st

from propbench import Workbench
from propbench.flatzinc.building import Built
from propbench.flatzinc.command import main
from propbench.flatzinc.grammar import read
from propbench.flatzinc.solving import Solutions, Wanted, solve

NONE = "=====UNSATISFIABLE====="


def said(program: str, tmp_path: Path, capsys: pytest.CaptureFixture[str], text: str) -> str:
    file = tmp_path / "m.fzn"
    file.write_text(text)
    assert main([str(file), "--program", program, "-t", "60000"]) == 0
    return capsys.readouterr().out


def value(name: str, output: str) -> float:
    found = re.findall(rf"^{name} = (-?[0-9.]+);$", output, re.MULTILINE)
    return float(found[-1])


ROOT = """\
var {low}..{high}: x :: output_var;
constraint float_times(x,x,2.0);
solve satisfy;
"""


@pytest.mark.parametrize(
    "case", [("0.0", "9.0", True), ("0.0", "1.4142", False), ("-3.0", "-1.0", True)]
)
def test_the_root_of_two(
    program: str,
    tmp_path: Path,
    capsys: pytest.CaptureFixture[str],
    case: tuple[str, str, bool],
) -> None:
    low, high, is_there = case
    told = said(program, tmp_path, capsys, ROOT.format(low=low, high=high))
    if is_there:
        assert abs(abs(value("x", told)) - 2**0.5) < 1e-5 and "% within" in told
    else:
        assert told == f"{NONE}\n"


def test_what_lies_between_two_steps_is_not_denied(
    program: str, tmp_path: Path, capsys: pytest.CaptureFixture[str]
) -> None:
    narrow = ROOT.format(low="1.41421356237", high="1.41421356238")
    assert NONE not in said(program, tmp_path, capsys, narrow)
    apart = "var 0.0..1.0: x :: output_var;\nvar 0.0..1.0: y;\n"
    apart += "constraint float_ne(x,y);\nconstraint float_le(x,y);\n"
    apart += "constraint float_lin_le([1.0,-1.0],[y,x],0.0000001);\nsolve satisfy;\n"
    assert NONE not in said(program, tmp_path, capsys, apart)


BEST = """\
var 0.0..3.0: x :: output_var;
var 0.0..9.0: y :: output_var;
var float: z :: output_var;
constraint float_lin_le([1.0,1.0],[x,y],4.0);
constraint float_lin_le([1.0,3.0],[x,y],6.0);
constraint float_lin_eq([3.0,2.0,-1.0],[x,y,z],0.0);
solve maximize z;
"""


def test_the_best_of_a_linear_program(
    program: str, tmp_path: Path, capsys: pytest.CaptureFixture[str]
) -> None:
    told = said(program, tmp_path, capsys, BEST)
    assert abs(value("x", told) - 3) < 1e-4 and abs(value("y", told) - 1) < 1e-4
    assert abs(value("z", told) - 11) < 1e-3
    assert "% no solution is better by" in told and told.endswith("==========\n")


def test_floats_are_printed_with_their_digits(
    program: str, tmp_path: Path, capsys: pytest.CaptureFixture[str]
) -> None:
    text = "var -2.5..-2.5: x :: output_var;\nvar 1..3: i :: output_var;\n"
    text += "array [1..2] of var float: a :: output_array([1..2]) = [x,0.125];\n"
    text += "var float: y :: output_var;\nconstraint int2float(i,y);\n"
    text += "constraint float_lin_eq([1.0,1.0],[x,y],0.5);\nsolve satisfy;\n"
    told = said(program, tmp_path, capsys, text).splitlines()
    assert told[:4] == ["x = -2.5;", "i = 3;", "y = 3.0;", "a = array1d(1..2,[-2.5,0.125]);"]
    assert told[4] == "% within 0.0e+00"


def test_an_array_has_the_least_and_the_greatest(
    program: str, tmp_path: Path, capsys: pytest.CaptureFixture[str]
) -> None:
    text = "var 1..3: i :: output_var;\nvar float: x :: output_var;\nvar float: m :: output_var;\n"
    text += "constraint array_float_element(i,[0.1,2.75,-4.5],x);\n"
    text += (
        "constraint array_float_maximum(m,[x,1.5]);\nconstraint float_lt(1.5,m);\nsolve satisfy;\n"
    )
    told = said(program, tmp_path, capsys, text)
    assert (value("i", told), value("x", told), value("m", told)) == (2, 2.75, 2.75)


def test_what_is_beyond_the_numbers_of_the_program_is_refused(
    program: str, tmp_path: Path, capsys: pytest.CaptureFixture[str]
) -> None:
    file = tmp_path / "m.fzn"
    text = "var 0.0..90000000.0: x;\nvar 0.0..9.0: y;\n"
    file.write_text(f"{text}constraint float_lin_le([1e9,1.0],[x,y],1e17);\nsolve satisfy;\n")
    assert main([str(file), "--program", program]) == 1
    assert "line 3: float_lin_le: its numbers are too great" in capsys.readouterr().err


# --- points that are drawn ---

PLACES = ("p", "q", "r")
Point = dict[str, Fraction]


def decimal(number: Fraction, up: bool) -> str:
    """A number with four digits behind the point, which is not below (or not above) it."""
    digits = -((-number * 10**4) // 1) if up else (number * 10**4) // 1
    sign = "-" if digits < 0 else ""
    return f"{sign}{abs(int(digits)) // 10**4}.{abs(int(digits)) % 10**4:04}"


@st.composite
def met(draw: st.DrawFn) -> tuple[str, Point]:
    """Constraints that all hold at a point of real numbers, and the point."""
    thirds = st.integers(-60, 60).map(lambda each: Fraction(each, 7))
    at: Point = {name: draw(thirds) for name in PLACES}
    lines = [f"var -9.5..9.5: {name} :: output_var;" for name in PLACES]
    stated: list[str] = []
    for number in range(draw(st.integers(1, 4))):
        one, other = draw(st.sampled_from(PLACES)), draw(st.sampled_from(PLACES))
        sort = draw(st.sampled_from(("sum", "times", "max", "abs", "order", "reif", "div")))
        made = f"z{number}"
        if sort == "sum":
            factors = draw(st.lists(st.integers(-3, 3), min_size=3, max_size=3))
            bound = sum((it * at[name] for it, name in zip(factors, PLACES)), Fraction(0))
            written = ",".join(f"{each}.0" for each in factors)
            stated.append(f"float_lin_le([{written}],[p,q,r],{decimal(bound, True)})")
        elif sort == "order":
            low, high = sorted((one, other), key=lambda name: at[name])
            stated.append(f"float_le({low},{high})")
        elif sort == "reif":
            lines.append(f"var bool: {made};")
            stated.append(f"float_lt_reif({one},{other},{made})")
            truth = "true" if at[one] < at[other] else "false"
            stated.append(f"bool_eq({made},{truth})")
        elif sort != "div" or at[other]:
            functions = {
                "times": at[one] * at[other],
                "max": max(at[one], at[other]),
                "abs": abs(at[one]),
            }
            value = functions[sort] if sort in functions else at[one] / at[other]
            lines.append(f"var -999.5..999.5: {made};")
            args = f"{one},{made}" if sort == "abs" else f"{one},{other},{made}"
            stated.append(f"float_{sort}({args})")
            stated.append(f"float_le({decimal(value, False)},{made})")
            stated.append(f"float_le({made},{decimal(value, True)})")
    text = "\n".join([*lines, *(f"constraint {each};" for each in stated), "solve satisfy;", ""])
    return text, at


def solved(program: str, text: str) -> Solutions:
    with Workbench(program) as workbench:
        return solve(Built(read(text), workbench), Wanted(seconds=3.0))


@settings(max_examples=25)
@given(met())
def test_what_holds_at_real_numbers_is_never_denied(program: str, drawn: tuple[str, Point]) -> None:
    found = solved(program, drawn[0])
    assert found.plans or not found.is_complete
