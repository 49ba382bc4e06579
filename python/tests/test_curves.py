"""Curves of calibration in laws that are texts and in benches that are files, beside exact
fractions."""

import re
from fractions import Fraction
from pathlib import Path

import pytest

from propbench import BadTable, NotALaw, Workbench, curve
from propbench.desk import main
from propbench.laboratory.bench_file import BadBench, bench_in
from propbench.laboratory.curve_files import points_of_file

POINTS: list[tuple[int | str, int | str]] = [(0, "20.1"), ("4.5", 30), (10, "55.5")]
BENCH = """\
laws = ["inside == probe(voltage)", "twice == 2 * probe(voltage) - 'K'"]

[quantities]
voltage = { unit = "mV", low = 0, high = 10, step = 0.001 }
inside = { unit = "degC", low = 0, high = 99, step = 0.001 }

[curves]
probe = { of = "mV", unit = "degC", within = 0.3, points = [[0, 20.1], ["4.5", 30], [10, 55.5]] }
"""


def on_lines(at: Fraction) -> Fraction:
    """The value on straight lines between the points, by hand."""
    exact = [(Fraction(x), Fraction(y)) for x, y in POINTS]
    (first, low), (last, high) = exact[:2] if at <= exact[1][0] else exact[1:]
    return low + (high - low) * (at - first) / (last - first)


def wanted(middle: str, half: str) -> tuple[Fraction, Fraction]:
    off = Fraction(3, 10)
    ends = Fraction(middle) - Fraction(half), Fraction(middle) + Fraction(half)
    return on_lines(ends[0]) - off, on_lines(ends[1]) + off


@pytest.mark.parametrize("middle", ["1.0", "4.5", "7.3"])
def test_a_law_that_is_a_text_names_a_curve(wide: str, middle: str, tmp_path: Path) -> None:
    """In a law, in a file of laws, and in a bench; the bounds are those of exact lines."""
    probe = curve("probe", POINTS, of="mV", unit="degC", within="0.3")
    (tmp_path / "laws.txt").write_text("inside = probe(voltage)\n")
    (tmp_path / "bench.toml").write_text(re.sub(r", \"twice.*\"", "", BENCH))
    for way in ("law", "laws", "bench"):
        with Workbench(wide) as w:
            if way == "bench":
                bench_in(tmp_path / "bench.toml").state(w)
            else:
                w.measured("voltage", "mV", 0, 10, step="0.001")
                w.measured("inside", "degC", 0, 99, step="0.001")
            if way == "law":
                w.law("inside == probe(voltage)", curves=[probe])
            if way == "laws":
                assert w.read_laws(tmp_path / "laws.txt", curves=[probe]) == 1
            voltage, inside = w.quantities
            w.read("meter", voltage, f"{middle} +- 0.2 mV")
            answer = inside.ask()
            assert answer.low is not None and answer.high is not None
            ends = Fraction(answer.low), Fraction(answer.high)
            low, high = wanted(middle, "0.2")
            assert low - Fraction(1, 100) < ends[0] <= low, way
            assert high <= ends[1] < high + Fraction(1, 100), way


def test_names_that_a_law_cannot_have() -> None:
    with Workbench() as w:
        w.measured("voltage", "mV", 0, 10)
        x = w.measured("x", "degC", 0, 99)
        for name in ("voltage", "exp", "a probe", "1st"):
            with pytest.raises(NotALaw, match="call it by letters"):
                w.law("x == exp(2)", curves=[curve(name, POINTS)])
        probe = curve("probe", POINTS, of="mV", unit="degC")
        for text, says in (
            ("x == prob(voltage)", "its functions are abs, .*, probe"),
            ("x == probe(voltage, 2)", "its functions are"),
            ("x == probe(x)", "`probe` is taken of what is in"),
        ):
            with pytest.raises(ValueError, match=says):
                w.law(text, curves=[probe])
        assert probe.name == "probe" and not w.network.premises.believed
        assert x.ask().high == 99


@pytest.mark.parametrize(
    ("text", "found"),
    [
        ("mV,degC\n0,20.1\n4.5,30\n", [(0, "20.1"), ("4.5", 30)]),
        ("mV;degC;\r\n0;20,1;\r\n\r\n4,5;30;\r\n", [(0, "20.1"), ("4.5", 30)]),
        ("mV\tdegC\n-1e1\t20.1\n", [(-10, "20.1")]),
        ("", []),
    ],
)
def test_points_of_a_file(tmp_path: Path, text: str, found: list[tuple[object, object]]) -> None:
    (tmp_path / "probe.csv").write_bytes(text.encode())
    exact = [(Fraction(str(x)), Fraction(str(y))) for x, y in found]
    assert points_of_file(tmp_path / "probe.csv") == exact


def test_points_that_are_wrong(tmp_path: Path) -> None:
    """Each says row and column, and all that is wrong at once."""
    (tmp_path / "probe.csv").write_text("mV,degC\n0,20.1 degC\n1\nmuch,30\n2,3,4\n")
    with pytest.raises(BadTable) as caught:
        points_of_file(tmp_path / "probe.csv")
    assert [(it.row, it.column) for it in caught.value.problems] == [
        (2, "degC"),
        (3, ""),
        (4, "mV"),
        (5, ""),
    ]
    assert "'20.1 degC' is no number: write 5, 0.1" in str(caught.value)


@pytest.mark.parametrize(
    ("old", "new", "says"),
    [
        ('"twice ==', '"twice ==', "laws, 2: `twice == .*` is no law: no quantity is called"),
        ("points = [[", "point = [[", "curves.probe has `point`, which is not known: did you"),
        ("points = [[", "points = 5 # [[", "is no|Unclosed|curves.probe"),
        ("[[0, 20.1], ", "[[0, 20.1], [0, 7], ", "curves.probe: the curve 'probe' has two points"),
        ("[[0, 20.1], ", "[[0, 20.1, 5], ", "curves.probe: a point of a curve is an argument and"),
        ('of = "mV"', 'of = "volts"', "curves.probe: 'volts' is no unit"),
        ("within = 0.3", "within = -1", "curves.probe: the curve 'probe' is off by 0 or more"),
        ("[[0, 20.1]", '"probe.csv" } # [[0, 20.1]', "No such file"),
    ],
)
def test_benches_that_are_wrong(tmp_path: Path, old: str, new: str, says: str) -> None:
    assert old in BENCH
    (tmp_path / "bench.toml").write_text(BENCH.replace(old, new, 1))
    with Workbench() as w, pytest.raises((BadBench, OSError), match=says):
        bench_in(tmp_path / "bench.toml").state(w)


def test_the_command_reads_points_of_a_file(
    tmp_path: Path, wide: str, capsys: pytest.CaptureFixture[str]
) -> None:
    bench = re.sub(r", \"twice.*\"", "", BENCH)
    bench = re.sub(r"points = .*\]\]", 'points = "probe.csv"', bench)
    for name, text in (
        ("bench.toml", bench),
        ("probe.csv", "mV;degC\n0;20,1\n4,5;30\n10;55,5\n"),
        ("readings.csv", "quantity,value\nvoltage,7.3 +- 0.2 mV\n"),
    ):
        (tmp_path / name).write_text(text)
    files = [str(tmp_path / name) for name in ("bench.toml", "readings.csv")]
    assert main(["measure", *files, "--program", wide, "--predict", "inside +- 1 K"]) == 0
    out = capsys.readouterr().out
    low, high = wanted("7.3", "0.2")
    found = re.search(r"inside by \+- 1 K has to show ([\d.]+)\.\.([\d.]+) degC", out)
    assert found
    assert low - 1 - Fraction(1, 10) < Fraction(found[1]) <= low - 1
    assert high + 1 <= Fraction(found[2]) < high + 1 + Fraction(1, 10)
    assert main(["measure", *files, "--program", wide, "--predict", "inside +- much"]) == 2
    assert main(["measure", *files, "--program", wide, "--predict", "colour"]) == 2
    assert "'colour': a further reading is of a quantity" in capsys.readouterr().err.replace(
        "`", "'"
    )
