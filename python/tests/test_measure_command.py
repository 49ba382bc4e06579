"""`propdesk measure`: what it tells, its exit status, and what is said of files that are wrong."""

import csv
import re
from fractions import Fraction
from pathlib import Path

import pytest
from conftest import REPOSITORY

from propbench.desk import main

BENCH = """\
title = "The density of a ring"
laws = ["density == mass / volume", { law = "volume >= '7.2 cm3'", under = "a guess" }]

[quantities]
density = { unit = "g/cm3", low = 1, high = 25, step = 0.01 }
volume = { unit = "cm3", low = 0.5, high = 100, step = "0.1" }
mass = { unit = "g", low = 0, high = 1000 }

[devices]
balance = { offset = "0.02 g", scale = 0.0001 }
"""
READINGS = """\
quantity;value;unit;device
mass;100,0;g;balance
volume;7,3 +- 0,2;cm3;
"""


class Desk:
    """Runs the command on a bench and readings, and keeps what it says."""

    def __init__(self, folder: Path, program: str, capsys: pytest.CaptureFixture[str]) -> None:
        self.folder, self._program, self._capsys = folder, program, capsys
        self.out = self.error = ""

    def run(self, bench: str, readings: str, *more: str) -> int:
        """The exit status."""
        for name, text in (("bench.toml", bench), ("readings.csv", readings)):
            (self.folder / name).write_text(text, encoding="utf-8")
        words = ["measure", *(str(self.folder / name) for name in ("bench.toml", "readings.csv"))]
        status = main([*words, *more, "--program", self._program])
        self.out, self.error = self._capsys.readouterr()
        return status


@pytest.fixture
def desk(tmp_path: Path, wide: str, capsys: pytest.CaptureFixture[str]) -> Desk:
    return Desk(tmp_path, wide, capsys)


def test_what_follows(desk: Desk) -> None:
    """Exact: (99.95 (1 - 0.0001) - 0.02) / 7.5 and (100.05 (1 + 0.0001) + 0.02) / 7.2."""
    out = desk.folder / "out.csv"
    assert desk.run(BENCH, READINGS, "--decimal", ",", "--csv", str(out)) == 0
    assert desk.out.startswith("The density of a ring: 2 readings of 3 quantities.\n")
    rows = {row["quantity"]: row for row in csv.DictReader(out.open())}
    least = (Fraction("99.95") * Fraction("0.9999") - Fraction("0.02")) / Fraction("7.5")
    most = (Fraction("100.05") * Fraction("1.0001") + Fraction("0.02")) / Fraction("7.2")
    low, high = Fraction(rows["density"]["low"]), Fraction(rows["density"]["high"])
    assert least - Fraction(1, 10**4) < low <= least and most <= high < most + Fraction(
        1, 10**4
    )
    assert rows["density"]["because of"] == "balance, a guess, mass 1, volume 1"
    assert re.search(r"^density is .* and:$", desk.out, re.M), "which reading to improve is told"
    assert desk.run(BENCH, READINGS, "--decimal", ",", "--improve", "mass") == 0
    assert "mass is" in desk.out and "density is" not in desk.out


def test_a_conflict(desk: Desk) -> None:
    rows = f"{READINGS}volume;9,3 +- 0,2;cm3;\nvolume;7,25 +- 0,2;cm3;\n"
    assert desk.run(BENCH, rows, "--decimal", ",") == 1
    assert re.search(
        r"^CONFLICT: (volume 1, volume 2|volume 2, volume 3) can't all hold$", desk.out, re.M
    )
    assert re.search(r"^  1 +volume 2 ", desk.out, re.M) and "Without volume 2:" in desk.out
    assert re.search(r"^  volume +7\.\d+ ", desk.out.partition("Without")[2], re.M)


def test_estimates(desk: Desk) -> None:
    pytest.importorskip("scipy")
    assert desk.run(BENCH, READINGS, "--decimal", ",", "--estimates") == 0
    assert "Least squares, tested and not proved: no reading controls another." in desk.out


def test_a_report_that_can_t_be_written_loses_no_result(desk: Desk) -> None:
    path = desk.folder / "no folder" / "report.html"
    assert desk.run(BENCH, READINGS, "--decimal", ",", "--report", str(path)) == 3
    assert re.search(r"^  density +\S+ ", desk.out, re.M) and "The report is in" not in desk.out
    assert "No such file or directory" in desk.error


def test_laws_in_a_file(desk: Desk) -> None:
    bench = re.sub("laws = .*", 'laws = "laws.txt"', BENCH)
    assert desk.run(bench, READINGS, "--decimal", ",") == 3
    (desk.folder / "laws.txt").write_text("density = mass / volume  # as usual\n")
    assert desk.run(bench, READINGS, "--decimal", ",") == 0
    (desk.folder / "laws.txt").write_text("\ndensity = mas / volume\n")
    assert desk.run(bench, READINGS, "--decimal", ",") == 2
    assert "laws.txt, line 2: `density = mas / volume` is no law" in desk.error


@pytest.mark.parametrize(
    "old, new, says",
    [
        ("step = 0.01", "stp = 0.01", "quantities.density has `stp`, which is not known: did you"),
        (
            "[devices]",
            "[device]",
            "the file has `device`, which is not known: did you mean `devices`",
        ),
        (
            'unit = "g/cm3"',
            'unit = "g/cubit"',
            "quantities.density: 'cubit' in 'g/cubit' is no unit",
        ),
        ("low = 1,", "", "quantities.density: 'density' needs low= and high="),
        ("low = 1,", "low = [1],", "quantities.density: `low` is a text or a number"),
        (
            "scale = 0.0001",
            'scale = "1 g"',
            "devices.balance: a scale error of 'balance' is a share",
        ),
        ("== mass / volume", "== mas / volume", "laws, 1: `density == mas / volume` is no law"),
        (
            'law = "volume',
            'lw = "volume',
            "laws, 2 has `lw`, which is not known: did you mean `law`",
        ),
        ("[quantities]", "[[quantities]]", "`quantities` has a table for each"),
        ("title = ", "title ", "(at line 1"),
    ],
)
def test_a_bench_that_is_wrong(desk: Desk, old: str, new: str, says: str) -> None:
    assert old in BENCH
    assert desk.run(BENCH.replace(old, new, 1), READINGS, "--decimal", ",") == 2
    assert says in desk.error and "bench.toml: " in desk.error and desk.out == ""


def test_readings_that_are_wrong(desk: Desk) -> None:
    assert desk.run(BENCH, READINGS) == 2
    assert "readings.csv:\nrow 2, column `value`: '100,0': write a point, or" in desk.error
    assert "read it with `--decimal ,`" in desk.error and "decimal=" not in desk.error
    for row, says in (
        ("colour;5 g;;", "make it in `[quantities]` of the bench"),
        ("mass;5 g;;clock", "make it in `[devices]` of the bench"),
    ):
        assert desk.run(BENCH, f"quantity;value;unit;device\n{row}\n") == 2
        assert says in desk.error and "`w." not in desk.error, desk.error
    assert desk.run(BENCH, READINGS, "--decimal", ",", "--improve", "colour") == 2
    assert "no cell is called 'colour'" in desk.error
    for words in (["--under", "colour"], ["--coverage", "much"], ["--decimal", ";"]):
        with pytest.raises(SystemExit) as caught:
            desk.run(BENCH, READINGS, *words)
        assert caught.value.code == 2


def test_readings_that_stand_or_fall_together(desk: Desk) -> None:
    rows = "quantity,value,uncertainty\n" + "mass,100.0 g,0.5\nmass,100.2 g,0.5\n"
    assert desk.run(BENCH, rows, "--under", "quantity", "--coverage", "2") == 0
    assert re.search(r"^  mass +100\.10 +0\.40 +g .* mass$", desk.out, re.M)


def test_the_help_tells_of_it(capsys: pytest.CaptureFixture[str]) -> None:
    with pytest.raises(SystemExit):
        main(["measure", "--help"])
    text = capsys.readouterr().out
    for word in ("BENCH", "READINGS", "--decimal", "--report", "--estimates", "--csv", "--under"):
        assert word in text
    assert "propdesk measure" in (REPOSITORY / "python/README.md").read_text(encoding="utf-8")
