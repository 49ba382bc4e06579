"""Readings in spreadsheets: as the same readings in a file of comma-separated values."""

from collections.abc import Callable
from datetime import date
from decimal import Decimal
from fractions import Fraction
from pathlib import Path

import pytest
from conftest import hide

pytest.importorskip("openpyxl")
pytest.importorskip("odf.opendocument")

from propbench import BadTable, Workbench
from propbench.desk import main
from propbench.spreadsheets import NoSheetReader, SheetError
from test_sheets import Tables, Value, as_ods, as_xlsx

Saved = Callable[[Tables, Path], str]
HEAD: list[Value] = ["Quantity", "Value", "Unit", "Uncertainty", "Premise", "Taken at", None]
READINGS: Tables = {
    "readings": [
        HEAD,
        ["mass", 100.25, "g", 0.5, "balance", date(2026, 3, 2), None],
        [None, None, None, None, None, None, None],
        ["volume", "7,0 +- 0,1", "cm3", None, None, "noon", None],
        ["mass", 100, "g", "0,5", None, None, None],
    ],
    "notes": [["what nobody", "reads"]],
}
WAYS = pytest.mark.parametrize("saved, ending", [(as_xlsx, "xlsx"), (as_ods, "ods")])


def bench() -> Workbench:
    w = Workbench()
    w.measured("mass", unit="g", low=0, high=1000, step="0.01")
    w.measured("volume", unit="cm3", low=0, high=100, step="0.1")
    return w


@WAYS
def test_a_sheet_states_what_a_file_would(saved: Saved, ending: str, tmp_path: Path) -> None:
    path = saved(READINGS, tmp_path / f"readings.{ending}")
    with bench() as w:
        assert w.read_csv(path, decimal=",") == 3
        assert w.premises == ("balance", "volume 1", "mass 1")
        mass, volume = (each.ask() for each in w.quantities)
        assert (mass.low, mass.high) == (Decimal("99.75"), Decimal("100.5"))
        assert (volume.low, volume.high) == (Decimal("6.9"), Decimal("7.1"))
        texts = [w.network.premises.text(name) for name in ("balance", "volume 1")]
        assert "taken at 2026-03-02" in texts[0] and "taken at noon" in texts[1]


@WAYS
def test_what_is_wrong_with_a_sheet(saved: Saved, ending: str, tmp_path: Path) -> None:
    """A number doesn't say how exact it is, whatever the sheet shows of it; a row has its
    number."""
    rows: list[list[Value]] = [
        HEAD,
        ["mass", 100, "g", None, None, None, None],
        [None, None, None, None, None, None, None],
        ["mass", 100, "cm", 1, None, None, None],
        ["mass", 100, "g", 1, None, None, "much"],
    ]
    path = saved({"readings": rows}, tmp_path / f"readings.{ending}")
    with bench() as w, pytest.raises(BadTable) as caught:
        w.read_csv(path)
    told = str(caught.value)
    assert "row 2, column `value`: 100 as a number doesn't say how exact it is" in told
    assert "row 4, column `unit`: '100 cm +- 1' is in cm" in told
    assert "`mass` is in g: write a unit of that sort" in told
    assert "row 5: it has 7 cells, and the head 6" in told
    empty = saved({"readings": []}, tmp_path / f"empty.{ending}")
    with bench() as w, pytest.raises(BadTable, match="the table is empty|`quantity`"):
        w.read_csv(empty)


def test_what_is_no_sheet(
    tmp_path: Path, monkeypatch: pytest.MonkeyPatch, capsys: pytest.CaptureFixture[str]
) -> None:
    (tmp_path / "bench.toml").write_text('[quantities]\nmass = { unit = "g", low = 0, high = 9 }\n')
    for ending, module in (("xlsx", "openpyxl"), ("ods", "odf.opendocument")):
        path = tmp_path / f"readings.{ending}"
        path.write_text("quantity,value\n")
        with bench() as w, pytest.raises(SheetError, match=rf"is no .{ending} file"):
            w.read_csv(path)
        hide(monkeypatch, module)
        with bench() as w, pytest.raises(NoSheetReader, match="or save it as .csv"):
            w.read_csv(path)
        assert main(["measure", str(tmp_path / "bench.toml"), str(path)]) == 3
        assert "install Debian's python3-" in capsys.readouterr().err
