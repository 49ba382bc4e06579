"""Frames of pandas itself: readings that come in one, and results that leave as one."""

from decimal import Decimal
from typing import Any

import pytest

from propbench import BadTable, Workbench

pandas = pytest.importorskip("pandas")


def bench() -> Workbench:
    w = Workbench()
    w.measured("mass", unit="g", low=1, high=500, step="0.01")
    w.measured("volume", unit="cm3", low=1, high=100, step="0.01")
    return w


def ends(w: Workbench) -> list[tuple[Decimal | None, Decimal | None]]:
    answers = [each.ask() for each in w.quantities]
    return [(each.low, each.high) for each in answers]


def two(**columns: Any) -> Any:
    """A frame of two readings, 100 +- 1 g and 7 +- 2 cm3, with other columns or instead."""
    plain = {"quantity": ["mass", "volume"], "value": [100, 7], "uncertainty": [1, 2]}
    return pandas.DataFrame({**plain, **columns})


FRAMES = {
    "whole numbers": two(),
    "numbers": two(value=[100.0, 7.0], uncertainty=[1.0, 2.0]),
    "texts": two(value=["100", "7"], uncertainty=["1 g", "2"]),
    "decimals": two(value=[Decimal(100), Decimal("7.0")]),
    "no number where nothing is": two(
        value=["100.0 +- 1", "7"], uncertainty=[float("nan"), 2], unit=[None, "cm3"]
    ),
    "cells that may lack a value": two(premise=["balance", None]).convert_dtypes(),
    "units that may lack": two(unit=pandas.array(["g", pandas.NA], dtype="string")),
    "times that may lack": two(**{"taken at": pandas.to_datetime(["2026-01-05 10:00", None])}),
    "categories": two(quantity=pandas.Categorical(["mass", "volume"])),
    "an index": two().set_index(pandas.Index(["first", "second"])),
    "columns in another order": two()[["uncertainty", "quantity", "value"]],
}


@pytest.mark.parametrize("name", FRAMES)
def test_readings_come_in_a_frame(name: str) -> None:
    with bench() as w:
        assert w.read_table(FRAMES[name]) == 2
        assert ends(w) == [(Decimal(99), Decimal(101)), (Decimal(5), Decimal(9))]


def test_what_is_wrong_with_a_frame() -> None:
    for frame, says in (
        (two(value=[100, None]).convert_dtypes(), "row 2, column `value`: the cell is empty"),
        (two(value=[100, float("inf")]), "row 2, column `value`: 'inf"),
        (two(value=[True, 7]), "row 1, column `value`: 'True"),
        (two(unit=["cm", ""]), "row 1, column `unit`: '100 cm"),
        (two(quantity=["mass", "volum"]), "did you mean `volume`"),
        (two().rename(columns={"value": "valu"}), "did you mean `value`"),
    ):
        with bench() as w:
            with pytest.raises(BadTable) as caught:
                w.read_table(frame)
            assert says in str(caught.value) and w.premises == ()


def test_results_leave_as_a_frame() -> None:
    """What is a number is one, and exact: the wider of 9.6 and 10.4 is 10.4, and not the one whose
    first digit is greater."""
    with bench() as w:
        w.measured("unknown", unit="m", low=0, high=5)
        w.read("balance", w.quantities[0], "100.0 +- 10.4 g")
        w.read("cylinder", w.quantities[1], "50.0 +- 9.6 cm3")
        frame = w.results().to_pandas()
        assert list(frame.columns) == list(w.results().heads())
        assert list(frame["quantity"]) == ["mass", "volume", "unknown"]
        known = frame[frame["because of"] != "what holds always"]
        assert list(known["low"]) == [Decimal("89.6"), Decimal("40.4")]
        assert list(known["high"]) == [Decimal("110.4"), Decimal("59.6")]
        assert known.sort_values("half width")["quantity"].iloc[-1] == "mass"
        assert known["half width"].max() == 11 and known["value"].sum() == 150
        assert (known["low"].astype(float) < known["high"].astype(float)).all()


def test_estimates_leave_as_a_frame() -> None:
    """0.3 and 0.4, at right angles: their sum is off by 0.5."""
    pytest.importorskip("scipy")
    with Workbench() as w:
        one, other, both = (w.measured(n, low=0, high=99, step="1e-6") for n in "xyz")
        w.law(both == one + other)
        w.read("one", one, "20 u=0.3")
        w.read("other", other, "30 u=0.4")
        frame = w.adjust().to_pandas().set_index("quantity")
        assert frame.loc["z", "u"] == pytest.approx(0.5, rel=1e-6)
        assert frame["U (k=2)"].max() == pytest.approx(1.0, rel=1e-6)
        assert frame.loc["z", "estimate"] == pytest.approx(50)


def test_other_results_are_frames_too() -> None:
    with Workbench() as w:
        x, t = w.number("x", 0, 2), w.truth("t")
        w.require(t == (x > 0))
        frame = w.plans([x, t]).to_pandas()
        assert sorted(zip(frame["x"], frame["t"])) == [(0, False), (1, True), (2, True)]
