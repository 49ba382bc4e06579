"""Results as tables: text, HTML in which names are text, and pandas where it is there."""

import sys
import types
from typing import Any

import pytest
from conftest import hide

from propbench import Workbench

NASTY = '<script>alert("x")</script>\x1b[31m'


def test_names_are_text_everywhere() -> None:
    with Workbench() as w:
        x = w.number(NASTY, 0, 9)
        w.tell(NASTY, x, 3)
        w.tell("other", x, 4)
        shown = [w.conflicts(), w.repairs(), w.scenarios({NASTY: {}}, [x])]
        w.kick("other")
        shown += [w.least(x), w.plans(), w.slack(x), w.critical(x), w.sensitivity(x)]
        with Workbench() as empty:
            shown.append(empty.compare(w))
        for each in shown:
            text, markup = str(each), each._repr_html_()
            assert "\x1b" not in text and "\\x1b[31m" in text and repr(each) == text
            assert "<script" not in markup and "&lt;script&gt;" in markup and "\x1b" not in markup


def test_tables_of_pandas(monkeypatch: pytest.MonkeyPatch) -> None:
    class DataFrame:
        def __init__(self, rows: list[list[Any]], columns: list[str]) -> None:
            self.rows, self.columns = rows, columns

    with Workbench() as w:
        x, t = w.number("x", 0, 2), w.truth("t")
        w.require(t == (x > 0))
        found = w.plans([x, t])
        hide(monkeypatch, "pandas")
        with pytest.raises(ImportError, match="needs pandas, which isn't installed"):
            found.to_pandas()
        fake = types.ModuleType("pandas")
        fake.DataFrame = DataFrame  # type: ignore[attr-defined]  # (as much of pandas as is used)
        monkeypatch.setitem(sys.modules, "pandas", fake)
        table = found.to_pandas()
        assert table.columns == ["x", "t"]
        assert table.rows == [[0, False], [1, True], [2, True]]


def test_what_nothing_fits_is_said() -> None:
    with Workbench() as w:
        x = w.number("x", 0, 9)
        assert str(w.conflicts()) == "No conflict: all that is believed fits together."
        assert str(w.repairs()).startswith("Nothing has to be given up")
        assert w.repairs() == [frozenset()]
        w.require(x > 20)
        assert w.conflicts() == [frozenset()] and w.repairs() == []
        assert str(w.conflicts()) == "What always holds can't hold, whatever else is believed."
        assert str(w.repairs()).startswith("There is no repair")
        best = w.least(x)
        assert best.value is None and best.proved and best.certificate.check()
        assert str(best) == "The least x: nothing fits." and w.plans() == []
        assert str(w.plans()) == "Nothing fits." and w.plans().certificate.check()
        assert w.conflicts().certificate.check() and w.repairs().certificate.check()


def test_what_is_kept_is_in_no_conflict() -> None:
    with Workbench() as w:
        x = w.number("x", 0, 9)
        for name, low, high in (("a", 0, 3), ("b", 2, 5), ("c", 4, 9), ("d", 7, 9)):
            w.tell(name, x, low, high)
        assert {frozenset(each) for each in w.conflicts()} == {
            frozenset("ac"),
            frozenset("ad"),
            frozenset("bd"),
        }
        kept = w.conflicts(keep=["a"])
        assert {frozenset(each) for each in kept} == {frozenset("c"), frozenset("d")}
        assert kept.complete and kept.certificate.check()
        mended = w.repairs(keep=["a"])
        assert [set(each) for each in mended] == [{"c", "d"}] and mended.certificate.check()
        assert w.conflicts(keep=["a", "c"]) == [frozenset()] and w.repairs(keep=["a", "c"]) == []
        assert str(w.conflicts(keep=["a", "c"])).startswith(
            "What always holds with what is kept can't"
        )
        assert (
            w.conflicts(keep=["a", "c"]).certificate.check()
            and w.repairs(keep=["a", "c"]).certificate.check()
        )


def test_what_is_wrong_is_told() -> None:
    with Workbench() as w:
        x, t = w.number("length", 0, 9), w.truth("t")
        w.tell("ana", x, 3)
        with pytest.raises(ValueError, match="There is no cell `lenght`. Did you mean length?"):
            w.least("lenght")
        with pytest.raises(TypeError, match="is no cell"):
            w.least(x + 1)  # type: ignore[call-overload]  # (wrong on purpose)
        with pytest.raises(ValueError, match="not for numbers"):
            w.least(t)
        with pytest.raises(ValueError, match="There is no premise `anna`. Did you mean ana?"):
            w.repairs({"anna": 2})
        with pytest.raises(ValueError, match="less than nothing"):
            w.repairs({"ana": -2})
        with pytest.raises(ValueError, match="can't take -1 seconds"):
            w.conflicts(seconds=-1)
