"""Several goals, and what one costs the other, beside going through all points."""

import csv
from itertools import product
from pathlib import Path
from xml.etree import ElementTree

import pytest
from hypothesis import given, settings
from hypothesis import strategies as st

from propbench import Workbench
from propbench.model.cells import NumberCell
from propbench.questions import Interrupted, Optima, TradeOff

MOST = 5
Row = tuple[tuple[int, int, int], int]
rows = st.lists(
    st.tuples(st.tuples(*[st.integers(-3, 3)] * 3), st.integers(-4, 12)), min_size=1, max_size=3
)


def bench(drawn: list[Row]) -> Workbench:
    """Three numbers of which some sums are so much at least, each by a premise."""
    w = Workbench()
    x, y, z = (w.number(name, 0, MOST) for name in "xyz")
    for number, ((a, b, c), least) in enumerate(drawn):
        w.require(a * x + b * y + c * z >= least, under=f"row {number}")
    return w


def points(drawn: list[Row]) -> list[tuple[int, ...]]:
    """All points that fit."""
    return [
        each
        for each in product(range(MOST + 1), repeat=3)
        if all(sum(a * v for a, v in zip(row, each)) >= least for row, least in drawn)
    ]


def front(pairs: set[tuple[int, int]]) -> list[tuple[int, int]]:
    """Those of which no other is as good in both."""
    return sorted(
        one
        for one in pairs
        if not any(it != one and it[0] <= one[0] and it[1] <= one[1] for it in pairs)
    )


@given(rows)
@settings(max_examples=25)
def test_goals_are_those_of_a_search(drawn: list[Row]) -> None:
    known = points(drawn)
    with bench(drawn) as w:
        least, most = w.least(["z", "x", "y"]), w.greatest("y x")
        assert isinstance(least, Optima) and isinstance(most, Optima)
        assert least.proved and most.proved
        assert least.values == min(((z, x, y) for x, y, z in known), default=())
        assert most.values == max(((y, x) for x, y, z in known), default=())
        if known:
            assert least.plan is not None
            assert tuple(least.plan[name] for name in "xyz") in known
            assert least.plan["z"] == least.values[0] and least.choices == {}
        assert w.premises == tuple(f"row {number}" for number in range(len(drawn)))


@given(rows)
@settings(max_examples=25)
def test_trade_offs_are_those_of_a_search(drawn: list[Row]) -> None:
    known = points(drawn)
    with bench(drawn) as w:
        found = w.trade_off("x", "z")
        assert found.complete
        assert found.pairs == front({(x, z) for x, y, z in known})
        for pair, each in zip(found.pairs, found):
            assert each.proved and each.plan is not None
            assert tuple(each.plan[name] for name in "xyz") in known
            assert (each.plan["x"], each.plan["z"]) == pair == each.values


@pytest.fixture
def slope() -> Workbench:
    """Where one number is to be less the other is more: (1, 6), (2, 3), (3, 2), (6, 1)."""
    w = Workbench()
    x, y = w.number("x", 0, 9), w.number("y", 0, 9)
    w.require(x * y >= 6, under="enough")
    return w


PAIRS = [(1, 6), (2, 3), (3, 2), (6, 1)]


def number(w: Workbench, name: str) -> NumberCell:
    cell = w.cell(name)
    assert isinstance(cell, NumberCell)
    return cell


def test_it_prints(slope: Workbench) -> None:
    found = slope.trade_off("x", "y")
    assert found.pairs == PAIRS
    lines = str(found).split("\n")
    assert lines[0] == "4 ways to trade x for y, no others:"
    assert [line.split() for line in lines[1:]] == [
        ["x", "y"],
        *([str(a), str(b)] for a, b in PAIRS),
    ]
    assert str(slope.least(["x", "y"])).startswith("The least x is 1, and then the least y is 6:\n")
    assert str(slope.greatest(["x", "y"])).startswith("The greatest x is 9, and then the greatest")


def test_it_is_written(slope: Workbench, tmp_path: Path) -> None:
    found = slope.trade_off("x", "y")
    found.to_csv(tmp_path / "found.csv")
    with open(tmp_path / "found.csv", newline="", encoding="utf-8") as file:
        heads, *told = csv.reader(file)
    assert heads == ["x", "y"] and [tuple(map(int, row)) for row in told] == PAIRS
    found.to_svg(tmp_path / "found.svg")
    root = ElementTree.parse(tmp_path / "found.svg").getroot()
    dots = root.findall(".//{*}circle")
    across = [float(dot.attrib["cx"]) for dot in dots]
    down = [float(dot.attrib["cy"]) for dot in dots]
    assert len(dots) == 4 and across == sorted(across) and down == sorted(down)
    # (as far apart as the numbers are)
    assert (across[3] - across[0]) / (across[1] - across[0]) == pytest.approx(5, abs=0.02)
    assert (down[3] - down[0]) / (down[1] - down[0]) == pytest.approx(5 / 3, abs=0.02)
    titles = [dot.findtext("{*}title") for dot in dots]
    assert titles == [f"x {a}, y {b}" for a, b in PAIRS]
    with pytest.raises(ValueError, match="written as .svg, and not as .png"):
        found.to_svg(tmp_path / "found.png")


def test_choices_in_which_they_differ_are_told() -> None:
    w = Workbench()
    x, y = w.number("x", 0, 9), w.number("y", 0, 9)
    w.choose("way", {"<fast>": [x == 1, y == 7], "slow": [x == 5, y == 2]})
    w.choose("same", {"one": [x + y >= 3]} | {"other": [x + y >= 90]})
    found = w.trade_off(x, y)
    assert found.heads() == ("x", "y", "way")
    assert found.rows() == [[1, 7, "<fast>"], [5, 2, "slow"]]
    assert "&lt;fast&gt;</text>" in found.to_svg()
    ElementTree.fromstring(found.to_svg())


def test_where_nothing_fits(slope: Workbench) -> None:
    slope.require(number(slope, "x") + number(slope, "y") <= 3, under="little")
    found, best = slope.trade_off("x", "y"), slope.least(["x", "y"])
    assert found == [] and found.complete and str(found) == "x and y: nothing fits."
    assert best.values == () and best.proved and best.plan is None
    # (propbench alone doesn't tell by which premises)
    is_wide = "least" in slope.session.tells
    by = ": enough and little can't both hold" if is_wide else ""
    assert str(best) == f"The least x: nothing fits{by}."
    assert str(slope.slack("x")) == "The room of x: nothing fits."


def test_without_time_nothing_is_claimed(slope: Workbench) -> None:
    found, best = slope.trade_off("x", "y", seconds=0), slope.least(["x", "y"], seconds=0)
    assert not found.complete and not best.proved
    if not found:
        assert "not refuted" in str(found)
    assert all(not each.proved for each in found)


def test_what_is_known_when_it_is_stopped(slope: Workbench) -> None:
    """The first pair is found and proved, and no more."""

    def stop(text: str) -> None:
        if text.startswith("1 pair so far"):
            raise KeyboardInterrupt

    with pytest.raises(Interrupted) as stopped:
        slope.trade_off("x", "y", progress=stop)
    found = stopped.value.so_far
    assert isinstance(found, TradeOff)
    assert found.pairs[:1] == [(1, 6)] and not found.complete
    assert "others are not refuted" in found.headline()
    assert "not searched" in found.to_svg()
    assert slope.trade_off("x", "y").pairs == PAIRS


def test_what_it_hangs_on_and_what_shows_it(slope: Workbench) -> None:
    slope.require(number(slope, "y") <= 8, under="idle")
    best, found = slope.least(["x", "y"]), slope.trade_off("x", "y")
    assert set(best.because) <= {"enough", "idle"} and set(found.because) <= {"enough", "idle"}
    assert [step.certificate.check() for step in best.steps] == [True, True]
    with pytest.raises(ValueError, match="each goal has a certificate of its own"):
        best.certificate


def test_names_that_are_taken(slope: Workbench) -> None:
    slope.require(True, under="the best x")
    slope.choose("the best y", slope.cell("y"), [2, 3, 6, 1])
    best = slope.least("x y")
    assert isinstance(best, Optima) and best.values == (1, 6)
    assert slope.trade_off("x", "y").pairs == PAIRS
    assert slope.premises == ("enough", "the best x")


def test_what_is_wrong_is_said(slope: Workbench) -> None:
    with pytest.raises(ValueError, match="between two cells, and x is one"):
        slope.trade_off("x", "x")
    with pytest.raises(ValueError, match="say of which cells"):
        slope.least([])
    with pytest.raises(ValueError, match="no cell"):
        slope.least(["x", "cost"])
    slope.truth("dry")
    with pytest.raises(ValueError, match="not for numbers"):
        slope.trade_off("x", "dry")
    with pytest.raises(ValueError, match="not for numbers"):
        slope.least(["x", "dry"])


def test_of_one_goal_it_is_the_same(slope: Workbench) -> None:
    assert slope.least(["y"]).values == (1,)
    assert slope.least(["y"]).certificate.check()
    assert str(slope.least(["y"])).startswith("The least y is 1:\n")
