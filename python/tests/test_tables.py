"""Tables of readings and laws as texts: what they state, and what is said where they are wrong."""

import csv
import io
import random
from collections.abc import Callable, Iterator, Sequence
from decimal import Decimal
from fractions import Fraction
from pathlib import Path
from types import SimpleNamespace

import pytest

from propbench import (
    BadTable,
    NotALaw,
    Workbench,
    at_level,
    atan2,
    exp,
    hypot,
    level,
    maximum,
    mean,
    minimum,
    pi,
    sin,
    total,
)
from propbench.laboratory.rounding import rounded_of
from propbench.measuring.law_texts import laws_of
from propbench.measuring.quantities import Quantity
from propbench.measuring.terms import Law, Term, text_of
from propbench.measuring.units import MixedUnits
from propbench.model.measures import Interval

HEAD = "quantity,value,unit,uncertainty,premise\n"


@pytest.fixture
def w() -> Iterator[Workbench]:
    with Workbench() as made:
        made.measured("density", unit="g/cm3", low=1, high=25, step="0.01")
        made.measured("volume", unit="cm3", low=0, high=100, step="0.1")
        made.measured("mass", unit="g", low=0, high=1000, step="0.1")
        yield made


@pytest.fixture
def table(tmp_path: Path) -> Callable[[str], Path]:
    """Writes a table down, and gives its path."""

    def written(text: str) -> Path:
        path = tmp_path / "readings.csv"
        path.write_bytes(text.encode())
        return path

    return written


def ends(w: Workbench, name: str) -> tuple[Fraction, Fraction]:
    cell = w.cell(name)
    assert isinstance(cell, Quantity)
    answer = cell.ask()
    assert answer.low is not None and answer.high is not None
    return Fraction(answer.low), Fraction(answer.high)


# --- what a table states ---


def test_a_table_states_what_reads_would(w: Workbench, table: Callable[[str], Path]) -> None:
    """The bounds are those of exact fractions: 99.4/7.1 = 14 and 99.4/14.3 = 6.951.."""
    w.law("density == mass / volume")
    rows = "mass,100.0(2),g,,balance\nvolume,7.0,cm3,0.1,cylinder\ndensity,13.8..14.3,,,tables\n"
    assert w.read_csv(table(HEAD + rows)) == 3
    low, high = ends(w, "density")
    assert Fraction("13.99999") <= low <= 14 and high == Fraction("14.3")
    low, high = ends(w, "volume")
    assert Fraction(994, 143) - Fraction(1, 10**5) <= low <= Fraction(994, 143)
    assert high == Fraction("7.1")
    assert w.premises == ("balance", "cylinder", "tables")


@pytest.mark.parametrize(
    "text",
    [
        "\ufeffQuantity;Value;UNIT;uncertainty\r\n"
        "mass;100,0;g;0,2\r\n;;;\r\nvolume;7,0 +- 0,1;;\r\n",
        "quantity\tvalue\tunit\tuncertainty\t\nmass\t100,0\tg\t0,2\t\nvolume\t7,0\tcm3\t0,1\t\n",
    ],
)
def test_sheets_of_other_countries(w: Workbench, table: Callable[[str], Path], text: str) -> None:
    """Semicolons and tabs, decimal commas, a mark in front, blank rows, an empty last column."""
    assert w.read_csv(table(text), decimal=",") == 2
    assert ends(w, "mass") == (Fraction("99.8"), Fraction("100.2"))
    assert ends(w, "volume") == (Fraction("6.9"), Fraction("7.1"))
    assert w.premises == ("mass 1", "volume 1")


def test_rows_dicts_and_frames(w: Workbench) -> None:
    class Frame(SimpleNamespace):
        """What is used of a frame of pandas."""

        def itertuples(self, index: bool) -> Sequence[tuple[object, ...]]:
            assert not index
            return [("mass", 100.5, 0.25), ("volume", 7, float("nan"))][: self.count]

    columns = ["quantity", "value", "uncertainty"]
    assert w.read_table([columns, ["mass", 100, "0.5"], ["mass", "100.25", Decimal("0.5")]]) == 2
    assert ends(w, "mass") == (Fraction("99.75"), Fraction("100.5"))
    assert w.read_table([{"quantity": "volume", "value": "7.0 cm3", "taken at": "noon"}]) == 1
    assert ends(w, "volume") == (Fraction("6.95"), Fraction("7.05"))
    assert "taken at noon" in w.network.premises.text("volume 1")
    assert w.read_table(Frame(columns=columns, count=1)) == 1
    assert ends(w, "mass") == (Fraction("100.25"), Fraction("100.5"))
    with pytest.raises(
        BadTable, match="row 2, column `value`: 7 as a number doesn't say how exact"
    ):
        w.read_table(Frame(columns=columns, count=2))
    assert w.read_table([]) == 0
    for wrong in ("mass", 5, [5], {"quantity": "mass"}):
        with pytest.raises(TypeError):
            w.read_table(wrong)


def test_readings_that_stand_or_fall_together(w: Workbench) -> None:
    rows = [
        {"quantity": "mass", "value": f"{100 + k / 100} g +- 1 g", "premise": "day 1"}
        for k in range(5)
    ]
    with pytest.raises(BadTable, match="`day 1` is that of row 1 too"):
        w.read_table(rows)
    assert w.read_table(rows, under="premise") == 5
    assert w.premises == ("day 1",)
    assert ends(w, "mass") == (Fraction("99.04"), Fraction(101))
    w.read_table([{"quantity": "volume", "value": "7 cm3"}], under="quantity")
    assert w.premises == ("day 1", "volume")
    with pytest.raises(ValueError, match="under='quantity'"):
        w.read_table(rows, under="colour")


def test_ten_thousand_readings_of_a_hundred_quantities() -> None:
    """Each answer is what the readings of its quantity have in common."""
    draw = random.Random(7)
    wanted: dict[str, tuple[Fraction, Fraction]] = {}
    rows = []
    with Workbench() as w:
        for k in range(100):
            w.measured(f"q{k}", unit="mm", low=0, high=1000, step="0.001")
        for k in range(10_000):
            name, shown = f"q{k % 100}", Fraction(100_000 + draw.randint(-50, 50), 1000)
            low, high = wanted.get(name, (Fraction(0), Fraction(1000)))
            off = Fraction(6, 100)
            wanted[name] = max(low, shown - off), min(high, shown + off)
            rows.append({"quantity": name, "value": f"{float(shown):.3f}", "uncertainty": "0.06"})
        w.read_table(rows, under="quantity")
        for result in w.results():
            assert result.interval is not None
            found = Fraction(result.interval.low), Fraction(result.interval.high)
            assert found == wanted[result.name]


# --- what is wrong with a table ---

WRONG = {
    "mass,100,0,g,0.2,b": "row 2: it has 6 cells, and the head 5",
    '"mass","100,0",g,0.2,b': "row 2, column `value`: '100,0': write a point, or read it with `dec",
    "mas,100.0,g,0.2,b": "row 2, column `quantity`: no quantity is called `mas`: did you mean `ma",
    ",100.0,g,0.2,b": "row 2, column `quantity`: the cell is empty",
    "mass,,g,0.2,b": "row 2, column `value`: the cell is empty",
    "mass,100.0,cm,0.2,b": "row 2, column `unit`: '100.0 cm",
    "mass,100.0,ggg,0.2,b": "row 2, column `unit`: 'ggg'",
    "mass,100.0,g,0.2 cm,b": "row 2, column `uncertainty`: ",
    "mass,100.0,g,little,b": "row 2, column `uncertainty`: ",
    "mass,some,g,0.2,b": "row 2, column `value`: ",
    "mass,100.0 g,g,,b": "row 2, column `unit`: the value has its unit with it",
    'mass,100.0,g,"0,5",b': "row 2, column `uncertainty`: '0,5': write a point, or read it with ",
    'mass,"1,234.5",g,1,b': "row 2, column `value`: '1,234.5': leave out what stands between thou",
    "mass,1.0,g,,b\nmass,1.0,g,,b": "row 3, column `premise`: `b` is that of row 2 too",
    "mass,1.0,g,,venue": "row 2, column `premise`: `venue` is a choice",
}


@pytest.mark.parametrize("row", WRONG)
def test_bad_rows(w: Workbench, table: Callable[[str], Path], row: str) -> None:
    """Each says row, column and what would do; nothing of the table is stated."""
    w.choose("venue", w.number("n", 0, 5), [1, 2])
    before = list(w.network.events)
    with pytest.raises(BadTable) as caught:
        w.read_csv(table(f"{HEAD}{row}\nvolume,7.0,cm3,,fine\n"))
    assert WRONG[row] in str(caught.value), caught.value
    assert len(caught.value.problems) == 1
    assert list(w.network.events) == before and w.premises == ()


def test_a_number_is_in_the_quantity_s_unit_whatever_its_uncertainty_is_in(w: Workbench) -> None:
    """100 with an uncertainty of 0.002 kg is 98..102 g where g are measured, and not 100 kg."""
    room = w.measured("room", unit="degC", low=-50, high=50)
    rows = [
        {"quantity": "mass", "value": 100, "uncertainty": "0.002 kg"},
        {"quantity": "room", "value": "20.5", "uncertainty": "0.5 K"},
        {"quantity": "volume", "value": "7.0", "uncertainty": "u=100 mm3"},
    ]
    assert w.read_table(rows) == 3
    assert ends(w, "mass") == (Fraction(98), Fraction(102))
    assert ends(w, "room") == (Fraction(20), Fraction(21)) and room.ask().because == ("room 1",)
    assert ends(w, "volume") == (Fraction("6.7"), Fraction("7.3"))
    with pytest.raises(BadTable, match="'1.234,5 g': leave out what stands between thousands"):
        w.read_table([{"quantity": "mass", "value": "1.234,5 g"}], decimal=",")


def test_all_that_is_wrong_is_told_at_once(w: Workbench, table: Callable[[str], Path]) -> None:
    rows = "".join(f"mass,,g,,b{k}\nmas,5,g,,c{k}\n" for k in range(8))
    with pytest.raises(BadTable) as caught:
        w.read_csv(table(HEAD + rows))
    assert [each.row for each in caught.value.problems] == list(range(2, 18))
    assert "(6 problems more)" in str(caught.value)


@pytest.mark.parametrize(
    "text, says",
    [
        ("", "row 1: the table is empty"),
        (
            "quantity,valu\n",
            "row 1, column `valu`: no column of readings is called so: did you mean",
        ),
        (
            "quantity,unit\n",
            "row 1, column `value`: no column is called so, and each reading needs it",
        ),
        ("quantity,value,value\n", "row 1, column `value`: there are two of this name"),
        ("quantity,,value\n", "row 1: a column has no name"),
        ('quantity,value\nmass,"5', "row 1: this is no table"),
    ],
)
def test_bad_heads(w: Workbench, table: Callable[[str], Path], text: str, says: str) -> None:
    with pytest.raises(BadTable) as caught:
        w.read_csv(table(text))
    assert says in str(caught.value), caught.value


def test_tables_that_are_too_long(w: Workbench) -> None:
    rows = [{"quantity": "mass", "value": "5 g"}] * 100_000
    with pytest.raises(BadTable, match="row 50,001: a table has 50,000 rows at the most"):
        w.read_table(rows, under="quantity")
    with pytest.raises(BadTable, match=r'row 2,001, column `premise`: 2,000 .*`under="quantity"`'):
        w.read_table(rows[:3000])


def test_what_is_no_text(w: Workbench, tmp_path: Path) -> None:
    path = tmp_path / "latin.csv"
    path.write_bytes("quantity,value\nmass,5 µg\n".encode("latin-1"))
    with pytest.raises(ValueError, match="from byte 23 on: save it as that"):
        w.read_csv(path)
    with pytest.raises(FileNotFoundError):
        w.read_csv(tmp_path / "none.csv")
    with pytest.raises(TypeError):
        w.read_csv(5)  # type: ignore[arg-type]


# --- results ---


def test_results_as_tables(w: Workbench, tmp_path: Path) -> None:
    w.law("density == mass / volume")
    w.read("balance", w.cell("mass"), "100.0 +- 0.2 g")  # type: ignore[arg-type]
    w.read("cylinder", w.cell("volume"), "7.0 +- 0.1 cm3")  # type: ignore[arg-type]
    path = tmp_path / "out.csv"
    text = w.results().to_csv(path)
    assert path.read_text() == text
    rows = {row["quantity"]: row for row in csv.DictReader(io.StringIO(text))}
    assert rows["mass"]["value"] == "100.00" and rows["mass"]["half width"] == "0.20"
    assert (rows["mass"]["low"], rows["mass"]["high"]) == ("99.8", "100.2")
    row = rows["density"]
    value, half = Fraction(row["value"]), Fraction(row["half width"])
    assert value - half <= Fraction("99.8") / Fraction("7.1")
    assert value + half >= Fraction("100.2") / Fraction("6.9")
    assert row["because of"] == "balance, cylinder"
    assert "<td>density</td>" in w.results().to_html()


def test_no_cell_of_a_sheet_is_a_formula() -> None:
    with Workbench() as w:
        x = w.measured("=1+1", unit="m", low=-5, high=5)
        w.read("@now", x, "-3 +- 1 m")
        row = list(csv.reader(io.StringIO(w.results().to_csv())))[1]
        assert row[0] == "'=1+1" and row[-1] == "'@now" and row[1] == "-3.0"


@pytest.mark.parametrize(
    "low, high, told",
    [
        ("13.9999975", "14.3", "(14.15 ± 0.16) m"),
        ("99.4", "100.6", "(100.00 ± 0.60) m"),
        ("0", "1.99", "(1.0 ± 1.0) m"),
        ("-0.995", "0.995", "(0.0 ± 1.0) m"),
        ("12340", "15678", "(14000 ± 1700) m"),
        ("7", "7", "7 m"),
    ],
)
def test_results_as_certificates_write_them(low: str, high: str, told: str) -> None:
    assert str(rounded_of(Interval(Decimal(low), Decimal(high), "m", Decimal(1)))) == told


def test_nothing_is_lost_by_rounding() -> None:
    draw = random.Random(5)
    for _ in range(2000):
        scale = Decimal(10) ** draw.randint(-8, 8)
        low = draw.randint(-(10**9), 10**9) * scale
        high = low + draw.randint(1, 10 ** draw.randint(1, 9)) * scale
        found = rounded_of(Interval(low, high, "m", scale))
        assert found.value - found.half <= low and high <= found.value + found.half
        assert len(found.half.as_tuple().digits) <= 2 or found.half == found.half.to_integral()
        assert found.half <= (high - low) / 2 * Decimal("1.21")


# --- laws as texts ---


def test_a_text_is_the_law_that_it_says() -> None:
    with Workbench() as w:
        mass = w.measured("mass", unit="g", low=1, high=9)
        water = w.measured("in water", unit="g", low=1, high=9)
        ratio = w.measured("ratio", low=0, high=9)
        known: dict[str, Term] = {"mass": mass, "in water": water, "ratio": ratio}
        both: list[Term] = [mass, water]
        laws: dict[str, Law] = {
            "ratio == mass / (mass - in water)": ratio == mass / (mass - water),
            "ratio = mass / in water ^ 1": ratio == mass / water,
            "mass >= in water + '5 mg'": mass >= water + "5 mg",
            "2.50 × ratio ≤ sqrt(ratio) + mean(ratio, 3)": 2.5 * ratio
            <= ratio.sqrt() + mean(ratio, 3),
            "maximum(mass, in water) < total(mass, in water)": maximum(both) < total(both),
            "-ratio ** -2 == abs(-ratio)": -(ratio**-2) == abs(-ratio),
            "exp(ratio) == pi * sin(ratio)": exp(ratio) == pi * sin(ratio),
            "atan2(mass, in water) <= hypot(1, 2, ratio)": atan2(mass, water) <= hypot(1, 2, ratio),
            "at_level(level(ratio), 'W') == '5 mW'": at_level(level(ratio), "W") == "5 mW",
        }
        for text, law in laws.items():
            [found] = laws_of(text, known)
            assert (found.left, found.right) == (law.left, law.right), text
        assert len(laws_of("1 <= ratio <= minimum(ratio, 5)", known)) == 2


def test_a_quantity_may_be_called_as_a_function(wide: str) -> None:
    """`pH(..)` is the function then, and `pH` the quantity: pH 2 is 0.01 mol/L."""
    pytest.importorskip("mpmath")
    with Workbench(wide) as w:
        acid = w.measured("acid", unit="mol/L", low="0.001", high=1)
        w.measured("pH", unit="pH", low=0, high=14)
        w.law("pH = pH (acid)")
        level = w.cell("pH")
        assert isinstance(level, Quantity)
        w.read("meter", level, "2.00 +- 0.01")
        answer = acid.ask()
        assert answer.low is not None and answer.high is not None
        assert float(answer.low) == pytest.approx(10**-2.01, rel=1e-3)
        assert float(answer.high) == pytest.approx(10**-1.99, rel=1e-3)


def test_what_a_law_is_printed_as_can_be_read() -> None:
    draw = random.Random(11)
    with Workbench() as w:
        names = ["a", "a b", "x 1", "a by c"]
        known: dict[str, Term] = {name: w.measured(name, low=1, high=9) for name in names}

        def term(depth: int) -> Term:
            if depth == 0:
                return known[draw.choice(names)]
            one, other = term(depth - 1), term(draw.randint(0, depth - 1))
            choices: list[Callable[[], Term]] = [
                lambda: one + other,
                lambda: one - other,
                lambda: one * other,
                lambda: one / other,
                lambda: one ** draw.choice([2, 3, -2]),
                lambda: one.sqrt(),
                lambda: -one,
                lambda: abs(one),
                lambda: mean(one, other),
                lambda: maximum(one, other),
                lambda: draw.choice([2, 3]) * one,
                lambda: "0.25" * one + 7,
            ]
            return draw.choice(choices)()

        for _ in range(300):
            law = term(4) == term(3)
            [found] = laws_of(law.text, known)
            assert (text_of(found.left), text_of(found.right)) == tuple(
                map(text_of, (law.left, law.right))
            )


@pytest.mark.parametrize(
    "text, says",
    [
        ("density == mas / volume", "no quantity is called `mas`: did you mean `mass`?"),
        ("density mass", "is no law: an amount with a unit stands in quotes"),
        ("density != mass", "between its sides stands `==`, `<=` or `>=`"),
        ("density", "write `==`, `<=` or `>=` between its two sides"),
        ("cosh(mass) == 3", "its functions are abs, sqrt, mean"),
        ("atan2(mass) == 3", "`atan2` is of two terms"),
        ("exp() == mass", "`exp` is of one term"),
        ("hypot() == mass", "`hypot` is of terms"),
        ("at_level(mass / mass, mass) == mass", "the unit of a level stands in quotes"),
        ("mass.real == 3", "it has `+ - * / **`"),
        ("abs(mass, mass) == mass", "`abs` is of one term"),
        ("mass ** mass == 3", "a power is by a number"),
        ("1 < 2", "no quantity stands in it"),
        ("__import__('os') == mass", "its functions are"),
        ("mass == 0x10 * mass", "a number is written as 5, 0.1 or 1e-3"),
        ("(" * 300 + "mass" + ")" * 300 + " == 3", "is no law"),
        ("mass == " + "mass + " * 1000 + "mass", "4,000 characters at the most"),
    ],
)
def test_what_is_no_law(w: Workbench, text: str, says: str) -> None:
    before = list(w.network.events)
    with pytest.raises(NotALaw) as caught:
        w.law(text)
    assert says in str(caught.value)
    assert list(w.network.events) == before


def test_laws_of_a_file(w: Workbench, tmp_path: Path) -> None:
    path = tmp_path / "laws.txt"
    path.write_text("# of a ring\n\ndensity == mass / volume  # by definition\nmass <= '1 kg'\n")
    assert w.read_laws(path) == 2
    before = list(w.network.events)
    path.write_text("mass <= '1 kg'\nmass == volume\n")
    with pytest.raises(NotALaw, match="laws.txt, line 2: `mass` is in g, and `volume` in cm3"):
        w.read_laws(path)
    assert list(w.network.events) == before
    for text in ("mass == volume", "exp(mass) == 3"):
        with pytest.raises(MixedUnits):
            w.law(text)
