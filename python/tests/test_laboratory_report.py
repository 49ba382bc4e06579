"""Reports: what stands in them, that their certificates hold, and that nothing in them is a tag."""

import hashlib
import re
from base64 import b64decode
from collections.abc import Iterator
from fractions import Fraction
from html.parser import HTMLParser
from pathlib import Path

import pytest
from conftest import hide

from propbench import Certificate, CertificateError, Workbench
from propbench.desk import main


@pytest.fixture
def w() -> Iterator[Workbench]:
    with Workbench() as made:
        density = made.measured("density", unit="g/cm3", low=1, high=25, step="0.001")
        mass = made.measured("mass", unit="g", low=1, high=500, step="0.01")
        volume = made.measured("volume", unit="cm3", low=1, high=100, step="0.01")
        made.law(density == mass / volume)
        made.read("weighing", mass, "100.0 +- 0.2 g", by=made.device("balance", offset="0.1 g"))
        made.read("cylinder", volume, "7.0 +- 0.1 cm3")
        made.read("tables", density, "13.8..14.3 g/cm3")
        yield made


class Page(HTMLParser):
    """The tags of a page, each of which is closed, and its text."""

    def __init__(self, page: str) -> None:
        super().__init__()
        self.open: list[str] = []
        self.tags: list[tuple[str, dict[str, str | None]]] = []
        self.text = ""
        self.feed(page)
        self.close()
        assert not self.open

    def handle_starttag(self, tag: str, attrs: list[tuple[str, str | None]]) -> None:
        self.tags.append((tag, dict(attrs)))
        if tag not in ("meta", "line", "polygon"):
            self.open.append(tag)

    def handle_startendtag(self, tag: str, attrs: list[tuple[str, str | None]]) -> None:
        self.tags.append((tag, dict(attrs)))

    def handle_endtag(self, tag: str) -> None:
        assert self.open.pop() == tag

    def handle_data(self, data: str) -> None:
        self.text += data


def test_what_stands_in_a_report(w: Workbench, tmp_path: Path) -> None:
    """The result holds the exact bounds: from 99.7 / 7.1 to 14.3."""
    report = w.report("A ring", seconds=60)
    report.save(tmp_path / "report.html")
    report.save(tmp_path / "report.txt")
    html, text = ((tmp_path / f"report.{kind}").read_text() for kind in ("html", "txt"))
    assert (html, text) == (report.html, report.text)
    page = Page(html)
    for said in (
        "density == mass / volume",
        "balance offset = 0 +- 0.1 g",
        "weighing",
        "7.0 +- 0.1 cm3",
        "Nothing speaks against any of 3 readings.",
    ):
        assert said in page.text and said in text, said
    value, half = re.findall(r"density\((\S+) ± (\S+)\) g/cm3", page.text)[0]
    assert Fraction(value) - Fraction(half) <= Fraction("99.7") / Fraction("7.1")
    assert Fraction("14.3") <= Fraction(value) + Fraction(half)
    assert {"density", "mass", "volume"} <= set(report.found.bars)
    assert all(len(line) <= 100 for line in text.split("\n"))


def test_the_certificates_hold(w: Workbench, tmp_path: Path) -> None:
    report = w.report("A ring", seconds=60)
    assert list(report.certificates) == ["bounds"] and report.certificates["bounds"].check()
    w.read("wrong", w.quantities[2], "7.4 +- 0.1 cm3")
    report = w.report("A ring", seconds=60)
    assert list(report.certificates) == ["conflict", "bounds"]
    assert all(each.check() for each in report.certificates.values())
    assert report.found.given_up == ["wrong"] and w.believed[-1] == "wrong"
    assert "The results are those without wrong." in Page(report.html).text
    links = [attrs for tag, attrs in Page(report.html).tags if tag == "a"]
    for name, link in zip(report.certificates, links):
        data = str(link["href"]).partition(",")[2]
        assert link["download"] == f"{name}.txt"
        (tmp_path / f"{name}.txt").write_bytes(b64decode(data))
        assert main(["check", str(tmp_path / f"{name}.txt")]) == 0


def test_the_bounds_that_a_certificate_claims_are_told_from_narrower_ones(w: Workbench) -> None:
    """One step off a claimed bound and the certificate fails."""
    lines = list(w.report().certificates["bounds"].lines)
    found = re.search(r'"density", "(\d+)\.\.(\d+)"', lines[1])
    assert found
    lines[1] = lines[1].replace(found[1], str(int(found[1]) - 50))
    lines[-1] = hashlib.sha256("\n".join(lines[:-1]).encode()).hexdigest()
    with pytest.raises(CertificateError):
        Certificate(lines).check()


def test_names_are_no_tags() -> None:
    with Workbench() as w:
        x = w.measured("<script>alert(1)</script>", unit="m", low=0, high=9)
        w.read('"><img src=x onerror=alert(1)>', x, "5 +- 1 m")
        w.read("& other", x, "5.5 +- 1 m")
        page = Page(w.report("<b>bold</b>").html)
        assert "script" not in {tag for tag, _ in page.tags}
        assert {"b", "img"}.isdisjoint(tag for tag, _ in page.tags)
        assert "<script>alert(1)</script>" in page.text and "& other" in page.text
        policy = [it["content"] for tag, it in page.tags if tag == "meta" and "content" in it]
        assert policy == ["default-src 'none'; style-src 'unsafe-inline'; img-src data:"]


def test_a_bench_without_anything(w: Workbench) -> None:
    with Workbench() as empty:
        assert "Nothing speaks against any of 0 readings." in empty.report().text
        assert Page(empty.report().html).text
        x = empty.measured("x", unit="m", low=-5, high=9)
        empty.law(x >= "6 m")
        empty.law(x <= "5 m")
        report = empty.report()
        assert report.found.results is None and "there are no results" in report.text


def test_the_desk_writes_one(tmp_path: Path, wide: str, capsys: pytest.CaptureFixture[str]) -> None:
    (tmp_path / "b.toml").write_text('[quantities]\nx = { unit = "m", low = 0, high = 9 }\n')
    (tmp_path / "r.csv").write_text("quantity,value\nx,5.00 m\n")
    words = ["measure", *(str(tmp_path / name) for name in ("b.toml", "r.csv"))]
    assert main([*words, "--report", str(tmp_path / "r.html"), "--program", wide]) == 0
    assert "The report is in" in capsys.readouterr().out
    assert Page((tmp_path / "r.html").read_text()).text.count("4.995 to 5.005") == 1


def test_a_quantity_that_is_not_read_has_bars_by_each_path() -> None:
    """x = a + b lies in 4.9..5.1, x = c - d in 5.05..5.35: so in 5.05..5.1 by both."""
    with Workbench() as w:
        x, a, b, c, d, other, alone = (
            w.measured(name, unit="m", low=0, high=20, step="0.0001")
            for name in ("x", "a", "b", "c", "d", "other", "alone")
        )
        w.law(x == a + b)
        w.law(x == c - d)
        w.law(alone == other * 2)
        for name, cell, text in (
            ("tape", a, "2.00 +- 0.05 m"),
            ("rod", b, "3.00 +- 0.05 m"),
            ("long tape", c, "9.20 +- 0.10 m"),
            ("wheel", d, "4.00 +- 0.05 m"),
            ("stick", other, "4.00 +- 0.05 m"),
        ):
            w.read(name, cell, text)
        report = w.report("A wall", seconds=60)
        assert w.believed == ("tape", "rod", "long tape", "wheel", "stick")
        bars = {each.label: each.interval for each in report.found.bars["x"]}
        wanted = {
            "by long tape and wheel": ("5.05", "5.35"),
            "by tape and rod": ("4.9", "5.1"),
            "together": ("5.05", "5.1"),
        }
        assert bars.keys() == wanted.keys() and "alone" not in report.found.bars
        for label, (low, high) in wanted.items():
            found = Fraction(bars[label].low), Fraction(bars[label].high)
            assert Fraction(low) - Fraction(1, 1000) < found[0] <= Fraction(low)
            assert Fraction(high) <= found[1] < Fraction(high) + Fraction(1, 1000)
        assert "by tape and rod" in Page(report.html).text


def test_a_report_says_why_it_has_no_estimates(
    w: Workbench, monkeypatch: pytest.MonkeyPatch
) -> None:
    for name in ("scipy", "scipy.linalg", "scipy.stats"):
        hide(monkeypatch, name)
    report = w.report("A ring", seconds=60)
    for text in (report.text, Page(report.html).text):
        assert "There are no estimates: statistics need SciPy" in text
