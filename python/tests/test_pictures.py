"""Pictures: what Graphviz draws of a network, that texts stay texts, folds, films, `draw`."""

import re
import shutil
from collections.abc import Iterable
from pathlib import Path
from xml.etree import ElementTree

import pytest
from conftest import REPOSITORY

from propbench import Session, Workbench
from propbench.desk import main
from propbench.pictures import NoGraphviz, film_of, picture_of
from propbench.pictures.folding import MOST_CELLS
from propbench.shell import Shell
from propbench.watching.of_session import SessionWatched

SVG = "{http://www.w3.org/2000/svg}"
# What Graphviz draws with, none of which runs or loads anything.
TAGS = {"svg", "g", "title", "polygon", "polyline", "path", "text", "ellipse"}
GREY = "#9aa3ad"
NASTY = [
    "<img src=x onerror=alert(1)>",
    '"]; evil [label="gone',
    r"back\slash \N \G \l" + "\\",
    "&lt;b&gt; &amp; &#65;",
    "</text><script>alert(1)</script>",
    "\x1b[31m red\nline",
    "emoji \U0001f3b2 und Käse",
    "a -> b; subgraph cluster_x {",
    "]]> <!-- x --> ' `",
]


def parsed(svg: str) -> ElementTree.Element:
    """The picture, which draws and does nothing else."""
    top = ElementTree.fromstring(svg)
    for each in top.iter():
        assert each.tag.removeprefix(SVG) in TAGS, each.tag
        for name in each.attrib:
            assert not name.lower().startswith("on") and "href" not in name and name != "style"
    return top


def drawn_texts(svg: str) -> list[str]:
    return [each.text or "" for each in parsed(svg).iter(f"{SVG}text")]


def groups(svg: str, kind: str) -> list[ElementTree.Element]:
    return [each for each in parsed(svg).iter(f"{SVG}g") if each.get("class") == kind]


def group_with(svg: str, text: str, kind: str = "node") -> ElementTree.Element:
    """The box in which a text stands first."""
    [found] = [
        each
        for each in groups(svg, kind)
        if [inner.text for inner in each.iter(f"{SVG}text")][:1] == [text]
    ]
    return found


def colours(group: ElementTree.Element) -> set[str]:
    return {each.get(name, "").lower() for each in group.iter() for name in ("stroke", "fill")}


def session_of(program: str, lines: Iterable[str]) -> Session:
    session = Session(program)
    session.send_all(list(lines))
    return session


PRODUCT = [
    "cell x span",
    "cell y span",
    "cell z span",
    "cell other span",
    "attach product x y z",
    "attach copier z other",
    "tell ana x 3",
    "tell ben y 4..5",
    "tell cleo z 90",
    "kick cleo",
    "choose c other 12 or 15",
]


def test_a_session_s_picture(program: str) -> None:
    with session_of(program, PRODUCT) as session:
        svg = picture_of(SessionWatched(session)).svg
    texts = drawn_texts(svg)
    assert {"x", "3", "y", "4..5", "z", "12..15", "product", "multiplier", "copier"} <= set(texts)
    assert texts.count("divider") == 2 and "* other = 12" in texts and "other = 15" in texts
    # the compound is a cluster, with what it is made of in it
    [cluster] = groups(svg, "cluster")
    assert [each.text for each in cluster.iter(f"{SVG}text")] == ["product"]
    # of each instance a line to each of its cells, and one for each statement
    assert len(groups(svg, "edge")) == 3 * 3 + 2 + 3 + 1
    assert GREY in colours(group_with(svg, "cleo (out)"))
    assert GREY not in colours(group_with(svg, "ana"))


def test_what_bears_on_a_cell(program: str) -> None:
    with session_of(program, [*PRODUCT, "cell far span", "fix far 3"]) as session:
        watched = SessionWatched(session)
        texts = drawn_texts(picture_of(watched, "z").svg)
        assert "far" not in texts and "cleo (out)" not in texts and "z" in texts
        assert "far" in drawn_texts(picture_of(watched).svg)
        with pytest.raises(ValueError, match="there is no cell `zz`"):
            picture_of(watched, "zz")
        session.send("tell dora x 4")
        assert "dora" in drawn_texts(picture_of(watched).svg)
        with pytest.raises(ValueError, match="nothing follows for `z`"):
            picture_of(watched, "z")


def test_a_workbench_s_picture(program: str) -> None:
    with Workbench(program) as w:
        days, price = w.number("days", 0, 60), w.number("price", 0, 9000)
        w.require(price >= 400 * days)
        w.require(price == 6 * days, under="odd")
        w.tell("ana", days, 4)
        w.kick("odd")
        picture = w.picture()
        assert picture._repr_svg_() == picture.svg
        assert {"days", "4", "price", "1600..9000", "price >= 400 * days"} <= set(
            drawn_texts(picture.svg)
        )
        assert GREY in colours(group_with(picture.svg, "price == 6 * days"))
        assert "odd (out)" in drawn_texts(picture.svg) and "odd (out)" not in drawn_texts(
            price.picture().svg
        )
        assert "price == 6 * days" not in drawn_texts(price.picture().svg)
        with Workbench(program) as other:
            with pytest.raises(ValueError, match="of another workbench"):
                w.picture(other.number("days", 0, 3))


def test_texts_are_texts(program: str) -> None:
    with Workbench(program) as w:
        cells = [w.number(name, 0, 9) for name in NASTY]
        for at, (name, x) in enumerate(zip(NASTY, cells)):
            w.tell(f"p {name}", x, at)
        w.require(cells[0] + cells[-1] <= 90)
        w.choose("<choice>", cells[-1], [8, 7])
        svg = w.picture().svg
        texts = drawn_texts(svg)
        for at, name in enumerate(NASTY):
            shown = name.replace("\x1b", r"\x1b").replace("\n", r"\n")
            assert shown in texts, (shown, texts)
            assert str(at) in texts
        assert len(groups(svg, "node")) == 2 * len(NASTY) + 2
        film = w.film(2)
        assert "<img" not in film._repr_html_() and "<script" not in film._repr_html_()
        for each in film.svgs:
            parsed(each)


def test_more_than_sixty_cells_are_folded(program: str) -> None:
    lines = [f"cell x{at} span" for at in range(400)]
    lines += [f"attach adder x{at} x{at + 1} x{at + 2}" for at in range(398)]
    lines += [f"tell p{at} x{at} {at}" for at in range(90)]
    lines += [f"kick p{at}" for at in range(0, 90, 3)]
    with session_of(program, lines) as session:
        svg = picture_of(SessionWatched(session)).svg
    texts = drawn_texts(svg)
    folds = [int(count) for count in re.findall(r"^(\d+) cells: x", "\n".join(texts), flags=re.M)]
    named = [name for text in texts for name in re.findall(r"^x\d+$|^x\d+, x\d+$", text)]
    assert sum(folds) + sum(name.count("x") for name in named) == 400
    assert len(folds) + len(named) <= 24 and len(groups(svg, "node")) <= MOST_CELLS
    uses = [int(count) for count in re.findall(r"^(\d+) x adder$", "\n".join(texts), flags=re.M)]
    assert sum(uses) + texts.count("adder") == 398
    told = [int(count) for count in re.findall(r"^(\d+) premises: ", "\n".join(texts), flags=re.M)]
    assert sum(told) + sum(bool(re.match(r"p\d+( \(out\))?$", text)) for text in texts) == 90
    assert GREY in "".join(sorted(colours(parsed(svg))))


def test_sixty_are_not(program: str) -> None:
    lines = [f"cell x{at} span" for at in range(MOST_CELLS)]
    lines += [f"attach sum x{at} x{at + 1} x{at + 2}" for at in range(MOST_CELLS - 2)]
    with session_of(program, [*lines, "tell a x0 1", "tell a x1 0"]) as session:
        svg = picture_of(SessionWatched(session)).svg
        texts = drawn_texts(svg)
        assert {f"x{at}" for at in range(MOST_CELLS)} <= set(texts)
        assert texts.count("sum") == MOST_CELLS - 2 and not groups(svg, "cluster")
        # (the last is the 59th Fibonacci number)
        low, high = 1, 0
        for _ in range(MOST_CELLS - 2):
            low, high = high, low + high
        assert str(high) in texts


def places(svg: str) -> dict[str, str]:
    """Where each box of a cell stands, by the first text in it."""
    found = {}
    for group in groups(svg, "node"):
        shapes = [each for each in group if each.tag in (f"{SVG}path", f"{SVG}polygon")]
        [first, *_] = [each.text or "" for each in group.iter(f"{SVG}text")]
        found[first] = shapes[0].get("d") or shapes[0].get("points") or ""
    return found


def test_a_film(program: str) -> None:
    with session_of(
        program, ["cell x span", "cell y span", "attach adder x x y", "tell a x 3"]
    ) as session:
        film = film_of(SessionWatched(session), 5)
    # x is told before the first step, and the only procedure gives y in the first
    assert [row[:2] for row in film.rows()][:2] == [("0", "x = 3"), ("1", "y = 6")]
    assert film.rows()[-1][2] == "settled" and "y = 6" in str(film)
    svgs = film.svgs
    assert len(svgs) == len(film.frames) == film._repr_html_().count("<svg")
    assert "6" in drawn_texts(svgs[1]) and "6" not in drawn_texts(svgs[0])
    assert places(svgs[0]) == places(svgs[1]) and set(places(svgs[0])) >= {"x", "y", "adder"}
    with session_of(program, [f"cell x{at} span" for at in range(40)]) as session:
        markup = film_of(SessionWatched(session), 2)._repr_html_()
        assert markup.startswith("<table>")


def test_without_graphviz(
    program: str,
    monkeypatch: pytest.MonkeyPatch,
    tmp_path: Path,
    capsys: pytest.CaptureFixture[str],
) -> None:
    monkeypatch.setattr(shutil, "which", lambda name: None if name == "dot" else name)
    with session_of(program, PRODUCT) as session:
        picture = picture_of(SessionWatched(session))
        assert picture.dot.startswith("digraph {")
        with pytest.raises(NoGraphviz, match="apt-get install graphviz"):
            picture.svg
        assert film_of(SessionWatched(session), 2)._repr_html_().startswith("<table>")
        told: list[str] = []
        Shell(session, told.append).obey(f":draw {tmp_path}/x.svg")
        assert "apt-get install graphviz" in told[0]


def test_draw(program: str, tmp_path: Path, capsys: pytest.CaptureFixture[str]) -> None:
    example = shutil.copy(REPOSITORY / "examples/measuring/premises.prop", tmp_path)
    assert main(["draw", example, "--program", program]) == 0
    assert capsys.readouterr().out == f"The picture is in {tmp_path}/premises.svg.\n"
    assert "44514..47243" in drawn_texts((tmp_path / "premises.svg").read_text())
    assert (
        main(
            ["draw", example, "--cell", "time", "--out", f"{tmp_path}/t.dot", "--program", program]
        )
        == 0
    )
    assert (tmp_path / "t.dot").read_text().startswith("digraph {")
    assert main(["draw", example, "--cell", "tim", "--program", program]) == 2
    assert "there is no cell `tim`" in capsys.readouterr().err
    assert main(["draw", example, "--out", f"{tmp_path}/t.png", "--program", program]) == 2
    assert "as .svg or .dot, and not as .png" in capsys.readouterr().err
    assert not (tmp_path / "t.png").exists()
    assert main(["draw", f"{tmp_path}/none.prop", "--program", program]) == 3
    (tmp_path / "bad.prop").write_text("cell x span\nask y\n")
    assert main(["draw", f"{tmp_path}/bad.prop", "--program", program]) == 1
    assert "bad.prop:2:5: error 9: no such cell" in capsys.readouterr().err


def test_draw_in_the_shell(program: str, tmp_path: Path, monkeypatch: pytest.MonkeyPatch) -> None:
    monkeypatch.chdir(tmp_path)
    told: list[str] = []
    with session_of(program, PRODUCT) as session:
        shell = Shell(session, told.append)
        for line in (
            ":draw",
            ":draw x",
            ":draw z here.dot",
            ":draw nothing here",
            ":draw x a.svg b.svg",
        ):
            shell.obey(line)
    assert told[:3] == [
        f"The picture is in {name}." for name in ("network.svg", "x.svg", "here.dot")
    ]
    assert all(each.startswith("Say what: ") for each in told[3:]) and len(told) == 5
    assert "product" in drawn_texts((tmp_path / "network.svg").read_text())
    assert "ana" in drawn_texts((tmp_path / "x.svg").read_text())
    assert (tmp_path / "here.dot").read_text().startswith("digraph {")
