"""The page in a browser: what a user presses, and what is shown then.

What is expected is worked out by the bare program, by hand, or by trying all sets of premises.
"""

import re
import shutil
import threading
import time
from collections.abc import Iterable, Iterator
from http.server import BaseHTTPRequestHandler, ThreadingHTTPServer
from itertools import combinations
from pathlib import Path
from typing import Any

import pytest
from browsing import SWITCH, Shown, shown
from conftest import ENDLESS, REPOSITORY, Bare

from propbench import Session, Workbench, find_program
from propbench.page import Page
from propbench.running import RunAs
from propbench.watching.of_session import SessionWatched
from propbench.watching.of_workbench import WorkbenchWatched
from propbench.watching.opening import opened

EXAMPLES = REPOSITORY / "examples"
# What a name must not be taken for.
NASTY = "<img src=x onerror=alert(1)>"
NASTIER = "\"><script>document.title='gone'</script>&lt;b&gt;"


@pytest.fixture
def example(program: str, tmp_path: Path, browser: Any) -> Iterator[Shown]:
    """The example of the building's height, opened from a file."""
    path = shutil.copy(EXAMPLES / "measuring/premises.prop", tmp_path)
    with opened(path, RunAs(), program) as watched:
        with shown(browser, Page(watched, "premises.prop", path=path)) as page:
            yield page


def stating(lines: Iterable[str]) -> list[str]:
    """The lines that state something."""
    asking = ("#", "ask", "why", "core", "settle", "worldview", "nogoods", "limit")
    return [line for line in lines if line and not line.startswith(asking)]


def lines_of(name: str) -> list[str]:
    return stating((EXAMPLES / name).read_text().split("\n"))


def cells_of(lines: Iterable[str]) -> list[str]:
    return [line.split()[1] for line in lines if line.startswith("cell ")]


def answers(bare: Bare, lines: list[str], *more: str) -> dict[str, tuple[str, str]]:
    """What the program answers to `why` for each cell behind these lines: value and reasons."""
    cells = cells_of(lines)
    said = bare([*lines, *more, "settle", *(f"why {cell}" for cell in cells)], []).split("\n")
    found = {}
    for text in said[-len(cells) - 1 : -1]:
        cell, _, rest = text.partition(" = ")
        value, _, because = rest.partition(" because ")
        reasons = because.replace(" ", ", ").replace("no, premise", "what always holds")
        found[cell] = (value, reasons)
    return found


def test_open_and_switch(example: Shown, bare: Bare) -> None:
    lines = lines_of("measuring/premises.prop")
    assert example.text("title") == "premises.prop"
    assert example.text("proved") == (
        "proved" if find_program().proved else "not known to be proved"
    )
    wanted = answers(bare, lines)
    assert example.table == wanted and wanted["height"][0] == "44514..47243"
    assert example.drawn == {cell: value for cell, (value, _) in wanted.items()}
    assert example.believed == {"shadows", "fall"}
    example.keep("opened")
    example.switch("fall")
    without = answers(bare, lines, "kick fall")
    example.until(lambda: example.table == without)
    assert example.drawn["height"] == without["height"][0] == "44514..48977"
    differing = {cell for cell in wanted if wanted[cell][0] != without[cell][0]}
    assert example.marked("changed") == len(differing) >= 3
    assert "height = 44514..48977" in example.text("status") or len(differing) > 3
    example.keep("switched")
    example.switch("fall")
    example.until(lambda: example.table == wanted)


def test_a_cell_and_what_bears_on_it(example: Shown) -> None:
    example.click("height")
    example.until(lambda: example.text("cell-name") == "height" and example.marked("bears"))
    assert example.text("cell-value") == "44514..47243"
    assert example.text("cell-because") == "because of shadows, fall"
    # all cells lead to the height, by all five uses
    assert example.marked("bears") == 10 + 5 and example.marked("picked") == 1
    assert {each.text for each in example.all("#premises li.lit label")} == {"shadows", "fall"}
    example.press("core")
    example.until(lambda: example.text("cell-core"))
    assert example.text("cell-core") == "None can be left out of: shadows, fall"
    example.keep("cell")
    example.click("time")
    example.until(lambda: example.text("cell-name") == "time")
    example.press("unlit")
    assert example.marked("bears") == example.marked("wires lit") == 0
    assert not example.one("#cell").is_displayed()


def least_conflicts(bare: Bare, lines: list[str], premises: list[str]) -> set[frozenset[str]]:
    """All minimal sets of premises that contradict each other, by trying all sets."""
    found: set[frozenset[str]] = set()
    for size in range(len(premises) + 1):
        for kept in (frozenset(each) for each in combinations(premises, size)):
            if not any(each <= kept for each in found):
                kicks = [f"kick {each}" for each in premises if each not in kept]
                brings = [f"bring {each}" for each in kept]
                if "contradiction" in bare([*lines, *brings, *kicks, "settle"], []):
                    found.add(kept)
    return found


def least_hits(conflicts: set[frozenset[str]], premises: list[str]) -> set[frozenset[str]]:
    """All minimal sets that have something of each conflict, by trying all sets."""
    found: set[frozenset[str]] = set()
    for size in range(len(premises) + 1):
        for out in (frozenset(each) for each in combinations(premises, size)):
            if all(out & each for each in conflicts) and not any(each <= out for each in found):
                found.add(out)
    return found


def test_a_conflict_and_its_repair(example: Shown, bare: Bare) -> None:
    lines, premises = lines_of("measuring/premises.prop"), ["shadows", "fall", "guess"]
    conflicts = least_conflicts(bare, lines, premises)
    repairs = least_hits(conflicts, premises)
    example.switch("guess")
    example.until(lambda: example.all(".repair"))
    told = {frozenset(each.text.split(", ")) for each in example.all("#mending ul li")}
    assert told == conflicts and len(conflicts) == 2
    offered = [each.text.removeprefix("give up ") for each in example.all(".repair span")]
    assert {frozenset(each.split(" and ")) for each in offered} == repairs and len(repairs) == 2
    assert {each.text for each in example.all("#premises li.clashes label")} >= {"guess"}
    example.keep("conflict")
    place = offered.index("guess")
    example.all(".repair button:first-of-type")[place].click()
    wanted = answers(bare, lines, "kick guess")["height"][0]
    example.until(lambda: f"height = {wanted}" in example.all(".tried")[place].text)
    assert example.believed == set(premises)
    example.all(".repair button:last-of-type")[place].click()
    example.until(lambda: not example.one("#clash").is_displayed())
    assert example.believed == {"shadows", "fall"}
    assert example.values["height"] == wanted
    example.keep("repaired")


def chain(length: int) -> list[str]:
    """Sums one behind another, of which the last reaches back to the first."""
    lines = [f"cell x{at} span" for at in range(length + 1)] + ["cell one span", "fix one 1"]
    lines += [f"attach sum x{at} one x{at + 1}" for at in range(length)]
    return [*lines, "tell start x0 3..5", f"tell end x{length} {length + 4}"]


def after_steps(bare: Bare, lines: list[str], steps: int) -> dict[str, str]:
    """What the program knows after so many steps."""
    cells = cells_of(lines)
    asks = ["limit 0", *(f"ask {cell}" for cell in cells)]
    said = bare([*lines, "limit 1", *["settle"] * steps, *asks], []).split("\n")[
        -len(cells) - 1 : -1
    ]
    found = dict(text.removesuffix(" unsettled").split(" = ") for text in said)
    return {cell: value for cell, value in found.items() if value != "nothing"}


def test_forty_steps_and_back(program: str, bare: Bare, browser: Any) -> None:
    lines = chain(16)
    with Session(program) as session:
        session.send_all(lines)
        with shown(browser, Page(SessionWatched(session), "chain")) as page:

            def known() -> dict[str, str]:
                return {cell: value for cell, value in page.values.items() if value}

            settled = known()
            page.press("forward")
            page.until(lambda: page.text("step") == "step 0")
            seen = [known()]
            for step in range(1, 41):
                page.press("forward")
                page.until(lambda: page.text("step").startswith(f"step {step}"))
                seen.append(known())
            page.keep("steps")
            for step in range(0, 41, 4):
                assert seen[step] == after_steps(bare, lines, step), step
            assert len({tuple(each.items()) for each in seen}) > 10
            for step in range(39, -1, -1):
                page.press("back")
                page.until(lambda: page.text("step") == f"step {step}")
                assert known() == seen[step]
            page.press("last")
            page.until(lambda: "the end: settled" in page.text("step"))
            assert known() == settled
            [number] = re.findall(r"step (\d+)", page.text("step"))
            assert after_steps(bare, lines, int(number)) == settled
            assert "unsettled" in bare([*lines, f"limit {int(number) - 1}", "settle"], [])
            page.press("now")
            assert known() == settled and page.text("step") == "steps"


def test_reload_save_replay(program: str, bare: Bare, tmp_path: Path, browser: Any) -> None:
    path = tmp_path / "premises.prop"
    shutil.copy(EXAMPLES / "measuring/premises.prop", path)
    before = path.read_text()
    with opened(str(path), RunAs(), program) as watched:
        with shown(browser, Page(watched, path.name, path=str(path))) as page:
            page.switch("fall")
            page.until(lambda: page.values["height"] == "44514..48977")
            table = page.table
            page.browser.refresh()
            page.until(lambda: page.table == table and page.believed == {"shadows"})
            page.one("#plain summary").click()
            page.until(lambda: page.text("lines").endswith("kick fall"))
            assert page.text("lines").split("\n") == [
                *lines_of("measuring/premises.prop"),
                "kick fall",
            ]
            page.press("replay")
            page.until(lambda: page.text("status") == "Replayed: the same follows.")
            assert page.table == table and path.read_text() == before
            page.press("save")
            page.until(lambda: page.text("status").startswith("Saved to "))
            page.keep("lines")
            text = page.js(
                "return fetch(document.getElementById('download').href).then(it => it.text())"
            )
    assert path.read_text() == before + "kick fall\n" == text
    assert answers(bare, stating(path.read_text().split("\n"))) == table


def test_choices(program: str, bare: Bare, browser: Any) -> None:
    lines = [*lines_of("planning/talks.prop"), "kick bus", "kick train"]
    with Session(program) as session:
        session.send_all(lines)
        with shown(browser, Page(SessionWatched(session), "talks")) as page:

            def stands() -> set[str]:
                return {each.text for each in page.all(".stands")}

            assert stands() == {"ana = nine", "ben = eleven", "cleo = ten"}
            assert page.values == {cell: value for cell, (value, _) in answers(bare, lines).items()}
            page.keep("choices")
            wish = "tell wish ben ten"
            sides = page.all("fieldset:nth-of-type(2) input")
            sides[2].click()
            wanted = {cell: value for cell, (value, _) in answers(bare, lines, wish).items()}
            page.until(lambda: page.values == wanted)
            assert wanted == {"ana": "eleven", "ben": "ten", "cleo": "nine"}
            assert stands() == {f"{cell} = {value}" for cell, value in wanted.items()}
            page.until(lambda: "wish_ben_2" in page.believed)
            assert "ben: ben = ten" in page.text("status") and page.marked("changed") == 3
            page.all("fieldset:nth-of-type(2) input")[0].click()
            page.until(lambda: stands() == {"ana = nine", "ben = eleven", "cleo = ten"})
            assert "wish_ben_2" not in page.believed


def nasty_bench(program: str) -> Workbench:
    w = Workbench(program)
    day = w.domain(NASTY, [NASTIER, "tue"])
    x, d = w.number(NASTY, 0, 9), w.element(NASTIER, day)
    y = w.number("y", 0, 99)
    w.require(y == x * 2, under=NASTIER)
    w.tell(NASTY, x, 3, 4)
    w.choose(f"choice {NASTY}", d, [NASTIER, "tue"])
    w.tell("clash", x, 7)
    w.kick("clash")
    return w


def test_no_text_is_markup(program: str, browser: Any) -> None:
    with nasty_bench(program) as w, shown(browser, Page(WorkbenchWatched(w), NASTIER)) as page:
        tags = page.js(
            "return [...new Set([...document.querySelectorAll('*')].map(it => it.tagName))]"
        )
        assert "IMG" not in tags and "IFRAME" not in tags
        assert page.js("return document.querySelectorAll('script').length") == 1
        assert page.text("title") == NASTIER and page.js("return document.title").startswith('">')
        assert set(page.table) == {NASTY, NASTIER, "y"}
        assert page.table[NASTIER] == (NASTIER, f"choice {NASTY}: {NASTIER}")
        assert page.table["y"] == ("6..8", f"{NASTY}, {NASTIER}") or page.table["y"][0] == "6..8"
        page.all("#cells button")[2].click()
        page.until(lambda: page.marked("bears"))
        page.press("greatest")
        page.until(lambda: "The greatest y is 8" in page.text("best"))
        page.press("forward")
        page.until(lambda: page.text("step") == "step 0")
        page.press("now")
        page.switch("clash")
        page.until(lambda: page.all(".repair"))
        page.keep("names")
        page.one("#plain summary").click()
        page.until(lambda: page.text("lines"))
        assert not page.all("img, iframe, object, embed, svg foreignObject, svg image")
        assert page.js("return document.querySelectorAll('script').length") == 1
        page.js("window.alert = () => { window.hacked = true; }")
        assert page.js("return window.hacked") is None


def test_least_and_greatest(program: str, browser: Any) -> None:
    with Workbench(program) as w:
        x, y = w.number("x", 0, 20), w.number("y", 0, 20)
        w.require(x + 3 * y <= 17)
        w.require(x * y >= 12, under="area")
        points = [(a, b) for a in range(21) for b in range(21) if a + 3 * b <= 17 and a * b >= 12]
        with shown(browser, Page(WorkbenchWatched(w), "area")) as page:
            page.all("#cells button")[0].click()
            page.until(lambda: page.text("cell-name") == "x")
            for sort, pick in (("least", min), ("greatest", max)):
                page.press(sort)
                wanted = f"The {sort} x is {pick(a for a, _ in points)}:"
                page.until(lambda: page.text("best").startswith(wanted))
                plan = dict(
                    re.findall(
                        r"(x|y)\s(\d+)", "\n".join(each.text for each in page.all("#best tr"))
                    )
                )
                assert (int(plan["x"]), int(plan["y"])) in points
            # what is done in Python meanwhile is seen too
            with page.page.held():
                w.kick("area")
            page.until(lambda: page.believed == set())
            page.press("greatest")
            page.until(lambda: page.text("best").startswith("The greatest x is 17:"))
            page.keep("least")


def test_an_empty_page_says_what_to_do(program: str, browser: Any) -> None:
    with Session(program) as session, shown(browser, Page(SessionWatched(session), "new")) as page:
        assert "send a line: “cell x span” makes a number x" in page.one("#empty").text
        page.one("#plain summary").click()
        page.one("#line").send_keys("cell x span\n")
        page.until(lambda: not page.one("#empty").is_displayed())
    with Workbench(program) as w, shown(browser, Page(WorkbenchWatched(w), "bench")) as page:
        assert 'make a cell in Python, as w.number("x", 0, 9)' in page.one("#empty").text


def test_lines_are_typed(program: str, browser: Any) -> None:
    with Session(program) as session, shown(browser, Page(SessionWatched(session), "new")) as page:
        page.one("#plain summary").click()
        typed = ["cell x span", "cell y span", "attach adder x x y", "tell ana x 3..5"]
        for line in typed:
            page.one("#line").send_keys(line + "\n")
            page.until(
                lambda: page.text("reply") == "ok"
                and not page.js("return document.getElementById('line').value")
            )
        assert page.values == {"x": "3..5", "y": "6..10"} == page.drawn
        # each text stands in the box of its cell
        for cell in ("x", "y"):
            page.click(cell)
            page.until(lambda: page.text("cell-name") == cell)
        page.one("#line").send_keys("why z\n")
        page.until(lambda: "error 9: no such cell" in page.text("reply"))
        assert page.one("#reply").get_attribute("class") == "wrong"
        assert stating(session.lines) == typed


def test_the_keyboard(example: Shown) -> None:
    from selenium.webdriver.common.keys import Keys

    drawing = example.one("#drawing")
    drawing.send_keys(Keys.ARROW_DOWN)
    first = example.text("status").split(" = ")[0]
    drawing.send_keys(Keys.ARROW_DOWN)
    second = example.text("status").split(" = ")[0]
    assert first != second and {first, second} <= set(example.table)
    drawing.send_keys(Keys.ENTER)
    example.until(lambda: example.text("cell-name") == second)
    place = "return document.getElementById('sheet').getAttribute('transform')"
    before = example.js(place)
    drawing.send_keys("+")
    assert example.js(place) != before
    drawing.send_keys("0")
    unnamed = example.js(
        "return [...document.querySelectorAll('button, input, a, summary')].filter(it =>"
        " it.offsetParent && !(it.textContent.trim() || it.ariaLabel"
        " || (it.labels && it.labels.length)))"
        ".map(it => it.outerHTML)"
    )
    assert unnamed == []
    # every control is reached by Tab
    seen = set()
    example.js("document.activeElement.blur()")
    for _ in range(60):
        example.browser.switch_to.active_element.send_keys(Keys.TAB)
        seen.add(example.js("return document.activeElement.id || document.activeElement.tagName"))
    assert {"drawing", "filter", "forward", "fit", "premise shadows"} <= seen


FOREIGN = """<!doctype html><iframe src="%(address)s"></iframe><script>
window.came = [];
const body = JSON.stringify({what: "believe", premise: "fall", believed: false});
const json = {"Content-Type": "application/json"};
const tries = [
  fetch("%(address)sstate").then(it => it.text()),
  fetch("%(address)sdo", {method: "POST", mode: "no-cors", body}),
  fetch("%(address)sdo", {method: "POST", headers: json, body}),
  new Promise((done, fail) => {
    const script = document.createElement("script");
    script.src = "%(address)spage.js";
    script.onload = done;
    script.onerror = fail;
    document.head.append(script);
  }),
];
Promise.allSettled(tries).then(all => { window.came = all.map(it => it.status); });
</script>"""


def test_a_foreign_page(example: Shown) -> None:
    """Another website can't ask, read, frame or load the page, even one that knows the address."""
    html = (FOREIGN % {"address": example.page.address}).encode()

    class Foreign(BaseHTTPRequestHandler):
        def do_GET(self) -> None:
            self.send_response(200)
            self.send_header("Content-Type", "text/html")
            self.end_headers()
            self.wfile.write(html)

        def log_message(self, format: str, *args: object) -> None:
            pass

    server = ThreadingHTTPServer(("127.0.0.1", 0), Foreign)
    threading.Thread(target=server.serve_forever, daemon=True).start()
    try:
        example.browser.get(f"http://localhost:{server.server_port}/")
        came = example.until(lambda: example.js("return window.came"))
        # (without CORS a browser doesn't tell whether a question was answered)
        assert [came[place] for place in (0, 2, 3)] == ["rejected"] * 3
        blocked = "return document.querySelector('iframe').contentDocument"
        assert example.js(blocked) is None
    finally:
        server.shutdown()
        server.server_close()
    example.browser.get_log("browser"), example.browser.get_log("performance")
    example.browser.get(example.page.address)
    example.until(lambda: example.table)
    assert example.believed == {"shadows", "fall"} and example.values["height"] == "44514..47243"


def test_the_browser_keeps_to_the_policy(example: Shown) -> None:
    """A script that came into the page all the same is not run, and could ask nobody."""
    example.js(
        "const script = document.createElement('script');"
        "script.textContent = 'window.hacked = true'; document.body.append(script);"
        "const image = document.createElement('img');"
        "image.src = 'http://localhost:9/x'; document.body.append(image);"
    )
    asked = "return fetch('http://localhost:9/').then(() => 'sent', error => String(error))"
    assert "Failed to fetch" in example.js(asked)
    assert example.js("return window.hacked") is None
    said = [each["message"] for each in example.browser.get_log("browser")]
    for part in ("script-src", "img-src", "connect-src"):
        assert any(part in each for each in said), (part, said)
    # (what was refused stands in the log all the same)
    example.browser.get_log("performance")


def test_what_takes_long_is_stopped(program: str, browser: Any) -> None:
    with Session(program) as session:
        session.send_all(ENDLESS)
        with Page(SessionWatched(session), "endless") as page:
            browser.get(page.address)

            def at(name: str) -> Any:
                return browser.find_element("id", name)

            begun = time.monotonic()
            while not at("stop").is_displayed():
                assert time.monotonic() < begun + 60
                time.sleep(0.05)
            at("stop").click()
            while not at("unsettled").is_displayed():
                assert time.monotonic() < begun + 120
                time.sleep(0.05)
            row = browser.find_element("css selector", "#cells tr").text
            low = re.search(r"(\d+)\.\.1000000000000000000 \(not settled\)", row)
            assert low and int(low[1]) > 1000
            browser.find_element("id", "premise start").click()
            while at("unsettled").is_displayed():
                assert time.monotonic() < begun + 180
                time.sleep(0.05)
            assert session.send("ask x") is not None
            browser.get("about:blank")


def big(cells: int) -> list[str]:
    """A network of so many cells, and twice as many procedures."""
    lines = [f"cell x{at} span" for at in range(cells)]
    for at in range(cells // 10, cells):
        one, other = at - cells // 10, at - cells // 20
        lines += [f"attach adder x{one} x{other} x{at}", f"attach subtracter x{at} x{one} x{other}"]
    lines += [
        f"attach subtracter x{at + cells // 10} x{at + cells // 20} x{at}"
        for at in range(cells // 5)
    ]
    return [*lines, *(f"tell p{at} x{at} {at}..{at + 3}" for at in range(cells // 10))]


def test_a_thousand_cells(program: str, browser: Any) -> None:
    lines = big(1000)
    assert sum(line.startswith("attach") for line in lines) == 2000
    with Session(program) as session:
        session.send_all(lines)
        with shown(browser, Page(SessionWatched(session), "thousand")) as page:
            opened_in = page.spent()
            assert len(page.table) == 200 and "and 800 more" in page.text("more")
            assert page.marked("cells") == 1000 and page.marked("uses") == 2000
            time.sleep(1)
            used = page.spent()
            page.browser.execute_async_script(SWITCH, 0)
            time.sleep(1)
            switched_in = page.spent() - used
            assert page.values["x0"] == "nothing"
            page.one("#filter").send_keys("x999")
            page.until(lambda: list(page.table) == ["x999"])
            page.all("#cells button")[0].click()
            page.until(lambda: page.text("cell-name") == "x999")
            page.keep("thousand")
            assert opened_in < 2 and switched_in < 0.1


def test_save_where_another_has_changed_it(program: str, tmp_path: Path, browser: Any) -> None:
    path = tmp_path / "premises.prop"
    shutil.copy(EXAMPLES / "measuring/premises.prop", path)
    mine, others = path.read_text() + "kick fall\n", "# of somebody else\n"
    with opened(str(path), RunAs(), program) as watched:
        with shown(browser, Page(watched, path.name, path=str(path))) as page:
            page.switch("fall")
            page.one("#plain summary").click()
            path.write_text(others)
            page.press("save")
            page.until(lambda: page.one("#difference").is_displayed())
            difference = page.text("difference").split("\n")
            assert "- # of somebody else" in difference and "+ kick fall" in difference
            assert "was changed by somebody else" in page.text("save-says")
            assert path.read_text() == others
            page.keep("changed")
            page.one("#save-as").send_keys("mine.prop")
            page.one("#save-form button:not([id])").click()
            page.until(lambda: page.text("status") == f"Saved to {tmp_path / 'mine.prop'}.")
            assert (tmp_path / "mine.prop").read_text() == mine and path.read_text() == others
            assert not page.one("#save-form").is_displayed()
    with opened(str(path), RunAs(), program) as watched:
        with shown(browser, Page(watched, path.name, path=str(path))) as page:
            page.one("#plain summary").click()
            path.write_text(mine)
            page.press("save")
            page.until(lambda: page.one("#overwrite").is_displayed())
            page.press("overwrite")
            page.until(lambda: page.text("status") == f"Saved to {path}.")
            assert path.read_text() == others


def test_names_that_every_object_has(program: str, bare: Bare, browser: Any) -> None:
    """`constructor`, `toString` and `__proto__` are names like others."""
    names = ["constructor", "toString", "__proto__", "hasOwnProperty", "valueOf"]
    lines = [f"cell {name} span" for name in names]
    lines += [f"choose {name} {name} {at} or {at + 10}" for at, name in enumerate(names[:4])]
    lines += [f"tell {name}_told {name} 0..20" for name in names]
    lines += ["tell valueOf valueOf 3", "tell isPrototypeOf valueOf 4"]
    with Session(program) as session:
        session.send_all([*lines, "kick isPrototypeOf"])
        with shown(browser, Page(SessionWatched(session), "names")) as page:
            wanted = answers(bare, [*lines, "kick isPrototypeOf"])
            assert page.values == {name: value for name, (value, _) in wanted.items()}
            assert {each.text for each in page.all(".stands")} == {
                f"{name} = {at}" for at, name in enumerate(names[:4])
            }
            # nothing is wished for as yet, and then the second side of `__proto__`
            checked = "fieldset .side:nth-child(2) input:checked"
            assert len(page.all(checked)) == 4
            page.all("fieldset:nth-of-type(3) input")[2].click()
            page.until(lambda: page.values["__proto__"] == "12")
            assert "__proto__: __proto__ = 12" in page.text("status")
            assert len(page.all(checked)) == 3
            page.click("toString")
            page.until(lambda: page.text("cell-name") == "toString")
            page.press("unlit")
            page.switch("isPrototypeOf")
            page.until(lambda: "isPrototypeOf: valueOf = 4" in page.text("clash-says"))
            assert "valueOf: valueOf = 3" in page.text("clash-says")


def test_what_hides_is_shown_and_what_turns_is_apart(program: str, browser: Any) -> None:
    """Control characters and marks that turn the direction are escaped; a name in letters that run
    from right to left is a <bdi>, and turns nothing beside it."""
    hides, turns = "a\x1b[31m\u202eb\u200bc\u3164", "\u05d0\u05d1 (\u05d2)"
    with Workbench(program) as w:
        x, y = w.number(hides, 0, 9), w.number(turns, 0, 9)
        w.tell(hides, x, 3)
        w.tell(turns, y, 4)
        w.tell("other", y, 5)
        w.kick("other")
        w.choose(turns + " or", {turns: x <= 4, hides: x <= 5})
        with shown(browser, Page(WorkbenchWatched(w), hides)) as page:
            escaped = r"a\x1b[31m\u202eb\u200bc\u3164"
            assert page.values == {escaped: "3", turns: "4"} and page.text("title") == escaped
            page.switch("other")
            page.until(lambda: page.text("clash-says"))
            page.until(lambda: "give up" in page.text("mending"))
            page.switch("other")
            page.until(lambda: page.values == {escaped: "3", turns: "4"})
            page.all("#cells button")[1].click()
            page.until(lambda: page.text("cell-name") == turns)
            text = page.js(
                "return document.documentElement.textContent"
                " + [...document.querySelectorAll('#drawing text')].map(it => it.textContent)"
            )
            assert not any(each in text for each in "\x1b\u202e\u200b\u3164")
            # wherever letters that turn stand in a text, that is in a <bdi> or a text of the
            # drawing
            apart = page.js(
                """
                const found = [];
                const texts = document.createTreeWalker(document.body, NodeFilter.SHOW_TEXT);
                while (texts.nextNode()) {
                  const node = texts.currentNode.parentElement;
                  if (/[\\u0590-\\u05ff]/.test(texts.currentNode.data)
                      && !node.closest("bdi, svg, pre")) found.push(node.outerHTML);
                }
                return found;
            """
            )
            assert apart == [] and turns in text
