"""A plan on the page: somebody who never programmed makes one, breaks it, sees why, and mends it,
by the mouse alone and by the keyboard alone, on a wide screen and on a phone.

Five tasks of two people. Person 2 has 4 and 5 days of work, and then both work one day: so all
takes 10 days of work, from Monday the 9th to Friday the 20th of March. Task 1, task 2 and task 5
come one after another and take 3, 5 and 1: so with help for person 2 it would be 9 days, to the
19th.
"""

import threading
import time
from contextlib import suppress
from dataclasses import replace
from datetime import date
from pathlib import Path
from typing import Any

import pytest
from browsing import Shown, shown
from selenium.common.exceptions import StaleElementReferenceException
from selenium.webdriver.common.action_chains import ActionChains
from selenium.webdriver.common.keys import Keys

from propbench import Workbench
from propbench.desk import main
from propbench.files import OpenedFile
from propbench.page import Page
from propbench.planning.brief import Given
from propbench.planning.draft import draft_of, new_draft
from propbench.planning.open_plan import OpenPlan
from propbench.planning.sheets import sheets_of
from propbench.questions.bounding import Optimum
from propbench.questions.clock import Progress
from propbench.questions.goals import Optima
from propbench.watching.of_workbench import WorkbenchWatched

WIDE, PHONE = (1280, 800), (390, 844)
DONE, EARLIER = "All is done on Fri 20 Mar 2026", "All would be done on Thu 19 Mar 2026."
# The tasks: days, who, after which.
TASKS: list[tuple[int, list[str], list[str]]] = [
    (3, ["person 1"], []),
    (5, ["person 2"], ["task 1"]),
    (2, ["person 1"], ["task 1"]),
    (4, ["person 2"], []),
    (1, ["person 1", "person 2"], ["task 2", "task 3"]),
]
WISH = "all by 19 Mar 2026"
HELP = "person 2 does one thing at a time"


@pytest.fixture(autouse=True)
def over_propwide(wide: str, monkeypatch: pytest.MonkeyPatch) -> None:
    monkeypatch.setenv("PROPBENCH", wide)


def sized(browser: Any, size: tuple[int, int]) -> None:
    told = {"width": size[0], "height": size[1], "deviceScaleFactor": 1, "mobile": size == PHONE}
    browser.execute_cdp_cmd("Emulation.setDeviceMetricsOverride", told)


def new_plan() -> OpenPlan:
    return OpenPlan(new_draft(date(2026, 3, 3)), Workbench)


def planned() -> OpenPlan:
    """The plan of this walk."""
    plan = new_plan()
    for name in ("person 1", "person 2"):
        plan.put("people", None, {"person": name})
    for number, (days, who, after) in enumerate(TASKS, 1):
        row = {"task": f"task {number}", "days": str(days), "who": ", ".join(who)}
        plan.put("tasks", None, row | ({"after": ", ".join(after)} if after else {}))
    return plan


class Hand:
    """Who presses what is shown: by the mouse, or by keys alone."""

    def __init__(self, page: Shown, by_keys: bool) -> None:
        self.page, self.by_keys = page, by_keys

    def press(self, wanted: str) -> None:
        """Presses what has this id, or the only one that is shown with this text."""
        if not self.by_keys:
            self.page.until(lambda: self._click(wanted))
            return
        self._go_to(wanted)
        self._type(Keys.SPACE)

    def _click(self, wanted: str) -> bool:
        """Whether it was clicked: what is shown may be made anew meanwhile."""
        try:
            self.page.browser.execute_script("arguments[0].scrollIntoView()", self._found(wanted))
            self._found(wanted).click()
        except StaleElementReferenceException:
            return False
        return True

    def _found(self, wanted: str) -> Any:
        return self.page.until(
            lambda: self.page.js(
                "const shown = it => it.offsetParent !== null;"
                "const named = document.getElementById(arguments[0]);"
                "if (named && shown(named)) return named;"
                "return [...document.querySelectorAll('button, summary, label')]"
                ".find(it => shown(it) && it.textContent.startsWith(arguments[0]))",
                wanted,
            )
        )

    def _type(self, key: str) -> None:
        ActionChains(self.page.browser).send_keys(key).perform()

    def _go_to(self, wanted: str) -> None:
        """Goes on by Tab until that has the focus."""
        is_there = "return document.activeElement === arguments[0]"
        for _ in range(250):
            with suppress(StaleElementReferenceException):
                if self.page.js(is_there, self._found(wanted)):
                    return
            self._type(Keys.TAB)
        raise AssertionError(f"{wanted} isn't reached by Tab")

    def change(self, wanted: str) -> None:
        """Presses that, and waits for the plan that comes of it: what was told of the one before is
        gone then."""
        self.page.js("document.getElementById('supposed').textContent = 'before'")
        self.press(wanted)
        self.page.until(lambda: self.page.text("supposed") == "")


def walk(page: Shown, hand: Hand, plan: OpenPlan, name: str) -> None:
    """Makes the plan, breaks it, sees why, and takes what helps."""
    assert plan.draft is not None
    page.until(lambda: "There is no task yet" in page.text("plan-head"))
    for number in (1, 2):
        hand.press("add-people")
        hand.press("row-done")
        page.until(lambda: plan.draft and len(plan.draft.rows("people")) == number)
    for number, (days, who, after) in enumerate(TASKS, 1):
        hand.press("add-tasks")
        for _ in range(days - 1):
            hand.press("field-days-more")
        for chip in (*who, *after):
            hand.press(f"chip {chip}")
        if number == 3:
            page.keep(f"{name}-task")
        hand.press("row-done")
        page.until(lambda: plan.draft and len(plan.draft.rows("tasks")) == number)
    page.until(lambda: page.text("plan-head") == DONE)
    assert "No plan ends sooner." in page.text("plan-says")
    page.keep(f"{name}-plan")
    hand.press("Wishes")
    hand.press("add-wishes")
    for _ in range(10):
        hand.press("field-latest-more")
    hand.press("row-done")
    page.until(lambda: page.all(".repair"))
    assert page.text("plan-head") == "There is no plan."
    told = page.text("hinders-says")
    assert f"{WISH}: all done by Thu 19 Mar 2026" in told and HELP in told
    assert "task 4 takes 4" in told and "task 2 takes 5" in told
    offered = [each.text.split("\n")[0] for each in page.all(".repair span")]
    assert offered == [f"give up {WISH}", "get somebody to help person 2"]
    page.keep(f"{name}-broken")
    hand.press("try 2")
    page.until(lambda: EARLIER in page.text("hinders-says"))
    hand.press("take 1")
    page.until(lambda: page.text("plan-head") == DONE)
    assert plan.workbench.believed.count(WISH) == 0
    page.keep(f"{name}-mended")
    hand.press("undo")
    page.until(lambda: page.text("plan-head") == "There is no plan.")
    hand.press("redo")
    page.until(lambda: page.text("plan-head") == DONE)
    hand.press("why")
    page.until(lambda: page.text("why-says"))
    # (task 1 may begin a day later, as task 2 waits for task 4; task 3 up to the last day)
    assert "task 1 can move by 1 day" in page.text("why-says")
    assert "task 3 can move by 4 days" in page.text("why-says")
    page.keep(f"{name}-why")


@pytest.mark.parametrize("size", [WIDE, PHONE])
@pytest.mark.parametrize("by_keys", [False, True])
def test_a_plan_is_made_broken_and_mended(
    browser: Any, by_keys: bool, size: tuple[int, int]
) -> None:
    sized(browser, size)
    plan = new_plan()
    name = f"plan-{'keys' if by_keys else 'mouse'}-{size[0]}"
    with shown(browser, Page(plan, "A new plan", path="-")) as page:
        walk(page, Hand(page, by_keys), plan, name)
        # nothing is wider than the screen
        assert page.js("return document.documentElement.scrollWidth") <= size[0]


def test_on_a_phone_the_plan_stands_on_the_first_screen(browser: Any) -> None:
    sized(browser, PHONE)
    with shown(browser, Page(planned(), "plan", path="-")) as page:
        page.until(lambda: page.text("plan-head") == DONE)
        page.js("window.scrollTo(0, 0)")
        ends = "return document.getElementById('chart').getBoundingClientRect()"
        place = page.js(f"const it = ({ends.removeprefix('return ')}); return [it.top, it.bottom]")
        assert 0 < place[0] < place[1] < PHONE[1]
        assert len(page.all("#chart .row")) == len(TASKS)


def test_the_chart_has_the_days_of_the_plan(browser: Any) -> None:
    sized(browser, WIDE)
    with shown(browser, Page(planned(), "plan", path="-")) as page:
        page.until(lambda: page.text("plan-head") == DONE)
        rows = {
            row.get_attribute("data-task"): row.get_attribute("aria-label").split(", ")
            for row in page.all("#chart .row")
        }
        assert {name: parts[1] for name, parts in rows.items() if name != "task 3"} == {
            "task 1": "9-11 Mar",
            "task 4": "9-12 Mar",
            "task 2": "13-19 Mar",
            "task 5": "20 Mar",
        } or rows["task 1"][1] == "10-12 Mar"
        made = {name for name, parts in rows.items() if "makes the end" in parts}
        assert made == {"task 4", "task 2", "task 5"}
        chain = [each.text for each in page.all("#chain button")]
        assert chain == ["task 4", "task 2", "task 5"]
        # a row opens the form of its task
        page.all("#chart .row")[0].click()
        page.until(lambda: page.all("#row-form"))
        assert page.js("return document.getElementById('field-task').value") in rows


@pytest.mark.parametrize("size", [WIDE, PHONE])
def test_a_long_chain_is_folded(wide: str, browser: Any, size: tuple[int, int]) -> None:
    """Ana has 14 tasks of two days in any order: one row, whose tasks show on a click; what her
    budget has to do with it is told on another."""
    sized(browser, size)
    with Workbench(wide) as w:
        p = w.project(days=60, people="ana ben")
        for number in range(13):
            p.task(f"t{number}", 2, who="ana", pauses=False)
        p.task("report", who="ana", options={"long": dict(days=2), "short": dict(days=1, cost=9)})
        w.require(p.total_cost <= 5, under="the budget")
        with shown(browser, Page(WorkbenchWatched(w), "bench")) as page:
            page.until(lambda: page.all("#chain li"))
            assert page.text("plan-head") == "All is done by day 28"
            [row] = page.all("#chain li")
            head = row.find_element("tag name", "summary")
            assert head.text.endswith("(14 tasks in a row) 0 to 28 (ana)")
            buttons = row.find_elements("tag name", "button")
            assert len(buttons) == 14 and not buttons[0].is_displayed()
            head.click()
            assert {each.text for each in buttons} == {*(f"t{n}" for n in range(13)), "report"}
            left = page.one("#chain-left summary")
            assert left.text == "and 1 other: 1 constraint" and not page.one("#chain-left dd").text
            left.click()
            assert page.one("#chain-left dt").text == "constraints"
            assert page.one("#chain-left dd").text == "the budget"
            page.keep(f"plan-folded-{size[0]}")
            assert page.js("return document.documentElement.scrollWidth") <= size[0]
            buttons[0].click()
            page.until(lambda: page.text("status").startswith(buttons[0].text))


def test_what_if_words_and_filters(browser: Any) -> None:
    sized(browser, WIDE)
    plan = planned()
    with shown(browser, Page(plan, "plan", path="-")) as page:
        page.until(lambda: page.text("plan-head") == DONE)
        page.one("#suppose").send_keys("person 2 ill 9-10 March\n")
        page.until(lambda: "All would be done on Tue 24 Mar 2026." in page.text("supposed"))
        page.one("#sheet-wishes > summary").click()
        page.one("#words").send_keys("task 1 after task 4\n")
        # 4 days of task 4, then 3, 5 and 1
        page.until(lambda: page.text("plan-head") == "All is done on Wed 25 Mar 2026")
        page.one("#premise-filter").send_keys("after")
        shown_ones = page.js(
            "return [...document.querySelectorAll('#premises li.premise')]"
            ".filter(it => !it.hidden).map(it => it.dataset.premise)"
        )
        assert set(shown_ones) == {
            "task 1 after task 4",
            "task 2 after task 1",
            "task 3 after task 1",
            "task 5 after task 2",
            "task 5 after task 3",
        }
        heads = [each.text for each in page.all("#premises li.premise-group") if each.text]
        assert heads == ["Wishes", "Tasks"]
        page.keep("plan-filter")
        page.js("document.activeElement.blur()")
        ActionChains(browser).key_down(Keys.CONTROL).send_keys("z").key_up(Keys.CONTROL).perform()
        page.until(lambda: page.text("plan-head") == DONE)
        assert plan.draft is not None and plan.draft.rows("wishes") == ()


@pytest.mark.parametrize("size", [WIDE, PHONE])
@pytest.mark.parametrize("by_keys", [False, True])
def test_setup_times(browser: Any, by_keys: bool, size: tuple[int, int]) -> None:
    """With two days between task 4 and task 2 person 2 has 4 + 2 + 5 days, and then both have one:
    12 in all, to the 24th. The other way round it would be 3 + 5 + 4 and 1."""
    sized(browser, size)
    plan = planned()
    with shown(browser, Page(plan, "plan", path="-")) as page:
        hand = Hand(page, by_keys)
        page.until(lambda: page.text("plan-head") == DONE)
        for number, task in enumerate(("task 4", "task 2"), 1):
            hand.press(task)
            hand.press("More")
            hand.press(f"chip kind {number}")
            hand.change("row-done")
        hand.press("Setup times")
        hand.press("add-setups")
        hand.press("chip person 2")
        hand.press("from kind 1")
        hand.press("row-done")
        page.until(lambda: page.all("#row-form .wrong"))
        said = page.one("#row-form .wrong").text
        assert said == "person: say under `to` of which kind the task behind it is"
        page.browser.get_log("browser")
        hand.press("to kind 2")
        hand.press("field-days-more")
        hand.press("row-done")
        page.until(lambda: page.text("plan-head") == "All is done on Tue 24 Mar 2026")
        page.until(lambda: "set up behind task 4" in page.text("chain"))
        assert plan.draft is not None and plan.draft.rows("setups") == (
            {"person": "person 2", "from": "kind 1", "to": "kind 2", "days": "2"},
        )
        assert page.js("return document.documentElement.scrollWidth") <= size[0]
        page.keep(f"plan-setups-{'keys' if by_keys else 'mouse'}-{size[0]}")


def priced() -> OpenPlan:
    """A venue for money in 2 days, or for less in 5, and a review of 5 days behind it."""
    plan = planned()
    assert plan.draft is not None
    rows = [
        {"task": "venue", "days": "2", "who": "person 1", "cost": "4000", "way": "hotel"},
        {"task": "venue", "days": "5", "cost": "1500", "way": "university"},
        {"task": "review", "days": "5", "who": "person 2", "after": "venue"},
    ]
    return OpenPlan(plan.draft.with_rows("tasks", rows), Workbench)


def told_by(page: Shown) -> list[list[str]]:
    """What the table of a trade-off says, but for its buttons."""
    rows = page.all(".traded tbody tr")
    return [[it.text for it in row.find_elements("css selector", "th, td")][:-1] for row in rows]


@pytest.mark.parametrize("size", [WIDE, PHONE])
@pytest.mark.parametrize("by_keys", [False, True])
def test_what_an_earlier_end_costs(browser: Any, by_keys: bool, size: tuple[int, int]) -> None:
    """By the hotel the review is the days 2 to 6, to the 17th, and by the university 5 to 9, to the
    20th. To keep within 1500 counts 5, and to be done by the 18th 2: one of them is given up."""
    sized(browser, size)
    plan = priced()
    soon, late = "Tue 17 Mar 2026", "Fri 20 Mar 2026"
    with shown(browser, Page(plan, "plan", path="-")) as page:
        hand = Hand(page, by_keys)
        page.until(lambda: page.text("plan-head") == f"All is done on {soon}")
        hand.press("trade-wishes")
        page.until(lambda: "nothing is wished for" in page.text("trade-told"))
        page.browser.get_log("browser")
        hand.press("trade-cost")
        page.until(lambda: page.all("#trade-picture"))
        assert told_by(page) == [[soon, "4000", "hotel"], [late, "1500", "university"]]
        said = "None of these 2 plans is better in both. There is no other choice."
        assert page.text("trade-says") == said
        places = [
            (float(it.get_attribute("cx")), float(it.get_attribute("cy")))
            for it in page.all("#trade-picture circle")
        ]
        # (later to the right, and cheaper below)
        assert len(places) == 2 and places[0][0] < places[1][0] and places[0][1] < places[1][1]
        page.keep(f"plan-trade-{'keys' if by_keys else 'mouse'}-{size[0]}")
        hand.press("take plan 2")
        page.until(lambda: page.text("plan-head") == f"All is done on {late}")
        hand.press("undo")
        page.until(lambda: page.text("plan-head") == f"All is done on {soon}")
        assert page.js("return document.documentElement.scrollWidth") <= size[0]


def test_an_earlier_end_costs_wishes(browser: Any) -> None:
    sized(browser, WIDE)
    plan = priced()
    plan.put("wishes", None, {"wish": "cheap", "cost": "1500", "weight": "5"})
    plan.put("wishes", None, {"wish": "soon", "latest": "2026-03-18", "weight": "2"})
    with shown(browser, Page(plan, "plan", path="-")) as page:
        page.until(lambda: page.text("plan-head") == "There is no plan.")
        page.press("trade-wishes")
        page.until(lambda: page.all("#trade-picture"))
        assert told_by(page) == [
            ["Tue 17 Mar 2026", "5: without cheap", "hotel"],
            ["Fri 20 Mar 2026", "2: without soon", "university"],
        ]
        page.keep("plan-trade-wishes")
        page.one("#trade tbody tr:nth-child(2) button").click()
        page.until(lambda: page.text("plan-head") == "All is done on Fri 20 Mar 2026")
        assert "soon" not in plan.workbench.believed and "cheap" in plan.workbench.believed


def test_the_gap_is_shown_while_it_runs(browser: Any, monkeypatch: pytest.MonkeyPatch) -> None:
    """At first it is known that nothing ends before day 7; then that nothing does before day 10."""
    sized(browser, WIDE)
    plan, asked = planned(), list[float | None]()
    best, go_on = plan.best, threading.Event()

    def slow(seconds: float | None, progress: Progress | None = None) -> Optimum | Optima | None:
        asked.append(seconds)
        found = best(None, progress)
        if len(asked) == 1:
            assert isinstance(found, Optimum)
            return replace(found, proved=False, bound=7)
        go_on.wait(60)
        return found

    monkeypatch.setattr(plan, "best", slow)
    with shown(browser, Page(plan, "plan", path="-")) as page:
        page.until(lambda: page.text("plan-head") == DONE)
        says = "10 days of work. There may be one that ends sooner, by 3 days at most."
        assert page.text("plan-says") == says and len(page.all("#chart .row")) == len(TASKS)
        # (the chain is known once nothing sooner can be)
        assert page.all("#chain li") == [] and not page.all("#chart .chain")
        page.until(lambda: len(asked) == 2)
        page.keep("plan-gap")
        go_on.set()
        page.until(lambda: page.text("plan-says") == "10 days of work. No plan ends sooner.")
        assert len(page.all("#chain li")) == 3 and (asked[0] or 0) < (asked[1] or 0)


def test_who_changes_the_plan_need_not_wait(browser: Any, monkeypatch: pytest.MonkeyPatch) -> None:
    sized(browser, WIDE)
    plan, begun, ends = planned(), threading.Event(), list[str]()
    best = plan.best

    def endless(seconds: float | None, progress: Progress | None = None) -> object:
        if plan.undoes != "add task 5":
            return best(seconds, progress)
        begun.set()
        try:
            while True:
                time.sleep(0.01)
                assert progress is not None
                progress("searching")
        except BaseException as stopped:
            ends.append(type(stopped).__name__)
            raise

    monkeypatch.setattr(plan, "best", endless)
    with shown(browser, Page(plan, "plan", path="-")) as page:
        page.until(begun.is_set)
        page.one("#sheet-wishes > summary").click()
        page.one("#words").send_keys("task 1 after task 4\n")
        page.until(lambda: page.text("plan-head") == "All is done on Wed 25 Mar 2026")
        assert ends == ["Stopped"]


def test_what_is_wrong_is_told_in_the_form(browser: Any) -> None:
    sized(browser, WIDE)
    plan = planned()
    with shown(browser, Page(plan, "plan", path="-")) as page:
        page.until(lambda: page.text("plan-head") == DONE)
        page.press("add-tasks")
        page.one("#field-days").clear()
        page.one("#field-days").send_keys("many")
        page.press("row-done")
        page.until(lambda: page.all("#row-form .wrong"))
        said = page.one("#row-form .wrong").text
        assert said == "days: `many` is not a whole number, as 5"
        assert plan.draft is not None and len(plan.draft.rows("tasks")) == len(TASKS)
        page.keep("plan-wrong")
        page.press("row-cancel")
        # (what is refused stands in the browser's log)
        browser.get_log("browser")


def near(plan: OpenPlan, task: str) -> set[str]:
    """The cells of a task, and all that stand in a constraint with one of them."""
    own = {f"{task} {what}" for what in ("start", "end", "days")}
    uses = WorkbenchWatched(plan.workbench).network().uses
    return own | {cell for use in uses if own & {*use.cells} for cell in use.cells}


def test_the_network_is_drawn_around_a_task(browser: Any) -> None:
    sized(browser, WIDE)
    plan = planned()
    with shown(browser, Page(plan, "plan", path="-")) as page:
        page.until(lambda: page.text("plan-head") == DONE)
        page.press("tab-network")
        page.until(lambda: page.values.get("task 1 days") == "3")
        page.until(lambda: "task 1 start" in page.drawn)
        assert page.marked("cells") == len(near(plan, "task 1")) < len(page.table)
        page.js(
            "const it = document.getElementById('around'); it.value = 'task 4';"
            "it.dispatchEvent(new Event('change'))"
        )
        page.until(lambda: "task 4 start" in page.drawn)
        assert page.marked("cells") == len(near(plan, "task 4"))
        page.keep("plan-network")
        page.press("whole")
        page.until(lambda: page.marked("cells") == len(page.table))


def test_a_plan_is_saved_as_tables(
    browser: Any,
    tmp_path: Path,
    monkeypatch: pytest.MonkeyPatch,
    capsys: pytest.CaptureFixture[str],
) -> None:
    monkeypatch.chdir(tmp_path)
    sized(browser, WIDE)
    plan = planned()
    with shown(browser, Page(plan, "A new plan", path="-")) as page:
        page.until(lambda: page.text("plan-head") == DONE)
        page.press("agree")
        page.until(lambda: plan.draft and plan.draft.rows("baseline"))
        page.press("save-plan")
        page.until(lambda: page.one("#save-as").is_displayed())
        assert page.text("save-says") == "What shall the file be called?"
        page.one("#save-as").send_keys("ours.ods\n")
        page.until(lambda: page.text("status") == "Saved to ours.ods.")
        assert plan.draft is not None
        again = draft_of(sheets_of("ours.ods"))
        assert again == plan.draft
    assert main(["plan", "ours.ods"]) == 0
    told = capsys.readouterr().out
    assert "to Fri 20 Mar 2026, 10 days of work" in told
    assert "Since what was agreed on: Nothing moved." in told
    # another page of it goes on, and tells what has moved since
    file = OpenedFile("ours.ods")
    more = OpenPlan(draft_of(sheets_of("ours.ods")), Workbench, Given())
    with shown(browser, Page(more, "ours.ods", path=file)) as page:
        page.until(lambda: page.text("plan-head") == DONE)
        assert "Since what was agreed: Nothing moved." in page.text("plan-says")
        more_row = {"task": "task 5", "days": "2", "who": "person 1, person 2"}
        told_row = (
            "return fetch('do', {method: 'POST', headers: {'Content-Type': 'application/json'}"
        )
        page.js(
            f"{told_row}, body: JSON.stringify(arguments[0])}})",
            {"what": "put", "table": "tasks", "place": 4, "row": more_row | {"after": "task 2"}},
        )
        page.until(lambda: page.text("plan-head") == "All is done on Mon 23 Mar 2026")
        assert "1 day of work later" in page.text("plan-says")
        page.keep("plan-moved")


def test_a_project_in_python_is_shown_and_not_changed(wide: str, browser: Any) -> None:
    sized(browser, WIDE)
    with Workbench(wide) as w:
        p = w.project(days=30, people="ana ben")
        venue = p.task("venue", 3, who="ana")
        p.task("review", 5, who="ben", after=[venue])
        p.done_by(7, "in time")
        p.resource("hall", 2)
        cells = list(w.network.cells)
        with shown(browser, Page(WorkbenchWatched(w), "bench")) as page:
            page.until(lambda: page.all(".repair"))
            assert not page.one("#plan-forms").is_displayed()
            assert not page.one("#save-plan").is_displayed()
            page.press("trade-wishes")
            page.until(lambda: page.all(".traded"))
            assert told_by(page) == [["day 8", "1: without in time"]]
            assert page.text("trade-says") == "One plan is best in both."
            [take] = page.all(".repair .take")
            take.click()
            page.until(lambda: page.text("plan-head") == "All is done by day 8")
            with page.page.held():
                assert "in time" not in w.believed
            page.press("undo")
            page.until(lambda: page.text("plan-head") == "There is no plan.")
            with page.page.held():
                assert "in time" in w.believed
        # what is asked for leaves nothing behind
        assert [it for it in w.network.cells if it not in cells] == []
