"""A browser without a window, and a page in it: what the tests of the page look at and press."""

import json
import os
import shutil
import time
from collections.abc import Callable, Iterator
from contextlib import contextmanager
from pathlib import Path
from typing import Any

import pytest
from conftest import REPOSITORY
from selenium import webdriver
from selenium.webdriver.chrome.options import Options
from selenium.webdriver.chrome.service import Service
from selenium.webdriver.common.action_chains import ActionChains
from selenium.webdriver.common.by import By

from propbench.page import Page

# Where the pictures of the page are kept that the tests take, for whoever changes it to look at.
PICTURES = REPOSITORY / "out" / "page"
SECONDS = 60.0
# Presses the switch of a premise at a place, and gives the milliseconds until the page has told of
# what changed.
SWITCH = """
const [place, done] = arguments;
const status = document.getElementById('status');
const begun = performance.now();
new MutationObserver((_, seen) => { seen.disconnect(); done(performance.now() - begun); })
  .observe(status, {childList: true, characterData: true, subtree: true});
document.querySelectorAll('#premises input')[place].click();
"""
_DRIVER, _BROWSER = "chromedriver", "chromium"


def new_browser() -> Any:
    """A browser. Fails where there is none: a page that nobody looked at is not tested."""
    lacking = [name for name in (_DRIVER, _BROWSER) if not shutil.which(name)]
    if lacking:
        pytest.fail(
            f"the page's tests need {' and '.join(lacking)}:"
            " apt-get install chromium chromium-driver"
        )
    options = Options()
    for word in ("headless=new", "no-sandbox", "disable-dev-shm-usage", "disable-gpu"):
        options.add_argument(f"--{word}")
    options.add_argument("--window-size=1500,950")
    options.set_capability("goog:loggingPrefs", {"browser": "ALL", "performance": "ALL"})
    made = webdriver.Chrome(options=options, service=Service(shutil.which(_DRIVER) or _DRIVER))
    made.set_script_timeout(SECONDS)
    return made


class Shown:
    """A page as it is shown in a browser."""

    def __init__(self, browser: Any, page: Page) -> None:
        self.browser, self.page = browser, page
        browser.get_log("performance"), browser.get_log("browser")
        browser.execute_cdp_cmd("Performance.enable", {"timeDomain": "threadTicks"})
        browser.get(page.address)
        self.until(lambda: self.browser.execute_script("return document.title") != "propbench")

    def until(self, holds: Callable[[], Any]) -> Any:
        """Waits until something is so, and gives it."""
        end = time.monotonic() + SECONDS
        while True:
            found = holds()
            if found or time.monotonic() > end:
                assert found, f"it is not so after {SECONDS} seconds: {self.text('status')}"
                return found
            time.sleep(0.02)

    def js(self, script: str, *given: object) -> Any:
        return self.browser.execute_script(script, *given)

    def one(self, selector: str) -> Any:
        return self.browser.find_element(By.CSS_SELECTOR, selector)

    def all(self, selector: str) -> list[Any]:
        found: list[Any] = self.browser.find_elements(By.CSS_SELECTOR, selector)
        return found

    def text(self, name: str) -> str:
        return str(self.js("return document.getElementById(arguments[0]).textContent", name))

    def press(self, name: str) -> None:
        self.one(f"#{name}").click()

    @property
    def table(self) -> dict[str, tuple[str, str]]:
        """The table of cells: to each name its value and reasons."""
        rows: list[list[str]] = self.js(
            "return [...document.querySelectorAll('#cells tr')]"
            ".map(row => [...row.children].map(cell => cell.textContent))"
        )
        return {name: (value, because) for name, value, because in rows}

    @property
    def values(self) -> dict[str, str]:
        return {name: value for name, (value, _) in self.table.items()}

    @property
    def drawn(self) -> dict[str, str]:
        """What the drawing shows of the cells that are in sight."""
        found: dict[str, str] = self.js(
            "return Object.fromEntries([...document.querySelectorAll('#drawing .value')]"
            ".map(text => [text.previousSibling.textContent, text.textContent]))"
        )
        return found

    def switch(self, premise: str) -> None:
        """Presses the switch of a premise."""
        [box] = [
            each
            for each in self.all("#premises input")
            if each.get_attribute("id") == f"premise {premise}"
        ]
        box.click()

    @property
    def believed(self) -> set[str]:
        names: list[str] = self.js(
            "return [...document.querySelectorAll('#premises input:checked')]"
            ".map(box => box.closest('li').dataset.premise)"
        )
        return set(names)

    def click(self, cell: str) -> None:
        """Clicks a cell in the drawing."""
        text = self.js(
            "return [...document.querySelectorAll('#drawing text:not([class])')]"
            ".find(text => text.textContent === arguments[0])",
            cell,
        )
        ActionChains(self.browser).move_to_element(text).click().perform()

    def marked(self, mark: str) -> int:
        """How many boxes or wires of the drawing are marked so."""
        path = self.js(
            "return document.querySelector(`#drawing path[class='${arguments[0]}']`)"
            ".getAttribute('d') || ''",
            mark,
        )
        return str(path).count("M")

    def keep(self, name: str) -> None:
        """Keeps a picture of the page, in light and in dark."""
        PICTURES.mkdir(parents=True, exist_ok=True)
        for scheme in ("light", "dark"):
            self._prefer(scheme)
            self.browser.save_screenshot(str(PICTURES / f"{name}-{scheme}.png"))
        self._prefer("light")

    def _prefer(self, scheme: str) -> None:
        feature = {"name": "prefers-color-scheme", "value": scheme}
        self.browser.execute_cdp_cmd("Emulation.setEmulatedMedia", {"features": [feature]})

    def spent(self) -> float:
        """How many seconds of a processor the page's thread has used: so a busy machine doesn't
        count."""
        told = self.browser.execute_cdp_cmd("Performance.getMetrics", {})["metrics"]
        return float(next(each["value"] for each in told if each["name"] == "TaskDuration"))

    def asked_addresses(self) -> set[str]:
        """What the page has asked for since it was opened."""
        events = [
            json.loads(each["message"])["message"] for each in self.browser.get_log("performance")
        ]
        return {
            event["params"]["request"]["url"]
            for event in events
            if event["method"] == "Network.requestWillBeSent"
        }

    def check_quiet(self) -> None:
        """Nothing was asked of another address, and nothing went wrong in the page."""
        others = [
            each
            for each in self.asked_addresses()
            # (a field for a date has a picture of the browser's own)
            if not each.startswith((self.page.address, "data:"))
        ]
        assert others == []
        assert [each for each in self.browser.get_log("browser") if each["level"] == "SEVERE"] == []


@contextmanager
def shown(browser: Any, page: Page) -> Iterator[Shown]:
    """A page in a browser; in the end it has been quiet."""
    with page:
        found = Shown(browser, page)
        yield found
        found.check_quiet()
        browser.get("about:blank")
