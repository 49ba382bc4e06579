#!/usr/bin/python3
"""The pictures of the page of plans that docs/PLANNING.md shows: of the release in examples/, on a
wide screen and on a phone. Whoever changes the page takes them anew, and looks at them.

By hand: PYTHONPATH=src tests/screens.py. What says that a program isn't proved is not shown.
"""

import struct
import zlib
from collections import Counter
from collections.abc import Iterable, Iterator
from dataclasses import replace
from pathlib import Path
from typing import Any

from browsing import Shown, new_browser, shown
from conftest import REPOSITORY

from propbench import Workbench
from propbench.page import Page
from propbench.planning.brief import Given
from propbench.planning.draft import draft_of
from propbench.planning.open_plan import OpenPlan
from propbench.planning.sheets import sheets_of

FOLDER = REPOSITORY / "docs" / "screens"
SIZES = {"wide": (1280, 800), "phone": (390, 844)}
WHAT = ("plan", "conflict", "trade")
_SIGNATURE = b"\x89PNG\r\n\x1a\n"
# A picture has so many colours.
_COLOURS = 128


def release(has_wishes: bool) -> OpenPlan:
    """The plan of the example, with its wishes or without."""
    draft = draft_of(sheets_of(str(REPOSITORY / "examples" / "planning" / "release")))
    draft = draft if has_wishes else replace(draft, tables={**draft.tables, "wishes": ()})
    return OpenPlan(draft, Workbench, Given())


def show(page: Shown, what: str) -> None:
    """Has the page show a plan, what stands in the way of one, or what an earlier end costs."""
    if what == "conflict":
        page.until(lambda: page.all(".repair"))
        page.all(".repair button")[0].click()
        page.until(lambda: "would be done" in page.text("hinders-says"))
    else:
        page.until(lambda: page.text("plan-head").startswith("All is done"))
    if what == "trade":
        page.press("trade-cost")
        page.until(lambda: page.all("#trade-picture"))
    page.js("document.activeElement.blur(); document.getElementById('proved').hidden = true")
    place = "trade" if what == "trade" else "plan-head"
    page.js("document.getElementById(arguments[0]).scrollIntoView()", place)


def taken(browser: Any, screens: Iterable[str] = SIZES) -> Iterator[tuple[str, bytes]]:
    """All pictures of some screens, by the names of their files."""
    for screen in screens:
        wide, high = SIZES[screen]
        told = {"width": wide, "height": high, "deviceScaleFactor": 1}
        told |= {"mobile": screen == "phone"}
        browser.execute_cdp_cmd("Emulation.setDeviceMetricsOverride", told)
        for what in WHAT:
            plan = release(what == "conflict")
            with shown(browser, Page(plan, "release", path="-")) as page:
                show(page, what)
                yield f"{what}-{screen}.png", packed(browser.get_screenshot_as_png())


# --- small files ---


def size_of(picture: bytes) -> tuple[int, int]:
    """How wide a picture is and how high."""
    assert picture.startswith(_SIGNATURE)
    wide, high = struct.unpack(">II", picture[16:24])
    return wide, high


def packed(picture: bytes) -> bytes:
    """The same in few colours: those that there are most of, and the nearest of these."""
    wide, high = size_of(picture)
    points = points_of(picture)
    counted = Counter(points)
    kept = [colour for colour, _ in counted.most_common(_COLOURS)]
    places = {colour: min(range(len(kept)), key=_distances(colour, kept)) for colour in counted}
    lines = (points[at * wide : (at + 1) * wide] for at in range(high))
    data = b"".join(b"\0" + bytes(places[point] for point in line) for line in lines)
    parts = [
        (b"IHDR", struct.pack(">IIBBBBB", wide, high, 8, 3, 0, 0, 0)),
        (b"PLTE", b"".join(kept)),
        (b"IDAT", zlib.compress(data, 9)),
        (b"IEND", b""),
    ]
    return _SIGNATURE + b"".join(
        struct.pack(">I", len(told)) + name + told + struct.pack(">I", zlib.crc32(name + told))
        for name, told in parts
    )


def _distances(colour: bytes, kept: list[bytes]) -> Any:
    """How far each of some colours is from one."""
    return lambda at: sum((one - other) ** 2 for one, other in zip(colour, kept[at]))


def points_of(picture: bytes) -> list[bytes]:
    """The points of a picture, row by row, each by its red, green and blue."""
    (wide, high), (depth, colours) = size_of(picture), picture[24:26]
    assert depth == 8 and colours in (2, 6), "a picture of another sort"
    size, at, data = 3 if colours == 2 else 4, 8, b""
    while at < len(picture):
        [length] = struct.unpack(">I", picture[at : at + 4])
        if picture[at + 4 : at + 8] == b"IDAT":
            data += picture[at + 8 : at + 8 + length]
        at += length + 12
    data, before, points = zlib.decompress(data), bytearray(wide * size), list[bytes]()
    for row in range(high):
        first = row * (wide * size + 1)
        line = bytearray(data[first + 1 : first + 1 + wide * size])
        _unfilter(data[first], line, before, size)
        points += [bytes(line[at : at + 3]) for at in range(0, len(line), size)]
        before = line
    return points


def _unfilter(sort: int, line: bytearray, before: bytearray, size: int) -> None:
    """Makes a line of what it differs in from what stands to the left and above."""
    for at, byte in enumerate(line):
        left, up = line[at - size] if at >= size else 0, before[at]
        corner = before[at - size] if at >= size else 0
        line[at] = (byte + (0, left, up, (left + up) // 2, _near(left, up, corner))[sort]) & 255


def _near(left: int, up: int, corner: int) -> int:
    """The one of three that is nearest to what goes on evenly."""
    return min((left, up, corner), key=lambda it: abs(left + up - corner - it))


def main() -> None:
    """Takes all pictures."""
    browser = new_browser()
    try:
        FOLDER.mkdir(exist_ok=True)
        for name, picture in taken(browser):
            (FOLDER / name).write_bytes(picture)
            print(f"{name}: {len(picture)} bytes", flush=True)
    finally:
        browser.quit()


if __name__ == "__main__":
    main()
