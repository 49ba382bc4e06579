#!/usr/bin/python3
"""How long the page takes: to show a network, to switch a premise, to look at a cell, to move.

usage: measure/page.py [CELLS]   (1000; there are twice as many procedures)

A browser without a window draws by the processor alone, so moving is slower than on a screen.
Beside each time by the clock stand the processor's milliseconds of the page's own thread, and with
what the machine was busy, since a browser needs processors of its own.

A switch goes through the page, the server and the program, one after another. The last line adds up
what the processor did for it in each, which is what it takes by the clock on a machine at rest.
"""

import os
import sys
import time
from pathlib import Path
from statistics import median
from typing import Any

HERE = Path(__file__).resolve().parents[1]
sys.path[:0] = [str(HERE / "src"), str(HERE / "tests")]

from browsing import SWITCH, new_browser  # noqa: E402
from test_page import big  # noqa: E402

from propbench import Session  # noqa: E402
from propbench.page import Page  # noqa: E402
from propbench.watching.of_session import SessionWatched  # noqa: E402

# So many seconds the page is left to come to rest, and so many switches are asked of the server.
_REST, _SWITCHES = 1.0, 40

SHOWN = (
    "return performance.timing.loadEventEnd && document.querySelector('#cells tr')"
    " ? performance.now() : 0"
)
LOOK = """
const [place, done] = arguments;
const begun = performance.now();
document.querySelectorAll('#cells button')[place].click();
const look = () => document.querySelector('.bears').getAttribute('d')
  ? done(performance.now() - begun) : setTimeout(look, 2);
look();
"""
MOVE = """
const [, done] = arguments;
const svg = document.getElementById('drawing');
let frames = 0;
const begun = performance.now();
const next = () => {
  svg.dispatchEvent(new KeyboardEvent('keydown', {key: frames % 2 ? '+' : '-'}));
  frames += 1;
  if (frames < 30) requestAnimationFrame(next); else done((performance.now() - begun) / 30);
};
next();
"""


def told(what: str, milliseconds: float, spent: float = 0.0) -> None:
    own = f"{spent:6.0f} of the page's thread" if spent else ""
    print(f"{what:24} {milliseconds:7.0f} ms {own:31} load {os.getloadavg()[0]:.1f}", flush=True)


def spent(browser: Any) -> float:
    """The milliseconds of a processor that the page's thread has used."""
    metrics = browser.execute_cdp_cmd("Performance.getMetrics", {})["metrics"]
    return 1000 * float(next(it["value"] for it in metrics if it["name"] == "TaskDuration"))


def program_spent(session: Session) -> float:
    """The milliseconds of a processor that the program has used."""
    fields = (
        Path(f"/proc/{session.pid}/stat").read_text(encoding="ascii").rpartition(")")[2].split()
    )
    return 1000 * (int(fields[11]) + int(fields[12])) / os.sysconf("SC_CLK_TCK")


def shown_after(browser: Any, address: str) -> float:
    """Milliseconds from the address to the network shown."""
    browser.get(address)
    while True:
        found = float(browser.execute_script(SHOWN))
        if found:
            return found


def main(cells: int) -> None:
    browser = new_browser()
    with Session() as session:
        session.send_all(big(cells))
        with Page(SessionWatched(session), "big") as page:
            browser.execute_cdp_cmd("Performance.enable", {"timeDomain": "threadTicks"})
            shows = [(shown_after(browser, page.address), spent(browser)) for _ in range(5)]
            told("first picture", median(it for it, _ in shows), median(it for _, it in shows))
            run = browser.execute_async_script
            owns: dict[str, float] = {}
            for what, script, places in (
                ("a switch", SWITCH, range(10)),
                ("a cell looked at", LOOK, range(150, 151)),
                ("a frame of moving", MOVE, range(1)),
            ):
                time.sleep(_REST)
                before = spent(browser)
                times = [run(script, place) for place in places]
                time.sleep(_REST)
                owns[what] = (spent(browser) - before) / (30 if script == MOVE else len(times))
                told(what, median(times), owns[what])
            # (what of a switch is the server's and the program's)
            before, begun = program_spent(session), time.thread_time()
            for place in range(10, 10 + _SWITCHES):
                page._asking.do({"what": "believe", "premise": f"p{place}", "believed": False})
            server = 1000 * (time.thread_time() - begun) / _SWITCHES
            own = (program_spent(session) - before) / _SWITCHES
            told("a switch, the server's", server)
            told("a switch, the program's", own)
            told("a switch at rest", owns["a switch"] + server + own)
    browser.quit()


if __name__ == "__main__":
    main(int(sys.argv[1]) if len(sys.argv) > 1 else 1000)
