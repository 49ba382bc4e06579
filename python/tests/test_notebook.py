"""The notebook: cells of the language, what shows itself, and a stop that keeps the session."""

import os
import time
from collections.abc import Iterator
from typing import Any

import nbformat
import pytest
from conftest import ENDLESS, REPOSITORY
from jupyter_client.manager import start_new_kernel
from nbclient import NotebookClient

# So many seconds a kernel has to start, and to say something more: it is waited for what comes, and
# far longer than that takes on a busy machine.
PATIENCE = 900

LONG = "\n".join(["%%propbench", *ENDLESS, "ask x"])


@pytest.fixture
def environment(program: str, monkeypatch: pytest.MonkeyPatch) -> None:
    """What a kernel is told: the program, and where to find the package."""
    monkeypatch.setenv("PROPBENCH", program)
    monkeypatch.setenv("PYTHONPATH", str(REPOSITORY / "python" / "src"))
    monkeypatch.setenv("PYDEVD_DISABLE_FILE_VALIDATION", "1")


def outputs(cells: list[str]) -> list[list[dict[str, Any]]]:
    """What each cell of a notebook shows, by its kinds."""
    book = nbformat.v4.new_notebook(cells=[nbformat.v4.new_code_cell(cell) for cell in cells])
    NotebookClient(
        book,
        timeout=PATIENCE,
        startup_timeout=PATIENCE,
        kernel_name="python3",
        allow_errors=True,
    ).execute()
    return [
        [output.get("data") or {output.output_type: output} for output in cell.outputs]
        for cell in book.cells
    ]


# The cells of a notebook.
CELLS = [
    "%load_ext propbench.notebook",
    "%%propbench\ncell x span\ncell y span\n# twice\n" "attach adder x x y\ntell ana x 3..5\nwhy y",
    "%%propbench\nask x\nkick anna\nask y",
    "%%propbench other\nworldview",
    "(session.lines, str(other.send('settle')))",
    "from propbench import Workbench\nw = Workbench()\nx = w.number('<b>x</b>', 0, 9)\n"
    "y = w.number('y', 0, 9)\nw.require(x + y == 7)\nw.tell('ana', x, 2)\nw",
    "w.picture()",
    "w.film(3)",
    "x.picture()",
    "w.least(y)",
    "from propbench.notebook import film, picture\npicture(session, 'y')",
    "film(session)",
    "picture(session, 'z')",
    "%%propbench --new\ncell x span\nask x",
    "%%propbench --new other\nworldview",
    "(session.lines, len(other.lines))",
    "%%propbench other --new\nworldview",
    "%unload_ext propbench.notebook",
    "%%propbench\nask x",
]


def test_a_notebook(environment: None) -> None:
    shown = outputs(CELLS)
    assert shown[0] == []
    [told] = shown[1]
    assert "y = 6..10 because ana" in told["text/plain"] and "4 lines carried" in told["text/plain"]
    assert "<td>why y</td><td>y = 6..10 because ana</td>" in told["text/html"]
    assert "<p>4 lines carried out.</p>" in told["text/html"]
    [refused] = shown[2]
    assert "x = 3..5" in refused["text/plain"] and "line 2" in refused["text/plain"]
    assert "Did you mean ana?" in refused["text/html"] and "ask y" not in refused["text/html"]
    # (a reply of two lines)
    assert shown[3][0]["text/plain"].split("\n")[1:3] == ["worldview  in:", "           out:"]
    assert "'tell ana x 3..5', 'why y', 'ask x']" in shown[4][0]["text/plain"].replace("\n ", "")
    assert (
        "&lt;b&gt;x&lt;/b&gt;" in shown[5][0]["text/html"]
        and "<td>5</td>" in shown[5][0]["text/html"]
    )
    for place in (6, 8):
        assert (
            shown[place][0]["image/svg+xml"].startswith("<svg")
            and "&lt;b&gt;" in shown[place][0]["image/svg+xml"]
        )
    assert shown[7][0]["text/html"].count("<figure") >= 2
    assert "The least y is 5" in shown[9][0]["text/html"]
    # (a picture and a film of the session of the cells)
    assert shown[10][0]["image/svg+xml"].startswith("<svg") and "6..10" in str(shown[10])
    assert "y = 6..10" in shown[11][0]["text/plain"] and "<figure" in shown[11][0]["text/html"]
    assert "there is no cell `z`" in str(shown[12])
    # (sessions that begin anew)
    assert "x = nothing" in shown[13][0]["text/plain"]
    assert shown[15][0]["text/plain"] == "(['cell x span', 'ask x'], 1)"
    assert "before it maybe --new, not 'other --new'" in str(shown[16])
    assert "UsageError" in str(shown[18]) or "not found" in str(shown[18])


class Kernel:
    """A kernel in which cells are run one by one."""

    def __init__(self) -> None:
        self.manager, self.client = start_new_kernel(
            startup_timeout=PATIENCE, kernel_name="python3", env=dict(os.environ)
        )

    def close(self) -> None:
        self.client.stop_channels()
        self.manager.shutdown_kernel(now=True)

    def run(self, code: str, interrupt_at: str = "") -> list[str]:
        """What a cell shows, as texts; it is interrupted once it shows something with this."""
        # (else a kernel drops the cell that comes while it still ends an interrupted one)
        asked = self.client.execute(code, stop_on_error=False)
        found = []
        end = time.monotonic() + PATIENCE
        while time.monotonic() < end:
            message = self.client.get_iopub_msg(timeout=PATIENCE)
            if message["parent_header"].get("msg_id") != asked:
                continue
            content = message["content"]
            if message["msg_type"] in ("display_data", "update_display_data", "execute_result"):
                found.append(content["data"].get("text/html") or content["data"]["text/plain"])
                if interrupt_at and interrupt_at in found[-1]:
                    interrupt_at = ""
                    self.manager.interrupt_kernel()
            elif message["msg_type"] == "error":
                found.append(content["ename"])
            elif message["msg_type"] == "status" and content["execution_state"] == "idle":
                return found
        raise AssertionError(f"no end: {found}")


@pytest.fixture
def kernel(environment: None) -> Iterator[Kernel]:
    made = Kernel()
    try:
        yield made
    finally:
        made.close()


def test_a_stop_keeps_the_session(kernel: Kernel) -> None:
    kernel.run("%load_ext propbench.notebook")
    shown = kernel.run(LONG, interrupt_at="<progress>")
    bars = [each for each in shown if "<progress>" in each]
    assert bars and "steps so far (the stop button ends it, and the session goes on)" in bars[0]
    assert shown[-1] == "KeyboardInterrupt"
    assert any("Stopped. The session goes on" in each for each in shown)
    # (the bar goes)
    assert "<span></span>" in shown
    [after] = kernel.run("%%propbench\nkick start\nask x")
    assert "x = nothing" in after
    [steps] = kernel.run("session.send('limit 3'), session.limit")
    assert "(Done(), 3)" in steps


def test_a_question_shows_a_bar(kernel: Kernel) -> None:
    kernel.run("%load_ext propbench.notebook\nfrom propbench import Workbench\nw = Workbench()")
    kernel.run(
        "xs = [w.number(f'x{i}', 0, 10**6) for i in range(30)]\n"
        "for a, b in zip(xs, xs[1:]):\n    w.require(a * b % 1009 == 17)\n"
    )
    shown = kernel.run("w.plans(most=10**6)", interrupt_at="<progress>")
    assert "<progress>" in shown[0]
    # (the bar goes)
    assert shown[-2:] == ["<span></span>", "Interrupted"]
