"""Small things that ask for very much: each is refused in words, within a second.

The seconds are those of a processor, so that a busy machine changes nothing.
"""

import json
import socket
import time
from collections.abc import Callable, Iterator
from contextlib import contextmanager
from pathlib import Path

import pytest

from propbench import NotAWorkbench, Session, Workbench
from propbench.desk import main
from propbench.page import Page
from propbench.watching.of_session import SessionWatched

HUGE = 10**5000


@contextmanager
def within_a_second() -> Iterator[None]:
    """What is done takes no more than a second of a processor."""
    begun = time.process_time()
    yield
    assert time.process_time() - begun < 1


STATED: dict[str, tuple[Callable[[Workbench], object], str]] = {
    "power": (lambda w: w.number("a", 0, 9) ** 9999999, "a power is by 64 at the most"),
    "power of a constant": (lambda w: (w.number("a") * 0 + 3) ** 9999999, "by 64 at the most"),
    "number": (lambda w: w.number("a", 0, HUGE), "so many digits lies beyond 10\\^18"),
    "told": (lambda w: w.tell("p", w.number("a"), HUGE), "so many digits lies beyond 10\\^18"),
    "constant": (lambda w: w.number("a") <= HUGE, "so many digits lies beyond 10\\^18"),
}


@pytest.mark.parametrize("what", STATED)
def test_what_is_stated(what: str) -> None:
    state, said = STATED[what]
    with Workbench() as w, within_a_second(), pytest.raises(ValueError, match=said):
        state(w)


def test_the_greatest_power_is_one() -> None:
    with Workbench() as w:
        a = w.number("a", 0, 3)
        w.require(a**64 <= 1)
        assert w.greatest(a).value == 1


@pytest.mark.parametrize(
    "text",
    [
        '["CELL", "a"]' + "]" * 9,
        "[" * 100_000,
        '["NOT", [' * 30_000 + '["CELL", "a"]' + "]]" * 30_000,
        '["ADD", [' * 900 + '["CELL", "a"]' + "]]" * 900,
    ],
    ids=["wrong", "open", "deep", "less deep"],
)
def test_a_saved_workbench_of_deep_records(tmp_path: Path, text: str) -> None:
    path = tmp_path / "plan.prop"
    with Workbench() as w:
        w.number("a", 0, 9)
        w.save(path)
    lines = path.read_text().split("\n")
    put = '#: {"require": ' + text + ', "under": "p"}'
    path.write_text("\n".join([*lines[:-3], put, *lines[-3:]]))
    with within_a_second(), pytest.raises(NotAWorkbench, match="was not saved by a workbench"):
        Workbench.load(path)
    assert main(["run", str(path), "--seconds", "5"]) in (0, 1)


@pytest.mark.parametrize(
    "number", ["1e9999999999", "1e-9999999999", "9" * 5000, "1/0", "nan", "_1"]
)
def test_a_saved_workbench_with_a_hostile_reading(
    tmp_path: Path, number: str, capsys: pytest.CaptureFixture[str]
) -> None:
    path = tmp_path / "plan.prop"
    with Workbench() as w:
        length = w.measured("length", "cm", 0, 50, "0.1")
        w.read("ruler", length, "12.3 +- 0.2 cm")
        w.save(path)
    whole = path.read_text()
    records = [line for line in whole.split("\n") if '"reading"' in line or '"measure"' in line]
    assert len(records) == 2
    for line in records:
        told = json.loads(line[3:])
        if "reading" in told:
            told["reading"][0] = number
        else:
            told["measure"]["low"] = number
        path.write_text(whole.replace(line, "#: " + json.dumps(told)))
        with within_a_second(), pytest.raises(NotAWorkbench):
            Workbench.load(path)
        assert main(["page", str(path)]) == 2
        assert "was not saved by a workbench" in capsys.readouterr().err


@pytest.mark.parametrize("head", ["", "propbench certificate 1\n"])
def test_what_is_checked_of_deep_json(
    tmp_path: Path, head: str, capsys: pytest.CaptureFixture[str]
) -> None:
    path = tmp_path / "report.json"
    path.write_text(head + "[" * 100_000 + "\n" + "0" * 64 * bool(head))
    with within_a_second():
        assert main(["check", str(path)]) in (1, 2, 3)
    said = capsys.readouterr()
    assert len(said.out + said.err) < 1000


@pytest.mark.parametrize(
    "length, body",
    [("9" * 5000, b""), ("²", b""), ("-1", b""), ("50000", b"[" * 50_000), ("65537", b"x" * 9)],
    ids=["digits", "no digit", "less than nothing", "deep", "long"],
)
def test_a_request_of_a_page(
    program: str, length: str, body: bytes, capsys: pytest.CaptureFixture[str]
) -> None:
    with Session(program) as session, Page(SessionWatched(session), "page") as page:
        host, _, token = page.address.removeprefix("http://").partition("/")
        with socket.create_connection(("127.0.0.1", int(host.split(":")[1])), timeout=60) as link:
            link.sendall(
                f"POST /{token}do HTTP/1.1\r\nHost: {host}\r\nOrigin: http://{host}\r\n"
                f"Content-Type: application/json\r\nContent-Length: {length}\r\n\r\n".encode()
                + body
            )
            answer = link.recv(1000)
        assert answer.startswith((b"HTTP/1.1 400", b"HTTP/1.1 413")), answer
        assert page._server.asked.version()["version"] == 1
    assert capsys.readouterr().err == ""
