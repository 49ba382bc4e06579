"""The page's server: who may ask, what is told to a browser, and that texts are never markup."""

import http.client
import json
import re
import signal
import socket
import struct
import subprocess
import sys
import threading
import time
from collections.abc import Callable, Iterator
from pathlib import Path
from typing import Any

import pytest
from conftest import ENDLESS, REPOSITORY

import propbench.page
from propbench import Session, SessionInUse, Workbench
from propbench.page import Page
from propbench.watching.of_session import SessionWatched
from propbench.watching.of_workbench import WorkbenchWatched

LINES = [
    "cell x span",
    "cell y span",
    "cell z span",
    "attach sum x y z",
    "tell morning x 3..5",
    "tell evening y 10",
    "choose pace z 14 or 15",
]
STATIC = Path(propbench.page.__file__).parent / "static"


@pytest.fixture
def page(program: str) -> Iterator[Page]:
    """A page of a session."""
    with Session(program) as session:
        session.send_all(LINES)
        with Page(SessionWatched(session), "first") as served:
            yield served


class Answer:
    """What the server answered: status, headers in small letters, and body."""

    def __init__(self, got: http.client.HTTPResponse) -> None:
        self.status = got.status
        self.headers = {name.lower(): value for name, value in got.getheaders()}
        self.body = got.read()

    @property
    def json(self) -> Any:
        return json.loads(self.body)


def place(page: Page) -> tuple[str, int, str]:
    """The host with its port, the port, and the path with the token."""
    found = re.fullmatch(r"http://(127\.0\.0\.1:(\d+))(/[\w-]+/)", page.address)
    assert found
    return found[1], int(found[2]), found[3]


def request(
    page: Page, method: str, path: str, body: bytes | None = None, **headers: str | None
) -> Answer:
    """The answer to a request, with headers as a browser sends them, but where others are given;
    None for none."""
    host, port, token = place(page)
    sent: dict[str, str | None] = {"Host": host}
    if method == "POST":
        sent.update({"Origin": f"http://{host}", "Content_Type": "application/json"})
    sent.update(headers)
    link = http.client.HTTPConnection("127.0.0.1", port, timeout=90)
    try:
        link.putrequest(method, path.replace("TOKEN/", token[1:]), True, True)
        for name, value in sent.items():
            if value is not None:
                link.putheader(name.replace("_", "-"), value)
        if body is not None and "Content_Length" not in sent:
            link.putheader("Content-Length", str(len(body)))
        link.endheaders(body)
        return Answer(link.getresponse())
    finally:
        link.close()


def do(page: Page, **asked: object) -> Answer:
    return request(page, "POST", "/TOKEN/do", json.dumps(asked).encode())


def test_it_serves_this_machine_alone(page: Page) -> None:
    _, port, _ = place(page)
    mine = {info[4][0] for info in socket.getaddrinfo(socket.gethostname(), None, socket.AF_INET)}
    for address in mine - {"127.0.0.1"}:
        with pytest.raises(OSError):
            socket.create_connection((str(address), port), timeout=2).close()
    assert request(page, "GET", "/TOKEN/").status == 200


def test_only_who_knows_the_token(page: Page) -> None:
    _, _, token = place(page)
    wrong = [
        "/",
        "/page.js",
        "/state",
        f"{token[:-2]}/state",
        "/x/state",
        f"/{'a' * 32}/",
        "//state",
    ]
    for path in wrong:
        answer = request(page, "GET", path)
        assert answer.status in (403, 404) and b"cell" not in answer.body, path
    for path in ("/do", "/x/do"):
        assert request(page, "POST", path, b'{"what": "replay"}').status == 403
    host, port, _ = place(page)
    for raw in (b"/\xe4\xf6/state", b"/" + b"a" * 60_000, b"*", b"http://x/" + token[1:].encode()):
        with socket.create_connection(("127.0.0.1", port), timeout=90) as link:
            link.sendall(b"GET %b HTTP/1.1\r\nHost: %b\r\n\r\n" % (raw, host.encode()))
            assert re.match(rb"HTTP/1.1 4\d\d ", link.recv(1000))
    assert len(token) >= 32
    other = Page(WorkbenchWatched(Workbench()), "other")
    assert place(other)[2] != token
    other.close()


def test_only_by_its_own_name(page: Page) -> None:
    host, port, _ = place(page)
    for name in ("evil.example", f"evil.example:{port}", "127.0.0.1", f"127.0.0.1:{port + 1}", ""):
        for method in ("GET", "POST"):
            assert request(page, method, "/TOKEN/state", b"{}", Host=name).status == 421, name
    assert request(page, "GET", "/TOKEN/state", Host=None).status == 421
    assert request(page, "GET", "/TOKEN/state", Host=f"localhost:{port}").status == 200


def test_no_other_page_may_ask(page: Page) -> None:
    host, port, _ = place(page)
    body = json.dumps({"what": "believe", "premise": "morning", "believed": False}).encode()
    foreign = [
        "null",
        "http://evil.example",
        f"https://{host}",
        f"http://localhost:{port}",
        "http://",
    ]
    for origin in foreign:
        assert request(page, "POST", "/TOKEN/do", body, Origin=origin).status == 403, origin
        assert request(page, "GET", "/TOKEN/state", Origin=origin).status == 403
    assert request(page, "POST", "/TOKEN/do", body, Origin=None).status == 403
    for site in ("cross-site", "same-site"):
        assert request(page, "GET", "/TOKEN/state", Sec_Fetch_Site=site).status == 403
    for kind in ("text/plain", "application/x-www-form-urlencoded", None):
        assert request(page, "POST", "/TOKEN/do", body, Content_Type=kind).status == 415
    assert "morning" in request(page, "GET", "/TOKEN/state").json["believed"]
    assert request(page, "POST", "/TOKEN/do", body).status == 200
    assert "morning" not in request(page, "GET", "/TOKEN/state").json["believed"]


def test_what_a_browser_is_told(page: Page) -> None:
    answers = [request(page, "GET", f"/TOKEN/{name}") for name in ("", "page.js", "state", "none")]
    answers += [request(page, "GET", "/"), do(page, what="nothing")]
    for answer in answers:
        policy = answer.headers["content-security-policy"]
        parts = dict(part.strip().split(" ", 1) for part in policy.split(";"))
        assert parts["default-src"] == parts["base-uri"] == parts["form-action"] == "'none'"
        assert parts["frame-ancestors"] == "'none'"
        assert parts["script-src"] == parts["style-src"] == parts["connect-src"] == "'self'"
        assert "unsafe" not in policy and "http" not in policy and "*" not in policy
        assert answer.headers["referrer-policy"] == "no-referrer"
        assert answer.headers["x-content-type-options"] == "nosniff"
        assert answer.headers["cache-control"] == "no-store"
        assert "access-control-allow-origin" not in answer.headers
    assert [answer.status for answer in answers] == [200, 200, 200, 404, 403, 400]


def test_what_is_too_large_or_no_question(page: Page) -> None:
    def sent(body: bytes, **headers: str | None) -> int:
        return request(page, "POST", "/TOKEN/do", body, **headers).status

    assert sent(b"{", Content_Length="999999999") == 413
    assert sent(b"{}", Content_Length="-1") == 413 and sent(b"{}", Content_Length="two") == 413
    assert sent(b"{}", Content_Length=None) == 413
    assert sent(b"2\r\n{}\r\n0\r\n\r\n", Transfer_Encoding="chunked") == 415
    assert sent(b"[]") == sent(b"{") == sent(b"\xff") == sent(b"3") == 400
    for method in ("PUT", "DELETE", "HEAD", "OPTIONS"):
        assert request(page, method, "/TOKEN/state").status == 501
    wrong: list[dict[str, object]] = [
        {},
        {"what": 3},
        {"what": "believe"},
        {"what": "believe", "premise": "nobody", "believed": True},
        {"what": "believe", "premise": ["morning"]},
        {"what": "wish", "choice": "pace", "side": 7},
        {"what": "wish", "choice": "pace", "side": True},
        {"what": "wish", "choice": "pace", "side": -1},
        {"what": "cell", "cell": "nobody"},
        {"what": "cell", "cell": "x\nfix x 3"},
        {"what": "apply", "premises": "morning"},
        {"what": "apply", "premises": ["morning", 3]},
        {"what": "steps", "from": -1, "to": 3},
        {"what": "steps", "from": 0, "to": 1e9},
        {"what": "best", "cell": "x", "sort": "most"},
        {"what": "best", "cell": "nobody", "sort": "least"},
        {"what": "save"},
        {"what": "line", "line": "tell a x 3\ntell b x 4"},
    ]
    for asked in wrong:
        answer = do(page, **asked)
        assert answer.status == 400 and answer.json["error"], asked
    assert request(page, "GET", "/TOKEN/state").json["lines"] == LINES


def test_what_is_asked_is_what_the_program_says(page: Page) -> None:
    state = request(page, "GET", "/TOKEN/state").json
    shown = {each["cell"]: (each["text"], each["because"]) for each in state["seen"]["values"]}
    assert shown == {
        "x": ("4", ["evening", "pace: z = 14"]),
        "y": ("10", ["evening"]),
        "z": ("14", ["pace: z = 14"]),
    }
    assert state["seen"]["plan"] == {"pace": 0} and state["wished"] == {}
    wished = do(page, what="wish", choice="pace", side=1).json
    assert wished["seen"]["plan"] == {"pace": 1} and wished["wished"] == {"pace": 1}
    assert do(page, what="wish", choice="pace", side=0).json["seen"]["plan"] == {"pace": 0}
    assert do(page, what="wish", choice="pace", side=None).json["wished"] == {}
    core = do(page, what="core", cell="x").json["shown"]
    assert (core["text"], core["reduced"]) == ("4", True)
    assert core["because"] == ["evening", "pace: z = 14"]
    line = do(page, what="line", line="tell noon x 90").json
    assert line["reply"] == "ok" and set(line["seen"]["clash"]["premises"]) == {"morning", "noon"}
    mend = do(page, what="mend").json
    assert mend["complete"] and mend["conflicts"][0] == ["morning", "noon"]
    # (noon alone would need z to be 100, which no pace has)
    assert sorted(mend["repairs"]) == [["morning", "evening"], ["noon"]]
    tried = do(page, what="try", premises=["noon"]).json["seen"]
    assert (
        tried["clash"] is None and "noon" in request(page, "GET", "/TOKEN/state").json["believed"]
    )
    assert do(page, what="apply", premises=["noon"]).json["seen"]["clash"] is None
    refused = do(page, what="line", line="tell noon xx 90").json
    assert refused["refused"] and "There is no cell `xx`" in refused["reply"]
    replayed = do(page, what="replay").json
    assert replayed["same"] and replayed["seen"]["plan"] == {"pace": 0}


def sent_whole(page: Page, path: str, body: bytes = b"", method: str = "POST") -> bytes:
    """What a browser sends for a request."""
    host, _, token = place(page)
    lines = [f"{method} {path.replace('/TOKEN/', token)} HTTP/1.1", f"Host: {host}"]
    lines += [f"Origin: http://{host}", "Content-Type: application/json"]
    lines += [f"Content-Length: {len(body)}"]
    return "\r\n".join([*lines, "", ""]).encode() + body


def dropped(page: Page, data: bytes, at_once: bool) -> None:
    """Sends this, and drops the connection: at once, or as one does that takes no more."""
    with socket.create_connection(("127.0.0.1", place(page)[1]), timeout=90) as link:
        if at_once:
            # (closed by a reset, not by an orderly end)
            link.setsockopt(socket.SOL_SOCKET, socket.SO_LINGER, struct.pack("ii", 1, 0))
        link.sendall(data)


def test_a_dropped_connection_ends_quietly(page: Page, capsys: pytest.CaptureFixture[str]) -> None:
    """Whatever a browser was at when its tab is closed, nothing is told of it, and others are
    answered."""
    look = sent_whole(page, "/TOKEN/do", b'{"what": "look"}')
    pieces = [
        b"",
        look[:9],
        look[:-5],
        look,
        look + look,
        sent_whole(page, "/TOKEN/state", method="GET"),
        sent_whole(page, "/TOKEN/do", b"no question"),
        sent_whole(page, "/elsewhere/do"),
        sent_whole(page, "/TOKEN/state", method="PUT"),
    ]
    # (nothing is answered before all of them are gone)
    with page.held():
        for piece in pieces:
            dropped(page, piece, at_once=True)
            dropped(page, piece, at_once=False)
    assert request(page, "GET", "/TOKEN/state").status == 200
    for each in threading.enumerate():
        if "process_request_thread" in each.name:
            each.join(90)
            assert not each.is_alive()
    assert capsys.readouterr() == ("", "")


@pytest.mark.parametrize("port", [-1, 65_536])
def test_a_number_that_no_port_has(page: Page, port: int) -> None:
    with Workbench() as workbench:
        with pytest.raises(ValueError, match=f"a port is a number from 0 to 65535: {port}"):
            workbench.serve(port=port, wait=False)


def test_texts_are_never_markup() -> None:
    """No script of the page makes markup of a text, or code, or asks another address."""
    banned = r"innerHTML|outerHTML|insertAdjacent|document\.write|\beval\b|Function\(|DOMParser"
    banned += r"|createContextualFragment|srcdoc|setTimeout\(\s*[\"'`]|javascript:|\.style\b"
    banned += r"|https?://(?!www\.w3\.org/2000/svg)|//cdn|WebSocket|XMLHttpRequest|localStorage"
    scripts = sorted(STATIC.glob("*.js"))
    names = "drawing forms gantt layout page plan texts trade".split()
    assert [script.name for script in scripts] == [f"{name}.js" for name in names]
    for script in scripts:
        assert not re.search(banned, script.read_text()), script.name
    page = (STATIC / "index.html").read_text()
    assert not re.search(r"<script(?! type=\"module\" src=\"page\.js\")|\son\w+=|style=|http", page)
    for style in ("page.css", "plan.css"):
        assert not re.search(r"@import|url\(", (STATIC / style).read_text())
    assert "setAttribute" in (STATIC / "drawing.js").read_text()


def test_the_desk_serves_a_file(program: str) -> None:
    """`propdesk page` prints the address, serves, and ends well at Ctrl-C."""
    path = str(REPOSITORY / "examples/planning/talks.prop")
    words = [sys.executable, "-m", "propbench", "page", path, "--program", program]
    served = subprocess.Popen(words, stdout=subprocess.PIPE, text=True)
    try:
        assert served.stdout
        found = re.match(
            r"The page is at (http://127\.0\.0\.1:(\d+)/\S+/)$", served.stdout.readline()
        )
        assert found
        link = http.client.HTTPConnection("127.0.0.1", int(found[2]), timeout=90)
        link.request("GET", found[1].partition(found[2])[2] + "state")
        state = json.loads(link.getresponse().read())
        assert state["title"] == "talks.prop" and len(state["network"]["cells"]) == 3
        served.send_signal(signal.SIGINT)
        assert served.wait(timeout=300) == 0
    finally:
        served.kill()
        served.wait()
    for wrong, status in (("none.prop", 3), ("talks.out", 1)):
        words[4] = str(REPOSITORY / "examples/planning" / wrong)
        assert subprocess.run(words, capture_output=True, timeout=300).returncode == status


def test_long_questions_are_stopped(program: str) -> None:
    """Without a or b the rest creeps on and on: looking for repairs is stopped, and all goes on."""
    lines = [*ENDLESS, "cell y span", "tell a y 1", "tell b y 2"]
    with Session(program) as session:
        session.send_all(lines)
        with Page(SessionWatched(session), "endless") as page:
            assert request(page, "GET", "/TOKEN/state").json["seen"]["clash"]
            questions: list[dict[str, object]] = [
                {"what": "mend"},
                {"what": "try", "premises": ["a"]},
            ]
            for asked in questions:
                came: list[Answer] = []
                asking = threading.Thread(target=lambda: came.append(do(page, **asked)))
                asking.start()
                end = time.monotonic() + 60
                while "so far" not in request(page, "GET", "/TOKEN/version").json["busy"]:
                    assert time.monotonic() < end
                    time.sleep(0.05)
                assert request(page, "POST", "/TOKEN/stop", b"{}").status == 200
                asking.join(60)
                assert came[0].status == 400 and "stopped" in came[0].json["error"]
            state = do(page, what="apply", premises=["start", "a"]).json
            assert {each["cell"]: each["text"] for each in state["seen"]["values"]}["y"] == "2"


def until_busy(page: Page) -> None:
    """Waits until a question is under way."""
    end = time.monotonic() + 60
    while not request(page, "GET", "/TOKEN/version").json["busy"]:
        assert time.monotonic() < end
        time.sleep(0.02)


@pytest.mark.parametrize("what", ["look", "mend", "best", "core", "try"])
def test_a_page_is_closed_while_it_is_asked(
    program: str, what: str, capsys: pytest.CaptureFixture[str]
) -> None:
    """The question is stopped, one that waits behind it is not begun, and nobody reads of
    errors."""
    lines = [*ENDLESS, "cell y span", "tell a y 1"]
    asked = {"what": what, "cell": "x", "sort": "least", "premises": ["a"]}
    came: list[Answer | None] = []

    def ask(**asked: object) -> None:
        try:
            came.append(do(closed, **asked))
        except (OSError, http.client.HTTPException):
            came.append(None)

    with Session(program) as session:
        session.send_all(lines)
        closed = Page(SessionWatched(session), "endless")
        asking = [threading.Thread(target=ask, kwargs=asked)]
        asking[0].start()
        until_busy(closed)
        asking.append(threading.Thread(target=ask, kwargs={"what": "look"}))
        asking[1].start()
        begun = time.monotonic()
        closed.close()
    for each in (*asking, *threading.enumerate()):
        if each in asking or "process_request_thread" in each.name:
            each.join(20)
            assert not each.is_alive()
    assert time.monotonic() - begun < 40
    assert capsys.readouterr() == ("", "")
    assert all(answer is None or answer.status in (200, 400) for answer in came)


def test_ctrl_c_while_the_desk_is_asked(program: str, tmp_path: Path) -> None:
    path = tmp_path / "endless.prop"
    path.write_text("\n".join(ENDLESS))
    words = [sys.executable, "-m", "propbench", "page", str(path), "--program", program]
    served = subprocess.Popen(words, stdout=subprocess.PIPE, stderr=subprocess.PIPE, text=True)
    try:
        assert served.stdout and served.stderr
        address = served.stdout.readline().split()[-1]
        host, _, path_there = address.removeprefix("http://").partition("/")
        links = [http.client.HTTPConnection(host, timeout=90) for _ in range(2)]
        for link in links:
            link.request("GET", f"/{path_there}state")
        time.sleep(0.5)
        served.send_signal(signal.SIGINT)
        assert served.wait(timeout=60) == 0
        assert served.stderr.read() == ""
    finally:
        served.kill()
        served.wait()
        for stream in (served.stdout, served.stderr):
            assert stream
            stream.close()


@pytest.mark.parametrize("at_once", [False, True])
def test_what_a_page_asked_ends_with_it(program: str, at_once: bool) -> None:
    """Browsers drop their connections while a run for one of them goes on and on: it is ended, and
    for the others none is begun."""
    lines = [*ENDLESS, "cell y span", "tell a y 1", "tell b y 2"]
    asked = json.dumps({"what": "try", "premises": ["a"]}).encode()
    with Session(program) as session:
        session.send_all(lines)
        with Page(SessionWatched(session), "endless") as page:
            address = ("127.0.0.1", place(page)[1])
            gone = [socket.create_connection(address, timeout=90) for _ in range(3)]
            for link in gone:
                link.sendall(sent_whole(page, "/TOKEN/do", asked))
            waited(lambda: "so far" in busy(page))
            for link in gone:
                if at_once:
                    link.setsockopt(socket.SOL_SOCKET, socket.SO_LINGER, struct.pack("ii", 1, 0))
                link.close()
            waited(lambda: busy(page) == "")
            assert request(page, "GET", "/TOKEN/state").json["lines"] == lines


def test_a_change_is_made_also_where_its_page_is_gone(page: Page) -> None:
    """Only what runs for the page is ended."""
    asked = json.dumps({"what": "believe", "premise": "morning", "believed": False}).encode()
    with socket.create_connection(("127.0.0.1", place(page)[1]), timeout=90) as link:
        link.sendall(sent_whole(page, "/TOKEN/do", asked))
    waited(lambda: "kick morning" in request(page, "GET", "/TOKEN/state").json["lines"])


def test_a_page_is_closed_in_the_midst_of_a_run(program: str) -> None:
    """Behind that the session is free, and one that is in use is told so."""
    with Session(program) as session:
        session.send_all([*ENDLESS, "cell y span", "tell a y 1", "tell b y 2"])
        page = Page(SessionWatched(session), "endless")
        asking = threading.Thread(target=lambda: do(page, what="apply", premises=["a"]))
        asking.start()
        waited(lambda: "so far" in busy(page))
        with pytest.raises(SessionInUse):
            session.send("settle")
        page.close()
        assert "unsettled" in str(session.send("ask x", seconds=0))
        asking.join(60)
        assert not asking.is_alive()


def busy(page: Page) -> str:
    """What the page is at."""
    return str(request(page, "GET", "/TOKEN/version").json["busy"])


def waited(condition: Callable[[], bool]) -> None:
    """Waits until a condition holds."""
    end = time.monotonic() + 60
    while not condition():
        assert time.monotonic() < end
        time.sleep(0.05)


def test_the_desk_serves_a_plan(
    wide: str, tmp_path: Path, monkeypatch: pytest.MonkeyPatch, capfd: pytest.CaptureFixture[str]
) -> None:
    """`propdesk page` begins a plan, and one that is cut off goes on by --resume."""
    monkeypatch.setenv("PROPBENCH_JOURNAL", "on")
    monkeypatch.setenv("XDG_STATE_HOME", str(tmp_path))
    where = str(tmp_path / "ours.ods")

    def served(words: list[str]) -> tuple[subprocess.Popen[str], str, list[str]]:
        command = [sys.executable, "-m", "propbench", "page", where, "--program", wide, *words]
        begun = subprocess.Popen(command, stdout=subprocess.PIPE, text=True)
        said: list[str] = []
        assert begun.stdout
        for line in begun.stdout:
            said.append(line.rstrip())
            if found := re.match(r"The page is at (http://\S+/)$", line):
                return begun, found[1], said
        raise AssertionError(said)

    def asked(address: str, **question: object) -> dict[str, object]:
        host, _, token = address.removeprefix("http://").partition("/")
        link = http.client.HTTPConnection(host, timeout=90)
        headers = {"Content-Type": "application/json", "Origin": f"http://{host}"}
        link.request("POST", f"/{token}do", json.dumps(question), headers)
        told = json.loads(link.getresponse().read())
        assert isinstance(told, dict)
        return told

    begun, address, _ = served([])
    try:
        row = {"task": "venue", "days": "3", "who": "ana"}
        told = asked(address, what="put", table="people", place=None, row={"person": "ana"})
        told = asked(address, what="put", table="tasks", place=None, row=row)
        plan = told["plan"]
        assert isinstance(plan, dict)
        assert plan["tables"]["tasks"] == [row] and plan["undo"] == "add venue"
        found = asked(address, what="plan", seconds=20)["found"]
        assert isinstance(found, dict) and found["proved"] is True
    finally:
        begun.kill()
        begun.wait()
    begun, address, said = served([])
    assert asked(address, what="plan", seconds=20) == {"empty": True}
    begun.send_signal(signal.SIGINT)
    assert begun.wait(timeout=60) == 0 and "--resume goes on with it" in said[0]
    begun, address, said = served(["--resume"])
    try:
        found = asked(address, what="plan", seconds=20)["found"]
        assert isinstance(found, dict) and found["proved"] is True
        assert asked(address, what="save")["saved"] == where
        begun.send_signal(signal.SIGINT)
        assert begun.wait(timeout=60) == 0
    finally:
        begun.kill()
        begun.wait()
    # what is saved is in the file, and nothing is left to go on with
    begun, address, said = served([])
    try:
        assert len(said) == 1
        found = asked(address, what="plan", seconds=20)["found"]
        assert [each["task"] for each in found["rows"]] == ["venue"]  # type: ignore[index]
    finally:
        begun.kill()
        begun.wait()
