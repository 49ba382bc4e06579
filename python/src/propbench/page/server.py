"""The server of a page: on 127.0.0.1 alone, and for nobody else.

Every address has a secret token in front. The headers Host and Origin have to be the page's own, so
that no other page can ask through a user's browser; the content policy lets the page load from here
alone; and no address, and so no token, goes into a Referer.
"""

import json
import secrets
import select
import socketserver
from collections.abc import Callable, Mapping
from contextlib import suppress
from http import HTTPStatus
from http.server import BaseHTTPRequestHandler, ThreadingHTTPServer
from importlib.resources import files
from typing import Protocol

LOCAL = "127.0.0.1"
_MOST_PORT = 65_535
# A question has so many bytes at the most.
_MOST_BYTES = 65_536
_MOST_DIGITS = 20
_POLICY = (
    "default-src 'none'; script-src 'self'; style-src 'self'; connect-src 'self'; img-src data:;"
    " base-uri 'none'; form-action 'none'; frame-ancestors 'none'"
)
_HEADERS = {
    "Content-Security-Policy": _POLICY,
    "Referrer-Policy": "no-referrer",
    "X-Content-Type-Options": "nosniff",
    "X-Frame-Options": "DENY",
    "Cross-Origin-Opener-Policy": "same-origin",
    "Cross-Origin-Resource-Policy": "same-origin",
    "Cache-Control": "no-store",
}
_FILES = {
    "": ("index.html", "text/html; charset=utf-8"),
    "page.css": ("page.css", "text/css; charset=utf-8"),
    "page.js": ("page.js", "text/javascript; charset=utf-8"),
    "drawing.js": ("drawing.js", "text/javascript; charset=utf-8"),
    "layout.js": ("layout.js", "text/javascript; charset=utf-8"),
    "plan.js": ("plan.js", "text/javascript; charset=utf-8"),
    "plan.css": ("plan.css", "text/css; charset=utf-8"),
    "gantt.js": ("gantt.js", "text/javascript; charset=utf-8"),
    "forms.js": ("forms.js", "text/javascript; charset=utf-8"),
    "texts.js": ("texts.js", "text/javascript; charset=utf-8"),
    "trade.js": ("trade.js", "text/javascript; charset=utf-8"),
}
_JSON, _TEXT = "application/json", "text/plain; charset=utf-8"


# Whether who asked is gone.
Gone = Callable[[], bool]


class PageAnswerer(Protocol):
    """Who answers what a page asks: what is run for one that is gone is ended."""

    def state(self, is_gone: Gone) -> dict[str, object]:
        """All that the page shows."""
        ...

    def version(self) -> dict[str, object]:
        """What tells a page whether to look anew, at once."""
        ...

    def stop(self) -> None:
        """Ends what is run."""
        ...

    def saved(self) -> str:
        """The file that the page is saved as."""
        ...

    def do(self, asked: Mapping[str, object], is_gone: Gone) -> dict[str, object]:
        """What comes of a question. Raises ValueError for one that can't be asked."""
        ...


class Refusal(Exception):
    """A request that is not answered: with what status, and why."""

    def __init__(self, status: HTTPStatus, why: str) -> None:
        super().__init__(why)
        self.status = status


class Server(ThreadingHTTPServer):
    """Serves one page at `address`."""

    daemon_threads = True

    def __init__(self, asked: PageAnswerer, port: int) -> None:
        """At this port of this machine, at any that is free where that is 0. Raises OSError, and
        TypeError and ValueError for what no port has."""
        if not isinstance(port, int):
            raise TypeError(f"a port is a whole number: {port!r}")
        if not 0 <= port <= _MOST_PORT:
            raise ValueError(f"a port is a number from 0 to {_MOST_PORT}: {port}")
        self.asked = asked
        self.token = secrets.token_urlsafe(24)
        super().__init__((LOCAL, port), Handler)

    def server_bind(self) -> None:
        """Binds without asking anybody for this machine's name."""
        socketserver.TCPServer.server_bind(self)
        self.server_name, self.server_port = LOCAL, self.server_address[1]

    @property
    def hosts(self) -> tuple[str, ...]:
        """What a browser may call this server."""
        return f"{LOCAL}:{self.server_port}", f"localhost:{self.server_port}"

    @property
    def address(self) -> str:
        """Where the page is."""
        return f"http://{self.hosts[0]}/{self.token}/"


class Handler(BaseHTTPRequestHandler):
    """Answers one browser's requests."""

    server: Server
    protocol_version = "HTTP/1.1"
    server_version, sys_version = "propbench", ""
    # A connection that says nothing for so many seconds is closed.
    timeout = 60

    def handle(self) -> None:
        """Answers what comes over a connection. One that the browser drops, at whatever moment, has
        come to its end."""
        with suppress(ConnectionError):
            super().handle()

    def do_GET(self) -> None:
        """A file of the page, its state, or its lines."""
        self._answered(self._get)

    def do_POST(self) -> None:
        """A question."""
        self._answered(self._post)

    def log_message(self, format: str, *args: object) -> None:
        """Writes nothing: an address has the token."""

    def _answered(self, answer: Callable[[str], None]) -> None:
        try:
            answer(self._path())
        except Refusal as refusal:
            self.close_connection = True
            self._send(refusal.status, _TEXT, f"{refusal}\n".encode())

    def _path(self) -> str:
        """The path behind the token. Raises Refusal for what is not asked by the page itself."""
        hosts = self.headers.get_all("Host") or []
        if len(hosts) != 1 or hosts[0] not in self.server.hosts:
            raise Refusal(HTTPStatus.MISDIRECTED_REQUEST, "this is another host")
        origins = self.headers.get_all("Origin") or []
        if any(origin != f"http://{hosts[0]}" for origin in origins):
            raise Refusal(HTTPStatus.FORBIDDEN, "another page may not ask")
        if self.headers.get("Sec-Fetch-Site", "none") not in ("none", "same-origin"):
            raise Refusal(HTTPStatus.FORBIDDEN, "another page may not ask")
        if self.command == "POST" and not origins:
            raise Refusal(HTTPStatus.FORBIDDEN, "a question comes with its Origin")
        _, _, behind = self.path.partition("/")
        token, _, path = behind.partition("/")
        right = secrets.compare_digest(token.encode("utf-8", "replace"), self.server.token.encode())
        if not right:
            raise Refusal(HTTPStatus.FORBIDDEN, "the address lacks its token")
        return path

    def _get(self, path: str) -> None:
        if path in _FILES:
            name, kind = _FILES[path]
            self._send(
                HTTPStatus.OK, kind, (files("propbench.page") / "static" / name).read_bytes()
            )
        elif path == "state":
            self._told(lambda: self.server.asked.state(self._is_gone))
        elif path == "version":
            self._send_json(self.server.asked.version())
        elif path == "network.prop":
            text = self.server.asked.saved().encode("utf-8", "surrogateescape")
            named = {"Content-Disposition": 'attachment; filename="network.prop"'}
            self._send(HTTPStatus.OK, _TEXT, text, named)
        else:
            raise Refusal(HTTPStatus.NOT_FOUND, "there is nothing here")

    def _post(self, path: str) -> None:
        asked = self._body()
        if path == "stop":
            self.server.asked.stop()
            self._send_json({})
        elif path == "do":
            self._told(lambda: self.server.asked.do(asked, self._is_gone))
        else:
            raise Refusal(HTTPStatus.NOT_FOUND, "there is nothing here")

    def _is_gone(self) -> bool:
        """Whether the browser has dropped the connection, as it does when the page is closed."""
        drops = select.poll()
        drops.register(self.connection, select.POLLRDHUP)
        return bool(drops.poll(0))

    def _told(self, ask: Callable[[], dict[str, object]]) -> None:
        """Sends an answer, or why there is none."""
        try:
            self._send_json(ask())
        except ValueError as error:
            self._send_json({"error": str(error)}, HTTPStatus.BAD_REQUEST)

    def _body(self) -> Mapping[str, object]:
        if self.headers.get("Content-Type") != _JSON or self.headers.get("Transfer-Encoding"):
            raise Refusal(HTTPStatus.UNSUPPORTED_MEDIA_TYPE, "a question is JSON")
        length = self.headers.get("Content-Length", "")
        is_number = length.isascii() and length.isdigit()
        if not is_number or len(length) > _MOST_DIGITS or int(length) > _MOST_BYTES:
            raise Refusal(HTTPStatus.REQUEST_ENTITY_TOO_LARGE, "a question is shorter")
        try:
            asked = json.loads(self.rfile.read(int(length)))
        except (ValueError, RecursionError):
            asked = None
        if not isinstance(asked, dict):
            raise Refusal(HTTPStatus.BAD_REQUEST, "a question is a JSON object")
        return asked

    def _send_json(self, value: object, status: HTTPStatus = HTTPStatus.OK) -> None:
        self._send(status, _JSON, json.dumps(value).encode())

    def _send(
        self, status: HTTPStatus, kind: str, body: bytes, more: Mapping[str, str] | None = None
    ) -> None:
        self.send_response(status)
        for name, value in {**_HEADERS, **(more or {})}.items():
            self.send_header(name, value)
        self.send_header("Content-Type", kind)
        self.send_header("Content-Length", str(len(body)))
        self.end_headers()
        self.wfile.write(body)
