"""The requests of a connection to a board: who may ask, and which route answers.

Each address begins with a token that only the person who started the board gets. If a request lacks
it, the handler reads only its first line, and answers with a page that says how to get in. It
refuses a request with 403 if that names another host, or if a page of another origin made it; with
400 if it is malformed; and otherwise as the board does. Requests reach the desk one after another.
"""

from __future__ import annotations

import hmac
import json
import re
import select
import socket
from collections.abc import Callable
from http.server import BaseHTTPRequestHandler
from socketserver import BaseServer
from threading import Lock
from typing import ClassVar
from urllib.parse import parse_qsl, quote, urlsplit

from .connections import LivePages, UnknownConnections
from .responses import LONGEST_TEXT, POLICY, Answering, Json, Response, WrongForm, answer, outside

LONGEST_BODY, LONGEST_FILE = 1 << 20, 1 << 28
# The form of the names that pages give themselves.
PAGE_NAME = "[0-9a-f-]{1,40}"


class Host(BaseServer):
    """What a server provides for the requests of its connections."""

    # What answers now. It is replaced while the lock is held.
    board: Answering
    guests: LivePages
    hosts: set[str]
    lock: Lock
    pages: dict[str, Response]
    strangers: UnknownConnections
    token: str

    def let_go(self, connection: socket.socket) -> None:
        """End a connection that is held open."""
        raise NotImplementedError


class Handler(BaseHTTPRequestHandler):
    """The requests of a connection."""

    protocol_version = "HTTP/1.1"
    server_version = "dmf-board"
    sys_version = ""
    # How long a connection that has shown the token may be idle, in seconds.
    timeout = 60
    wbufsize = 1 << 16
    disable_nagle_algorithm = True
    server: Host
    raw_requestline: bytes
    FIXED: ClassVar[dict[str, str]] = {
        "Cache-Control": "no-store",
        "X-Content-Type-Options": "nosniff",
        "Referrer-Policy": "no-referrer",
        "Cross-Origin-Opener-Policy": "same-origin",
        "Cross-Origin-Resource-Policy": "same-origin",
        "X-Frame-Options": "DENY",
    }

    def do_GET(self) -> None:
        self._serve(self._get)

    def do_POST(self) -> None:
        self._serve(self._post)

    def log_message(self, *_: object) -> None:
        """Log nothing, since an address contains the token."""

    def parse_request(self) -> bool:
        """Read the head of a request. Of one without the token its first line alone is looked
        at."""
        words = self.raw_requestline.split()
        path = words[1].split(b"?")[0].split(b"/") if len(words) > 1 else []
        if len(path) < 2 or path[0] or not hmac.compare_digest(path[1], self.server.token.encode()):
            self.requestline, self.command, self.request_version = "", "", self.protocol_version
            self.close_connection = True
            self._send(
                outside(
                    "The address does not have the token that the board printed when it started"
                )
            )
            return False
        self.server.strangers.admit(self.connection)
        self.server.guests.note_request()
        return super().parse_request()

    def finish(self) -> None:
        super().finish()
        self.server.strangers.part(self.connection)

    def _serve(self, make: Callable[[str], Response | None]) -> None:
        """Answer a request that may be answered."""
        try:
            made = self._refusal() or make(self._path())
        except WrongForm as fault:
            made = answer({"error": str(fault)}, 400)
            # What is left of the request is not read.
            self.close_connection = True
        except Exception as error:
            made = answer({"error": f"the board failed to answer ({error!r})"}, 500)
            self.close_connection = True
        if made:
            self._send(made)

    def _refusal(self) -> Response | None:
        """Return the refusal of a request whose sender, though it has the token, may not ask this,
        or None."""
        why = ""
        hosts = self.headers.get_all("Host") or []
        site = self.headers.get("Sec-Fetch-Site", "none")
        # The file that a browser is started with leads to the page, and is another site.
        is_opened = (
            self.command == "GET"
            and self._path() == "/"
            and self.headers.get("Sec-Fetch-Mode") == "navigate"
        )
        if len(hosts) != 1 or hosts[0].lower() not in self.server.hosts:
            why = (
                "This board does not answer to the name and the port that the address has; "
                "--host-name NAME:PORT lets it do so"
            )
        elif any(origin != f"http://{hosts[0]}" for origin in self.headers.get_all("Origin") or []):
            why = "The request comes from a page of another origin"
        elif site not in ("same-origin", "none") and not (
            is_opened and self.headers.get("Sec-Fetch-Dest") == "document"
        ):
            why = "The request comes from a page of another site"
        if not why:
            return None
        self.close_connection = True
        return outside(why)

    def _path(self) -> str:
        """Return what stands after the token."""
        return urlsplit(self.path).path[len(self.server.token) + 1 :]

    def _get(self, path: str) -> Response | None:
        if path in ("", "/"):
            if not path:
                return Response(303, "text/plain", b"", to=f"/{self.server.token}/")
            self.server.guests.note_request(is_page=True)
            return self.server.pages[self.server.board.page]
        if path[1:] in self.server.pages:
            return self.server.pages[path[1:]]
        if path == "/life":
            self._live(urlsplit(self.path).query)
            return None
        words = self._words()
        return self._asked(lambda board: board.get(path[1:], words))

    def _words(self) -> dict[str, str]:
        """Return the parameters of the address. Raise a `WrongForm`."""
        query = urlsplit(self.path).query
        try:
            pairs = parse_qsl(query, keep_blank_values=True, strict_parsing=bool(query))
        except ValueError:
            raise WrongForm("the parameters of the address must have the form NAME=TEXT") from None
        words = dict(pairs)
        if len(words) != len(pairs) or any(len(text) > LONGEST_TEXT for text in words.values()):
            raise WrongForm("a parameter of the address is given twice, or is too long")
        return words

    def _post(self, path: str) -> Response | None:
        if path == "/upload":
            words, data = self._words(), self._body("application/octet-stream", LONGEST_FILE)
            return self._asked(lambda board: board.upload(words, data))
        content = self._content()
        if path == "/stop":
            # It stops what has the lock.
            return self.server.board.stop()
        if path == "/left":
            self.server.guests.leave(_page_name(content.get("page")))
            return answer({})
        return self._asked(lambda board: board.post(path[1:], content))

    def _asked(self, ask: Callable[[Answering], Response]) -> Response:
        """Return the board's answer. If there is a newer state then, each page is told."""
        with self.server.lock:
            try:
                return ask(self.server.board)
            finally:
                self.server.board = self.server.board.successor
                self.server.guests.tell(self.server.board.turn, self.server.board.picture_version)

    def _content(self) -> Json:
        """Return the content of a request. Raise a `WrongForm`."""
        try:
            content = json.loads(self._body("application/json", LONGEST_BODY).decode())
        except (ValueError, RecursionError):
            raise WrongForm("the request is not valid JSON") from None
        if not isinstance(content, dict):
            raise WrongForm("expected a JSON object")
        return content

    def _body(self, kind: str, most: int) -> bytes:
        """Return the body of a request, which has this type. Raise a `WrongForm`."""
        if self.headers.get("Content-Type", "").split(";")[0].strip() != kind:
            raise WrongForm(f"expected the type {kind}")
        length = self.headers.get("Content-Length", "")
        if not re.fullmatch("[0-9]{1,9}", length) or int(length) > most:
            raise WrongForm(f"expected a body of at most {most} bytes")
        body = self.rfile.read(int(length))
        if len(body) < int(length):
            raise WrongForm("the request ends before its body does")
        return body

    def _send(self, made: Response) -> None:
        self.send_response(made.status)
        for name, text in self.FIXED.items():
            self.send_header(name, text)
        self.send_header("Content-Security-Policy", POLICY)
        self.send_header("Content-Type", made.kind)
        self.send_header("Content-Length", str(len(made.body)))
        if made.file:
            self.send_header("Content-Disposition", f"attachment; filename={quote(made.file)}")
        if made.to:
            self.send_header("Location", made.to)
        if self.close_connection:
            self.send_header("Connection", "close")
        self.end_headers()
        self.wfile.write(made.body)

    def _live(self, words: str) -> None:
        """Hold the connection of a page until the page closes it. Events on it tell the turn."""
        self.close_connection = True
        self.send_response(200)
        for name, text in self.FIXED.items():
            self.send_header(name, text)
        self.send_header("Content-Type", "text/event-stream")
        self.end_headers()
        self.wfile.write(b": here\n\n")
        self.wfile.flush()
        self.server.guests.hold(self.connection, _page_name(dict(parse_qsl(words)).get("page")))
        try:
            while True:
                select.select([self.connection], [], [])
                if not self.connection.recv(1, socket.MSG_PEEK | socket.MSG_DONTWAIT):
                    return
                self.connection.recv(1 << 12)
        except OSError:
            pass
        finally:
            self.server.let_go(self.connection)


def _page_name(told: object) -> str:
    """Return the name of a page, or an empty text if it is not a valid name."""
    return told if isinstance(told, str) and re.fullmatch(PAGE_NAME, told) else ""
