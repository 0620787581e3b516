"""A board that runs, and what the tests ask it."""

from __future__ import annotations

import contextlib
import http.client
import json
import signal
import subprocess
from collections.abc import Callable, Iterator
from pathlib import Path
from typing import Any, Optional
from urllib.parse import urlsplit

from built import heed_interrupts
from desk_shared import ROOT, sessions_of
from dmf.desk.board.connections import AFTER_BREAK
from limits import SECONDS

JSON = {"Content-Type": "application/json"}


class Board:
    """A running board, and requests to it. It is started in the folder `cwd`."""

    def __init__(
        self, *words: str, preexec: Callable[[], None] = heed_interrupts, cwd: Path = ROOT
    ) -> None:
        self.process = subprocess.Popen(
            [ROOT / "tools/dmf-board", "--no-browser", *words],
            stdout=subprocess.PIPE,
            stderr=subprocess.PIPE,
            text=True,
            cwd=cwd,
            preexec_fn=preexec,
        )
        assert self.process.stdout
        self.address = self.process.stdout.readline().strip()
        where = urlsplit(self.address)
        self.host, self.port, self.root = where.netloc, where.port or 0, where.path

    def ask(
        self, path: str, body: Optional[bytes] = None, method: str = "", **headers: Optional[str]
    ) -> tuple[int, dict[str, str], bytes]:
        """The answer to a request below the board's address. A header that is None is left out."""
        connection = http.client.HTTPConnection("127.0.0.1", self.port, timeout=SECONDS)
        sent: dict[str, Optional[str]] = {
            "Host": self.host,
            **{name.replace("_", "-"): text for name, text in headers.items()},
        }
        try:
            connection.putrequest(
                method or ("POST" if body is not None else "GET"),
                path,
                skip_host=True,
                skip_accept_encoding=True,
            )
            if body is not None and "Content-Length" not in sent:
                sent["Content-Length"] = str(len(body))
            for name, text in sent.items():
                if text is not None:
                    connection.putheader(name, text)
            connection.endheaders(body)
            answer = connection.getresponse()
            return answer.status, dict(answer.getheaders()), answer.read()
        finally:
            connection.close()

    def told(self, path: str) -> Any:
        """What is told without a change."""
        return json.loads(self.ask(self.root + path)[2])

    def do(self, **content: Any) -> Any:
        """What is answered to something that is done, by a page that shows the present state if no
        other turn is given."""
        return json.loads(self.post("do", **content)[1])

    def post(self, path: str, **content: Any) -> tuple[int, bytes]:
        """The status of the answer to such a request, and what it has."""
        body = {"turn": self.turn(), **content} if "turn" not in content else content
        status, _, told = self.ask(self.root + path, json.dumps(body).encode(), **JSON)
        return status, told

    def turn(self) -> int:
        return int(self.told("turn")["turn"])

    def state(self) -> Any:
        return self.told("state")

    def sessions(self) -> list[int]:
        """The sessions of the program that it has."""
        return sessions_of(self.process.pid)

    def end(self, by: int = signal.SIGINT) -> int:
        """Ends the board, and gives its status."""
        self.process.send_signal(by)
        return self.ended()

    def ended(self) -> int:
        """The status of the board, once it has ended. It runs on for a time after its last page."""
        with contextlib.suppress(subprocess.TimeoutExpired):
            self.process.communicate(timeout=AFTER_BREAK + SECONDS)
        if self.process.poll() is None:
            self.process.kill()
        return self.process.wait()


@contextlib.contextmanager
def board(
    *words: str, preexec: Callable[[], None] = heed_interrupts, cwd: Path = ROOT
) -> Iterator[Board]:
    made = Board(*words, preexec=preexec, cwd=cwd)
    try:
        yield made
    finally:
        if made.process.poll() is None:
            made.end()
