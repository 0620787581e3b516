"""The server of a board: a page in the browser over one desk, which this machine alone reaches.

A page of each browser holds a connection open, `life`. Once none has held one for a while, the
board ends.
"""

from __future__ import annotations

import contextlib
import errno
import os
import secrets
import socket
import tempfile
import threading
import time
from collections.abc import Sequence
from html import escape
from http.server import ThreadingHTTPServer
from pathlib import Path
from typing import Any

from .connections import LivePages, UnknownConnections, user_of
from .handler import Handler, Host
from .responses import LOOPBACK, WAY_IN, Answering, pages


class Door:
    """A file that leads a browser to an address. Other users may read the words of a browser's
    process, but not this file."""

    def __init__(self, address: str) -> None:
        """Raise an OSError if the file cannot be made."""
        self._folder = tempfile.TemporaryDirectory(prefix="dmf-board-")
        path = Path(self._folder.name, "board.html")
        with open(os.open(path, os.O_WRONLY | os.O_CREAT | os.O_EXCL, 0o600), "w") as file:
            file.write(WAY_IN.format(address=escape(address)))
        self.address = path.as_uri()

    def remove(self) -> None:
        with contextlib.suppress(OSError):
            self._folder.cleanup()


LOOPBACK_6 = "::1"
# How long the server waits if it has no file descriptor left for a connection, in seconds.
PAUSE = 0.2
NO_FILE_LEFT = (errno.EMFILE, errno.ENFILE, errno.ENOBUFS, errno.ENOMEM)
# How many ports the system is asked for, if the one that it gives is taken by another user in the
# other family of addresses.
MOST_PORTS = 20


class Server(ThreadingHTTPServer, Host):
    """The server of a board. `addresses` is where its page is: here, and then by each of these
    other names, each with its port, by which a tunnel may lead here."""

    daemon_threads = True
    allow_reuse_address = False
    request_queue_size = 1024

    def __init__(self, board: Answering, port: int = 0, names: Sequence[str] = ()) -> None:
        """Raise an OSError if the port is taken."""
        super().__init__((LOOPBACK, port), Handler, bind_and_activate=False)
        self.strangers = UnknownConnections()
        self._other: socket.socket | None = None
        try:
            self._listen(port)
        except OSError:
            self.server_close()
            raise
        self.board = board
        self.lock = threading.Lock()
        self.token = secrets.token_urlsafe(24)
        port = self.server_address[1]
        here = f"{LOOPBACK}:{port}"
        others = [name.lower() if ":" in name else f"{name.lower()}:{port}" for name in names]
        self.hosts = {here, f"localhost:{port}", *others, *map(str.lower, names)}
        self.addresses = [f"http://{host}/{self.token}/" for host in (here, *others)]
        self.pages = pages()
        self.guests = LivePages(board.turn)

    def _listen(self, port: int) -> None:
        """Listen at a port, or at a free one. It takes the same port of the other family of
        addresses, too: a browser that is sent to `localhost` may try that first, and would tell the
        token to the program that listens there."""
        for left in reversed(range(1 if port else MOST_PORTS)):
            self.server_address = LOOPBACK, port
            self.server_bind()
            try:
                self._other = self._other or socket.socket(socket.AF_INET6)
                self._other.bind((LOOPBACK_6, self.server_address[1]))
            except OSError as error:
                # Any other error means that this machine lacks the family.
                if error.errno == errno.EADDRINUSE:
                    if not left:
                        raise
                    self.socket.close()
                    self.socket = socket.socket(self.address_family, self.socket_type)
                    continue
            break
        self.server_activate()

    def server_close(self) -> None:
        super().server_close()
        if self._other:
            self._other.close()

    def let_go(self, page: socket.socket) -> None:
        """Record that a page's connection has ended. If it was the last one and no other comes in
        time, end the board."""
        self.guests.let_go(page)
        if self.guests.is_last():
            self.shutdown()

    # The connections.

    def get_request(self) -> tuple[socket.socket, Any]:
        try:
            return super().get_request()
        except OSError as error:
            if error.errno in NO_FILE_LEFT:
                # The loop that calls this would try again at once, and again.
                self.strangers.end_late(0)
                time.sleep(PAUSE)
            raise

    def process_request(self, request: Any, client_address: Any) -> None:
        self.strangers.take(
            request, user_of(client_address, request.getsockname()) in (os.getuid(), 0)
        )
        super().process_request(request, client_address)

    def shutdown_request(self, request: Any) -> None:
        self.strangers.drop(request)
        super().shutdown_request(request)

    def service_actions(self) -> None:
        self.strangers.end_late()

    def handle_error(self, request: object, client_address: object) -> None:
        """Ignore the error: it is not a fault if a page goes away during an answer."""
