"""A tunnel, as ssh makes one, whose connections a test breaks."""

from __future__ import annotations

import contextlib
import socket
import threading
from collections.abc import Iterator


class Tunnel:
    """Passes bytes on between a port of its own and another one of this machine."""

    def __init__(self) -> None:
        self.way_in = socket.create_server(("127.0.0.1", 0))
        self.port = int(self.way_in.getsockname()[1])
        self.ends: list[socket.socket] = []
        self.closed = 0
        # The answers to requests that have this in them are lost, and their connections break.
        self.unanswered = b""
        self._losing: set[socket.socket] = set()

    def lead_to(self, port: int) -> None:
        threading.Thread(target=self._lead_to, args=(port,), daemon=True).start()

    def _lead_to(self, port: int) -> None:
        with contextlib.suppress(OSError):
            while True:
                here = self.way_in.accept()[0]
                try:
                    self._take(here, port)
                except OSError:
                    here.close()

    def _take(self, here: socket.socket, port: int) -> None:
        """Passes on what comes by a connection, or raises an OSError."""
        if self.closed > 0:
            self.closed -= 1
            raise ConnectionAbortedError
        there = socket.create_connection(("127.0.0.1", port))
        self.ends += [here, there]
        for ends in (here, there), (there, here):
            threading.Thread(target=self._pass_on, args=ends, daemon=True).start()

    def _pass_on(self, source: socket.socket, target: socket.socket) -> None:
        with contextlib.suppress(OSError):
            while (data := source.recv(65536)) and source not in self._losing:
                if self.unanswered and self.unanswered in data:
                    self._losing.add(target)
                target.sendall(data)
        for end in source, target:
            with contextlib.suppress(OSError):
                end.shutdown(socket.SHUT_RDWR)

    def break_all(self, later: int = 0) -> None:
        """Breaks the connections that there are, and so many of the next ones. Those after them are
        passed on as before."""
        self.closed = later
        broken, self.ends = self.ends, []
        for end in broken:
            with contextlib.suppress(OSError):
                end.shutdown(socket.SHUT_RDWR)


@contextlib.contextmanager
def tunnel() -> Iterator[Tunnel]:
    made = Tunnel()
    try:
        yield made
    finally:
        made.way_in.close()
        made.break_all()
