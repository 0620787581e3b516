"""The connections of a board: the pages that it serves, and those that have not shown its token.

By a connection that a page holds it is told of each newer state, and tells the other tabs of its
browser. The board runs on for these connections."""

from __future__ import annotations

import contextlib
import math
import socket
import struct
import threading
import time
from collections.abc import Callable

# How long a board runs on without a page, in seconds: after a request, longer than a reload takes
# to the next one; after one for the page itself, which must load and start its scripts before it
# holds a connection, and on a busy machine that takes long; and after a connection that broke, for
# example because a machine sleeps or a tunnel reconnects, since its page has not said that it is
# left.
AFTER_REQUEST, AFTER_PAGE, AFTER_BREAK = 10.0, 60.0, 300.0


class LivePages:
    """The pages that hold a connection, by the names that they give themselves."""

    def __init__(self, turn: int, clock: Callable[[], float] = time.monotonic) -> None:
        self._clock = clock
        # The turn, and the version of the picture.
        self._told = turn, 0
        self._changed = threading.Condition()
        self._held: dict[socket.socket, str] = {}
        # Those of them that said that they are left, but whose connections have not ended yet.
        self._left: set[str] = set()
        # Until when the board runs on for a page whose connection broke, and under no name for
        # those that may come.
        self._until = {"": clock()}

    def note_request(self, is_page: bool = False) -> None:
        """Keep the board running for a page that asks for something or, for longer, that is itself
        asked for."""
        with self._changed:
            self._wait_for("", AFTER_PAGE if is_page else AFTER_REQUEST)

    def hold(self, page: socket.socket, name: str) -> None:
        """Take the connection of a new page, which is sent the number of each newer state."""
        with self._changed:
            self._held[page] = name
            self._until.pop(name, None)
            self._until[""] = self._clock() + AFTER_REQUEST
            self._changed.notify_all()
            _tell(page, *self._told)

    def leave(self, name: str) -> None:
        """Record that a page was left, as when it is closed or reloaded. Its connection has ended
        or soon will."""
        with self._changed:
            if name in self._held.values():
                self._left.add(name)
            elif name:
                self._until.pop(name, None)
            self._changed.notify_all()

    def let_go(self, page: socket.socket) -> None:
        """Record that a page's connection has ended."""
        with self._changed:
            name = self._held.pop(page)
            if name not in self._held.values():
                self._wait_for(
                    *(
                        ("", AFTER_REQUEST)
                        if not name or name in self._left
                        else (name, AFTER_BREAK)
                    )
                )
                self._left.discard(name)

    def rest(self) -> float:
        """Return how long the board runs on if no page comes, in seconds."""
        return math.inf if self._held else max(self._until.values()) - self._clock()

    def is_last(self) -> bool:
        """Wait while there is no page and the board runs on. Return True if it need not run any
        more."""
        with self._changed:
            while not self._held and (rest := self.rest()) > 0:
                self._changed.wait(rest)
            return not self._held

    def tell(self, turn: int, picture: int = 0) -> None:
        """Tell each page the turn, and the version of the picture, in which places may have moved,
        if they are others than it was told before."""
        now = turn, picture
        with self._changed:
            for page in self._held if now != self._told else ():
                _tell(page, *now)
            self._told = now

    def _wait_for(self, name: str, seconds: float) -> None:
        self._until[name] = max(self._until.get(name, 0.0), self._clock() + seconds)


def _tell(page: socket.socket, turn: int, picture: int) -> None:
    """Send an event with the turn, and the version of the picture if that was changed. A page that
    takes nothing, or has gone, is not waited for."""
    told = f"{turn} {picture}" if picture else str(turn)
    with contextlib.suppress(OSError):
        page.send(f"data: {told}\n\n".encode(), socket.MSG_DONTWAIT)


# How many connections may wait that have not shown the token, and how long each may take to show
# it, in seconds.
MOST_STRANGERS, PATIENCE = 16, 5.0


class UnknownConnections:
    """The connections that have not shown the token. If there are too many, the oldest one of
    another user's is ended first, or else the oldest. It is ended by a reset, after which its user
    holds no port of this machine for it: otherwise pages might find none left."""

    def __init__(self) -> None:
        self._waiting: dict[socket.socket, tuple[bool, float]] = {}
        self._lock = threading.Lock()

    def take(self, connection: socket.socket, is_own: bool) -> None:
        _reset_at_end(connection, True)
        with self._lock:
            self._waiting[connection] = is_own, time.monotonic()
            if len(self._waiting) > MOST_STRANGERS:
                self._end(min(self._waiting, key=self._waiting.__getitem__))

    def admit(self, connection: socket.socket) -> None:
        """Take a connection off the list, since it has shown the token."""
        if self.drop(connection):
            _reset_at_end(connection, False)

    def drop(self, connection: socket.socket) -> bool:
        """Forget a connection. Return True if it was one of these."""
        with self._lock:
            return self._waiting.pop(connection, None) is not None

    def part(self, connection: socket.socket) -> None:
        """Wait until one of these connections ends, so that its user can read the answer."""
        if connection in self._waiting:
            with contextlib.suppress(OSError):
                connection.shutdown(socket.SHUT_WR)
                while connection.recv(1 << 12):
                    pass

    def end_late(self, patience: float = PATIENCE) -> None:
        """End those that have waited too long."""
        with self._lock:
            until = time.monotonic() - patience
            for connection in [
                connection for connection, (_, since) in self._waiting.items() if since <= until
            ]:
                self._end(connection)

    def _end(self, connection: socket.socket) -> None:
        """End a connection. Its thread closes it."""
        del self._waiting[connection]
        with contextlib.suppress(OSError):
            connection.shutdown(socket.SHUT_RDWR)


def _reset_at_end(connection: socket.socket, is_so: bool) -> None:
    with contextlib.suppress(OSError):
        connection.setsockopt(socket.SOL_SOCKET, socket.SO_LINGER, struct.pack("ii", is_so, 0))


def user_of(client: tuple[str, int], server: tuple[str, int]) -> int | None:
    """Return the user who has the client's end of a connection on this machine, where Linux
    tells."""
    ends = struct.pack(
        "!HH4s12x4s12x",
        client[1],
        server[1],
        socket.inet_aton(client[0]),
        socket.inet_aton(server[0]),
    )
    asked = (
        struct.pack("BBBxI", socket.AF_INET, socket.IPPROTO_TCP, 0, 0xFFFFFFFF)
        + ends
        + struct.pack("III", 0, 0xFFFFFFFF, 0xFFFFFFFF)
    )
    head = struct.pack("IHHII", 16 + len(asked), 20, 1, 0, 0)
    try:
        with socket.socket(socket.AF_NETLINK, socket.SOCK_DGRAM, 4) as kernel:
            kernel.settimeout(1)
            kernel.send(head + asked)
            told = kernel.recv(1 << 12)
    except (AttributeError, OSError):
        return None
    is_found = len(told) >= 84 and struct.unpack_from("H", told, 4) == (20,)
    return int(struct.unpack_from("I", told, 80)[0]) if is_found else None
