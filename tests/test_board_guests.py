"""How long a board runs on for its pages, by a clock that the test sets."""

from __future__ import annotations

import json
import math
import socket
from collections.abc import Iterator

import pytest
from board_running import JSON, board
from desk_shared import PIPES
from dmf.desk.board.connections import AFTER_BREAK, AFTER_PAGE, AFTER_REQUEST, LivePages
from limits import SECONDS


class Room:
    """Guests, a clock, and the connections that are held, by the names of their pages."""

    def __init__(self) -> None:
        self.now = 100.0
        self.guests = LivePages(1, lambda: self.now)
        self.ends: dict[str, tuple[socket.socket, socket.socket]] = {}

    def come(self, name: str) -> None:
        self.ends[name] = socket.socketpair()
        self.guests.hold(self.ends[name][0], name)

    def end(self, name: str) -> None:
        """The connection of a page ends."""
        ends = self.ends.pop(name)
        self.guests.let_go(ends[0])
        for one in ends:
            one.close()


@pytest.fixture
def room() -> Iterator[Room]:
    made = Room()
    yield made
    for name in list(made.ends):
        made.end(name)


def test_page_that_comes(room: Room) -> None:
    """The board runs on for a page that is asked for, until it has come, and then as long as it is
    there."""
    room.guests.note_request(is_page=True)
    room.now += 5
    room.guests.note_request()
    assert room.guests.rest() == AFTER_PAGE - 5
    room.come("a")
    room.now += 100_000
    assert room.guests.rest() == math.inf and not room.guests.is_last()
    room.guests.leave("a")
    room.end("a")
    assert room.guests.rest() == AFTER_REQUEST
    room.now += AFTER_REQUEST
    assert room.guests.is_last()


def test_page_that_is_left(room: Room) -> None:
    """Of a page that is left the end of its connection is heard before that, or after it."""
    room.come("a")
    room.end("a")
    assert room.guests.rest() == AFTER_BREAK
    room.now += 1
    room.guests.note_request()
    room.guests.leave("a")
    assert room.guests.rest() == AFTER_REQUEST


def test_broken_connection(room: Room) -> None:
    """A page whose connection broke is waited for, and is known again when it comes."""
    room.come("a")
    room.end("a")
    room.now += AFTER_BREAK - 1
    assert room.guests.rest() == 1
    room.come("a")
    assert room.guests.rest() == math.inf
    # One that calls itself nothing is not.
    room.come("")
    for name in "", "a":
        room.end(name)
    assert room.guests.rest() == AFTER_BREAK
    room.guests.leave("a")
    room.now += AFTER_REQUEST
    assert room.guests.is_last()


def test_two_connections(room: Room) -> None:
    """A page that held a new connection before the end of the old one was heard of has one of
    them."""
    room.come("a")
    old = room.ends.pop("a")
    room.come("a")
    room.guests.let_go(old[0])
    assert room.guests.rest() == math.inf
    room.guests.leave("a")
    room.end("a")
    assert room.guests.rest() == AFTER_REQUEST
    for one in old:
        one.close()


def test_told(room: Room) -> None:
    """Each page is told the turn when it comes, and each later one once."""
    for name in "ab":
        room.come(name)
    for turn in 1, 2, 2, 5:
        room.guests.tell(turn)
    for name in "ab":
        assert room.ends[name][1].recv(1 << 10) == b"data: 1\n\ndata: 2\n\ndata: 5\n\n"


def test_left() -> None:
    """A page tells the board that it is left. What does not say which page that is changes
    nothing."""
    with board(PIPES) as it:
        for body, status in (
            ({"page": "12-ab"}, 200),
            ({}, 200),
            ({"page": ["x"]}, 200),
            ({"page": "<x>"}, 200),
            ([], 400),
        ):
            assert it.ask(it.root + "left", json.dumps(body).encode(), **JSON)[0] == status
        with socket.create_connection(("127.0.0.1", it.port), SECONDS) as page:
            page.sendall(
                f"GET {it.root}life?page=12-ab HTTP/1.1\r\nHost: {it.host}\r\n\r\n".encode()
            )
            seen = b""
            while b"data: " not in seen:
                seen += page.recv(1 << 12)
            assert it.ask(it.root + "left", b'{"page": "12-ab"}', **JSON)[0] == 200
        assert it.ended() == 0
