"""How tools/dmf-board and its sessions end: by an interrupt, with the last page, when a session is
killed, and after an error that nobody foresaw."""

from __future__ import annotations

import contextlib
import csv
import http.client
import io
import json
import os
import signal
import socket
import threading
import time
from concurrent.futures import ThreadPoolExecutor
from pathlib import Path
from typing import Any

import pytest
from board_running import Board, board
from built import BUILT
from desk_shared import PIPES, run, stop_session
from dmf import Network
from dmf.desk import seconds as desk_seconds
from dmf.desk.board.responses import Response
from dmf.desk.board.routes import Board as InBoard
from dmf.desk.workspace import Desk
from dmf.tables.loader import LoadedProblem
from limits import SECONDS
from tool_runs import wait_until_asked


def test_ends() -> None:
    """An interrupt ends the board and its session; so does the end of the last page, but not that
    of one of two."""
    for by in signal.SIGINT, signal.SIGTERM, signal.SIGHUP:
        with board(PIPES) as it:
            sessions = it.sessions()
            status = it.end(by)
            left = [one for one in sessions if Path(f"/proc/{one}").exists()]
            assert (len(sessions), status, left) == (
                1,
                130,
                [],
            ), f"ended by {by}: {status}, {sessions}, {left}"
    with board(PIPES) as it:
        sessions = it.sessions()
        pages = [socket.create_connection(("127.0.0.1", it.port), SECONDS) for _ in range(2)]
        for page in pages:
            page.sendall(f"GET {it.root}life HTTP/1.1\r\nHost: {it.host}\r\n\r\n".encode())
            seen = b""
            while b": here" not in seen:
                piece = page.recv(1 << 12)
                assert piece, f"the page ends: {seen!r}"
                seen += piece
        pages[0].close()
        assert it.state()["value"] == "165"
        pages[1].close()
        # Each request has the board run on.
        for _ in range(2):
            time.sleep(2)
            assert it.state()["value"] == "165"
        status = it.ended()
        left = [one for one in sessions if Path(f"/proc/{one}").exists()]
        assert (status, left) == (0, []), f"the end of the last page: {status}, {left}"


def test_interrupt_among_requests() -> None:
    """An interrupt ends the board also while requests come."""
    with board(PIPES) as it:
        asking = [threading.Thread(target=keep_asking, args=(it,), daemon=True) for _ in range(3)]
        for one in asking:
            one.start()
        time.sleep(0.3)
        assert it.end() == 130


def keep_asking(it: Board) -> None:
    """Asks until the board answers no more."""
    with contextlib.suppress(OSError, http.client.HTTPException):
        while True:
            it.state()


def test_session_that_ends() -> None:
    """The board says so, and begins again with the steps; and what can be taken along is of the
    present plan."""
    with board(PIPES) as it:
        it.do(what="close", arc=10)
        turn = it.turn()
        (session,) = it.sessions()
        os.kill(session, signal.SIGKILL)
        status, told = it.post("do", what="close", arc=1)
        said = json.loads(told)["error"]
        assert (
            status,
            "SIGKILL. The session was begun again, with the steps that were made" in said,
        ) == (409, True), told
        os.kill(it.sessions()[0], signal.SIGKILL)
        # What changes nothing is answered, and this is told with it.
        state = it.state()
        assert (state["value"], state["at"], len(state["steps"]), state["turn"]) == (
            "155",
            1,
            2,
            turn,
        ), f"begun again: {state}"
        assert "SIGKILL. The session was begun again" in state["told"] and not it.state()["told"]
        _, sent, table = it.ask(it.root + f"plan.csv?turn={turn}")
        rows = list(csv.DictReader(io.StringIO(table.decode())))
        assert (
            len(rows),
            sum(int(row["flow (litres per second)"]) for row in rows if row["to"] == "Harbour"),
        ) == (13, 155), f"the table: {table!r}"
        assert "attachment" in sent.get("Content-Disposition", ""), f"the table is no file: {sent}"
        assert b"p max 9 13" in it.ask(it.root + f"problem.max?turn={turn}")[2]


def test_no_new_session(tmp_path: Path, monkeypatch: pytest.MonkeyPatch) -> None:
    """Where no other session can be begun, the board says so, and keeps the steps for a later try,
    and to be taken along."""
    program = tmp_path / "dmf"
    program.symlink_to(BUILT)
    monkeypatch.setenv("DMF", str(program))
    with board(PIPES) as it:
        turn = it.do(what="close", arc=10)["turn"]
        program.unlink()
        os.kill(it.sessions()[0], signal.SIGKILL)
        done: list[dict[str, Any]] = [{"what": "close", "arc": 1}, {"what": "again"}]
        for content in done:
            status, told = it.post("do", **content)
            said = json.loads(told)
            assert (status, said["steps"], "could not be begun again" in said["ended"]) == (
                410,
                1,
                True,
            ), told
        assert b"p max 9 13" in it.ask(it.root + f"problem.max?turn={turn}")[2]
        program.symlink_to(BUILT)
        state = it.do(what="again")
        assert (state["value"], state["at"], state["turn"]) == ("155", 1, turn), state


@pytest.mark.parametrize(
    "error",
    [
        AssertionError(),
        MemoryError(),
        RecursionError("too deep"),
        KeyError("x"),
        OSError(12, "no memory"),
    ],
)
def test_unforeseen(monkeypatch: pytest.MonkeyPatch, error: Exception) -> None:
    """Whatever error comes out of a request: a sentence tells it, and the steps before it stand."""
    text = run("dmf-problem", "--table", PIPES, "Reservoir", "Harbour").stdout
    board = InBoard(Desk(LoadedProblem("a test", text.encode()), with_solve=True))

    def told(made: Response) -> Any:
        return made.status, json.loads(made.body)

    assert told(board.post("do", {"what": "close", "arc": 10, "turn": board.desk.turn}))[0] == 200
    before = told(board.get("state", {}))

    def failing(*_: object, **__: object) -> None:
        raise error

    asked: list[tuple[object, str, str, dict[str, Any]]] = [
        (Network, "shut", "do", {"what": "shut", "node": 5})
    ]
    asked += [
        (desk_seconds, "sweep", "seconds", {"arcs": [1, 2, 3]}),
        (Network, "solve", "do", {"what": "close", "arc": 3}),
    ]
    for at, name, path, content in asked:
        with monkeypatch.context() as patched:
            patched.setattr(at, name, failing)
            if name == "solve":
                # Then no other session can be begun either.
                assert told(board.post(path, {**content, "turn": board.desk.turn}))[0] == 410
                continue
            status, said = told(board.post(path, {**content, "turn": board.desk.turn}))
        assert status == 409 and (
            type(error).__name__ in said["error"] or str(error) in said["error"]
        ), said
        assert told(board.get("state", {})) == before
    status, said = told(board.post("do", {"what": "again", "turn": board.desk.turn}))
    assert (said.pop("moved"), (status, said)) == ("no change", before)
    board.desk.end()


def test_stop() -> None:
    """What takes long is stopped by another request, or by the end of the board, and the steps
    before it are kept."""
    with board(PIPES) as it:
        it.do(what="close", arc=10)
        state = it.state()
        # With nothing to stop, this does nothing.
        (session,) = it.sessions()
        assert (it.post("stop"), it.sessions()) == ((200, b"{}"), [session])
        stop_session(session)
        with ThreadPoolExecutor() as threads:
            shut = threads.submit(it.post, "do", what="shut", node=5, turn=state["turn"])
            wait_until_asked(session)
            it.post("stop", turn=0)
            status, told = shut.result(SECONDS)
            assert (status, json.loads(told)["error"]) == (
                409,
                "it was stopped. The session was begun again, with the steps that were made",
            ), told
            assert it.state() == state
            (session,) = it.sessions()
            stop_session(session)
            shut = threads.submit(it.post, "do", what="shut", node=5, turn=state["turn"])
            wait_until_asked(session)
            assert it.end() == 130
            with contextlib.suppress(OSError, http.client.HTTPException):
                shut.result(SECONDS)
        until = time.monotonic() + SECONDS
        with contextlib.suppress(OSError):
            while b") Z " not in Path(f"/proc/{session}/stat").read_bytes():
                assert time.monotonic() < until, "a session stays behind"
                time.sleep(0.05)
