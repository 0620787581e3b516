"""How much of the package a click on *Close it* runs: from the request of a page to the answer with
the new state, on the water network and the C library."""

from __future__ import annotations

import json
import sys
from collections import Counter
from collections.abc import Callable, Iterator
from pathlib import Path
from types import FrameType
from typing import Any

import dmf
import pytest
from c_library import library_file
from desk_shared import desk_of, water_problem, without
from dmf.desk.board.responses import Response
from dmf.desk.board.routes import Board

PACKAGE = str(Path(dmf.__file__).parent)
MOST_CALLS, MOST_MODULES = 200, 27
# The pipes that are closed one after another, by their numbers in the table.
CLOSED = {12: "Market link", 10: "Bridge pipe"}


@pytest.fixture
def board(monkeypatch: pytest.MonkeyPatch) -> Iterator[Board]:
    monkeypatch.setenv("DMF_LIBRARY", library_file())
    desk = desk_of(water_problem())
    try:
        yield Board(desk)
    finally:
        desk.end()


def counted(ask: Callable[[], Response]) -> tuple[Response, Counter[str]]:
    """The answer, and how many calls of each module it took. A generator that goes on counts as
    called."""
    calls: Counter[str] = Counter()

    def note(frame: FrameType, event: str, _: Any) -> None:
        file = frame.f_code.co_filename
        if event == "call" and file.startswith(PACKAGE):
            calls[file.removeprefix(PACKAGE)] += 1

    sys.setprofile(note)
    try:
        return ask(), calls
    finally:
        sys.setprofile(None)


def close(board: Board, arc: int) -> tuple[Response, Counter[str]]:
    """Close a pipe as the page does."""
    content = {"what": "close", "arc": arc, "turn": board.desk.turn, "shown": []}
    return counted(lambda: board.post("do", content))


def test_a_click_runs_few_calls(board: Board) -> None:
    board.get("state", {})
    response, calls = close(board, 12)
    told = json.loads(response.body)
    assert (response.status, told["value"]) == (200, str(without("Market link")))
    assert calls.total() <= MOST_CALLS, calls.most_common()
    assert len(calls) <= MOST_MODULES, sorted(calls)


def test_no_more_after_other_steps(board: Board) -> None:
    first = close(board, 12)[1].total()
    for _ in range(5):
        for path in ({"what": "open", "arc": 12}, {"what": "go", "step": 0}):
            assert board.post("do", {**path, "turn": board.desk.turn}).status == 200
        close(board, 12)
    last = close(board, 10)[1].total()
    assert last <= first + 10
