"""The planner's desk over both ways: by the C library in the process of a tool, and by the program
behind a pipe. What they say is the same."""

from __future__ import annotations

import json
import os
import threading
from collections.abc import Callable
from typing import Any

import dmf
import pytest
from board_running import Board, board
from c_library import library_folder
from desk_shared import PIPES, SCRIPT, STORY, desk_of, run, swept, water_problem
from dmf.session import library as loaded
from limits import SECONDS

WAYS = {"library": str(library_folder() / "libdmf.so.0"), "pipe": ""}


def by_both(monkeypatch: pytest.MonkeyPatch, ask: Callable[[], Any]) -> list[Any]:
    """What is answered by the library, and by the program."""
    said = []
    for path in WAYS.values():
        monkeypatch.setenv("DMF_LIBRARY", path)
        said.append(ask())
    return said


def test_the_story_at_a_terminal(monkeypatch: pytest.MonkeyPatch) -> None:
    said = by_both(
        monkeypatch,
        lambda: run(
            "dmf-plan", PIPES, "--source", "Reservoir", "--sink", "Harbour", typed=SCRIPT
        ).stdout,
    )
    assert said[0] == said[1]
    assert [str(value) in said[0] for value in STORY] == [True] * len(STORY)


def told_by(it: Board) -> list[Any]:
    """What a board tells of steps; and that second pipes bring what all sets of places say."""
    told: list[Any] = []
    for step in (
        {"what": "close", "arc": 12},
        {"what": "cap", "arc": 2, "capacity": "120"},
        {"what": "shut", "node": 5},
        {"what": "go", "step": 1},
    ):
        told.append({**it.do(**step), "turn": 0})
    told += [
        {**it.told(path), "turn": 0} for path in ("picture?near=", "arc?number=1", "place?node=5")
    ]
    it.do(what="go", step=0)
    left: list[int] = list(range(1, 15))
    rows: list[Any] = []
    while left:
        portion = json.loads(it.post("seconds", arcs=left)[1])
        left, rows = portion["left"], rows + portion["seconds"]
    doubled = {row["short"]: int(row["doubled"]) for row in rows}
    assert doubled == {name: twice for name, (_, twice) in swept().items()}
    return told


def test_a_board(monkeypatch: pytest.MonkeyPatch) -> None:
    def ask() -> list[Any]:
        with board(PIPES) as it:
            told = told_by(it)
            assert bool(it.sessions()) == (os.environ["DMF_LIBRARY"] == WAYS["pipe"])
            return told

    said = by_both(monkeypatch, ask)
    assert said[0] == said[1]


def test_what_takes_long_is_stopped(monkeypatch: pytest.MonkeyPatch) -> None:
    """A step whose call nobody can end is left by `break_off` at once, and the desk begins again
    with the steps before it."""
    begun, until = threading.Event(), threading.Event()
    monkeypatch.setenv("DMF_LIBRARY", WAYS["library"])
    monkeypatch.setattr(loaded, "MOST_AT_ONCE", 0)
    commands: Any = loaded.load(WAYS["library"]).commands
    close: Callable[..., int] = commands["close"]

    def slow(*numbers: int) -> int:
        if not begun.is_set():
            begun.set()
            until.wait(SECONDS)
        return close(*numbers)

    desk = desk_of(water_problem())
    desk.close(12)
    before = desk.value, desk.at
    monkeypatch.setitem(commands, "close", slow)
    said: list[str] = []

    def ask() -> None:
        with pytest.raises(dmf.SessionEnded) as caught:
            desk.close(10)
        said.append(str(caught.value))

    thread = threading.Thread(target=ask)
    thread.start()
    begun.wait(SECONDS)
    desk.break_off("it was stopped")
    thread.join(SECONDS)
    assert said == ["it was stopped"] and not until.is_set()
    desk.begin_again()
    assert (desk.value, desk.at) == before
    until.set()
    desk.end()
