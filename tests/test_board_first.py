"""A board of a large network tells what can be sent and the limit before the flows are known. Each
of its answers is the one of a board that solves at once."""

from __future__ import annotations

import json
import random
from pathlib import Path
from typing import Any

import pytest
from board_running import Board as Running
from built import BUILT
from dmf.desk import answers as desk_first
from dmf.desk.analysis import trials_of
from dmf.desk.board.responses import Response
from dmf.desk.board.routes import Board
from dmf.desk.workspace import Desk
from dmf.errors import NoProgram
from dmf.tables.loader import LoadedProblem
from limits import SECONDS
from test_board_nearby import square

# Requests that change nothing, and such that do or try something.
ASKED: list[tuple[str, dict[str, str]]] = [
    ("rows", {"filter": "", "sort": "flow", "first": "0", "count": "30"}),
    ("numbers", {"filter": "full", "sort": "", "first": "0", "count": "30"}),
    ("picture", {"near": ""}),
    ("picture", {"near": "7"}),
    ("arc", {"number": "3"}),
    ("place", {"node": "13"}),
    ("looks", {}),
    ("ground", {}),
    ("find", {"text": "1"}),
    ("scenarios", {}),
    ("turn", {}),
    ("plan.csv", {"turn": "1"}),
    ("problem.max", {"turn": "1"}),
    ("picture.svg", {"near": "", "turn": "1"}),
    ("report.html", {"turn": "1"}),
]
DONE: list[tuple[str, dict[str, Any]]] = [
    ("do", {"what": "close", "arc": 1}),
    ("do", {"what": "cap", "arc": 2, "capacity": "+3"}),
    ("do", {"what": "shut", "node": 3}),
    ("do", {"what": "add", "tail": 1, "head": "25", "capacity": "4", "name": "new"}),
    ("do", {"what": "close-all", "arcs": [1, 5]}),
    ("do", {"what": "go", "step": 0}),
    ("do", {"what": "again"}),
    ("many", {"arcs": [1, 2, 3]}),
]


@pytest.fixture(autouse=True)
def small_is_large(monkeypatch: pytest.MonkeyPatch) -> None:
    monkeypatch.setattr(desk_first, "LARGE", 1)


def board_of(seed: int, may_follow: bool = True) -> Board:
    return Board(
        Desk(
            LoadedProblem("square.max", square(5, random.Random(seed))),
            with_solve=True,
            may_follow=may_follow,
        )
    )


def boards(seed: int) -> tuple[Board, Board]:
    """A board whose flows follow, and one that solves at once."""
    first, usual = board_of(seed), board_of(seed, may_follow=False)
    assert (first.desk.flows_follow, usual.desk.flows_follow) == (True, False)
    return first, usual


def asked(board: Board, path: str, words: dict[str, Any]) -> Response:
    if (path, words) in ASKED or path == "state":
        return board.get(path, words)
    return board.post(path, {**words, "turn": board.desk.turn})


def end(*several: Board) -> None:
    for board in several:
        board.desk.end()


@pytest.mark.parametrize("seed", range(20))
def test_the_first_answer(seed: int) -> None:
    """The value, the limit with what flows there, and its side are those of the session's flow,
    which is not asked for."""
    first, usual = boards(seed)
    told, wanted = (json.loads(asked(board, "state", {}).body) for board in (first, usual))
    assert wanted["limit"] and {**told, "flows_follow": False} == wanted
    assert first.desk.flows_follow
    first.desk.follow()
    assert (first.desk.flows(), first.desk.side(), first.desk.value) == (
        usual.desk.flows(),
        usual.desk.side(),
        usual.desk.value,
    )
    end(first, usual)


@pytest.mark.parametrize(("path", "words"), ASKED + DONE)
def test_any_request(path: str, words: dict[str, Any]) -> None:
    """Whatever is asked first, and the state after it."""
    first, usual = boards(3)
    told = asked(first, path, words)
    assert not first.desk.flows_follow
    assert told == asked(usual, path, words)
    assert asked(first, "state", {}) == asked(usual, "state", {})
    end(first, usual)


def test_no_program(monkeypatch: pytest.MonkeyPatch) -> None:
    """Without a program for it, as beside the library alone, the desk solves at once."""

    def none(*_: object) -> None:
        raise NoProgram("there is none")

    monkeypatch.setattr("dmf.desk.answers.solved", none)
    board, usual = board_of(3), board_of(3, may_follow=False)
    assert not board.desk.flows_follow and board.desk.flows() == usual.desk.flows()
    end(board, usual)


@pytest.mark.parametrize("answer", ["exit 1", "kill -9 $$", "echo s 1", "exec sleep 0"])
def test_a_program_that_fails(tmp_path: Path, monkeypatch: pytest.MonkeyPatch, answer: str) -> None:
    """If a program does not answer, or answers differently from the session, the answers are those
    of the session."""
    program = tmp_path / "dmf"
    program.write_text(f'#!/bin/sh\n[ "$1" != session ] || exec {BUILT} "$@"\n{answer}\n')
    program.chmod(0o755)
    monkeypatch.setattr("dmf.session.executable.program", lambda: str(program))
    board, usual = board_of(3), board_of(3, may_follow=False)
    told, wanted = (json.loads(asked(it, *ASKED[0]).body) for it in (board, usual))
    assert told["rows"] == wanted["rows"] and told["told"].startswith(
        "the session found the value"
    ) == (answer == "echo s 1")
    assert board.desk.value == usual.desk.value
    end(board, usual)


def test_trials() -> None:
    """Arcs are tried on the desk, which is compared with the other one."""
    first, usual = boards(3)
    numbers = first.desk.network.pictured()
    assert list(trials_of(first.desk, numbers)) == list(trials_of(usual.desk, numbers))
    end(first, usual)


def test_stopped() -> None:
    """The search for the flows is broken off: the session is begun again, and its answers are the
    same."""
    first, usual = boards(3)
    first.desk.break_off("it was stopped")
    told, wanted = (json.loads(asked(board, *ASKED[0]).body) for board in (first, usual))
    assert told["rows"] == wanted["rows"] and told["told"].startswith(
        "it was stopped. The session was begun again"
    )
    end(first, usual)


@pytest.mark.seconds(8)
@pytest.mark.parametrize("arcs", [100_000, 100_001])
def test_how_many_arcs(tmp_path: Path, arcs: int, monkeypatch: pytest.MonkeyPatch) -> None:
    """A board that runs: its flows follow above 100,000 arcs."""
    path = tmp_path / "chain.max"
    lines = "".join(f"a {1 + at % 100} {2 + at % 100} 3\n" for at in range(arcs - 1))
    path.write_text(f"p max 101 {arcs}\nn 1 s\nn 101 t\n{lines}a 1 101 5\n")
    board = Running(str(path))
    told = board.told("state")
    assert (told["flows_follow"], told["arcs"]) == (arcs > 100_000, arcs)
    row = board.told("arc?number=1")
    assert (told["value"], row["flow"]) == (str(5 + 3 * ((arcs - 1) // 100)), "3")
    assert not board.told("state")["flows_follow"]
    board.process.terminate()
    board.process.communicate(timeout=SECONDS)
