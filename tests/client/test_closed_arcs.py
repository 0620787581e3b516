"""Closed arcs carry nothing, whatever their capacity was: neither in copies of a network, nor in a
desk's sweeps and what they need."""

from __future__ import annotations

import json
from concurrent.futures import ThreadPoolExecutor
from typing import Any

import pytest
from client_shared import dmf, pipes
from desk_shared import run
from dmf.desk.analysis import trials_of
from dmf.desk.board.routes import Board
from dmf.desk.steps import DeskFault, Trial
from dmf.desk.workspace import Desk
from dmf.tables.loader import LoadedProblem

HALF, LARGEST = 2**63, 2**64 - 1
# Two arcs side by side: with the first closed and opened again, the capacities of open and closed
# arcs are past 2^64 together.
BESIDE = (
    f"c node 1 a\nc node 2 b\nc arc 1 k\nc arc 2 l\np max 2 2\nn 1 s\nn 2 t\na 1 2 {HALF}\na 1 2 "
    "1\n"
)


def reopened() -> dmf.Network[str]:
    network: dmf.Network[str] = dmf.Network([("a", "b", HALF, "k"), ("a", "b", 1)], "a", "b")
    network.close("k")
    network.open("k")
    assert network.solve().value == HALF + 1
    return network


@pytest.mark.parametrize("is_there", [False, True])
def test_a_sweep(is_there: bool) -> None:
    """Here, and over an executor. What can be added still is what the open arcs leave."""
    left = LARGEST - HALF - 1
    adding: list[Any] = [[("add", "a", "b", left)], [("add", "a", "b", left + 1)]]
    with reopened() as network, ThreadPoolExecutor(1) as threads:
        executor = threads if is_there else None
        assert [result.value for result in dmf.sweep(network, dmf.each_arc_closed(), executor)] == [
            HALF,
            1,
        ]
        first, second = dmf.sweep(network, adding, executor)
        assert (first.value, type(second.refusal)) == (LARGEST, dmf.CapacitiesPast64Bits)


def test_an_arc_is_opened_in_a_copy() -> None:
    """With the capacity that it had."""
    with dmf.Network([("a", "b", HALF, "k"), ("a", "b", 1)], "a", "b") as network:
        network.close("k")
        network.solve()
        cases: list[Any] = [
            [("open", "k")],
            lambda copy: copy.open("k"),
            [("add", "a", "b", LARGEST - 1)],
        ]
        assert [result.value for result in dmf.sweep(network, cases)] == [
            HALF + 1,
            HALF + 1,
            LARGEST,
        ]


def test_an_arc_is_opened_where_none_is_open() -> None:
    """Handles of the network name arcs of its copies, also if all are closed."""
    with dmf.Network([("a", "b", 3, "k")], "a", "b") as network:
        added = network.add("a", "b", 4)
        first = network.arc("k")
        network.close(added)
        network.close(first)
        cases: list[Any] = [
            [("open", first)],
            [("open", added)],
            lambda copy: copy.open(first),
            lambda copy: copy.open(added),
        ]
        assert [result.value for result in dmf.sweep(network, cases)] == [3, 4, 3, 4]


def test_a_desk() -> None:
    """The same steps on a desk, and by dmf-plan."""
    desk = Desk(LoadedProblem("a test", BESIDE.encode()))
    desk.close(1)
    desk.open(1)
    desk.solve()
    # Each of the two that are open is in the cut. A second one beside the large arc would be past
    # 64 bits.
    assert list(trials_of(desk, [2, 3])) == [Trial(2, HALF, HALF + 2), Trial(3, 1, None)]
    desk.end()


def test_a_board() -> None:
    desk = Desk(LoadedProblem("a test", BESIDE.encode()), with_solve=True)
    board = Board(desk)
    for what in "close", "open":
        assert board.post("do", {"what": what, "arc": 1, "turn": desk.turn}).status == 200
    answer = board.post("seconds", {"arcs": [2, 3], "turn": desk.turn})
    seconds = [(it["number"], it["doubled"]) for it in json.loads(answer.body)["seconds"]]
    assert (answer.status, seconds) == (200, [(2, str(HALF + 2)), (3, "")])
    desk.end()


def test_dmf_plan(tmp_path: Any) -> None:
    (tmp_path / "beside.max").write_text(BESIDE)
    ran = run(
        "dmf-plan",
        str(tmp_path / "beside.max"),
        typed="close k\nopen k\nsolve\nwhat-if each arc\nsteps\n",
    )
    assert (ran.returncode, ran.stderr) == (0, "")
    assert f"#3 k, a -> b: closed 1 ({HALF} less), a second one past 64 bits\n" in ran.stdout
    assert "3 * solve" in ran.stdout


def test_a_second_arc_past_64_bits() -> None:
    """Its value is None whether the arc is in the cut or not: no such arc can be added."""
    desk = Desk(
        LoadedProblem("a test", f"p max 3 2\nn 1 s\nn 3 t\na 1 2 {HALF + 5}\na 2 3 4\n".encode()),
        with_solve=True,
    )
    assert list(trials_of(desk, [1, 2])) == [Trial(1, 0, None), Trial(2, 0, 8)]
    with pytest.raises(DeskFault, match="sum of the capacities would be past 18446744073709551615"):
        desk.double(1)
    desk.close(1)
    desk.add(desk.network.names.place("#1"), desk.network.names.place("#2"), 2)
    # What the closed arc had is free again: 2 + 4 + 2 fit, and the limit is the new arc.
    assert list(trials_of(desk, [2, 3])) == [Trial(2, 0, 2), Trial(3, 0, 4)]
    desk.end()


class Empty(Exception):
    """An error that is false where it is asked for its truth."""

    def __len__(self) -> int:
        return 0


def test_an_error_that_is_false() -> None:
    """The sweep does not end as if all cases were tried."""

    def cases() -> Any:
        yield [("close", ("lake", "mill"))]
        raise Empty

    with pipes() as network:
        results = dmf.sweep(network, cases())
        assert next(results).value == 2
        with pytest.raises(Empty):
            next(results)
