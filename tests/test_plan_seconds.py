"""Tests what a second pipe beside each pipe brings, as the desk finds it from one flow, as it tries
each, and as a board finds it beside its requests; beside putting it there and solving, or worked by
hand."""

from __future__ import annotations

from pathlib import Path
from typing import Any

import pytest
from client_shared import BUILT
from desk_shared import PIPES, desk_of, run
from dmf.desk import seconds
from dmf.desk.analysis import trials_of
from dmf.desk.board.worth_finder import WorthFinder
from dmf.desk.seconds import best_seconds, second_arcs, seconds_of
from dmf.desk.steps import DeskFault
from dmf.desk.workspace import Desk
from test_board_worth import waited
from test_plan_worst_pairs import drawn_desk


def doubled(desk: Desk, number: int) -> Any:
    """The greatest value with a second one beside this pipe, which is put there."""
    with desk.aside() as other:
        other.double(number)
        other.solve()
        return other.value


def found_by_board(desk: Desk) -> None:
    """Lets a board find what the pipes of a desk are worth."""
    finder = WorthFinder(desk)
    waited(lambda: not finder.is_finding())
    finder.end()


@pytest.mark.usefixtures("by_library")
@pytest.mark.parametrize("seed", range(60))
def test_beside_putting_it_there(
    seed: int, tmp_path: Path, monkeypatch: pytest.MonkeyPatch
) -> None:
    """Of tables with several sources and sinks, limits, pipes that lead both ways, and changes."""
    desk = drawn_desk(tmp_path, seed)
    numbers = desk.network.opened_pipes()
    wanted = [(number, doubled(desk, number)) for number in numbers]
    assert [*seconds_of(desk, numbers)] == wanted
    assert [*seconds_of(desk, numbers, is_together=False)] == wanted
    assert [(it.arc, it.doubled) for it in trials_of(desk, numbers)] == wanted
    cut = {number: doubled(desk, number) for number in desk.cut_arcs()}
    assert best_seconds(desk, 5) is None
    found_by_board(desk)
    value = desk.value
    gaining = [number for number in cut if cut[number] > value]
    ranked = sorted(gaining, key=lambda number: (-cut[number], number))
    for most in 0, 1, 5, 99:
        best, more = best_seconds(desk, most) or ([], -1)
        assert [(it.number, it.doubled, it.gain) for it in best] == [
            (number, cut[number], cut[number] - value) for number in ranked[:most]
        ]
        assert more == len(ranked[most:])
    # What a board has found is not found once more.
    monkeypatch.setattr(seconds, "second_arcs", None)
    assert [*seconds_of(desk, cut)] == [*cut.items()]
    desk.end()


@pytest.mark.usefixtures("by_library")
def test_a_place_that_gives_any_amount(tmp_path: Path) -> None:
    """A source without a limit gives what a second pipe takes more, but what the place lets through
    bounds that. By hand: A may give any amount and lets 5 through, over pipes of 3 and 1."""
    (tmp_path / "net.csv").write_text("from,to,capacity\nA,C,3\nA,D,1\nB,C,1\nC,E,9\nD,E,9\n")
    words = [f"{tmp_path}/net.csv", "--source", "A", "--source", "B=1", "--sink", "E"]
    for limit, wanted in (5, [6, 6]), (9, [8, 6]), (0, [8, 6]):
        (tmp_path / "limits.csv").write_text(f"place,limit\nA,{limit}\n")
        limits = ["--node-limits", f"{tmp_path}/limits.csv"] if limit else []
        ran = run("dmf-plan", *words, *limits, typed="solve\nwhat-if each of the cut\n")
        told = [line for line in ran.stdout.splitlines() if "A -> " in line]
        assert [int(line.split("a second one ")[1].split()[0]) for line in told] == wanted, limit


@pytest.mark.usefixtures("by_library")
def test_little_room() -> None:
    """What does not fit into 64 bits is left out, and what the library has no room to find is
    tried."""
    text = f"p max 3 3\nn 1 s\nn 3 t\na 1 2 {2**61}\na 2 3 {2**62}\na 1 3 5\n"
    desk = desk_of(text.encode())
    assert [*seconds_of(desk, [1, 2, 3])] == [(1, 2**62 + 5), (2, 2**61 + 5), (3, 2**61 + 10)]
    desk.cap(1, 2**63)
    desk.solve()
    assert [*seconds_of(desk, [1, 2, 3])] == [(1, None), (2, None), (3, 2**62 + 10)]
    assert second_arcs(desk.network, [1, 3]).pipes == [3]
    found_by_board(desk)
    assert desk.state.answers.gains == {3: 5}
    with pytest.raises(DeskFault):
        seconds_of(desk, [9])
    desk.end()


def test_by_the_program(monkeypatch: pytest.MonkeyPatch) -> None:
    """Each is tried; the answers are the same."""
    typed = "solve\nwhat-if each of the cut\ncap 'North rise' 20\nsolve\nwhat-if each\n"
    told = {
        run("dmf-plan", PIPES, typed=typed, DMF_LIBRARY="", DMF=BUILT).stdout,
        run("dmf-plan", PIPES, typed=typed).stdout,
    }
    assert len(told) == 1 and "a second one 180 (15 more)" in told.pop()


def test_drawn_networks_have_what_is_tested(tmp_path: Path) -> None:
    """Pipes that gain, new arcs that begin where sources are joined, and what is tried."""
    kinds = set()
    for seed in range(60):
        desk = drawn_desk(tmp_path, seed)
        asked = second_arcs(desk.network, desk.cut_arcs())
        kinds |= {"tried"} if asked.cases else set()
        ends = {(line.tail, line.head) for line in desk.network.lines}
        kinds |= {"joined"} if {*zip(*asked.arcs[:2])} - ends else set()
        kinds |= {"both ways"} if len({*asked.pipes}) < len(asked.pipes) else set()
        gains = [it.doubled for it in seconds_of(desk, desk.cut_arcs())]
        kinds |= {"gains"} if any(it != desk.value for it in gains) else set()
        desk.end()
    assert kinds == {"tried", "joined", "both ways", "gains"}
