"""Places of a drawn picture that were moved by hand, in the project that keeps them: when it is
opened again, given a map, made later or not written, and when a place is made again."""

from __future__ import annotations

import errno
import json
from pathlib import Path
from typing import Any

import pytest
from board_running import board
from board_views import spots
from dmf.desk.board.routes import Board
from dmf.desk.project.opener import project_desk
from dmf.desk.project.scenarios import project_of
from dmf.desk.project.storage import ProjectFile
from limits import SECONDS
from project_shared import water_project
from test_board_moved import journal, move, node_of, project

pytestmark = pytest.mark.seconds(20)


def test_kept(tmp_path: Path) -> None:
    """What was moved lies there when the project is opened again, in each window; other positions
    are as they were laid out. What a desk may only read is not moved."""
    path = project(tmp_path)
    with board("--keep", str(tmp_path / "pipes.csv")) as it:
        before, mill = spots(it), node_of(it, "Mill")
        told = move(it, mill, 300, -50)
        assert told == {"turn": it.turn(), "told": "", "kept_in": path.name, "why_not": ""}
        assert it.end() == 130
    content = json.loads(path.read_text())
    assert (content["positions_from"], content["moved"]) == ("drawing", {"Mill": [300, 50]})
    home = content["positions"]["Mill"]
    assert home == pytest.approx(
        [float(before[f"node-{mill}"][0]), -float(before[f"node-{mill}"][1])], abs=0.01
    )
    with board(str(path)) as it:
        assert spots(it) == {**before, f"node-{mill}": ("300", "-50")}
        told = it.told("picture?near=&form=60")
        assert (told["moved"], told["fixed"]) == (1, "")
        with board(str(path)) as other:
            assert spots(other) == spots(it)
            assert other.told("picture?near=")["fixed"]
            assert "another desk has it open" in move(other, mill, 0, 0)["error"]
        assert move(it, mill, home[0], -home[1])["kept_in"] == path.name
        assert it.end() == 130
    assert "moved" not in json.loads(path.read_text())


def test_a_map_takes_moves_back(tmp_path: Path) -> None:
    """A map that is given later says what it takes back of what was moved by hand."""
    path, map_table = project(tmp_path), tmp_path / "map.csv"
    with board("--keep", str(tmp_path / "pipes.csv")) as it:
        spots(it)
        for name in "Mill", "Market":
            assert move(it, node_of(it, name), 300, -50)["kept_in"] == path.name
        assert it.end() == 130
    map_table.write_text("place,x,y\nReservoir,0,0\nMill,4,1\nMarket,5,2\nHarbour,9,2\n")
    for told in ("the map takes back what was moved by hand: Mill and Market", ""):
        with board("--map", str(map_table), str(path)) as it:
            spots(it)
            it.process.send_signal(2)
            said = it.process.communicate(timeout=SECONDS)[1]
        assert told in said and ("by hand" in said) == bool(told)
    assert "moved" not in json.loads(path.read_text())


def test_kept_later(tmp_path: Path) -> None:
    """Where places lie is kept too if a project is made after they were moved."""
    path = project(tmp_path)
    with board(str(tmp_path / "pipes.csv")) as it:
        spots(it)
        assert move(it, node_of(it, "Mill"), 300, -50)["kept_in"] == ""
        now = spots(it)
        it.do(what="keep")
        assert spots(it) == now
        assert journal(path)[-1]["moved"] == {"Mill": [300, 50]}
        assert it.end() == 130
    with board(str(path)) as it:
        assert spots(it) == now


def test_not_written(tmp_path: Path, monkeypatch: pytest.MonkeyPatch) -> None:
    """A move that cannot be written did not happen, and the next one is right."""
    desk = water_project(tmp_path)
    made = Board(desk)

    def picture() -> Any:
        return json.loads(made.get("picture", {"near": ""}).body)

    def move_mill(right: int) -> tuple[int, Any]:
        node = desk.network.names.place("Mill").entry
        said = {"node": node, "right": right, "down": 0, "form": 0, "turn": desk.turn}
        answer = made.post("move", said)
        return answer.status, json.loads(answer.body)

    def fail(*_: object) -> None:
        raise OSError(errno.ENOSPC, "No space left on device")

    before = picture()
    with monkeypatch.context() as patch:
        patch.setattr(ProjectFile, "write", fail)
        status, told = move_mill(100)
    assert status == 409 and told["error"].endswith("kept.dmf.json: No space left on device")
    assert picture() == before and project_of(desk).project.moved == {}
    assert move_mill(200)[0] == 200
    assert project_of(desk).project.moved == {"Mill": (2, 0)}
    assert move_mill(10**400)[1]["error"] == "Mill would lie too far away"
    desk.end()


def test_made_places(tmp_path: Path) -> None:
    """A place that a step has made lies where it was moved when it is made again, whatever node it
    has; another one that gets its node does not."""
    desk = water_project(tmp_path)
    made = Board(desk)

    def spot(name: str) -> tuple[float, float]:
        json.loads(made.get("picture", {"near": ""}).body)
        return made.shown.placement.places.seen[desk.network.names.place(name).entry]

    def ask(path: str, **content: object) -> None:
        answer = made.post(path, {**content, "turn": desk.turn})
        assert answer.status == 200, answer.body

    def add(name: str) -> None:
        mill = desk.network.names.place("Mill").entry
        ask("do", what="add-new", tail=mill, head=name, capacity="5", name="")

    add("New Town")
    node, laid_out = desk.network.names.place("New Town").entry, spot("New Town")
    ask("move", node=node, right=12345, down=-6789, form=0)
    assert spot("New Town") == (123.45, 67.89) != laid_out
    desk.undo()
    add("Hill")
    assert desk.network.names.place("Hill").entry == node and spot("Hill") != (123.45, 67.89)
    add("New Town")
    assert spot("New Town") == (123.45, 67.89)
    desk.end()
    again = project_desk(str(tmp_path / "kept.dmf.json"))
    made, desk = Board(again), again
    assert spot("New Town") == (123.45, 67.89)
    desk.end()
