"""Places that `add` makes: in the file of a project, in scenarios that make others, in what is
compared and saved, with a table that has changed, and on a board."""

from __future__ import annotations

import json
from pathlib import Path

import pytest
from desk_shared import Pipe, greatest, water
from dmf import ProjectFault, open_project
from dmf.desk.board.routes import Board
from dmf.desk.export import drawing, problem, table
from dmf.desk.project.comparison import compare
from dmf.desk.project.opener import project_desk
from dmf.desk.project.report import report
from dmf.desk.project.scenarios import project_of
from dmf.desk.steps import DeskFault, MakePlace, Place
from dmf.desk.workspace import Desk
from dmf.tables.loader import LoadedProblem
from project_shared import water_project

# What one can send if the new place takes from the Mill, and gives to the harbour.
TOWN = [Pipe("Mill", "New Town", 50, ""), Pipe("New Town", "Harbour", 30, "")]
MORE = greatest([*water(), *TOWN])


def add(desk: Desk, tail: str, head: str, capacity: int) -> None:
    """Add an arc to a new place, if it does not exist."""
    names = desk.network.names
    to: Place | MakePlace = names.place(head) if head in names.places else MakePlace(head)
    desk.add(names.place(tail), to, capacity)


def with_town(desk: Desk, name: str = "New Town") -> None:
    add(desk, "Mill", name, 50)
    add(desk, name, "Harbour", 30)


def test_file(tmp_path: Path) -> None:
    """A project that is closed and opened has the places of its steps, also of those undone."""
    desk = water_project(tmp_path)
    with_town(desk)
    desk.undo()
    desk.end()
    said = json.loads((tmp_path / "kept.dmf.json").read_text())["scenarios"][0]["steps"]
    assert said[0]["requests"] == [["make", "New Town"], ["add", ["Mill", "New Town", ""], "50"]]
    assert said[1]["requests"] == [["add", ["New Town", "Harbour", ""], "30"]]
    desk = project_desk(str(tmp_path / "kept.dmf.json"))
    assert (desk.value, desk.network.names.made) == (165, {10: "New Town"})
    desk.redo()
    assert desk.value == MORE == 180
    desk.undo(2)
    assert (desk.value, desk.network.names.made) == (165, {})
    with pytest.raises(DeskFault, match="no place is called 'New Town'"):
        desk.network.names.place("New Town")
    desk.end()


def test_undone_state(tmp_path: Path) -> None:
    """After undo, all that can be saved is as before; after redo, as it was then."""
    desk = water_project(tmp_path)
    before = problem(desk), table(desk), drawing(desk).problem.node_count
    with_town(desk)
    after = problem(desk), table(desk)
    assert b"c node 10 New Town\n" in problem(desk).encode() and "New Town" in after[1]
    assert drawing(desk).problem.node_count == 10
    again = Desk(LoadedProblem("again", after[0].encode()), with_solve=True)
    assert again.value == MORE and "New Town" in again.network.names.places
    again.end()
    desk.undo(2)
    assert (problem(desk), table(desk), drawing(desk).problem.node_count) == before
    desk.redo(2)
    assert (problem(desk), table(desk)) == after
    desk.end()


def test_scenarios(tmp_path: Path) -> None:
    """Two scenarios make places of other names with the same node. A comparison keeps them apart,
    and the report has both."""
    desk = water_project(tmp_path)
    with_town(desk)
    project = project_of(desk)
    project.new("hills")
    assert (desk.value, desk.network.names.made) == (165, {})
    with_town(desk, "Hill")
    assert (desk.value, desk.network.names.made) == (MORE, {10: "Hill"})
    found = compare(project, "first", "hills")
    told = {it.arc: (it.first.state, it.second.state) for it in found.arcs}
    for arc in "Mill -> New Town", "New Town -> Harbour":
        assert told[arc] == ("open", "not there")
    for arc in "Mill -> Hill", "Hill -> Harbour":
        assert told[arc] == ("not there", "open")
    page = report(desk)
    assert "Mill -&gt; Hill" in page and "Mill -&gt; New Town" in page
    project.go("first")
    assert (desk.value, desk.network.names.made) == (MORE, {10: "New Town"})
    desk.end()


def test_changed_table(tmp_path: Path) -> None:
    """If the table has the place now, the step that makes it is set aside, with the reason."""
    desk = water_project(tmp_path)
    add(desk, "Mill", "New Town", 50)
    desk.end()
    with (tmp_path / "pipes.csv").open("a") as file:
        file.write("Market,New Town,5,Lane\nNew Town,Harbour,5,Other lane\n")
    desk = project_desk(str(tmp_path / "kept.dmf.json"))
    told = "\n".join(desk.take_news())
    assert "it is left out, since a place called 'New Town' already exists" in told
    assert (desk.at, desk.network.names.made) == (1, {})
    desk.end()


def test_python(tmp_path: Path) -> None:
    water_project(tmp_path).end()
    with open_project(tmp_path / "kept.dmf.json") as project:
        with pytest.raises(ProjectFault, match="no place is called 'New Town'"):
            project.add("Mill", "New Town", 50)
        with pytest.raises(ProjectFault, match="a place called 'Market' already exists"):
            project.add("Mill", "Market", 50, new_head=True)
        project.add("Mill", "New Town", 50, new_head=True)
        assert project.add("New Town", "Harbour", 30) == MORE
        project.add("A", "B", 1, new_tail=True, new_head=True)
        assert [it.text for it in project.steps][-1] == (
            "add A -> B, 1 litres per second (A and B are new)"
        )


def test_finer_numbers(tmp_path: Path) -> None:
    """An amount with decimals makes the steps again, on a new session, with the new places."""
    desk = water_project(tmp_path)
    with_town(desk)
    desk.cap(desk.network.the_arc("New Town-Harbour"), desk.network.measure.quantity(15))
    for at in range(9):
        add(desk, "New Town", f"Farm {at}", at)
    desk.cap(desk.network.the_arc("Mill-New Town"), 2)
    desk.begin_again()
    assert desk.network.names.node_count == 19
    # The new place carries 2, so the Mill sends what it did before, and 2 more.
    assert desk.value == greatest(
        [*water(), Pipe("Mill", "New Town", 2, ""), Pipe("New Town", "Harbour", 15, "")]
    )
    desk.end()


def ask(board: Board, **content: object) -> tuple[int, dict[str, object]]:
    answer = board.post("do", {**content, "turn": board.desk.turn, "shown": []})
    return answer.status, json.loads(answer.body)


def test_board(tmp_path: Path) -> None:
    """A page asks whether a name is a place, and makes one by an act of its own. A place keeps its
    spot by its name, whatever node it has."""
    desk = water_project(tmp_path)
    board = Board(desk)
    mill = desk.network.names.place("Mill").entry

    def end(text: str) -> tuple[object, ...]:
        told = json.loads(board.get("end", {"text": text}).body)
        return told["node"], told["near"], told["why"]

    assert end(" mill ") == (mill, [], "")
    assert end("Statoin") == (0, ["Station"], "")
    assert end("New Town") == (0, [], "")
    assert end("#99") == (0, [], "place #99 does not exist")
    new: dict[str, object] = {"tail": mill, "capacity": "50", "name": ""}
    assert ask(board, what="add", head="New Town", **new)[0] == 409
    assert ask(board, what="add-new", head="Market", **new)[0] == 409
    status, told = ask(board, what="add-new", head="New Town", **new)
    assert (status, told["places"]) == (200, 10)
    assert end("new town") == (10, [], "")
    board.get("picture", {"near": ""})
    spot = board.shown.placement.places.spots[10]
    ask(board, what="go", step=0)
    ask(board, what="add-new", head="Hill", tail=1, capacity="50", name="")
    assert "Hill" in json.loads(board.get("picture", {"near": ""}).body)["svg"]
    hill = board.shown.placement.places.spots[10]
    assert hill != spot
    assert ask(board, what="add-new", head="New Town", **new)[0] == 200
    board.get("picture", {"near": ""})
    assert (board.shown.placement.places.spots[10], board.shown.placement.places.spots[11]) == (
        hill,
        spot,
    )
    kept = project_of(desk).project.positions
    assert tuple(kept["New Town"]) == pytest.approx(spot, abs=0.01)
    desk.end()
