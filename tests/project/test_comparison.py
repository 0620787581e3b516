"""Two scenarios of the stories compared at the terminal and in Python: the same differences, which
the second implementation gives too."""

from __future__ import annotations

from collections.abc import Callable
from decimal import Decimal
from pathlib import Path
from typing import Any

import dmf
import pytest
from desk_shared import run
from dmf.desk.export import problem
from dmf.desk.live_network import LiveNetwork
from dmf.desk.project.comparison import CLOSED, compare
from dmf.desk.project.opener import project_desk
from dmf.desk.project.scenarios import project_of
from dmf.desk.project.schema import parse_project
from dmf.desk.steps import Change, Step
from dmf.desk.workspace import Desk
from dmf.text.problem_text import read_problem
from project_played import played, state
from project_shared import arc_states, named, supply_project, water_project


def judge(desk: Desk, folder: Path, first: tuple[str, str], second: tuple[str, str]) -> None:
    """Compares scenarios, each with the commands that make it, with what the second implementation
    has of both. No arc was added."""
    text = project_of(desk).project.network
    one, two = (played(folder, text, commands) for _, commands in (first, second))
    found = compare(project_of(desk), first[0], second[0])
    assert (found.first.value, found.second.value) == (one.value, two.value)
    every = range(1, len(read_problem(text.encode()).arcs) + 1)
    wanted = {
        number: (state(one, number), state(two, number))
        for number in every
        if state(one, number) != state(two, number)
    }
    told = {
        it.known: tuple(
            None if seen.state == CLOSED else seen._replace(is_unlimited=False)
            for seen in (it.first, it.second)
        )
        for it in found.arcs
    }
    assert told == wanted
    assert len(found.first.limit) == len(one.cut) and len(found.second.limit) == len(two.cut)


def test_supply(tmp_path: Path) -> None:
    """The flooded depot of the story, and the plan of the day."""
    desk = supply_project(tmp_path)
    depot = desk.network.names.place("East Depot")
    desk.shut(depot)
    project_of(desk).new("dry")
    judge(desk, tmp_path, ("base", ""), ("first", f"shut {depot.entry}\n"))
    judge(desk, tmp_path, ("first", f"shut {depot.entry}\n"), ("dry", ""))
    assert (
        project_of(desk).scenario.name == "dry"
        and compare(project_of(desk), "dry", "base").arcs == ()
    )
    desk.end()


def test_water(tmp_path: Path) -> None:
    desk = water_project(tmp_path)
    desk.close(named(desk, "Bridge pipe"))
    desk.cap(named(desk, "Mill Lane"), 70)
    project_of(desk).new("Market")
    desk.cap(named(desk, "Market Street"), 20)
    judge(desk, tmp_path, ("first", "close 10\nsolve\ncap 9 70\n"), ("Market", "cap 11 20\n"))
    desk.end()


def test_at_the_terminal_and_in_python(tmp_path: Path) -> None:
    desk = supply_project(tmp_path)
    desk.shut(desk.network.names.place("East Depot"))
    project_of(desk).new("lorry", "first")
    desk.add(desk.network.names.place("South Depot"), desk.network.names.place("Dock"), 12)
    lines = [*compare(project_of(desk), "base", "lorry").lines()]
    desk.end()
    ran = run("dmf-plan", project_of(desk).file.path, typed="compare base lorry\n")
    assert (ran.stdout.splitlines(), ran.stderr, ran.returncode) == (lines, "", 0)
    with dmf.open_project(project_of(desk).file.path) as project:
        assert [*project.compare("base", "lorry").lines()] == lines
    # As its page reckons them.
    assert lines[:3] == ["base: value 150 pallets", "lorry: value 136 pallets", "  14 less"]
    assert "  South Depot -> Dock: not there | 10 of 12" in lines


def test_opened_again(tmp_path: Path) -> None:
    """An arc that was closed and opened again is the one of the table, and an added one that of the
    same name; a copy differs in nothing."""
    desk = water_project(tmp_path)
    desk.close(named(desk, "Bridge pipe"))
    desk.open(named(desk, "Bridge pipe"))
    desk.cap(named(desk, "Bridge pipe"), 5)
    desk.add(desk.network.names.place("Mill"), desk.network.names.place("Station"), 25, "New")
    desk.close(named(desk, "New"))
    desk.open(named(desk, "New"))
    project_of(desk).copy("same")
    assert compare(project_of(desk), "first", "same").arcs == ()
    project_of(desk).new("short")
    desk.add(desk.network.names.place("Mill"), desk.network.names.place("Station"), 24, "New")
    found = {
        it.arc: (it.first.capacity, it.second.capacity)
        for it in compare(project_of(desk), "first", "short").arcs
    }
    assert found["Bridge pipe, Mill -> South Tower"] == (5, 20) and found[
        "New, Mill -> Station"
    ] == (25, 24)
    desk.end()


def test_takes_as_long_as_what_differs(tmp_path: Path, monkeypatch: pytest.MonkeyPatch) -> None:
    """Of scenarios that begin with the same steps, a comparison makes no step again that the
    session can redo, and who goes between them makes only the others."""
    desk = water_project(tmp_path)
    for most in range(30):
        desk.cap(named(desk, "Mill Lane"), most)
    project_of(desk).new("more", "first")
    desk.close(named(desk, "Bridge pipe"))
    made: list[str] = []
    make = LiveNetwork.make

    def counted(held: LiveNetwork, text: str, changes: tuple[Change, ...]) -> Step:
        made.append(text)
        return make(held, text, changes)

    monkeypatch.setattr(LiveNetwork, "make", counted)
    before = arc_states(desk)
    found = compare(project_of(desk), "first", "more")
    # Mill Lane carries 29 in place of 45 in the limits of the story's page.
    assert made == [] and (found.first.value, found.second.value) == (165 - 16, 155 - 16)
    assert (arc_states(desk), desk.at) == (before, 32)
    project_of(desk).go("first")
    desk.undo(10)
    project_of(desk).go("more")
    assert made == [
        *(f"Mill Lane carries {most} litres per second" for most in range(20, 30)),
        "close Bridge pipe",
    ]
    assert arc_states(desk) == before
    desk.end()


def test_python(tmp_path: Path) -> None:
    """Steps by names in Python, kept, and refused."""
    desk = water_project(tmp_path)
    desk.end()
    with dmf.open_project(project_of(desk).file.path) as project:
        assert (project.value, project.unit, project.scenario, project.steps) == (
            165,
            "litres per second",
            "first",
            [],
        )
        assert project.close("Bridge pipe") == 155 and project.cap("Mill Lane", "+10 %") == Decimal(
            "159.5"
        )
        assert project.undo(2) == 165 and project.redo() == 155
        assert project.new("Pipe") == 165 and project.add("Mill", "Station", 25, "New pipe") == 180
        project.note("for May")
        calls: list[Callable[[], object]] = [
            lambda: project.close("Nothing"),
            lambda: project.go("nobody"),
            lambda: project.cap("Mill Lane", "many"),
            lambda: project.undo(9),
            lambda: project.delete("Pipe"),
            lambda: project.compare("a", "b"),
        ]
        for call in calls:
            with pytest.raises(dmf.ProjectFault):
                call()
        with dmf.open_project(project_of(desk).file.path) as other:
            assert other.news == ["it is read-only, since another desk has it open"]
            with pytest.raises(dmf.ProjectFault, match="read-only"):
                other.close("Mill Lane")
    with dmf.open_project(project_of(desk).file.path) as project:
        assert (project.scenarios, project.value, project.flow("New pipe"), project.news) == (
            ["first", "Pipe"],
            180,
            15,
            [],
        )
        assert project.steps == [("add New pipe, Mill -> Station, 25 litres per second", 180)]
        assert [name.partition(",")[0] for name in project.limit] == [
            "North rise",
            "Mill pipe",
            "Canal pipe",
            "South rise",
        ]
    with pytest.raises(FileNotFoundError):
        dmf.open_project(tmp_path / "none.dmf.json")


def test_made_in_python(tmp_path: Path) -> None:
    """A project that Python makes is the one that the tools make: of her table with sources and
    sinks, kept at each step, opened by both, and never written over another one."""
    desk = supply_project(tmp_path)
    desk.end()
    tables: dict[str, Any] = {"sources": tmp_path / "stock.csv", "sinks": tmp_path / "orders.csv"}
    path = tmp_path / "routes.dmf.json"
    with dmf.new_project(tmp_path / "routes.csv", **tables) as project:
        assert (project.path, project.scenarios, project.value, project.steps) == (
            str(path),
            ["first"],
            150,
            [],
        )
        assert project.shut("East Depot") == 126
        told = run("dmf-plan", str(path), typed="cut\n")
        assert "read-only" in told.stderr and told.stdout.startswith("limit 126 pallets")
    made, other = parse_project(path.read_bytes()), parse_project(
        Path(project_of(desk).file.path).read_bytes()
    )
    assert (made.table, made.network, made.scenarios[0].steps[0].requests) == (
        other.table,
        other.network,
        (("shut", "East Depot"),),
    )
    with pytest.raises(
        dmf.ProjectFault, match="it already exists; open it, or choose another name"
    ):
        dmf.new_project(tmp_path / "routes.csv", **tables)
    (tmp_path / "bad.csv").write_text("from,to,capacity\nA,B,many\nA,C,-1\n")
    with pytest.raises(dmf.ProjectFault, match="line 2(.|\n)*line 3"):
        dmf.new_project(tmp_path / "bad.csv", source="A", sink="B")
    with pytest.raises(FileNotFoundError):
        dmf.new_project(tmp_path / "none.csv")
    with pytest.raises(dmf.ProjectFault, match="ends with .dmf.json"):
        dmf.new_project(tmp_path / "routes.csv", tmp_path / "plan.json", **tables)
    assert (
        not (tmp_path / "bad.dmf.json").exists()
        and path.read_bytes()
        and not list(tmp_path.glob("*.journal"))
    )
    with dmf.new_project(
        tmp_path / "routes.csv",
        tmp_path / "other.dmf.json",
        source="East Depot=20",
        sink=["Dock", "Ferry=3"],
    ) as project:
        # East Depot has 25 to Dock and 20 to Ferry.
        assert project.value == 20 and project.close("East Depot-Dock") == 3


def test_what_is_saved_is_read_back(tmp_path: Path) -> None:
    """The problem of a scenario is the network that it stands for."""
    desk = project_desk(supply_story(tmp_path))
    text = problem(desk)
    (tmp_path / "scenario.max").write_text(text)
    ran = run("dmf-plan", f"{tmp_path}/scenario.max", typed="solve\n")
    assert ran.stdout == "value 126 pallets, 126 more, the greatest\n" and desk.value == 126
    desk.end()


def supply_story(folder: Path) -> str:
    desk = supply_project(folder)
    desk.shut(desk.network.names.place("East Depot"))
    desk.end()
    return project_of(desk).file.path
