"""A table that has changed since a project was kept: what differs is told row by row, and steps are
carried over by their names, or listed."""

from __future__ import annotations

import os
import shutil
import subprocess
from pathlib import Path

import pytest
from desk_shared import ROOT, greatest, run, water, water_problem
from dmf.desk.project.opener import keep_project, project_desk
from dmf.desk.project.scenarios import project_of
from dmf.desk.project.storage import versions_of
from dmf.desk.steps import DeskFault
from dmf.desk.workspace import Desk
from dmf.tables.loader import read_subject
from limits import SECONDS
from packages import load
from project_shared import named, new_project, supply_project, water_project, words

GERMAN = """Von;Nach;Kapazit\u00e4t (l/s);Leitung
Mill;Weir;47,3;Main
New Mill;Weir;30,5;Side
Weir;Sea;60,25;Long
"""


def with_steps(folder: Path) -> Desk:
    desk = water_project(folder)
    desk.close(named(desk, "Bridge pipe"))
    desk.cap(named(desk, "Mill Lane"), 60)
    project_of(desk).new("Flood", "first")
    desk.shut(desk.network.names.place("North Tower"))
    project_of(desk).go("first")
    desk.end()
    return desk


def test_changed_rows(tmp_path: Path) -> None:
    desk = with_steps(tmp_path)
    table = tmp_path / "pipes.csv"
    text = table.read_text().replace(
        "South Tower,Harbour,60,South main", "South Tower,Harbour,61,South main"
    )
    text = text.replace("Mill,South Tower,20,Bridge pipe\n", "") + "Mill,Station,25,New pipe\n"
    table.write_text(text)
    desk = project_desk(project_of(desk).file.path)
    assert desk.news[:4] == [
        "the table 'pipes.csv' has changed since:",
        "  Bridge pipe, Mill -> South Tower: gone, was 20",
        "  South main, South Tower -> Harbour: 61, and was 60",
        "  New pipe, Mill -> Station: new, 25",
    ]
    left_out = [it for it in desk.news if "left out" in it]
    why = "it is left out, since no arc is called 'Bridge pipe, Mill -> South Tower'"
    assert left_out == [
        f"scenario 'Flood', step 1, close Bridge pipe: {why}",
        f"scenario 'first', step 1, close Bridge pipe: {why}",
    ]
    now = [
        pipe._replace(capacity={"Mill Lane": 60, "South main": 61}.get(pipe.name, pipe.capacity))
        for pipe in water()
        if pipe.name != "Bridge pipe"
    ]
    now.append(water()[0]._replace(tail="Mill", head="Station", capacity=25, name="New pipe"))
    assert desk.value == greatest(now)
    assert [it.text for it in project_of(desk).scenario.left_out] == [
        "close Bridge pipe"
    ] and project_of(desk).scenario.at == 1
    project_of(desk).go("Flood")
    assert (
        desk.value == greatest([it for it in now if "North Tower" not in it[:2]])
        and project_of(desk).scenario.inherited == 1
    )
    before = desk.value
    desk.end()
    desk = project_desk(project_of(desk).file.path)
    assert (desk.value, desk.news) == (before, [])
    desk.end()
    # The project before it stands beside it, with the step that was left out.
    assert "Bridge pipe" in Path(versions_of(project_of(desk).file.path)[-1]).read_text()


def test_the_same_rows_in_another_form(tmp_path: Path) -> None:
    """Columns in another order, and blanks: nothing is told, and the sum is kept."""
    desk = with_steps(tmp_path)
    table = tmp_path / "pipes.csv"
    rows = [line.split(",") for line in table.read_text().splitlines()]
    table.write_text("\n".join(f"{name}, {cap} ,{head},{tail}" for tail, head, cap, name in rows))
    desk = project_desk(project_of(desk).file.path)
    assert not desk.news and desk.value == 170
    desk.end()


def test_alike(tmp_path: Path) -> None:
    """Of arcs alike, of which there are more now, a place among them says nothing."""
    (tmp_path / "t.csv").write_text("from,to,capacity,name\na,b,5,x\na,b,6,x\nb,c,20,y\n")
    desk = new_project(tmp_path, "t.csv")
    desk.close(2)
    desk.cap(3, 9)
    desk.end()
    (tmp_path / "t.csv").write_text("from,to,capacity,name\na,b,4,x\na,b,5,x\na,b,6,x\nb,c,20,y\n")
    desk = project_desk(project_of(desk).file.path)
    assert "  x, a -> b: new, 4" in desk.news
    assert any(
        "step 1" in it and "may be #1 (x, a -> b), #2 (x, a -> b), #3 (x, a -> b)" in it
        for it in desk.news
    ), desk.news
    assert (desk.value, [it.text for it in project_of(desk).scenario.left_out]) == (9, ["close x"])
    desk.end()


def test_a_table_that_moved(tmp_path: Path) -> None:
    """The network is as it was kept, which is said, until somebody says where the table is."""
    desk = with_steps(tmp_path)
    (tmp_path / "elsewhere").mkdir()
    shutil.move(tmp_path / "pipes.csv", tmp_path / "elsewhere")
    ran = run("dmf-plan", project_of(desk).file.path, typed="")
    assert (
        "'pipes.csv' is not read, and the network is as it was kept: cannot read" in ran.stderr
        and ran.returncode == 0
    )
    ran = run(
        "dmf-plan",
        project_of(desk).file.path,
        "--table",
        str(tmp_path / "elsewhere/pipes.csv"),
        typed="",
    )
    assert (ran.stderr, ran.returncode) == ("", 0)
    desk = project_desk(project_of(desk).file.path)
    assert (desk.news, project_of(desk).project.table.file.path, desk.value) == (
        [],
        "elsewhere/pipes.csv",
        170,
    )
    desk.end()


def test_a_table_with_a_fault(tmp_path: Path) -> None:
    desk = with_steps(tmp_path)
    table = tmp_path / "pipes.csv"
    table.write_text(table.read_text().replace(",110,", ",many,"))
    desk = project_desk(project_of(desk).file.path)
    assert (
        "the network is as it was kept" in desk.news[0]
        and "line 2" in desk.news[0]
        and desk.value == 170
    )
    desk.end()


def test_the_folder_moves(tmp_path: Path) -> None:
    """A project and its table that are moved together belong together."""
    (tmp_path / "one").mkdir()
    desk = with_steps(tmp_path / "one")
    os.rename(tmp_path / "one", tmp_path / "two")
    desk = project_desk(str(tmp_path / "two/kept.dmf.json"))
    assert not desk.news and desk.value == 170
    desk.end()


def test_decimals_sources_and_limits(tmp_path: Path) -> None:
    """A table of decimals with a comma, with a limit of a source and of a place: by the project
    alone it is what it was, and steps on what a place gives and lets through are carried over."""
    (tmp_path / "t.csv").write_text(GERMAN)
    (tmp_path / "limits.csv").write_text("Ort;Grenze\nWeir;55,5\n")
    desk = new_project(
        tmp_path,
        "t.csv",
        "--source",
        "Mill",
        "--source",
        "New Mill=20,05",
        "--sink",
        "Sea",
        "--node-limits",
        "limits.csv",
    )
    assert str(desk.value) == "55.5"
    desk.cap(named(desk, "what Weir lets through"), 58)
    desk.cap(named(desk, "what New Mill gives at most"), 1)
    assert str(desk.value) == "48.3"
    desk.end()
    desk = project_desk(project_of(desk).file.path)
    assert (desk.news, str(desk.value), desk.network.measure.unit) == ([], "48.3", "l/s")
    desk.end()
    (tmp_path / "t.csv").write_text(GERMAN.replace("47,3", "48,35"))
    desk = project_desk(project_of(desk).file.path)
    assert desk.news[:2] == [
        "the table 't.csv' has changed since:",
        "  Main, Mill -> Weir: 48.35, and was 47.3",
    ]
    assert str(desk.value) == "49.35"
    desk.end()


def test_stock_that_changed(tmp_path: Path) -> None:
    desk = supply_project(tmp_path)
    desk.shut(desk.network.names.place("East Depot"))
    assert desk.value == 126
    desk.end()
    stock = tmp_path / "stock.csv"
    stock.write_text(stock.read_text().replace("North Depot,60", "North Depot,10"))
    desk = project_desk(project_of(desk).file.path)
    assert "  what North Depot gives: 10, and was 60" in desk.news and desk.value < 126
    desk.end()


def test_a_table_that_changes_while_it_is_kept(tmp_path: Path) -> None:
    """Between its reading and the project: nothing is kept of a table that is not the one that was
    read, nor of one that is no file."""
    shutil.copy(ROOT / "examples/water/pipes.csv", tmp_path)
    said = words(tmp_path, "pipes.csv")
    desk = Desk(read_subject(said))
    table = tmp_path / "pipes.csv"
    table.write_text(table.read_text().replace(",110,", ",111,"))
    with pytest.raises(
        DeskFault,
        match="the table has changed: " "Upper main, Reservoir -> Upper Works: 111, and was 110",
    ):
        keep_project(f"{tmp_path}/kept.dmf.json", said, desk)
    assert os.listdir(tmp_path) == ["pipes.csv"]
    desk.end()
    text = table.read_text()
    ran = subprocess.run(
        [ROOT / "tools/dmf-plan", "/dev/stdin", "--keep"],
        input=text,
        capture_output=True,
        text=True,
        timeout=SECONDS,
        cwd=tmp_path,
    )
    assert ran.returncode == 4 and "/dev/stdin is not a file that could be read again" in ran.stderr
    assert os.listdir(tmp_path) == ["pipes.csv"]


def test_problems_and_sheets(tmp_path: Path) -> None:
    """A problem's file, and a sheet of a workbook, are kept and opened again; a change in them is
    told."""
    openpyxl = load("openpyxl")
    (tmp_path / "w.max").write_bytes(water_problem())
    desk = new_project(tmp_path, f"{tmp_path}/w.max", name="problem.dmf.json")
    desk.close(10)
    desk.end()
    desk = project_desk(project_of(desk).file.path)
    assert (desk.news, desk.value) == ([], 155)
    desk.end()
    (tmp_path / "w.max").write_bytes(water_problem().replace(b"a 5 7 45", b"a 5 7 46"))
    desk = project_desk(project_of(desk).file.path)
    assert "  Mill Lane, Mill -> Market: 46, and was 45" in desk.news and desk.value == 156
    desk.end()
    book = openpyxl.Workbook()
    for name, capacity in ("one", 5), ("two", 7):
        sheet = book.create_sheet(name)
        for row in ["from", "to", "capacity"], ["a", "b", capacity]:
            sheet.append(row)
    book.save(tmp_path / "book.xlsx")
    desk = new_project(tmp_path, f"{tmp_path}/book.xlsx#two", name="book.dmf.json")
    desk.end()
    desk = project_desk(project_of(desk).file.path)
    assert (desk.news, desk.value, project_of(desk).project.table.sheet) == ([], 7, "two")
    desk.end()
