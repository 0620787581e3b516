"""Sheets as offices have them: each is read as a person reads it, and says what was taken for what;
or nothing is read, and the question names its columns. None is read in another way."""

from __future__ import annotations

import argparse
from collections.abc import Mapping
from decimal import Decimal
from pathlib import Path
from typing import Any

import pytest
from client_shared import dmf
from desk_shared import ROOT, run
from dmf.tables.csv_file import csv_sheet
from dmf.tables.loader import Stages, TableOptions, read_subject, subject_of
from dmf.tables.table_file import ReadOptions
from dmf.tools.desk_options import RowCount
from dmf.tools.options import add_words, words_of
from matrix_sheets import MATRICES
from office_questions import ASKED
from office_readings import Arcs, Asked, Read
from office_shared import at_a_terminal, ends_of, greatest
from office_sheets import READ
from packages import load

openpyxl: Any = load("openpyxl")
OFFICE = Path(__file__).with_name("office")


def opened(name: str, arcs: Arcs, **given: Any) -> Any:
    sources, sinks = ends_of(arcs)
    return dmf.read_table(OFFICE / name, source=sources, sink=sinks, **given)


def rows(network: Any) -> list[tuple[str, str, Decimal]]:
    return [(arc.tail, arc.head, Decimal(network.capacity(arc))) for arc in network.arcs]


def judge(network: Any, arcs: Arcs) -> None:
    """Sees to it that a network has these arcs, and their value."""
    assert rows(network) == [(tail, head, Decimal(most)) for tail, head, most in arcs]
    assert network.solve().value == greatest(arcs)


def test_all_are_judged() -> None:
    names = [path.name for path in OFFICE.iterdir()]
    assert (
        sorted(names) == sorted([*READ, *ASKED, *MATRICES])
        and len(names) > 60
        and not READ.keys() & ASKED.keys()
    )


@pytest.mark.parametrize("name", READ)
def test_read(name: str) -> None:
    sheet: Read = READ[name]
    with opened(name, sheet.arcs, **sheet.given) as network:
        assert sheet.told in network.notes
        assert [
            note for note in sheet.notes if not any(note in told for told in network.notes)
        ] == []
        judge(network, sheet.arcs)


@pytest.mark.parametrize("name", ASKED)
def test_asked(name: str) -> None:
    sheet: Asked = ASKED[name]
    path = OFFICE / name
    with pytest.raises(dmf.TableFault) as caught:
        subject_of(TableOptions(), str(path), path.read_bytes())
    told = str(caught.value)
    assert [said for said in sheet.said if said not in told] == [], told
    if sheet.settled:
        with opened(name, sheet.arcs, **sheet.settled) as network:
            judge(network, sheet.arcs)


def test_by_the_tools() -> None:
    """At a tool the line is on standard error, and a question ends it with the status of a table's
    fault."""
    ran = run("dmf-plan", str(OFFICE / "start-end-length-qmax.csv"), typed="solve\n")
    told = (
        "dmf-plan: from 'Start node', to 'End node', capacity 'Q max [m³/h]' (m³/h); kept: 'Length"
        " (m)'"
    )
    assert (
        ran.returncode,
        ran.stdout.startswith("value 65 m³/h"),
        told in ran.stderr.splitlines(),
    ) == (0, True, True)
    ran = run("dmf-plan", str(OFFICE / "trucks.csv"), typed="solve\n")
    path = OFFICE / "trucks.csv"
    assert (ran.returncode, ran.stdout, ran.stderr.splitlines()) == (
        3,
        "",
        [
            (
                f"dmf-plan: {path}, line 1: which column is the capacity? 2 columns have numbers,"
                " and no title says it; name it by --capacity, or give it the title 'capacity'"
            ),
            "dmf-plan:   --capacity 'Distance (km)'   as in 1200, 800",
            "dmf-plan:   --capacity 'Trucks per day'  as in 50, 30",
        ],
    )
    ran = run("dmf-plan", str(path), "--capacity", "Trucks per day", typed="solve\n")
    assert (ran.returncode, ran.stdout.startswith("value 65 ")) == (0, True)


# Sheets that are files of text for what is tried in them.
TEXTS = {"utf-16.txt", "sep-line.csv", "etat.csv", "amont-aval.csv"}


@pytest.mark.parametrize(
    "name", sorted(name for name in {*READ} - TEXTS if name.endswith((".csv", ".tsv")))
)
def test_as_workbooks(tmp_path: Path, name: str) -> None:
    """The same sheets in a workbook, whose cells are numbers where they can be."""
    data = (OFFICE / name).read_bytes()
    sheet = csv_sheet(data, name, "cp1252" if b"\xe4" in data and b"\xc3" not in data else None, 3)
    book = openpyxl.Workbook()
    for rows in sheet.read():
        for line, row in zip(*rows):
            for column, cell in enumerate(row, 1):
                is_number = cell.isdecimal() and cell == str(int(cell))
                book.active.cell(line, column, int(cell) if is_number else cell or None)
    book.save(tmp_path / "t.xlsx")
    arcs = READ[name].arcs
    sources, sinks = ends_of(arcs)
    with dmf.read_table(tmp_path / "t.xlsx", source=sources, sink=sinks) as network:
        judge(network, arcs)


def read_text(folder: Path, text: str, **given: Any) -> Any:
    (folder / "t.csv").write_text(text)
    return dmf.read_table(folder / "t.csv", **given)


def told_of(
    text: str,
    columns: Mapping[str, str] = {},
    missing: str = "",
    both_ways: bool = False,
    source: str = "",
) -> str:
    """What a tool tells of a table that it refuses."""
    reading = ReadOptions(columns, missing=missing)
    wanted = TableOptions(reading, both_ways=both_ways, source=[source] if source else [])
    with pytest.raises(dmf.TableFault) as caught:
        subject_of(wanted, "t.csv", text.encode())
    return str(caught.value).removeprefix("t.csv")


MISSING = "From,To,Q max\nLake,Mill,50\nLake,Hill,30\nMill,Town,\nHill,Town,25\nMill,Hill,n/a\n"


def test_missing_as_unlimited(tmp_path: Path) -> None:
    """All that reaches the Mill goes on: 50, and 25 from the Hill. The others sum up to 105."""
    with read_text(tmp_path, MISSING, missing="unlimited") as network:
        assert network.solve().value == 75
        told = "missing capacities are read as 10000, which is more than all others together: "
        assert f"{told}lines 4 and 6" in network.notes
    with read_text(tmp_path, MISSING, missing=0) as network:
        assert network.solve().value == 25
        assert "missing capacities are read as 0: lines 4 and 6" in network.notes
    told = told_of("From,To,Q max\nA,B,\nB,C,\nA,C,3\n", missing="unlimited")
    assert "nothing limits what can be sent from 'A' to 'C'" in told
    with pytest.raises(ValueError, match="a missing capacity is read as 0 or as 'unlimited': 7"):
        read_text(tmp_path, MISSING, missing=7)


def test_cells_without_a_limit(tmp_path: Path) -> None:
    """A cell that says so needs no option, whatever other missing cells are read as."""
    text = "From,To,Q max\nLake,Mill,50\nMill,Town,unlimited\nLake,Town,\n"
    with read_text(tmp_path, text, missing=0) as network:
        assert network.solve().value == 50
        told = "rows without a limit are read as 1000, which is more than all others together: "
        assert f"{told}line 3" in network.notes
    told = told_of(text)
    assert told.startswith(", line 4, column 'Q max': no capacity. Give --missing 0")
    told = told_of("From,To,Capacity\nA,B,unbegrenzt\nA,C,1\nC,B,1\n")
    assert "nothing limits what can be sent from 'A' to 'B'" in told


def test_a_frame() -> None:
    """What Python has as columns is read, and asked for, in the same way."""
    frame = {"Start node": ["A"], "End node": ["B"], "Length (m)": [900], "Q max [m³/h]": [40]}
    with dmf.read_table(frame) as network:
        assert network.solve().value == 40 and network.unit == "m³/h"
        assert network.notes[0] == (
            "from 'Start node', to 'End node', capacity 'Q max [m³/h]' (m³/h); kept: 'Length (m)'"
        )
    frame["Flow"] = frame.pop("Q max [m³/h]")
    with pytest.raises(dmf.TableFault, match="which column is the capacity"):
        dmf.read_table(frame)
    with dmf.read_table(frame, columns={"capacity": "Flow"}) as network:
        assert network.solve().value == 40


def test_columns_by_number(tmp_path: Path) -> None:
    """Columns that are given, of which some have no title, and the others are found."""
    text = "A,B,1200,50\nB,C,900,40\n"
    with read_text(tmp_path, text, columns={"capacity": "column 4"}) as network:
        assert network.solve().value == 40
        assert network.notes[0] == (
            "there are no titles: from column 1, to column 2, capacity column 4; kept: column 3"
        )
    told = told_of(text, columns={"capacity": "column 9"})
    assert told == ", line 1: there is no column 9: the table has 4 columns"


def test_check_valves_both_ways(tmp_path: Path) -> None:
    """A check valve lets nothing back, also where all rows lead both ways."""
    text = "From,To,Capacity,Status\nTown,Mill,9,Open\nMill,Lake,5,CV\nTown,Lake,2,Open\n"
    with read_text(tmp_path, text, both_ways=True, source="Lake", sink="Town") as network:
        assert network.solve().value == 2 and len(network.arcs) == 5
    with read_text(tmp_path, text, both_ways=True, source="Town", sink="Lake") as network:
        assert network.solve().value == 7


def test_two_that_say_the_way(tmp_path: Path) -> None:
    told = told_of("From,To,Capacity,Direction\nA,B,9,both\n", both_ways=True)
    assert told == (
        ", line 1: --both-ways and the column 'Direction' both say which way rows lead; leave out "
        "--both-ways, or give --ignore 'Direction'"
    )


def test_columns_of_rows_both_ways(tmp_path: Path) -> None:
    """Names and other columns are those of the row that an arc comes of."""
    text = "From,To,Capacity,Name,Direction,Note\nA,B,9,P1,both,old\nB,C,5,P2,one way,new\n"
    with read_text(tmp_path, text, source="A", sink="C") as network:
        assert [arc.key for arc in network.arcs] == ["P1", "P1", "P2"]
        assert network.extra == {"Note": ["old", "old", "new"]}


def test_states_that_no_title_names(tmp_path: Path) -> None:
    """A column that seems to say which rows are closed is asked for, whatever its title is."""
    text = "From,To,Capacity,Schieber\nA,B,9,offen\nA,B,5,geschlossen\n"
    told = told_of(text)
    assert told == (
        ", line 1: 'Schieber' seems to say which rows are open, as in 'offen'; give it the title "
        "'status', or keep it as a remark by --ignore Schieber"
    )
    with read_text(tmp_path, text.replace("Schieber", "Status")) as network:
        assert network.solve().value == 9
    with read_text(tmp_path, text, ignore=["Schieber"]) as network:
        assert network.solve().value == 14


@pytest.mark.parametrize(
    "titles, row",
    [
        ("From,To,Capacity,Capacity reverse", "A,B,9,4"),
        ("From,To,Capacity,Peak capacity", "A,B,9,4"),
        ("Von,Nach,Kapazität,Kapazität 2030", "A,B,9,4"),
        ("Von,Nach,Kapazität hin,Kapazität zurück", "A,B,9,4"),
    ],
)
def test_another_capacity(tmp_path: Path, titles: str, row: str) -> None:
    """A second capacity is asked for, though one of the two has the plain title."""
    told = told_of(f"{titles}\n{row}\n")
    assert "which column is the capacity?" in told and told.count("--capacity ") == 2
    text = "From,To,Capacity,Spare capacity\nA,B,9,4\n"
    with read_text(tmp_path, text) as network:
        assert network.solve().value == 9


@pytest.mark.parametrize("title, cells", [("Sperrung", ["ja", ""]), ("Betrieb", ["x", "-"])])
def test_titles_that_hint_at_states(tmp_path: Path, title: str, cells: list[str]) -> None:
    text = f"Von,Nach,Kapazität,{title}\nA,B,9,{cells[0]}\nA,B,5,{cells[1]}\n"
    told = told_of(text)
    assert f"'{title}' seems to say which rows are open, or which way they lead" in told
    with read_text(tmp_path, text, ignore=[title]) as network:
        assert network.solve().value == 14


def test_totals(tmp_path: Path) -> None:
    """A total that is not the sum is left out with a word; in a matrix both totals are."""
    text = "From,To,Capacity\nA,B,9\nB,C,5\nTotal,,15\n"
    with read_text(tmp_path, text) as network:
        told = "line 4 is a total, and is left out, though it says 15 and the rows above it 14"
        assert told in network.notes and network.solve().value == 5
    text = "from\\to,B,C,Total\nA,9,2,11\nB,,5,5\nTotal,9,7,16\n"
    with read_text(tmp_path, text) as network:
        judge(network, [("A", "B", 9), ("A", "C", 2), ("B", "C", 5)])
        assert "totals are left out: the column 'Total'" in network.notes
        assert "line 4 is a total, and is left out" in network.notes


def test_two_columns_that_say_one_thing(tmp_path: Path) -> None:
    told = told_of("From,To,Capacity,Status,Zustand\nA,B,9,open,offen\n")
    assert (
        "'Status' and 'Zustand' both say which rows are open; give one of them to --ignore" in told
    )


def test_numbers_below_the_first_rows(tmp_path: Path) -> None:
    """A column whose first cells are empty has numbers all the same."""
    lines = [f"A,B{at},5,\n" for at in range(300)]
    told = told_of("From,To,Lanes,Trucks\n" + "".join(lines) + "A,B,5,7\n", source="A")
    assert "--capacity Lanes" in told and "--capacity Trucks" in told


def test_a_project_keeps_the_options(tmp_path: Path) -> None:
    """What was said of a table is said again when its project is opened on a table that changed."""
    path = tmp_path / "t.csv"
    path.write_text("From,To,Lanes,Trucks,Status\nA,B,5,7,planned\nB,C,5,,Open\n")
    words = [str(path), "--capacity", "Trucks", "--ignore", "Status", "--missing", "0", "--keep"]
    assert run("dmf-plan", *words, typed="solve\n").stdout.startswith("value 0")
    path.write_text(path.read_text().replace("C,5,,", "C,5,4,"))
    ran = run("dmf-plan", f"{path.with_suffix('')}.dmf.json", typed="solve\n")
    assert ran.stdout.splitlines()[-1].startswith("value 4"), ran


def test_a_terminal_is_asked() -> None:
    """The number or the title answers; nothing is read without an answer."""
    path = OFFICE / "trucks.csv"
    words = [str(ROOT / "tools" / "dmf-plan"), str(path)]
    status, told = at_a_terminal(words, [b"2\n", b"solve\nquit\n"])
    assert status == 0 and "2  Trucks per day  as in 50, 30" in told, told
    assert "next time: --capacity 'Trucks per day'" in told and "value 65" in told, told
    status, told = at_a_terminal(words, [b"Distance (km)\n", b"solve\nquit\n"])
    assert status == 0 and "there is no column" not in told and "value 1550" in told, told
    status, told = at_a_terminal(words, [b"\n"])
    assert status == 3 and "--capacity 'Trucks per day'  as in 50, 30" in told, told


def test_a_terminal_is_told(tmp_path: Path) -> None:
    """What takes seconds is told at a terminal while it is done, and a script is told nothing."""
    path = tmp_path / "large.csv"
    rows = "".join(f"A,B{at},5\nB{at},C,4\n" for at in range(200_000))
    path.write_text(f"from,to,capacity\n{rows}")
    words = [str(ROOT / "tools" / "dmf-plan"), str(path)]
    status, told = at_a_terminal(words, [b"solve\nquit\n"], prompts=["greatest>"])
    assert status == 0 and f"dmf-plan: reading {path} (5 MB) .." in told, told
    assert told.index("(5 MB) ..") < told.index("dmf-plan: solving ..") < told.index("value 800000")
    assert " .." not in run("dmf-plan", str(path), typed="solve\n").stderr


def test_a_terminal_counts_lines(
    tmp_path: Path, monkeypatch: pytest.MonkeyPatch, capfd: pytest.CaptureFixture[str]
) -> None:
    """How far a table is read is told in one line, which is taken away at the end."""
    monkeypatch.setattr("dmf.tools.desk_options.PAUSE", 0)
    path = tmp_path / "large.csv"
    path.write_text("from,to,capacity\n" + "".join(f"A,B{at},5\n" for at in range(20_000)))
    parser = argparse.ArgumentParser()
    add_words(parser)
    words = words_of(parser, [str(path), "A", "B7"])
    read_subject(words, stages=Stages(watch=RowCount()))
    _, *shown = capfd.readouterr().err.split("\r\x1b[K")
    counts = [int(it.removesuffix(" lines read").replace(",", "")) for it in shown if it]
    assert counts == sorted(counts) and counts[-1] == 20_001 and shown[-1] == ""
