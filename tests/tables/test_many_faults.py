"""Tables with faults in several cells: five are told in full, each with its cell, and the others
are counted, whatever the cells are of: capacities, states, directions, or what places need."""

from __future__ import annotations

from dataclasses import dataclass
from pathlib import Path
from typing import Any

import pytest
from client_shared import dmf
from desk_shared import run
from dmf.desk.board.import_view import faults_view

BAD = range(8)


@dataclass(frozen=True)
class Faulty:
    """A table with eight bad cells: its text, the line and the column of each, and what the column
    of the first is called."""

    text: str
    cells: list[tuple[int, int]]
    called: str


def of_rows(titles: str, row: str) -> Faulty:
    """A table with a bad cell in each row, in the last column."""
    rows = "".join(f"{row.format(at)},bad{at}\n" for at in BAD)
    names = titles.split(",")
    return Faulty(f"{titles}\n{rows}", [(at + 2, len(names)) for at in BAD], names[-1])


MATRIX = f"from\\to,{','.join(f'B{at}' for at in BAD)}\nA{',5' * 8}\n"
ROSTER = f"name,shifts,{','.join(f'S{at}' for at in range(9))}\n"
NEEDED = ",".join(f"bad{at}" for at in BAD)
TABLES = {
    "capacities": of_rows("From,To,Capacity", "A,B{}"),
    "states": of_rows("From,To,Capacity,Status", "A,B{},5"),
    "directions": of_rows("From,To,Capacity,Direction", "A,B{},5"),
    "needs": Faulty(
        "From,To,Capacity,Demand\nA,B0,5,\n" + "".join(f"B{at},,,bad{at}\n" for at in BAD),
        [(at + 3, 4) for at in BAD],
        "Demand",
    ),
    "needs of a matrix": Faulty(f"{MATRIX}Demand,{NEEDED}\n", [(3, at + 2) for at in BAD], "B0"),
    "capacities of a matrix": Faulty(f"{MATRIX}C,{NEEDED}\n", [(3, at + 2) for at in BAD], "B0"),
    "needs of a roster": Faulty(
        f"{ROSTER}needed,,{NEEDED},1\nAnna,2{',x' * 9}\n", [(2, at + 3) for at in BAD], "S0"
    ),
    "marks of a roster": Faulty(
        f"{ROSTER}needed,{',1' * 9}\nBen,2{',x' * 9}\nAnna,2,{NEEDED},x\n",
        [(4, at + 3) for at in BAD],
        "S0",
    ),
}


@pytest.mark.parametrize("name", TABLES)
def test_everywhere(tmp_path: Path, name: str) -> None:
    """In Python, on the page and at a terminal, five cells are told, and three counted."""
    table, path = TABLES[name], tmp_path / "t.csv"
    is_roster = name.endswith("roster")
    given: dict[str, Any] = {"daily": "all"} if is_roster else {}
    path.write_text(table.text)
    with pytest.raises(dmf.TableFault) as caught:
        dmf.read_table(path, **given)
    fault = caught.value
    told = [fault, *fault.others]
    assert [(it.line, it.column) for it in told] == table.cells[:5] and fault.untold == 3
    lines = str(fault).splitlines()
    assert [f"'bad{at}'" in line for at, line in enumerate(lines[:5])] == [True] * 5
    assert lines[0].startswith(f"{path}, line {table.cells[0][0]}, column '{table.called}': ")
    assert lines[5:] == ["and 3 more"]
    view = faults_view(fault, [], str(path))
    assert [(it["line"], it["column"]) for it in view["faults"]] == table.cells[:5]
    assert view["more_faults"] == 3
    ran = run("dmf-plan", str(path), *(["--daily", "all"] if is_roster else []), typed="solve\n")
    assert (ran.returncode, ran.stdout) == (3, "")
    at_terminal = ran.stderr.splitlines()
    cells = [f"dmf-plan: {path}, line {line}, column " for line, _ in table.cells[:5]]
    assert [it.startswith(cell) for it, cell in zip(at_terminal, cells)] == [True] * 5
    assert at_terminal[5:] == ["dmf-plan: and 3 more"]


def test_all_kinds_together(tmp_path: Path) -> None:
    """What is wrong with capacities, states, directions and needs is told at once, in the order of
    the cells."""
    path = tmp_path / "t.csv"
    path.write_text(
        "From,To,Capacity,Status,Direction,Demand\nA,B,bad,open,one way,\nA,C,5,planned,one way,\n"
        "A,D,5,open,N,\nB,,,,,some\nC,,,,,4\n"
    )
    with pytest.raises(dmf.TableFault) as caught:
        dmf.read_table(path, source="A")
    fault = caught.value
    assert [(it.line, it.column) for it in (fault, *fault.others)] == [
        (2, 3),
        (3, 4),
        (4, 5),
        (5, 6),
    ]
    assert fault.untold == 0


@pytest.mark.parametrize(
    "text, told",
    [
        ("from\\to,B,C\nA,5,-4\n", ", line 2, column 'C': '-4' is below 0"),
        ("from\\to,B,C\nA,5,4\nDemand,1,-4\n", ", line 3, column 'C': '-4' is below 0"),
        # The sheet has no column of capacities.
        ('from\\to,B,C\nA,"1,234",4\n', ", line 2: '1,234' may be 1234"),
    ],
)
def test_cells_of_a_matrix(tmp_path: Path, text: str, told: str) -> None:
    path = tmp_path / "t.csv"
    path.write_text(text)
    with pytest.raises(dmf.TableFault) as caught:
        dmf.read_table(path)
    assert str(caught.value).startswith(f"{path}{told}")
