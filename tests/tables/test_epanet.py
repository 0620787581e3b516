"""Networks of EPANET: what each pipe carries by the formula, what leads which way, and what is told
and asked."""

from __future__ import annotations

import argparse
import math
import pickle
from decimal import Decimal
from pathlib import Path
from typing import Any

import pytest
from client_shared import dmf
from desk_shared import run
from dmf.desk.workspace import Desk
from dmf.tables.loader import TableOptions, subject_of
from dmf.tables.table_file import ReadOptions
from dmf.tools.board import spots_of
from office_shared import at_a_terminal

TOOL = Path(__file__).parents[2] / "tools" / "dmf-plan"
VALLEY = """\
[TITLE]
A valley; by hand

[JUNCTIONS]
;ID          Elev  Demand  Pattern
 Mill        12    0
 "Long Hill" 30    5       ; in the morning
 Town        4     80      Day ;
 New         3
[RESERVOIRS]
 Lake        60
[TANKS]
 Tower       50 2 0 5 10 0
[PIPES]
 P1  Lake  Mill  1200  200  100  0  Open ;
 P2  Lake  "Long Hill"  800  150  100  0  CV
 P3  Mill  Town  900  250  100  0  Closed
 P4  "Long Hill"  Town  650  100  100  OPEN
 P5  Tower  Town  20  150  100  0
 P6  Mill  New  20  150  100
[PUMPS]
 U1  Mill  Town  HEAD 1
[VALVES]
 V1  New  Town  150  FCV  12.5  0
 V2  New  Town  80   TCV  2.5   0
[STATUS]
 P6  open
 V2  Closed
[DEMANDS]
 New  2  ;household
 New  1.5
[COORDINATES]
 Mill  0   0
 Town  10  0.5
[OPTIONS]
 Units  LPS
 Demand Multiplier  1.5
[CONTROLS]
 LINK P3 OPEN AT TIME 5
[END]
what stands here is not read
"""
# Litres in a second through a circle of so many millimetres at 1.5 m/s, by hand: for 200 mm it is
# 1.5 * 3.141593 / 4 * 2^2 * 10 = 47.124.
D200, D150, D100 = "47.124", "26.507", "11.781"
# All that the others have together is 47.124 + 26.507 * 3 + 11.781 + 12.5, with three decimals.
UNLIMITED = "10000"
ARCS: list[tuple[str, str, Any, str]] = [
    ("Lake", "Mill", D200, "P1"),
    ("Mill", "Lake", D200, "P1"),
    ("Lake", "Long Hill", D150, "P2"),
    ("Mill", "Town", 0, "P3"),
    ("Town", "Mill", 0, "P3"),
    ("Long Hill", "Town", D100, "P4"),
    ("Town", "Long Hill", D100, "P4"),
    ("Tower", "Town", D150, "P5"),
    ("Town", "Tower", D150, "P5"),
    ("Mill", "New", D150, "P6"),
    ("New", "Mill", D150, "P6"),
    ("Mill", "Town", UNLIMITED, "U1"),
    ("New", "Town", "12.5", "V1"),
    ("New", "Town", 0, "V2"),
    ("Town", "New", 0, "V2"),
]
NOTES = [
    "a network of EPANET: 6 pipes, 1 pump, 2 valves; capacity (in LPS, to 3 decimals) from the"
    " diameter (mm) at 1.5 m/s",
    "rows without a limit are read as 10000, which is more than all others together: line 22",
    "rows are closed, and carry nothing, as 'status' says: lines 17 and 25",
    "rows are read as leading both ways, as 'direction' says: lines 15, 17, 18, 19, 20 and 25",
    "demands are multiplied by 1.5, as [OPTIONS] says",
    "reservoirs supply without a limit: 'Lake'",
    "tanks only let water through: 'Tower'",
    "pumps lead one way, without a limit: 'U1'",
    "demands are base demands; patterns are left out",
    "[CONTROLS] open and close links in time, and are left out",
]


def opened(folder: Path, text: str, **given: Any) -> Any:
    (folder / "t.inp").write_text(text)
    return dmf.read_table(folder / "t.inp", **given)


def told(folder: Path, text: str, **given: Any) -> list[str]:
    given = {"velocity": 1.5, "tanks": "none", **given}
    with pytest.raises(dmf.TableFault) as caught:
        opened(folder, text, **given)
    return [line.removeprefix(f"{folder}/t.inp") for line in caught.value.lines()]


def test_a_valley(tmp_path: Path) -> None:
    """Of the 73.631 that leave the Lake, 47.124 come over the Mill, of which the pump takes all
    that New does not: 5.25 + 41.874. The Hill takes 7.5 of 26.507, and 11.781 go on."""
    with opened(tmp_path, VALLEY, velocity=1.5, tanks="none") as network:
        arcs = [(it.tail, it.head, network.capacity(it), it.key) for it in network.arcs]
        assert arcs == [(tail, head, Decimal(most), name) for tail, head, most, name in ARCS]
        assert network.solve().value == Decimal("47.124") + Decimal("7.5") + Decimal("11.781")
        assert network.unit == "LPS"
        assert network.notes[: len(NOTES)] == NOTES
        assert network.extra["diameter"][0] == "200" and network.extra["kind"][-1] == "TCV"
    # A tank of its own brings 26.507 more, and the Town takes 120.
    with opened(tmp_path, VALLEY, velocity=1.5, tanks="source") as network:
        assert network.solve().value == Decimal("66.405") + Decimal("26.507")
        assert "tanks supply without a limit: 'Tower'" in network.notes


def test_options_name_others(tmp_path: Path) -> None:
    """A source that is named stands in place of the reservoirs, and so with sinks."""
    with opened(tmp_path, VALLEY, velocity=1.5, tanks="none", source="Tower") as network:
        assert network.solve().value == Decimal(D150)
        said = "the supplies of the file are left out, since options name others"
        assert said in network.notes
    with opened(tmp_path, VALLEY, velocity=1.5, tanks="none", sink="Tower") as network:
        assert network.solve().value == Decimal(D150)
    (tmp_path / "d.csv").write_text("place,demand\nTown,20\n")
    given = {"velocity": 1.5, "tanks": "none", "sinks": tmp_path / "d.csv"}
    with opened(tmp_path, VALLEY, **given) as network:
        assert network.solve().value == 20


# Flows of a circle of 12 inches, or 300 mm, at 1 m/s, from the definitions of the units: a foot is
# 0.3048 m, a gallon 3.785411784 litres, an imperial one 4.54609, an acre-foot 43,560 cubic feet.
CIRCLES = {
    "CFS": Decimal("2.577"),
    "GPM": Decimal("1156.533"),
    "MGD": Decimal("1.665"),
    "IMGD": Decimal("1.387"),
    "AFD": Decimal("5.111"),
    "LPS": Decimal("70.686"),
    "LPM": Decimal("4241.150"),
    "MLD": Decimal("6.107"),
    "CMH": Decimal("254.469"),
    "CMD": Decimal("6107.256"),
    "CMS": Decimal("0.070686"),
}
# What EPANET's own source multiplies cubic feet in a second by.
PER_CUBIC_FOOT = {
    "CFS": 1.0, "GPM": 448.831, "MGD": 0.64632, "IMGD": 0.5382, "AFD": 1.9837, "LPS": 28.317,
    "LPM": 1699.0, "MLD": 2.4466, "CMH": 101.94, "CMD": 2446.6, "CMS": 0.028317,
}  # fmt: skip


def small(unit: str, diameter: str) -> str:
    options = f"[OPTIONS]\nUNITS {unit}\n" if unit else ""
    nodes = "[JUNCTIONS]\nB 0 9000\n[RESERVOIRS]\nA 9\n"
    return f"{nodes}[PIPES]\nP A B 9 {diameter} 100\n{options}[END]\n"


@pytest.mark.parametrize("unit", CIRCLES)
def test_units(tmp_path: Path, unit: str) -> None:
    is_metric = unit in ("LPS", "LPM", "MLD", "CMH", "CMD", "CMS")
    with opened(tmp_path, small(unit, "300" if is_metric else "12"), velocity=1) as network:
        value = network.solve().value
    assert value == CIRCLES[unit]
    metres = 0.3 if is_metric else 0.3048
    cubic_feet = math.pi * metres**2 / 4 / 0.3048**3
    assert float(value) == pytest.approx(cubic_feet * PER_CUBIC_FOOT[unit], rel=6e-4)


def test_no_unit(tmp_path: Path) -> None:
    with opened(tmp_path, small("", "12"), velocity=1) as network:
        assert network.solve().value == CIRCLES["GPM"]
        assert "[OPTIONS] names no UNITS, which EPANET reads as GPM" in network.notes


FAULTS = [
    (
        " P6  Mill  New  20  150  100\n",
        " P6  Mill  New  20\n",
        ", line 20: 4 of the 5 fields that are " "needed: name, two nodes, length, diameter",
    ),
    (
        " P6  Mill  New  20  150",
        " P6  Mill  Nww  20  150",
        ", line 20: 'Nww', where a pipe's end is, is " "not a node of the file; is it 'New'?",
    ),
    (" P6  Mill", " P1  Mill", ", line 20: 'P1' is the name of the pipe in line 15 too"),
    (
        " New         3\n",
        " Town        3\n",
        ", line 9: 'Town' is the name of a junction in line 8 too",
    ),
    (
        "Units  LPS",
        "Units  LPX",
        ", line 36: 'LPX' is not a unit of EPANET, which are CFS, GPM, MGD, "
        "IMGD, AFD, LPS, LPM, MLD, CMH, CMD, CMS",
    ),
    (" Mill  0   0\n", " Mill  nan  0\n", ", line 33: 'nan' is not a coordinate"),
    (
        " 650  100  100  OPEN",
        " 650  100  100  OPENED",
        ", line 18: 'OPENED' is not a status, which is " "OPEN, CLOSED or CV",
    ),
    (" 650  100  100  OPEN", " 650  -100  100  OPEN", ", line 18: the diameter '-100' is below 0"),
    (" 650  100  100  OPEN", " 650  0  100  OPEN", ", line 18: the pipe has the diameter 0"),
    (" 650  100  100  OPEN", " 650  10,5  100", ", line 18: '10,5' is not a diameter"),
    (
        "FCV",
        "XCV",
        ", line 24: 'XCV' is not a type of valve, which are FCV, GPV, PBV, PCV, PRV, PSV,",
    ),
    ("[PUMPS]", "[PUMBS]", ", line 21: EPANET has no section '[PUMBS]'"),
    ('"Long Hill" 30', '"Long Hill 30', ", line 7: a quote is not closed"),
    (" V2  Closed", " V9  Closed", ", line 28: 'V9' is not a link of the file"),
    (
        " New  1.5\n",
        " Now  1.5\n",
        ", line 31: 'Now', where a demand is, is not a node of the file; is " "it 'New'?",
    ),
    ("[TITLE]\n", "Mill\n[TITLE]\n", ", line 1: 'Mill' stands before the first section"),
    ("P1  Lake  Mill", "P1  Mill  Mill", ", line 15: the pipe begins and ends at one node"),
]


@pytest.mark.parametrize(("old", "new", "said"), FAULTS)
def test_faults(tmp_path: Path, old: str, new: str, said: str) -> None:
    """Each fault is told with its line, and nothing is read."""
    assert VALLEY.count(old) == 1
    lines = told(tmp_path, VALLEY.replace(old, new))
    assert any(line.startswith(said) for line in lines), lines


def test_a_file_that_is_cut(tmp_path: Path) -> None:
    """A file without an end is told; one that is cut in its pipes has a fault."""
    with opened(tmp_path, VALLEY.partition("[CONTROLS]")[0], velocity=1, tanks="none") as network:
        assert "the file has no [END]; is it whole?" in network.notes
    cut = VALLEY[: VALLEY.index(" 650")]
    assert told(tmp_path, cut)[0].startswith(", line 18: 3 of the 5 fields that are needed")
    cut = VALLEY[: VALLEY.index("[PIPES]")]
    assert told(tmp_path, cut) == [
        ": the network has no pipe: the section [PIPES] is missing or empty"
    ]


def test_questions_in_a_script(tmp_path: Path) -> None:
    path = tmp_path / "t.inp"
    path.write_text(VALLEY)
    ran = run("dmf-plan", str(path), typed="solve\n")
    assert (ran.returncode, ran.stdout, ran.stderr.splitlines()) == (
        3,
        "",
        [
            f"dmf-plan: {path}: how fast does water flow at most? The file has diameters, and no "
            "capacities (in LPS)",
            "dmf-plan:   --velocity 1.5  m/s, or another velocity",
        ],
    )
    ran = run("dmf-plan", str(path), "--velocity", "1.5", typed="solve\n")
    assert ran.returncode == 3 and ran.stderr.splitlines() == [
        f"dmf-plan: {path}: what are the tanks ('Tower')? A tank gives water and takes it in",
        "dmf-plan:   --tanks source  they give water without a limit, as reservoirs do",
        "dmf-plan:   --tanks none    they are places that water only passes",
    ]
    ran = run("dmf-plan", str(path), "--velocity", "1.5", "--tanks", "none", typed="solve\n")
    assert (ran.returncode, ran.stdout.startswith("value 66.405 LPS")) == (0, True)
    ran = run("dmf-plan", str(path), "--velocity", "0", typed="solve\n")
    assert ran.returncode == 2 and "a velocity is above 0" in ran.stderr


def test_questions_of_a_call(tmp_path: Path) -> None:
    with pytest.raises(dmf.TableFault, match="how fast does water flow") as caught:
        opened(tmp_path, VALLEY)
    assert str(caught.value).splitlines()[1:] == ["  velocity=1.5  m/s, or another velocity"]
    again = pickle.loads(pickle.dumps(caught.value))
    assert (type(again), str(again)) == (type(caught.value), str(caught.value))
    with pytest.raises(dmf.TableFault, match="what are the tanks") as caught:
        opened(tmp_path, VALLEY, velocity=2)
    assert str(caught.value).splitlines()[2].startswith("  tanks='none'    they are places")
    with pytest.raises(ValueError, match="not source or none: all"):
        opened(tmp_path, VALLEY, velocity=2, tanks="all")


def test_questions_at_a_terminal(tmp_path: Path) -> None:
    """Both are asked for one after the other; a word that does not answer is asked for again."""
    path = tmp_path / "t.inp"
    path.write_text(VALLEY)
    prompts = [
        "velocity (m/s, a number above 0): ",
        "not a decimal number: fast",
        "tanks (source or none): ",
        "greatest>",
    ]
    answers = [b"fast\n", b"1.5\n", b"none\n", b"solve\nquit\n"]
    status, seen = at_a_terminal([str(TOOL), str(path)], answers, prompts)
    assert status == 0 and "value 66.405 LPS" in seen, seen
    assert "next time: --velocity 1.5" in seen and "next time: --tanks none" in seen


def test_the_page_has_the_map() -> None:
    """The board puts the places of a network where its coordinates are: in a square on its tip."""
    path = Path(__file__).with_name("office") / "valves.inp"
    wanted = TableOptions(ReadOptions(velocity=Decimal("1.5")))
    desk = Desk(subject_of(wanted, str(path), path.read_bytes()))
    try:
        words = argparse.Namespace(map=None, place_table=None, path=str(path))
        spots = spots_of(words, desk)
        names = desk.network.names
        found = {names.node(node): (spot.x, spot.y) for node, spot in spots.items()}
    finally:
        desk.end()
    assert found == {
        "Lake": (0, 150),
        "Mill": (150, 300),
        "Hill": (150, 0),
        "Town": (300, 150),
    }


def test_a_project_keeps_the_answers(tmp_path: Path) -> None:
    path = tmp_path / "t.inp"
    path.write_text(VALLEY)
    words = [str(path), "--velocity", "1.5", "--tanks", "none", "--keep"]
    assert run("dmf-plan", *words, typed="solve\n").stdout.startswith("value 66.405 LPS")
    path.write_text(VALLEY.replace("150  100  0  CV", "100  100  0  CV"))
    ran = run("dmf-plan", f"{path.with_suffix('')}.dmf.json", typed="solve\n")
    # The pipe from the Lake to the Hill lets 11.781 through in place of 26.507.
    assert ran.stdout.splitlines()[-1].startswith("value 58.905"), ran


@pytest.mark.parametrize(
    "name, data, what",
    [
        ("net.rpt", b"  Page 1\r\n  *    E P A N E T    *\r\n", "the report of a run of EPANET"),
        # 516114521, with which such a file begins.
        (
            "net.out",
            (516114521).to_bytes(4, "little") + bytes(40),
            "the results of a run of EPANET",
        ),
    ],
)
def test_other_files(tmp_path: Path, name: str, data: bytes, what: str) -> None:
    """What EPANET writes beside a network names the file that is needed."""
    (tmp_path / name).write_bytes(data)
    with pytest.raises(dmf.TableFault) as caught:
        dmf.read_table(tmp_path / name)
    assert str(caught.value) == f"{tmp_path / name}: it is {what}; give the .inp"
