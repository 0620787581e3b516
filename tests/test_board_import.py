"""The requests of the page on which a table is imported: what it shows of sheets that were worked
by hand, and requests of another form."""

from __future__ import annotations

import json
import shlex
from pathlib import Path
from typing import Any

import pytest
from board_running import board
from dmf.desk.board.import_options import nothing_said
from import_requests import OPEN, PLAIN, asked, importing, said, sent

pytestmark = pytest.mark.seconds(10)


def roles(view: Any) -> list[tuple[str, str]]:
    return [(column["role"], column["sure"]) for column in view["columns"]]


def test_question(tmp_path: Path) -> None:
    """Two columns have numbers: the question has both, and the answer is that of the one that is
    chosen. Then the board is open, and what it shows is the same."""
    with importing(tmp_path, OPEN) as it:
        view = it.told("import")
        assert view["question"]["option"] == "capacity"
        assert view["question"]["text"].startswith("which column is the capacity?")
        assert view["question"]["choices"] == [
            ["Length (m)", "as in 1200, 900"],
            ["Q [m\u00b3/h]", "as in 50, 40"],
        ]
        assert (view["answer"], view["faults"], view["places"]) == (None, [], [])
        assert view["file"] == {
            "name": "s.csv",
            "folder": str(tmp_path),
            "kind": "a CSV file",
            "bytes": len(OPEN.encode()),
        }
        assert view["preview"]["rows"][1] == ["Res", "A", "1200", "50"]
        assert roles(view) == [("tail", "named"), ("head", "named"), ("", ""), ("", "")]
        page = it.ask(it.root)[2]
        assert page == it.ask(it.root + "import.html")[2] != it.ask(it.root + "index.html")[2]
        assert asked(it, "open", {})[0] == 409
        assert said(it, capacity="Length (m)")["answer"]["said"] == (
            "900 m can be sent from Res to Town"
        )
        view = said(it, capacity="Q [m\u00b3/h]", ignore=["Length (m)"])
        assert view["answer"] == {"said": "40 m\u00b3/h can be sent from Res to Town", "rows": 2}
        assert roles(view)[2:] == [("ignore", "chosen"), ("capacity", "chosen")]
        assert (view["question"], view["places"]) == (None, ["Res", "A", "Town"])
        assert view["ends"] == {
            "source": ["Res"],
            "sink": ["Town"],
            "assumed": ["source", "sink"],
        }
        assert shlex.split(view["command"]) == [
            *("dmf", "board", "s.csv", "--capacity", "Q [m\u00b3/h]", "--ignore", "Length (m)")
        ]
        assert asked(it, "open", {}) == (200, {"opened": True})
        assert it.state()["value"] == "40"
        for path in "import", "open":
            assert asked(it, path, {})[0] == 404
        assert it.ask(it.root + "import")[0] == sent(it, "t.csv", b"")[0] == 404
        assert it.ask(it.root)[2] == it.ask(it.root + "index.html")[2]


def test_titles_below_others(tmp_path: Path) -> None:
    """What stands above the titles is left out, and each line is the file's."""
    with importing(tmp_path, "Plan of 2024\n\n" + PLAIN) as it:
        view = it.told("import")
        assert view["preview"]["lines"] == [1, 3, 4, 5]
        assert (view["preview"]["header"], view["preview"]["left_out"]) == (3, [1])
        assert view["answer"]["said"] == "40 can be sent from Res to Town"


def test_without_titles(tmp_path: Path) -> None:
    """Which column is the capacity is sure, as the only one with numbers; the ends are in order."""
    with importing(tmp_path, "Res,A,50\nA,Town,40\n") as it:
        view = it.told("import")
        assert (view["preview"]["header"], view["preview"]["left_out"]) == (None, [])
        assert roles(view) == [("tail", ""), ("head", ""), ("capacity", "only")]
        assert [column["option"] for column in view["columns"]] == [
            f"column {number}" for number in (1, 2, 3)
        ]


def test_cells(tmp_path: Path) -> None:
    """Seven rows have no tail: five of these are told, each with its cell."""
    rows = "".join(f",B{row},{row}\n" for row in range(1, 8))
    with importing(tmp_path, "from,to,capacity\nRes,A,50\n" + rows) as it:
        view = it.told("import")
        assert [(fault["line"], fault["column"]) for fault in view["faults"]] == [
            (line, 1) for line in range(3, 8)
        ]
        assert (view["more_faults"], view["answer"], view["question"]) == (2, None, None)
        assert view["faults"][0]["text"] == "no tail"
    with importing(tmp_path, PLAIN.replace("50", "n/a").replace("40", "n/a")) as it:
        (fault,) = it.told("import")["faults"]
        assert (fault["line"], fault["column"]) == (2, 3)
        assert "'n/a' is not a number" in fault["text"] and "(also in line 3)" in fault["text"]


def test_ends(tmp_path: Path) -> None:
    """Two places may be the source: that is a question. One that is not in the table is a fault
    without a line."""
    table = "from,to,capacity\nRes,A,50\nMill,A,20\nA,Town,60\n"
    with importing(tmp_path, table) as it:
        question = it.told("import")["question"]
        assert (question["option"], question["choices"]) == ("source", [["Res", ""], ["Mill", ""]])
        assert said(it, source=["Res", "Mill=5"])["answer"]["said"].startswith("55 can be sent")
        assert said(it, source=["Res"], both_ways=True)["question"]["choices"] == [
            [place, ""] for place in ("A", "Mill", "Town")
        ]
        view = said(it, source=["Rs"])
        assert [(it["line"], "'Rs'" in it["text"]) for it in view["faults"]] == [(0, True)]
        assert view["places"] == ["Res", "A", "Mill", "Town"]


def test_settings(tmp_path: Path) -> None:
    """What else may be said: the decimal sign, missing capacities, both ways, a factor; wrong
    values are faults that name their option."""
    with importing(tmp_path, 'from,to,capacity\nRes,A,"1,200"\nA,Town,\n') as it:
        assert it.told("import")["faults"]
        view = said(it, decimal=",", missing="unlimited")
        assert view["answer"]["said"] == "1.2 can be sent from Res to Town"
        assert view["settings"][0]["choices"][0] == ["", "as found: a comma"]
        assert said(it, decimal=".", missing="0")["answer"]["said"].startswith("0 can be sent")
        for option in "scale", "decimal", "encoding", "velocity", "missing", "tanks", "tolerance":
            view = said(it, **{option: "no such"})
            (fault,) = view["faults"]
            assert option in fault["text"] and fault["line"] == 0 and view["answer"] is None
            assert view["options"][option] == "no such" and view["preview"]["rows"]
        (fault,) = said(it, capacity="none such")["faults"]
        assert "'none such'" in fault["text"]
        assert said(it, tail="from", head="from")["faults"]
        for odd in "--", "-", "--help", "\ud800", "\0", "x\n", "$(id)":
            assert said(it, capacity=odd, encoding=odd, sheet=odd, source=[odd])["faults"], odd


def test_sheets(tmp_path: Path) -> None:
    """Two sheets have arcs: which one is meant is a question."""
    import openpyxl

    book = openpyxl.Workbook()
    for sheet, most in (book.active, 5), (book.create_sheet("South"), 7):
        for row in ["from", "to", "capacity"], ["Res", "Town", most]:
            sheet.append(row)
    book.active.title = "North"
    book.save(tmp_path / "net.xlsx")
    with board("--import", "net.xlsx", cwd=tmp_path) as it:
        view = it.told("import")
        assert view["file"]["kind"] == "a workbook"
        assert view["question"]["option"] == "sheet"
        assert view["question"]["choices"] == [["North", ""], ["South", ""]]
        assert view["contents"] == [
            {"name": name, "count": None, "said": "from, to, capacity"}
            for name in ("North", "South")
        ]
        view = said(it, sheet="South")
        assert view["contents"][1]["said"] == "is read: from, to, capacity"
        assert view["answer"]["said"] == "7 can be sent from Res to Town"
        assert view["command"] == "dmf board 'net.xlsx#South'"
        assert "encoding" not in [setting["option"] for setting in view["settings"]]


# A pipe of 200 mm, through which 1.5 * 3.141593 / 4 * 2^2 * 10 = 47.124 litres flow in a second at
# 1.5 m/s, and a tank beside it, through a pipe half as wide, which gives a quarter: 11.781.
WATER = """[JUNCTIONS]
 Town 4 80
[RESERVOIRS]
 Lake 60
[TANKS]
 Tower 50 2 0 5 10 0
[PIPES]
 P1 Lake Town 1200 200 100 0 Open
 P2 Tower Town 1200 100 100 0 Open
[OPTIONS]
 Units LPS
[END]
"""


def test_velocity(tmp_path: Path) -> None:
    """A network of EPANET leaves two settings open: they are asked one after the other."""
    with importing(tmp_path, WATER, name="net.inp") as it:
        view = it.told("import")
        assert (view["file"]["kind"], view["preview"]["rows"]) == ("a network of EPANET", [])
        assert (view["question"]["option"], view["question"]["choices"][0][0]) == (
            "velocity",
            "1.5",
        )
        found = {it["name"]: (it["count"], it["said"]) for it in view["contents"]}
        assert [*found] == ["[JUNCTIONS]", "[RESERVOIRS]", "[TANKS]", "[PIPES]"]
        assert [count for count, _ in found.values()] == [1, 1, 1, 2]
        wide = "capacity in LPS, from the diameter (mm) at "
        assert found["[PIPES]"][1] == f"{wide}the velocity that --velocity gives"
        question = said(it, velocity="1.5")["question"]
        assert (question["option"], [word for word, _ in question["choices"]]) == (
            "tanks",
            ["source", "none"],
        )
        for tanks, value in ("none", "47.124"), ("source", "58.905"):
            view = said(it, velocity="1.5", tanks=tanks)
            assert view["answer"]["said"].startswith(f"{value} "), view["answer"]
        now = {it["name"]: it["said"] for it in view["contents"]}
        assert now["[PIPES]"] == f"{wide}1.5 m/s" and now["[TANKS]"] == "supply without a limit"
        assert view["preview"]["rows"][1][:4] == ["Lake", "Town", "47.124", "P1"]
        shown = [setting["option"] for setting in view["settings"]]
        assert {"velocity", "tanks"} <= {*shown} and "tolerance" not in shown
        assert "--velocity 1.5 --tanks source" in view["command"]


def test_roster(tmp_path: Path) -> None:
    """A roster leaves two settings open: another length than the one that is proposed may be
    written in its field. Each of the two can work one shift of 12 hours."""
    text = "name,hours,Fri early,Fri late\npeople needed,,1,1\nAnna,12,x,x\nBen,24,x,x\n"
    with importing(tmp_path, text, name="rota.csv") as it:
        view = it.told("import")
        shown = [setting["option"] for setting in view["settings"]]
        assert view["question"]["option"] == "shift" and "shift" in shown and "daily" not in shown
        view = said(it, shift="12")
        assert [word for word, _ in view["question"]["choices"]] == ["1", "all"]
        view = said(it, shift="12", daily="1")
        assert view["answer"]["said"].startswith("24 hours can be staffed")
        assert view["command"] == "dmf board rota.csv --shift 12 --daily 1"
        (fault,) = said(it, shift="12", daily="0")["faults"]
        assert "daily" in fault["text"]


def test_problem(tmp_path: Path) -> None:
    """A problem says all of itself."""
    with importing(tmp_path, "p max 2 1\nn 1 s\nn 2 t\na 1 2 6\n", name="p.max") as it:
        view = it.told("import")
        assert (view["file"]["kind"], view["settings"]) == ("a problem file", [])
        assert view["answer"] == {"said": "6 can be sent from 1 to 2", "rows": 1}
        assert said(it, both_ways=True)["faults"][0]["line"] == 0


def test_malformed(tmp_path: Path) -> None:
    with importing(tmp_path, PLAIN) as it:
        whole = nothing_said()
        wrong: list[object] = [
            {},
            {"options": []},
            {"options": {**whole, "more": ""}},
            {"options": {name: value for name, value in whole.items() if name != "tail"}},
            {"options": {**whole, "tail": 3}},
            {"options": {**whole, "tail": "x" * 4_001}},
            {"options": {**whole, "ignore": "x"}},
            {"options": {**whole, "source": [3]}},
            {"options": {**whole, "source": ["x"] * 2_001}},
            {"options": {**whole, "matrix": "yes"}},
            {"options": whole, "more": 1},
        ]
        for content in wrong:
            assert asked(it, "import", content)[0] == 400, content
        assert it.ask(it.root + "import?x=1")[0] == asked(it, "open", {"x": 1})[0] == 400
        for path in "state", "turn", "rows?first=0", "picture.svg", "none":
            status, _, told = it.ask(it.root + path)
            assert (status, json.loads(told)) == (409, {"error": "no table is open"})
        assert asked(it, "do", {"what": "undo", "turn": 1})[0] == 409
        assert asked(it, "stop", {}) == (200, {"is_stopped": False})
        assert it.told("import")["answer"]["said"] == "40 can be sent from Res to Town"


def test_two_tabs(tmp_path: Path) -> None:
    """Each sees what the other says, by a turn below that of any board."""
    with importing(tmp_path, OPEN) as it:
        first = it.told("import")["turn"]
        second = said(it, capacity="Q [m\u00b3/h]")["turn"]
        assert second < first < 1 and it.told("import")["turn"] == second
        assert it.told("import")["options"]["capacity"] == "Q [m\u00b3/h]"
        assert asked(it, "open", {})[0] == 200
        assert it.turn() == 1 and asked(it, "open", {})[0] == 404
