"""What a board tells of the demands of the supply story, as examples/supply/README.md has them; and
which are short in small tables, wherever that is shown."""

from __future__ import annotations

import json
import re
from pathlib import Path

import pytest
from dmf.desk.board.routes import Board
from dmf.desk.plan.json_output import JsonOutput
from dmf.desk.plan.shell import Shell
from dmf.desk.project.report import report
from project_shared import new_project, supply_project, water_project


def test_demands_of_a_page(tmp_path: Path) -> None:
    desk = supply_project(tmp_path)
    try:
        board = Board(desk)
        assert json.loads(board.get("state", {}).body)["demands"] == "all demands are met"
        flooded = desk.network.names.place("East Depot").entry
        told = board.post("do", {"what": "shut", "node": flooded, "turn": desk.turn, "shown": []})
        # 150 pallets were ordered, and 126 can be brought.
        assert json.loads(told.body)["value"] == "126"
        assert json.loads(told.body)["demands"].startswith("short by 24 pallets: ")
    finally:
        desk.end()


def test_no_demands(tmp_path: Path) -> None:
    desk = water_project(tmp_path)
    try:
        assert json.loads(Board(desk).get("state", {}).body)["demands"] == ""
    finally:
        desk.end()


# Brook asks for 180 and has a pipe of 110; Weir asks for 50, and its pipe carries 70.
BROOK = "from,to,capacity\nSpring,Brook,110\nSpring,Weir,70\n", "Brook,180\nWeir,50\n"
# Each of six places has a pipe that carries 1 less than it asks for, and a seventh gets all.
SEVEN = (
    "from,to,capacity\n" + "".join(f"Spring,P{at},{9 + (at == 7)}\n" for at in range(1, 8)),
    "".join(f"P{at},10\n" for at in range(1, 8)),
)
TOLD = {
    BROOK: "short by 70: Brook (110 of 180)",
    SEVEN: "short by 6: P1 (9 of 10), P2 (9 of 10), P3 (9 of 10), P4 (9 of 10), P5 (9 of 10) and "
    "1 more",
}


@pytest.mark.parametrize("case", TOLD)
def test_short_demands(case: tuple[str, str], tmp_path: Path) -> None:
    """What is short, by hand, in the words of dmf-plan, its objects, on a page and in a report."""
    pipes, wants = case
    (tmp_path / "pipes.csv").write_text(pipes)
    (tmp_path / "wants.csv").write_text("place,demand\n" + wants)
    desk = new_project(tmp_path, "pipes.csv", "--source", "Spring", "--sinks", "wants.csv")
    told: list[str] = []
    Shell(desk, is_typed=False, write=told.append).onecmd("places")
    assert "".join(told).splitlines()[-1] == TOLD[case]
    told.clear()
    Shell(desk, is_typed=False, write=told.append, output=JsonOutput).onecmd("places")
    said = json.loads("".join(told))
    assert said["lines"][-1] == TOLD[case]
    amounts = {
        it["place"]: tuple(it[name]["told"] for name in ("flow", "demand", "short"))
        for it in said["demands"]
    }
    if case == BROOK:
        assert amounts == {"Brook": ("110", "180", "70"), "Weir": ("50", "50", "0")}
        assert "  Brook: 110 of 180 in, 0 out, a sink, 70 short" in said["lines"]
    else:
        short = {f"P{at}": ("9", "10", "1") for at in range(1, 7)}
        assert amounts == {**short, "P7": ("10", "10", "0")}
    assert json.loads(Board(desk).get("state", {}).body)["demands"] == TOLD[case]
    page = re.sub("<[^>]*>", " ", report(desk))
    assert f"{1 if case == BROOK else 6} of {len(amounts)} demands" in page
    for place, (flow, demand, _) in amounts.items():
        assert re.search(rf"\b{place}\s+{demand}\s+{flow}\s", page)
    desk.end()
