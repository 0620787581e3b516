"""What a page shows of pipes that lead both ways: one row and one line for each, whose arrow points
to where it flows. Values are worked out by hand."""

from __future__ import annotations

import json
import re
import time
from collections.abc import Iterator
from pathlib import Path
from typing import Any
from xml.etree import ElementTree

import pytest
from board_pages import Page
from board_running import board as running
from dmf.desk.board.overview import Overview
from dmf.desk.board.routes import Board
from dmf.desk.pictures.arrows import SVG
from dmf.desk.pictures.layout import Spot
from dmf.desk.workspace import Desk
from dmf.tables.loader import TableOptions, subject_of

# 3 flow from A to B, and back over Main to C; nothing flows over `spare`.
TABLE = """\
from,to,capacity,name,direction
A,B,5,one,->
C,B,3,Main,<->
A,C,2,by,->
C,D,7,out,<->
D,E,4,spare,<->
"""


ALL = {"filter": "", "sort": "", "first": "0", "count": "99"}


@pytest.fixture
def board() -> Iterator[Board]:
    wanted = TableOptions(source=["A"], sink=["D"])
    desk = Desk(subject_of(wanted, "main.csv", TABLE.encode()), with_solve=True)
    try:
        yield Board(desk)
    finally:
        desk.end()


def told(board: Board, path: str, **words: str) -> Any:
    return json.loads(board.get(path, words).body)


def do(board: Board, what: str, **content: Any) -> Any:
    body = {"what": what, "turn": board.desk.turn, **content}
    return json.loads(board.post("do", body).body)


def rows(board: Board, filter: str = "", sort: str = "") -> list[tuple[Any, ...]]:
    found = told(board, "rows", filter=filter, sort=sort, first="0", count="99")["rows"]
    return [(it["name"], it["flow"], it["capacity"], it["way"], it["change"]) for it in found]


def test_trials(board: Board) -> None:
    """What other capacities of one would bring: the same one each way, or one for each way. 2 come
    to C beside what Main brings there, at most 5, and out carries at most 7."""
    main = next(it["number"] for it in told(board, "rows", **ALL)["rows"] if it["name"] == "Main")
    for there, back, value in ("4", "", 6), ("3", "5", 7), ("9", "1", 3), ("+100 %", "+100 %", 7):
        found = told(board, "trial", arc=str(main), capacity=there, back=back)
        assert found["value"] == str(value), (there, back)
    assert board.desk.at == 1 and str(board.desk.value) == "5"


def test_rows(board: Board) -> None:
    """One row for each pipe, and what flows back is as much as what flows there."""
    expected = [
        ("one", "3", "5", "", ""),
        ("Main", "3", "3", "<", ""),
        ("by", "2", "2", "", ""),
        ("out", "5", "7", ">", ""),
        ("spare", "0", "4", "-", ""),
    ]
    assert rows(board) == expected
    assert [row[0] for row in rows(board, "flow > 2")] == ["one", "Main", "out"]
    assert [row[0] for row in rows(board, "full")] == ["Main", "by"]
    assert [row[0] for row in rows(board, "use = 100")] == ["Main", "by"]
    assert [row[0] for row in rows(board, "to ~ C")] == ["Main", "by", "out"]
    assert [row[0] for row in rows(board, sort="-flow")] == ["out", "one", "Main", "by", "spare"]
    state = told(board, "state")
    assert (state["arcs"], [it["short"] for it in state["limit"]]) == (5, ["Main", "by"])


def test_one_selection(board: Board) -> None:
    """Both its arcs are the same pipe, which is closed, opened and capped at once, in one step."""
    assert told(board, "arc", number="2") == told(board, "arc", number="3")
    closed = do(board, "close", arc=3)
    assert (closed["value"], closed["at"]) == ("2", 1)
    assert [step["text"] for step in closed["steps"]][1:] == ["close Main"]
    assert rows(board, "closed") == [("Main", "0", "3", "-", "closed")]
    again = do(board, "open", arc=2)
    assert (again["value"], again["at"]) == ("5", 2)
    (number,) = told(board, "numbers", filter="Main", sort="", first="0", count="9")["numbers"]
    capped = do(board, "cap-all", arcs=[number, 5], capacity="+1")
    assert (capped["value"], capped["at"]) == ("6", 3)
    assert rows(board, "changed") == [
        ("out", "6", "8", ">", "was 7"),
        ("Main", "4", "4", "<", "was 3"),
    ]
    doubled = do(board, "double-all", arcs=[5])
    assert (doubled["arcs"], doubled["value"]) == (6, "6")
    many = json.loads(board.post("many", {"arcs": [1, number, 5], "turn": board.desk.turn}).body)
    assert many["open"] == [1, number, 5]
    assert many["capacity"] == "17"


def test_places(board: Board) -> None:
    """What comes in and goes out is told by the way that it flows."""
    at_c = told(board, "place", node="3")
    assert (at_c["name"], at_c["in"], at_c["out"]) == ("C", "5", "5")
    at_d = told(board, "place", node="4")
    assert (at_d["name"], at_d["in"], at_d["out"]) == ("D", "5", "0")


def points(group: ElementTree.Element) -> list[tuple[float, float]]:
    """Return the corners of the arrow of a line, its tip first."""
    head = group.find(f"{{{SVG}}}polygon")
    assert head is not None
    if head.get("visibility") == "hidden":
        return []
    numbers = [float(it) for it in re.findall("-?[0-9.]+", head.get("points") or "")]
    return list(zip(numbers[::2], numbers[1::2]))


def groups(board: Board) -> dict[str, ElementTree.Element]:
    root = ElementTree.fromstring(told(board, "picture", near="")["svg"])
    return {group.get("id") or "": group for group in root.iter(f"{{{SVG}}}g")}


def test_picture(board: Board) -> None:
    """One line for each, whose arrow points to where it flows: from B to C on Main."""
    board.shown.placement.places.spots.update(
        {1: Spot(0, 0), 2: Spot(300, 0), 3: Spot(0, 300), 4: Spot(300, 300), 5: Spot(600, 300)}
    )
    found = groups(board)
    assert sorted(name for name in found if name.startswith("arc-")) == [
        "arc-1",
        "arc-2",
        "arc-4",
        "arc-5",
        "arc-7",
    ]
    (tip, _), *others = points(found["arc-2"])
    # C lies to the left of B.
    assert all(tip < right for right, _ in others)
    (tip, _), *others = points(found["arc-5"])
    assert all(tip > right for right, _ in others)
    assert points(found["arc-7"]) == []
    title = found["arc-2"].find(f"{{{SVG}}}title")
    assert title is not None and title.text == "Main, C <-> B: 3 of 3 to C, full, bottleneck"
    assert "closed" not in (found["arc-2"].get("class") or "")
    do(board, "close", arc=2)
    assert "closed" in (groups(board)["arc-2"].get("class") or "")


def test_map(board: Board) -> None:
    """On a map the second arc is not drawn, and each has the sign of the way that it flows."""
    spots = {node: Spot(100.0 * node, 0) for node in range(1, 6)}
    board.shown.placement.places.spots.update(spots)
    looks = Overview(board.desk, board.shown.placement.places, board.shown.looks).looks()
    assert (looks["arcs"], looks["ways"]) == ("fl lf u ", "><" " >" "> " "- ")


def test_worth(board: Board) -> None:
    """Each has one loss, and one second one beside both its ways."""
    while told(board, "worth")["is_finding"]:
        time.sleep(0.02)
    rows = told(board, "rows", filter="", sort="", first="0", count="9")["rows"]
    assert [(it["name"], it["without"]) for it in rows] == [
        ("one", "2"),
        ("Main", "2"),
        ("by", "3"),
        ("out", "0"),
        ("spare", "5"),
    ]
    arcs = [it["number"] for it in rows]
    found: list[Any] = []
    while arcs:
        part = json.loads(board.post("seconds", {"arcs": arcs, "turn": board.desk.turn}).body)
        found, arcs = found + part["seconds"], part["left"]
    assert [it["number"] for it in found] == [it["number"] for it in rows]


def test_page(driver: Any, tmp_path: Path) -> None:
    """A click on it shows both its ends and where it flows, and closes it as one."""
    (tmp_path / "main.csv").write_text(TABLE)
    with running("--source", "A", "--sink", "D", f"{tmp_path}/main.csv") as it:
        page = Page(driver, it.address)
        page.write("#text", "Main")
        page.choose_found("Main")
        page.wait(lambda: page.text("#what p").startswith("Both ways between C and B"))
        assert page.fact("Flow") == "3 of 3 to C"
        assert page.after(lambda: page.press("Close it")) == 2
        page.wait(lambda: page.text("#what .chips") == "closed")
        cells = (
            "return [...document.querySelectorAll('#grid tbody td.name')].map(it => it.textContent)"
        )
        page.press("All")
        names = ["one", "Main", "by", "out", "spare"]
        page.wait(lambda: driver.execute_script(cells) == names)
