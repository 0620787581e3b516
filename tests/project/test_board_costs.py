"""What more costs, on the page: the prices of the limit and a cheap way, as docs/PLAN.md works them
out for the water story with a column of costs; and where there is none, why."""

from __future__ import annotations

from pathlib import Path
from typing import Any
from urllib.parse import quote

import pytest
from board_pages import Page
from board_running import board
from desk_shared import PIPES, ROOT
from test_board_access import as_before, judge_colours, show

# What a unit more costs, and the limit of the story.
COSTS = {"North rise": 4, "Mill Lane": 9, "South main": 6}


def priced(folder: Path) -> str:
    """The path of the story's table with a column of costs."""
    title, *rows = (ROOT / PIPES).read_text().splitlines()
    at = title.split(",").index("pipe")
    lines = [f"{title},cost", *(f"{row},{COSTS.get(row.split(',')[at], '')}" for row in rows)]
    (folder / "priced.csv").write_text("\n".join(lines) + "\n")
    return f"{folder}/priced.csv"


def test_told(tmp_path: Path) -> None:
    with board(priced(tmp_path)) as it:
        turn = it.turn()
        told = it.told("costs?column=&to=175&second=0")
        assert {arc["name"]: arc["price"] for arc in told["limit"]} == {
            name: str(price) for name, price in COSTS.items()
        }
        way = [
            (
                [(arc["name"], arc["by"]) for arc in bought["wider"]],
                bought["cost"],
                bought["total"],
                bought["value"],
            )
            for bought in told["way"]
        ]
        assert way == [
            ([("North rise", "5")], "20", "20", "170"),
            ([("South main", "5")], "30", "50", "175"),
        ]
        # Nothing has changed.
        assert (it.turn(), it.state()["value"]) == (turn, "165")
        for words, why in (
            ("column=colour&to=&second=0", "no column is called"),
            ("column=&to=12&second=1", "less than the present value"),
        ):
            status, _, body = it.ask(f"{it.root}costs?{words}")
            assert status == 409 and why in body.decode()
        assert it.ask(f"{it.root}costs?column=&to=1&second=x")[0] == 400
    with board(PIPES) as it:
        status, _, body = it.ask(f"{it.root}costs?column={quote('<b>')}&to=&second=0")
        assert status == 409 and "no column is called '<b>'" in body.decode()


@pytest.mark.parametrize("width, scheme", [(1280, "light"), (400, "dark")])
def test_shown(driver: Any, tmp_path: Path, width: int, scheme: str) -> None:
    with board(priced(tmp_path)) as it:
        show(driver, width, scheme)
        page = Page(driver, it.address)
        driver.execute_script("document.querySelector('#costs').open = true")
        page.keys("#costs-to", "175\n")
        page.wait(lambda: "greedily" in page.text("#costs-told"))
        rows = [row.text for row in driver.find_elements("css selector", "#costs-limit tbody tr")]
        assert len(rows) == 3 and all(
            any(name in row and row.endswith(f" {price}") for row in rows)
            for name, price in COSTS.items()
        )
        way = [row.text for row in driver.find_elements("css selector", "#costs-way tbody tr")]
        assert way == ["North rise 5 wider 20 20 170", "South main 5 wider 30 50 175"]
        page.choose("arc-9", "Mill Lane")
        judge_colours(page, width)
        it.do(what="close", arc=10)
        page.wait(lambda: page.text("#costs-told") == "The network has changed since.")
        assert not driver.find_element("id", "costs-way").is_displayed()
        # What is refused leaves nothing of an earlier answer.
        page.keys("#costs-column", "colour\n")
        page.wait(lambda: "No column is called 'colour'" in page.text("#trouble"))
        assert page.text("#costs-told") == ""
        as_before(driver)
