"""What a board's page says about the selection: rows of a term and a value with the act beside
them, by their roles and names at three widths, in headless Chromium. What is left and what is won
comes from a second computation."""

from __future__ import annotations

from pathlib import Path
from typing import Any

import pytest
from board_pages import Page, told_loss
from board_running import Board, board
from desk_shared import PIPES, greatest, water, without
from test_board_access import as_before, judge_names, show

pytestmark = pytest.mark.seconds(20)
ENTER = "\ue007"
WIDTHS = 1280, 768, 400
# The rows: the term, the value, the right edge of the value, the top and the bottom of the row, and
# the names and boxes of the buttons in it.
ROWS = """
return [...document.querySelectorAll("#what dl > div")].map((row) => {
  const box = (it) => it.getBoundingClientRect(), value = row.querySelector("dd");
  return [row.querySelector("dt").innerText, value.innerText, box(value).right, box(row).top,
    box(row).bottom, box(row).right,
    [...row.querySelectorAll("dd + dd button")].map((it) => [it.innerText, box(it).top,
      box(it).bottom, box(it).right])];
});
"""
TABLES = """
return [...document.querySelectorAll("#what table")].map((it) => [it.caption.innerText,
  [...it.tBodies[0].rows].map((row) => [...row.cells].map((cell) => cell.innerText))]);
"""


def find(page: Page, name: str) -> None:
    page.write("#text", name + ENTER)
    page.wait(lambda: page.text("#what h3") == name)
    page.settle()


def go_to(page: Page, name: str) -> None:
    """Clicks the button of this name until what it names is chosen: it may be redrawn."""

    def is_chosen() -> bool:
        if page.text("#what h3") == name:
            return True
        page.by_role("button", name).click()
        return False

    page.wait(is_chosen)


def rows_of(it: Board) -> dict[str, Any]:
    found = it.told("rows?filter=&sort=&first=0&count=500")["rows"]
    return {row["name"]: row for row in found}


def judge_rows(page: Page) -> dict[str, str]:
    """The values end at one edge, and each act stands inside its row. Returns the values."""
    rows = page.driver.execute_script(ROWS)
    assert max(row[2] for row in rows) - min(row[2] for row in rows) < 1, rows
    for _, _, _, top, bottom, right, buttons in rows:
        for _, button_top, button_bottom, button_right in buttons:
            assert top <= button_top + 1 and button_bottom <= bottom + 1, (buttons, top, bottom)
            assert button_right <= right + 1
    return {term: value for term, value, *_ in rows}


def judge_roles(driver: Any, *terms: str) -> None:
    """Each of these is a term of a list in the accessibility tree."""
    told = judge_names(driver)
    assert {*terms} <= {name for role, name, _ in told if role == "term"}
    assert "definition" in {role for role, *_ in told}


@pytest.mark.parametrize("width", WIDTHS)
def test_pipe(driver: Any, width: int) -> None:
    """A pipe has its flow, what is left if it is closed and what a second one brings, each act
    beside its row; each end is a button that selects the place."""
    with board(PIPES) as it:
        show(driver, width, "light")
        page = Page(driver, it.address)
        page.know_worth()
        for name in "Mill Lane", "Bridge pipe":
            find(page, name)
            row = rows_of(it)[name]
            left = without(name)
            page.wait(lambda: page.fact("Closing this") == told_loss(165, left))  # noqa: B023
            told = judge_rows(page)
            assert told["Flow"] == f"{row['flow']} of {row['capacity']}"
            judge_roles(driver, "Flow", "Closing this", "A second one")
        # No other pipe than those of the bottleneck brings more.
        assert told["A second one"] == "+0" and page.text("#what .chips") == ""
        find(page, "Mill Lane")
        assert page.text("#what .chips") == "bottleneck full"
        twice = [*water(), next(pipe for pipe in water() if pipe.name == "Mill Lane")]
        page.press_role("button", "Try a second one")
        page.wait(lambda: page.fact("A second one") == f"+{greatest(twice) - 165}")
        judge_rows(page)
        assert page.after(lambda: page.press("Close it")) == without("Mill Lane")
        page.wait(lambda: page.text("#what .chips") == "closed")
        judge_rows(page)
        assert page.after(lambda: page.press("Open it again")) == 165
        go_to(page, "Market")
        as_before(driver)


@pytest.mark.parametrize("width", WIDTHS)
def test_place(driver: Any, width: int) -> None:
    """A place has what comes in and goes out, what is left without it, and its pipes as rows, those
    that carry most first."""
    with board(PIPES) as it:
        show(driver, width, "light")
        page = Page(driver, it.address)
        page.know_worth()
        find(page, "Mill")
        rows = rows_of(it).values()
        into = [row for row in rows if row["head"] == "Mill"]
        out = [row for row in rows if row["tail"] == "Mill"]
        kept = [pipe for pipe in water() if "Mill" not in pipe[:2]]
        page.wait(lambda: page.fact("Shutting it") == told_loss(165, greatest(kept)))
        told = judge_rows(page)
        assert told["Comes in"] == told["Goes out"] == str(sum(int(row["flow"]) for row in into))
        wanted = [
            [
                title,
                [
                    [f"{row['name']} {word} {row[end]}", f"{row['flow']} of {row['capacity']}"]
                    for row in sorted(found, key=lambda row: -int(row["flow"]))
                ],
            ]
            for title, found, word, end in (
                ("Comes in", into, "from", "tail"),
                ("Goes out", out, "to", "head"),
            )
        ]
        assert driver.execute_script(TABLES) == wanted
        judge_roles(driver, "Comes in", "Goes out", "Shutting it")
        assert page.by_role("table", "Comes in").is_displayed()
        go_to(page, "Bridge pipe")
        as_before(driver)


def test_short_place(driver: Any, tmp_path: Path) -> None:
    """A place says how much it lacks, or that it gets all it asks for."""
    (tmp_path / "pipes.csv").write_text("from,to,l/s\nSpring,Brook,110\nSpring,Weir,70\n")
    (tmp_path / "asked.csv").write_text("place,demand\nBrook,180\nWeir,50\n")
    words = ["--source", "Spring", "--sinks", f"{tmp_path}/asked.csv", f"{tmp_path}/pipes.csv"]
    with board(*words) as it:
        show(driver, 1280, "light")
        page = Page(driver, it.address)
        find(page, "Brook")
        assert page.text("#what .chips") == "a sink 70 short"
        assert judge_rows(page)["What Brook takes at most"] == "110 of 180"
        find(page, "Weir")
        assert page.text("#what .chips") == "a sink gets all it asks for"
        assert judge_rows(page)["What Weir takes at most"] == "50 of 50"
        as_before(driver)


def test_many_pipes_at_a_place(driver: Any, tmp_path: Path) -> None:
    """Of more than a hundred pipes at a place the widest are listed, and how many others there
    are."""
    rows = "".join(f"S,H,{at},in {at}\n" for at in range(1, 131))
    (tmp_path / "hub.csv").write_text(f"from,to,litres,pipe\n{rows}H,T,100000,out\n")
    with board(str(tmp_path / "hub.csv")) as it:
        show(driver, 1280, "light")
        page = Page(driver, it.address)
        find(page, "H")
        (title, found), _ = driver.execute_script(TABLES)
        assert (title, len(found)) == ("Comes in", 101)
        assert found[0] == ["in 130 from S", "130 of 130"] and found[99][0] == "in 31 from S"
        assert found[100] == ["30 more carry less."]
        as_before(driver)
