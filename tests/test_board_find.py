"""What is found by name on a board's page, and how names and lists are written, by headless
Chromium."""

from __future__ import annotations

import shutil
from pathlib import Path
from typing import Any

import pytest
from board_pages import Page, set_width
from board_running import board
from desk_shared import PIPES

pytestmark = pytest.mark.seconds(20)
ENTER = "\ue007"
# Lets the answers to what is typed come late.
LATE = """
const ask = window.fetch;
window.fetch = async (path, content) => {
  if (path.startsWith("find?")) await new Promise((go) => setTimeout(go, 400));
  return ask(path, content);
};
"""


def test_enter_at_once(driver: Any) -> None:
    """An Enter that comes before the answers chooses what is found for all that was typed before
    it, and not what was found for another text."""
    with board(PIPES) as it:
        page = Page(driver, it.address)
        field = driver.find_element("id", "text")
        driver.execute_script(LATE)
        for typed, chosen in ("Station", "Station"), ("market st", "Market Street"):
            field.clear()
            field.send_keys(typed + ENTER)
            page.wait(lambda: page.text("#what h3") == chosen)  # noqa: B023
        field.clear()
        field.send_keys("no such name" + ENTER)
        page.wait(lambda: page.text("#found") == "Nothing has this in its name.")
        assert page.text("#what h3") == "Market Street"
        driver.get("about:blank")


def test_title_is_the_name_of_the_file(driver: Any, tmp_path: Path) -> None:
    """The title has the name of the table's file, wherever that lies."""
    table = tmp_path / "town pipes.csv"
    shutil.copy(PIPES, table)
    with board(str(table)) as it:
        page = Page(driver, it.address)
        assert page.text("#title") == "town pipes.csv"
        assert driver.title == "165 town pipes.csv"
        driver.get("about:blank")


def test_lists_end(driver: Any, tmp_path: Path) -> None:
    """A list of names ends after five, and says how many there are beside them."""
    count = 1_234
    table = tmp_path / "fan.csv"
    rows = [f"S,P{place},{place + 2}\nP{place},T,{place + 1}\n" for place in range(count)]
    table.write_text("from,to,litres\n" + "".join(rows))
    with board(str(table)) as it:
        page = Page(driver, it.address)
        # Each way is full at its second arc, so that all places but the last lie before the limit.
        assert "Before them: S, P0, P1, P2, P3 and 1,230 more." in page.text("#limit-note")
        said = driver.find_element("id", "picture-said").get_attribute("textContent")
        assert " and 1,229 more." in said and said.count(" -> ") == 5
        driver.get("about:blank")


def test_use(driver: Any) -> None:
    """The table says which part of each pipe is used, is sorted by that, the largest first, and
    names what has changed."""
    with board(PIPES) as it:
        page = Page(driver, it.address)
        it.do(what="cap", arc=2, capacity="+20 %")
        page.wait(lambda: "was 90" in page.text("#grid"))
        page.click("#grid th.use button")
        page.wait(lambda: is_sorted(page, "descending"))
        cells = "[...document.querySelectorAll('#grid tbody tr[id]')]"
        told = driver.execute_script(
            f"return {cells}.map((it) => ['.flow', '.capacity', '.use', '.change'].map("
            "(at) => it.querySelector(at).innerText))"
        )
        parts = [int(flow) / int(capacity) for flow, capacity, *_ in told]
        assert parts == sorted(parts, reverse=True) and len(parts) == 14
        wanted = [f"{int(100 * part + 0.5)} %" for part in parts]
        assert [use for *_, use, _ in told] == wanted
        assert [change for *_, change in told if change] == ["was 90"]
        for way in "ascending", "none", "descending":
            page.click("#grid th.use button")
            page.wait(lambda: is_sorted(page, way))  # noqa: B023
        driver.get("about:blank")


def is_sorted(page: Page, way: str) -> bool:
    head = page.driver.find_element("css selector", "#grid th.use")
    return bool(head.get_attribute("aria-sort") == way)


def test_names_of_pipes_can_be_read(driver: Any) -> None:
    """In the table no name is cut off, at each width."""
    with board(PIPES) as it:
        for width in 400, 768, 1280:
            set_width(driver, width)
            page = Page(driver, it.address)
            page.click("#tab-all")
            page.wait(lambda: page.text("#grid tbody td.name"))  # noqa: B023
            cells = driver.execute_script(
                "return [...document.querySelectorAll('#grid tbody td.name')].map((it) => "
                "[it.innerText, it.scrollWidth, it.clientWidth])"
            )
            assert len(cells) == 14 and all(0 < text <= room for _, text, room in cells), cells
        driver.execute_cdp_cmd("Emulation.clearDeviceMetricsOverride", {})
        driver.get("about:blank")
