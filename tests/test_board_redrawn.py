"""What a step leaves on the page as it was, and what it redraws: together they are what a newly
loaded page shows."""

from __future__ import annotations

from typing import Any

import pytest
from board_pages import Page
from board_running import board
from desk_shared import PIPES
from test_board_ground import rows_of

pytestmark = pytest.mark.seconds(10)
# The picture without how labels lie now, the rows of the table, the steps and the limit. A row has
# a class where keys go from.
SHOWN = """
const drawn = [...document.querySelectorAll("#picture svg > g > *")].map((part) => {
  const copy = part.cloneNode(true);
  copy.classList.remove("chosen", "unlabelled", "spread");
  for (const text of copy.querySelectorAll("text")) text.removeAttribute("transform");
  return copy.outerHTML.replaceAll(' class=""', "");
});
// The order of attributes means nothing.
const sorted = (whole) => {
  const copy = whole.cloneNode(true);
  for (const part of [copy, ...copy.querySelectorAll("*")]) {
    const found = [...part.attributes].map((it) => [it.name, it.value]).sort();
    for (const [name] of found) part.removeAttribute(name);
    for (const [name, value] of found) part.setAttribute(name, value);
  }
  return copy.outerHTML;
};
const parts = ["#grid tbody", "#way", "#limit-table", "#places"];
return [drawn, ...parts.map((at) => [...document.querySelector(at).children]
  .map((it) => sorted(it).replaceAll(' class=""', "").replaceAll(' class="current"', "")))];
"""
PIECES = "[...document.querySelectorAll('#picture .node, #picture .arc, #grid tbody tr[id]')]"
STEPS: list[dict[str, Any]] = [
    {"what": "close", "arc": 9},
    {"what": "cap", "arc": 12, "capacity": "20"},
    {"what": "double", "arc": 3},
    {"what": "add", "tail": 5, "head": "Harbour", "capacity": "7", "name": "last"},
    {"what": "shut", "node": 4},
    {"what": "go", "step": 3},
    {"what": "go", "step": 0},
    {"what": "go", "step": 5},
    {"what": "open", "arc": 9},
]


def test_as_loaded(driver: Any) -> None:
    with board(PIPES) as it:
        page, first = Page(driver, it.address), driver.current_window_handle
        driver.switch_to.new_window("tab")
        second = driver.current_window_handle
        for step in STEPS:
            assert "error" not in it.do(**step)
            loaded = Page(driver, it.address)
            shown = settled(loaded)
            driver.switch_to.window(first)
            page.wait(lambda: driver.execute_script(SHOWN) == shown)  # noqa: B023
            driver.switch_to.window(second)
        driver.close()
        driver.switch_to.window(first)
        driver.get("about:blank")


def settled(page: Page) -> Any:
    """What a page shows once all of it is there."""
    page.wait(lambda: page.text("#filter-told"))
    page.settle()
    page.know_worth()
    return page.driver.execute_script(SHOWN)


def test_what_stays(driver: Any) -> None:
    """What looks as before a step is not redrawn."""
    with board(PIPES) as it:
        page = Page(driver, it.address)
        settled(page)
        before = rows_of(it)
        driver.execute_script(f"for (const it of {PIECES}) it.isOld = true")
        assert "error" not in it.do(what="cap", arc=12, capacity="20")
        # What each is worth is found later.
        unknown = {"without": "", "lost": ""}
        changed = {
            row["number"]
            for row, old in zip(rows_of(it), before)
            if {**row, **unknown} != {**old, **unknown}
        }
        # Rows of the table stay, and say what is so now.
        wanted = {f"arc-{number}" for number in changed}
        assert 12 in changed and len(changed) < len(before) / 2
        page.wait(
            lambda: set(
                driver.execute_script(
                    f"return {PIECES}.filter((it) => !it.isOld).map((it) => it.id)"
                )
            )
            == wanted
        )
        driver.get("about:blank")
