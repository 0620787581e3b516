"""How a board's page is laid out: the picture fills the window, all else lies over it, and what is
chosen is seen, by headless Chromium."""

from __future__ import annotations

from pathlib import Path
from typing import Any

import pytest
from board_pages import Page
from board_running import board
from board_views import grid_table
from desk_shared import PIPES
from test_board_access import as_before, show
from test_board_ground import city

pytestmark = pytest.mark.seconds(20)
ENTER, LEFT, RIGHT = "\ue007", "\ue012", "\ue014"
WIDTHS = 1280, 768, 400
# The window, and the boxes of what lies over the picture and is seen.
OVER = """
const box = (it) => { const { left, top, right, bottom } = it.getBoundingClientRect();
  return [left, top, right, bottom]; };
const over = ["head", "foot", "moves", "panel"].map((id) => document.getElementById(id));
return [[innerWidth, innerHeight], box(document.getElementById("picture")),
  over.filter((it) => it.checkVisibility()).map(box)];
"""
# How far the page and what it is in can be scrolled.
SCROLLED = """
const all = [document.documentElement, document.body, document.getElementById("main")];
scrollTo(0, 500);
return all.map((it) => [it.scrollTop, it.scrollLeft, Math.max(0, it.scrollWidth - innerWidth)])
  .concat([[scrollX, scrollY, 0]]).flat();
"""
# The sizes of letters that are seen, outside the picture.
LETTERS = """
return [...document.querySelectorAll("body *")].filter((it) => !it.closest("svg, .unseen")
  && it.checkVisibility() && [...it.childNodes].some((one) => one.nodeType === 3
  && one.data.trim())).map((it) => parseFloat(getComputedStyle(it).fontSize));
"""
# Opens each tab that is offered, one after the other.
TABS = "[...document.querySelectorAll('[role=tab]')].filter((it) => !it.hidden)"


def boxes(page: Page) -> Any:
    return page.driver.execute_script(OVER)


def box_of(page: Page, place: str) -> list[float]:
    script = (
        "const { left, top, right, bottom } = document.querySelector(arguments[0])"
        ".getBoundingClientRect(); return [left, top, right, bottom]"
    )
    return list(page.driver.execute_script(script, place))


def judge_seen(page: Page, place: str) -> None:
    """What is chosen lies inside the window, and nothing lies over it."""
    (wide, high), _, over = boxes(page)
    left, top, right, bottom = box_of(page, place)
    assert 0 <= left < right <= wide and 0 <= top < bottom <= high, (place, left, top, right)
    for one in over:
        assert right <= one[0] or left >= one[2] or bottom <= one[1] or top >= one[3], (place, one)


def test_fills_the_window(driver: Any) -> None:
    """The picture is as large as the window, the page never scrolls, and no letter is smaller than
    11 pixels, whatever tab is open."""
    with board(PIPES) as it:
        for width in WIDTHS:
            show(driver, width, "light")
            page = Page(driver, it.address)
            page.press("What would a second one bring?")
            page.wait(lambda: "second" in page.text("#seconds-told"))  # noqa: B023
            window, picture, _ = boxes(page)
            assert picture == [0, 0, *window]
            for place in range(driver.execute_script(f"return {TABS}.length")):
                driver.execute_script(f"{TABS}[arguments[0]].click()", place)
                assert set(driver.execute_script(SCROLLED)) == {0}
                assert min(driver.execute_script(LETTERS)) >= 11
        as_before(driver)


@pytest.mark.parametrize("width", WIDTHS)
def test_table_fits(driver: Any, width: int) -> None:
    """The table of all arcs is as wide as its box, or at 768 pixels, where whole names come first,
    little wider. In a narrow window the column of changes comes with the first change."""
    with board(PIPES) as it:
        show(driver, width, "light")
        page = Page(driver, it.address)
        page.click("#tab-all")
        page.settle()
        script = (
            "const it = document.getElementById('rows'); return [it.scrollWidth, it.clientWidth]"
        )
        table, box = driver.execute_script(script)
        assert table <= box + 20 * (width == 768), (table, box)
        changes = page.find("#grid thead .change")
        assert changes.is_displayed() == (width > 1000)
        it.do(what="close", arc=3)
        page.wait(lambda: page.find("#grid thead .change").is_displayed())
        as_before(driver)


@pytest.mark.parametrize("kind", ["water", "square", "map"])
def test_found_is_seen(driver: Any, tmp_path: Path, kind: str) -> None:
    """What is found by its name lies in the free part of the window, with nothing over it, in a
    network that is drawn whole, in one of which a part is drawn, and on a map."""
    words, names = {
        "water": ([PIPES], ["Market Street", "Reservoir", "South main"]),
        "square": ([grid_table(tmp_path, 32)], ["right 30 2", "P31_31", "down 3 17"]),
        "map": (city(tmp_path, 20), ["P18_2", "P0_17"]),
    }[kind]
    with board(*words) as it:
        for width in WIDTHS:
            show(driver, width, "light")
            page = Page(driver, it.address)
            for name in names:
                field = driver.find_element("id", "text")
                field.clear()
                field.send_keys(name + ENTER)
                page.wait(lambda: page.text("#what h3") == name)  # noqa: B023
                page.wait(lambda: is_drawn(page))  # noqa: B023
                if driver.find_elements("css selector", "#picture .chosen"):
                    judge_seen(page, "#picture .chosen > :is(path:not(.wide), ellipse.inner)")
                judge_told(page)
        as_before(driver)


def is_drawn(page: Page) -> bool:
    """Whether what is chosen is in the picture, or on the map behind it."""
    return bool(page.driver.find_elements("css selector", "#picture .chosen, #picture.grounded"))


def judge_told(page: Page) -> None:
    """What is told of the choice is seen."""
    (wide, high), *_ = boxes(page)
    left, top, right, bottom = box_of(page, "#what h3")
    assert 0 <= left < right <= wide and 0 <= top < bottom <= high


def test_one_choice(driver: Any) -> None:
    """What is chosen in the table is chosen in the picture, and the other way round; the tab of the
    table stays open, and the row is seen."""
    with board(PIPES) as it:
        page = Page(driver, it.address)
        row = driver.find_element("css selector", "#row-12 .name")
        page.click("#row-12 .name")
        page.wait(lambda: page.text("#what h3") == row.text)
        assert driver.find_element("id", "part-all").is_displayed()
        assert driver.find_element("id", "arc-13").get_attribute("aria-pressed") == "true"
        page.choose("arc-11", "Market Street")
        assert driver.find_element("id", "part-selected").is_displayed()
        driver.find_element("id", "tab-all").click()
        page.wait(lambda: "chosen" in (page.find("#row-10").get_attribute("class") or ""))
        driver.get("about:blank")


def test_tabs_by_keys(driver: Any) -> None:
    """Arrow keys go from tab to tab, and each shows its part alone."""
    with board(PIPES) as it:
        page = Page(driver, it.address)
        driver.find_element("id", "tab-selected").click()
        names = []
        for key in RIGHT, RIGHT, RIGHT, LEFT:
            page.actions().send_keys(key).perform()
            tab = driver.switch_to.active_element
            parts = [
                part.get_attribute("id")
                for part in driver.find_elements("css selector", "[role=tabpanel]")
                if part.is_displayed()
            ]
            assert parts == [tab.get_attribute("aria-controls")]
            assert tab.get_attribute("aria-selected") == "true"
            names.append(tab.text)
        # Without a project there are no scenarios.
        assert names == ["All", "Steps", "Selected", "Steps"]
        driver.get("about:blank")


def test_panel(driver: Any) -> None:
    """On a narrow page the panel is a sheet of three heights, which a choice opens; on a wide one
    it folds away. The headline stays in both."""
    with board(PIPES) as it:
        show(driver, 400, "light")
        page = Page(driver, it.address)
        tops = [box_of(page, "#panel")[1]]
        for _ in range(2):
            page.press("More of the panel")
            tops.append(box_of(page, "#panel")[1])
            assert box_of(page, "#head")[3] <= tops[-1]
        assert 900 - tops[0] < 140 and 380 < 900 - tops[1] < 450 and tops[2] < 200
        assert not driver.find_element("id", "panel-more").is_enabled()
        for _ in range(2):
            page.press("Less of the panel")
        page.choose("node-5", "Mill")
        assert box_of(page, "#panel")[1] == tops[1]
        show(driver, 1280, "light")
        left = box_of(page, "#panel")[0]
        assert 800 < left < 940
        page.press("Panel")
        assert box_of(page, "#panel")[0] >= 1278
        assert driver.find_element("id", "fold").get_attribute("aria-expanded") == "false"
        page.choose("node-6", "South Tower")
        assert box_of(page, "#panel")[0] == left
        as_before(driver)
