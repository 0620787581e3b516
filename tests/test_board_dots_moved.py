"""Dots that are moved by the pointer, in a picture of many places: their lines follow, in front and
on the canvas behind, labels lie on nothing, and the move is taken back alone, or by *Tidy*."""

from __future__ import annotations

import json
from pathlib import Path
from typing import Any

import pytest
from board_pages import Page, before_pages, dialog
from board_running import Board, board
from board_views import SCALE, grid_table, spots
from test_board_access import as_before, show
from test_board_dots import DRAWN
from test_board_labels import judge_labels
from test_board_moved import ENDS, MIDDLES, moved_by

pytestmark = pytest.mark.seconds(30)
# The place that matches a selector and is nearest to a point of the window, and its middle.
NEAREST = """
const [like, x, y] = arguments, far = ([, right, down]) => Math.hypot(right - x, down - y);
return [...document.querySelectorAll(like)].map((it) => {
  const box = it.querySelector("ellipse.inner").getBoundingClientRect();
  return [it.id, box.left + box.width / 2, box.top + box.height / 2];
}).sort((one, other) => far(one) - far(other))[0];
"""
# Notes what is painted on the canvas: names, and the ends of lines, in the window.
NOTED = """
const own = CanvasRenderingContext2D.prototype, { clearRect, fillText, moveTo, lineTo } = own;
const note = (pen, x, y) => {
  const { a, e, f } = pen.getTransform(), { left, top } = pen.canvas.getBoundingClientRect();
  window.noted.ends.push([x * a + e + left, y * a + f + top]);
};
window.noted = { names: [], ends: [] };
Object.assign(own, {
  clearRect(...box) {
    window.noted = { names: [], ends: [] };
    return clearRect.apply(this, box);
  },
  fillText(text, ...at) {
    window.noted.names.push(text);
    return fillText.call(this, text, ...at);
  },
  moveTo(x, y) {
    note(this, x, y);
    return moveTo.call(this, x, y);
  },
  lineTo(x, y) {
    note(this, x, y);
    return lineTo.call(this, x, y);
  },
});
"""
NEAR = """
const { href } = document.getElementById("take-svg");
return href.match(/near=(.*?)&turn/)[1];
"""
CURSOR = "return getComputedStyle(document.querySelector('#picture .node ellipse.inner')).cursor"
# A place of the picture in front of which not all lines are there, near the middle of the window.
RIM = "#picture .node.part", 430, 420
TIDY = "The place that you moved will lie where the picture puts it. Lay all out anew?"


def drag(page: Page, part: str, ways: list[tuple[int, int]]) -> None:
    """Grabs a place, and moves it, without a release."""
    oval = page.driver.find_element("css selector", f"#{part} ellipse.inner")
    page.actions().move_to_element(oval).click_and_hold().perform()
    for right, down in ways:
        page.actions().move_by_offset(right, down).perform()
        page.driver.execute_async_script(DRAWN)


def shown(page: Page, it: Board) -> dict[str, tuple[str, str]]:
    """Where the board's picture has its places, once the page shows that."""
    found: dict[str, tuple[str, str]] = {}

    def is_shown() -> bool:
        # Around which place the picture is, as the page asks for it.
        near = page.driver.execute_script(NEAR)
        found.clear()
        found.update(spots(it, near))
        middles = page.driver.execute_script(MIDDLES)
        return bool(middles == {part: [*at] for part, at in found.items()})

    page.wait(is_shown)
    page.settle()
    return found


def test_dragged(driver: Any, tmp_path: Path) -> None:
    """A dot follows the pointer with the ends of its lines, a project keeps where it is put, and
    labels lie on no place and on no line there. The move is taken back alone; another one by
    *Tidy*, which asks first."""
    table = grid_table(tmp_path, 8)
    journal = tmp_path / "grid.dmf.journal"
    with board("--keep", table) as it:
        show(driver, 1280, "light")
        page = Page(driver, it.address)
        before = shown(page, it)
        part, *_ = driver.execute_script(NEAREST, "#picture .node[data-dot]", 430, 420)
        node, scale = part.removeprefix("node-"), driver.execute_script(SCALE)
        name = driver.find_element("css selector", f"#{part} text").get_attribute("textContent")
        lines = driver.execute_script(ENDS, node)
        drag(page, part, [(10, 5), (20, -25), (-13, 2)])
        bent = driver.execute_script(ENDS, node)
        assert len(bent) == len(lines) == 4
        for (own, other), (own_now, other_now) in zip(lines, bent):
            assert other_now == pytest.approx(other, abs=0.1)
            assert own_now == pytest.approx([own[0] + 17, own[1] - 18], abs=0.1)
        page.actions().release().perform()
        page.wait(lambda: page.text("#news") == f"{name} was moved. grid.dmf.json keeps it.")
        moved = moved_by(before, shown(page, it))
        assert moved == {part: pytest.approx((17 / scale, -18 / scale), abs=0.02)}
        kept = json.loads(journal.read_text().splitlines()[-1])["moved"]
        assert [*kept] == [name]
        for key in "0", "+", "+", "+":
            driver.find_element("id", "picture").send_keys(key)
            judge_labels(page)
        page.press("Undo the move")
        page.wait(lambda: page.text("#news").startswith(f"{name} lies where it was before."))
        assert shown(page, it) == before
        drag(page, part, [(20, 10)])
        page.actions().release().perform()
        page.wait(lambda: page.text("#news").startswith(f"{name} was moved."))
        assert [*moved_by(before, shown(page, it))] == [part]
        page.press("Tidy")
        asked = dialog(driver)
        assert asked.text == TIDY
        asked.accept()
        page.wait(lambda: page.text("#news") == "The picture is laid out anew.")
        assert shown(page, it)[part] == before[part]
        assert it.told("picture?near=")["moved"] == 0
        as_before(driver)
        assert it.end() == 130
    assert "moved" not in json.loads((tmp_path / "grid.dmf.json").read_text())


def test_behind(driver: Any, tmp_path: Path) -> None:
    """If only a part of the network is drawn in front, the lines behind it follow too, and the
    names there stay. From afar, where no place is moved, the pointer does not say that one is."""
    with before_pages(driver, NOTED), board(grid_table(tmp_path, 22)) as it:
        show(driver, 1280, "light")
        page = Page(driver, it.address)
        page.wait(lambda: it.told("picture?near=")["has_ground"])
        page.wait(lambda: driver.find_elements("css selector", "#picture.far .node"))
        assert driver.execute_script(CURSOR) == "pointer"
        while driver.find_elements("css selector", "#picture.far"):
            page.press("Larger")
            driver.execute_async_script(DRAWN)
        assert driver.execute_script(CURSOR) == "move"
        page.wait(lambda: len(driver.execute_script("return window.noted.names")) > 3)
        # Once the view rests, the picture in front is around the middle of the window.
        page.wait(lambda: driver.execute_script(NEAR).split("&")[0])
        shown(page, it)
        part, x, y = driver.execute_script(NEAREST, *RIM)
        driver.execute_async_script(DRAWN)
        before = driver.execute_script("return window.noted")
        lines = ends_at(before["ends"], x, y)
        assert lines and len(set(before["names"])) > 3
        drag(page, part, [(10, 5), (10, -20), (-8, -7)])
        now = driver.execute_script("return window.noted")
        assert ends_at(now["ends"], x + 12, y - 22) == lines
        assert ends_at(now["ends"], x, y) == 0
        assert sorted(now["names"]) == sorted(before["names"])
        page.actions().release().perform()
        page.wait(lambda: "was moved" in page.text("#news"))
        shown(page, it)
        judge_labels(page)
        as_before(driver)


def ends_at(ends: list[list[float]], x: float, y: float) -> int:
    """How many lines begin or end at a point."""
    return sum(abs(right - x) < 1 and abs(down - y) < 1 for right, down in ends)
