"""A map with all its arcs that is dragged and zoomed, in headless Chromium: it is not drawn for
each move, since that takes longer than a frame, and in the end lies where it was moved to."""

from __future__ import annotations

from pathlib import Path
from typing import Any

import pytest
from board_pages import Page
from board_running import board
from board_views import grid_table
from desk_shared import PIPES
from test_board_access import as_before, show
from test_board_ground import city

pytestmark = pytest.mark.seconds(20)
# Moves the picture, all at once, so that it does not rest in between. Returns how often it was
# drawn, how far the canvas and a place of the picture in front of it have moved to the right and
# downwards, and how many times as wide the canvas is.
GESTURE = """
const [kind, moves, right, down] = arguments, host = document.getElementById("picture");
const drawn = new MutationObserver(() => undefined);
drawn.observe(host.querySelector("svg"), { attributes: true, attributeFilter: ["viewBox"] });
const boxes = () => ["#ground", "#picture .node"].map((it) =>
  document.querySelector(it).getBoundingClientRect());
const before = boxes();
const tell = (type, at) => host.dispatchEvent(new PointerEvent(type, { pointerId: 1, bubbles: true,
  clientX: 300 + at * right, clientY: 300 + at * down }));
if (kind === "drag") tell("pointerdown", 0);
for (let at = 1; at <= moves; at += 1) {
  if (kind === "drag") tell("pointermove", at);
  else host.dispatchEvent(new WheelEvent("wheel", { deltaY: down, clientX: 0, clientY: 0 }));
}
const after = boxes();
if (kind === "drag") tell("pointerup", moves);
return [drawn.takeRecords().length, ...after.map(({ x, y }, at) => [x - before[at].x,
  y - before[at].y]), after[0].width / before[0].width];
"""
VIEW = """
const { x, y, width } = document.querySelector("#picture svg").viewBox.baseVal;
return [x, y, innerWidth / width];
"""


def view(page: Page) -> list[float]:
    return list(page.driver.execute_script(VIEW))


def judge_rests(page: Page, expected: list[float]) -> None:
    """The picture is drawn for the view, at these coordinates and this scale."""
    moved = "return document.getElementById('layers').style.transform"
    page.wait(lambda: not page.driver.execute_script(moved))
    assert view(page)[:2] == pytest.approx(expected[:2], rel=1e-3, abs=0.6)
    assert view(page)[2] == pytest.approx(expected[2], rel=1e-3)


def test_dragged(driver: Any, tmp_path: Path) -> None:
    """A map is not drawn while it is dragged as far as it is drawn beyond the window, and follows
    the pointer; farther it is drawn at most once for each such distance."""
    with board(*city(tmp_path, 20)) as it:
        show(driver, 1280, "light")
        page = Page(driver, it.address)
        for _ in range(4):
            page.press("Larger")
        x, y, scale = view(page)
        drawn, canvas, place, larger = driver.execute_script(GESTURE, "drag", 50, 5, 2)
        assert (drawn, larger) == (0, 1)
        assert canvas == pytest.approx([250, 100], abs=0.1)
        assert place == pytest.approx([250, 100], abs=0.1)
        judge_rests(page, [x - 250 / scale, y - 100 / scale, scale])
        drawn, *_ = driver.execute_script(GESTURE, "drag", 200, -6, 0)
        assert 0 < drawn <= 1200 / (1280 / 4)
        judge_rests(page, [x + 950 / scale, y - 100 / scale, scale])
        as_before(driver)


def test_zoomed_by_the_wheel(driver: Any, tmp_path: Path) -> None:
    """What is drawn is scaled while the wheel turns, and drawn when it rests; if all places are
    seen, also while it becomes smaller."""
    with board(*city(tmp_path, 20)) as it:
        show(driver, 1280, "light")
        page = Page(driver, it.address)
        x, y, scale = view(page)
        drawn, *_, larger = driver.execute_script(GESTURE, "wheel", 5, 0, -40)
        assert (drawn, larger) == (0, pytest.approx(2.718281828**0.4, rel=1e-3))
        judge_rests(page, [x, y, scale * larger])
        drawn, *_, smaller = driver.execute_script(GESTURE, "wheel", 5, 0, 40)
        assert (drawn, smaller) == (0, pytest.approx(1 / larger, rel=1e-3))
        judge_rests(page, [x, y, scale])
        as_before(driver)


def test_a_drawn_picture(driver: Any, tmp_path: Path) -> None:
    """The same holds for a picture of many places without a map."""
    with board(grid_table(tmp_path, 12)) as it:
        show(driver, 1280, "light")
        page = Page(driver, it.address)
        page.press("Larger")
        x, y, scale = view(page)
        drawn, _, place, _ = driver.execute_script(GESTURE, "drag", 50, 5, 2)
        assert drawn == 0 and place == pytest.approx([250, 100], abs=0.1)
        judge_rests(page, [x - 250 / scale, y - 100 / scale, scale])
        as_before(driver)


def test_a_small_picture(driver: Any) -> None:
    """A picture that is drawn within a frame is drawn for each move, so that its labels are
    arranged at once."""
    with board(PIPES) as it:
        show(driver, 1280, "light")
        Page(driver, it.address)
        script = GESTURE.replace("#ground", "#picture svg")
        drawn, _, place, _ = driver.execute_script(script, "drag", 20, 5, 2)
        assert drawn == 20 and place == pytest.approx([100, 40], abs=0.5)
        as_before(driver)
