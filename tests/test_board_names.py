"""The names of places on a map, by what headless Chromium writes on the canvas: they are spread
over the window, the most important come first, and none lies on another."""

from __future__ import annotations

from pathlib import Path
from typing import Any

import pytest
from board_pages import Page
from board_running import board
from test_board_access import as_before, show
from test_board_ground import city

pytestmark = pytest.mark.seconds(20)
# Draws the map larger, and returns the names that are written, with the boxes of their letters in
# the window; and which part of the window nothing lies over.
NAMES = """
const [times, done] = arguments, pen = CanvasRenderingContext2D.prototype;
const { fillText: write, clearRect: clear } = pen, names = [];
const canvas = document.getElementById("ground").getBoundingClientRect();
for (let at = 0; at < times; at += 1) document.getElementById("larger").click();
requestAnimationFrame(() => {
  pen.clearRect = function (...box) {
    names.length = 0;
    return clear.apply(this, box);
  };
  pen.fillText = function (text, x, y) {
    const { a, d, e, f } = this.getTransform(), half = this.measureText(text).width * a / 2;
    const [right, down] = [canvas.left + a * x + e, canvas.top + d * y + f];
    names.push([text, [right - half, down - 6, right + half, down + 6]]);
    write.call(this, text, x, y);
  };
  document.getElementById("larger").click();
  requestAnimationFrame(() => requestAnimationFrame(() => {
    Object.assign(pen, { fillText: write, clearRect: clear });
    const box = (id) => document.getElementById(id).getBoundingClientRect();
    done([names, [0, box("head").bottom, box("fold").left, box("foot").top]]);
  }));
});
"""
# The side of the parts of the window in each of which a place is named, in pixels.
SIDE = 240


def meet(one: list[float], other: list[float]) -> bool:
    return one[0] < other[2] and other[0] < one[2] and one[1] < other[3] and other[1] < one[3]


def within(box: list[float], part: list[float]) -> bool:
    middle = (box[0] + box[2]) / 2, (box[1] + box[3]) / 2
    return part[0] <= middle[0] <= part[2] and part[1] <= middle[1] <= part[3]


@pytest.mark.parametrize("larger", [2, 4])
def test_spread(driver: Any, tmp_path: Path, larger: int) -> None:
    """Where places lie close, each part of the window has a name, and none lies on another."""
    with board(*city(tmp_path, 60)) as it:
        show(driver, 1280, "light")
        page = Page(driver, it.address)
        names, (left, top, right, bottom) = page.driver.execute_async_script(NAMES, larger)
        boxes = [box for _, box in names]
        assert not [
            (one, other)
            for at, one in enumerate(boxes)
            for other in boxes[at + 1 :]
            if meet(one, other)
        ]
        for across in range(int(left), int(right - SIDE), SIDE):
            for down in range(int(top), int(bottom - SIDE), SIDE):
                part = [float(it) for it in (across, down, across + SIDE, down + SIDE)]
                assert any(within(box, part) for box in boxes), part
        as_before(driver)


def test_important(driver: Any, tmp_path: Path) -> None:
    """Of a map that is seen whole, the source, the sink and places of the bottleneck are named, and
    no others."""
    with board(*city(tmp_path, 60)) as it:
        show(driver, 1280, "light")
        page = Page(driver, it.address)
        page.press("Smaller")
        names, _ = page.driver.execute_async_script(NAMES, 0)
        shown = {name for name, _ in names}
        limit = {arc[end] for arc in it.state()["limit"] for end in ("tail", "head")}
        rows = it.told("rows?filter=limit&sort=&first=0&count=500")["rows"]
        limit |= {row[end] for row in rows for end in ("tail", "head")}
        assert {"Lake", "Sea"} <= shown <= limit | {"Lake", "Sea"}
        assert len(shown) > 4
        as_before(driver)
