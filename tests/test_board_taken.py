"""What a page hands to the browser to take along: its picture in PNG, beside what the browser shows
of it, and what is said of its report."""

from __future__ import annotations

import io
from pathlib import Path
from typing import Any

import numpy
import pytest
from board_pages import Page
from board_running import board
from board_views import grid_table
from desk_shared import PIPES
from packages import load
from test_board_access import as_before, show
from test_board_dots import DRAWN
from test_board_ground import city

pytestmark = pytest.mark.seconds(30)
# The edges of the part of the picture that nothing covers.
FREE = """
const box = (id) => document.getElementById(id).getBoundingClientRect();
return [0, box("head").bottom, Math.min(box("fold").left, box("moves").left), box("foot").top];
"""
LIMIT = numpy.array([200, 67, 11]) / 255
# Notes the drawing from which the file is made, and each name that is painted on it, with the box
# of its letters in parts of the file.
NOTE = """
window.noted = { names: [], drawing: null };
const pen = CanvasRenderingContext2D.prototype, write = pen.fillText, open = URL.createObjectURL;
pen.fillText = function (text, x, y) {
  if (!this.canvas.isConnected) {
    const { a, d, e, f } = this.getTransform(), half = this.measureText(text).width * a / 2;
    const [right, down, high] = [a * x + e, d * y + f, parseFloat(this.font) * d / 2];
    const { width, height } = this.canvas;
    window.noted.names.push([(right - half) / width, (down - high) / height,
      (right + half) / width, (down + high) / height]);
  }
  return write.call(this, text, x, y);
};
URL.createObjectURL = (file) => {
  if (file.type === "image/svg+xml") window.noted.drawing = file;
  return open.call(URL, file);
};
"""
# The boxes of all names in the file, and of its places, in parts of it.
BOXES = """
const done = arguments[arguments.length - 1], { names, drawing } = window.noted;
drawing.text().then((text) => {
  const host = document.createElement("div");
  host.innerHTML = text;
  host.style = "position: fixed; left: 0; top: 0";
  document.body.append(host);
  const all = host.firstChild.getBoundingClientRect();
  const isSeen = (it) => it.checkVisibility({ visibilityProperty: true });
  const [labels, places] = [".node text, .arc text", ".node ellipse.inner, .rim"].map((parts) =>
    [...host.querySelectorAll(parts)].filter(isSeen).map((it) => it.getBoundingClientRect()
    ).map((box) => [box.left / all.width, box.top / all.height, box.right / all.width,
      box.bottom / all.height]));
  host.remove();
  done([names, labels, places, [all.width, all.height]]);
});
"""
# The last bytes of a PNG file.
PNG_END = b"IEND\xaeB`\x82"
# Where the labels of the picture are on the page.
SHOWN = """
return [...document.querySelectorAll("#picture text")].map((it) =>
  it.checkVisibility() && [it.textContent, it.getAttribute("transform")]);
"""


def named(page: Page, role: str, name: str) -> Any:
    """The element of the page that has this role and name for those who hear it."""
    page.click("#tab-steps")
    found = [
        it
        for it in page.driver.find_elements("css selector", "#taken a, #taken button")
        if (it.aria_role, it.accessible_name) == (role, name)
    ]
    assert len(found) == 1, name
    return found[0]


def told(page: Page, found: Any) -> str:
    """The description of an element."""
    return page.text(f"#{found.get_attribute('aria-describedby')}")


def pixels(picture: bytes) -> Any:
    """The colours of a picture, by rows."""
    image = load("matplotlib.image")
    return numpy.asarray(image.imread(io.BytesIO(picture), format="png"))[:, :, :3]


def hand_on(page: Page, folder: Path) -> Path:
    """The file that the page hands on, once it is whole: the browser begins with an empty one."""
    page.driver.execute_cdp_cmd(
        "Browser.setDownloadBehavior", {"behavior": "allow", "downloadPath": str(folder)}
    )
    named(page, "button", "Picture (PNG)").click()
    page.wait(lambda: [it for it in folder.glob("*.png") if it.read_bytes().endswith(PNG_END)])
    [file] = folder.glob("*.png")
    return file


def taken(page: Page, folder: Path) -> tuple[Any, Any]:
    """What the page hands on, at the size of the page, and what it shows."""
    twice = pixels(hand_on(page, folder).read_bytes())
    high, wide, _ = twice.shape
    found = twice.reshape(high // 2, 2, wide // 2, 2, 3).mean(axis=(1, 3))
    edges = page.driver.execute_script(FREE)
    left, top, right, bottom = (round(float(edge)) for edge in edges)
    assert (high // 2, wide // 2) == (bottom - top, right - left)
    seen = pixels(page.driver.find_element("id", "picture").screenshot_as_png)
    return found, seen[top:bottom, left:right]


def test_the_picture_is_as_it_is_shown(driver: Any, tmp_path: Path) -> None:
    """It has twice the pixels, and is like what the browser shows: drawn by the board, and painted
    from a map. Its lines are as thick, so the bottleneck has as much of its colour."""
    for words in [PIPES], city(tmp_path, 12):
        folder = tmp_path / f"taken {len(words)}"
        folder.mkdir()
        with board(*words) as it:
            page = Page(driver, it.address)
            page.know_worth()
            found, seen = taken(page, folder)
            is_drawn = abs(seen - seen[0, 0]).max(axis=2) > 0.2
            assert is_drawn.mean() > 0.005
            # The edges of letters and lines differ; moved by one pixel, they would by more.
            differ = [abs(found[by:, :] - seen[: len(seen) - by, :]).mean() for by in (0, 1)]
            assert differ[0] < 0.25 * abs(seen - seen[0, 0]).mean() and differ[0] < 0.6 * differ[1]
            orange = [(abs(one - LIMIT).max(axis=2) < 0.1).sum() for one in (found, seen)]
            assert orange[1] > 100 and 0.8 < orange[0] / orange[1] < 1.25
            assert not [it for it in driver.get_log("browser") if it["level"] == "SEVERE"]
            driver.get("about:blank")


@pytest.mark.parametrize("kind", ["few", "dots", "map"])
@pytest.mark.parametrize("width", [1280, 400])
def test_names_are_whole(driver: Any, tmp_path: Path, kind: str, width: int) -> None:
    """No edge of the file cuts a name, at any size of the picture, though the page may show the
    name beside the headline; and the page shows its names where it did before."""
    (tmp_path / "grid").mkdir()
    words = {"few": [PIPES], "dots": [grid_table(tmp_path / "grid", 8)], "map": city(tmp_path, 12)}
    with board(*words[kind]) as it:
        show(driver, width, "light")
        page = Page(driver, it.address)
        driver.execute_script(NOTE)
        named(page, "button", "Picture (PNG)")
        counts = []
        for at in range(7):
            folder = tmp_path / f"taken {at}"
            folder.mkdir()
            driver.execute_async_script(DRAWN)
            before = driver.execute_script(SHOWN)
            driver.execute_script("window.noted = { names: [], drawing: null }")
            hand_on(page, folder)
            names, labels, places, size = driver.execute_async_script(BOXES)
            assert driver.execute_script(SHOWN) == before
            assert not [box for box in names + labels if is_cut(box, size)], at
            # What is fitted to the window is whole.
            assert at or all(is_inside(box, size) for box in places)
            counts.append(sum(is_inside(box, size) for box in names + labels))
            driver.find_element("id", "picture").send_keys("+")
        assert counts[0] > 4 and sum(counts[1:]) > 20, counts
        as_before(driver)


def is_inside(box: list[float], size: list[float]) -> bool:
    """Whether a box lies in the file, but for one and a half pixels of the page."""
    aside, above = (1.5 / it for it in size)
    return box[0] > -aside and box[1] > -above and box[2] < 1 + aside and box[3] < 1 + above


def is_cut(box: list[float], size: list[float]) -> bool:
    """Whether an edge of the file cuts a box."""
    aside, above = (1.5 / it for it in size)
    meets = box[0] < 1 - aside and box[1] < 1 - above and box[2] > aside and box[3] > above
    return meets and not is_inside(box, size)


def test_hints(driver: Any) -> None:
    """What is to be taken says what it is, and how the report becomes a PDF."""
    with board(PIPES) as it:
        page = Page(driver, it.address)
        report = named(page, "link", "Report to hand on (HTML)")
        assert "as a PDF, open it and print it" in told(page, report)
        assert "as it is shown" in told(page, named(page, "button", "Picture (PNG)"))
        driver.get("about:blank")
