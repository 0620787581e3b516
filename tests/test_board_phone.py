"""A board's page on a narrow screen, and the names on the map: what is free of the picture when the
sheet rises and sinks, and that names lie on no place and on no other name, in headless Chromium."""

from __future__ import annotations

from pathlib import Path
from typing import Any

import pytest
from board_pages import Page, before_pages
from board_running import board
from desk_shared import PIPES
from test_board_access import as_before, show
from test_board_ground import city

pytestmark = pytest.mark.seconds(20)
# The boxes of all places, and of what lies over the picture: the headline, the legend, the panel.
PLACES = """
return [...document.querySelectorAll("#picture .node ellipse.inner")].map((it) => {
  const { left, top, right, bottom } = it.getBoundingClientRect();
  return [left, top, right, bottom];
});
"""
OVER = """
return ["header", "aside", "[aria-label=Legend]"].map((at) => {
  const { left, top, right, bottom } = document.querySelector(at).getBoundingClientRect();
  return [left, top, right, bottom];
});
"""
# Notes each name that is written on the canvas, and each place, in pixels of the picture.
NOTED = """
const own = CanvasRenderingContext2D.prototype, write = own.fillText, arc = own.arc;
const clear = own.clearRect;
own.clearRect = function (...words) {
  window.noted = { names: [], places: [] };
  return clear.apply(this, words);
};
own.fillText = function (text, x, y) {
  const { a, e, f } = this.getTransform(), half = this.measureText(text).width * a / 2;
  window.noted.names.push([x * a + e - half, y * a + f - 6, x * a + e + half, y * a + f + 6]);
  return write.call(this, text, x, y);
};
own.arc = function (x, y, size, ...words) {
  const { a, e, f } = this.getTransform(), [right, down, far] = [x * a + e, y * a + f, size * a];
  // The overview has places at another size, and is painted when the page is idle.
  if (this.canvas.id !== "overview")
    window.noted.places.push([right - far, down - far, right + far, down + far]);
  return arc.call(this, x, y, size, ...words);
};
"""
# Where the headline ends, and how high the window is; and where the legend ends.
HEAD = "return [document.getElementById('head').getBoundingClientRect().bottom, innerHeight]"
FOOT = "return document.getElementById('foot').getBoundingClientRect().bottom"
Box = tuple[float, float, float, float]


def meet(one: Box, other: Box) -> bool:
    """Whether two boxes have a part in common, of more than half a pixel."""
    return all(one[at] + 0.5 < other[at + 2] and other[at] + 0.5 < one[at + 2] for at in (0, 1))


def is_free(driver: Any) -> bool:
    """Whether all places are seen, and nothing lies over them."""
    places, over = driver.execute_script(PLACES), driver.execute_script(OVER)
    wide, high = driver.execute_script("return [innerWidth, innerHeight]")
    is_seen = all(
        x >= 0 and y >= 0 and right <= wide and down <= high for x, y, right, down in places
    )
    return bool(places) and is_seen and not any(meet(one, it) for one in places for it in over)


# Where the first text of the panel's open part begins.
TOP = "document.querySelector('#what p').getBoundingClientRect().top"


def test_sheet(driver: Any) -> None:
    """All places are seen beside the sheet, low and middle, after it was full too; and what was
    moved to stays in the middle of what is free."""
    with board(PIPES) as it:
        show(driver, 400, "light")
        page = Page(driver, it.address)
        page.wait(lambda: is_free(driver))
        for word in "More", "Less", "More", "More", "Less":
            page.driver.find_element(
                "xpath", f"//button[@aria-label='{word} of the panel']"
            ).click()
            is_full = driver.execute_script("return document.body.dataset.panel === 'full'")
            page.wait(lambda: is_full or is_free(driver))  # noqa: B023
        page.press("Larger")
        page.press("Larger")
        before = middle(driver)
        driver.find_element("xpath", "//button[@aria-label='Less of the panel']").click()
        page.wait(lambda: max(abs(a - b) for a, b in zip(middle(driver), before)) < 1)
        as_before(driver)


def test_grip(driver: Any) -> None:
    """A tap on the grip raises the sheet to its next height, and lowers it from the last; a drag
    puts it at the nearest one, and the legend follows. Afterwards all places are seen again."""
    with board(PIPES) as it:
        show(driver, 400, "light")
        page = Page(driver, it.address)
        head, high = driver.execute_script(HEAD)
        low, half, full = 108, round(0.46 * high), high - head - 8
        grip = driver.find_element("id", "panel-grip")
        for wanted in half, full, low:
            grip.click()
            page.wait(lambda: sheet(driver) == pytest.approx(wanted, abs=1))  # noqa: B023
        page.wait(lambda: is_free(driver))
        # The low sheet has the field and the tabs, and cuts no text.
        assert driver.execute_script("return " + TOP) >= high
        page.actions().move_to_element(grip).click_and_hold().move_by_offset(0, -100).perform()
        assert sheet(driver) == pytest.approx(low + 100, abs=1)
        assert driver.execute_script(FOOT) == pytest.approx(high - low - 100 - 8, abs=1)
        page.actions().release().perform()
        assert sheet(driver) == pytest.approx(low, abs=1)
        for by, wanted in ((-200, half), (-3000, full), (150, full), (260, half), (3000, low)):
            drag_by_finger(driver, grip, by)
            assert sheet(driver) == pytest.approx(wanted, abs=1), (by, wanted)
        page.wait(lambda: is_free(driver))
        as_before(driver)


def sheet(driver: Any) -> float:
    """How high the sheet is, in pixels."""
    return float(driver.find_element("id", "panel").rect["height"])


def drag_by_finger(driver: Any, grip: Any, by: int) -> None:
    """Drags the grip downwards, within the window."""
    box = driver.execute_script("return arguments[0].getBoundingClientRect().toJSON()", grip)
    x, y = box["left"] + box["width"] / 2, box["top"] + box["height"] / 2
    ends = [y, y + by / 2, y + by]
    for kind, at in zip(("touchStart", "touchMove", "touchMove"), ends):
        touch = {"x": x, "y": min(max(at, 1), 2000)}
        words = {"type": kind, "touchPoints": [touch]}
        driver.execute_cdp_cmd("Input.dispatchTouchEvent", words)
    driver.execute_cdp_cmd("Input.dispatchTouchEvent", {"type": "touchEnd", "touchPoints": []})


def middle(driver: Any) -> tuple[float, float]:
    """The point of the picture in the middle of what is free: between the headline and the legend,
    and beside the panel, in its units."""
    x, y = driver.execute_script(
        """
        const box = document.querySelector("#picture svg").viewBox.baseVal;
        const at = (place) => document.querySelector(place).getBoundingClientRect();
        const [top, bottom] = [at("header").bottom, at("#foot").top];
        const { height, width, left } = at("[aria-label='What the picture shows']");
        const beside = height > width ? left : innerWidth;
        const right = at("#fold").width ? Math.min(at("#fold").left, beside) : innerWidth;
        const by = innerWidth / box.width;
        return [box.x + right / 2 / by, box.y + (top + bottom) / 2 / by];
        """
    )
    return float(x), float(y)


@pytest.mark.parametrize("sizes", [((400, 800), (800, 400)), ((1280, 800), (768, 900))])
def test_another_size(driver: Any, sizes: tuple[tuple[int, int], ...]) -> None:
    """After a phone is turned, or a window has another size, all places are seen again if all were
    fitted; and if the planner has moved the picture, its middle and its scale stay."""
    with board(PIPES) as it:
        resize(driver, *sizes[0])
        page = Page(driver, it.address)
        for size in (*sizes, *sizes):
            resize(driver, *size)
            page.wait(lambda: is_free(driver))
        resize(driver, *sizes[0])
        page.press("Larger")
        before, by = middle(driver), scale(driver)
        for size in sizes[::-1]:
            resize(driver, *size)
            page.wait(lambda: max(abs(a - b) for a, b in zip(middle(driver), before)) < 1)
            assert scale(driver) == pytest.approx(by, rel=0.001)
        as_before(driver)


def resize(driver: Any, width: int, height: int) -> None:
    """Gives the window a size, and waits until the picture has it."""
    metrics = {"width": width, "height": height, "deviceScaleFactor": 1, "mobile": False}
    driver.execute_cdp_cmd("Emulation.setDeviceMetricsOverride", metrics)
    driver.execute_async_script("requestAnimationFrame(() => requestAnimationFrame(arguments[0]))")


def scale(driver: Any) -> float:
    """How many pixels a unit of the picture has."""
    return float(
        driver.execute_script("return document.querySelector('#picture svg').getScreenCTM().a")
    )


@pytest.mark.parametrize("width", [1280, 400])
def test_names_on_a_map(driver: Any, tmp_path: Path, width: int) -> None:
    """No name on the canvas lies on another name, at each size, or on a place there, where names
    of all places can be read."""
    with before_pages(driver, NOTED), board(*city(tmp_path, 20)) as it:
        show(driver, width, "light")
        page = Page(driver, it.address)
        counts = []
        for _ in range(7):
            page.settle()
            driver.execute_async_script("requestAnimationFrame(() => setTimeout(arguments[0], 50))")
            noted = driver.execute_script("return window.noted")
            names, places = noted["names"], noted["places"]
            is_far = driver.execute_script("return Boolean(document.querySelector('#picture.far'))")
            counts.append(len(names))
            for at, name in enumerate(names):
                # From afar places are dots, close to each other.
                assert is_far or not any(meet(name, place) for place in places), (name, counts)
                assert not any(meet(name, other) for other in names[:at]), (name, counts)
            page.press("Larger")
        assert max(counts) > 4, counts
        as_before(driver)
