"""A map of 10,000 arcs while it is dragged and zoomed: what is drawn glides along, nothing is drawn
before the view rests, and a click meets the pipe that is seen there. bench/page measures frames."""

from __future__ import annotations

from collections.abc import Iterator
from pathlib import Path
from typing import Any

import pytest
from board_pages import Page
from board_running import Board, board
from test_board_access import as_before, show
from test_board_ground import LIMIT, city

pytestmark = pytest.mark.seconds(30)
# The side of a city of about 10,000 arcs.
SIDE = 71
# How far what lies under the pointer may be from it, in pixels.
NEAR = 1
# Moves the map between two frames, by many events at a point: zooms it by wheel deltas, or drags it
# that far to the right. Returns how often the canvases were stroked, and the picture sized, and
# where the layer with what was drawn and the overview around it are.
MOVED = """
const [kind, by, x, y, many] = arguments, host = document.getElementById("picture");
const svg = host.querySelector("svg"), layers = document.getElementById("layers");
const pen = CanvasRenderingContext2D.prototype, { stroke } = pen;
const before = svg.getAttribute("viewBox");
let strokes = 0;
pen.stroke = function (...given) { strokes += 1; return stroke.apply(this, given); };
const looks = { bubbles: true, cancelable: true };
const point = (type, right) => host.dispatchEvent(new PointerEvent(type, { ...looks,
  clientX: x + right, clientY: y, pointerId: 1, pointerType: "mouse", isPrimary: true, button: 0,
  buttons: 1 }));
if (kind === "pan") point("pointerdown", 0);
for (let place = 1; place <= many; place += 1) {
  if (kind === "pan") point("pointermove", place / many * by);
  else {
    const at = { clientX: x, clientY: y };
    host.dispatchEvent(new WheelEvent("wheel", { ...looks, ...at, deltaY: by }));
  }
}
if (kind === "pan") point("pointerup", by);
pen.stroke = stroke;
return [strokes, svg.getAttribute("viewBox") !== before, layers.style.transform !== "",
  document.getElementById("overview").hidden, layers.classList.contains("far")];
"""
# What is drawn in the middle of arcs, by the ends of each, on the overview, which lies as its
# transform says; one of the colours near it.
OVERVIEW = """
const [ends, ground] = arguments, canvas = document.getElementById("overview");
const pen = canvas.getContext("2d"), spot = (node) => ground.nodes.indexOf(node);
const [lefts, downs] = [ground.right, ground.down];
const low = (all) => Math.min(...all), wide = (all) => Math.max(...all) - low(all);
const rim = [0.02 * wide(lefts), 0.02 * wide(downs)];
const by = canvas.width / (1.04 * wide(lefts));
return ends.map((nodes) => {
  const mean = (all) => nodes.reduce((sum, node) => sum + all[spot(node)], 0) / nodes.length;
  const x = (mean(lefts) - low(lefts) + rim[0]) * by, y = (mean(downs) - low(downs) + rim[1]) * by;
  const { data } = pen.getImageData(x - 2, y - 2, 5, 5);
  return Array.from({ length: 25 }, (_, place) => [...data.slice(4 * place, 4 * place + 3)]);
});
"""
# Where the window begins in the picture, and its pixels per unit.
VIEW = """
const box = document.querySelector("#picture svg").viewBox.baseVal;
return [box.x, box.y, innerWidth / box.width];
"""
# Tells whether the view rests, and the picture in front is the one that the page asks for then:
# around the middle of the view, or if that is far away, around the bottleneck.
RESTS = """
const tell = arguments[0], { href } = document.getElementById("take-svg");
const isGliding = document.getElementById("layers").matches(".gliding");
import("./ground.js").then(({ isFar, middlePlace }) => {
  const near = href.match(/near=(.*?)&/)[1], node = middlePlace();
  tell(!isGliding && (isFar() ? near === "" : node === null || near === String(node)));
});
"""
CLICKED = """
const [x, y] = arguments, under = document.elementFromPoint(x, y);
under.dispatchEvent(new MouseEvent("click", { bubbles: true, clientX: x, clientY: y }));
return document.getElementById("layers").matches(".gliding");
"""


class Map:
    """A map of a city on a page, near enough for names to be read."""

    def __init__(self, driver: Any, it: Board) -> None:
        self.driver, self.it = driver, it
        show(driver, 1280, "light")
        self.page = Page(driver, it.address)
        self.page.know_worth()
        for _ in range(4):
            self.page.press("Larger")
        self.ground = it.told("ground")
        self.rest()

    def ends(self, number: int) -> list[int]:
        """The places at the ends of an arc."""
        return [self.ground["tails"][number - 1], self.ground["heads"][number - 1]]

    def spot(self, number: int) -> list[float]:
        """Where the middle of an arc is in the window, once the view rests."""
        places = [self.ground["nodes"].index(node) for node in self.ends(number)]
        x, y = (sum(self.ground[axis][place] for place in places) / 2 for axis in ("right", "down"))
        left, top, by = self.driver.execute_script(VIEW)
        return [(x - left) * by, (y - top) * by]

    def scale(self) -> float:
        return float(self.driver.execute_script(VIEW)[2])

    def middle(self) -> int:
        """The arc that is nearest to the middle of the free part of the window."""
        left, top, by = self.driver.execute_script(VIEW)
        x, y = left + 430 / by, top + 470 / by
        far = [
            abs(right - x) + abs(down - y)
            for right, down in zip(self.ground["right"], self.ground["down"])
        ]
        near = far.index(min(far))
        return int(self.ground["tails"].index(self.ground["nodes"][near])) + 1

    def move(self, kind: str, by: float, spot: list[float], many: int = 20) -> Any:
        return self.driver.execute_script(MOVED, kind, by, *spot, many)

    def rest(self) -> None:
        """Waits until the view rests, until the picture has what is near its middle, and until the
        page is idle, when it paints the overview."""
        self.page.wait(lambda: self.driver.execute_async_script(RESTS))
        self.page.settle()
        self.driver.execute_async_script("requestIdleCallback(() => setTimeout(arguments[0]))")


@pytest.fixture
def drawn(driver: Any, tmp_path: Path) -> Iterator[Map]:
    with board(*city(tmp_path, SIDE)) as it:
        yield Map(driver, it)
        as_before(driver)


def test_nothing_is_drawn_before_it_rests(drawn: Map) -> None:
    """Neither a drag nor a zoom draws anything. What was under the pointer is there when the view
    rests, and then it is drawn."""
    number = drawn.middle()
    for kind, by, is_drawn in ("pan", 150, True), ("zoom", -40, True), ("zoom", 25, False):
        # The browser gives the wheel's position in whole pixels.
        spot, before = drawn.spot(number), drawn.scale()
        pointer = [float(int(at)) for at in spot]
        assert drawn.move(kind, by, pointer) == [0, False, True, is_drawn, False]
        drawn.rest()
        right = by if kind == "pan" else 0
        larger = drawn.scale() / before
        assert (larger > 1, larger < 1) == (kind == "zoom" and by < 0, kind == "zoom" and by > 0)
        wanted = [at + (it - at) * larger for at, it in zip(pointer, spot)]
        assert drawn.spot(number) == pytest.approx([wanted[0] + right, wanted[1]], abs=NEAR)


def test_overview(drawn: Map) -> None:
    """A view that has moved out far shows the overview alone, with the bottleneck in red on it; and
    after a step it is of the new state."""
    looks = drawn.it.told("looks")["arcs"]
    limit = [place for place, look in enumerate(looks, 1) if look == "l"]
    ends, red = [drawn.ends(number) for number in limit], LIMIT["light"]

    def count() -> int:
        """How many of these arcs are red on the overview."""
        found = drawn.driver.execute_script(OVERVIEW, ends, drawn.ground)
        return sum(
            any(all(abs(part - wanted) < 60 for part, wanted in zip(one, red)) for one in near)
            for near in found
        )

    # The ends of the network may hide some.
    drawn.page.wait(lambda: count() > 0.9 * len(limit))
    assert drawn.move("zoom", 60, [430, 470], 40) == [0, False, True, False, True]
    drawn.rest()
    assert drawn.driver.execute_script("return document.getElementById('overview').hidden")
    assert "error" not in drawn.it.do(**{"what": "close-all", "arcs": limit})
    drawn.page.wait(lambda: drawn.page.text("#value strong") != "297" and count() == 0)


def test_clicks_meet_what_is_seen(drawn: Map) -> None:
    """A click while the map is still being zoomed selects the pipe under the pointer."""
    number = drawn.middle()
    for by in -40, 40:
        spot = drawn.spot(number)
        drawn.driver.execute_script("document.getElementById('picture').focus()")
        assert drawn.move("zoom", by, spot)[2]
        drawn.driver.execute_script(CLICKED, *spot)
        wanted = f"#arc={number}"
        drawn.page.wait(lambda: drawn.driver.current_url.endswith(wanted))  # noqa: B023
        drawn.driver.find_element("id", "picture").send_keys("\ue00c")
        drawn.page.wait(lambda: not drawn.driver.current_url.endswith(wanted))  # noqa: B023
        drawn.rest()
