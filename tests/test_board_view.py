"""The picture of a board to move in, and its places that stay where they are, by headless Chromium
and by plain requests."""

from __future__ import annotations

import json
from collections.abc import Callable
from pathlib import Path
from typing import Any

import pytest
from board_pages import Page
from board_running import board
from board_views import BARE, HEIGHTS, NAMELESS_ENDS, SCALE, grid_table, is_in, seen, spots
from desk_shared import PIPES

pytestmark = pytest.mark.seconds(20)
# A point of the picture on which no part lies, from the middle of the window.
FREE = """
const at = [...Array(40).keys()].map((it) => [it * 7 - 140, it % 2 ? 40 : -40]);
return at.find(([x, y]) =>
  !document.elementFromPoint(innerWidth / 2 + x, innerHeight / 2 + y).closest(".node, .arc"));
"""


def test_places_stay(tmp_path: Path) -> None:
    """No change moves a place: closing, opening, another capacity, a new arc, a new limit, or what
    lies near another place. A place that comes lies near its neighbours, and on no other."""
    with board(grid_table(tmp_path, 32)) as it:
        seen = spots(it)
        limit = [arc["number"] for arc in it.state()["limit"]]
        node = it.told("find?text=P30_2")["found"][0]["node"]
        moved = 0
        changes: list[Callable[[], object]] = [
            lambda: it.do(what="close-all", arcs=limit[:10]),
            lambda: it.do(what="cap-all", arcs=limit[10:20], capacity="100"),
            lambda: it.do(what="open-all", arcs=limit[:10]),
            lambda: it.do(what="add", tail=node, head="Sea", capacity="100", name="new"),
            lambda: it.do(what="cap-all", arcs=limit[20:], capacity="+100 %"),
            lambda: it.do(what="go", step=0),
        ]
        for change in changes:
            told: Any = change()
            assert "error" not in told, told
            for near in "", str(node):
                now = spots(it, near)
                stayed = {place for place in now if place in seen}
                assert {place: now[place] for place in stayed} == {
                    place: seen[place] for place in stayed
                }
                moved += len(now) - len(stayed)
                seen.update(now)
        # Otherwise nothing came into the picture, and nothing was tested.
        assert moved > 50
        middles = sorted((float(x), float(y)) for x, y in seen.values())
        near_ones = [
            (one, other)
            for one, other in zip(middles, middles[1:])
            if abs(one[0] - other[0]) < 5 and abs(one[1] - other[1]) < 5
        ]
        assert near_ones == []


def test_new_place_is_near(tmp_path: Path) -> None:
    """A place that comes into a picture beside known ones lies nearer to its neighbours than most
    places do."""
    with board(grid_table(tmp_path, 32)) as it:
        before = spots(it)
        tails = (
            it.told(f"arc?number={number}")["tail_node"]
            for number in range(1, it.state()["arcs"] + 1)
        )
        node = next(tail for tail in tails if f"node-{tail}" not in before)
        after = spots(it, str(node))
        ends = [
            (int(arc["tail_node"]), arc)
            for arc in json.loads(it.ask(it.root + f"picture?near={node}")[2])["arcs"]
        ]
        assert f"node-{node}" in after and ends

        def away(one: str, other: str) -> float:
            (x, y), (to_x, to_y) = after[one], after[other]
            return abs(float(x) - float(to_x)) + abs(float(y) - float(to_y))

        heads = {arc["head"] for tail, arc in ends if tail == node}
        beside = [
            f"node-{tail}" for tail, arc in ends if arc["tail"] in heads and f"node-{tail}" in after
        ]
        assert beside
        nearer = sum(
            away(f"node-{node}", other) > min(away(f"node-{node}", one) for one in beside)
            for other in after
        )
        assert nearer > len(after) / 2


@pytest.mark.parametrize("side", [0, 7, 40])
def test_view(driver: Any, tmp_path: Path, side: int) -> None:
    """At each width the sink is seen, labels are at least 11 pixels high, and the picture is
    dragged, made larger and fitted, by the mouse, by buttons and by keys; a click still chooses."""
    with board(grid_table(tmp_path, side) if side else PIPES) as it:
        for width in 1280, 768, 400:
            metrics = {"width": width, "height": 900, "deviceScaleFactor": 1, "mobile": False}
            driver.execute_cdp_cmd("Emulation.setDeviceMetricsOverride", metrics)
            page = Page(driver, it.address)
            # Of a part the sink may be no part.
            sink = (
                f"#{sink_of(driver, 'Harbour' if not side else 'Sea' if side < 12 else 'P0_0')} "
                "ellipse"
            )
            page.wait(lambda: driver.execute_script(HEIGHTS))
            assert is_in(page, sink), f"at {width} pixels the sink is cut off: {seen(page, sink)}"
            judge_labels(page)
            judge_moves(page, sink)
        driver.execute_cdp_cmd("Emulation.clearDeviceMetricsOverride", {})
        driver.get("about:blank")


def sink_of(driver: Any, name: str) -> str:
    nodes = "[...document.querySelectorAll('#picture .node')]"
    script = (
        f"return {nodes}.find((it) => it.querySelector('text').textContent === arguments[0]).id"
    )
    return str(driver.execute_script(script, name))


def judge_labels(page: Page) -> None:
    """Labels are never too small to be read, at any size of the picture. When all of it is shown,
    the source and the sink have theirs, and when it is largest, all that is not cut."""
    for key in "0-------0" + 20 * "+":
        page.driver.find_element("id", "picture").send_keys(key)
        page.driver.execute_async_script(
            "requestAnimationFrame(() => requestAnimationFrame(arguments[0]))"
        )
        heights = page.driver.execute_script(HEIGHTS)
        assert min(heights, default=11) >= 10.99, (key, min(heights))
        assert key != "0" or page.driver.execute_script(NAMELESS_ENDS) == []
    assert page.driver.execute_script(BARE) == []


def judge_moves(page: Page, sink: str) -> None:
    host = page.driver.find_element("id", "picture")
    page.driver.execute_script("arguments[0].scrollIntoView({ block: 'center' })", host)
    page.click("#fit-all")
    assert is_in(page, sink)
    right, down, *_ = seen(page, sink)
    # A drag that begins on a place moves the place.
    page.actions().move_to_element_with_offset(
        host, *page.driver.execute_script(FREE)
    ).click_and_hold().move_by_offset(-30, 25).release().perform()
    left, lower, *_ = seen(page, sink)
    assert (round(left - right), round(lower - down)) == (-30, 25)
    assert page.text("#what h3") == "", "a drag is no click"
    host.send_keys("\ue009" + "\ue012" + "\ue000")
    assert seen(page, sink)[0] == pytest.approx(left + 60, abs=1)
    before = page.driver.execute_script(SCALE)
    page.press("Larger")
    assert page.driver.execute_script(SCALE) == pytest.approx(before * 1.4, rel=0.1)
    page.press("All")
    assert is_in(page, sink)
    judge_wheel(page, host)
    page.press("The bottleneck")
    cut = page.driver.execute_script(
        "return [...document.querySelectorAll('#picture .cut')].map((it) => it.id)"
    )
    assert all(is_in(page, f"#{one}") for one in cut), cut


def judge_wheel(page: Page, host: Any) -> None:
    """The wheel makes the picture larger, about the pointer, and does not move the page."""
    top = page.driver.execute_script("return scrollY")
    script = """
    const [host, delta] = arguments, box = host.getBoundingClientRect();
    const [x, y] = [box.left + box.width / 4, box.top + box.height / 3].map(Math.round);
    const svg = host.querySelector("svg");
    const at = () => new DOMPoint(x, y).matrixTransform(svg.getScreenCTM().inverse());
    const how = { deltaY: delta, clientX: x, clientY: y, cancelable: true, bubbles: true };
    const event = new WheelEvent("wheel", how);
    const before = at(), isDone = host.dispatchEvent(event);
    return [before.x - at().x, before.y - at().y, isDone];
    """
    before = page.driver.execute_script(SCALE)
    right, down, is_done = page.driver.execute_script(script, host, -200)
    now = page.driver.execute_script(SCALE)
    assert (abs(right) < 0.5, abs(down) < 0.5, is_done, now > before) == (True, True, False, True)
    assert page.driver.execute_script("return scrollY") == top


def test_pinch(driver: Any) -> None:
    """Two fingers make the picture larger."""
    with board(PIPES) as it:
        page = Page(driver, it.address)
        x, y, width, height = driver.execute_script(
            "const box = document.getElementById('picture').getBoundingClientRect(); return "
            "[box.x, "
            "box.y, box.width, box.height]"
        )
        wide = "return document.querySelector('#picture svg').viewBox.baseVal.width"
        before = driver.execute_script(wide)
        for kind, apart in (
            ("touchStart", 40),
            ("touchMove", 60),
            ("touchMove", 120),
            ("touchEnd", 0),
        ):
            points = [
                {"x": x + width / 2 + sign * apart, "y": y + height / 2, "id": place}
                for place, sign in enumerate((-1, 1))
                if apart
            ]
            driver.execute_cdp_cmd(
                "Input.dispatchTouchEvent", {"type": kind, "touchPoints": points}
            )
        page.wait(lambda: driver.execute_script(wide) < before / 2)
        driver.get("about:blank")


def test_view_stays(driver: Any) -> None:
    """A change leaves the picture where one has moved it; what is found by name comes into sight,
    and is marked beside the limit's red."""
    with board(PIPES) as it:
        page = Page(driver, it.address)
        for _ in range(4):
            page.press("Larger")
        box = "return document.querySelector('#picture svg').getAttribute('viewBox')"
        before = driver.execute_script(box)
        it.do(what="close", arc=10)
        page.wait(lambda: page.value() == 155)
        page.settle()
        assert driver.execute_script(box) == before
        page.write("#text", "nórth ris")
        page.wait(lambda: page.text("#found button") == "North rise, Upper Works -> North Tower")
        page.click("#found button")
        page.wait(lambda: page.text("#what h3") == "North rise")
        assert is_in(page, "#arc-3 polygon")
        script = (
            "return [...document.querySelectorAll('#arc-3 path')].map((it) => "
            "getComputedStyle(it).stroke)"
        )
        beside, line = driver.execute_script(script)
        assert (
            beside
            != line
            == driver.execute_script(
                "return getComputedStyle(document.querySelector('#arc-9 path:not(.wide)')).stroke"
            )
        )
        driver.get("about:blank")


def test_show_near(driver: Any, tmp_path: Path) -> None:
    """Past what can be drawn or laid out, what is found by name, without case and accents, is shown
    with what lies around it."""
    with board(grid_table(tmp_path, 40)) as it:
        page = Page(driver, it.address)
        assert "300 of " in page.text("#drawn-note")
        page.write("#text", "RIGHT 30 2")
        page.wait(lambda: page.text("#found button").startswith("right 30 2,"))
        page.click("#found button")
        page.wait(lambda: page.text("#what h3") == "right 30 2")
        page.wait(lambda: "what lies nearest to a place" in page.text("#drawn-note"))
        page.settle()
        page.wait(lambda: driver.find_elements("css selector", "#picture .arc.chosen"))
        label = driver.find_element("css selector", "#picture .arc.chosen title").get_attribute(
            "textContent"
        )
        assert label.startswith("right 30 2,")
        page.press("Show what is near the bottleneck")
        page.wait(lambda: "nearest to the bottleneck" in page.text("#drawn-note"))
        driver.get("about:blank")
