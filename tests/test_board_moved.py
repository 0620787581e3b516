"""Places of a drawn picture that are moved by hand: by the pointer and by keys, the same in all
tabs, and not at all on a map."""

from __future__ import annotations

import json
import shutil
import time
from pathlib import Path
from typing import Any

import pytest
from board_pages import Page, set_width
from board_running import Board as Running
from board_running import board
from board_views import SCALE, spots
from desk_shared import PIPES, ROOT
from test_board_access import as_before, show
from test_board_ground import city

pytestmark = pytest.mark.seconds(20)
ALT, SHIFT, ESCAPE, BACKSPACE = "\ue00a", "\ue008", "\ue00c", "\ue003"
RIGHT, DOWN = "\ue014", "\ue015"
Spots = dict[str, tuple[str, str]]
# The middles of places in the picture of a page, by their parts.
MIDDLES = """
return Object.fromEntries([...document.querySelectorAll("#picture .node")].map((it) => {
  const oval = it.querySelector("ellipse.inner");
  return [it.id, [oval.getAttribute("cx"), oval.getAttribute("cy")]];
}));
"""
# The ends of the lines at a place, on the screen: for each that at the place, and the other one.
ENDS = """
const node = arguments[0];
return [...document.querySelectorAll("#picture .arc")].flatMap((part) => {
  const ends = part.dataset.ends.split(" "), path = part.querySelector("path:not(.wide)");
  if (!ends.includes(node)) return [];
  const at = (long) => path.getPointAtLength(long).matrixTransform(path.getScreenCTM());
  const [tail, head] = [at(0), at(path.getTotalLength())].map(({ x, y }) => [x, y]);
  return [ends[0] === node ? [tail, head] : [head, tail]];
});
"""


def node_of(it: Running, name: str) -> int:
    return int(it.told(f"find?text={name}")["found"][0]["node"])


def moved_by(before: Spots, now: Spots) -> dict[str, Any]:
    """How far places have moved to the right and downwards, of those that have."""
    return {
        part: (float(x) - float(before[part][0]), float(y) - float(before[part][1]))
        for part, (x, y) in now.items()
        if (x, y) != before[part]
    }


# Lets keys rest once `rest` is called, and not when they have rested for a time.
RESTS = """
const { setTimeout, clearTimeout } = window, held = new Map();
let last = 0;
window.setTimeout = (done, pause, ...rest) => {
  if (pause !== 400) return setTimeout(done, pause, ...rest);
  held.set(last -= 1, done);
  return last;
};
window.clearTimeout = (timer) => held.delete(timer) || clearTimeout(timer);
window.rest = () => { for (const done of [...held.values()]) done(); held.clear(); };
"""


def move(it: Running, node: int, right: float, down: float) -> Any:
    """Puts a place somewhere by a request."""
    words = {"right": round(100 * right), "down": round(100 * down), "form": 0}
    return json.loads(it.post("move", node=node, **words)[1])


def project(folder: Path) -> Path:
    shutil.copy(ROOT / PIPES, folder / "pipes.csv")
    return folder / "pipes.dmf.json"


def journal(path: Path) -> list[Any]:
    return [*map(json.loads, path.with_name("pipes.dmf.journal").read_text().splitlines())]


def test_dragged(driver: Any, tmp_path: Path) -> None:
    """A place follows the pointer with the ends of its lines, and stays where it is put, also at a
    step; this is on the disk before the page says so. The move is taken back alone."""
    path = project(tmp_path)
    with board("--keep", str(tmp_path / "pipes.csv")) as it:
        show(driver, 1280, "light")
        page = Page(driver, it.address)
        mill, before = node_of(it, "Mill"), spots(it)
        lines = driver.execute_script(ENDS, str(mill))
        scale = driver.execute_script(SCALE)
        oval = driver.find_element("css selector", f"#node-{mill} ellipse.inner")
        page.actions().move_to_element(oval).click_and_hold().move_by_offset(50, 5).move_by_offset(
            20, -45
        ).perform()
        bent = driver.execute_script(ENDS, str(mill))
        assert len(bent) == len(lines) == 4
        for (own, other), (own_now, other_now) in zip(lines, bent):
            assert other_now == pytest.approx(other, abs=0.1)
            assert own_now == pytest.approx([own[0] + 70, own[1] - 40], abs=0.1)
        assert spots(it) == before and not any("moved" in line for line in journal(path))
        page.actions().release().perform()
        page.wait(lambda: page.text("#news") == "Mill was moved. pipes.dmf.json keeps it.")
        assert [*journal(path)[-1]["moved"]] == ["Mill"]
        page.wait(lambda: not driver.find_elements("css selector", "#picture .bent"))
        moved = moved_by(before, spots(it))
        assert moved == {f"node-{mill}": pytest.approx((70 / scale, -40 / scale), abs=0.02)}
        assert driver.execute_script(MIDDLES) == {it: [*at] for it, at in spots(it).items()}
        assert page.text("#what h3") == "", "a drag is no click"
        page.choose("arc-3", "North rise")
        page.after(lambda: page.press("Close it"))
        assert moved_by(before, spots(it)) == moved
        page.press("Undo the move")
        page.wait(
            lambda: page.text("#news") == "Mill lies where it was before. "
            "pipes.dmf.json keeps it."
        )
        assert spots(it) == before and journal(path)[-1]["moved"] == {"Mill": None}
        assert it.state()["at"] == 1, "no step was undone"
        assert not driver.find_element("id", "undo-move").is_displayed()
        as_before(driver)


def test_dropped(driver: Any) -> None:
    """Escape puts a place back that is being dragged, and so does a second finger. A finger that
    begins on a place moves the picture, unless the place is selected."""
    with board(PIPES) as it:
        page = Page(driver, it.address)
        before, mill = spots(it), node_of(it, "Mill")
        oval = driver.find_element("css selector", f"#node-{mill} ellipse.inner")
        ends = driver.execute_script(ENDS, str(mill))
        page.actions().move_to_element(oval).click_and_hold().move_by_offset(40, 40).perform()
        assert driver.execute_script(ENDS, str(mill)) != ends
        page.actions().send_keys(ESCAPE).perform()
        assert driver.execute_script(ENDS, str(mill)) == ends
        page.actions().move_by_offset(10, 0).release().perform()
        box = "return document.querySelector('#picture svg').getAttribute('viewBox')"
        seen = driver.execute_script(box)
        touch(driver, oval, 30)
        assert driver.execute_script(box) != seen and spots(it) == before
        page.choose(f"node-{mill}", "Mill")
        seen = driver.execute_script(box)
        touch(driver, driver.find_element("css selector", f"#node-{mill} ellipse.inner"), 30)
        page.wait(lambda: page.text("#news") == "Mill was moved.")
        assert [*moved_by(before, spots(it))] == [f"node-{mill}"]
        assert driver.execute_script(box) == seen
        driver.get("about:blank")


def touch(driver: Any, element: Any, by: int) -> None:
    """Drags by a finger, downwards."""
    box = element.rect
    x, y = box["x"] + box["width"] / 2, box["y"] + box["height"] / 2
    for kind, down in ("touchStart", 0), ("touchMove", by / 2), ("touchMove", by), ("touchEnd", -1):
        points = [{"x": x, "y": y + down}] if down >= 0 else []
        driver.execute_cdp_cmd("Input.dispatchTouchEvent", {"type": kind, "touchPoints": points})


def test_keys(driver: Any) -> None:
    """Alt and arrow keys move the place that has the focus, by 20 pixels, or with Shift by 2; keys
    one after the other are one move. Alt and Backspace takes it back. The focus stays."""
    with board(PIPES) as it:
        show(driver, 1280, "light")
        page = Page(driver, it.address)
        before, mill = spots(it), node_of(it, "Mill")
        scale = driver.execute_script(SCALE)
        driver.execute_script(RESTS)
        driver.execute_script("document.getElementById(arguments[0]).focus()", f"node-{mill}")
        page.actions().key_down(ALT).send_keys(RIGHT, RIGHT, DOWN).key_down(SHIFT).send_keys(
            DOWN
        ).key_up(SHIFT).key_up(ALT).perform()
        assert spots(it) == before
        driver.execute_script("rest()")
        page.wait(lambda: page.text("#news") == "Mill was moved.")
        page.settle()
        assert moved_by(before, spots(it)) == {
            f"node-{mill}": pytest.approx((40 / scale, 22 / scale), abs=0.02)
        }
        assert page.focused_id() == f"node-{mill}"
        page.actions().key_down(ALT).send_keys(BACKSPACE).key_up(ALT).perform()
        page.wait(lambda: page.text("#news") == "Mill lies where it was before.")
        assert spots(it) == before
        as_before(driver)


def test_tabs(driver: Any) -> None:
    """All tabs show a place where it was moved, also those of another form: they all have the
    picture in which it was moved."""
    with board(PIPES) as it:
        show(driver, 1280, "light")
        page, first = Page(driver, it.address), driver.current_window_handle
        driver.switch_to.new_window("tab")
        set_width(driver, 400)
        other = Page(driver, it.address)
        assert driver.execute_script(MIDDLES) != {it: [*at] for it, at in spots(it).items()}
        assert "error" not in move(it, node_of(it, "Mill"), 300, -50)
        now = {it: [*at] for it, at in spots(it).items()}
        assert now[f"node-{node_of(it, 'Mill')}"] == ["300", "-50"]
        other.wait(lambda: driver.execute_script(MIDDLES) == now)
        driver.close()
        driver.switch_to.window(first)
        page.wait(lambda: driver.execute_script(MIDDLES) == now)
        as_before(driver)


def test_without_a_name(driver: Any, tmp_path: Path) -> None:
    """A place that shares its name with another is moved for this run alone, and the page says
    why."""
    problem = tmp_path / "two.max"
    problem.write_text(
        "c node 2 Mill\nc node 3 Mill\np max 4 4\nn 1 s\nn 4 t\n"
        "a 1 2 5\na 1 3 4\na 2 4 3\na 3 4 6\n"
    )
    with board("--keep", str(problem)) as it:
        show(driver, 1280, "light")
        page = Page(driver, it.address)
        driver.execute_script("document.getElementById('node-3').focus()")
        page.actions().key_down(ALT).send_keys(RIGHT).key_up(ALT).perform()
        page.wait(
            lambda: page.text("#news") == "Mill was moved. two.dmf.json does not keep it: this "
            "place has no name of its own, by which it could be found again."
        )
        assert it.told("picture?near=")["moved"] == 1
        as_before(driver)
        assert it.end() == 130
    with board(str(tmp_path / "two.dmf.json")) as it:
        assert it.told("picture?near=")["moved"] == 0


def test_map_is_not_moved(driver: Any, tmp_path: Path) -> None:
    """On a map no place is moved, neither in a project that has its positions later: a drag moves
    the picture. A project of an older version does not say whether it has a map, so none is moved
    there until its places are laid out anew."""
    with board("--keep", *city(tmp_path, 7)) as it:
        page = Page(driver, it.address)
        before, (part, *_) = spots(it), driver.find_elements("css selector", "#picture .node")
        name = part.get_attribute("id")
        oval = part.find_element("css selector", "ellipse.inner")
        page.actions().move_to_element(oval).click_and_hold().move_by_offset(
            -20, 30
        ).release().perform()
        assert moved_by(before, spots(it)) == {}
        assert not driver.find_element("id", "tidy").is_displayed()
        told = move(it, int(name.removeprefix("node-")), 1, 1)
        assert told["error"] == "places lie as on the map, where none is moved"
        driver.get("about:blank")
        assert it.end() == 130
    path = tmp_path / "city.dmf.json"
    with board(str(path)) as it:
        assert not it.told("picture?near=")["can_lay_out"] and spots(it) == before
        assert it.end() == 130
    content = json.loads(path.read_text())
    assert content.pop("positions_from") == "map"
    path.write_text(json.dumps(content))
    with board(str(path)) as it:
        told = it.told("picture?near=")
        assert (told["origin"], told["can_lay_out"]) == ("", True)
        assert "perhaps as on a map" in told["fixed"]
        assert spots(it) == before
        it.post("tidy", near="", form=100)
        while json.loads(it.post("tidied")[1])["is_laying_out"]:
            time.sleep(0.05)
        assert it.told("picture?near=")["fixed"] == "" and spots(it) != before
        assert it.end() == 130
    assert json.loads(path.read_text())["positions_from"] == "drawing"
