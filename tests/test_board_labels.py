"""The labels of a board's picture, by their boxes in headless Chromium: none lies on a place, on
another label, on a line or on an arrow, and none is cut by an edge or by what lies over the
picture. How wide lines are drawn is what the browser says."""

from __future__ import annotations

from pathlib import Path
from typing import Any

import pytest
from board_pages import Page
from board_running import board
from board_views import grid_table
from desk_shared import PIPES
from test_board_access import WIDTHS, as_before, show

pytestmark = pytest.mark.seconds(20)
# The number of labels that are shown, and those that lie on something. A name in its own place lies
# on that. Those of the chosen arc, the source and the sink are always shown, so they may lie on a
# line where there is no room.
LABELS = """
const box = (all) => {
  const found = all.map((it) => it.getBoundingClientRect());
  const least = (side) => Math.min(...found.map((it) => it[side]));
  const most = (side) => Math.max(...found.map((it) => it[side]));
  return { left: least("left"), top: least("top"), right: most("right"), bottom: most("bottom") };
};
const meets = (one, other) => one.left + 1.5 < other.right && other.left + 1.5 < one.right
  && one.top + 1.5 < other.bottom && other.top + 1.5 < one.bottom;
const isIn = (one, other) => one.left >= other.left - 2 && one.right <= other.right + 2
  && one.top >= other.top - 2 && one.bottom <= other.bottom + 2;
const parts = [...document.querySelectorAll("#picture .node, #picture .arc")];
const places = parts.filter((it) => it.matches(".node")).map((it) =>
  [it.id, box([...it.querySelectorAll("ellipse:not(.halo)")])]);
const labels = parts.filter((it) => !it.matches(".unlabelled")).map((it) =>
  [it.id, box([...it.querySelectorAll("text")].filter((text) => text.checkVisibility())), it]);
const wide = { left: 0, top: 0, right: innerWidth, bottom: innerHeight };
const over = ["head", "foot", "moves", "panel", "fold"].map((id) =>
  box([document.getElementById(id)]));
const lines = parts.filter((it) => it.matches(".arc")).map((it) => {
  const path = it.querySelector("path:not(.wide)"), { a, d, e, f } = path.getScreenCTM();
  const long = path.getTotalLength(), count = Math.ceil(long * a / 3);
  const half = parseFloat(getComputedStyle(path).strokeWidth) / 2;
  return [it.id, Array.from({ length: count + 1 }, (_, at) => {
    const { x, y } = path.getPointAtLength(at / count * long);
    const [right, down] = [x * a + e, y * d + f];
    return { left: right - half, right: right + half, top: down - half, bottom: down + half };
  })];
});
const heads = parts.map((it) => [it.id, it.querySelector("polygon")]).filter(([, head]) =>
  head && getComputedStyle(head).visibility === "visible").map(([id, head]) => [id, box([head])]);
const wrong = [];
labels.forEach(([id, label, part], at) => {
  const own = places.find(([place, oval]) => place === id && isIn(label, oval));
  for (const [place, oval] of places) {
    if (meets(label, oval) && place !== own?.[0]) wrong.push(`${id} on ${place}`);
  }
  for (const [other, its] of labels.slice(at + 1)) {
    if (meets(label, its)) wrong.push(`${id} on ${other}`);
  }
  if (!meets(label, wide) || over.some((it) => isIn(label, it))) return;
  if (!isIn(label, wide)) wrong.push(`${id} is cut`);
  for (const it of over) if (meets(label, it)) wrong.push(`${id} is partly under a card`);
  const isEnd = part.querySelectorAll("ellipse:not(.halo)").length > 1;
  if (own || isEnd || part.matches(".chosen")) return;
  for (const [arc, dots] of lines) {
    if (dots.some((dot) => meets(label, dot))) wrong.push(`${id} on the line of ${arc}`);
  }
  for (const [arc, head] of heads) {
    if (meets(label, head)) wrong.push(`${id} on the arrow of ${arc}`);
  }
});
return [labels.length, wrong];
"""


@pytest.mark.parametrize("side", [0, 12, 32])
def test_labels(driver: Any, tmp_path: Path, side: int) -> None:
    """No label meets a place, but lies in its own one or in none, and none meets another label, a
    line or an arrow, or is cut, at any size of the picture; what is chosen has its label."""
    with board(grid_table(tmp_path, side) if side else PIPES) as it:
        for width in WIDTHS:
            show(driver, width, "light")
            page = Page(driver, it.address)
            for key in "0", "++", "+++", "--------":
                driver.find_element("id", "picture").send_keys(key)
                judge_labels(page)
            driver.find_element("id", "picture").send_keys("0")
            limit = it.state()["limit"][0]["number"]
            page.choose(f"arc-{limit}", it.state()["limit"][0]["short"])
            judge_labels(page)
            assert driver.find_elements("css selector", "#picture .chosen:not(.unlabelled)")
        as_before(driver)


def judge_labels(page: Page) -> None:
    page.driver.execute_async_script(
        "requestAnimationFrame(() => requestAnimationFrame(arguments[0]))"
    )
    count, wrong = page.driver.execute_script(LABELS)
    assert count and wrong == [], wrong[:5]


def test_the_bottleneck_is_named(driver: Any) -> None:
    """Of the water story the labels of all arcs of the bottleneck, of the source and of the sink
    have room beside the headline and the panel."""
    with board(PIPES) as it:
        show(driver, 1280, "light")
        Page(driver, it.address)
        shown = "return [...document.querySelectorAll('#picture g:not(.unlabelled) > text')]"
        names = driver.execute_script(f"{shown}.map((text) => text.textContent)")
        limit = {arc["name"] for arc in it.state()["limit"]}
        assert limit == {"North rise", "Mill Lane", "South main"}
        assert limit | {"Reservoir", "Harbour"} <= set(names)
        as_before(driver)


# How each label of an arc of the bottleneck, or of the selected one, belongs to its line: how far
# it is from that, in pixels, and how far another line is; and of the thin line to it, if there is
# one, how far its beginning is from the arc's line, and its end from the label.
BELONGS = """
const box = (all) => {
  const found = all.filter((it) => it.checkVisibility()).map((it) => it.getBoundingClientRect());
  const least = (side) => Math.min(...found.map((it) => it[side]));
  const most = (side) => Math.max(...found.map((it) => it[side]));
  return { left: least("left"), top: least("top"), right: most("right"), bottom: most("bottom") };
};
const pointsOf = (path) => {
  const { a, d, e, f } = path.getScreenCTM(), long = path.getTotalLength();
  const count = Math.max(1, Math.ceil(long * a / 2));
  return Array.from({ length: count + 1 }, (_, at) => {
    const { x, y } = path.getPointAtLength(at / count * long);
    return [x * a + e, y * d + f];
  });
};
const away = ({ left, top, right, bottom }, [x, y]) =>
  Math.hypot(Math.max(left - x, 0, x - right), Math.max(top - y, 0, y - bottom));
const arcs = [...document.querySelectorAll("#picture .arc")];
const lines = arcs.map((part) => [part, pointsOf(part.querySelector("path:not(.wide)"))]);
const near = (label, points) => Math.min(...points.map((point) => away(label, point)));
return lines.filter(([part]) => part.matches(arguments[0]) && !part.matches(".unlabelled"))
  .map(([part, points]) => {
    const label = box([...part.querySelectorAll("text")]);
    const others = lines.filter(([it]) => it !== part).map(([, its]) => near(label, its));
    const leader = part.querySelector(".leader"), ends = leader ? pointsOf(leader) : [];
    const [x, y] = ends[0] ?? [0, 0];
    return { id: part.id, own: near(label, points), other: Math.min(...others),
      led: leader ? [Math.min(...points.map((it) => Math.hypot(it[0] - x, it[1] - y))),
        away(label, ends[ends.length - 1])] : null };
  });
"""
# How far such a label may be from its line without a thin line to it, and how far the ends of that
# may be from the line, which has a thickness, and from the label, in pixels.
BESIDE_LINE, FROM_LINE, FROM_LABEL = 36, 9, 8


def judge_belonging(page: Page, which: str) -> int:
    """Each of these labels stands beside its own line, or a thin line leads to it from there.
    Returns how many there are."""
    page.settle()
    found = page.driver.execute_script(BELONGS, which)
    for it in found:
        if it["led"]:
            assert it["led"][0] <= FROM_LINE and it["led"][1] <= FROM_LABEL, it
        else:
            assert it["own"] <= BESIDE_LINE, it
            assert it["own"] <= it["other"] or ".chosen" in which, it
    return len(found)


@pytest.mark.parametrize("width", WIDTHS)
def test_whose_label_it_is(driver: Any, width: int) -> None:
    """Whichever pipe of the water story is selected, its label stands beside its line, or a thin
    line leads to it."""
    with board(PIPES) as it:
        show(driver, width, "light")
        page = Page(driver, it.address)
        judge_belonging(page, ".arc.cut")
        for arc in it.told("rows?filter=&sort=&first=0&count=12")["rows"]:
            page.driver.get(f"{it.address}#arc={arc['number']}")
            page.ready()
            assert judge_belonging(page, ".arc.chosen") == 1, arc
        as_before(driver)
