"""Places that are drawn as dots with their names beside them, in a picture of many places and on a
map: squares where flow comes from, and pies of what arrives where it goes to."""

from __future__ import annotations

import math
from pathlib import Path
from random import Random
from typing import Any
from xml.etree import ElementTree

import pytest
from board_pages import Page
from board_running import Board, board
from board_views import SCALE, SVG, grid_table
from desk_shared import PIPES
from test_board_access import as_before, show
from test_board_ground import PIXELS, city

pytestmark = pytest.mark.seconds(20)
# What each place of the town takes at most. Each pipe to one carries 20, so that much arrives.
ASKED = {"Harbour": 20, "Hospital": 60, "Mill": 30, "Airport": 21, "Old Town": 25}
WIDTHS = 1280, 768, 400
# The shape of each source and sink: its box, and whether a point of its pie is filled, in each of
# twelve directions, clockwise from the top.
SHAPES = """
return Object.fromEntries([...document.querySelectorAll("#picture .node[data-end]")].map((it) => {
  const box = it.querySelector(it.dataset.end === "source" ? ".rim" : "ellipse.inner")
    .getBoundingClientRect();
  const share = it.querySelector(".share"), isFilled = (turn) => {
    const angle = (turn + .5) / 6 * Math.PI, to = [4 * Math.sin(angle), -4 * Math.cos(angle)];
    return share.isPointInFill(new DOMPoint(...to));
  };
  const label = it.querySelector("text").textContent;
  return [label, [[box.left, box.top, box.right, box.bottom], it.dataset.end,
    [...Array(12).keys()].filter(isFilled)]];
}));
"""
# Goes on once a change of the view is drawn.
DRAWN = "requestAnimationFrame(() => requestAnimationFrame(arguments[0]))"
# How many places in the middle of the window are named, and how many are seen there.
NAMED = """
const seen = [...document.querySelectorAll("#picture .node")].filter((it) => {
  const { left, right, top, bottom } = it.querySelector("ellipse").getBoundingClientRect();
  return left > 80 && right < 740 && top > 150 && bottom < 600;
});
return [seen.filter((it) => it.querySelector("text").checkVisibility()).length, seen.length];
"""
# Names that are not shown of sources and sinks; and the names that a line to another name crosses.
UNNAMED = """
return [...document.querySelectorAll("#picture .node[data-end].unlabelled")].map((it) => it.id);
"""
CROSSED = """
const crossed = [];
for (const leader of document.querySelectorAll("#picture .leader")) {
  const own = leader.parentElement, { a, d, e, f } = leader.getScreenCTM();
  const long = leader.getTotalLength(), names = [...document.querySelectorAll("#picture text")];
  for (const it of names.filter((it) => it.checkVisibility() && !own.contains(it))) {
    const box = it.getBoundingClientRect();
    for (let at = 0; at <= 100; at += 1) {
      const { x, y } = leader.getPointAtLength(at / 100 * long);
      const [left, top] = [x * a + e, y * d + f];
      if (left > box.left && left < box.right && top > box.top && top < box.bottom) {
        crossed.push(`${own.id} ${it.textContent}`);
        break;
      }
    }
  }
}
return [document.querySelectorAll("#picture .leader").length, crossed];
"""


def town(folder: Path) -> list[str]:
    """The words of a board for a town on a map, in which a source sends to each place."""
    rows = "".join(f"Lake,{place},20,\n" for place in ASKED)
    lake = "".join(f"Lake,Road {at},1,\nRoad {at},Mill,1,\n" for at in range(12))
    spots = {"Lake": (0.0, 0.0)}
    for at, place in enumerate(ASKED):
        spots[place] = 1.0 + at, (-1) ** at * 0.5
    for at in range(12):
        spots[f"Road {at}"] = (0.4 + 0.05 * at, 0.3 - 0.05 * at)
    (folder / "town.csv").write_text(f"from,to,l/s,pipe\n{rows}{lake}")
    asked = "".join(f"{place},{most}\n" for place, most in ASKED.items())
    (folder / "asked.csv").write_text(f"place,demand\n{asked}")
    told = "".join(f"{place},{x},{y}\n" for place, (x, y) in spots.items())
    (folder / "map.csv").write_text(f"place,x,y\n{told}")
    ends = ["--source", "Lake", "--sinks", str(folder / "asked.csv")]
    return ["--map", str(folder / "map.csv"), *ends, str(folder / "town.csv")]


def drawn(it: Board, path: str = "picture?near=") -> ElementTree.Element:
    return ElementTree.fromstring(it.told(path)["svg"])


def nodes(root: ElementTree.Element) -> list[ElementTree.Element]:
    groups = root.iter(f"{SVG}g")
    return [group for group in groups if (group.get("id") or "").startswith("node-")]


def test_lines_lead_to_the_middles(tmp_path: Path) -> None:
    """In a picture of many places, and on a map, lines lead to the middles of places, which are in
    front of them. In one of few places they lead to ovals with the names in them, and so they do in
    a file."""
    (tmp_path / "grid").mkdir()
    for words in [grid_table(tmp_path / "grid", 7)], town(tmp_path):
        with board(*words) as it:
            root = drawn(it)
            middles = {}
            for group in nodes(root):
                assert group.get("data-dot") == ""
                oval = group.find(f"{SVG}ellipse")
                assert oval is not None
                middles[(group.get("id") or "")[5:]] = [
                    float(oval.get(at) or 0) for at in ("cx", "cy")
                ]
            order = [(group.get("id") or "")[:4] for group in root.iter(f"{SVG}g")]
            assert order.index("node") > len(order) - 1 - order[::-1].index("arc-")
            count = 0
            for group in root.iter(f"{SVG}g"):
                if not group.get("data-ends"):
                    continue
                path = group.find(f"{SVG}path")
                assert path is not None
                points = (path.get("d") or "").replace("M", "").replace("C", " ").split()
                for node, point in zip(
                    (group.get("data-ends") or "").split(), (points[0], points[-1])
                ):
                    assert [*map(float, point.split(","))] == pytest.approx(middles[node], abs=2.5)
                    count += 1
            assert count > 20
            file = ElementTree.fromstring(
                it.ask(it.root + f"picture.svg?near=&turn={it.turn()}")[2]
            )
            assert all(group.get("data-dot") is None for group in nodes(file)) and nodes(file)
    with board(PIPES) as it:
        assert all(group.get("data-dot") is None for group in nodes(drawn(it)))


@pytest.mark.parametrize("width", WIDTHS)
def test_pies(driver: Any, tmp_path: Path, width: int) -> None:
    """A pie has the part of what a place takes that arrives, and a source is a square; they keep
    their size, and no name of theirs is missing, nor crossed by the line to another name."""
    with board(*town(tmp_path)) as it:
        show(driver, width, "light")
        page = Page(driver, it.address)
        page.wait(lambda: driver.execute_script(SHAPES))
        for _ in range(2):
            shapes = driver.execute_script(SHAPES)
            assert {*shapes} == {"Lake", *ASKED}
            for name, ((left, top, right, bottom), kind, filled) in shapes.items():
                assert (right - left, bottom - top) == pytest.approx(
                    (16, 16) if name == "Lake" else (18, 18), abs=2.5
                )
                assert kind == ("source" if name == "Lake" else "sink")
                if name != "Lake":
                    arrives = (32 if name == "Mill" else 20) / ASKED[name]
                    turns = range(math.ceil(12 * min(1, arrives) - 0.5))
                    assert filled == [*turns], (name, arrives)
            page.press("Larger")
            driver.execute_async_script(DRAWN)
        page.press("All")
        page.settle()
        assert driver.execute_script(UNNAMED) == []
        assert driver.execute_script(CROSSED)[1] == []
        as_before(driver)


@pytest.mark.parametrize("seed", [2, 10, 13])
def test_thin_lines(driver: Any, tmp_path: Path, seed: int) -> None:
    """Where the places of a map are close, names are further out, and a thin line leads to each,
    which crosses no other name if there is room."""
    words, chance = town(tmp_path), Random(seed)
    told = (tmp_path / "map.csv").read_text().splitlines()
    for place in ASKED:
        at = next(at for at, line in enumerate(told) if line.startswith(f"{place},"))
        told[at] = f"{place},{1 + chance.uniform(0, 0.5):.3f},{chance.uniform(-0.3, 0.3):.3f}"
    (tmp_path / "map.csv").write_text("\n".join(told) + "\n")
    with board(*words) as it:
        for width in 768, 400:
            show(driver, width, "light")
            page = Page(driver, it.address)
            page.wait(lambda: driver.execute_script(SHAPES))
            assert driver.execute_script(UNNAMED) == []
            count, crossed = driver.execute_script(CROSSED)
            assert count >= 2 and crossed == []
            as_before(driver)


def test_names_beside_thick_lines(driver: Any, tmp_path: Path) -> None:
    """Where lines are long enough, most places that are drawn in front on a map are named, though
    four thick lines lead to each."""
    with board(*city(tmp_path, 18)) as it:
        show(driver, 1280, "light")
        page = Page(driver, it.address)
        while driver.execute_script(SCALE) < 0.7:
            page.press("Larger")
            driver.execute_async_script(DRAWN)
        page.wait(lambda: driver.execute_script(NAMED)[1] > 20)
        named, seen = driver.execute_script(NAMED)
        assert named > 0.7 * seen
        as_before(driver)


def test_from_far_away(driver: Any, tmp_path: Path) -> None:
    """A map that is seen whole has the same shapes: the sink, to which all flows, is a whole disc,
    and the source a square with a bar below its middle, in the colour of what is before the
    bottleneck."""
    with board(*city(tmp_path, 18)) as it:
        show(driver, 1280, "light")
        page = Page(driver, it.address)
        page.settle()
        ground = it.told("ground")
        lake, sea = (ground["nodes"][ground["names"].index(name)] for name in ("Lake", "Sea"))
        assert driver.execute_script(SCALE) < 0.3
        disc = driver.execute_script(PIXELS, [sea], ground)
        assert disc == [[27, 27, 27]] * 25
        square = driver.execute_script(PIXELS, [lake], ground)
        assert square[:5] == [[211, 228, 245]] * 5 and square[-5:] == [[27, 27, 27]] * 5
