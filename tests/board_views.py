"""What the page of a board shows of its picture: where parts are, how high letters are and what has
no label."""

from __future__ import annotations

import json
from pathlib import Path
from xml.etree import ElementTree

from board_pages import Page
from board_running import Board

SVG = "{http://www.w3.org/2000/svg}"
# How far a part of the picture is from each edge of the box that is seen, and how wide it is.
SEEN = """
const box = document.getElementById("picture").getBoundingClientRect();
const [node, place] = [document.querySelector(arguments[0]).getBoundingClientRect(), box];
const right = place.right - node.right, bottom = place.bottom - node.bottom;
return [node.left - place.left, node.top - place.top, right, bottom, node.width];
"""
# How high the letters of each label that is seen are on the screen.
HEIGHTS = """
const labels = [...document.querySelectorAll("#picture .node text, #picture .arc text")];
return labels.filter((text) => text.checkVisibility()).map((text) =>
  Number(getComputedStyle(text).fontSize.slice(0, -2)) * text.getScreenCTM().a);
"""
# The parts of the picture that have no label, although neither an edge of the window nor what lies
# over the picture cuts them, apart from lines shorter than a label, beside which it may lie nearer
# to another part.
BARE = """
const box = (it) => it.getBoundingClientRect();
const over = ["head", "foot", "panel", "fold"].map((id) => box(document.getElementById(id)));
return [...document.querySelectorAll("#picture .unlabelled")].filter((part) => {
  const { left, top, right, bottom } = box(part);
  const isShort = Math.max(right - left, bottom - top) < 80;
  const isIn = left > 0 && top > 0 && right < innerWidth && bottom < innerHeight;
  const isOut = left > innerWidth || top > innerHeight || right < 0 || bottom < 0;
  return !isShort && (isIn || isOut) && over.every((it) =>
    it.left > right || it.right < left || it.top > bottom || it.bottom < top);
}).map((part) => part.id);
"""
# How many pixels a unit of the picture has.
SCALE = "return document.querySelector('#picture svg').getScreenCTM().a"
# The source and the sink, if they have no label.
NAMELESS_ENDS = """
return [...document.querySelectorAll("#picture .node.unlabelled")].filter((part) =>
  part.querySelectorAll("ellipse:not(.halo)").length > 1).map((part) => part.id);
"""


def grid_table(folder: Path, side: int) -> str:
    """A square of places with an arc to the right and an arc down from each, and a lake and a sea
    at its ends."""
    rows = [
        f"Lake,P{row}_0,{row % 5 + 20},in {row}\nP{row}_{side - 1},Sea,{row % 3 + 20},out {row}\n"
        for row in range(side)
    ]
    for row in range(side):
        for column in range(side):
            least = (row * 7 + column * 3) % 11 + 1
            rows += [f"P{row}_{column},P{row}_{column + 1},{least},right {row} {column}\n"] * (
                column + 1 < side
            )
            rows += [f"P{row}_{column},P{row + 1}_{column},{least + 2},down {row} {column}\n"] * (
                row + 1 < side
            )
    table = folder / "grid.csv"
    table.write_text("from,to,litres,pipe\n" + "".join(rows))
    return str(table)


def spots(it: Board, near: str = "") -> dict[str, tuple[str, str]]:
    """Where the picture has the middle of each place."""
    root = ElementTree.fromstring(json.loads(it.ask(it.root + f"picture?near={near}")[2])["svg"])
    nodes = (group for group in root.iter(f"{SVG}g") if (group.get("id") or "").startswith("node-"))
    found = {}
    for group in nodes:
        ellipse = next(group.iter(f"{SVG}ellipse"))
        found[group.get("id") or ""] = ellipse.get("cx") or "", ellipse.get("cy") or ""
    return found


def seen(page: Page, what: str) -> list[float]:
    return list(page.driver.execute_script(SEEN, what))


def is_in(page: Page, what: str) -> bool:
    """Whether a part of the picture is seen whole."""
    return min(seen(page, what)[:4]) >= -1
