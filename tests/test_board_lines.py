"""The lines of a board's picture: those of arcs with the same ends lie side by side, each with an
arrow to where it leads, and what of the bottleneck is beyond the edge is told there. Where a line
and an arrow lie is found by a second computation."""

from __future__ import annotations

import itertools
import math
import re
from pathlib import Path
from typing import Any
from xml.etree import ElementTree

import pytest
from board_pages import Page
from board_running import Board, board

pytestmark = pytest.mark.seconds(20)
SVG = "{http://www.w3.org/2000/svg}"
Point = tuple[float, float]


def parallel(folder: Path, places: int) -> str:
    """A row of places with two arcs forth and one back between each two neighbours."""
    rows = [
        f"{one},{other},{4 + at % 5}\n"
        for at in range(places - 1)
        for one, other in ((at, at + 1), (at, at + 1), (at + 1, at))
    ]
    table = folder / f"parallel{places}.csv"
    table.write_text("from,to,litres\n" + "".join(f"P{row.replace(',', ',P', 1)}" for row in rows))
    return str(table)


def points(text: str) -> list[Point]:
    numbers = [float(it) for it in re.findall("-?[0-9.]+", text)]
    return list(zip(numbers[::2], numbers[1::2]))


def on_curve(curve: list[Point]) -> list[Point]:
    """Points of a path of Bézier curves, close to each other."""
    found = []
    for at in range(0, len(curve) - 1, 3):
        for step in range(101):
            part = step / 100
            weights = [math.comb(3, k) * part**k * (1 - part) ** (3 - k) for k in range(4)]
            x, y = (
                sum(weight * point[axis] for weight, point in zip(weights, curve[at : at + 4]))
                for axis in (0, 1)
            )
            found.append((x, y))
    return found


def drawn(it: Board) -> tuple[dict[int, tuple[list[Point], list[Point]]], dict[int, Point]]:
    """Of each arc the points of its line and the corners of its arrow, and the middle of each
    place."""
    root = ElementTree.fromstring(it.told("picture?near=")["svg"])
    arcs, spots = {}, {}
    for group in root.iter(f"{SVG}g"):
        kind, _, number = (group.get("id") or "").partition("-")
        if kind == "arc":
            [path], [arrow] = group.findall(f"{SVG}path"), group.findall(f"{SVG}polygon")
            corners = points(arrow.get("points") or "")
            arcs[int(number)] = on_curve(points(path.get("d") or "")), corners
        if kind == "node":
            ellipse = group.find(f"{SVG}ellipse")
            assert ellipse is not None
            spots[int(number)] = float(ellipse.get("cx") or 0), float(ellipse.get("cy") or 0)
    return arcs, spots


@pytest.mark.parametrize("places", [5, 30])
def test_side_by_side(tmp_path: Path, places: int) -> None:
    """Each arrow lies on its line and points to the head; lines with the same ends are apart in the
    middle, also one that was added later."""
    with board("--source", "P0", "--sink", f"P{places - 1}", parallel(tmp_path, places)) as it:
        judge_lines(it)
        assert "error" not in it.do(what="double", arc=4)
        assert "error" not in it.do(what="double", arc=6)
        judge_lines(it)


def judge_lines(it: Board) -> None:
    rows: list[Any] = it.told("rows?filter=&sort=&first=0&count=500")["rows"]
    arcs, spots = drawn(it)
    nodes = {name: it.told(f"find?text={name}")["found"][0]["node"] for name in names_of(rows)}
    middles = {}
    for row in rows:
        line, corners = arcs[row["number"]]
        tip, *base = corners
        middle = sum(x for x, _ in corners) / 3, sum(y for _, y in corners) / 3
        middles[row["number"]] = middle
        assert min(math.dist(middle, point) for point in line) < 3, row
        tail, head = spots[nodes[row["tail"]]], spots[nodes[row["head"]]]
        ahead = [tip[axis] - (base[0][axis] + base[1][axis]) / 2 for axis in (0, 1)]
        assert sum(ahead[axis] * (head[axis] - tail[axis]) for axis in (0, 1)) > 0, row
    for one, other in itertools.combinations(rows, 2):
        if {one["tail"], one["head"]} == {other["tail"], other["head"]}:
            apart = math.dist(middles[one["number"]], middles[other["number"]])
            assert apart > 4, (one, other, apart)


def names_of(rows: list[Any]) -> set[str]:
    return {str(row[end]) for row in rows for end in ("tail", "head")}


def test_beyond_the_edge(driver: Any, tmp_path: Path) -> None:
    """Where nothing of the bottleneck is seen, a button at the edge says how much lies there, and
    shows it."""
    table = tmp_path / "row.csv"
    rows = "".join(f"P{at},P{at + 1},{2 if at == 28 else 9}\n" for at in range(30))
    table.write_text("from,to,litres\n" + rows)
    with board("--source", "P0", "--sink", "P30", str(table)) as it:
        page = Page(driver, it.address)
        page.press("All")
        page.wait(lambda: not hints(driver))
        node = it.told("find?text=P2")["found"][0]["node"]
        page.choose(f"node-{node}", "P2")
        page.press("What is chosen")
        page.wait(lambda: hints(driver))
        [shown] = hints(driver)
        assert shown.text.strip("←→↑↓ ") == "1 of the bottleneck"
        shown.click()
        page.wait(lambda: not hints(driver))


def hints(driver: Any) -> list[Any]:
    """The buttons at the edge that are seen."""
    found = driver.find_elements("xpath", "//button[contains(., 'of the bottleneck')]")
    return [it for it in found if it.is_displayed()]
