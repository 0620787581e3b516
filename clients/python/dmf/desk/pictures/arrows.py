"""Small arrows in the middle of the lines of a picture, instead of the heads that Graphviz puts at
their ends, where thick lines and places that lie close would hide them."""

from __future__ import annotations

import math
import re
from xml.etree import ElementTree

from ...quantity import Quantity

SVG = "http://www.w3.org/2000/svg"
# The length of an arrow, and half its width, in the units of the picture.
LONG, HALF = 9.0, 4.0
_NUMBER = re.compile("-?[0-9.]+(?:e-?[0-9]+)?")
Point = tuple[float, float]


def add_arrows(root: ElementTree.Element) -> None:
    """Move the arrow of each arc to the middle of its line, behind the line and before its texts,
    and let the line lead to where its head was."""
    for group in root.iter(f"{{{SVG}}}g"):
        path, head = group.find(f"{{{SVG}}}path"), group.find(f"{{{SVG}}}polygon")
        if path is None or head is None or not (group.get("id") or "").startswith("arc-"):
            continue
        group.remove(head)
        curve = _points(path.get("d") or "")
        corners = _points(head.get("points") or "")
        if min(math.dist(curve[0], it) for it in corners) < min(
            math.dist(curve[-1], it) for it in corners
        ):
            curve.reverse()
        tip = max(corners, key=lambda corner: math.dist(corner, curve[-1]))
        path.set("d", _written([*curve, curve[-1], tip, tip]))
        group.insert([*group].index(path) + 1, _arrow(*_middle(curve)))


def turn_arrow(group: ElementTree.Element, flow: Quantity) -> None:
    """Turn the arrow of a pipe that leads both ways to where this net flow goes: back if it
    is below 0, and nowhere if nothing flows."""
    head = group.find(f"{{{SVG}}}polygon")
    if head is None or flow > 0:
        return
    if not flow:
        head.set("visibility", "hidden")
        return
    (x, y), *others = _points(head.get("points") or "")
    right, down = (sum(it[axis] for it in others) / len(others) for axis in (0, 1))
    turned = ((right + x - one, down + y - other) for one, other in ((x, y), *others))
    head.set("points", " ".join(f"{one:.2f},{other:.2f}" for one, other in turned))


def _written(curve: list[Point]) -> str:
    begin, *others = (f"{x:.2f},{y:.2f}" for x, y in curve)
    return f"M{begin}C{' '.join(others)}"


def _points(text: str) -> list[Point]:
    """Return the points of a path of Bézier curves, each of which goes on where the last ended."""
    numbers = [float(it) for it in _NUMBER.findall(text)]
    return list(zip(numbers[::2], numbers[1::2]))


def _middle(curve: list[Point]) -> tuple[Point, Point]:
    """Return the point in the middle of a curve, and the direction there."""
    at = 3 * ((len(curve) - 1) // 3 // 2)
    is_even = (len(curve) - 1) // 3 % 2 == 0
    if is_even and at:
        # The middle is where two of its pieces meet.
        return curve[at], _direction(curve[at - 1], curve[at + 1], curve)
    (x0, y0), (x1, y1), (x2, y2), (x3, y3) = curve[at : at + 4]
    middle = (x0 + 3 * x1 + 3 * x2 + x3) / 8, (y0 + 3 * y1 + 3 * y2 + y3) / 8
    return middle, _direction((x0 + x1, y0 + y1), (x2 + x3, y2 + y3), curve)


def _direction(begin: Point, end: Point, curve: list[Point]) -> Point:
    """Return the direction from one point to another, of length 1: that of the whole curve if they
    are one point."""
    if math.dist(begin, end) < 1e-6:
        begin, end = curve[0], curve[-1]
    long = math.dist(begin, end) or 1.0
    return (end[0] - begin[0]) / long, (end[1] - begin[1]) / long


def _arrow(middle: Point, direction: Point) -> ElementTree.Element:
    (x, y), (right, down) = middle, direction
    corners = [
        (x + along * right - aside * down, y + along * down + aside * right)
        for along, aside in ((LONG / 2, 0.0), (-LONG / 2, HALF), (-LONG / 2, -HALF))
    ]
    points = " ".join(f"{right:.2f},{down:.2f}" for right, down in corners)
    return ElementTree.Element(f"{{{SVG}}}polygon", points=points, fill="black", stroke="black")
