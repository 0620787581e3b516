"""Places as ovals with their names in them, as the page draws them in a small picture, and lines
that lead around these."""

from __future__ import annotations

import itertools
from collections.abc import Iterator, Mapping

from ...text.drawing import drawn_line
from ..pictures.layout import MOST_LAYERED, NoPicture, laid_out
from ..pictures.picture import MOST_ROUTED
from .report_ground import Ground, GroundLine, Point
from .report_labels import LINE, MOST_LABELS, SIZE, Box, Text

# How much larger an oval is than what is written in it.
WIDER, HIGHER, MARGIN = 1.22, 1.4, 3.0
# The points that are known of each curve.
STEPS = 16
INCH = 72.0


def ovals_of(ground: Ground) -> dict[int, Box]:
    """Return the ovals of places by their nodes; none on a map, if they overlap, or if their names
    would leave no room for other labels."""
    told = sum(line.is_changed or line.mark.state == "l" for line in ground.lines)
    if (
        ground.is_map
        or len(ground.places) > MOST_LAYERED
        or len(ground.places) + told > MOST_LABELS
    ):
        return {}
    found = {}
    for place in ground.places:
        texts = [Text(place.name, "", place.is_end), *(Text(it.text, "") for it in place.roles)]
        texts += [Text("shut", "")] * place.is_shut
        right = max(text.wide for text in texts) / 2 * WIDER + MARGIN
        found[place.node] = Box(*place.at, right, len(texts) * SIZE * LINE / 2 * HIGHER + 1)
    if any(one.meets(other) for one, other in itertools.combinations(found.values(), 2)):
        return {}
    return found


def routes_of(ground: Ground, ovals: Mapping[int, Box]) -> dict[int, tuple[Point, ...]]:
    """Return lines that end at ovals and lead around others, by the numbers of their arcs, if
    Graphviz finds them; or else nothing."""
    if not ovals or len(ovals) > MOST_ROUTED:
        return {}
    try:
        routes = laid_out("neato", "\n".join(_lines(ground, ovals)), "-n2")[0].routes
    except NoPicture:
        return {}
    found = {}
    for line in ground.lines:
        route = routes.get((*line.ends, line.number))
        if route:
            found[line.number] = tuple(_points(route.curve, line, ground.sheet.high))
    return found


def _lines(ground: Ground, ovals: Mapping[int, Box]) -> Iterator[str]:
    yield 'digraph dmf {\n  splines=true; esep="+6"; notranslate=true'
    yield '  node [fixedsize=true, label=""]'
    yield "  edge [arrowhead=none]"
    for node, box in ovals.items():
        looks = {
            "pos": f'"{box.x:.2f},{ground.sheet.high - box.y:.2f}"',
            "width": f"{2 * box.right / INCH:.3f}",
            "height": f"{2 * box.down / INCH:.3f}",
        }
        yield drawn_line(str(node), looks)
    for line in ground.lines:
        tail, head = line.ends
        yield drawn_line(f"{tail} -> {head}", {"class": f'"{tail} {head} {line.number}"'})
    yield "}"


def _points(curve: str, line: GroundLine, high: float) -> Iterator[Point]:
    """Yield points on a curve of Graphviz, from the arc's tail to its head."""
    given = [
        (float(x), high - float(y))
        for x, y in (it.split(",") for it in curve.split() if it[:1] not in "se")
    ]
    yield given[0]
    for at in range(0, len(given) - 3, 3):
        for step in range(1, STEPS + 1):
            part, rest = step / STEPS, 1 - step / STEPS
            weights = rest**3, 3 * part * rest**2, 3 * part**2 * rest, part**3
            x, y = (
                sum(by * point[axis] for by, point in zip(weights, given[at : at + 4]))
                for axis in (0, 1)
            )
            yield x, y
