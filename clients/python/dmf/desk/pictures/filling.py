"""The filling of a picture that is laid out: the numbers of its arcs and places, what each is, and
the bottleneck."""

from __future__ import annotations

from xml.etree import ElementTree

from ...text.table_comments import AT_PLACE, DEMAND
from ..pipes import TwoWayPipe
from ..workspace import Desk
from .arc_numbers import short_amounts, spoken
from .arrows import SVG, turn_arrow
from .dots import Ends
from .shapes import Shape
from .svg import marked


def fill(root: ElementTree.Element, shape: Shape, desk: Desk) -> None:
    """Fill numbers and classes into a layout."""
    network = desk.network
    cut = desk.cut_arcs() if desk.is_greatest else {}
    side = desk.side() if desk.is_greatest else set()
    groups = {group.get("id"): group for group in root.iter(f"{{{SVG}}}g")}
    for group in groups.values():
        for title in group.findall(f"{{{SVG}}}title"):
            group.remove(title)
    for number, tail, head, *_ in shape.arcs:
        group = groups[f"arc-{number}"]
        pipe, flow = network.pipe(number), desk.flow(number)
        looks = {
            "closed": pipe.is_closed,
            "cut": number in cut,
            "full": pipe.is_full(flow),
            "unused": not flow and not pipe.is_closed,
        }
        if isinstance(pipe, TwoWayPipe):
            turn_arrow(group, flow)
        # The page moves the line along with a place that is dragged.
        group.set("data-ends", f"{tail} {head}")
        group.findall(f"{{{SVG}}}text")[-1].text = short_amounts(desk, number)
        _mark(
            group,
            "arc",
            looks,
            f"{network.names.arc(number)}: {spoken(desk, number, cut)}",
        )
    ends = Ends(desk)
    for it in shape.nodes:
        group = groups[f"node-{it.node}"]
        for ellipse in group.findall(f"{{{SVG}}}ellipse")[:1]:
            ellipse.set("class", "inner")
        label = it.label + f", {network.words.page.is_shut}" * it.is_shut
        group.attrib.update(ends.looks(it.node, it.roles))
        # The first text is the name.
        for text, (number, words, _) in zip(group.findall(f"{{{SVG}}}text")[1:], it.roles):
            text.text = f"{words} {short_amounts(desk, number)}"
            is_demand = words == AT_PLACE[DEMAND]
            is_short = is_demand and _is_short(desk, number)
            # A place that gets all that it asks for lacks nothing, also in the bottleneck.
            is_limit = number in cut and not is_demand
            text.set("class", "short" if is_short else "cut" if is_limit else "")
            label += f", {words} {spoken(desk, number, cut)}"
        is_cut = any(number in cut for number, *_ in it.roles)
        _mark(
            group,
            "node",
            {
                "side": it.node in side,
                "shut": it.is_shut,
                "part": not it.is_whole,
                "cut": is_cut,
            },
            label,
        )


def _is_short(desk: Desk, number: int) -> bool:
    """Return True if less flows on an arc than it can carry."""
    line = desk.network.lines[number - 1]
    return not line.is_unlimited and desk.flow(number) < line.capacity


def _mark(group: ElementTree.Element, kind: str, looks: dict[str, bool], label: str) -> None:
    marked(group, [kind, *(name for name, is_so in looks.items() if is_so)], label)
