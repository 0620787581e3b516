"""Places that are drawn as dots, with their names beside them: in a picture of many places, and on
a map, where they may be close to each other."""

from __future__ import annotations

from collections.abc import Iterable
from xml.etree import ElementTree

from ...quantity import Quantity
from ...text.table_comments import AT_PLACE, DEMAND
from ..workspace import Desk
from .arrows import SVG

# What Graphviz is told of such places: lines lead to their middles, behind them.
SETTINGS = """  outputorder=edgesfirst
  node [shape=circle, fixedsize=true, width=0.03, height=0.03]
  edge [headclip=false, tailclip=false]"""
# The largest part that is told of what is not whole.
ALMOST = 0.999
# The role of an arc at a place, with the words for it.
Role = tuple[int, str, str]


def mark_dots(root: ElementTree.Element) -> None:
    """Let the page know that the places of a layout are dots."""
    for group in root.iter(f"{{{SVG}}}g"):
        if (group.get("id") or "").startswith("node-"):
            group.set("data-dot", "")


def share(flow: Quantity, limit: Quantity) -> float:
    """Return which part of a limited amount flows, which is 1 only if that is all of it."""
    return 1.0 if flow == limit else min(ALMOST, round(float(flow) / float(limit), 3))


class Ends:
    """Where flow comes from and goes to."""

    def __init__(self, desk: Desk) -> None:
        self._desk = desk
        self._sources, self._sinks = {*desk.network.sources}, {*desk.network.sinks}

    def looks(self, node: int, roles: Iterable[Role]) -> dict[str, str]:
        """Return what a dot shows of a place: whether flow comes from there or goes there, and
        which part of what it takes at most arrives, if that is limited."""
        if node in self._sources:
            return {"data-end": "source"}
        if node not in self._sinks:
            return {}
        shares = [self._share(number) for number, words, _ in roles if words == AT_PLACE[DEMAND]]
        return {"data-end": "sink", "data-share": f"{min(shares, default=1.0)}"}

    def _share(self, number: int) -> float:
        line = self._desk.network.lines[number - 1]
        return 1.0 if line.is_unlimited else share(self._desk.flow(number), line.capacity)
