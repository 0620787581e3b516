"""Which arcs of a large network its picture has."""

from __future__ import annotations

from collections import defaultdict
from collections.abc import Iterable

from ...text.drawing import spread
from ..export import MOST_DRAWN
from ..workspace import Desk


class Nearby:
    """The arcs at the places of a desk."""

    def __init__(self, desk: Desk) -> None:
        self._desk = desk
        self._given: dict[int, list[int]] = {}

    def arcs(self, nodes: tuple[int, ...], most: int = MOST_DRAWN) -> list[int]:
        """Return the numbers of the arcs nearest to these nodes, or to the limit if no nodes are
        given; all arcs if there are no more than `most`."""
        pictured = self._desk.network.pictured()
        return pictured if len(pictured) <= most else self._nearest(nodes, most)

    def _nearest(self, nodes: tuple[int, ...], most: int) -> list[int]:
        desk = self._desk
        network = desk.network
        given, added = self._given_arcs(), self._at_nodes(
            range(network.first_count + 1, len(network.lines) + 1)
        )

        def at_node(node: int) -> Iterable[int]:
            there = (*given.get(node, ()), *added.get(node, ()))
            opened = (number for number in there if not network.lines[number - 1].is_replaced)
            return network.pipes.numbers(opened)

        cut = [] if nodes or not desk.is_greatest else list(desk.cut_arcs())
        chosen = [number for number in cut if not network.role(number)]
        # A limit that is at a place is nearest to the arcs there, and one without arcs to those at
        # the ends of the network.
        at_places = {role.node for role in map(network.role, cut) if role}
        if at_places or not chosen:
            terminals = {*map(network.folding.place, nodes)} or {
                *network.sources,
                *network.sinks,
            }
            beside = {number for node in at_places or terminals for number in at_node(node)}
            chosen += sorted(beside.difference(chosen))
        return spread(chosen, most, self._ends, at_node)

    def _ends(self, number: int) -> tuple[int, int]:
        network = self._desk.network
        line, place = network.lines[number - 1], network.folding.place
        return place(line.tail), place(line.head)

    def _given_arcs(self) -> dict[int, list[int]]:
        """Return the arcs of the file at each place. Their ends stay as they are."""
        self._given = self._given or self._at_nodes(range(1, self._desk.network.first_count + 1))
        return self._given

    def _at_nodes(self, numbers: Iterable[int]) -> dict[int, list[int]]:
        found: dict[int, list[int]] = defaultdict(list)
        for number in numbers:
            if not self._desk.network.role(number):
                # A loop is at its place once.
                for node in {*self._ends(number)}:
                    found[node].append(number)
        return dict(found)
