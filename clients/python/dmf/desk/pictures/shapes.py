"""The shape of a picture, on which its layout depends: the arcs and the places that it shows."""

from __future__ import annotations

from collections import Counter
from dataclasses import dataclass
from typing import NamedTuple

from ...text.table_comments import AT_PLACE
from ..steps import DeskArc
from ..workspace import Desk
from .arc_numbers import widest_amounts
from .layout import Way


class DrawnArc(NamedTuple):
    """The properties of an arc on which a layout depends; `widest` is the widest text that its
    numbers may have."""

    number: int
    tail: int
    head: int
    name: str
    widest: str


class DrawnNode(NamedTuple):
    """The properties of a place on which a layout depends. Its roles are the arcs that stand for
    what it gives, takes or lets through, each with its words there and the widest text of its
    numbers."""

    node: int
    label: str
    roles: tuple[tuple[int, str, str], ...]
    is_whole: bool
    is_shut: bool


@dataclass(frozen=True)
class Shape:
    """All on which a layout depends: the arcs, and the places."""

    arcs: tuple[DrawnArc, ...]
    nodes: tuple[DrawnNode, ...]

    def ways(self) -> dict[int, Way]:
        """Return the way of each arc, by the arc's number."""
        ranks: Counter[tuple[int, int]] = Counter()
        found: dict[int, Way] = {}
        for arc in self.arcs:
            ranks[arc.tail, arc.head] += 1
            found[arc.number] = arc.tail, arc.head, ranks[arc.tail, arc.head]
        return found


class PictureShapes:
    """The shapes of the pictures of a desk."""

    def __init__(self, desk: Desk) -> None:
        self._desk = desk
        self._given: Counter[int] | None = None

    def of(self, arcs: list[int], chosen: tuple[int, ...]) -> Shape:
        """Return the shape of a picture of these arcs, and of these nodes even if they have no
        arc."""
        desk, network = self._desk, self._desk.network
        names, place = network.names, network.folding.place

        def ends(number: int) -> tuple[int, int]:
            return self.ends(network.lines[number - 1])

        drawn = Counter(node for number in arcs for node in ends(number))
        drawn.update(dict.fromkeys(map(place, chosen), 0))
        is_whole = len(arcs) == len(network.pictured())
        if is_whole:
            drawn.update(dict.fromkeys((*network.sources, *network.sinks), 0))
        degrees = drawn if is_whole else self._degrees()
        roles = network.roles()

        def told(node: int) -> tuple[tuple[int, str, str], ...]:
            at_node = () if node in network.shut_nodes else roles.get(node, ())
            return tuple(
                (number, AT_PLACE[kind], widest_amounts(desk, number)) for number, kind in at_node
            )

        return Shape(
            tuple(
                DrawnArc(
                    number, *ends(number), names.arc_name(number), widest_amounts(desk, number)
                )
                for number in arcs
            ),
            tuple(
                DrawnNode(
                    node,
                    names.node(node),
                    told(node),
                    drawn[node] == degrees[node],
                    node in network.shut_nodes,
                )
                for node in sorted(drawn)
            ),
        )

    def ends(self, line: DeskArc) -> tuple[int, int]:
        """Return the places at the ends of an arc."""
        network = self._desk.network
        return network.folding.place(line.tail), network.folding.place(line.head)

    def _degrees(self) -> Counter[int]:
        """Return how many arcs each place has, open or closed, among those that a picture can show.
        The arcs of the file are counted by the first call only."""
        desk = self._desk
        network = desk.network
        given = network.first_count
        if self._given is None:
            numbers = (
                number
                for number in range(1, given + 1)
                if not network.folding.has_roles or not network.role(number)
            )
            self._given = Counter(
                node for number in numbers for node in self.ends(network.lines[number - 1])
            )
        if network.pipes.are_two_way:
            return Counter(
                node
                for number in network.pictured()
                for node in self.ends(network.lines[number - 1])
            )
        degrees = self._given.copy()
        degrees.update(node for line in network.lines[given:] for node in self.ends(line))
        degrees.subtract(
            node for line in network.lines if line.is_replaced for node in self.ends(line)
        )
        return degrees
