"""Everything on a map: where all places of a large network lie, and how each arc between them
looks."""

from __future__ import annotations

import shutil

from ...quantity import plain_text
from ...text.table_comments import AT_PLACE, DEMAND, SUPPLY
from ..demands import limited_amounts
from ..export import MOST_DRAWN
from ..pictures.dots import share
from ..pictures.layout import Places
from ..pictures.looks import Looks, Mark
from ..steps import DeskFault
from ..workspace import Desk
from .responses import Json

# The character for an arc that is not drawn: it belongs to a place, or was opened again as another.
NONE = " "
# A place before the limit, one that is shut, and any other.
BEFORE, SHUT, PLAIN = "b", "s", "."


class Overview:
    """The positions of all places of a desk and the arcs between them, if most positions are known
    when the board begins, or after all were laid out."""

    def __init__(self, desk: Desk, places: Places, looks: Looks) -> None:
        """Take as `places` those of the picture, with the spots of a map or of a project."""
        network = desk.network
        self._desk = desk
        self._looks = looks
        self._places = places
        # The places that no step changes.
        self._nodes = network.folding.places(range(1, network.names.given_count + 1))
        self.look()

    def look(self) -> None:
        """Check whether most positions are known. Otherwise most of a drawing would be invented."""
        known = sum(node in self._places.spots for node in self._nodes)
        self._is_known = 2 * known > len(self._nodes)

    @property
    def is_there(self) -> bool:
        """Return True if it shows more than a picture does, which Graphviz draws."""
        shows_more = len(self._desk.network.pictured()) > MOST_DRAWN
        return self._is_known and (shows_more or not shutil.which("neato"))

    def ground(self) -> Json:
        """Return what no step changes: each place with its name, how far it lies to the right and
        downwards, and the ends of each arc of the file. Raise a `DeskFault`."""
        if not self.is_there:
            raise DeskFault(
                "the positions of the places are not known, or the picture shows all of them"
            )
        self._put_all()
        spots, desk = [self._places.seen[node] for node in self._nodes], self._desk
        ends = [*map(self._ends, range(1, desk.network.first_count + 1))]
        return {
            "nodes": self._nodes,
            "names": [*map(desk.network.names.node, self._nodes)],
            "right": [round(spot.x, 2) for spot in spots],
            "down": [round(-spot.y, 2) for spot in spots],
            "tails": [tail for tail, _ in ends],
            "heads": [head for _, head in ends],
            "sources": desk.network.sources,
            "sinks": desk.network.sinks,
        }

    def looks(self) -> Json:
        """Return what a step may change: how each arc of the file looks and each place, by a sign
        for each; the places that were made, with their nodes, names, positions and signs; the arcs
        that were added, with their numbers, ends and signs; and what the places with limited
        amounts give or take. An arc has a sign in each of five texts, one for each field of a
        `Mark`."""
        self._put_all()
        desk, spots = self._desk, self._places.seen
        network = desk.network
        side, shown = desk.side(), network.pictured()
        marks = dict(zip(shown, self._looks.marks(shown)))
        shut = {network.folding.place(node) for node in network.shut_nodes}

        def look(node: int) -> str:
            return SHUT if node in shut else BEFORE if node in side else PLAIN

        added = range(network.first_count + 1, len(network.lines) + 1)
        none = NONE * len(Mark._fields)
        given = [marks.get(number, none) for number in range(1, network.first_count + 1)]
        return {
            **{
                name: "".join(mark[place] for mark in given)
                for place, name in enumerate(("arcs", "uses", "changes", "widths", "ways"))
            },
            "places": "".join(map(look, self._nodes)),
            "made": [
                [node, name, round(spots[node].x, 2), round(-spots[node].y, 2), look(node)]
                for node, name in network.names.made.items()
            ],
            "added": [
                [number, *self._ends(number), "".join(marks[number])]
                for number in added
                if number in marks
            ],
            "ends": [*self._amounts(SUPPLY), *self._amounts(DEMAND)],
        }

    def _amounts(self, kind: str) -> list[tuple[int, str, float]]:
        """Return what each source or each sink with a limit gives or takes, and which part of what
        it takes at most arrives."""
        return [
            (
                node,
                f"{AT_PLACE[kind]} {plain_text(it.flow)}/{plain_text(it.limit)}",
                share(it.flow, it.limit) if kind == DEMAND else 1.0,
            )
            for node, it in limited_amounts(self._desk, kind).items()
        ]

    def _ends(self, number: int) -> tuple[int, int]:
        network = self._desk.network
        line, place = network.lines[number - 1], network.folding.place
        return place(line.tail), place(line.head)

    def _put_all(self) -> None:
        """Put each place that has no position among its neighbours, or, if they have none, in the
        middle of all."""
        made = self._desk.network.names.made
        self._places.call(made)
        ways = map(self._ends, self._desk.network.pictured())
        self._places.put_among([*self._nodes, *made], ways)
