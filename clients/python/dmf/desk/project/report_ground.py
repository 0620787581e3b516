"""What the picture of a report shows, and where on the paper: the places and the lines of the
page's picture, where they lie there. Lengths are in points."""

from __future__ import annotations

import copy
import math
from collections import Counter
from collections.abc import Iterable, Iterator, Sequence
from dataclasses import dataclass
from typing import NamedTuple

from ...text.table_comments import AT_PLACE, DEMAND
from ..demands import limited_amounts
from ..export import MOST_DRAWN
from ..pictures.arc_numbers import short_amounts
from ..pictures.dots import share
from ..pictures.inks import thicker, thickness
from ..pictures.layout import Places, Spot
from ..pictures.looks import Beginning, Looks, Mark
from ..pictures.map_spots import map_of_file, spots_on
from ..pictures.named_spots import moved_spots, take_named
from ..pictures.nearby import Nearby
from ..pictures.picture import Picture
from ..workspace import Desk
from .records import DRAWN
from .scenarios import Scenarios

# The most arcs that are laid out together, as on a board, and the most that are drawn on a map.
MOST_LAID_OUT, MOST_PAINTED = 3_000, 100_000
# The points of a pixel of the page, and the room for labels around all places, sideways and up.
PIXEL, RIM = 0.75, (52.0, 26.0)
# How far lines with the same ends are apart.
LANE = 4 * PIXEL
# For its thickness a line counts as at most this many times as long as a place usually is from the
# nearest other one, so lines are thin where places are close; and the most places so compared.
LONG, MOST_COMPARED = 3.0, 500
Point = tuple[float, float]


class Paper(NamedTuple):
    """The room for a picture: its width, and its height at most."""

    wide: float
    high: float


class PlaceRole(NamedTuple):
    """What a place gives, takes or lets through, in words, and whether it is too little or in the
    bottleneck."""

    text: str
    is_limit: bool


@dataclass(frozen=True)
class GroundPlace:
    """A place on the paper. `share` is which part arrives of what it takes at most."""

    node: int
    name: str
    at: Point
    is_source: bool
    is_sink: bool
    share: float
    is_shut: bool
    is_before: bool
    roles: tuple[PlaceRole, ...]

    @property
    def is_end(self) -> bool:
        return self.is_source or self.is_sink

    @property
    def is_limit(self) -> bool:
        """Return True if the bottleneck is at this place, or too little arrives."""
        return any(role.is_limit for role in self.roles)


@dataclass(frozen=True)
class GroundLine:
    """An arc on the paper: from its tail to its head, the other way if it flows back."""

    number: int
    ends: tuple[int, int]
    points: tuple[Point, Point]
    mark: Mark
    name: str
    is_changed: bool

    @property
    def long(self) -> float:
        return math.dist(*self.points)


@dataclass(frozen=True)
class Ground:
    """All that a picture shows, on a sheet that is no higher than this needs. `by` is how much
    thicker lines are than usual ones, and `is_whole` says whether no arc is left out."""

    sheet: Paper
    places: tuple[GroundPlace, ...]
    lines: tuple[GroundLine, ...]
    by: float
    is_whole: bool
    is_map: bool

    def thick(self, line: GroundLine) -> float:
        return thickness(line.mark) * self.by * PIXEL

    @property
    def usual(self) -> float:
        """Return the usual length of a line."""
        lengths = sorted(line.long for line in self.lines)
        return lengths[len(lengths) // 2] if lengths else 0.0


class Grounds:
    """The grounds of pictures of one network, in which each place has the same position."""

    def __init__(self, places: Places, *, is_map: bool) -> None:
        self._places, self._is_map = places, is_map

    def of(self, desk: Desk, sheet: Paper) -> Ground:
        """Return what a picture of a desk shows, and where. Raise a `DeskFault` if places cannot be
        laid out."""
        arcs = self._put(desk)
        network, seen = desk.network, self._places.seen
        ends = {number: _ends(desk, number) for number in arcs}
        nodes = sorted({node for pair in ends.values() for node in pair})
        if len(arcs) == len(network.pictured()):
            nodes = sorted({*nodes, *network.sources, *network.sinks} & seen.keys())
        at, used = _fitted({node: seen[node] for node in nodes}, sheet)
        changed = network.changed()
        lines = tuple(
            GroundLine(
                number, pair, _lane(pair, at, rank), mark, network.names.arc_name(number), is_new
            )
            for (number, pair), rank, mark, is_new in zip(
                ends.items(),
                _ranks(ends.values()),
                Looks(desk, Beginning(desk)).marks(arcs),
                (number in changed for number in arcs),
            )
        )
        most = LONG * _usual_gap([*at.values()])
        lengths = [min(line.long, most) / PIXEL for line in lines]
        is_whole = len(arcs) == len(network.pictured())
        return Ground(
            used, tuple(_places(desk, at)), lines, thicker(lengths), is_whole, self._is_map
        )

    def _put(self, desk: Desk) -> list[int]:
        """Give each place of a picture a spot, and return the arcs that it has."""
        network, places = desk.network, self._places
        arcs = network.pictured()
        given = network.folding.places(range(1, network.names.given_count + 1))
        places.call(network.names.made)
        known = sum(node in places.spots for node in given)
        picture = Picture(desk)
        picture.places = places
        if 2 * known > len(given) and len(arcs) <= MOST_PAINTED:
            picture.put_made()
            there = [*given, *network.names.made]
            places.put_among(there, (_ends(desk, number) for number in arcs))
            return arcs
        if len(arcs) > MOST_LAID_OUT:
            arcs = Nearby(desk).arcs(())
        elif len(arcs) > MOST_DRAWN:
            # A page shows a part of them meanwhile.
            places.spots.clear()
        picture.put(arcs, ())
        return arcs


def grounds_of(desk: Desk, form: float, shown: Picture | None = None) -> Grounds:
    """Return the grounds of a desk. Places lie as in the picture that a page shows, or else as on
    the map that the network's file has, or as a project keeps it, with those that were moved by
    hand. Others are laid out for pictures that are `form` times as wide as high."""
    found = Places(form=form, sources=frozenset(desk.network.sources))
    if shown and shown.places.spots:
        found.take(copy.deepcopy(shown.places))
        found.moved = {**shown.places.moved}
        return Grounds(found, is_map=shown.is_map)
    scenarios, given = Scenarios.of(desk), map_of_file(desk)
    is_drawn = not scenarios or scenarios.project.positions_from == DRAWN
    if scenarios:
        take_named(found, desk, scenarios.project.positions)
        moved = scenarios.project.moved if is_drawn and not given else {}
        found.moved = moved_spots(desk, {name: Spot(*at) for name, at in moved.items()})
    if given:
        found.spots.update(spots_on(desk, given))
    return Grounds(found, is_map=bool(given or found.spots and not is_drawn))


def _ends(desk: Desk, number: int) -> tuple[int, int]:
    """Return the places at the ends of an arc, in the order in which they are in the table."""
    line, place = desk.network.lines[number - 1], desk.network.folding.place
    return place(line.tail), place(line.head)


def _usual_gap(spots: Sequence[Point]) -> float:
    """Return how far a place usually is from the nearest other one, or infinity for too many."""
    if not 1 < len(spots) <= MOST_COMPARED:
        return math.inf
    gaps = sorted(
        min(math.dist(spot, other) for other in (*spots[:at], *spots[at + 1 :]))
        for at, spot in enumerate(spots)
    )
    return gaps[len(gaps) // 2]


def _places(desk: Desk, at: dict[int, Point]) -> Iterator[GroundPlace]:
    """Yield the places at these points."""
    network, roles, side = desk.network, desk.network.roles(), desk.side()
    shut = {network.folding.place(it) for it in network.shut_nodes}
    demands = limited_amounts(desk, DEMAND)
    cut = desk.cut_arcs()
    for node, point in at.items():
        demand = demands.get(node)
        there = () if node in shut else roles.get(node, ())
        yield GroundPlace(
            node,
            network.names.node(node),
            point,
            node in network.sources,
            node in network.sinks,
            share(demand.flow, demand.limit) if demand and demand.limit else 1.0,
            node in shut,
            node in side,
            tuple(
                PlaceRole(
                    f"{AT_PLACE[kind]} {short_amounts(desk, number)}",
                    # A place that gets all that it asks for lacks nothing, also in the bottleneck.
                    bool(demand and demand.short) if kind == DEMAND else number in cut,
                )
                for number, kind in there
            ),
        )


def _fitted(spots: dict[int, Spot], sheet: Paper) -> tuple[dict[int, Point], Paper]:
    """Return where these spots lie on a sheet, from its top left corner on, and the part of the
    sheet that is used."""
    if not spots:
        return {}, Paper(sheet.wide, 2 * RIM[1])
    (left, right), (low, top) = (
        (min(spot[axis] for spot in spots.values()), max(spot[axis] for spot in spots.values()))
        for axis in (0, 1)
    )
    room = sheet.wide - 2 * RIM[0], sheet.high - 2 * RIM[1]
    by = min(1.0, room[0] / max(right - left, 1.0), room[1] / max(top - low, 1.0))
    wide, high = (right - left) * by, (top - low) * by
    used = Paper(sheet.wide, high + 2 * RIM[1])
    begin = (sheet.wide - wide) / 2, RIM[1]
    return {
        node: (begin[0] + (spot.x - left) * by, begin[1] + (top - spot.y) * by)
        for node, spot in spots.items()
    }, used


def _ranks(ends: Iterable[tuple[int, int]]) -> list[float]:
    """Return for each line on which side of the middle of those with the same ends it lies, in
    lanes; above 0 is right of the way from the end with the lesser number."""
    listed = [tuple(sorted(pair)) for pair in ends]
    counts, seen = Counter(listed), Counter[tuple[int, ...]]()
    found = []
    for pair in listed:
        found.append(seen[pair] - (counts[pair] - 1) / 2)
        seen[pair] += 1
    return found


def _lane(ends: Sequence[int], at: dict[int, Point], rank: float) -> tuple[Point, Point]:
    """Return the ends of a line on its lane."""
    (x0, y0), (x1, y1) = (at[node] for node in ends)
    long = math.dist((x0, y0), (x1, y1)) or 1.0
    side = LANE * rank * (1 if ends[0] <= ends[1] else -1)
    right, down = side * (y0 - y1) / long, side * (x1 - x0) / long
    return (x0 + right, y0 + down), (x1 + right, y1 + down)
