"""Where the places of a network lie on a map, in a plane or on the globe."""

from __future__ import annotations

import math
from collections.abc import Iterator, Mapping
from dataclasses import dataclass

from ...text.spelling import cleaned
from ..workspace import Desk
from .layout import Spot

# The approximate distance of neighbours, in points.
MAP_APART = 150.0


@dataclass(frozen=True)
class Map:
    """The position of each place of a map, by its name, in the units of its table, and whether
    these are degrees of the globe."""

    spots: Mapping[str, Spot]
    is_globe: bool


def map_of_file(desk: Desk) -> Map | None:
    """Return the map that is part of the network's file, or None."""
    plan = desk.network.subject.plan
    positions = plan.arcs.sheet.positions if plan else None
    if positions is None or not positions.spots:
        return None
    spots = {cleaned(name): Spot(*spot) for name, spot in positions.spots.items()}
    return Map(spots, positions.is_globe)


def spots_on(desk: Desk, given: Map) -> dict[int, Spot]:
    """Return the spots of the desk's places on a map, in points, by their nodes."""
    found = {
        node: given.spots[name]
        for name, node in desk.network.names.places.items()
        if name in given.spots
    }
    return dict(_to_points(found, given.is_globe)) if found else {}


def _to_points(spots: Mapping[int, Spot], is_globe: bool) -> Iterator[tuple[int, Spot]]:
    """Yield the spots in points. Degrees of longitude are scaled by the cosine of the map's middle
    latitude."""
    lows, highs = (
        [of(spot[axis] for spot in spots.values()) for axis in (0, 1)] for of in (min, max)
    )
    shrink = math.cos(math.radians((lows[1] + highs[1]) / 2)) if is_globe else 1.0
    wide, high = (highs[0] - lows[0]) * shrink, highs[1] - lows[1]
    # As far apart as places would be that fill such a map evenly, or lie on such a line.
    points = (
        MAP_APART * len(spots) ** 0.5 / (wide * high) ** 0.5
        if wide and high
        else MAP_APART * len(spots) / (wide or high or 1.0)
    )
    for node, spot in spots.items():
        yield node, Spot((spot.x - lows[0]) * shrink * points, (spot.y - lows[1]) * points)
