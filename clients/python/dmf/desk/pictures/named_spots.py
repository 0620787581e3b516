"""Where places lie that are known by their names, as a project keeps them."""

from __future__ import annotations

from collections.abc import Mapping, Sequence
from typing import Union

from ..workspace import Desk
from .layout import Places, Spot


def take_named(places: Places, desk: Desk, kept: Mapping[str, Sequence[float]]) -> None:
    """Take the spots of these places. Those of places that are not there now are taken by their
    names: other scenarios, or undone steps, may have made them."""
    nodes = desk.network.names.places
    for name, (x, y) in kept.items():
        if name in nodes:
            places.spots[nodes[name]] = Spot(x, y)
        else:
            places.apart[name] = Spot(x, y)


def moved_spots(desk: Desk, moved: Mapping[Union[int, str], Spot]) -> dict[Union[int, str], Spot]:
    """Return the spots of places that were moved by hand, by their nodes, or by their names if they
    were made."""
    names = desk.network.names
    found: dict[Union[int, str], Spot] = {}
    for name, spot in moved.items():
        node = names.places.get(name) if isinstance(name, str) else None
        is_given = node is not None and node not in names.made
        found[node if node is not None and is_given else name] = spot
    return found
