"""The places at which the arcs of a table begin or end alone, as its sources and sinks do."""

from __future__ import annotations

from array import array
from collections.abc import Sequence
from itertools import compress
from operator import eq, ne
from typing import Any

from ..session.column_texts import numpy_for


def ends_alone(tails: Sequence[int], heads: Sequence[int]) -> tuple[list[int], list[int]]:
    """Return the places that arcs leave and none enters, and those that arcs enter and none leaves,
    in the order of the arcs. Arcs from a place to itself do not count."""
    np = numpy_for(len(tails))
    if np is not None and isinstance(tails, array) and isinstance(heads, array):
        left, entered = (np.frombuffer(column, column.typecode) for column in (tails, heads))
        is_way = left != entered
        left, entered = left[is_way], entered[is_way]
        return _without(np, left, entered), _without(np, entered, left)
    if any(map(eq, tails, heads)):
        tails, heads = (list(compress(column, map(ne, tails, heads))) for column in (tails, heads))
    first, last = dict.fromkeys(tails), dict.fromkeys(heads)
    return [place for place in first if place not in last], [
        place for place in last if place not in first
    ]


def _without(np: Any, places: Any, others: Any) -> list[int]:
    """Return the places that are not among the others, each once, in their order."""
    is_other = np.zeros(max(places.max(initial=0), others.max(initial=0)) + 1, bool)
    is_other[others] = True
    alone, begins = np.unique(places[~is_other[places]], return_index=True)
    found: list[int] = alone[np.argsort(begins)].tolist()
    return found
