"""How an arc looks in the picture: what the page colours it by, and how wide it is."""

from __future__ import annotations

import math
from collections.abc import Sequence
from decimal import Decimal
from typing import NamedTuple

from ...quantity import Quantity
from ..pipes import THERE, way_sign
from ..workspace import Desk

# The state of an arc: nothing flows, something flows, it is full, it is in the bottleneck, closed.
UNUSED, FLOWS, FULL, LIMIT, CLOSED = "u", "f", "F", "l", "c"
# What changed since the beginning: the arc is new, closed, wider or narrower; it carries more or
# less; nothing; or whether it carries more or less is not known.
ADDED, SHUT, WIDER, NARROWER, MORE, LESS, SAME, UNKNOWN = "a", "c", "w", "n", "+", "-", ".", "?"
# The largest digit.
MOST = 9


class Mark(NamedTuple):
    """A character for each property that the page may show of a pipe: its state; the tenths of its
    capacity that are used; what changed; the square root of its capacity, from 0 to 9 for the
    widest; and which way it flows."""

    state: str
    use: str
    change: str
    width: str
    way: str


class Beginning:
    """The capacities with which a desk began, and the flows of its first solve. The flows are known
    once the desk has been at that state since the board began."""

    def __init__(self, desk: Desk) -> None:
        self._desk = desk
        # The flows, and the scale at which they are whole: a step may make it finer.
        self._flows: Sequence[int] | None = None
        self._scale = Decimal(1)

    def heed(self) -> None:
        """Remember the flows if the desk is at the beginning."""
        if self._desk.at == 1:
            self._flows = self._desk.flows()
            # Each click comes here: the desk's property `network` would make several calls more.
            self._scale = self._desk.state.network.measure.scale

    @property
    def is_known(self) -> bool:
        """Return True if the flows of the beginning are known."""
        self.heed()
        return self._flows is not None

    def flow(self, number: int) -> int:
        """Return the flow that an arc had, in the whole numbers of the session: 0 if it was added
        later."""
        network = self._desk.network
        first = network.lines[number - 1].first or number
        if not self._flows or first > network.first_count:
            return 0
        flow, scale = self._flows[first - 1], network.measure.scale
        # Both are below 2^64, which Decimals hold exactly.
        return flow if scale == self._scale else int(flow * (scale / self._scale))

    def capacity(self, number: int) -> Quantity | None:
        """Return the capacity that an arc had, or None if it was added later."""
        return self._desk.network.first_capacity(number)

    def capacities(self, number: int, flow: Quantity) -> tuple[Quantity, Quantity] | None:
        """Return what a pipe could carry and what it can, or None if it was added later: of one
        that leads both ways, the way that this flow goes or, if that is as it was, the other."""
        pipes = self._desk.network.pipes
        pipe, arcs = pipes.pipe(number), pipes.arcs(number)
        ways = [(self.capacity(arcs[0]), pipe.room(1)), (self.capacity(arcs[-1]), pipe.room(-1))]
        found = [(was, now) for was, now in ways[:: -1 if flow < 0 else 1] if was is not None]
        return next((it for it in found if it[0] != it[1]), found[0]) if found else None


class Looks:
    """How the arcs of a desk look."""

    def __init__(self, desk: Desk, beginning: Beginning) -> None:
        self._desk = desk
        self._beginning = beginning

    def marks(self, numbers: Sequence[int]) -> list[Mark]:
        """Return the mark of each of these arcs. The widest of them has the largest width."""
        desk = self._desk
        network, flows, cut = desk.network, desk.flows(), desk.cut_arcs()
        is_known, whole = self._beginning.is_known, network.measure.whole
        pipes = network.pipes.of(numbers)
        rooms = [pipe.room(flows[number - 1]) for number, pipe in zip(numbers, pipes)]
        capacities = [*map(whole, rooms)]
        largest = max(capacities, default=0) or 1
        found = []
        for number, pipe, capacity in zip(numbers, pipes, capacities):
            flow = abs(flows[number - 1])
            state = (
                CLOSED
                if pipe.is_closed
                else LIMIT
                if number in cut
                else UNUSED
                if not flow
                else FULL
                if flow == capacity
                else FLOWS
            )
            use = min(MOST, 10 * flow // capacity) if capacity else 0
            width = round(MOST * math.sqrt(capacity / largest))
            change = self._change(number, flows[number - 1], is_known=is_known)
            # One that leads one way points there.
            way = way_sign(pipe, flows[number - 1]) or THERE
            found.append(Mark(state, str(use), change, str(width), way))
        return found

    def _change(self, number: int, flow: int, *, is_known: bool) -> str:
        """Return the sign of what changed on a pipe."""
        pipe = self._desk.network.pipes.pipe(number)
        if pipe.is_closed:
            return SHUT
        capacities = self._beginning.capacities(number, flow)
        if capacities is None:
            return ADDED
        before, now = capacities
        if now != before:
            return WIDER if now > before else NARROWER
        if not is_known:
            return UNKNOWN
        by = abs(flow) - abs(self._beginning.flow(number))
        return MORE if by > 0 else LESS if by < 0 else SAME
