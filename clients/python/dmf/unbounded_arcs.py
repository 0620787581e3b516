"""Maximum flows and minimum cuts of networks in which some arcs have no bound.

A solver takes capacities that are below 2^64 together, so an arc without a bound gets one that no
flow can reach. Where these are too large together, the network is solved in rounds, as by capacity
scaling: all capacities without their last bits, and then what is left of them, which is less. Each
round is a solve of the same solver, and adds to the flow."""

from __future__ import annotations

from array import array
from collections.abc import Callable, Sequence
from typing import NamedTuple

from .errors import Unbounded
from .session.base import ProblemColumns, Solved, Told
from .session.column_texts import read_flows
from .session.fresh import FLOW
from .text.lexical import AMOUNTS, NODES

# A function that solves a problem as some words ask.
Solver = Callable[[ProblemColumns, "list[str]"], Solved]
BITS = 64


class BoundlessFlow(NamedTuple):
    """What `Solved` has, with the flow on each arc as a number: one of an arc without a bound may
    be past 64 bits."""

    value: int
    flows: Sequence[int] = ()
    side: Sequence[int] = ()


def solve_unbounded(
    problem: ProblemColumns, unbounded: Sequence[int], words: list[str], solver: Solver
) -> BoundlessFlow:
    """Return what these words ask for, where the arcs at the places `unbounded`, from 0 on, have no
    bound.

    Raises
    ------
    Unbounded
        If a path from the source to the sink has only such arcs.
    """
    residual = _Residual(problem, unbounded)
    # More than any flow can carry that adds to the present one.
    most, value = 1 + residual.finite_sum(), 0
    while True:
        rooms = residual.rooms(most)
        shift = max(0, sum(rooms).bit_length() - BITS)
        is_last = not shift
        found = solver(residual.problem(rooms, shift), words if is_last else FLOW)
        value += found.value << shift
        if is_last and found.value >= most:
            raise Unbounded(
                "the flow has no bound: a path from the source to the sink has only arcs of "
                "infinite or missing capacity"
            )
        if not is_last or words == FLOW:
            residual.carry(flows_of(found.flows, len(rooms)), shift)
        if is_last:
            return BoundlessFlow(value, residual.flows, found.side)
        # No arc of the minimum cut that was found has more left than its last bits.
        most = min(most, len(rooms) << shift)


def flows_of(told: Told, count: int) -> Sequence[int]:
    """Return the flows of a number of arcs that a solver has told."""
    flows = told if isinstance(told, array) else read_flows(told, count)
    assert flows is not None and len(flows) >= count, "the program told no flow for each arc"
    return flows


class _Residual:
    """A problem with the flow that its arcs carry. The residual network has them, and after them
    their opposites where they carry."""

    def __init__(self, problem: ProblemColumns, unbounded: Sequence[int]) -> None:
        self._problem = problem
        count = len(problem.tails)
        self._capacities: list[int | None] = list(problem.capacities[:count])
        for place in unbounded:
            self._capacities[place] = None
        self.flows = [0] * count
        self._carrying: list[int] = []

    def finite_sum(self) -> int:
        """Return the sum of the capacities of all arcs that have one."""
        return sum(capacity for capacity in self._capacities if capacity is not None)

    def rooms(self, most: int) -> list[int]:
        """Return the residual capacities, of which what is above `most` cannot matter."""
        self._carrying = [place for place, flow in enumerate(self.flows) if flow]
        on = [
            most if most_of is None else min(most_of - flow, most)
            for most_of, flow in zip(self._capacities, self.flows)
        ]
        return on + [min(self.flows[place], most) for place in self._carrying]

    def problem(self, rooms: list[int], shift: int) -> ProblemColumns:
        """Return the problem of the residual network, without the last bits of its capacities."""
        tails, heads = self._problem.tails, self._problem.heads
        return self._problem._replace(
            tails=tails + array(NODES, [heads[place] for place in self._carrying]),
            heads=heads + array(NODES, [tails[place] for place in self._carrying]),
            capacities=array(AMOUNTS, [room >> shift for room in rooms]),
        )

    def carry(self, flows: Sequence[int], shift: int) -> None:
        """Add a flow of the residual network to the present one."""
        count = len(self.flows)
        for place, flow in enumerate(flows[:count]):
            self.flows[place] += flow << shift
        for place, flow in zip(self._carrying, flows[count:]):
            self.flows[place] -= flow << shift
