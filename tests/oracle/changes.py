"""Changes: what each makes of a state, or why it is refused."""

from __future__ import annotations

from dataclasses import replace

from .network import Arc, State, drained, solved
from .texts import LARGEST, Fault

MOST_ARCS = 134_217_728


def open_arc(state: State, j: int) -> Arc:
    if not 1 <= j <= len(state.arcs):
        raise Fault("no such arc")
    if state.arcs[j - 1].is_closed:
        raise Fault("arc is closed")
    return state.arcs[j - 1]


def with_arc(state: State, j: int, arc: Arc) -> State:
    return replace(state, arcs=state.arcs[: j - 1] + (arc,) + state.arcs[j:])


def cap(state: State, j: int, capacity: int) -> State:
    arc = open_arc(state, j)
    if state.capacity_sum() - arc.cap + capacity > LARGEST:
        raise Fault("capacities past 64 bits")
    return with_arc(drained(state, j, capacity), j, arc._replace(cap=capacity))


def close(state: State, j: int) -> State:
    arc = open_arc(state, j)
    return with_arc(drained(state, j, 0), j, arc._replace(cap=0, is_closed=True))


def add(state: State, tail: int, head: int, capacity: int) -> State:
    if not (1 <= tail <= state.nodes and 1 <= head <= state.nodes):
        raise Fault("no such node")
    if len(state.arcs) == MOST_ARCS:
        raise Fault("too many arcs")
    if state.capacity_sum() + capacity > LARGEST:
        raise Fault("capacities past 64 bits")
    return replace(state, arcs=state.arcs + (Arc(tail, head, capacity),), flows=state.flows + (0,))


def shut(state: State, node: int) -> State:
    """Closes each open arc at the node, ascending, on the state that the closings before gave."""
    if not 1 <= node <= state.nodes:
        raise Fault("no such node")
    for j, arc in enumerate(state.arcs, 1):
        if not arc.is_closed and node in (arc.tail, arc.head):
            state = close(state, j)
    return state


def solve(state: State) -> State:
    return solved(state)
