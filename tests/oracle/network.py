"""Networks with a flow on them: their paths, solving, draining and the smallest side of a minimum
cut."""

from __future__ import annotations

from dataclasses import dataclass, replace
from typing import NamedTuple


class Arc(NamedTuple):
    tail: int
    head: int
    cap: int
    is_closed: bool = False


class Step(NamedTuple):
    """A step from one node to another. It has the rank first, so that paths of one length are
    ordered by their ranks."""

    rank: int
    start: int
    end: int
    room: int


@dataclass(frozen=True)
class State:
    """A network with a flow on it. Arc number j is the one at place j - 1."""

    nodes: int
    source: int
    sink: int
    arcs: tuple[Arc, ...]
    flows: tuple[int, ...]

    def capacity_sum(self) -> int:
        return sum(arc.cap for arc in self.arcs)

    def excesses(self) -> dict[int, int]:
        """What flows out of a node less what flows into it, of each node at which these differ."""
        excesses: dict[int, int] = {}
        for arc, flow in zip(self.arcs, self.flows):
            excesses[arc.tail] = excesses.get(arc.tail, 0) + flow
            excesses[arc.head] = excesses.get(arc.head, 0) - flow
        return {node: excess for node, excess in excesses.items() if excess != 0}

    def value(self) -> int:
        return self.excesses().get(self.source, 0)

    def open_arcs(self) -> list[tuple[Arc, int]]:
        """Each open arc with its flow."""
        return [(arc, flow) for arc, flow in zip(self.arcs, self.flows) if not arc.is_closed]


def least_path(steps: list[Step], start: int, goal: int) -> list[Step] | None:
    """The shortest path from start to goal whose list of ranks comes first of those of its length,
    or None where no path is.

    Goes from distance to distance: each shortest path to a node is one to the node before it, and a
    step more.
    """
    leaving: dict[int, list[Step]] = {}
    for step in steps:
        leaving.setdefault(step.start, []).append(step)
    least: dict[int, list[Step]] = {start: []}
    farthest = [start]
    while farthest and goal not in least:
        found: dict[int, list[Step]] = {}
        for node in farthest:
            for step in leaving.get(node, []):
                path = least[node] + [step]
                if step.end not in least and (step.end not in found or path < found[step.end]):
                    found[step.end] = path
        least.update(found)
        farthest = list(found)
    return least.get(goal)


def residual_steps(state: State) -> list[Step]:
    """Along each arc what more can flow, and against it what flows."""
    steps = []
    for j, (arc, flow) in enumerate(zip(state.arcs, state.flows), 1):
        if flow < arc.cap:
            steps.append(Step(2 * j, arc.tail, arc.head, arc.cap - flow))
        if flow > 0:
            steps.append(Step(2 * j + 1, arc.head, arc.tail, flow))
    return steps


def solved(state: State) -> State:
    """Augments along least paths until there is none."""
    while path := least_path(residual_steps(state), state.source, state.sink):
        amount = min(step.room for step in path)
        flows = list(state.flows)
        for step in path:
            flows[step.rank // 2 - 1] += amount if step.rank % 2 == 0 else -amount
        state = replace(state, flows=tuple(flows))
    return state


def carrying_steps(state: State) -> list[Step]:
    """Along each arc what flows, and from the sink to the source the value, by a link that ranks
    after all arcs."""
    flowing = enumerate(zip(state.arcs, state.flows), 1)
    steps = [Step(2 * j, arc.tail, arc.head, flow) for j, (arc, flow) in flowing if flow > 0]
    if state.value() > 0:
        steps.append(Step(2 * len(state.arcs) + 2, state.sink, state.source, state.value()))
    return steps


def drained(state: State, j: int, limit: int) -> State:
    """Takes off arc j what is above the limit, and off least paths from its head to its tail."""
    arc = state.arcs[j - 1]
    while state.flows[j - 1] > limit:
        path = least_path(carrying_steps(state), arc.head, arc.tail)
        assert path is not None
        amount = min([state.flows[j - 1] - limit] + [step.room for step in path])
        flows = list(state.flows)
        for lowered in [j] + [step.rank // 2 for step in path]:
            if lowered <= len(flows):
                flows[lowered - 1] -= amount
        state = replace(state, flows=tuple(flows))
    return state


def reached(state: State) -> set[int]:
    """The nodes to which residual steps lead from the source."""
    leaving: dict[int, list[int]] = {}
    for step in residual_steps(state):
        leaving.setdefault(step.start, []).append(step.end)
    found = {state.source}
    waiting = [state.source]
    while waiting:
        for node in leaving.get(waiting.pop(), []):
            if node not in found:
                found.add(node)
                waiting.append(node)
    return found


def is_greatest(state: State) -> bool:
    return state.sink not in reached(state)


def smallest_side(state: State) -> tuple[list[int], int]:
    """The nodes that every minimum cut has, ascending, and its capacity. The flow is greatest: then
    they are those reached."""
    side = reached(state)
    capacity = sum(arc.cap for arc in state.arcs if arc.tail in side and arc.head not in side)
    return sorted(side), capacity
