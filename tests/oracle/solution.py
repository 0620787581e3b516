"""Solution texts and cuts."""

from __future__ import annotations

from dataclasses import replace

from .network import State
from .texts import Fault, judge, number_of, read_text, written

# How many fields stand after the first one of each line.
FIELDS = {b"s": 1, b"f": 3}


class Reading:
    """What the lines of a solution of a state's network have said so far."""

    def __init__(self, state: State) -> None:
        self.state = state
        self.value: int | None = None
        # The capacities of the arcs of each pair of tail and head, and the flow that lines have
        # told of it.
        self.capacities: dict[tuple[int, int], int] = {}
        for arc in state.arcs:
            pair = arc.tail, arc.head
            self.capacities[pair] = self.capacities.get(pair, 0) + arc.cap
        self.flows = dict.fromkeys(self.capacities, 0)

    def take(self, fields: list[bytes]) -> None:
        kind, *rest = fields
        judge(
            (kind not in FIELDS, "unknown line"),
            (kind == b"s" and self.value is not None, "second value line"),
            (len(rest) != FIELDS.get(kind), "wrong number of fields"),
        )
        numbers = [number_of(field) for field in rest]
        if kind == b"s":
            self.value = numbers[0]
        else:
            self.take_flow(*numbers)

    def take_flow(self, tail: int, head: int, flow: int) -> None:
        pair = tail, head
        if pair not in self.flows:
            raise Fault("no such arc")
        if self.flows[pair] + flow > self.capacities[pair]:
            raise Fault("over capacity")
        self.flows[pair] += flow

    def end(self) -> State:
        if self.value is None:
            raise Fault("value line missing")
        state = replace(self.state, flows=self.put_on())
        unbalanced = state.excesses().keys() - {state.source, state.sink}
        if unbalanced:
            raise Fault(f"flow not conserved at node {min(unbalanced)}")
        if state.value() != self.value:
            raise Fault("value differs")
        return state

    def put_on(self) -> tuple[int, ...]:
        """The flow of each arc: what its capacity allows of what the arcs of its pair before it
        leave."""
        left = dict(self.flows)
        flows = []
        for arc in self.state.arcs:
            flow = min(arc.cap, left[arc.tail, arc.head])
            left[arc.tail, arc.head] -= flow
            flows.append(flow)
        return tuple(flows)


def read_solution(text: bytes, state: State) -> State:
    """The same network with the flow of a solution text. Raises its first fault."""
    return read_text(text, Reading(state))


def solution_text(state: State) -> bytes:
    flows = [written("f", arc.tail, arc.head, flow) for arc, flow in state.open_arcs()]
    return written("s", state.value()) + b"".join(flows)


def cut_text(side: list[int], capacity: int) -> bytes:
    return written("c", "cut", capacity) + b"".join(written("c", "side", node) for node in side)
