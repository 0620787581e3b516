"""Compares the second implementation with the definitions, on small random networks, where it does
not follow them to the letter: a least path is the least of all paths, a greatest flow has the least
capacity of all cuts as its value, and the smallest side has the nodes that all minimum cuts have.
"""

from __future__ import annotations

from collections.abc import Iterator
from itertools import combinations
from random import Random

import pytest
from oracle.network import (
    State,
    Step,
    is_greatest,
    least_path,
    residual_steps,
    smallest_side,
    solved,
)
from random_cases import changed, network, with_cycles


def paths(
    steps: list[Step], start: int, goal: int, passed: tuple[int, ...] = ()
) -> Iterator[list[Step]]:
    """Each path from start to goal that comes to no node twice, as a list of steps."""
    if start == goal:
        yield []
        return
    passed = *passed, start
    for step in steps:
        if step.start == start and step.end not in passed:
            for rest in paths(steps, step.end, goal, passed):
                yield [step, *rest]


def cuts(state: State) -> Iterator[set[int]]:
    """Each set of nodes that has the source and not the sink."""
    others = [node for node in range(1, state.nodes + 1) if node not in (state.source, state.sink)]
    for size in range(len(others) + 1):
        for chosen in combinations(others, size):
            yield {state.source, *chosen}


def capacity(state: State, side: set[int]) -> int:
    return sum(arc.cap for arc in state.arcs if arc.tail in side and arc.head not in side)


def is_flow(state: State) -> bool:
    balanced = not state.excesses().keys() - {state.source, state.sink}
    return balanced and all(0 <= flow <= arc.cap for arc, flow in zip(state.arcs, state.flows))


# So many networks in a test, and so many tests.
NETWORKS, BATCHES = 50, 10


@pytest.mark.parametrize("batch", range(BATCHES))
def test_definitions(batch: int) -> None:
    for number in range(batch * NETWORKS, (batch + 1) * NETWORKS):
        judge(Random(f"definitions/{number}"))


def judge(random: Random) -> None:
    state = with_cycles(changed(network(random, 6), random), random)
    assert is_flow(state), "the flow to begin with"
    steps = residual_steps(state)
    least = min(
        paths(steps, state.source, state.sink),
        key=lambda path: (len(path), [step.rank for step in path]),
        default=None,
    )
    assert least_path(steps, state.source, state.sink) == least
    best = solved(state)
    smallest = min(capacity(state, side) for side in cuts(state))
    assert is_flow(best) and best.value() == smallest
    assert is_greatest(state) == (state.value() == smallest) and is_greatest(best)
    in_all = set.intersection(*(side for side in cuts(state) if capacity(state, side) == smallest))
    assert smallest_side(best) == (sorted(in_all), smallest)
