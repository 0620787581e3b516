"""Edges without a bound beside capacities of up to 64 bits: values, cuts and flows as those of
networkx."""

from __future__ import annotations

from collections import Counter
from random import Random
from typing import Any

import pytest
from client_shared import dmf
from dmf import unbounded_arcs
from packages import load

networkx = load("networkx")
LARGEST = 2**64 - 1
# How many random graphs a test tries, in the gate and by --long.
BATCHES, IN_GATE, BY_LONG = 10, 100, 1000
SOURCE, SINK = "n0", "n1"


def random_graph(random: Random, largest: int = LARGEST) -> Any:
    """Return a graph of which many edges have no bound. The capacities of the others are small, or
    up to `largest` together."""
    graph = random.choice([networkx.DiGraph, networkx.Graph])()
    count = random.randrange(2, 10)
    graph.add_nodes_from(f"n{node}" for node in range(count))
    left = largest // (1 if graph.is_directed() else 2)
    is_large, share = random.random() < 0.7, random.random()
    for _ in range(random.randrange(4 * count)):
        tail, head = (f"n{random.randrange(count)}" for _ in range(2))
        if graph.has_edge(tail, head):
            continue
        if random.random() < share:
            graph.add_edge(tail, head, **random.choice([{}, {"capacity": float("inf")}]))
        else:
            most = random.choice([left, left // 2, left // 7, 2**32, 3]) if is_large else 9
            capacity = random.randint(0, min(most, left))
            graph.add_edge(tail, head, capacity=capacity)
            left -= capacity
    return graph


def bound_of(graph: Any, tail: str, head: str) -> float | int:
    return graph[tail][head].get("capacity", float("inf"))  # type: ignore[no-any-return]


def judge_flow(graph: Any, value: int, flows: dict[str, dict[str, int]]) -> None:
    """The flows are within the capacities, and what is not of the ends keeps nothing."""
    excess: Counter[str] = Counter()
    for tail, heads in flows.items():
        assert set(heads) == set(graph[tail])
        for head, flow in heads.items():
            assert 0 <= flow <= bound_of(graph, tail, head)
            excess[head] += flow
            excess[tail] -= flow
    assert {node: amount for node, amount in excess.items() if amount} == (
        {SOURCE: -value, SINK: value} if value else {}
    )


def judge(graph: Any) -> bool:
    """Compare all calls with networkx. Return whether the flow has a bound."""
    calls: list[Any] = [dmf.value, dmf.minimum_cut, dmf.maximum_flow]
    try:
        value = networkx.maximum_flow_value(graph, SOURCE, SINK)
    except networkx.NetworkXUnbounded:
        for call in calls:
            with pytest.raises(dmf.Unbounded, match="^the flow has no bound: "):
                call(graph, SOURCE, SINK)
        return False
    assert dmf.value(graph, SOURCE, SINK) == value
    # networkx finds the largest side of the source: the smallest one is what is left by the largest
    # of the sink, backward.
    backward = graph.reverse() if graph.is_directed() else graph
    _, (others, side) = networkx.minimum_cut(backward, SINK, SOURCE)
    assert dmf.minimum_cut(graph, SOURCE, SINK) == (value, (side, others))
    found, flows = dmf.maximum_flow(graph, SOURCE, SINK)
    assert found == value
    judge_flow(graph, value, flows)
    return True


@pytest.mark.parametrize("batch", range(BATCHES))
def test_random_graphs(batch: int, request: pytest.FixtureRequest) -> None:
    random = Random(f"unbounded {batch}")
    count = BY_LONG if request.config.getoption("--long") else IN_GATE
    bounded = sum(judge(random_graph(random)) for _ in range(count))
    assert count / 5 < bounded < count


def test_many_beside_a_large_one() -> None:
    """Each of 20,000 edges one after another may have to carry all of a capacity that is far from
    64 bits."""
    graph, count = networkx.path_graph(range(2, 20_003), networkx.DiGraph), 20_000
    graph.add_edge(SOURCE, 2, capacity=10**15)
    graph.add_edge(20_002, SINK, capacity=10**15 - 3)
    assert dmf.value(graph, SOURCE, SINK) == 10**15 - 3
    amount, (side, others) = dmf.minimum_cut(graph, SOURCE, SINK)
    assert (amount, len(side), others) == (10**15 - 3, count + 2, {SINK})
    amount, flows = dmf.maximum_flow(graph, SOURCE, SINK)
    assert (amount, {flow for heads in flows.values() for flow in heads.values()}) == (
        10**15 - 3,
        {10**15 - 3},
    )


def two_rows(random: Random, most: int) -> Any:
    """Return a graph of two rows of places with many edges between them. Each of these may have to
    carry all that enters or leaves a place, so they need together much more than the 120
    capacities, which are up to `most` together.
    """
    graph, rows = networkx.DiGraph(), 60
    for place in range(rows):
        graph.add_edge(SOURCE, f"a{place}", capacity=random.randint(most // 300, most // 120))
        graph.add_edge(f"b{place}", SINK, capacity=random.randint(most // 300, most // 120))
        graph.add_edges_from((f"a{place}", f"b{other}") for other in random.sample(range(rows), 20))
    return graph


def test_many_between_two_rows() -> None:
    assert judge(two_rows(Random("rows"), LARGEST))


def test_several_rounds(monkeypatch: pytest.MonkeyPatch) -> None:
    """Only a network of millions of edges takes more than two rounds. With 26 bits in place of 64 a
    smaller one does."""
    bits, rounds = 26, 0
    monkeypatch.setattr(unbounded_arcs, "BITS", bits)
    problem = unbounded_arcs._Residual.problem

    def counted(self: Any, rooms: list[int], shift: int) -> Any:
        nonlocal rounds
        rounds += 1
        assert sum(room >> shift for room in rooms) < 2**bits
        return problem(self, rooms, shift)

    monkeypatch.setattr(unbounded_arcs._Residual, "problem", counted)
    assert judge(two_rows(Random("rounds"), 2**bits))
    # Each of the three calls took more than two.
    assert rounds >= 3 * 3


def test_capacities_that_are_past_64_bits_themselves() -> None:
    graph = networkx.DiGraph(
        [("n0", "a", {"capacity": LARGEST}), ("a", "b", {}), ("b", "n1", {"capacity": 1})]
    )
    calls: list[Any] = [dmf.value, dmf.minimum_cut, dmf.maximum_flow]
    for call in calls:
        with pytest.raises(
            dmf.CapacitiesPast64Bits, match="^capacities past 64 bits: <Arc 3: 'b' to 'n1'>$"
        ):
            call(graph, SOURCE, SINK)
    graph["b"]["n1"]["capacity"] = 0
    assert judge(graph)
    # Its caller chose this capacity.
    with pytest.raises(dmf.CapacitiesPast64Bits):
        dmf.value(graph, SOURCE, SINK, infinite=1)
    assert dmf.value({"n0": {"a": LARGEST}, "a": {"n1": None}}, SOURCE, SINK) == LARGEST
