"""Graphs of igraph given as they are: values, flows, cuts and what-ifs beside those of igraph."""

from __future__ import annotations

from collections import Counter
from collections.abc import Sequence
from random import Random
from types import SimpleNamespace
from typing import Any

import pytest
from client_shared import dmf
from dmf.graph_flows import flows_on_edges
from packages import load

igraph: Any = load("igraph")


def random_graph(random: Random, is_directed: bool, is_named: bool = False) -> Any:
    """A graph with loops and parallel edges."""
    count = random.randrange(2, 9)
    edges = [
        (random.randrange(count), random.randrange(count)) for _ in range(random.randrange(20))
    ]
    graph = igraph.Graph(n=count, edges=edges, directed=is_directed)
    graph.es["capacity"] = [random.randrange(9) for _ in edges]
    if is_named:
        graph.vs["name"] = [f"n{number}" for number in range(count)]
    return graph


def judge(graph: Any, flows: Sequence[int], value: int) -> None:
    """Flows on edges, negative ones from the larger vertex to the smaller, have a value."""
    excess: Counter[int] = Counter()
    assert len(flows) == graph.ecount()
    for edge, flow in zip(graph.es, flows):
        assert abs(flow) <= edge["capacity"] and (flow >= 0 or not graph.is_directed())
        tail, head = edge.tuple
        if not graph.is_directed():
            tail, head = sorted(edge.tuple)
        excess[head] += flow
        excess[tail] -= flow
    kept = {node: amount for node, amount in excess.items() if amount}
    assert kept == ({0: -value, graph.vcount() - 1: value} if value else {})


@pytest.mark.parametrize("is_directed", [True, False])
@pytest.mark.parametrize("seed", range(25))
def test_one_call(is_directed: bool, seed: int) -> None:
    random = Random(f"igraph {is_directed} {seed}")
    graph = random_graph(random, is_directed)
    ends = 0, graph.vcount() - 1
    theirs = graph.maxflow(*ends, "capacity")
    found = dmf.maximum_flow(graph, *ends)
    assert (type(found.value), found.value) == (int, theirs.value)
    judge(graph, found.flow, found.value)
    judge(graph, [round(flow) for flow in theirs.flow], found.value)
    assert dmf.value(graph, *ends) == theirs.value
    capacity, (side, others) = dmf.minimum_cut(graph, *ends)
    assert (capacity, side | others) == (theirs.value, set(range(graph.vcount())))
    assert side <= set(theirs.partition[0])
    crossing = sum(
        edge["capacity"]
        for edge in graph.es
        if edge.source in side
        and edge.target in others
        or not is_directed
        and edge.target in side
        and edge.source in others
    )
    assert crossing == theirs.value


@pytest.mark.parametrize("is_directed", [True, False])
@pytest.mark.parametrize("seed", range(10))
def test_what_ifs(is_directed: bool, seed: int) -> None:
    """Each edge closed, by its key, beside igraph without it."""
    random = Random(f"what if {is_directed} {seed}")
    graph = random_graph(random, is_directed, is_named=True)
    sink = f"n{graph.vcount() - 1}"
    with dmf.from_igraph(graph, "n0", sink) as network:
        assert network.nodes == graph.vs["name"]
        assert network.solve().value == graph.maxflow("n0", sink, "capacity").value
        for edge in graph.es:
            tail, head = graph.vs[edge.source]["name"], graph.vs[edge.target]["name"]
            with network.try_out():
                network.close((tail, head, edge.index))
                if not is_directed and tail != head:
                    network.close((head, tail, edge.index))
                without = graph.copy()
                without.delete_edges([edge.index])
                wanted = without.maxflow("n0", sink, "capacity").value
                assert network.solve().value == wanted


def test_the_direction_of_flows() -> None:
    """A flow from the larger vertex to the smaller one is negative, whichever an edge names
    first."""
    edges = [(0, 2), (2, 0), (1, 1), (2, 1)]
    graph = SimpleNamespace(is_directed=lambda: False, get_edgelist=lambda: edges)
    # What flows on the arcs: on each edge there and back, and on the loop once.
    assert flows_on_edges(graph, [5, 1, 0, 3, 7, 4, 0]) == [4, 3, 7, -4]


def test_names_and_numbers() -> None:
    """Both name a vertex, as in igraph."""
    graph = igraph.Graph([(0, 1), (1, 2)], directed=True, edge_attrs={"width": [3, 2]})
    graph.vs["name"] = ["lake", "mill", "sea"]
    for ends in ("lake", "sea"), (0, 2), ("lake", 2):
        assert dmf.value(graph, *ends, "width") == 2
        assert dmf.minimum_cut(graph, *ends, "width")[1] == ({"lake", "mill"}, {"sea"})
        with dmf.from_igraph(graph, *ends, "width") as network:
            assert network.solve()["mill", "sea"] == 2
    with pytest.raises(dmf.NoSuchNode, match="^no such node: 3$"):
        dmf.value(graph, 0, 3, "width")
    graph.vs["name"] = ["lake", "sea", "sea"]
    with pytest.raises(ValueError, match="^two vertices of the graph have the name 'sea'$"):
        dmf.value(graph, "lake", "sea", "width")


def test_edges_without_a_capacity() -> None:
    """They have no bound in one call, and are refused in a network unless a number stands for
    them."""
    graph = igraph.Graph([(0, 1), (1, 2)], directed=True)
    with pytest.raises(dmf.Unbounded):
        dmf.value(graph, 0, 2)
    with pytest.raises(dmf.NoCapacity) as caught:
        dmf.from_igraph(graph, 0, 2)
    assert str(caught.value) == "no capacity: the edge (0, 1, 0) has no attribute 'capacity'"
    graph.es["capacity"] = [None, 7]
    assert dmf.value(graph, 0, 2) == 7
    with pytest.raises(dmf.NoCapacity, match=r"^no capacity: the edge \(0, 1, 0\) "):
        dmf.from_igraph(graph, 0, 2)
    with dmf.from_igraph(graph, 0, 2, infinite=4) as network:
        assert network.solve().value == 4
