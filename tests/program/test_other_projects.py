"""Networks with a published greatest value: of textbooks, and of other projects' tests. On each the
ordinary solve, `--brief --cut` and `--any --cut` agree, and find that value. networkx's own tests
run with `dmf solve --any` in place of networkx's algorithms, and so judge its flows; scipy's run as
they are, and dmf beside them. Both are read from Debian's packages; smaller networks stand here."""

from __future__ import annotations

from collections.abc import Iterable
from pathlib import Path
from typing import Any

import pytest
from packages import load
from program.test_quick_solves import difference, solved
from worked_forms import text

Arc = tuple[int, int, int]
# By where they stand, with their greatest values.
PUBLISHED = {
    "Cormen and others, Introduction to Algorithms, third edition, figure 26.1": (
        "p max 6 9 / n 1 s / n 6 t / a 1 2 16 / a 1 3 13 / a 3 2 4 / a 2 4 12 / a 4 3 9 / a 3 5 14 "
        "/ a 5 4 7 / a 4 6 20 / a 5 6 4",
        23,
    ),
    "Wikipedia, Edmonds-Karp algorithm": (
        "p max 7 11 / n 1 s / n 7 t / a 1 4 3 / a 1 2 3 / a 2 3 4 / a 3 1 3 / a 3 4 1 / a 3 5 2 / "
        "a "
        "4 5 2 / a 4 6 6 / a 5 2 1"
        " / a 5 7 1 / a 6 7 9",
        5,
    ),
    "Boost 1.74, libs/graph/example/max_flow.dat, with max_flow.expected": (
        "p max 8 20 / n 1 s / n 8 t / a 1 7 3 / a 1 2 20 / a 1 3 20 / a 2 6 1 / a 2 1 20 / a 2 4 "
        "20 "
        "/ a 3 5 4 / a 3 4 20 / a 3 1 20"
        " / a 4 8 5 / a 4 3 20 / a 4 2 20 / a 5 6 20 / a 5 7 20 / a 6 5 20 / a 6 8 20 / a 7 8 20 / "
        "a 7 5 20 / a 8 7 20 / a 8 6 20",
        13,
    ),
    # Its nodes count from 0. It compares the value with its own cut's; here it is that of the cut
    # {1, 4}: 3 + 8 from 1, and 3 from 4.
    "LEMON 1.3.1, test/max_flow_test.cc, test_lgf": (
        "p max 10 17 / n 2 s / n 9 t / a 1 2 20 / a 1 3 0 / a 2 3 3 / a 2 4 8 / a 2 5 8 / a 3 6 5 "
        "/ "
        "a 4 3 5 / a 4 6 5 / a 4 7 5"
        " / a 5 4 3 / a 6 8 3 / a 6 7 10 / a 6 9 10 / a 7 9 8 / a 9 10 20 / a 9 2 5 / a 10 6 5",
        14,
    ),
    "LEMON 1.3.1, test/max_flow_test.cc, initFlowTest": (
        "p max 4 3 / n 1 s / n 4 t / a 1 2 20 / a 2 3 10 / a 3 4 20",
        10,
    ),
}
SMALL, LARGE, NETGEN = (
    f"networkx.algorithms.flow.tests.test_{name}"
    for name in ("maxflow", "maxflow_large_graph", "mincost")
)
# Tests of networkx, each with the values that stand in it, network by network.
NETWORKX: dict[str, dict[str, list[int]]] = {
    f"{SMALL}:TestMaxflowMinCutCommon": {
        "test_graph1": [1],
        "test_graph2": [4],
        "test_digraph1": [2000],
        "test_digraph2": [2],
        "test_digraph3": [23],
        "test_digraph4": [3],
        "test_digraph5": [4],
        "test_wikipedia_dinitz_example": [19],
        "test_optional_capacity": [3],
        "test_digraph_infcap_edges": [97, 97],
        "test_graph_infcap_edges": [97],
        "test_disconnected": [0],
    },
    f"{SMALL}:": {
        "test_preflow_push_makes_enough_space": [1],
        "test_shortest_augmenting_path_two_phase": [5],
    },
    # Its pyramid has fractions as capacities, which dmf does not take.
    f"{LARGE}:TestMaxflowLargeGraph": {
        "test_complete_graph": [5 * 49],
        "test_gl1": [156545],
        "test_gw1": [1202018],
        "test_wlm3": [11875108],
    },
}
# What networkx's modules of tests call, where dmf stands in.
ALGORITHMS = "preflow_push", "shortest_augmenting_path"
SCIPY = "scipy.sparse.csgraph.tests.test_flow"
SCIPYS = {
    "test_simple_graph": 5,
    "test_bottle_neck_graph": 3,
    "test_backwards_flow": 20,
    "test_example_from_clrs_chapter_26_1": 23,
    "test_disconnected_graph": 0,
    "test_add_reverse_edges_large_graph": 1,
}


def problem_of(nodes: int, source: int, sink: int, arcs: Iterable[Arc]) -> bytes:
    lines = [f"a {tail} {head} {capacity}\n" for tail, head, capacity in arcs]
    return f"p max {nodes} {len(lines)}\nn {source} s\nn {sink} t\n{''.join(lines)}".encode()


def any_flow(problem: bytes) -> tuple[int, list[int]]:
    """The value and the flows of `--any`, once all ways to solve are seen to agree."""
    assert difference(problem) is None
    value, *flows = solved(problem, b"--any").splitlines()
    return int(value.split()[1]), [int(line.split()[3]) for line in flows]


@pytest.mark.parametrize("name", PUBLISHED)
def test_published(name: str) -> None:
    network, value = PUBLISHED[name]
    assert solved(text(network), b"--brief") == b"c solve value %d\n" % value
    assert any_flow(text(network))[0] == value


class Stand:
    """dmf as one of networkx's algorithms. Their residual networks have an edge each way between
    two nodes, with as much capacity as there is that way, and a flow that is negative where it goes
    the other way."""

    def __init__(self, networkx: Any) -> None:
        self.networkx = networkx
        self.values: list[int] = []

    def flow(
        self,
        graph: Any,
        source: object,
        sink: object,
        capacity: str = "capacity",
        **options: object,
    ) -> Any:
        residual = self.networkx.algorithms.flow.build_residual_network(graph, capacity)
        number = {node: at for at, node in enumerate(residual, 1)}
        edges = [
            (tail, head, int(room)) for tail, head, room in residual.edges(data="capacity") if room
        ]
        assert all(
            residual[tail][head]["capacity"] == room for tail, head, room in edges
        ), "a capacity with a fraction"
        arcs = ((number[tail], number[head], room) for tail, head, room in edges)
        value, flows = any_flow(problem_of(len(residual), number[source], number[sink], arcs))
        self.networkx.set_edge_attributes(residual, 0, "flow")
        for (tail, head, _), flow in zip(edges, flows):
            residual[tail][head]["flow"] += flow
            residual[head][tail]["flow"] -= flow
        residual.graph["flow_value"] = value
        self.values.append(value)
        return residual


@pytest.mark.seconds(20)
@pytest.mark.parametrize(
    "place, name",
    [
        pytest.param(place, name, id=name.removeprefix("test_"))
        for place, tests in NETWORKX.items()
        for name in tests
    ],
)
def test_networkx(place: str, name: str, monkeypatch: pytest.MonkeyPatch) -> None:
    file, _, group = place.partition(":")
    theirs = load(file)
    stand = Stand(theirs.nx)

    def by_dmf(*given: Any, **options: Any) -> Any:
        return stand.flow(*given, **options)

    monkeypatch.setattr(theirs, "flow_funcs", [by_dmf])
    for algorithm in ALGORITHMS:
        monkeypatch.setattr(theirs, algorithm, by_dmf)
    tests = getattr(theirs, group)() if group else theirs
    getattr(tests, name)()
    # Each network is solved more than once where a test asks for the cut, or in two ways.
    wanted = NETWORKX[place][name]
    assert (
        list(dict.fromkeys(stand.values)) == list(dict.fromkeys(wanted))
        and len(stand.values) % len(wanted) == 0
    )


@pytest.mark.seconds(2)
@pytest.mark.parametrize("name", SCIPYS)
def test_scipy(name: str, monkeypatch: pytest.MonkeyPatch) -> None:
    theirs = load(SCIPY)
    maximum_flow, values = theirs.maximum_flow, []

    def beside_dmf(graph: Any, source: int, sink: int, **options: Any) -> Any:
        entries = graph.tocoo()
        arcs = zip((entries.row + 1).tolist(), (entries.col + 1).tolist(), entries.data.tolist())
        value, _ = any_flow(problem_of(graph.shape[0], source + 1, sink + 1, arcs))
        found = maximum_flow(graph, source, sink, **options)
        assert found.flow_value == value
        values.append(value)
        return found

    monkeypatch.setattr(theirs, "maximum_flow", beside_dmf)
    getattr(theirs, name)("dinic")
    assert values == [SCIPYS[name]]


@pytest.mark.seconds(3)
def test_netgen() -> None:
    """The network of networkx's test of least costs: a flow meets every demand, so the greatest
    flow from what sends to what wants is the whole demand."""
    theirs = load(NETGEN)
    graph = theirs.nx.read_gpickle(Path(theirs.__file__).with_name("netgen-2.gpickle.bz2"))
    number = {node: at for at, node in enumerate(graph, 1)}
    source, sink = len(graph) + 1, len(graph) + 2
    arcs = [(number[tail], number[head], room) for tail, head, room in graph.edges(data="capacity")]
    demands = [(number[node], demand) for node, demand in graph.nodes(data="demand", default=0)]
    arcs += [
        (source, node, -demand) if demand < 0 else (node, sink, demand)
        for node, demand in demands
        if demand
    ]
    assert (
        any_flow(problem_of(sink, source, sink, arcs))[0]
        == sum(demand for _, demand in demands if demand > 0)
        > 0
    )
