"""The table of docs/PYTHON.md that says, call by call, how to come from networkx, scipy and igraph:
what stands in its cells is run on random graphs, and both sides have to agree."""

from __future__ import annotations

import re
from collections import Counter
from random import Random
from typing import Any

import pytest
from client_shared import dmf
from conftest import ROOT
from packages import load

nx, igraph, sparse, csgraph = map(
    load, ("networkx", "igraph", "scipy.sparse", "scipy.sparse.csgraph")
)
ROWS = [
    line
    for line in (ROOT / "docs/PYTHON.md")
    .read_text()
    .split("| There | Here |\n|---|---|\n")[1]
    .split("\n\n")[0]
    .splitlines()
]
SEEDS = range(20)


class Cells:
    """The cells of a row: the code in each, in its order."""

    def __init__(self, begin: str) -> None:
        (row,) = [line for line in ROWS if f"`{begin}" in line.split("|")[1]]
        self.there, self.here = (
            re.findall("`([^`]+)`", cell) for cell in row.strip("|").split(" | ")
        )


def run(code: list[str], names: dict[str, Any]) -> list[Any]:
    """What expressions give; a statement gives what it assigns."""
    found = []
    for line in code:
        name, sign, value = line.partition(" = ")
        if sign and name.isidentifier():
            names[name] = eval(value, names)
            found.append(names[name])
        else:
            found.append(eval(line, names))
    return found


def test_each_row_is_tried() -> None:
    tried = [
        "nx.maximum_flow(",
        "nx.minimum_cut(",
        "nx.maximum_flow_value",
        "G.add_edge",
        "G.remove_edge",
        "[nx.maximum_flow_value(nx.restricted_view(G, [],",
        "[nx.maximum_flow_value(nx.restricted_view(G, [v]",
        "maximum_flow(matrix",
    ]
    tried += ["found = g.maxflow", "found.partition", "found.cut"]
    assert [
        re.findall("`([^`]+)`", row)[0].startswith(begin) for row, begin in zip(ROWS, tried)
    ] == [True] * len(ROWS)
    assert len(ROWS) == len(tried)


def graph_of(seed: int, kind: str = "DiGraph") -> Any:
    random = Random(f"coming {seed}")
    graph = getattr(nx, kind)()
    graph.add_nodes_from(range(8))
    for _ in range(20):
        graph.add_edge(random.randrange(8), random.randrange(8), capacity=random.randrange(9))
    return graph


def judge(edges: list[tuple[Any, Any, int]], flows: list[int], value: int, s: Any, t: Any) -> None:
    """The flows on edges (tail, head, capacity) are a flow of a value."""
    excess: Counter[Any] = Counter()
    for (tail, head, room), flow in zip(edges, flows):
        assert 0 <= flow <= room
        excess[head] += flow
        excess[tail] -= flow
    assert {node: amount for node, amount in excess.items() if amount} == (
        {s: -value, t: value} if value else {}
    )


@pytest.mark.parametrize("kind", ["DiGraph", "Graph"])
@pytest.mark.parametrize("seed", SEEDS)
def test_networkx(seed: int, kind: str) -> None:
    names = {"nx": nx, "dmf": dmf, "G": graph_of(seed, kind), "s": 0, "t": 7}
    cells = Cells("nx.maximum_flow(")
    [(wanted, flows)], [(value, found)] = run(cells.there, dict(names)), run(
        cells.here, dict(names)
    )
    assert value == wanted and {tail: set(heads) for tail, heads in found.items()} == {
        tail: set(heads) for tail, heads in flows.items()
    }
    if kind == "DiGraph":
        edges = list(names["G"].edges(data="capacity"))
        judge(edges, [found[tail][head] for tail, head, _ in edges], value, 0, 7)
    cells = Cells("nx.minimum_cut(")
    [(wanted, (largest, _))], [(value, (side, other))] = run(cells.there, dict(names)), run(
        cells.here, dict(names)
    )
    assert (
        value == wanted and side <= largest and side | other == set(range(8)) and not side & other
    )
    cells = Cells("nx.maximum_flow_value")
    assert [*run(cells.there, dict(names)), *run(cells.here, dict(names))] == [wanted] * 3


@pytest.mark.parametrize("seed", SEEDS)
def test_what_ifs(seed: int) -> None:
    """An edge more, and then without it again: each time as networkx finds it by a new solve."""
    graph = graph_of(seed)
    u, v = next((u, v) for u in range(8) for v in range(8) if u != v and not graph.has_edge(u, v))
    names = {"dmf": dmf, "G": graph, "s": 0, "t": 7, "u": u, "v": v}
    add, remove = Cells("G.add_edge"), Cells("G.remove_edge")
    begin, *change = add.here
    run([begin], names)
    for here, cell in (change, add.there), (remove.here, remove.there):
        *_, plan = run(here, names)
        run(cell[:1], names)
        assert plan.value == nx.maximum_flow_value(graph, 0, 7)


@pytest.mark.parametrize("seed", SEEDS)
def test_losses(seed: int) -> None:
    names = {"nx": nx, "dmf": dmf, "G": graph_of(seed), "s": 0, "t": 7}
    for begin in "[], [e]", "[v], []":
        cells = Cells(f"[nx.maximum_flow_value(nx.restricted_view(G, {begin})")
        (wanted,), (found,) = run(cells.there, dict(names)), run(cells.here, dict(names))
        assert [*found] == wanted and len(wanted) > 5


@pytest.mark.parametrize("seed", SEEDS)
def test_scipy(seed: int) -> None:
    random = Random(f"coming {seed}")
    dense = [[random.randrange(9) * (random.random() < 0.4) for _ in range(8)] for _ in range(8)]
    matrix = sparse.csr_matrix(dense, dtype="int32")
    names = {"dmf": dmf, "maximum_flow": csgraph.maximum_flow, "matrix": matrix, "i": 0, "j": 7}
    cells = Cells("maximum_flow(matrix")
    (wanted,), (found, *_) = run(cells.there, dict(names)), run(cells.here[:1], dict(names))
    value, flow = (getattr(found, name) for name in cells.here[1:3])
    assert (value, flow.shape) == (wanted.flow_value, wanted.flow.shape)
    net = flow.toarray().tolist()
    edges = [(row, column, dense[row][column]) for row in range(8) for column in range(8)]
    judge(edges, [max(0, net[row][column]) for row, column, _ in edges], value, 0, 7)
    (network,) = run(cells.here[3:], dict(names))
    assert network.solve().value == wanted.flow_value


@pytest.mark.parametrize("is_directed", [True, False])
@pytest.mark.parametrize("seed", SEEDS)
def test_igraph(seed: int, is_directed: bool) -> None:
    random = Random(f"coming {seed}")
    # Here node 3 has no edge, and so may the source.
    pairs = [
        (random.choice([0, 1, 2, 4, 5, 6, 7]), random.choice([1, 2, 4, 5, 6, 7])) for _ in range(18)
    ]
    g = igraph.Graph(8, pairs, directed=is_directed)
    g.es["capacity"] = [random.randrange(9) for _ in pairs]
    names: dict[str, Any] = {"dmf": dmf, "g": g, "s": seed % 4, "t": 7}
    begin, sides, limit = map(Cells, ("found = g.maxflow", "found.partition", "found.cut"))
    (wanted,) = run(begin.there, names)
    (partition,), (edges,) = run(sides.there, names), run(limit.there, names)
    solve, *attributes, make = begin.here
    found, network = run([solve, make], names)
    value, flows = (getattr(found, name) for name in attributes)
    assert value == wanted.value == network.solve().value
    # In an undirected graph a flow below 0 leads from the larger vertex to the smaller.
    ends = [edge.tuple if is_directed else sorted(edge.tuple) for edge in g.es]
    led: list[tuple[Any, Any, int]] = []
    for pair, flow, most in zip(ends, flows, g.es["capacity"]):
        tail, head = pair if flow >= 0 else pair[::-1]
        led.append((tail, head, most))
    judge(led, [abs(flow) for flow in flows], value, seed % 4, 7)
    here, _, whole = run(sides.here, names)
    assert [*here] == [set(nodes) for nodes in whole]
    assert set().union(*here) == set().union(*partition) == set(range(8)) and not here[0] & here[1]
    assert sum(g.es[edge]["capacity"] for edge in run(limit.here, names)[0]) == value
    if is_directed:
        assert sum(g.es[edge]["capacity"] for edge in edges) == value
