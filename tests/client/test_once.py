"""Maximum flows, minimum cuts and greatest values by one call each, compared with those of networkx
and scipy on random graphs."""

from __future__ import annotations

import time
from collections import Counter
from pathlib import Path
from random import Random
from typing import Any

import pytest
from client_shared import BUILT, PIPES, dmf, has_written, interrupted_when, is_running, script
from limits import SECONDS
from packages import load

names = "numpy", "pandas", "networkx", "scipy.sparse", "scipy.sparse.csgraph"
numpy, pandas, networkx, sparse, csgraph = map(load, names)
ONE_CALL: list[Any] = [dmf.value, dmf.minimum_cut, dmf.maximum_flow, dmf.vital]
DICTIONARY = {"lake": {"mill": 3, "town": 2}, "mill": {"town": 5, "sea": 2}, "town": {"sea": 3}}
FLOWS = {
    "lake": {"mill": 3, "town": 2},
    "mill": {"town": 1, "sea": 2},
    "town": {"sea": 3},
    "sea": {},
}


def test_dictionaries() -> None:
    assert dmf.maximum_flow(DICTIONARY, "lake", "sea") == (5, FLOWS)
    assert dmf.minimum_cut(DICTIONARY, "lake", "sea") == (5, ({"lake"}, {"mill", "town", "sea"}))
    assert dmf.value(DICTIONARY, "lake", "sea") == 5
    attributes = {
        tail: {head: {"capacity": room, "width": 1} for head, room in heads.items()}
        for tail, heads in DICTIONARY.items()
    }
    assert dmf.maximum_flow(attributes, "lake", "sea") == (5, FLOWS)
    # Of two pipes one wide leads to the sea each way.
    assert dmf.value(attributes, "lake", "sea", "width") == 2


def test_rows_and_columns() -> None:
    assert dmf.value(PIPES, "lake", "sea") == dmf.value(iter(PIPES), "lake", "sea") == 5
    assert dmf.minimum_cut([*PIPES, ("lake", "sea", 1, "canal")], "lake", "sea") == (
        6,
        ({"lake"}, {"mill", "town", "sea"}),
    )
    assert dmf.value([("a", "b", None), ("b", "c", 3)], "a", "c", infinite=9) == 3
    with pytest.raises(
        TypeError,
        match="^a flow in the shape of the graph needs a graph of networkx or .* and not a list: "
        "make a Network of it$",
    ):
        dmf.maximum_flow(PIPES, "lake", "sea")
    with dmf.Network(PIPES, "lake", "sea") as network:
        with pytest.raises(TypeError, match="^a Network has the method solve"):
            dmf.value(network, "lake", "sea")


def test_frames_and_arrays() -> None:
    frame = pandas.DataFrame(PIPES, columns=["tail", "head", "capacity"])
    assert (dmf.value(frame, "lake", "sea"), dmf.minimum_cut(frame, "lake", "sea")[1][0]) == (
        5,
        {"lake"},
    )
    assert dmf.value(frame.rename(columns={"capacity": "room"}), "lake", "sea", "room") == 5
    columns = (
        numpy.array([0, 0, 1, 1, 2]),
        numpy.array([1, 2, 2, 3, 3]),
        numpy.array([3, 2, 5, 2, numpy.inf]),
    )
    assert dmf.value(columns, 0, 3, infinite=3) == 5


def random_graph(random: Random, kind: Any) -> Any:
    graph = kind()
    count = random.randrange(2, 9)
    graph.add_nodes_from(f"n{node}" for node in range(count))
    for _ in range(random.randrange(20)):
        graph.add_edge(
            f"n{random.randrange(count)}",
            f"n{random.randrange(count)}",
            capacity=random.randrange(9),
        )
    return graph


def judge_flow(edges: list[tuple[Any, Any, int, int]], value: int) -> None:
    """Edges, with their capacities and flows, have a flow of a value from n0 to n1."""
    excess: Counter[Any] = Counter()
    for tail, head, room, flow in edges:
        assert 0 <= flow <= room
        excess[head] += flow
        excess[tail] -= flow
    assert {node: amount for node, amount in excess.items() if amount} == (
        {"n0": -value, "n1": value} if value else {}
    )


@pytest.mark.parametrize("kind", ["Graph", "DiGraph"])
@pytest.mark.parametrize("seed", range(25))
def test_graphs(kind: str, seed: int) -> None:
    graph = random_graph(Random(f"graph {kind} {seed}"), getattr(networkx, kind))
    wanted, flows = networkx.maximum_flow(graph, "n0", "n1")
    value, found = dmf.maximum_flow(graph, "n0", "n1")
    assert (value, dmf.value(graph, "n0", "n1")) == (wanted, wanted)
    assert {node: set(heads) for node, heads in found.items()} == {
        node: set(heads) for node, heads in flows.items()
    }
    judge_flow(
        [
            (tail, head, graph[tail][head]["capacity"], flow)
            for tail, heads in found.items()
            for head, flow in heads.items()
        ],
        wanted,
    )
    # An edge without a direction carries in one of them.
    assert kind == "DiGraph" or not any(
        flow and found[head][tail] for tail, heads in found.items() for head, flow in heads.items()
    )
    amount, (side, others) = dmf.minimum_cut(graph, "n0", "n1")
    _, (largest, _) = networkx.minimum_cut(graph, "n0", "n1")
    # Every minimum cut has the smallest side on the side of the source.
    assert (amount, side | others, side & others, side <= largest) == (
        wanted,
        set(graph),
        set(),
        True,
    )
    edges = graph.edges(data="capacity")
    assert (
        sum(
            room
            for tail, head, room in edges
            if tail in side
            and head in others
            or kind == "Graph"
            and tail in others
            and head in side
        )
        == wanted
    )


@pytest.mark.parametrize("kind", ["MultiGraph", "MultiDiGraph"])
@pytest.mark.parametrize("seed", range(10))
def test_multigraphs(kind: str, seed: int) -> None:
    """networkx has no flows of these, but those of the graph whose edges carry as much as all
    between two nodes."""
    graph = random_graph(Random(f"multigraph {kind} {seed}"), getattr(networkx, kind))
    single = networkx.DiGraph() if kind == "MultiDiGraph" else networkx.Graph()
    single.add_nodes_from(graph)
    for tail, head, room in graph.edges(data="capacity"):
        so_far = single[tail][head]["capacity"] if single.has_edge(tail, head) else 0
        single.add_edge(tail, head, capacity=so_far + room)
    value, found = dmf.maximum_flow(graph, "n0", "n1")
    assert value == networkx.maximum_flow_value(single, "n0", "n1")
    edges = [
        (tail, head, key, flow)
        for tail, heads in found.items()
        for head, flows in heads.items()
        for key, flow in flows.items()
    ]
    assert {edge[:3] for edge in edges} == {
        (tail, head, key)
        for tail, heads in graph.adjacency()
        for head in heads
        for key in heads[head]
    }
    judge_flow(
        [(tail, head, graph[tail][head][key]["capacity"], flow) for tail, head, key, flow in edges],
        value,
    )


def test_edges_without_a_bound() -> None:
    """As in networkx: an edge without the attribute, or with an infinite one, has no bound."""
    graph = networkx.DiGraph(
        [
            ("a", "b", {"capacity": float("inf")}),
            ("b", "c", {"capacity": 4}),
            ("a", "c", {"capacity": 2}),
            ("b", "d"),
        ]
    )
    assert dmf.maximum_flow(graph, "a", "c") == networkx.maximum_flow(graph, "a", "c")
    assert dmf.minimum_cut(graph, "a", "c")[0] == networkx.minimum_cut_value(graph, "a", "c") == 6
    for theirs in networkx.maximum_flow_value, networkx.minimum_cut, networkx.maximum_flow:
        with pytest.raises(networkx.NetworkXUnbounded):
            theirs(graph, "a", "d")
    for call in ONE_CALL:
        with pytest.raises(dmf.Unbounded, match="^the flow has no bound: "):
            call(graph, "a", "d")
    assert dmf.value(graph, "a", "d", infinite=3) == 3
    # A flow as large as all bounded edges together is no flow without a bound.
    assert dmf.value({"a": {"b": 5}, "b": {"c": None}}, "a", "c") == 5


@pytest.mark.parametrize("seed", range(25))
def test_matrices(seed: int) -> None:
    random = numpy.random.default_rng(seed)
    count = int(random.integers(2, 9))
    dense = random.integers(0, 9, (count, count)) * random.integers(0, 2, (count, count))
    numpy.fill_diagonal(dense, 0)
    matrix = sparse.csr_matrix(dense.astype(numpy.int32))
    theirs = csgraph.maximum_flow(matrix, 0, count - 1)
    found = dmf.maximum_flow(matrix, 0, count - 1)
    assert (found.flow_value, type(found.flow_value), dmf.value(matrix, 0, count - 1)) == (
        theirs.flow_value,
        int,
        theirs.flow_value,
    )
    flow = found.flow.toarray()
    assert (found.flow.format, found.flow.shape) == (theirs.flow.format, theirs.flow.shape)
    assert (flow == -flow.T).all() and (flow <= dense).all()
    wanted = numpy.zeros(count, int)
    wanted[0], wanted[-1] = theirs.flow_value, -theirs.flow_value
    assert (flow.sum(axis=1) == wanted).all()
    amount, (side, others) = dmf.minimum_cut(matrix, 0, count - 1)
    assert (amount, sorted(side | others)) == (theirs.flow_value, list(range(count)))
    assert dense[numpy.ix_(sorted(side), sorted(others))].sum() == theirs.flow_value


@pytest.mark.parametrize("amount", [2**62, 2**63 - 1, 2**63, 2**64 - 3])
def test_matrices_of_64_bits(amount: int) -> None:
    """The flow is signed as long as it can be, and then unsigned, without the entries that would be
    negative."""
    dense = numpy.array([[0, amount, 0], [2, 0, amount], [0, 0, 0]], object)
    dense[1, 2] = min(amount, 2**64 - 1 - amount - 2)
    matrix, value = sparse.csr_matrix(dense.astype(numpy.uint64)), int(dense[1, 2])
    found = dmf.maximum_flow(matrix, 0, 2)
    wanted = [[0, value, 0], [-value, 0, value], [0, -value, 0]]
    assert (found.flow_value, found.flow.toarray().tolist(), found.flow.dtype) == (
        value,
        wanted,
        numpy.int64,
    )
    alone = sparse.csr_matrix(numpy.array([[0, amount], [2, 0]], numpy.uint64))
    found = dmf.maximum_flow(alone, 0, 1)
    is_signed = amount < 2**63
    assert (found.flow_value, found.flow.dtype) == (
        amount,
        numpy.int64 if is_signed else numpy.uint64,
    )
    assert found.flow.toarray().tolist() == [[0, amount], [-amount if is_signed else 0, 0]]
    # Entries at one place are added up, and together they are below 2^64.
    parts = [amount // 3, amount // 3, amount - 2 * (amount // 3)]
    twice = sparse.coo_matrix(
        (numpy.array(parts, numpy.uint64), ([0, 0, 0], [1, 1, 1])), shape=(2, 2)
    )
    found = dmf.maximum_flow(twice, 0, 1)
    assert (found.flow_value, found.flow.toarray()[0, 1], found.flow.dtype.kind) == (
        amount,
        amount,
        "i" if is_signed else "u",
    )


def test_a_matrix_past_64_bits() -> None:
    matrix = sparse.coo_matrix(
        (numpy.array([2**63, 2**63], numpy.uint64), ([0, 0], [1, 1])), shape=(2, 2)
    )
    for call in ONE_CALL:
        with pytest.raises(
            dmf.CapacitiesPast64Bits, match="^capacities past 64 bits: <Arc 2: 0 to 1>$"
        ):
            call(matrix, 0, 1)
        with pytest.raises(
            dmf.NumberTooLarge, match=r"^number too large: one of 65 bits in \(0, 1, "
        ):
            call(sparse.csr_matrix(numpy.array([[0, 2.0**64], [0, 0]])), 0, 1)


def test_faults() -> None:
    for call in ONE_CALL:
        with pytest.raises(dmf.NoSuchNode, match="^no such node: 'pond'$"):
            call(DICTIONARY, "lake", "pond")
        with pytest.raises(dmf.SourceAndSinkAreTheSame):
            call(DICTIONARY, "lake", "lake")
        with pytest.raises(dmf.NotANumber, match=r"^not a number: -1 in \('a', 'b', -1, None\): "):
            call({"a": {"b": -1}}, "a", "b")
        with pytest.raises(
            dmf.CapacitiesPast64Bits, match="^capacities past 64 bits: <Arc 2: 'b' to 'c'>$"
        ):
            call({"a": {"b": 2**63}, "b": {"c": 2**63}}, "a", "c")
        with pytest.raises(dmf.NoProgram, match="^/nowhere/dmf cannot be run: "):
            call(DICTIONARY, "lake", "sea", program="/nowhere/dmf")
        with script("echo dmf: no luck >&2; exit 9") as program:
            with pytest.raises(dmf.NoProgram, match="is not dmf"):
                call(DICTIONARY, "lake", "sea", program=program)


def test_nothing_is_left_behind() -> None:
    """Ctrl-C ends the program."""
    hanging = f'test "$1" != --version || exec "{BUILT}" "$@"\necho $$ >"$0.process"; exec sleep 60'
    with script(hanging) as program:
        with pytest.raises(KeyboardInterrupt), interrupted_when(has_written(f"{program}.process")):
            dmf.value(DICTIONARY, "lake", "sea", program=program)
        process, until = int(Path(f"{program}.process").read_text()), time.monotonic() + SECONDS
        while is_running(process):
            assert time.monotonic() < until
            time.sleep(0.01)
