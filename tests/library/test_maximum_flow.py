"""A maximum flow of a session's network, without a solve: on networks that were worked by hand, on
random ones beside the second implementation, on larger ones beside networkx, and for each answer
what is written."""

from __future__ import annotations

from contextlib import suppress
from dataclasses import replace
from itertools import product
from random import Random

import networkx
import pytest
import random_cases
from c_library import BAD_LENGTH, CSession, Library, Refused, library_folder
from oracle.network import Arc, State, is_greatest, smallest_side, solved

NODES, ARCS = 4, 5
FEW, MANY, BATCHES = 400, 40_000, 4


@pytest.fixture(scope="module")
def library() -> Library:
    return Library(library_folder())


def found(session: CSession) -> tuple[int, tuple[int, ...], tuple[int, ...]]:
    """The value, the flows and the side. They are the same if some are not asked for, and the
    session is as it was."""
    before, arcs, nodes = session.state(), session.number("arcs"), session.number("nodes")
    whole = session.maximum_flow(arcs, nodes)
    value, flows, side = whole
    assert session.maximum_flow(0, 0) == (value, (), ())
    assert session.maximum_flow(0, nodes) == (value, (), side)
    assert session.maximum_flow(arcs, 0)[0] == value
    session.check(session.maximum_flow(arcs, 0)[1])
    assert session.state() == before
    return whole


def test_by_hand(library: Library) -> None:
    """Arcs 1 and 2 can send 5, and arcs 4 and 5 can take 5. Without arc 4 only arc 5 leads to the
    sink, and takes 3; with capacity 9 it takes the 5 that arcs 1 and 2 send."""
    with library.example() as session:
        for step in None, ("solve",):
            if step:
                session.step(*step)
            assert found(session) == (5, (3, 2, 1, 2, 3), (1, 0, 0, 0))
        session.step("close", 4)
        value, flows, side = found(session)
        assert (value, flows[3:], side) == (3, (0, 3), (1, 1, 1, 0))
        session.step("cap", 5, 9)
        assert found(session) == (5, (3, 2, 3, 0, 5), (1, 0, 0, 0))
        session.step("undo", 1)
        assert found(session)[0] == 3
        session.step("shut", 3)
        # No arc leads to the sink any more, and arc 1 leads to node 2.
        assert found(session) == (0, (0,) * ARCS, (1, 1, 0, 0))


def test_a_loop_and_arcs_into_the_source_and_out_of_the_sink(library: Library) -> None:
    arcs = [(1, 2, 4), (2, 2, 9), (2, 3, 3), (2, 1, 5), (3, 2, 6), (1, 3, 7)]
    with library.open(3, (1, 3), arcs) as session:
        value, flows, side = found(session)
        assert (value, side) == (10, (1, 1, 0)) and (flows[2] - flows[4], flows[5]) == (3, 7)


def test_a_network_without_arcs(library: Library) -> None:
    with library.open(2, (2, 1), []) as session:
        assert found(session) == (0, (), (0, 1))


def test_the_largest_capacity(library: Library) -> None:
    most = 2**64 - 1
    with library.open(3, (1, 3), [(1, 2, most - 9), (2, 3, 9)]) as session:
        assert found(session) == (9, (9, 9), (1, 1, 0))
    with library.open(2, (1, 2), [(1, 2, most)]) as session:
        assert found(session) == (most, (most,), (1, 0))


@pytest.mark.parametrize(
    ("flow_count", "side_count"),
    [
        pair
        for pair in product(range(ARCS + 3), range(NODES + 3))
        if pair[0] not in (0, ARCS) or pair[1] not in (0, NODES)
    ],
)
def test_an_array_of_another_length(library: Library, flow_count: int, side_count: int) -> None:
    """Also if the other array has its length, before and after a solve."""
    with library.example() as session:
        for _ in range(2):
            before = session.state()
            with pytest.raises(Refused) as refused:
                session.maximum_flow(flow_count, side_count)
            assert refused.value.status == BAD_LENGTH and session.state() == before
            session.step("solve")


def changed(session: CSession, random: Random, wanted: State) -> None:
    """Make some changes; some are solves."""
    for _ in range(random.randrange(6)):
        arc, node = random.randint(1, len(wanted.arcs) or 1), random.randint(1, wanted.nodes)
        steps: list[tuple[str, list[int]]] = [
            ("close", [arc]),
            ("shut", [node]),
            ("cap", [arc, random.randrange(9)]),
            ("add", [node, random.randint(1, wanted.nodes), random.randrange(9)]),
            ("solve", []),
            ("undo", [1]),
            ("redo", [1]),
        ]
        word, numbers = random.choice(steps)
        with suppress(Refused):
            session.step(word, *numbers)


@pytest.mark.seconds(3)
@pytest.mark.parametrize("batch", range(BATCHES))
def test_random_sessions(library: Library, batch: int, request: pytest.FixtureRequest) -> None:
    random = Random(f"maximum flow {request.config.getoption('--seed')} {batch}")
    count = (MANY if request.config.getoption("--long") else FEW) // BATCHES
    some_sent = 0
    for _ in range(count):
        wanted = random_cases.fitting(random_cases.network(random, 8))
        if wanted.source == wanted.sink:
            continue
        ends = wanted.source, wanted.sink
        with library.open(wanted.nodes, ends, [arc[:3] for arc in wanted.arcs]) as session:
            changed(session, random, wanted)
            count_now = session.number("arcs")
            columns = session.arc_range(1, count_now, [count_now] * 5)
            arcs = tuple(
                Arc(tail, head, cap, mark == 1) for tail, head, cap, _, mark in zip(*columns)
            )
            value, flows, side = found(session)
            now = replace(wanted, arcs=arcs, flows=flows)
            assert all(0 <= flow <= arc.cap for flow, arc in zip(flows, arcs))
            assert set(now.excesses()) <= set(ends)
            best = solved(replace(now, flows=(0,) * len(arcs)))
            assert now.value() == value == best.value() and is_greatest(now)
            assert smallest_side(best) == ([v for v, mark in enumerate(side, 1) if mark], value)
            some_sent += value > 0
    assert some_sent > count // 4


@pytest.mark.parametrize("seed", range(3))
def test_beside_networkx(library: Library, seed: int) -> None:
    """On 600 nodes and 3,000 arcs, with arcs closed and parallel ones."""
    random = Random(f"maximum flow beside networkx {seed}")
    arcs = [
        (random.randint(1, 600), random.randint(1, 600), random.randrange(50)) for _ in range(3_000)
    ]
    arcs += [(1, random.randint(2, 600), 500) for _ in range(20)]
    arcs += [(random.randint(1, 599), 600, 500) for _ in range(20)]
    closed = set(random.sample(range(1, 3_001), 300))
    graph = networkx.DiGraph()
    graph.add_nodes_from((1, 600))
    for number, (tail, head, capacity) in enumerate(arcs, 1):
        if number not in closed:
            before = graph.get_edge_data(tail, head, {"capacity": 0})["capacity"]
            graph.add_edge(tail, head, capacity=before + capacity)
    with library.open(600, (1, 600), arcs) as session:
        for number in closed:
            session.step("close", number)
        value, flows, _ = found(session)
        assert value == networkx.maximum_flow_value(graph, 1, 600) > 0
        assert all(flows[number - 1] == 0 for number in closed)
        session.step("solve")
        assert found(session)[0] == session.number("value") == value
        assert [v for v, mark in enumerate(found(session)[2], 1) if mark] == session.side()
