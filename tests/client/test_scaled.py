"""Capacities with decimals and a scale: values, flows and cuts are exact, in the numbers of the
caller, beside networkx on whole numbers that fractions make."""

from __future__ import annotations

import pickle
import re
from collections import defaultdict
from collections.abc import Callable
from decimal import Decimal
from fractions import Fraction
from pathlib import Path
from random import Random
from typing import Any

import pytest
from client_shared import dmf
from packages import load

names = "numpy", "pandas", "networkx", "igraph", "scipy.sparse"
numpy, pandas, networkx, igraph, sparse = map(load, names)
# Calls whose arguments no type checker judges here.
FROM_ARRAYS: Any = dmf.Network.from_arrays
VALUE: Any = dmf.value
MAXIMUM_FLOW: Any = dmf.maximum_flow
Row = tuple[int, int, float]
COUNT = 6


def random_rows(random: Random, *, is_simple: bool = False) -> list[Row]:
    """Arcs with capacities of at most two decimals, between six nodes."""
    pairs = [(tail, head) for tail in range(COUNT) for head in range(COUNT) if tail != head]
    chosen = random.sample(pairs, 14) if is_simple else random.choices(pairs, k=18)
    return [(tail, head, random.randrange(1, 900) / 100) for tail, head in chosen]


def exactly(number: float) -> Fraction:
    """The number that stands in a program's text as its float: 0.1 is a tenth."""
    return Fraction(str(number))


def wanted_value(rows: list[Row], source: int = 0, sink: int = COUNT - 1) -> Fraction:
    """The greatest value by networkx, in hundredths."""
    graph = networkx.DiGraph()
    graph.add_nodes_from(range(COUNT))
    for tail, head, room in rows:
        whole = exactly(room) * 100
        assert whole.denominator == 1
        so_far = graph[tail][head]["capacity"] if graph.has_edge(tail, head) else 0
        graph.add_edge(tail, head, capacity=so_far + int(whole))
    return Fraction(networkx.maximum_flow_value(graph, source, sink), 100)


def judge(rows: list[Row], flows: list[Any], value: Fraction) -> None:
    """Exact flows on rows have a value."""
    excess: defaultdict[int, Fraction] = defaultdict(Fraction)
    for (tail, head, room), flow in zip(rows, flows):
        assert type(flow) is Decimal and 0 <= flow <= exactly(room)
        excess[head] += Fraction(flow)
        excess[tail] -= Fraction(flow)
    assert len(rows) == len(flows)
    kept = {node: amount for node, amount in excess.items() if amount}
    assert kept == ({0: -value, COUNT - 1: value} if value else {})


def frame_of(rows: list[Row]) -> Any:
    return pandas.DataFrame(rows, columns=["tail", "head", "capacity"])


def arrays_of(rows: list[Row]) -> list[Any]:
    tails, heads, rooms = zip(*rows)
    return [numpy.array(tails), numpy.array(heads), numpy.array(rooms)]


MADE: dict[str, Callable[..., Any]] = {
    "lists": lambda rows, **more: FROM_ARRAYS(*map(list, zip(*rows)), **more),
    "arrays": lambda rows, **more: FROM_ARRAYS(*arrays_of(rows), **more),
    "narrow arrays": lambda rows, **more: FROM_ARRAYS(
        *arrays_of(rows)[:2], arrays_of(rows)[2].astype("float32"), **more
    ),
    "frame": lambda rows, **more: dmf.Network.from_frame(frame_of(rows), **more),
    "decimals": lambda rows, **more: FROM_ARRAYS(
        *list(map(list, zip(*rows)))[:2], [Decimal(str(row[2])) for row in rows], **more
    ),
    "fractions": lambda rows, **more: FROM_ARRAYS(
        *list(map(list, zip(*rows)))[:2], [exactly(row[2]) for row in rows], **more
    ),
}


@pytest.mark.parametrize("way", MADE)
@pytest.mark.parametrize("seed", range(4))
def test_networks(way: str, seed: int) -> None:
    random = Random(f"scaled {seed}")
    rows = random_rows(random)
    with MADE[way](rows, source=0, sink=COUNT - 1, nodes=range(COUNT), scale=100) as network:
        assert type(network) is dmf.ScaledNetwork
        value = wanted_value(rows)
        plan = network.solve()
        assert (type(plan.value), plan.value, network.value) == (Decimal, value, value)
        judge(rows, list(plan.values()), value)
        judge(rows, [plan[arc] for arc in network.arcs], value)
        judge(rows, [flow for _, flow in plan.items()], value)
        judge(rows, [arc.flow for arc in network.arcs], value)
        assert [arc.capacity for arc in network.arcs] == [exactly(room) for _, _, room in rows]
        cut: Any = network.cut()
        assert (cut.capacity, sum(arc.capacity for arc in cut.arcs)) == (value, value)
        assert {(arc.tail, arc.head) for arc in cut.arcs} == {
            (tail, head) for tail, head, _ in rows if tail in cut.side and head not in cut.side
        }
        # Changes take and give the same numbers.
        first, left = network.arcs[0], [(*rows[0][:2], 0.05), *rows[1:]]
        assert network.cap(first, 0.05) <= value
        assert network.capacity(first) == Decimal("0.05")
        assert network.solve().value == wanted_value(left)
        added = network.add(0, COUNT - 1, Decimal("1.25"))
        assert network.solve()[added] == Decimal("1.25")
        assert network.value == wanted_value(left) + Fraction(5, 4)
        assert network.undo(4) == value
        assert network.redo(2) == wanted_value(left)
        with network.copy() as copy:
            assert type(copy) is dmf.ScaledNetwork
            assert (copy.value, copy.flow() == network.flow()) == (wanted_value(left), False)
            assert list(copy.flow().values()) == list(network.flow().values())


def test_arrays_frames_and_dictionaries() -> None:
    rows = random_rows(Random("shapes"))
    with MADE["lists"](rows, source=0, sink=COUNT - 1, scale=100) as network:
        plan = network.solve()
        flows = list(plan.values())
        # numpy has no decimals: each is the nearest float, which is the one that was written.
        assert plan.array().tolist() == [float(flow) for flow in flows]
        frame = plan.frame()
        assert list(frame["flow"]) == flows
        assert list(frame["capacity"]) == [exactly(room) for _, _, room in rows]
        wanted: dict[int, dict[int, Any]] = {node: {} for node in network.nodes}
        for (tail, head, _), flow in zip(rows, flows):
            wanted[tail][head] = wanted[tail].get(head, 0) + flow
        assert plan.flow_dict() == wanted
        matrix = plan.flow_matrix().toarray()
        for tail, heads in wanted.items():
            for head, flow in heads.items():
                at = network.nodes.index(tail), network.nodes.index(head)
                assert matrix[at] == float(flow)
        assert plan.between(*rows[0][:2]) == wanted[rows[0][0]][rows[0][1]]
        again = pickle.loads(pickle.dumps(plan))
        assert (again.value, list(again.values())) == (plan.value, flows)
        edges = network.to_networkx().edges(keys=True, data=True)
        assert {number: (edge["capacity"], edge["flow"]) for *_, number, edge in edges} == {
            number: (exactly(room), flow)
            for number, ((_, _, room), flow) in enumerate(zip(rows, flows), 1)
        }


@pytest.mark.parametrize("seed", range(8))
def test_one_call(seed: int) -> None:
    rows = random_rows(Random(f"once {seed}"), is_simple=True)
    value, ends = wanted_value(rows), (0, COUNT - 1)
    directed = networkx.DiGraph()
    directed.add_nodes_from(range(COUNT))
    directed.add_weighted_edges_from(rows, weight="capacity")
    dense = numpy.zeros((COUNT, COUNT))
    for tail, head, room in rows:
        dense[tail, head] = room
    mine = igraph.Graph(n=COUNT, edges=[row[:2] for row in rows], directed=True)
    mine.es["capacity"] = [room for _, _, room in rows]
    dictionary: dict[int, dict[int, float]] = {node: {} for node in range(COUNT)}
    for tail, head, room in rows:
        dictionary[tail][head] = room
    given: list[Any] = [directed, sparse.csr_matrix(dense), mine, dictionary]
    for graph in given:
        for found in (
            VALUE(graph, *ends, scale=100),
            dmf.minimum_cut(graph, *ends, scale=100)[0],
            MAXIMUM_FLOW(graph, *ends, scale=100)[0],
        ):
            assert (type(found), found) == (Decimal, value)
    for graph in frame_of(rows), tuple(arrays_of(rows)):
        assert VALUE(graph, *ends, scale=100) == value
    assert VALUE(rows, *ends, scale=1000) == value
    for graph in directed, dictionary:
        flows = MAXIMUM_FLOW(graph, *ends, scale=100)[1]
        judge(rows, [flows[tail][head] for tail, head, _ in rows], value)
    judge(rows, list(MAXIMUM_FLOW(mine, *ends, scale=100).flow), value)
    net = MAXIMUM_FLOW(sparse.csr_matrix(dense), *ends, scale=100).flow.toarray()
    assert (net == -net.T).all() and (net <= dense).all()
    assert abs(net.sum(axis=1)[0] - float(value)) < 1e-9
    makes: list[tuple[Any, Any]] = [
        (dmf.from_networkx, directed),
        (dmf.from_scipy, sparse.csr_matrix(dense)),
        (dmf.from_igraph, mine),
    ]
    for make, graph in makes:
        with make(graph, *ends, scale=100) as network:
            assert network.solve().value == value


def test_what_floats_cannot_add() -> None:
    """0.1 + 0.2 is 0.3 here."""
    rows = [("a", "b", 0.1), ("a", "b", 0.2)]
    assert VALUE(rows, "a", "b", scale=10) == Decimal("0.3")
    assert repr(VALUE(rows, "a", "b", scale=10)) == "Decimal('0.3')"
    # A scale of 1 leaves whole numbers as they are.
    assert repr(VALUE([("a", "b", 3.0)], "a", "b", scale=1)) == "3"
    assert VALUE([("a", "b", Fraction(1, 4))], "a", "b", scale=4) == Decimal("0.25")
    # A fraction of 40 decimals is exact, too.
    assert VALUE([("a", "b", Fraction(1, 2**40))], "a", "b", scale=2**40) == Fraction(
        1, 2**40
    )
    assert VALUE([("a", "b", 5 * 10**20)], "a", "b", scale=Decimal("0.01")) == 5 * 10**20


def test_missing_capacities() -> None:
    rows: list[Any] = [("a", "b", None), ("b", "c", 2.5)]
    assert VALUE(rows, "a", "c", infinite=1.5, scale=10) == Decimal("1.5")
    assert VALUE({"a": {"b": None}, "b": {"c": 2.5}}, "a", "c", scale=10) == Decimal("2.5")
    with pytest.raises(dmf.Unbounded):
        VALUE({"a": {"b": None}}, "a", "b", scale=10)
    nan = numpy.array([numpy.nan, 2.5])
    ends = numpy.array([0, 1]), numpy.array([1, 2])
    more: dict[str, Any] = {"source": 0, "sink": 2, "scale": 10}
    with FROM_ARRAYS(*ends, nan, infinite=0.7, **more) as network:
        assert network.solve().value == Decimal("0.7")
    with pytest.raises(dmf.NotANumber, match=r"^not a number: nan in \(0, 1, nan\): "):
        FROM_ARRAYS(*ends, nan, **more)


FAULTS: list[tuple[object, int, str]] = [
    (0.25, 10, "0.25 in {at} has 2 decimals, and 1 is the most here; scale=100 is enough for it"),
    (0.3, 4, "0.3 in {at} times 4 is not a whole number; scale=10 is enough for it"),
    (-0.5, 10, "-0.5 in {at} is below 0"),
    (1e30, 10, "1e+30 in {at} is past 1844674407370955161.5"),
    ("much", 10, "'much' in {at} is not a number"),
    (Fraction(1, 3), 10, "Fraction(1, 3) in {at} is not a finite decimal"),
    (10**50, 10, f"{10**50} in {{at}} is past 1844674407370955161.5"),
    (1e-30, 10, "1e-30 in {at} has 30 decimals, and 1 is the most here"),
]


@pytest.mark.parametrize(("capacity", "scale", "said"), FAULTS)
def test_faults(capacity: Any, scale: int, said: str) -> None:
    """Each names its arc."""
    calls: list[tuple[object, Any]] = [
        (("a", "b", capacity), lambda: VALUE([("a", "b", capacity)], "a", "b", scale=scale)),
        (
            ("a", "b", capacity),
            lambda: FROM_ARRAYS(["a"], ["b"], [capacity], source="a", sink="b", scale=scale),
        ),
        (
            ("a", "b", capacity, None),
            lambda: MAXIMUM_FLOW({"a": {"b": capacity}}, "a", "b", scale=scale),
        ),
    ]
    for at, call in calls:
        with pytest.raises(dmf.NotANumber) as caught:
            call()
        assert str(caught.value) == f"not a number: {said.format(at=at)}"


def test_calls_refuse_more_decimals() -> None:
    rows = [["a"], ["b"], [1.5]]
    with FROM_ARRAYS(*rows, source="a", sink="b", scale=10) as network:
        arc = network.arcs[0]
        said = f"not a number: 0.25 in {arc!r} has 2 decimals, and 1 is the most here"
        with pytest.raises(dmf.NotANumber, match=f"^{re.escape(said)}$"):
            network.cap(arc, 0.25)
        with pytest.raises(dmf.NotANumber, match="has 2 decimals"):
            network.add("a", "b", 0.25)
        assert (network.cap(arc, "0.7"), network.solve().value) == (0, Decimal("0.7"))


@pytest.mark.parametrize("scale", [60, 3, 0, -10, float("nan"), float("inf"), "ten", 10**50])
def test_no_scale(scale: Any) -> None:
    said = re.escape("expected a scale such as 10, 1000 or 4, which divides whole numbers into ")
    calls: list[Any] = [
        lambda: VALUE([("a", "b", 1)], "a", "b", scale=scale),
        lambda: FROM_ARRAYS(["a"], ["b"], [1], source="a", sink="b", scale=scale),
    ]
    for call in calls:
        with pytest.raises(ValueError, match=f"^{said}.*{re.escape(repr(scale))}$"):
            call()


def test_written_and_read(tmp_path: Path) -> None:
    """A file tells the scale, so that it is read in the same numbers."""
    rows = random_rows(Random("written"))
    with MADE["lists"](rows, source=0, sink=COUNT - 1, scale=100) as network:
        network.write(tmp_path / "problem.max")
        with dmf.read(tmp_path / "problem.max") as again:
            assert again.solve().value == network.solve().value == wanted_value(rows)


def test_sweeps() -> None:
    rows = random_rows(Random("swept"))
    with MADE["lists"](rows, source=0, sink=COUNT - 1, nodes=range(COUNT), scale=100) as network:
        network.solve()
        closed: list[Any] = list(dmf.sweep(network, dmf.each_arc_closed(), jobs=1))
        for number, result in enumerate(closed):
            wanted = wanted_value(rows[:number] + rows[number + 1 :])
            assert (type(result.value), result.value) == (Decimal, wanted)
            assert result.difference == wanted - wanted_value(rows)
        cases: list[Any] = [[("add", 0, COUNT - 1, 0.75)], lambda it: it.add(0, COUNT - 1, 0.75)]
        for result in list[Any](dmf.sweep(network, cases, jobs=1)):
            assert (result.refusal, result.difference) == (None, Decimal("0.75"))
