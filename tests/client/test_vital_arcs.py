"""What is left of the greatest value without each arc or node, beside networkx on the network
without it, and beside closing each arc, or shutting each node, and solving."""

from __future__ import annotations

import time
from collections.abc import Iterable
from decimal import Decimal
from pathlib import Path
from random import Random
from typing import Any

import pytest
from client_shared import BUILT, dmf, has_written, interrupted_when, is_running, pipes, script
from limits import SECONDS
from packages import load

names = "pandas", "networkx"
pandas, networkx = map(load, names)
COUNT = 6
# An arc by its number, with its ends and its capacity.
Row = tuple[int, int, int, int]


def random_rows(random: Random) -> list[tuple[int, int, int]]:
    """Arcs between six nodes, among them loops, parallel ones, and some of capacity 0."""
    return [
        (random.randrange(COUNT), random.randrange(COUNT), random.choice([0, 1, 2, 3, 5, 9]))
        for _ in range(random.randrange(1, 24))
    ]


def greatest(rows: Iterable[Row]) -> int:
    """The greatest value from node 0 to the last one, by networkx."""
    graph = networkx.DiGraph()
    graph.add_nodes_from(range(COUNT))
    for _, tail, head, room in rows:
        so_far = graph[tail][head]["capacity"] if graph.has_edge(tail, head) else 0
        graph.add_edge(tail, head, capacity=so_far + room)
    return int(networkx.maximum_flow_value(graph, 0, COUNT - 1))


def changed(network: dmf.Network[int], random: Random) -> None:
    """Make random changes of all kinds."""
    for _ in range(random.randrange(8)):
        opened = list(network.arcs)
        arc = random.choice(opened) if opened else None
        change = random.randrange(6)
        if change == 0 and arc is not None:
            network.cap(arc, random.randrange(9))
        elif change == 1 and arc is not None:
            network.close(arc)
            if random.randrange(2):
                network.open(arc)
        elif change == 2:
            network.add(random.randrange(COUNT), random.randrange(COUNT), random.randrange(9))
        elif change == 3:
            network.solve()
        elif change == 4:
            network.shut(random.randrange(1, COUNT - 1))
        elif network._kept.place:
            network.undo()


def by_solves(network: dmf.Network[Any]) -> dict[int, Any]:
    """The greatest value without each open arc, by closing it and solving."""
    found = {}
    for arc in network.arcs:
        with network.try_out():
            network.close(arc)
            found[arc.number] = network.solve().value
    return found


def by_shutting(network: dmf.Network[Any], nodes: Iterable[Any]) -> list[Any]:
    """The greatest value without each of these nodes, by shutting it and solving."""
    found = []
    for node in nodes:
        with network.try_out():
            network.shut(node)
            found.append(network.solve().value)
    return found


@pytest.mark.parametrize("seed", range(60))
def test_networks(seed: int) -> None:
    random = Random(f"vital {seed}")
    rows = random_rows(random)
    with dmf.Network(rows, 0, COUNT - 1, nodes=range(COUNT)) as network:
        changed(network, random)
        opened = [(arc.number, arc.tail, arc.head, arc.capacity) for arc in network.arcs]
        before = (network.value, list(network.flow().values()), network.problem())
        found = network.vital()
        # The network is as it was, and its numbers are those of the arcs.
        assert (network.value, list(network.flow().values()), network.problem()) == before
        assert [arc.number for arc in found.arcs] == [*range(1, network._kept.arc_count + 1)]
        value = greatest(opened)
        wanted = {
            number: greatest(row for row in opened if row[0] != number) for number, *_ in opened
        }
        assert found.value == value
        assert list(found.values) == [wanted.get(arc.number, value) for arc in found.arcs]
        assert list(found.losses) == [value - wanted.get(arc.number, value) for arc in found.arcs]
        assert by_solves(network) == wanted
        ordered = sorted(found, key=lambda row: (-row[2], row[0].number))
        for top in 0, 1, 3, len(found), 10**6:
            assert list(network.vital(top=top)) == ordered[:top]
        judge_nodes(network, opened)
    if not rows:
        return
    frame = pandas.DataFrame(rows, columns=["tail", "head", "capacity"])
    given = [(number, *row) for number, row in enumerate(rows, 1)]
    wanted_values = [greatest(row for row in given if row[0] != arc[0]) for arc in given]
    ends = {node for row in rows for node in row[:2]}
    if {0, COUNT - 1} <= ends:
        for graph in rows, frame:
            once = dmf.vital(graph, 0, COUNT - 1)
            assert (once.value, list(once.values)) == (greatest(given), wanted_values)


def judge_nodes(network: dmf.Network[int], opened: list[Row]) -> None:
    """Compare the nodes of a network with these open arcs, among which are loops."""
    before = (network.value, list(network.flow().values()), network.problem())
    found = network.vital_nodes()
    assert (network.value, list(network.flow().values()), network.problem()) == before
    value, inner = greatest(opened), [*range(1, COUNT - 1)]
    left = [greatest(row for row in opened if node not in row[1:3]) for node in inner]
    assert (found.value, found.nodes, list(found.values)) == (value, inner, left)
    assert list(found.losses) == [value - it for it in left]
    assert by_shutting(network, inner) == left
    ordered = sorted(found, key=lambda row: (-row[2], row[0]))
    for top in 0, 1, len(found), 10**6:
        assert list(network.vital_nodes(top=top)) == ordered[:top]


@pytest.mark.parametrize("seed", range(20))
def test_undirected_edges(seed: int) -> None:
    """Without both arcs of an edge, the value is the lesser of those without one of them."""
    random = Random(f"vital undirected {seed}")
    graph = networkx.gnm_random_graph(COUNT, 9, seed=seed)
    for _, _, attributes in graph.edges(data=True):
        attributes["capacity"] = random.randrange(1, 9)
    found = dmf.vital(graph, 0, COUNT - 1)
    assert found.value == networkx.maximum_flow_value(graph, 0, COUNT - 1)
    left: dict[Any, int] = {}
    for arc, value, loss in found:
        edge = frozenset((arc.tail, arc.head))
        left[edge] = min(left.get(edge, value), value)
        assert loss == found.value - value
    for tail, head in list(graph.edges):
        less = graph.copy()
        less.remove_edge(tail, head)
        assert left[frozenset((tail, head))] == networkx.maximum_flow_value(less, 0, COUNT - 1)


def test_decimals() -> None:
    rows = [("a", "b", 0.3), ("a", "b", 0.1), ("b", "c", 0.25)]
    # Without the first row a tenth is left, and a quarter without the second one.
    wanted = [Decimal("0.1"), Decimal("0.25"), Decimal(0)]
    losses = [Decimal("0.15"), Decimal(0), Decimal("0.25")]
    once = dmf.vital(rows, "a", "c", scale=100)
    with dmf.Network.from_arrays(*zip(*rows), source="a", sink="c", scale=100) as network:
        for found in once, network.vital():
            assert (found.value, found.values, found.losses) == (Decimal("0.25"), wanted, losses)
            assert {type(number) for number in (*found.values, *found.losses)} == {Decimal}
        assert [(arc.number, loss) for arc, _, loss in network.vital(top=2)] == [
            (3, Decimal("0.25")),
            (1, Decimal("0.15")),
        ]
        scaled: Any = network
        scaled.add("a", "c", Decimal("0.07"))
        assert list(network.vital_nodes()) == [("b", Decimal("0.07"), Decimal("0.25"))]
        assert type(network.vital_nodes().value) is Decimal


def test_tables(tmp_path: Path) -> None:
    """Only arcs of the table are told, with the limits of its places in force."""
    path = tmp_path / "pipes.csv"
    path.write_text("from,to,capacity,name\nA,M,4.5,one\nB,M,3,two\nM,Z,9,out\n")
    with dmf.read_table(path, source=["A", "B"], sink="Z", limits={"M": 6}) as table:
        found = table.vital()
        assert [arc.key for arc in found.arcs] == ["one", "two", "out"]
        # The place lets 6 through: 4.5 and 1.5, or 3 alone without the first pipe.
        assert (found.value, found.values) == (6, [3, Decimal("4.5"), 0])
        assert [(arc.key, loss) for arc, _, loss in table.vital(top=1)] == [("out", 6)]
        table.close("two")
        assert table.vital().losses == [Decimal("4.5"), 0, Decimal("4.5")]


def test_places_of_tables(tmp_path: Path) -> None:
    """Each place of several sources or sinks is one of the nodes, with what it gives or takes; a
    place with a limit is one node, and what is the source or the sink alone is none."""
    path = tmp_path / "pipes.csv"
    path.write_text("from,to,capacity,name\nA,M,4.5,one\nB,M,3,two\nM,Z,9,out\nB,Z,1.5,by\n")
    sources: list[tuple[Any, Any]] = [({"A": 4, "B": None}, 4), (["A", "B"], Decimal("4.5"))]
    for source, alone in sources:
        with dmf.read_table(path, limits={"M": 6}, source=source, sink="Z") as table:
            # The place lets 6 through, and 1.5 goes beside it: A alone sends what it gives, and B 3
            # and 1.5.
            found = table.vital_nodes()
            assert [*found.nodes] == ["A", "M", "B"]
            assert (found.value, found.values) == (
                Decimal("7.5"),
                [Decimal("4.5"), Decimal("1.5"), alone],
            )
            assert by_shutting(table, found.nodes) == found.values
            assert [row[0] for row in table.vital_nodes(top=1)] == ["M"]
    sinks: list[Any] = ["Z", {"Z": 4}]
    every: list[dict[str, Any]] = [{}, {"Z": 5}, {"A": 5}, {"M": 4, "Z": 3, "A": 2}]
    for sink in sinks:
        for limits in every:
            with dmf.read_table(path, limits=limits, source="A", sink=sink) as table:
                found = table.vital_nodes()
                # A sink of which something is said is a node before that of the problem.
                inner = ["M", "B", *["Z"] * isinstance(sink, dict)]
                assert [*found.nodes] == inner
                assert found.values == by_shutting(table, inner)
                assert found.values == [0, table.solve().value, 0][: len(inner)]


def test_arcs_without_a_bound() -> None:
    graph = networkx.DiGraph()
    graph.add_edge("a", "b", capacity=5)
    graph.add_edge("b", "c")
    graph.add_edge("b", "d", capacity=2)
    graph.add_edge("d", "c")
    # Without the arc from b to c, what goes by way of d is left.
    found = dmf.vital(graph, "a", "c")
    assert {(arc.tail, arc.head): left for arc, left, _ in found} == {
        ("a", "b"): 0,
        ("b", "c"): 2,
        ("b", "d"): 5,
        ("d", "c"): 5,
    }
    with pytest.raises(dmf.CapacitiesPast64Bits, match="arcs without a bound$"):
        dmf.vital({"a": {"b": 2**63}, "b": {"c": None}}, "a", "c")
    most = 2**63 - 1
    assert list(dmf.vital({"a": {"b": most}, "b": {"c": None}}, "a", "c").losses) == [most, most]


def test_each_way_ends() -> None:
    for program in None, BUILT:
        with pipes(program=program) as network:
            assert list(network.vital().values) == [2, 3, 4, 3, 2]
            assert list(network.vital_nodes()) == [("mill", 2, 3), ("town", 2, 3)]
    for ask in network.vital, network.vital_nodes:
        with pytest.raises(dmf.SessionEnded, match="^the session was ended$"):
            ask()


def test_nodes_without_arcs() -> None:
    """Also those that are added later, and where the source comes after the sink."""
    for program in None, BUILT:
        with dmf.Network([("b", "a", 3)], "b", "a", nodes=["x", "a"], program=program) as network:
            network.add_node("y")
            assert list(network.vital_nodes()) == [("x", 3, 0), ("y", 3, 0)]
            network.solve()
            assert list(network.vital_nodes()) == [("x", 3, 0), ("y", 3, 0)]


@pytest.mark.parametrize("top", [-1, "three", 1.5])
def test_wrong_counts(top: Any) -> None:
    with pipes() as network:
        with pytest.raises(dmf.NotANumber, match="in 'vital': a number of arcs is a whole number"):
            network.vital(top)
        with pytest.raises(dmf.NotANumber, match="a number of nodes is a whole number"):
            network.vital_nodes(top)


@pytest.mark.parametrize(
    "answer",
    [
        "c value 5",
        "c value 5\nv 2 4",
        "c value 5\nv 1 2\nv 2 4",
        "c value 5\nv 1 x",
        "s 5",
        "c value x",
    ],
)
def test_answers_that_are_not_understood(answer: str) -> None:
    """An answer has the value, and each arc of the problem in its order."""
    with script(f"printf '{answer}\n'") as program:
        with pytest.raises(dmf.SessionEnded, match="^dmf's answer to `vital` was not understood$"):
            dmf.vital([("a", "b", 1)], "a", "b", program=program)


@pytest.mark.parametrize("answer", ["v 1 2", "v 2 x", "v 2 3\nv 3 3", ""])
def test_answers_about_nodes(answer: str) -> None:
    """An answer has each node but the source and the sink, in their order."""
    with script(f'test "$1" = vital || exec "{BUILT}" "$@"\nprintf "c value 3\n{answer}\n"') as it:
        with dmf.Network([("a", "b", 3), ("b", "c", 3)], "a", "c", program=it) as network:
            said = "^dmf's answer to `vital --nodes` was not understood$"
            with pytest.raises(dmf.SessionEnded, match=said):
                network.vital_nodes()


def test_interrupted() -> None:
    """Ctrl-C ends the program that looks for the values, and leaves the network as it was."""
    with script(
        f'test "$1" = vital || exec "{BUILT}" "$@"\necho $$ >"$0.process"; exec sleep 60'
    ) as program:
        with pipes(program=program) as network:
            plan = network.solve()
            with pytest.raises(KeyboardInterrupt), interrupted_when(
                has_written(f"{program}.process")
            ):
                network.vital()
            process, until = int(Path(f"{program}.process").read_text()), time.monotonic() + SECONDS
            while is_running(process):
                assert time.monotonic() < until
                time.sleep(0.01)
            assert (network.value, network.flow() == plan, network.undo()) == (5, True, 0)


def test_shown() -> None:
    with pipes() as network:
        found = network.vital(top=2)
        assert repr(found) == "<VitalArcs of value 5 on 2 arcs>"
        table = found._repr_html_()
        assert all(text in table for text in ("lake", "mill", "without", "loss"))
        nodes = network.vital_nodes()
        assert repr(nodes) == "<VitalNodes of value 5 on 2 nodes>"
        table = nodes._repr_html_()
        assert all(text in table for text in ("node", "mill", "town", "without", "loss"))
        assert "lake" not in table
