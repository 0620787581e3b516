"""Networks of columns, and flows as columns: lists, arrays of numpy, frames of pandas, graphs of
networkx and matrices of scipy."""

from __future__ import annotations

import subprocess
import sys
from array import array
from random import Random
from typing import Any

import pytest
from client_shared import BUILT, CLIENT, PIPES, dmf, pipes, written
from dmf.session import column_texts
from packages import load

LARGEST = 2**64 - 1
numpy, pandas, networkx, scipy = map(load, ("numpy", "pandas", "networkx", "scipy"))


TAIL, HEAD, CAPACITY = (list(column) for column in zip(*PIPES))


def test_lists() -> None:
    lists: list[list[Any]] = [
        [TAIL, HEAD, CAPACITY],
        [tuple(TAIL), HEAD, array("Q", CAPACITY)],
        [iter(TAIL), iter(HEAD), iter(CAPACITY)],
    ]
    for tail, head, capacity in lists:
        with dmf.Network.from_arrays(
            tail, head, capacity, source="lake", sink="sea", nodes=["pond"]
        ) as network:
            with dmf.Network(PIPES, "lake", "sea", nodes=["pond"]) as rows:
                assert (network.problem(), network.solve().value) == (rows.problem(), 5)


def test_keys_and_missing_capacities() -> None:
    missing: list[Any] = [None, float("inf"), float("nan"), 2, 3]
    with dmf.Network.from_arrays(
        TAIL, HEAD, missing, key=["a", None, "c", "d", "e"], source="lake", sink="sea", infinite=9
    ) as network:
        assert [arc.capacity for arc in network.arcs] == [9, 9, 9, 2, 3]
        assert [arc.given_key for arc in network.arcs] == ["a", None, "c", "d", "e"]
    for amount in None, float("inf"), float("nan"), 0.5, -1:
        with pytest.raises(dmf.NotANumber, match=r"in \('lake', 'town', "):
            dmf.Network.from_arrays(TAIL, HEAD, [1, amount, 1, 1, 1], source="lake", sink="sea")
    with pytest.raises(dmf.NotAnArc, match="several lengths: 1, 5"):
        dmf.Network.from_arrays(TAIL, HEAD, [1], source="lake", sink="sea")


def test_columns_without_an_order() -> None:
    """Their values would be put beside each other by chance."""
    by_name = {"lake": 1, "mill": 2}
    columns: list[Any] = [
        {"lake", "mill"},
        frozenset(["lake", "mill"]),
        by_name,
        by_name.keys(),
        by_name.values(),
        by_name.items(),
    ]
    for column in columns:
        for place in range(4):
            taken: list[Any] = [["lake", "mill"], ["mill", "sea"], [1, 2], None]
            taken[place] = column
            with pytest.raises(
                dmf.NotAnArc,
                match=f"^not an arc: a column is a {type(column).__name__}, and not a list$",
            ):
                dmf.Network.from_arrays(*taken[:3], key=taken[3], source="lake", sink="sea")


def test_infinite_is_a_capacity() -> None:
    """It is judged where no arc needs it, too."""
    for infinite in -1, "9", float("inf"), 2**64:
        wrong: Any = infinite
        with pytest.raises((dmf.NotANumber, dmf.NumberTooLarge), match="in 'infinite': a capac"):
            dmf.Network.from_arrays(TAIL, HEAD, CAPACITY, source="lake", sink="sea", infinite=wrong)
        if networkx:
            with pytest.raises(
                (dmf.NotANumber, dmf.NumberTooLarge), match="in 'infinite': a capac"
            ):
                dmf.from_networkx(networkx.DiGraph([("a", "b")]), "a", "b", infinite=wrong)


def test_a_frame_is_anything_with_columns() -> None:
    frame = {"tail": TAIL, "head": HEAD, "litres": CAPACITY, "name": list("vwxyz")}
    with dmf.Network.from_frame(
        frame, capacity="litres", key="name", source="lake", sink="sea"
    ) as network:
        assert (network.solve()["x"], network.arc("z").tail) == (1, "town")
    with pytest.raises(KeyError):
        dmf.Network.from_frame(frame, source="lake", sink="sea")


@pytest.fixture(params=["with numpy", "without numpy"])
def numpy_or_none(request: pytest.FixtureRequest, monkeypatch: pytest.MonkeyPatch) -> None:
    """With numpy, where it is there, and without it: problems are written and read in two ways."""
    monkeypatch.setattr(
        column_texts, "loaded_numpy", lambda: numpy if request.param == "with numpy" else None
    )


@pytest.mark.usefixtures("numpy_or_none")
def test_numbers_of_all_lengths() -> None:
    """Numbers of each count of digits, also more arcs than are written at once, reach the program
    and come back."""
    random = Random("lengths")
    for count in 1, 3, column_texts.PIECE, 2 * column_texts.PIECE + 5:
        rows = [
            (
                random.randrange(10 ** random.randint(1, 5)),
                -1,
                random.randrange(10 ** random.randint(0, 14)),
            )
            for _ in range(count)
        ]
        rows.append((-1, -2, 10**18))
        with dmf.Network(rows, -1, -2) as network:
            for number in range(19):
                network.add(-1, -2, 10**number // 9)
            network.close(network.arcs[count])
            text = network.problem(names=False)
            wanted = [
                (*(network._kept.number(node) for node in row[:2]), row[2]) for row in rows[:-1]
            ]
            wanted += [
                (network._kept.number(-1), network._kept.number(-2), 10**number // 9)
                for number in range(19)
            ]
            assert [tuple(map(int, line.split()[1:])) for line in text.splitlines()[3:]] == wanted
            with written(text.encode()) as path, dmf.read(path) as again:
                assert again.problem() == text
            copy = network.copy()
            assert (copy.problem(names=False), copy.solve().value) == (text, network.solve().value)
            copy.end()


def test_what_is_missing_is_named() -> None:
    """In an interpreter that finds no packages: each call says which one it needs, and all else
    works."""
    script = (
        "import dmf; plan = dmf.Network([('a', 'b', 1)], 'a', 'b').solve(); print(plan['a', 'b'])\n"
    )
    script += (
        "for call in plan.array, plan.frame, plan.flow_matrix:\n    try: call()\n    except "
        "ImportError as error: print(error.name)"
    )
    words = [sys.executable, "-S", "-c", f"import sys; sys.path.insert(0, {CLIENT!r})\n{script}"]
    ran = subprocess.run(words, env={"DMF": BUILT}, capture_output=True, text=True)
    assert (ran.stdout, ran.stderr) == ("1\nnumpy\nnumpy\nnumpy\n", "")


def same(tail: Any, head: Any, capacity: Any, **options: Any) -> None:
    """An array gives the network that its rows give."""
    source, sink = tail.tolist()[0], head.tolist()[-1]
    rows = list(zip(tail.tolist(), head.tolist(), capacity.tolist()))
    with dmf.Network.from_arrays(
        tail, head, capacity, source=source, sink=sink, **options
    ) as network:
        with dmf.Network(rows, source, sink, **options) as wanted:
            assert (network.nodes, network.problem()) == (wanted.nodes, wanted.problem())
            plan, other = network.solve(), wanted.solve()
            assert plan.array().tolist() == list(other.values())
            assert [type(node) for node in network.nodes] == [type(node) for node in wanted.nodes]


def test_random_arrays() -> None:
    random = Random("arrays")
    for _ in range(60):
        count, most = random.randint(1, 30), random.choice([3, 50, 10**12])
        low = random.choice([0, 1, -5])
        ends = [[random.randint(low, most) for _ in range(count)] for _ in range(2)]
        ends[1][-1] = ends[0][0] + 1
        amounts = [random.choice([0, 1, 7, 12345, 2**40]) for _ in range(count)]
        kind = random.choice([numpy.int64, numpy.uint64 if low >= 0 else numpy.int64])
        capacity = numpy.array(amounts, random.choice([numpy.int64, numpy.uint64, numpy.float64]))
        same(
            numpy.array(ends[0], kind),
            numpy.array(ends[1], kind),
            capacity,
            nodes=random.choice([[], [0, most], range(60), range(2, 9)]),
        )


def test_other_kinds() -> None:
    same(numpy.array(TAIL), numpy.array(HEAD), numpy.array(CAPACITY))
    same(numpy.array(TAIL, object), numpy.array(HEAD, object), numpy.array(CAPACITY, numpy.int8))
    same(
        numpy.array([1, 2], numpy.int8), numpy.array([2, 3], numpy.uint8), numpy.array([True, True])
    )


def test_capacities() -> None:
    ends = numpy.array([1, 1]), numpy.array([2, 2])
    make = dmf.Network.from_arrays
    for amounts in ([1.0, 0.5], [1.0, float("nan")], [1.0, float("inf")], [1.0, -1.0], [1, -1]):
        with pytest.raises(dmf.NotANumber, match=r"in \(1, 2, "):
            make(*ends, numpy.array(amounts), source=1, sink=2)
    with pytest.raises(dmf.NumberTooLarge):
        make(*ends, numpy.array([1.0, 2.0**64]), source=1, sink=2)
    with make(
        *ends, numpy.array([1.0, float("inf")]), source=1, sink=2, infinite=2**63
    ) as network:
        plan = network.solve()
        assert (plan.value, plan.array().tolist(), plan.array().dtype.kind) == (
            2**63 + 1,
            [1, 2**63],
            "u",
        )
    with make(
        *ends, numpy.array([1, LARGEST - 1], numpy.uint64), source=1, sink=2, key=["x", "y"]
    ) as network:
        assert (network.solve().value, network.capacity("y")) == (LARGEST, LARGEST - 1)
    with make(
        numpy.array([], int),
        numpy.array([], int),
        numpy.array([], int),
        source=1,
        sink=2,
        nodes=[1, 2],
    ) as network:
        assert (network.solve().array().tolist(), network.flow().array().dtype.kind) == ([], "i")


def test_flows_after_a_close() -> None:
    with pipes() as network:
        network.solve()
        network.close(("lake", "mill"))
        network.add("lake", "sea", 7)
        plan = network.solve()
        assert (plan.array().tolist(), list(plan.values()), plan.array().tolist()) == (
            [2, 0, 0, 2, 7],
        ) * 3


def test_frames() -> None:
    frame = pandas.DataFrame(PIPES, columns=["tail", "head", "capacity"])
    frame["name"] = ["a", None, "c", float("nan"), "e"]
    with dmf.Network.from_frame(frame, key="name", source="lake", sink="sea") as network:
        network.close("a")
        network.add("lake", "sea", 7, "canal")
        told = network.solve().frame()
        network.cap("canal", 1)
    assert told.index.tolist() == [2, 3, 4, 5, 6]
    assert told["flow"].tolist() == [2, 0, 0, 2, 7]
    # Capacities are those of the time of the flow.
    assert told["capacity"].tolist() == [2, 5, 2, 3, 7]
    assert told["key"].tolist() == [None, "c", None, "e", "canal"]
    assert list(zip(told["tail"], told["head"]))[-1] == ("lake", "sea")


def test_there_and_back() -> None:
    with dmf.Network(
        [("a", "b", 3), ("a", "b", 4, "x"), ("b", "c", 5)], "a", "c", nodes=["z"]
    ) as network:
        network.solve()
        graph = network.to_networkx()
    edges = [("a", "b", 1, 3, 3, None), ("a", "b", 2, 4, 2, "x"), ("b", "c", 3, 5, 5, None)]
    told = [
        (u, v, k, data["capacity"], data["flow"], data.get("name"))
        for u, v, k, data in graph.edges(keys=True, data=True)
    ]
    assert (told, set(graph)) == (edges, set("abcz"))
    with dmf.from_networkx(graph, "a", "c") as again:
        assert (again.solve().value, again.capacity(("a", "b", 2))) == (5, 4)


def test_infinite() -> None:
    graph = networkx.DiGraph()
    graph.add_edge("a", "b")
    graph.add_edge("b", "c", capacity=float("inf"))
    graph.add_edge("c", "d", capacity=4)
    with dmf.from_networkx(graph, "a", "d", infinite=1000) as network:
        assert ([arc.capacity for arc in network.arcs], network.solve().value) == (
            [1000, 1000, 4],
            4,
        )
    with pytest.raises(dmf.NoCapacity):
        dmf.from_networkx(graph, "a", "d")


def test_matrices() -> None:
    sparse, solve = load("scipy.sparse"), load("scipy.sparse.csgraph").maximum_flow
    random = Random("matrices")
    for _ in range(20):
        count = random.randint(2, 12)
        dense = numpy.array(
            [
                [random.choice([0, 0, 1, 3, 9]) * (i != j) for j in range(count)]
                for i in range(count)
            ],
            numpy.int32,
        )
        matrix = sparse.csr_matrix(dense)
        with dmf.from_scipy(matrix, 0, count - 1) as network:
            plan = network.solve()
            flows = plan.flow_matrix().toarray()
            assert (plan.value, network.nodes) == (
                solve(matrix, 0, count - 1).flow_value,
                list(range(count)),
            )
            assert (flows <= dense).all() and (flows >= 0).all()
            kept = flows.sum(axis=1) - flows.sum(axis=0)
            assert (kept[0], kept[1:-1].any()) == (plan.value, False)
    # What flows on several arcs is added up.
    with dmf.Network([("a", "b", 3), ("a", "b", 4)], "a", "b") as network:
        assert network.solve().flow_matrix().toarray().tolist() == [[0, 7], [0, 0]]


def test_a_matrix_of_64_bits() -> None:
    """What flows on several arcs together is signed as long as it can be."""
    for arcs, room, kind in (
        (3, 2**62, "u"),
        (2, 2**62, "u"),
        (2, 2**62 - 1, "i"),
        (1, 2**63 - 1, "i"),
        (1, LARGEST, "u"),
        (3, LARGEST // 3, "u"),
    ):
        with dmf.Network([("a", "b", room)] * arcs, "a", "b") as network:
            matrix = network.solve().flow_matrix()
            assert (matrix.toarray().tolist(), matrix.dtype.kind) == (
                [[0, arcs * room], [0, 0]],
                kind,
            )
