"""Sweeps that close each arc, shut each node, raise each capacity or add each arc, answered by the
library's losses and gains: beside networkx on the network of each case, and beside sweeps whose
cases are tried one by one."""

from __future__ import annotations

import os
import subprocess
import sys
from collections.abc import Iterable
from concurrent.futures import ProcessPoolExecutor
from decimal import Decimal
from pathlib import Path
from random import Random
from typing import Any

import pytest
from client_shared import ROOT, dmf, environment, interrupted_when
from dmf.session.base import Ranked
from dmf.sweeps import known_values
from dmf.sweeps.copies import SolvedCopy
from packages import load
from watched_library import slow_call

networkx = load("networkx")
pytestmark = pytest.mark.usefixtures("by_library")
SHARE = known_values.SHARE
COUNT = 6
NODES = range(COUNT)
SOURCE, SINK = 0, COUNT - 1
# An arc by its number, with its ends and its capacity.
Row = tuple[int, int, int, int]


def random_rows(random: Random) -> list[tuple[int, int, int]]:
    """Arcs between six nodes: among them loops, parallel ones, pipes that lead both ways, and some
    of capacity 0 or of a large one."""
    rows: list[tuple[int, int, int]] = []
    for _ in range(random.randrange(1, 18)):
        tail, head = random.randrange(COUNT), random.randrange(COUNT)
        rows.append((tail, head, random.choice([0, 1, 2, 3, 5, 9, 2**50])))
        if random.randrange(3) == 0:
            rows.append((head, tail, random.randrange(9)))
    return rows


def greatest(rows: Iterable[Row]) -> int:
    """The greatest value from the first node to the last one, by networkx."""
    graph = networkx.DiGraph()
    graph.add_nodes_from(NODES)
    for _, tail, head, room in rows:
        so_far = graph[tail][head]["capacity"] if graph.has_edge(tail, head) else 0
        graph.add_edge(tail, head, capacity=so_far + room)
    return int(networkx.maximum_flow_value(graph, SOURCE, SINK))


def told(results: Any) -> list[tuple[object, ...]]:
    """All that results say, and the types of their numbers."""
    return [
        (it.case, it.value, type(it.value), it.difference, it.cut, repr(it.refusal))
        for it in results
    ]


def told_until_it_raises(results: Any) -> list[object]:
    """The same, and the error that ends the sweep."""
    said: list[object] = []
    try:
        for result in results:
            said += told([result])
    except dmf.Error as error:
        said.append(repr(error))
    return said


@pytest.fixture
def untried(monkeypatch: pytest.MonkeyPatch) -> None:
    """Has no case be tried on a copy."""

    def refuse(*_: object) -> None:
        raise AssertionError

    monkeypatch.setattr(SolvedCopy, "answers", refuse)


@pytest.mark.usefixtures("untried")
@pytest.mark.parametrize("seed", range(300))
def test_beside_networkx(seed: int) -> None:
    random = Random(f"known {seed}")
    rows = random_rows(random)
    scale = random.choice([1, 100])
    amounts = [Decimal(room) / scale for _, _, room in rows]
    tails, heads = [row[0] for row in rows], [row[1] for row in rows]
    with dmf.Network.from_arrays(
        tails, heads, amounts, source=SOURCE, sink=SINK, nodes=NODES, scale=scale
    ) as network:
        for arc in random.sample(list(network.arcs), min(2, len(rows))):
            network.close(arc)
        network.add(random.randrange(COUNT), random.randrange(COUNT), 7)
        value = network.solve().value * scale
        opened = [
            (arc.number, arc.tail, arc.head, int(arc.capacity * scale)) for arc in network.arcs
        ]
        assert value == greatest(opened)
        lost = [greatest(row for row in opened if row[0] != arc[0]) for arc in opened]
        closed: list[Any] = list(dmf.sweep(network, dmf.each_arc_closed()))
        assert [result.value * scale for result in closed] == lost
        assert [result.difference * scale for result in closed] == [it - value for it in lost]
        assert [result.case[0][1].number for result in closed] == [arc[0] for arc in opened]
        inner = [node for node in NODES if node not in (SOURCE, SINK)]
        left = [greatest(row for row in opened if node not in row[1:3]) for node in inner]
        shut: list[Any] = list(dmf.sweep(network, dmf.each_node_shut()))
        assert [(result.case[0][1], result.value * scale) for result in shut] == [*zip(inner, left)]
        assert [result.difference * scale for result in shut] == [it - value for it in left]
        by = random.choice([0, 1, 4, 2**40])
        added: Any = Decimal(by) / scale
        won = [greatest([*opened, (0, *arc[1:3], by)]) for arc in opened]
        raised: list[Any] = list(dmf.sweep(network, dmf.each_capacity_raised(added)))
        assert [result.value * scale for result in raised] == won
        assert [result.difference * scale for result in raised] == [it - value for it in won]
        assert [result.case for result in raised] == [
            [("cap", network.arc(arc), arc.capacity + added)] for arc in network.arcs
        ]
        pairs = [(tail, head) for tail in NODES for head in NODES]
        won = [greatest([*opened, (0, *pair, by)]) for pair in pairs]
        more: list[Any] = list(dmf.sweep(network, dmf.each_pair_added(pairs, added)))
        assert [(result.case[0][1:3], result.value * scale) for result in more] == [
            *zip(pairs, won)
        ]


@pytest.mark.parametrize("seed", range(20))
def test_beside_cases_that_are_tried(seed: int, monkeypatch: pytest.MonkeyPatch) -> None:
    """Also those that are refused, that shut the source, and of a network that is not solved, that
    changes meanwhile, or that has ended; and in other processes."""
    random = Random(f"known tried {seed}")
    rows = [(*row, f"k{at}") for at, row in enumerate(random_rows(random))]
    network = dmf.Network(rows, SOURCE, SINK, nodes=NODES)
    if random.randrange(4):
        network.solve()
    network.close("k0")
    if random.randrange(4):
        network.solve()
    keys: list[Any] = [f"k{at}" for at in range(len(rows))]
    pairs: list[Any] = [(tail, head) for tail in NODES for head in NODES]
    wrong: list[Any] = [(0, "nothing"), ([], 1), (0, 1, 2)]
    unordered: list[Any] = [{1, 2}]
    asked: list[Any] = [
        *map(dmf.each_arc_closed, (None, keys, [*keys, "nothing", (0, 1)])),
        *map(dmf.each_node_shut, (None, range(1, COUNT), [*NODES, "nothing"], [1, 1])),
        dmf.each_capacity_raised(3),
        dmf.each_capacity_raised(2**62, keys[1:]),
        dmf.each_capacity_raised(2**63),
        dmf.each_capacity_raised(2**64 - 1),
        dmf.each_capacity_raised(1, keys),
        dmf.each_capacity_raised(1, [*keys[1:], "nothing", keys[-1]]),
        dmf.each_pair_added(pairs, random.randrange(9)),
        dmf.each_pair_added([*pairs, *wrong, *pairs], 5),
        dmf.each_pair_added([*pairs, *unordered, *pairs], 5),
        dmf.each_pair_added(pairs, -1),
        dmf.each_pair_added(pairs, 2**64),
        dmf.each_pair_added(iter(pairs), 2),
    ]
    for cases in asked:
        found = []
        made = list(cases(network)) if cases is asked[-1] else cases
        for share in 0, SHARE:
            monkeypatch.setattr(known_values, "SHARE", share)
            results = dmf.sweep(network, made, jobs=1 + random.randrange(2))
            network.add(SOURCE, SINK, 5)
            found.append(told_until_it_raises(results))
            network.undo()
        assert found[0] == found[1]
    value = network.value
    with ProcessPoolExecutor(2) as processes:
        for cases in asked[0], asked[3], asked[7], asked[13]:
            there = told(dmf.sweep(network, cases, processes))
            assert there == told(dmf.sweep(network, cases))
            network.end()
            assert there == told(dmf.sweep(network, cases))
            assert network.begin_again() == value
    network.end()


@pytest.mark.parametrize("seed", range(10))
def test_beside_cuts(seed: int) -> None:
    """A sweep that also tells cuts tries each case."""
    random = Random(f"known cuts {seed}")
    with dmf.Network(random_rows(random), SOURCE, SINK, nodes=NODES) as network:
        if seed % 2:
            network.solve()
        pairs = [(random.randrange(COUNT), random.randrange(COUNT)) for _ in range(20)]
        for cases in dmf.each_capacity_raised(4), dmf.each_pair_added(pairs, 3):
            tried = [(it.case, it.value) for it in dmf.sweep(network, cases, want_cut=True, jobs=1)]
            assert [(it.case, it.value) for it in dmf.sweep(network, cases)] == tried
            assert all(it.cut is None for it in dmf.sweep(network, cases))


def solved_with(network: Any, number: int, by: Decimal) -> Any:
    """The greatest value if this arc carries as much more."""
    with network.try_out():
        arc = network.arcs[number]
        network.cap(arc, arc.capacity + by)
        return network.solve().value


@pytest.mark.usefixtures("untried")
def test_a_table(tmp_path: Path) -> None:
    """Of two sources, with a pipe that leads both ways and a place that lets little through."""
    (tmp_path / "pipes.csv").write_text(
        "from,to,capacity,direction\na,c,1.5,one way\nb,c,2.5,both\nc,d,3.25,both\nd,e,4,one way\n"
    )
    with dmf.read_table(
        tmp_path / "pipes.csv", source=["a", "b"], sink="e", limits={"d": 3}
    ) as network:
        by: Any = Decimal("0.75")
        count = len(network.arcs)
        assert network.solve().value == 3
        wanted = [solved_with(network, number, by) for number in range(count)]
        assert [it.value for it in dmf.sweep(network, dmf.each_capacity_raised(by))] == wanted
        network.cap(("d", "e"), 1)
        wanted = [solved_with(network, number, by) for number in range(count)]
        assert [it.value for it in dmf.sweep(network, dmf.each_capacity_raised(by))] == wanted
        assert Decimal("1.75") in wanted


def test_little_room() -> None:
    """The library takes four arcs for a new one. If there is no room for them, the cases are tried,
    and those past 64 bits are refused."""
    rows = [("a", "b", 2**62, "first"), ("b", "c", 2**61, "second")]
    with dmf.Network(rows, "a", "c") as network:
        network.solve()
        cases: list[tuple[int, list[int | None]]] = [
            (2**60, [2**61, 2**61 + 2**60]),
            (2**63, [2**61, 2**62]),
            (2**63 + 2**61 + 1, [None, None]),
        ]
        for by, expected in cases:
            found = list(dmf.sweep(network, dmf.each_capacity_raised(by)))
            assert [it.value for it in found] == expected
            refused = [type(it.refusal) for it in found if it.value is None]
            assert refused == [dmf.CapacitiesPast64Bits] * expected.count(None)


# More arcs than those whose losses are found in the caller's thread.
CHAIN = [(at, at + 1, 1) for at in range(1_001)]
CHAINS = [
    (dmf.each_arc_closed(), ("losses", Ranked.ARCS), 0),
    (dmf.each_node_shut(), ("losses", Ranked.NODES), 0),
    (dmf.each_capacity_raised(1), ("new_arc_gains", None), 1),
    (dmf.each_pair_added([row[:2] for row in CHAIN[1:]], 1), ("new_arc_gains", None), 1),
]


@pytest.mark.usefixtures("untried")
@pytest.mark.parametrize(
    ("asked", "call", "value"), CHAINS, ids=["closed", "shut", "raised", "added"]
)
def test_a_stop(
    asked: Any, call: tuple[str, Ranked | None], value: int, monkeypatch: pytest.MonkeyPatch
) -> None:
    """Ctrl-C while the library looks for the losses or gains takes effect at once, and the network
    is as it was."""
    with dmf.Network(CHAIN, 0, len(CHAIN)) as network:
        assert network.solve().value == 1
        with slow_call(monkeypatch, *call) as (begun, until):
            with pytest.raises(KeyboardInterrupt), interrupted_when(begun.is_set):
                list(dmf.sweep(network, asked))
            assert not until.is_set()
        assert network.value == 1
        results = list(dmf.sweep(network, asked))
        assert [result.value for result in results] == [value] * len(results)
        assert len(results) >= len(CHAIN) - 1


def ran(words: list[str], folder: Path, library: str) -> tuple[bytes, bytes]:
    """What dmf-sweep writes about net.max, by this library."""
    told = subprocess.run(
        [sys.executable, f"{ROOT}/tools/dmf-sweep", "net.max", *words],
        cwd=folder,
        env=environment(DMF_LIBRARY=library),
        capture_output=True,
    )
    assert told.returncode == 0, told.stderr
    return told.stdout, told.stderr


@pytest.mark.parametrize("count", [40, 600])
def test_the_same_bytes(count: int, tmp_path: Path) -> None:
    """dmf-sweep beside itself with each case in a file, as the program and the library try it."""
    random, library = Random(f"bytes {count}"), os.environ["DMF_LIBRARY"]
    ends = [(random.randint(1, 30), random.randint(2, 31)) for _ in range(count)]
    arcs = "".join(f"a {tail} {head} {random.randrange(99)}\n" for tail, head in ends)
    (tmp_path / "net.max").write_text(f"p max 31 {count}\nn 1 s\nn 31 t\n{arcs}")
    (tmp_path / "cases").write_text("".join(f"close {at + 1}\n" for at in range(count)))
    options: list[list[str]] = [["--top", "7"], ["--json"], ["--jobs", "2"], ["--anew"], []]
    for words in options:
        plain = ran([*words, "--cases", "cases"], tmp_path, "")
        assert plain == ran([*words, "--close-each"], tmp_path, library)
    assert len(plain[0].splitlines()) == count + 1
    more = [f"cap {at + 1} {random.randrange(99, 200)}\n" for at in range(count)]
    more += [f"add {tail} {head} {random.randrange(99)}\n" for head, tail in ends]
    for lines in more, [*more, "cap 1 99; cap 2 99\n", "add 99 1 7\n", "close 1\n", "cap 1 0\n"]:
        (tmp_path / "more").write_text("".join(lines))
        assert ran(["--cases", "more"], tmp_path, "") == ran(["--cases", "more"], tmp_path, library)
    # An interrupted table goes on, wherever it ends.
    ran(["--cases", "cases", "--table", "plain"], tmp_path, "")
    whole = (tmp_path / "plain").read_bytes()
    for place in 0, 10, len(whole) // 3, len(whole) - 30, len(whole):
        (tmp_path / "table").write_bytes(whole[:place])
        ran(["--close-each", "--table", "table"], tmp_path, library)
        assert (tmp_path / "table").read_bytes() == whole
