"""Compares what `dmf vital` writes with whole solves of the network without each arc or each node,
by networkx, and the worst of them with all: on random networks, on those of each family of the
benchmark, and on the examples. On small random networks it compares the worst pairs of arcs with
all of them, and everywhere the values with second arcs with whole solves with one arc more.
`--long` tries 100,000 random networks, and 10,000 for pairs."""

from __future__ import annotations

from collections.abc import Callable
from contextlib import suppress
from dataclasses import replace
from itertools import combinations, pairwise
from random import Random

import built
import networkx
import pytest
from built import Case
from conftest import ROOT
from oracle.network import Arc, State
from oracle.problem import read_problem
from oracle.texts import LARGEST, LineFault
from program.test_quick_solves import FAMILIES, Generate, generate
from random_cases import MOST_VALUED, fitting, network, problem_lines
from random_texts import plain_text

# The networks of the families are made by the fixture of the quick solves.
__all__ = ["generate"]
FEW, MANY = 200, 100_000
FEW_PAIRED, MANY_PAIRED, MOST_PAIRED = 60, 10_000, 12
# Of a larger network so many arcs or nodes are left out in turn, evenly apart.
ARCS, LEFT_OUT = 1000, 25
NODES = b"--nodes"
# What is left out: an arc, a node, or two arcs.
Numbers = tuple[int, ...]
# Says whether an arc of this number is closed without these arcs or nodes.
Closed = Callable[[Numbers, int, Arc], bool]


def is_arc(left_out: Numbers, number: int, arc: Arc) -> bool:
    return number in left_out


def is_at_node(left_out: Numbers, number: int, arc: Arc) -> bool:
    return arc.tail in left_out or arc.head in left_out


def value_without(state: State, left_out: Numbers, is_closed: Closed = is_arc) -> int:
    """The greatest value without these arcs or nodes, by networkx."""
    graph = networkx.DiGraph()
    graph.add_nodes_from(range(1, state.nodes + 1))
    for number, arc in enumerate(state.arcs, 1):
        if not is_closed(left_out, number, arc) and arc.tail != arc.head:
            before = graph.get_edge_data(arc.tail, arc.head, {"capacity": 0})["capacity"]
            graph.add_edge(arc.tail, arc.head, capacity=before + arc.cap)
    value: int = networkx.maximum_flow_value(graph, state.source, state.sink)
    return value


def vital(problem: bytes, *flags: bytes) -> list[bytes]:
    """The lines that are written of a problem."""
    ran = built.run(Case("values", (b"vital", *flags), problem, problem))
    assert (ran.status, ran.err) == (0, b""), ran
    return ran.out.splitlines()


def judge_rows(problem: bytes, flags: list[bytes], numbers: list[int], is_closed: Closed) -> None:
    """Compares the value, and what is left without each of these arcs or nodes, or without one of
    so many. All have a line, in order."""
    state = read_problem(problem)
    first, *rows = vital(problem, *flags)
    assert first == b"c value %d" % value_without(state, ())
    assert [row.split()[:2] for row in rows] == [[b"v", b"%d" % number] for number in numbers]
    left = {number: int(row.split()[2]) for number, row in zip(numbers, rows)}
    chosen = numbers[:: max(1, len(numbers) // LEFT_OUT)]
    assert {number: left[number] for number in chosen} == {
        number: value_without(state, (number,), is_closed) for number in chosen
    }


def judge_worst(problem: bytes, flags: list[bytes]) -> None:
    """Compares the worst, few and many, with the values of all."""
    first, *rows = vital(problem, *flags)
    ordered = sorted(rows, key=lambda row: (int(row.split()[2]), int(row.split()[1])))
    for most in (0, 1, 2, 5, len(rows), len(rows) + 1):
        worst = vital(problem, *flags, b"--worst", b"%d" % most)
        assert worst == [first, *ordered[:most]], most


def judge(problem: bytes) -> None:
    """Compares the values without arcs, and those without nodes."""
    state = read_problem(problem)
    judge_rows(problem, [], list(range(1, len(state.arcs) + 1)), is_arc)
    inner = [v for v in range(1, state.nodes + 1) if v not in (state.source, state.sink)]
    judge_rows(problem, [NODES], inner, is_at_node)
    judge_worst(problem, [])
    judge_worst(problem, [NODES])
    judge_seconds(problem)


def judge_pairs(problem: bytes) -> None:
    """Compares the worst pairs of arcs, few and many, with whole solves without both."""
    state = read_problem(problem)
    numbers = range(1, len(state.arcs) + 1)
    rows = sorted((value_without(state, pair), *pair) for pair in combinations(numbers, 2))
    lines = [b"v %d %d %d" % (first, second, left) for left, first, second in rows]
    value = b"c value %d" % value_without(state, ())
    for most in (0, 1, len(lines) // 2, len(lines), len(lines) + 1):
        worst = vital(problem, b"--pairs", b"--worst", b"%d" % most)
        assert worst == [value, *lines[:most]], most


def judge_seconds(problem: bytes) -> None:
    """Compares the values without and with a second arc beside each with those without, and with
    whole solves with one arc more beside some. There may be no room only near the limit."""
    state = read_problem(problem)
    ran = built.run(Case("values", (b"vital", b"--second"), problem, problem))
    if ran.status:
        assert (ran.status, ran.out, ran.err) == (4, b"", b"dmf: no room for second arcs\n")
        assert 5 * sum(arc.cap for arc in state.arcs) > LARGEST
        return
    rows = [row.rpartition(b" ") for row in ran.out.splitlines()]
    first, *left = vital(problem)
    assert ran.out.splitlines()[0] == first
    assert [row[0] for row in rows[1:]] == left
    for arc, row in list(zip(state.arcs, rows[1:]))[:: max(1, len(left) // LEFT_OUT)]:
        more = replace(state, arcs=(*state.arcs, arc), flows=(*state.flows, 0))
        assert int(row[2]) == value_without(more, ())


def shares(count: int, random: Random) -> list[int]:
    """Capacities whose sum is as large as may be."""
    marks = sorted(random.randint(0, LARGEST) for _ in range(count - 1))
    return [high - low for low, high in pairwise([0, *marks, LARGEST])]


def small_network(random: Random) -> State:
    """A network of few arcs, with self loops, parallel arcs and arcs of capacity 0, and with many
    equal losses, or a sum of capacities that is as large as may be."""
    nodes, count = random.randint(2, 5), random.randint(1, MOST_PAIRED)
    highest = random.choice([1, 1, 3, 9])
    caps = random.choice(
        [shares(count, random), [random.randint(0, highest) for _ in range(count)]]
    )
    arcs = tuple(Arc(random.randint(1, nodes), random.randint(1, nodes), cap) for cap in caps)
    source, sink = random.sample(range(1, nodes + 1), 2)
    return State(nodes, source, sink, arcs, (0,) * count)


def test_largest_sum_at_a_node() -> None:
    """The capacities add up to 2^64 - 1, and the arcs at node 3 carry all but 3 of that; 2 go past
    it."""
    half = 2**63 - 2
    arcs = [(1, 3, half - 5), (1, 3, 5), (3, 2, 5), (3, 2, half - 5), (1, 2, 2), (3, 3, 1)]
    assert sum(cap for _, _, cap in arcs) == LARGEST
    lines = ["p max 3 6", "n 1 s", "n 2 t", *(f"a {tail} {head} {cap}" for tail, head, cap in arcs)]
    problem = "\n".join([*lines, ""]).encode()
    assert vital(problem, NODES) == [b"c value %d" % (half + 2), b"v 3 2"]
    judge(problem)


@pytest.mark.seconds(5)
@pytest.mark.parametrize("family", FAMILIES)
def test_families(generate: Generate, family: str) -> None:
    judge(generate(family, ARCS))


@pytest.mark.parametrize("name", ["a.max", "b.max", "n.max"])
def test_examples(name: str) -> None:
    judge((ROOT / "examples" / name).read_bytes())


@pytest.mark.seconds(5)
def test_random(request: pytest.FixtureRequest) -> None:
    for number in range(MANY if request.config.getoption("--long") else FEW):
        random = Random(f"vital {request.config.getoption('--seed')}/{number}")
        problem = plain_text(problem_lines(fitting(network(random, MOST_VALUED)), random))
        # A few have one node as source and sink.
        with suppress(LineFault):
            judge(problem)


@pytest.mark.seconds(5)
def test_random_pairs(request: pytest.FixtureRequest) -> None:
    is_long, seed = (request.config.getoption(option) for option in ("--long", "--seed"))
    for number in range(MANY_PAIRED if is_long else FEW_PAIRED):
        random = Random(f"pairs {seed}/{number}")
        with suppress(LineFault):
            problem = plain_text(problem_lines(small_network(random), random))
            judge_pairs(problem)
            judge_seconds(problem)
