"""Counts the instructions of single commands by valgrind, so that none takes minutes where it
should take a second: of a shut of a node that many carrying arcs enter or leave, and of a solve
that has nothing to do. Counts do not depend on the machine's load. A shut that looked through all
links again for each arc would take ten times the budget and more, and so would a solve that
searched."""

from __future__ import annotations

import re
import subprocess
from collections.abc import Callable
from pathlib import Path
from random import Random
from typing import NamedTuple

import pytest
from conftest import BUILT, ROOT

ARCS = 40_000
# The most instructions of a shut for each arc of the network: at 1,000,000 arcs 1 s, of hubs 3 s,
# by some 3,000,000,000 a second.
BUDGET, HUBS_BUDGET = 3_000, 9_000
# Chains have few links at a node, so that windows cost more there than they spare.
CHAINS_BUDGET = 5_000
# The most instructions of a close of an arc that carries nothing and a solve after it, of which a
# search on these networks takes more.
IDLE_BUDGET = 60_000
# How many instructions an added arc and its undo take at most, after the first one.
ADD_BUDGET = 30_000
# The most instructions of a shut of a node whose arcs carry nothing and its undo, of which a look
# at all arcs takes four times as many.
LIST_BUDGET = ARCS
# The most instructions for each arc of the network that a close among three nodes takes, where all
# arcs lie side by side: a few looks at flags and rooms. To look for moves too takes twice as many.
PARALLEL_BUDGET = 35
# The most instructions for each arc of a solve along detours, of which a look at all nodes for each
# takes four times as many.
DETOURS_BUDGET = 2_500
COLLECTED = re.compile(rb"Collected : ([0-9]+)")


class Network(NamedTuple):
    """A network, the node that is shut, and the most instructions for each arc."""

    problem: str
    node: int
    budget: int = BUDGET


def problem(nodes: int, source: int, sink: int, arcs: list[tuple[int, int, int]]) -> str:
    return "\n".join(
        [
            f"p max {nodes} {len(arcs)}",
            f"n {source} s",
            f"n {sink} t",
            *(f"a {tail} {head} {cap}" for tail, head, cap in arcs),
            "",
        ]
    )


def hubs(
    random: Random, suppliers: int, depots: int
) -> tuple[int, int, list[tuple[int, int, int]]]:
    """Suppliers, depots and as many customers as suppliers: the source, the sink and the arcs."""
    source, sink = 2 * suppliers + depots + 1, 2 * suppliers + depots + 2
    arcs = [(source, supplier, random.randint(1, 9)) for supplier in range(1, suppliers + 1)]
    arcs += [
        (suppliers + depots + customer, sink, random.randint(1, 9))
        for customer in range(1, suppliers + 1)
    ]
    half = (ARCS - len(arcs)) // 2
    arcs += [
        (random.randint(1, suppliers), suppliers + random.randint(1, depots), random.randint(1, 4))
        for _ in range(half)
    ]
    arcs += [
        (
            suppliers + random.randint(1, depots),
            suppliers + depots + random.randint(1, suppliers),
            random.randint(1, 4),
        )
        for _ in range(half)
    ]
    return source, sink, arcs


def hubs_in(random: Random) -> Network:
    source, sink, arcs = hubs(random, ARCS // 10, 20)
    return Network(problem(sink, source, sink, arcs), sink, HUBS_BUDGET)


def hubs_out(random: Random) -> Network:
    source, sink, arcs = hubs(random, ARCS // 10, 20)
    return Network(problem(sink, source, sink, arcs), source, HUBS_BUDGET)


def depots(random: Random) -> Network:
    source, sink, arcs = hubs(random, ARCS // 10, 20)
    return Network(problem(sink, source, sink, arcs), ARCS // 10 + 1, HUBS_BUDGET)


def chains(random: Random) -> Network:
    """Chains of 20 arcs from the source to the sink."""
    count, length = ARCS // 20, 20
    source, sink = count * (length - 1) + 1, count * (length - 1) + 2
    arcs = []
    for chain in range(count):
        inner = [chain * (length - 1) + place for place in range(1, length)]
        arcs += [
            (tail, head, random.randint(1, 9))
            for tail, head in zip([source, *inner], [*inner, sink], strict=True)
        ]
    return Network(problem(sink, source, sink, arcs), sink, CHAINS_BUDGET)


def stars(random: Random) -> Network:
    """All flow goes through one node."""
    count = ARCS // 4
    middle, source, sink = 2 * count + 1, 2 * count + 2, 2 * count + 3
    arcs = []
    for leaf in range(1, count + 1):
        arcs += [
            (source, leaf, 3),
            (leaf, middle, random.randint(1, 3)),
            (middle, count + leaf, random.randint(1, 3)),
            (count + leaf, sink, 3),
        ]
    return Network(problem(sink, source, sink, arcs), middle)


def feeding(random: Random) -> Network:
    """Hubs that feed each other: one of them gets all its flow from the other two. They have more
    links than a ball may have."""
    source, sink, first, second, third = range(1, 6)
    count = ARCS // 2
    arcs = []
    for supplier in range(sink + 4, sink + 4 + count):
        customer = supplier + count
        arcs += [
            (source, supplier, 1),
            (supplier, random.choice([first, second]), 1),
            (random.choice([first, second, third]), customer, 1),
            (customer, sink, 1),
        ]
    arcs += [(first, second, count), (second, first, count)]
    arcs += [(first, third, count), (second, third, count)]
    return Network(problem(2 * count + sink + 3, source, sink, arcs), sink)


MADE: dict[str, Callable[[Random], Network]] = {
    "hubs that feed each other": feeding,
    "hubs, into the sink": hubs_in,
    "hubs, out of the source": hubs_out,
    "a depot": depots,
    "chains": chains,
    "a star": stars,
}
FAMILIES = "grid", "random", "bip", "ac", "road"


class Solved(NamedTuple):
    """An arc, and what it carries."""

    tail: int
    head: int
    flow: int


def of_family(maker: Path, family: str) -> str:
    """The problem text of a network of a family."""
    return subprocess.run(
        [maker, family, str(ARCS), "1990"], capture_output=True, check=True, text=True
    ).stdout


def solved(text: str) -> list[Solved]:
    """The arcs of a problem in the order of their numbers, with the flow that `dmf solve` finds."""
    solution = subprocess.run(
        [BUILT, "solve"], input=text, capture_output=True, check=True, text=True
    ).stdout
    return [Solved(*map(int, line.split()[1:])) for line in solution.splitlines()[1:]]


def instructions(folder: Path, text: str, commands: str) -> int:
    """How many instructions a session takes for these commands."""
    file = folder / "problem.max"
    file.write_text(text)
    words = [
        "valgrind",
        "--tool=callgrind",
        "--callgrind-out-file=/dev/null",
        str(BUILT),
        "session",
        "--brief",
        str(file),
    ]
    run = subprocess.run(words, input=commands.encode(), capture_output=True, check=True)
    assert run.stdout.count(b"c solve value") == commands.count("solve"), run.stdout
    found = COLLECTED.search(run.stderr)
    assert found, run.stderr
    return int(found[1])


def shut_instructions(folder: Path, network: Network) -> float:
    """The instructions of a shut for each arc of the network."""
    arcs = network.problem.count("\na ")
    before, after = (
        instructions(folder, network.problem, f"solve\n{then}")
        for then in ("", f"shut {network.node}\n")
    )
    return (after - before) / arcs


@pytest.fixture(scope="module")
def maker(tmp_path_factory: pytest.TempPathFactory) -> Path:
    """The program that makes the families of the benchmark."""
    made = tmp_path_factory.mktemp("maker") / "generate"
    subprocess.run(
        ["g++", "-O1", "-std=c++17", "-o", made, ROOT / "bench" / "generate.cpp"], check=True
    )
    return made


@pytest.mark.seconds(6)
@pytest.mark.parametrize("name", MADE)
def test_shuts(name: str, tmp_path: Path) -> None:
    network = MADE[name](Random(f"budget of {name}"))
    assert 0 < shut_instructions(tmp_path, network) < network.budget


@pytest.mark.seconds(6)
@pytest.mark.parametrize("family", FAMILIES)
@pytest.mark.parametrize("end", "st")
def test_ends_of_families(end: str, family: str, maker: Path, tmp_path: Path) -> None:
    """The source and the sink of each family."""
    text = of_family(maker, family)
    (node,) = re.findall(rf"^n ([0-9]+) {end}$", text, re.MULTILINE)
    assert 0 < shut_instructions(tmp_path, Network(text, int(node))) < BUDGET


@pytest.mark.seconds(3)
@pytest.mark.parametrize("family", ["grid", "random"])
def test_nothing_to_do(family: str, maker: Path, tmp_path: Path) -> None:
    """A session keeps the cut of its last solve: while no change gives room to an arc out of it,
    the next solve looks at no link."""
    text = of_family(maker, family)
    idle = [number for number, arc in enumerate(solved(text), 1) if arc.flow == 0][:20]
    assert len(idle) == 20
    # The first change after a solve takes the labels off, so it is in both runs.
    first, *others = (f"close {number}\nsolve\n" for number in idle)
    before, after = (
        instructions(tmp_path, text, f"solve\n{first}{then}") for then in ("", "".join(others))
    )
    assert (after - before) / len(others) < IDLE_BUDGET


@pytest.mark.seconds(4)
@pytest.mark.parametrize("family", ["grid", "random"])
def test_added_arcs(family: str, maker: Path, tmp_path: Path) -> None:
    """An added arc takes two spare links, and its undo leaves them: only the first one rebuilds
    all links."""
    text = of_family(maker, family)
    others = [f"add {node} {node + 1} 1\nundo\n" for node in range(1, 41, 2)]
    before, after = (
        instructions(tmp_path, text, f"solve\nadd 1 2 1\n{then}") for then in ("", "".join(others))
    )
    assert (after - before) / len(others) < ADD_BUDGET


@pytest.mark.seconds(4)
@pytest.mark.parametrize("family", ["grid", "random"])
def test_added_self_loops(family: str, maker: Path, tmp_path: Path) -> None:
    """An added self loop, its undo and its redo touch no link: the close and the solve behind them
    need rebuild none."""
    text = of_family(maker, family)
    carrying = next(number for number, arc in enumerate(solved(text), 1) if arc.flow > 0)
    loops = [f"add {node} {node} 1\nundo\nredo\n" for node in range(1, 21)]
    before, after = (
        instructions(tmp_path, text, f"solve\n{then}close {carrying}\nsolve\n")
        for then in ("", "".join(loops))
    )
    # Three commands each, where an added arc has two.
    assert (after - before) / len(loops) < 1.5 * ADD_BUDGET


@pytest.mark.seconds(4)
@pytest.mark.parametrize("family", ["bip", "grid"])
def test_idle_nodes(family: str, maker: Path, tmp_path: Path) -> None:
    """A shut looks for the arcs at its node among the node's links: the second one at no other arc.
    These networks have no self loop."""
    text = of_family(maker, family)
    arcs = solved(text)
    assert all(arc.tail != arc.head for arc in arcs)
    idle = {node for arc in arcs for node in arc[:2]} - {
        node for arc in arcs if arc.flow > 0 for node in arc[:2]
    }
    first, *others = (f"shut {node}\nundo\n" for node in sorted(idle)[:20])
    assert len(others) == 19
    before, after = (
        instructions(tmp_path, text, f"solve\n{first}{then}") for then in ("", "".join(others))
    )
    assert 0 < (after - before) / len(others) < LIST_BUDGET


@pytest.mark.seconds(3)
def test_parallel_arcs(tmp_path: Path) -> None:
    """How many touched pairs are listed depends on the arcs too: a close among three nodes lists
    three, and looks for its moves at no other arc."""
    half = ARCS // 2
    text = problem(3, 1, 3, [(1, 2, 1)] * half + [(2, 3, 1)] * half)
    first, *others = (f"close {number}\n" for number in range(1, 2_001, 100))
    before, after = (
        instructions(tmp_path, text, f"solve\n{first}{then}") for then in ("", "".join(others))
    )
    assert 0 < (after - before) / len(others) / ARCS < PARALLEL_BUDGET


def narrow(middle: int, detours: int) -> tuple[str, int]:
    """A source, nodes that it reaches, a node that these lead to, and an arc from there to the
    sink, beside which detours lead there, each longer than the last: the problem, and the number
    of that arc."""
    source, sink, gate = 1, 2, 3
    arcs = []
    for node in range(gate + 1, gate + 1 + middle):
        arcs += [(source, node, 1), (node, gate, 1)]
    arcs.append((gate, sink, middle))
    closed, last = len(arcs), gate + middle
    for length in range(2, 2 + detours):
        inner = range(last + 1, last + length)
        last += length - 1
        arcs += [(*ends, 1) for ends in zip([gate, *inner], [*inner, sink], strict=True)]
    return problem(last, source, sink, arcs), closed


@pytest.mark.seconds(4)
def test_detours(tmp_path: Path) -> None:
    """A solve whose paths get longer one by one does not look at all nodes again for each: all
    paths pass one node, behind many others."""
    detours = 100
    text, closed = narrow(ARCS // 4, detours)
    before, after = (
        instructions(tmp_path, text, f"solve\nclose {closed}\n{then}") for then in ("", "solve\n")
    )
    assert 0 < (after - before) / text.count("\na ") < DETOURS_BUDGET


@pytest.mark.seconds(3)
@pytest.mark.parametrize("family", ["bip", "grid"])
def test_numbered(family: str, maker: Path, tmp_path: Path) -> None:
    """The first change after a solve numbers the links, so that the solve after it needs not: here
    one along an added arc, the only path."""
    text = of_family(maker, family)
    (source,), (sink,) = (re.findall(rf"^n ([0-9]+) {end}$", text, re.MULTILINE) for end in "st")
    before, after = (
        instructions(tmp_path, text, f"solve\nadd {source} {sink} 1\n{then}")
        for then in ("", "solve\n")
    )
    assert 0 < after - before < 2 * IDLE_BUDGET
