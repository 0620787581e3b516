"""Tests that other solvers read what dmf prints and find the same values, and that `dmf check`
judges the flows that they found. The command lines of docs/FRIENDS.md are run, and build the
solvers' drivers."""

from __future__ import annotations

import os
import re
import subprocess
import sys
from pathlib import Path
from random import Random

import pytest
from conftest import BUILT, ROOT
from limits import SECONDS
from make_network import problem_of
from oracle.problem import problem_text, read_problem
from random_cases import network

# Solvers compute in fractions of 15 digits.
MOST = 10**12
EXAMPLES = ["a", "b", "n", "town", "levels"]
RANDOM = 10
# examples/levels.max is the network of these numbers: width, levels, degree, largest capacity, and
# seed.
LEVELS = 64, 16, 3, 100, 1990


def run(
    command: str, folder: Path, text: str | None = None, **environment: str
) -> subprocess.CompletedProcess[str]:
    return subprocess.run(
        command,
        shell=True,
        cwd=folder,
        input=text,
        env={**os.environ, **environment},
        capture_output=True,
        text=True,
        timeout=SECONDS,
    )


# What reads the problem in the file $P and writes a solution, by the solver's name, which is its
# title in docs/FRIENDS.md.
FRIENDS = {
    "glpsol": "tools/friends/glpsol $P",
    "LEMON": "./lemon <$P",
    "libmaxflow": "./libmaxflow <$P",
    "igraph": "python3 tools/friends/igraph <$P",
    "networkx": "python3 tools/friends/networkx <$P",
}


def printed(folder: Path, name: str, text: bytes, commands: str = "") -> None:
    """Puts into a file what dmf prints of a problem after some commands. The replies to these are
    comments there."""
    (folder / "read.max").write_bytes(text)
    (folder / name).write_text(
        run("./dmf session read.max", folder, f"{commands}print problem\n").stdout
    )


@pytest.fixture(scope="module")
def folder(tmp_path_factory: pytest.TempPathFactory) -> Path:
    """A folder with the program and its tools, and a file for each problem: examples, one of them
    after changes, and random networks."""
    folder = tmp_path_factory.mktemp("friends")
    (folder / "dmf").symlink_to(BUILT)
    for name in "tools", "examples":
        (folder / name).symlink_to(ROOT / name)
    for name in EXAMPLES:
        printed(folder, f"{name}.problem", (ROOT / "examples" / f"{name}.max").read_bytes())
    for seed in range(RANDOM):
        state = network(Random(f"friends {seed}"))
        if state.arcs and state.capacity_sum() < MOST:
            printed(folder, f"random {seed}.problem", problem_text(state))
    levels = (ROOT / "examples/levels.max").read_bytes()
    printed(folder, "changed.problem", levels, "close 1\nadd 1 2000 5\nadd 3 900 44\ncap 70 1\n")
    return folder


@pytest.mark.seconds(15)
@pytest.mark.parametrize("name, command", FRIENDS.items(), ids=FRIENDS)
def test_friend(folder: Path, name: str, command: str) -> None:
    """The command lines of the page, which build a solver's driver, write what stands there, and on
    each problem the solver finds the value that dmf finds, with a flow that `dmf check` finds
    greatest."""
    section = (
        (ROOT / "docs/FRIENDS.md").read_text().partition(f"\n## {name}\n")[2].partition("\n## ")[0]
    )
    lines = re.findall(r"^    \$ (.*)\n((?:    [^$].*\n)*)", section, re.MULTILINE)
    assert lines, f"docs/FRIENDS.md has no command line below {name}"
    for line, wanted in lines:
        ran = run(line, folder)
        assert ran.stdout == wanted.replace("    ", ""), f"{line}: {ran.stderr}"
    problems = sorted(it.name for it in folder.glob("*.problem"))
    assert len(problems) > len(EXAMPLES)
    for problem in problems:
        value = run('./dmf solve <"$P"', folder, P=problem).stdout.partition("\n")[0]
        found = run(command.replace("$P", '"$P"'), folder, P=problem)
        assert found.stdout.startswith(
            value + "\n"
        ), f"{problem}: {found.stdout[:100]}{found.stderr[-500:]}"
        checked = run('./dmf check "$P"', folder, found.stdout, P=problem)
        assert (checked.returncode, checked.stdout) == (0, f"c greatest {value[2:]}\n"), problem


def test_levels() -> None:
    """The example of some thousand arcs is what its generator writes."""
    assert (ROOT / "examples/levels.max").read_text() == problem_of(*LEVELS)


@pytest.mark.seconds(15)
def test_levels_by_second_implementation() -> None:
    with open(ROOT / "examples/levels.max", "rb") as problem:
        wanted = subprocess.run(
            [sys.executable, ROOT / "tests/oracle", "solve", "--cut"],
            stdin=problem,
            capture_output=True,
            check=True,
        )
    with open(ROOT / "examples/levels.max", "rb") as problem:
        assert (
            subprocess.run([BUILT, "solve", "--cut"], stdin=problem, capture_output=True).stdout
            == wanted.stdout
        )


def test_levels_by_networkx() -> None:
    """Its greatest value, by networkx: a graph has one arc from a node to another, and parallel
    arcs become one."""
    import networkx

    state = read_problem((ROOT / "examples/levels.max").read_bytes())
    graph = networkx.DiGraph()
    graph.add_nodes_from([state.source, state.sink])
    for arc in state.arcs:
        before = graph.get_edge_data(arc.tail, arc.head, {"capacity": 0})["capacity"]
        graph.add_edge(arc.tail, arc.head, capacity=before + arc.cap)
    with open(ROOT / "examples/levels.max", "rb") as problem:
        first = subprocess.run(
            [BUILT, "solve"], stdin=problem, capture_output=True, text=True
        ).stdout.partition("\n")[0]
    assert first == f"s {networkx.maximum_flow_value(graph, state.source, state.sink)}"
