"""What arcs, nodes and pairs are worth, and what new arcs bring: vital_networks.cpp compares each
value that the library finds with a whole solve of its own, on random networks and, without pairs
and new arcs, on one of each family of the benchmark. --long tries 200,000 random networks, in some
15 minutes, and families of 3,000 arcs, in as many."""

from __future__ import annotations

import subprocess
from pathlib import Path

import pytest
from c_library import ROOT, compiled, library_folder
from program.test_quick_solves import FAMILIES, Generate, generate

# The networks of the families are made by the fixture of the quick solves.
__all__ = ["generate"]
# In the gate, and by --long; the first seed.
NETWORKS, MANY, SEED = 300, 200_000, 1990
ARCS, MANY_ARCS = 300, 3_000
# The least number of values that are compared on a random network, in the mean, and of how many
# networks one has flow that goes round in a cycle.
VALUES, WITH_CYCLE = 1_000, 20


@pytest.fixture(scope="module")
def program(tmp_path_factory: pytest.TempPathFactory) -> Path:
    source = ROOT / "tests/library/vital_networks.cpp"
    return compiled(
        ["g++", "-std=c++17"], source, library_folder(), tmp_path_factory.mktemp("vital")
    )


def compared(program: Path, *words: str, problem: bytes = b"") -> tuple[int, int]:
    """How many values were compared, none of which differs, and in how many networks flow went
    round in a cycle."""
    ran = subprocess.run([program, *words], input=problem, capture_output=True)
    assert ran.returncode == 0, ran.stdout + ran.stderr
    values, cycles = map(int, ran.stdout.split())
    return values, cycles


def test_random_networks(request: pytest.FixtureRequest, program: Path) -> None:
    count = MANY if request.config.getoption("--long") else NETWORKS
    values, cycles = compared(program, str(count), str(SEED))
    assert values >= VALUES * count and cycles * WITH_CYCLE >= count


@pytest.mark.parametrize("family", FAMILIES)
def test_families(
    request: pytest.FixtureRequest, program: Path, generate: Generate, family: str
) -> None:
    """Each arc, each node and each second arc is compared."""
    problem = generate(family, MANY_ARCS if request.config.getoption("--long") else ARCS)
    nodes, arcs = map(int, problem.split()[2:4])
    values, _ = compared(program, problem=problem)
    assert values > 2 * arcs + nodes
