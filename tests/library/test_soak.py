"""Many steps in one process: the memory in use stays what it was, and what was freed leaves
nothing. --long takes 1,000,000 steps."""

from __future__ import annotations

import os
import subprocess
import sys
from pathlib import Path

import pytest
from c_library import ROOT, compiled, library_file, library_folder

# In the gate, and by --long.
STEPS, MANY = 30_000, 1_000_000
# glibc counts what it keeps for the next request of a size as in use, unless it keeps none.
EXACT = {"GLIBC_TUNABLES": "glibc.malloc.tcache_count=0"}
# How much more a tenth of the steps may have in use than the first two, since the random states
# differ in size.
SPREAD = 1.1
# Each turn leaves the network as it was: steps that are taken back, some in a block, and now and
# then a case of a sweep, and flows.
TURNS = """
import random, sys
import dmf

draw = random.Random(1990)
rows = [(draw.randrange(40), draw.randrange(40), draw.randrange(1, 1000)) for _ in range(160)]
network = dmf.Network(rows, 0, 39)
value, flows = network.solve().value, list(network.flow().values())
# A turn has 14 steps, and a sweep 4.
turns = int(sys.argv[1]) // 144
for _ in range(10):
    for at in range(turns):
        arc = network.arcs[draw.randrange(160)]
        for _ in range(2):
            network.cap(arc, draw.randrange(1000))
            network.add(draw.randrange(40), draw.randrange(40), 3)
            network.shut(draw.randrange(1, 39))
            plan = network.solve()
            network.undo(4)
        with network.try_out():
            network.close(arc)
            network.solve()
        if at % 10 == 0:
            (result,) = dmf.sweep(network, [[("close", arc)]], jobs=1)
            assert sum(plan.values()) >= plan.value and result.difference <= 0
    assert network.value == value and list(network.flow().values()) == flows
    print(int(open("/proc/self/statm").read().split()[1]))
"""


@pytest.fixture
def steps(request: pytest.FixtureRequest) -> int:
    return MANY if request.config.getoption("--long") else STEPS


def tenths(words: list[str | Path], **environment: str) -> list[int]:
    """The numbers that a process writes."""
    ran = subprocess.run(
        words, env={**os.environ, **environment}, capture_output=True, text=True, timeout=900
    )
    assert (ran.returncode, ran.stderr) == (0, "")
    return list(map(int, ran.stdout.split()))


def test_a_program_in_c(steps: int, tmp_path: Path) -> None:
    """Bytes of the heap: at most as many as in the first tenths, and none at the end."""
    program = compiled(["gcc"], Path(__file__).with_name("soak.c"), library_folder(), tmp_path)
    rounds, *most, left = tenths([program, str(steps)], **EXACT)
    assert rounds > steps // 200 and len(most) == 10
    assert max(most) <= SPREAD * max(most[:2]), most
    assert left == 0


@pytest.mark.seconds(3)
def test_python(steps: int) -> None:
    """Pages of the whole process, which holds at most a twentieth more than after the first two
    tenths."""
    environment = {"PYTHONPATH": str(ROOT / "clients/python"), "DMF_LIBRARY": library_file()}
    pages = tenths([sys.executable, "-c", TURNS, str(steps)], **environment)
    assert len(pages) == 10 and max(pages) <= 1.05 * max(pages[:2]), pages
