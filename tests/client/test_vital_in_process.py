"""What is left of the greatest value without each arc, node or pair, by the C library in this
process: when it is asked, beside the program, and how a call ends that is refused. How Ctrl-C ends
one is in test_questions_stopped.py."""

from __future__ import annotations

from collections.abc import Callable, Sized
from random import Random
from typing import Any

import pytest
from c_library import library_file
from client_shared import BUILT, PIPE_PAIRS, dmf, pipes, rows_by_number
from dmf.session import library as loaded
from dmf.session.base import Part, Ranked
from dmf.session.fresh import values_without
from dmf.session.statuses import NO_MEMORY

# The values without each of the pipes, worked by hand.
LEFT = [2, 3, 4, 3, 2]
pytestmark = pytest.mark.usefixtures("by_library")


@pytest.fixture(params=[0, 10**9], ids=["beside", "at once"])
def bound(request: pytest.FixtureRequest, monkeypatch: pytest.MonkeyPatch) -> int:
    """The most arcs that a call may look at in the caller's thread."""
    most = int(request.param)
    monkeypatch.setattr(loaded, "MOST_AT_ONCE", most)
    return most


def test_no_program_is_needed(monkeypatch: pytest.MonkeyPatch, bound: int) -> None:
    """Only where the flow is not greatest; then the program is told the network as it is now."""
    monkeypatch.setenv("DMF", "/nowhere")
    with pipes() as network:
        with pytest.raises(dmf.NoProgram):
            network.vital()
        plan = network.solve()
        assert list(network.vital().values) == LEFT
        network.add("lake", "sea", 1)
        with pytest.raises(dmf.NoProgram):
            network.vital()
        with pytest.raises(dmf.NoProgram):
            network.vital_nodes()
        with pytest.raises(dmf.NotANumber):
            network.vital(-1)
        monkeypatch.setenv("DMF", BUILT)
        # The new pipe carries nothing yet.
        found = network.vital()
        assert (network.value, found.value, list(found.losses)) == (5, 6, [3, 2, 1, 2, 3, 1])
        assert list(network.vital_nodes().losses) == [3, 3]
        network.undo()
        assert network.flow() == plan and list(network.vital().values) == LEFT


@pytest.mark.parametrize("seed", range(10))
def test_beside_the_program(seed: int, bound: int) -> None:
    random = Random(f"losses {seed}")
    rows = [(random.randrange(30), random.randrange(30), random.randrange(9)) for _ in range(200)]
    with dmf.Network(rows, 0, 29, nodes=range(30)) as network:
        network.solve()
        network.close(network.arcs[random.randrange(200)])
        network.add(0, 29, random.randrange(9))
        network.shut(random.randrange(1, 29))
        network.solve()
        wanted = values_without(network._kept.copy().problem(), Part.ARC, BUILT)
        found = network.vital()
        assert (found.value, list(found.values)) == (wanted.value, list(wanted.without))
        assert any(found.losses) and len(found) == 201
        wanted = values_without(network._kept.copy().problem(), Part.NODE, BUILT)
        nodes = network.vital_nodes()
        assert (nodes.value, list(nodes.values)) == (wanted.value, list(wanted.without)[1:29])
        assert any(nodes.losses) and nodes.nodes == [*range(1, 29)]


def test_want_of_memory(monkeypatch: pytest.MonkeyPatch, bound: int) -> None:
    with pipes() as network:
        network.solve()
        with monkeypatch.context() as patched:
            library: Any = loaded.load(library_file())
            for ranked in Ranked:
                patched.setitem(library.losses, ranked, lambda *_: NO_MEMORY)
            for ask in network.vital, network.vital_nodes:
                with pytest.raises(dmf.NoMemory, match="^no memory$"):
                    ask()
        assert list(network.vital().values) == LEFT and network.value == 5
        assert list(network.vital_nodes().losses) == [3, 3]


ASKED: dict[Ranked, Callable[[dmf.Network[Any]], Sized]] = {
    Ranked.ARCS: lambda network: network.vital(top=2),
    Ranked.NODES: lambda network: network.vital_nodes(top=2),
    Ranked.PAIRS: lambda network: network.vital_pairs(top=2),
}


def test_no_program_is_needed_to_rank(monkeypatch: pytest.MonkeyPatch, bound: int) -> None:
    """Only where the flow is not greatest."""
    monkeypatch.setenv("DMF", "/nowhere")
    with pipes() as network:
        for ask in ASKED.values():
            with pytest.raises(dmf.NoProgram):
                ask(network)
        network.solve()
        assert list(network.vital(top=2).losses) == [3, 3]
        assert list(network.vital_nodes(top=2).losses) == [3, 3]
        assert rows_by_number(network.vital_pairs(top=2)) == PIPE_PAIRS[:2]
        # The library ranks as many as there are, and the program 10,000.
        assert rows_by_number(network.vital_pairs(top=10**12)) == PIPE_PAIRS
        network.add("lake", "sea", 1)
        with pytest.raises(dmf.NumberTooLarge, match="10001 pairs: the program ranks 10,000 at"):
            network.vital_pairs(top=10_001)


def test_want_of_memory_to_rank(monkeypatch: pytest.MonkeyPatch, bound: int) -> None:
    with pipes() as network:
        network.solve()
        library: Any = loaded.load(library_file())
        for ranked, ask in ASKED.items():
            with monkeypatch.context() as patched:
                patched.setitem(library.worst, ranked, lambda *_: NO_MEMORY)
                with pytest.raises(dmf.NoMemory, match="^no memory$"):
                    ask(network)
            assert len(ask(network)) == 2
