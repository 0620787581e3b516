"""What the tests of sheets share: values by networkx, and tools that ask at a terminal."""

from __future__ import annotations

import os
import subprocess
from collections.abc import Sequence
from decimal import Decimal
from typing import Any

from limits import SECONDS
from office_readings import Arcs
from packages import load
from terminals import Terminal

networkx: Any = load("networkx")


def ends_of(arcs: Arcs) -> tuple[list[str], list[str]]:
    """The places that nothing leads to, and those that nothing leads away from."""
    tails, heads = ([arc[at] for arc in arcs] for at in (0, 1))
    sources, sinks = [*dict.fromkeys(it for it in tails if it not in heads)], [
        *dict.fromkeys(it for it in heads if it not in tails)
    ]
    # Where all rows lead both ways, from the first place to that of the fourth row.
    return (sources, sinks) if sources else ([tails[0]], [heads[4]])


def greatest(arcs: Arcs) -> Decimal:
    """The greatest value, by networkx in thousandths."""
    graph = networkx.DiGraph()
    for tail, head, most in arcs:
        before = graph.get_edge_data(tail, head, {"capacity": 0})["capacity"]
        graph.add_edge(tail, head, capacity=before + int(1000 * Decimal(most)))
    sources, sinks = ends_of(arcs)
    graph.add_edges_from((1, place) for place in sources)
    graph.add_edges_from((place, 2) for place in sinks)
    return Decimal(networkx.maximum_flow_value(graph, 1, 2)) / 1000


def at_a_terminal(
    words: list[str], answers: list[bytes], prompts: Sequence[str] = ("Number or title: ", "> ")
) -> tuple[int, str]:
    """What a tool ends with and tells, where each line is typed when the tool waits for one. The
    terminal is one that only writes, so that a prompt is plain text."""
    with Terminal() as terminal:
        running = subprocess.Popen(
            words,
            stdin=terminal.end,
            stdout=terminal.end,
            stderr=terminal.end,
            env={**os.environ, "TERM": "dumb"},
        )
        try:
            for prompt, answer in zip(prompts, answers):
                assert terminal.wait_for(lambda told: prompt in told), terminal.told()
                terminal.type(answer)
            return running.wait(timeout=SECONDS), terminal.close()
        finally:
            # Otherwise the terminal would be read for as long as the tool has it open.
            running.kill()
