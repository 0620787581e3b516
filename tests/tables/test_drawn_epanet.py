"""Networks of EPANET that are drawn at random: their values, by networkx from what each file was
written of."""

from __future__ import annotations

import math
import random
from dataclasses import dataclass, field
from decimal import Decimal
from pathlib import Path
from typing import Any

import pytest
from client_shared import dmf
from packages import load

networkx: Any = load("networkx")


@dataclass
class Written:
    """A network in the lines of its sections, and as a graph."""

    sections: dict[str, list[str]] = field(default_factory=dict)
    graph: Any = field(default_factory=networkx.MultiDiGraph)

    def add(self, section: str, *words: object) -> None:
        self.sections.setdefault(section, []).append("\t".join(map(str, words)))

    def text(self, rng: random.Random) -> str:
        """The sections in any order, with comments, blank lines and either letters."""
        names = list(self.sections)
        rng.shuffle(names)
        lines: list[str] = []
        for name in names:
            lines.append(f"[{name if rng.random() < 0.5 else name.lower()}]")
            for line in self.sections[name]:
                lines += [line + rng.choice(["", " ;", "; [PIPES] x", "   "])]
                lines += rng.choice([[], [], ["; a b c"], [""]])
        return "\r\n".join([*lines, "[END]"])


def flow(diameter: int, velocity: float) -> int:
    """Thousandths of a litre in a second, by floats."""
    return round(velocity * math.pi * (diameter / 1000) ** 2 / 4 * 1e6)


def made(rng: random.Random) -> tuple[str, int]:
    """A network's text, and its greatest value in thousandths of a litre in a second."""
    found, velocity = Written(), 1.25
    graph = found.graph
    names = [
        rng.choice(["J{}", '"Weir {}"', "ä{}", "{}"]).format(at) for at in range(rng.randint(3, 9))
    ]
    plain = [name.strip('"') for name in names]
    found.add("OPTIONS", "Units", "LPS")
    found.add("RESERVOIRS", "R", 50)
    graph.add_edge(0, "R", capacity=10**9)
    for at, (name, node) in enumerate(zip(names, plain)):
        demand = rng.choice([0, 0, rng.randint(1, 40), -rng.randint(1, 9)]) if at else 25
        found.add("JUNCTIONS", name, 3, demand)
        if demand:
            ends = (node, 1) if demand > 0 else (0, node)
            graph.add_edge(*ends, capacity=abs(demand) * 1000)
    all_names, all_nodes = ["R", *names], ["R", *plain]
    for number in range(rng.randint(4, 24)):
        one, two = rng.sample(range(len(all_names)), 2)
        diameter = rng.choice([80, 100, 125, 150, 200])
        kind = rng.choice(["OPEN", "Closed", "CV", "", "PRV", "pump", "status"])
        tail, head, ends = all_nodes[one], all_nodes[two], (all_names[one], all_names[two])
        most = flow(diameter, velocity)
        if kind == "PRV":
            found.add("VALVES", f"L{number}", *ends, diameter, "prv", 40, 0)
        elif kind == "pump":
            found.add("PUMPS", f"L{number}", *ends, "POWER", 5)
            most = 10**9
        else:
            words = [kind] if kind not in ("", "status") else []
            found.add(
                "PIPES", f"L{number}", *ends, 90, diameter, 100, *([0] if words else []), *words
            )
        if kind == "status":
            found.add("STATUS", f"L{number}", "CLOSED")
        if kind in ("Closed", "status"):
            continue
        graph.add_edge(tail, head, capacity=most)
        if kind in ("OPEN", ""):
            graph.add_edge(head, tail, capacity=most)
    return found.text(rng), greatest(graph)


def greatest(graph: Any) -> int:
    simple = networkx.DiGraph([(0, "R", {"capacity": 0}), ("R", 1, {"capacity": 0})])
    for tail, head, most in graph.edges(data="capacity"):
        before = simple.get_edge_data(tail, head, {"capacity": 0})["capacity"]
        simple.add_edge(tail, head, capacity=before + most)
    value: int = networkx.maximum_flow_value(simple, 0, 1)
    return value


@pytest.mark.parametrize("seed", range(60))
def test_generated(tmp_path: Path, seed: int) -> None:
    rng = random.Random(seed)
    text, value = made(rng)
    (tmp_path / "t.inp").write_text(text)
    try:
        network = dmf.read_table(tmp_path / "t.inp", velocity=Decimal("1.25"))
    except dmf.TableFault as fault:
        # A node without a pipe takes or gives nothing.
        assert "is in no row of arcs" in str(fault)
        return
    with network:
        assert network.solve().value == Decimal(value) / 1000
