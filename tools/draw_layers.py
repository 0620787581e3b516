#!/usr/bin/env python3
"""Draw the crates of crates.txt in their layers, as a graph for Graphviz.

    python3 tools/draw_layers.py >docs/pictures/layers.dot
    dot -Tsvg docs/pictures/layers.dot >docs/pictures/layers.svg

The headings of crates.txt are the layers, the lowest first. An arrow leads from a crate to each one
that it uses, unless it also uses that one through another; crates of tests have the names of these
under their own. The status is 1 if a crate is under no heading, or uses a crate of a higher layer.
"""

from __future__ import annotations

import sys
from collections.abc import Iterator
from pathlib import Path
from typing import NamedTuple

LIST = Path(__file__).resolve().parents[1] / "crates.txt"
HEADING = "## "
TESTS = "tests"
FRONTS = {"dmf_net", "dmf_run"}
# How many crates of tests stand side by side, and what is below them.
ROW, BELOW_TESTS = 3, ("dmf", "dmf", "dmf_c")
HEAD = """\
// The crates in their layers, from crates.txt. tools/draw_layers.py made it, and says how.
digraph {
  node [shape=box, fontname="Helvetica", fontsize=14, height=.3, margin=".06,.03"]
  edge [color="#555555", arrowsize=.6]
  fontname="Helvetica"
  fontsize=14
  ranksep=.3
  nodesep=.05"""


class Crates(NamedTuple):
    """What crates.txt says: which crates each crate uses, and the crates of each layer, the lowest
    layer first. A crate under no heading is in a layer without a name."""

    uses: dict[str, set[str]]
    layers: dict[str, list[str]]


def read_crates(text: str) -> Crates:
    """Read a list like crates.txt."""
    used: dict[str, str] = {}
    layers: dict[str, list[str]] = {}
    layer = ""
    for line in text.splitlines():
        if line.startswith(HEADING):
            layer = line.removeprefix(HEADING)
        elif line and not line.startswith("#"):
            head, _, libraries = line.partition(":")
            name = head.split()[0]
            used[name] = libraries
            layers.setdefault(layer, []).append(name)
    return Crates({name: {*names.split()} & {*used} for name, names in used.items()}, layers)


def all_below(uses: dict[str, set[str]], name: str) -> set[str]:
    """Return all crates that a crate uses, directly or through others."""
    return uses[name].union(*(all_below(uses, below) for below in uses[name]))


def next_below(uses: dict[str, set[str]], name: str) -> list[str]:
    """Return the crates that a crate uses, without those that it also uses through another."""
    return sorted(uses[name].difference(*(all_below(uses, below) for below in uses[name])))


def faults(crates: Crates) -> Iterator[str]:
    """Yield what is wrong with the layers."""
    layer_of = {name: at for at, names in enumerate(crates.layers.values()) for name in names}
    for name in crates.layers.get("", ()):
        yield f"{name} is under no heading"
    for name, used in crates.uses.items():
        for below in sorted(used):
            if layer_of[below] > layer_of[name]:
                yield f"{name} uses {below}, which is in a higher layer"


def stacking(crates: Crates) -> Iterator[str]:
    """Yield edges that are not drawn: by these a layer is above those that it uses, and the tests
    are in rows above all."""
    uses = crates.uses
    *layers, _ = [{*names} for names in crates.layers.values()]
    for at, upper in enumerate(layers):
        lowest = [name for name in sorted(upper) if not uses[name] & upper]
        for lower in layers[:at]:
            highest = sorted(lower.difference(*(uses[name] for name in lower)))
            if any(uses[name] & lower for name in upper):
                yield from (f"  {a} -> {b} [style=invis]" for a in lowest for b in highest)
    tests = crates.layers[TESTS]
    for name, below in zip(tests, [*tests[ROW:], *BELOW_TESTS]):
        yield f"  {name} -> {below} [style=invis]"


def graph(crates: Crates) -> Iterator[str]:
    """Yield the lines of the graph."""
    uses = crates.uses
    yield HEAD
    for at, (layer, names) in reversed([*enumerate(crates.layers.items())]):
        yield f"  subgraph cluster_{at} {{"
        yield f'    label="{layer}"; labeljust=l; color="#bbbbbb"; bgcolor="#eef4fa"'
        for name in names:
            style = "rounded,filled" + ",dashed" * (name in FRONTS)
            tested = ", ".join(next_below(uses, name)) if layer == TESTS else ""
            label = f"{name}\\nof {tested}" if tested else name
            yield f'    {name} [label="{label}", style="{style}", fillcolor=white]'
        yield "  }"
    for name in uses:
        for below in next_below(uses, name) if name not in crates.layers[TESTS] else ():
            yield f"  {name} -> {below}"
    yield from stacking(crates)
    yield "}"


def main() -> int:
    crates = read_crates(LIST.read_text())
    found = [*faults(crates)]
    for fault in found:
        print(f"draw_layers.py: {fault}", file=sys.stderr)
    if not found:
        print(*graph(crates), sep="\n")
    return 1 if found else 0


if __name__ == "__main__":
    sys.exit(main())
