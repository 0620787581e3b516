#!/usr/bin/env python3
"""Read the table of pipes with pandas, find the ten pipes that are worst to lose, try three wider
pipes, and draw the best.

    PYTHONPATH=../../clients/python python3 worst.py [PICTURE]    in this folder

The picture, best.svg by default, is drawn if Graphviz is installed. In a notebook, make each part a
cell.
"""

import sys

import dmf
import pandas

LITRES = 40
# The pipes of the cut: no others can help.
WIDENED = ["North rise", "Mill Lane", "South main"]

pipes = pandas.read_csv("pipes.csv")
network = dmf.Network.from_frame(
    pipes, "from", "to", "litres per second", key="pipe", source="Reservoir", sink="Harbour"
)
before = network.solve().value
print(f"now: {before} litres per second")

# The ten worst pipes.
losses = [
    {"pipe": arc.key, "loss": -result.difference}
    for arc, result in zip(network.arcs, dmf.sweep(network, dmf.each_arc_closed()))
    if result.difference is not None
]
table = pandas.DataFrame(losses).sort_values("loss", ascending=False, kind="stable")
print(table.head(10).to_string(index=False))

# Three widenings.
gains: dict[str, int] = {}
for pipe, result in zip(WIDENED, dmf.sweep(network, dmf.each_capacity_raised(LITRES, WIDENED))):
    gains[pipe] = result.difference or 0
    print(f"{pipe} with {LITRES} more: {result.value}")

# The best of them, drawn with its cut.
best = max(gains, key=lambda pipe: gains[pipe])
network.cap(best, network.capacity(best) + LITRES)
network.solve()
picture = network.cut()._repr_svg_()
if picture:
    with open(sys.argv[1] if len(sys.argv) > 1 else "best.svg", "w") as file:
        file.write(picture)
print(f"the best is {best}: {network.value} litres per second")
network.end()
