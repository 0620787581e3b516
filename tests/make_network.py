"""Writes a maximum-flow problem on standard output: a random level graph, one of the families of
problems on which the solvers of the First DIMACS Implementation Challenge were compared.

    python3 tests/make_network.py WIDTH LEVELS DEGREE MOST SEED

There are LEVELS levels of WIDTH nodes, and then the source and the sink. Each node has DEGREE arcs
to nodes of the next level, which the seed determines, as it does their capacities, from 1 to MOST.
The arcs from the source to the first level and from the last level to the sink have capacity DEGREE
* MOST. examples/levels.max was made so:

    python3 tests/make_network.py 64 16 3 100 1990 >examples/levels.max
"""

from __future__ import annotations

import sys
from collections.abc import Iterator


def numbers(seed: int) -> Iterator[int]:
    """Numbers below 2^32 that the seed determines, by the linear congruence of Knuth's MMIX."""
    state = seed
    while True:
        state = (6364136223846793005 * state + 1442695040888963407) % 2**64
        yield state >> 32


def arcs_of(
    width: int, levels: int, degree: int, most: int, seed: int
) -> Iterator[tuple[int, int, int]]:
    """Each arc's ends and its capacity."""
    random = numbers(seed)
    source = width * levels + 1
    for place in range(1, width + 1):
        yield source, place, degree * most
    for level in range(levels - 1):
        for place in range(1, width + 1):
            for _ in range(degree):
                head = (level + 1) * width + 1 + next(random) % width
                yield level * width + place, head, 1 + next(random) % most
    for place in range(1, width + 1):
        yield (levels - 1) * width + place, source + 1, degree * most


def problem_of(width: int, levels: int, degree: int, most: int, seed: int) -> str:
    """The text of the problem."""
    arcs = list(arcs_of(width, levels, degree, most, seed))
    source = width * levels + 1
    head = [
        f"c a random level graph: tests/make_network.py {width} {levels} {degree} {most} {seed}",
        f"p max {source + 1} {len(arcs)}",
        f"n {source} s",
        f"n {source + 1} t",
    ]
    return "".join(
        line + "\n"
        for line in [*head, *(f"a {tail} {head} {capacity}" for tail, head, capacity in arcs)]
    )


if __name__ == "__main__":
    width, levels, degree, most, seed = map(int, sys.argv[1:])
    sys.stdout.write(problem_of(width, levels, degree, most, seed))
