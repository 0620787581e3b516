"""Networks of sessions of the C library at which losses and gains are asked for, and what these are
by the second implementation."""

from __future__ import annotations

from collections.abc import Collection, Mapping, Sequence
from contextlib import suppress
from dataclasses import replace
from random import Random

from c_library import CSession, Refused
from oracle.network import Arc, State, solved

Numbers = tuple[int, ...]
Rows = list[Numbers]
# A new arc: its tail, its head and its capacity.
NewArc = tuple[int, int, int]


def left(wanted: State, out: Collection[int]) -> int:
    """The greatest value if these arcs carry nothing, by the second implementation."""
    arcs = tuple(
        arc._replace(cap=0) if number in out else arc for number, arc in enumerate(wanted.arcs, 1)
    )
    return solved(replace(wanted, arcs=arcs, flows=(0,) * len(arcs))).value()


def arcs_at(wanted: State, node: int) -> set[int]:
    """The numbers of the arcs that leave or enter a node."""
    return {number for number, arc in enumerate(wanted.arcs, 1) if node in (arc.tail, arc.head)}


def gain(now: State, arc: NewArc) -> int:
    """How much greater the greatest value is with this arc, by the second implementation."""
    arcs = now.arcs
    more = replace(now, arcs=(*arcs, Arc(*arc, False)), flows=(0,) * (len(arcs) + 1))
    return solved(more).value() - solved(replace(now, flows=(0,) * len(arcs))).value()


def listed(losses_of: Mapping[Numbers, int], most: int) -> Rows:
    """The worst of these losses: the greatest first, and equal ones by their numbers."""
    rows = sorted(losses_of.items(), key=lambda item: (-item[1], item[0]))
    return [(*numbers, loss) for numbers, loss in rows[:most]]


def among(losses_of: Mapping[Numbers, int], marks: Sequence[int]) -> dict[Numbers, int]:
    """The losses of the arcs, or of the pairs of arcs, that the marks choose."""
    return {
        numbers: loss
        for numbers, loss in losses_of.items()
        if all(marks[number - 1] for number in numbers)
    }


def changed(session: CSession, random: Random, wanted: State) -> None:
    """Make some changes, and solve."""
    for _ in range(random.randrange(5)):
        arc, node = random.randint(1, len(wanted.arcs) or 1), random.randint(1, wanted.nodes)
        steps: list[tuple[str, list[int]]] = [
            ("close", [arc]),
            ("shut", [node]),
            ("cap", [arc, random.randrange(9)]),
            ("add", [node, random.randint(1, wanted.nodes), random.randrange(9)]),
            ("solve", []),
            ("undo", [1]),
        ]
        word, numbers = random.choice(steps)
        with suppress(Refused):
            session.step(word, *numbers)
    session.step("solve")


def present(session: CSession, wanted: State) -> State:
    """The present network, read arc by arc."""
    count = session.number("arcs")
    tails, heads, capacities, flows, closed = session.arc_range(1, count, [count] * 5)
    arcs = tuple(map(Arc, tails, heads, capacities, [mark == 1 for mark in closed]))
    return replace(wanted, arcs=arcs, flows=flows)
