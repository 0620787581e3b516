"""Which arcs a board's picture has: those that a search from the limit, or from a place, over the
whole network finds first."""

from __future__ import annotations

import random
from collections.abc import Callable

import pytest
from desk_shared import desk_of
from dmf.desk.pictures.nearby import Nearby
from dmf.desk.steps import DeskFault
from dmf.desk.workspace import Desk

# So many arcs are shown.
MOST = 25


def square(side: int, chance: random.Random) -> bytes:
    """A problem of a square of places, from one corner to the other, with arcs to the right and
    down; its midst has a limit, by two nodes."""
    arcs = []
    for row in range(side):
        for column in range(side):
            node = row * side + column + 1
            arcs += [(node, node + 1)] * (column + 1 < side) + [(node, node + side)] * (
                row + 1 < side
            )
    midst, twin = side * side // 2 + 1, side * side + 1
    ends = [(twin if tail == midst else tail, head) for tail, head in arcs]
    lines = [f"a {tail} {head} {chance.randint(1, 20)}\n" for tail, head in ends]
    inner = f"c inner node {twin} half {midst}\nc inner arc {len(arcs) + 1} limit {midst}\n"
    head = f"p max {twin} {len(arcs) + 1}\nn 1 s\nn {side * side} t\n"
    return (inner + head + "".join(lines) + f"a {midst} {twin} {chance.randint(1, 9)}\n").encode()


def wanted(desk: Desk, nodes: tuple[int, ...]) -> list[int]:
    """The first arcs of a search, step by step over all arcs."""
    place = desk.network.folding.place
    ends = {
        number: {
            place(desk.network.lines[number - 1].tail),
            place(desk.network.lines[number - 1].head),
        }
        for number in desk.network.pictured()
    }
    cut = {} if nodes else desk.cut_arcs()
    chosen = [number for number in cut if number in ends]
    midst = {role.node for role in map(desk.network.role, cut) if role}
    if midst or not chosen:
        midst = midst or (
            {*map(place, nodes)} if nodes else {*desk.network.sources, *desk.network.sinks}
        )
        chosen += [number for number in ends if ends[number] & midst and number not in chosen]
    for arc in chosen:
        if len(chosen) >= MOST:
            break
        for node in (
            place(desk.network.lines[arc - 1].tail),
            place(desk.network.lines[arc - 1].head),
        ):
            chosen += [number for number in ends if node in ends[number] and number not in chosen]
    return sorted(chosen[:MOST])


@pytest.mark.parametrize("seed", range(4))
def test_nearby(seed: int) -> None:
    """After random steps, undone and made again, with arcs that are added, closed and opened
    again."""
    chance = random.Random(seed)
    desk = desk_of(square(6, chance))
    nearby = Nearby(desk)
    numbers = set()
    for turn in range(60):
        arc, node = chance.choice(desk.network.pictured()), chance.randint(1, 36)
        place, other = (desk.network.names.place_of(chance.randint(1, 36)) for _ in range(2))
        acts: list[Callable[[], object]] = [
            lambda: desk.close(arc),
            lambda: desk.open(arc),
            lambda: desk.double(arc),
            lambda: desk.cap(arc, chance.randint(0, 30)),
            lambda: desk.shut(place),
            lambda: desk.open_place(place),
            lambda: desk.add(place, other, 5),
            lambda: desk.go_to(chance.randint(1, len(desk.steps))),
        ]
        try:
            chance.choice(acts)()
        except DeskFault:
            continue
        for nodes in (), tuple(desk.network.names.place_of(node)):
            found = nearby.arcs(nodes, MOST)
            assert found == wanted(desk, nodes), (turn, nodes)
            numbers.update(found)
    assert len(numbers) > MOST
    assert nearby.arcs((), len(desk.network.pictured())) == desk.network.pictured()
    desk.end()
