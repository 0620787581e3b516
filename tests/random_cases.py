"""Random cases: networks, and what the program is asked about them, right or faulty."""

from __future__ import annotations

from collections.abc import Callable, Iterator
from dataclasses import replace
from random import Random

from built import Case
from oracle.changes import add, cap, close, shut, solve
from oracle.network import Arc, State
from oracle.texts import LARGEST, Fault
from random_scripts import command_lines
from random_texts import Lines, line, text_of
from random_words import random_words, words_of

CHANGES: list[Callable[..., State]] = [solve, cap, cap, close, shut, add]


def capacities(random: Random) -> Callable[[], int]:
    """A way in which capacities are chosen."""
    kind = random.randrange(14)
    if kind < 3:
        return lambda: 1
    if kind == 3:
        return lambda: random.randrange(4)
    if kind == 4:
        return lambda: random.choice(
            [0, 1, 2**31, 2**32, 2**60, 2**62, 2**63, LARGEST // 7, LARGEST]
        )
    if kind == 5:
        return lambda: random.randrange(LARGEST // 100)
    if kind in (6, 7):
        # Of any size: the first is below 2^63, and each other one below 2^55.
        first = iter([63])
        return lambda: random.randrange(2 ** next(first, random.randint(1, 55)))
    return lambda: random.randrange(1, 12)


def near_ends(nodes: int, random: Random) -> Iterator[tuple[int, int]]:
    """The ends of arcs of which most lead to one of the next places, so that paths are long."""
    reach, fewest, most = (
        random.choice([1, 2, 3]),
        random.choice([0, 1, 1]),
        random.choice([1, 2, 4, 6, 8]),
    )
    for tail in range(nodes):
        for _ in range(random.randint(fewest, most)):
            head = (
                random.randrange(nodes)
                if random.random() < 0.2
                else tail + random.randint(1, reach)
            )
            yield tail, min(head, nodes - 1)


def level_ends(nodes: int, random: Random) -> Iterator[tuple[int, int]]:
    """The ends of arcs that lead from level to level."""
    width, degree = random.choice([2, 3, 4, 6]), random.choice([1, 2, 2])
    for place in range(1, nodes - 1):
        if place <= width:
            yield 0, place
        following = range((place - 1) // width * width + 1 + width, nodes - 1)[:width]
        for head in random.sample(following, min(degree, len(following))) or [nodes - 1]:
            yield place, head


def chain_ends(nodes: int, random: Random) -> Iterator[tuple[int, int]]:
    """The ends of arcs that make chains, with short cuts from chain to chain. A shortest path takes
    short cuts, and the greatest flow often leaves them empty again."""
    count = random.randint(2, 4)
    chains = [[0, *range(1 + first, nodes - 1, count), nodes - 1] for first in range(count)]
    for chain in chains:
        yield from zip(chain, chain[1:])
    for _ in range(random.randint(1, 2 * count)):
        chain, other = random.sample(chains, 2)
        place = random.randrange(len(chain) - 1)
        yield chain[place], random.choice(other[place + 1 :] or other[-1:])


def hub_ends(nodes: int, random: Random) -> Iterator[tuple[int, int]]:
    """The ends of arcs from suppliers to a few hubs, and on to customers. Some lead around the
    hubs, or from hub to hub."""
    hubs = range(1, 1 + random.randint(1, 3))[: max(1, nodes - 3)]
    others = range(1 + len(hubs), nodes - 1)
    suppliers, customers = others[: len(others) // 2], others[len(others) // 2 :]
    for hub in hubs:
        yield from ((supplier, hub) for supplier in suppliers if random.random() < 0.7)
        yield from ((hub, customer) for customer in customers if random.random() < 0.7)
        yield random.choice([0, *hubs]), hub
        yield hub, random.choice([*hubs, nodes - 1])
    yield from ((0, supplier) for supplier in suppliers)
    yield from ((customer, nodes - 1) for customer in customers)
    for _ in range(random.randrange(1 + len(customers))):
        yield random.choice(suppliers or [0]), random.choice(customers)


# The most nodes of a random network, and of one of which each arc is valued.
MOST_NODES, MOST_VALUED = 60, 8


def network(random: Random, most_nodes: int = MOST_NODES) -> State:
    """A network without flow. A few have a sum of capacities past 64 bits."""
    nodes = min(most_nodes, random.choice([2, 3, 4, 5, 6, 6, 8, 10, 14, 14, 20, 26, 60]))
    ends = list(
        random.choice([near_ends, level_ends, chain_ends, chain_ends, hub_ends])(nodes, random)
    )
    for share, other in (0.05, 1), (random.choice([0, 0, 0.2, 1]), -1):
        # Parallel arcs and opposite ones.
        ends += [
            pair if other == 1 else (pair[1], pair[0]) for pair in ends if random.random() < share
        ]
    if random.random() < 0.7:
        random.shuffle(ends)
    if random.random() < 0.2:
        # Parallel arcs in a row.
        ends = [pair for pair in ends for _ in range(random.choice([1, 1, 1, 2, 3]))]
    names = random.sample(range(1, nodes + 1), nodes)
    chosen = capacities(random)
    arcs = tuple(Arc(names[tail], names[head], chosen()) for tail, head in ends)
    source, sink = (names[0], names[-1]) if random.random() < 0.9 else random.sample(names, 2)
    return State(nodes, source, sink, arcs, (0,) * len(arcs))


def fitting(state: State) -> State:
    """The network with the largest capacities lowered, so that their sum has 64 bits."""
    most = LARGEST // max(1, len(state.arcs))
    return replace(state, arcs=tuple(arc._replace(cap=min(arc.cap, most)) for arc in state.arcs))


def problem_lines(state: State, random: Random) -> Lines:
    terminals = [
        line("n", state.source, "s"),
        line("n", state.sink if random.random() < 0.99 else state.source, "t"),
    ]
    if random.random() < 0.2:
        terminals.reverse()
    arcs = [line("a", *arc[:3]) for arc, _ in state.open_arcs()]
    return [line("p", "max", state.nodes, len(arcs)), *terminals, *arcs]


def changed(state: State, random: Random) -> State:
    """The state after a few changes, with what may flow there."""
    for _ in range(random.choice([0, 1, 2, 4, 8])):
        arc = random.randint(1, len(state.arcs) + 1)
        ends = [random.randint(1, state.nodes) for _ in range(2)]
        amount = random.choice([0, 0, 1, 2, 5, 9])
        change: Callable[..., State] = random.choice(CHANGES)
        fields: dict[Callable[..., State], list[int]] = {
            solve: [],
            cap: [arc, amount],
            close: [arc],
            shut: ends[:1],
            add: [*ends, amount],
        }
        try:
            state = change(state, *fields[change])
        except Fault:
            pass
    return state


def with_cycles(state: State, random: Random) -> State:
    """The state with more flow on cycles of arcs that are met by walking on at random."""
    flows = list(state.flows)
    for _ in range(random.randrange(4)):
        node = random.randint(1, state.nodes)
        trail: list[int] = []
        while True:
            nexts = [
                j for j, arc in enumerate(state.arcs) if arc.tail == node and flows[j] < arc.cap
            ]
            if not nexts or len(trail) > state.nodes:
                break
            trail.append(random.choice(nexts))
            node = state.arcs[trail[-1]].head
            begins = [place for place, j in enumerate(trail) if state.arcs[j].tail == node]
            if begins:
                for j in set(trail[begins[-1] :]):
                    flows[j] += 1
                break
    return replace(state, flows=tuple(flows))


def solution_lines(state: State, random: Random) -> Lines:
    """The lines of a solution in any order. Some pairs are told by several lines, and some without
    flow by none."""
    lines = [line("s", state.value() if random.random() < 0.95 else random.randrange(9))]
    for arc, flow in state.open_arcs():
        if flow == 0 and random.random() < 0.5:
            continue
        part = random.randint(0, flow) if random.random() < 0.3 else flow
        lines.append(line("f", arc.tail, arc.head, part))
        if part < flow:
            lines.append(line("f", arc.tail, arc.head, flow - part))
    if random.random() < 0.5:
        random.shuffle(lines)
    return lines


def random_case(name: str, random: Random) -> Case:
    command = random.choices([b"solve", b"session", b"check", b"vital", b""], [20, 42, 28, 5, 5])[0]
    # The second implementation solves once for each arc of those that are valued.
    state = network(random, MOST_VALUED if command == b"vital" else MOST_NODES)
    if command != b"solve" and random.random() < 0.95:
        state = fitting(state)
    if command == b"check":
        state = with_cycles(changed(state, random), random)
    problem = text_of(
        problem_lines(state, random),
        random,
        b"cx",
        0.5 if command in (b"solve", b"vital") else 0.05,
    )
    if command == b"check":
        text = text_of(solution_lines(state, random), random, b"cx", 0.6)
    elif command == b"session":
        text = text_of(command_lines(state, random), random, b"c", 0.2)
    else:
        text = problem
    return Case(name, words_of(command, random) if command else random_words(random), problem, text)
