"""Calls of the C library that change nothing, drawn at random for the present state of a session,
and what each must answer by the second implementation."""

from __future__ import annotations

from collections.abc import Callable, Sequence
from dataclasses import replace
from itertools import combinations
from random import Random
from typing import NamedTuple

from c_library import NO_SUCH_ARC, NO_SUCH_NODE, NOT_GREATEST, CSession, Refused
from c_losses import Numbers, among, arcs_at, gain, left, listed
from oracle.network import State, is_greatest, smallest_side, solved
from oracle.problem import problem_text
from oracle.solution import solution_text
from oracle.texts import LARGEST

# The most arcs, nodes or pairs that one call is asked about.
MOST = 3


class Refusal(NamedTuple):
    """The answer of a refused call, and the place that it names."""

    status: int
    place: int = 0


class Question(NamedTuple):
    """A call and its answer: what it writes, or its refusal."""

    call: str
    ask: Callable[[CSession], object]
    answer: object


def answer_of(ask: Callable[[], object]) -> object:
    """Return what a call answers."""
    try:
        return ask()
    except Refused as refused:
        return Refusal(refused.status, refused.place)


def best(now: State) -> State:
    """Return the network with a maximum flow on it."""
    return solved(replace(now, flows=(0,) * len(now.arcs)))


def if_greatest(now: State, answer: Callable[[], object]) -> object:
    """Return an answer that only a maximum flow gets."""
    return answer() if is_greatest(now) else Refusal(NOT_GREATEST)


def drawn(random: Random, last: int) -> list[int]:
    """Draw some numbers up to the last; now and then one is past it, or 0."""
    numbers = [random.randint(1, last) for _ in range(random.randint(0, MOST)) if last]
    if random.random() < 0.1:
        numbers.append(random.choice([0, last + 1]))
    return numbers


def are_there(numbers: Sequence[int], last: int) -> bool:
    return all(1 <= number <= last for number in numbers)


def arrays(now: State, random: Random) -> Question:
    rows = [(*arc[:3], flow, int(arc.is_closed)) for arc, flow in zip(now.arcs, now.flows)]
    first = random.randint(1, len(rows) + 1)
    count = random.randint(0, len(rows) + 1 - first)
    part = rows[first - 1 : first - 1 + count]
    columns = [tuple(row[at] for row in part) for at in range(5)]
    capacities = tuple(arc.cap for arc in now.arcs)
    return Question(
        "arc_range",
        lambda it: (it.arc_range(first, count, [count] * 5), it.array("capacities")),
        (columns, capacities),
    )


def texts(now: State, random: Random) -> Question:
    name, text = random.choice(
        [("problem", problem_text(now)), ("solution", solution_text(now))],
    )
    room = len(text) + random.randint(0, 3)
    return Question(name, lambda it: it.text_into(name, room), text)


def side(now: State, _: Random) -> Question:
    return Question("side", CSession.side, if_greatest(now, lambda: sorted(smallest_side(now)[0])))


def maximum(now: State, random: Random) -> Question:
    """The flows may be any maximum flow."""
    arcs, nodes = (random.choice([0, len(it)]) for it in (now.arcs, range(now.nodes)))
    whole = best(now)
    near = set(smallest_side(whole)[0])
    marks = tuple(int(node in near) for node in range(1, now.nodes + 1)) if nodes else ()

    def ask(session: CSession) -> object:
        value, flows, marked = session.maximum_flow(arcs, nodes)
        found = replace(now, flows=flows) if arcs else whole
        assert {*found.excesses()} <= {now.source, now.sink} and found.value() == value
        assert all(0 <= flow <= arc.cap for flow, arc in zip(found.flows, now.arcs))
        return value, marked

    return Question("maximum_flow", ask, (whole.value(), marks))


def losses(now: State, random: Random) -> Question:
    """Of chosen arcs or nodes."""
    part, last, none = random.choice(
        [("arc", len(now.arcs), NO_SUCH_ARC), ("node", now.nodes, NO_SUCH_NODE)]
    )
    numbers = drawn(random, last)

    def lost(number: int) -> int:
        if number in (now.source, now.sink) and part == "node":
            return 0
        return now.value() - left(now, {number} if part == "arc" else arcs_at(now, number))

    return Question(
        f"{part}_losses",
        lambda it: it.losses(part, numbers, len(numbers)),
        if_greatest(now, lambda: tuple(map(lost, numbers)))
        if are_there(numbers, last)
        else Refusal(none),
    )


def pairs(now: State, random: Random) -> Question:
    firsts = drawn(random, len(now.arcs))
    seconds = [random.randint(1, max(1, len(now.arcs))) for _ in firsts]
    return Question(
        "pair_losses",
        lambda it: it.pair_losses(firsts, seconds, len(firsts)),
        if_greatest(
            now, lambda: tuple(now.value() - left(now, pair) for pair in zip(firsts, seconds))
        )
        if are_there([*firsts, *seconds], len(now.arcs))
        else Refusal(NO_SUCH_ARC),
    )


def worst(now: State, random: Random) -> Question:
    """The worst arcs, nodes or pairs; pairs are of few chosen arcs."""
    parts, most = random.choice(["arcs", "nodes", "pairs"]), random.choice([0, 1, 2, 5, 40])
    marks = [random.choice([0, 1, 200]) for _ in now.arcs]
    if parts == "pairs":
        chosen = random.sample(range(len(marks)), min(len(marks), MOST))
        marks = [mark if at in chosen else 0 for at, mark in enumerate(marks)]

    def rows() -> object:
        numbers = range(1, len(now.arcs) + 1)
        sets: dict[Numbers, set[int]]
        if parts == "nodes":
            inner = sorted({*range(1, now.nodes + 1)} - {now.source, now.sink})
            sets = {(node,): arcs_at(now, node) for node in inner}
        elif parts == "arcs":
            sets = {(arc,): {arc} for arc in numbers if marks[arc - 1]}
        else:
            sets = {pair: {*pair} for pair in combinations(numbers, 2)}
            sets = {pair: sets[pair] for pair in among(dict.fromkeys(sets, 0), marks)}
        return listed({key: now.value() - left(now, out) for key, out in sets.items()}, most)

    lengths = [most] * (3 if parts == "pairs" else 2)
    return Question(
        f"worst_{parts}", lambda it: it.worst(parts, lengths, marks), if_greatest(now, rows)
    )


def gains(now: State, random: Random) -> Question:
    """Of second arcs, or of new ones whose capacities fit four times; others may be refused."""
    room = (LARGEST - now.capacity_sum()) // (4 * MOST)
    node = range(1, now.nodes + 1)
    chosen = [
        (random.choice(node), random.choice(node), min(random.choice([0, 1, 5, 9]), room))
        for _ in range(random.randint(0, MOST))
    ]
    beside = [number for number in drawn(random, len(now.arcs)) if number <= len(now.arcs)]
    is_second = random.random() < 0.5 and 0 not in beside
    if is_second:
        beside = [number for number in beside if now.arcs[number - 1].cap <= room]
        chosen = [now.arcs[number - 1][:3] for number in beside]
    tails, heads, capacities = ([arc[at] for arc in chosen] for at in range(3))
    return Question(
        "second_gains" if is_second else "new_arc_gains",
        lambda it: it.second_gains(beside, len(beside))
        if is_second
        else it.new_arc_gains(tails, heads, capacities, len(chosen)),
        if_greatest(now, lambda: tuple(gain(now, arc) for arc in chosen)),
    )


def check(now: State, random: Random) -> Question:
    """Of a maximum flow, or of the present one."""
    flows = random.choice([best(now).flows, now.flows])
    answer = None if is_greatest(replace(now, flows=flows)) else Refusal(NOT_GREATEST)
    return Question("check", lambda it: it.check(flows), answer)


KINDS: list[Callable[[State, Random], Question]] = [
    *(arrays, texts, side, maximum, losses, pairs, worst, gains, check),
]


def question(now: State, random: Random) -> Question:
    """Draw a call for this state."""
    return random.choice(KINDS)(now, random)
