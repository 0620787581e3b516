"""What a second arc beside each arc of the limit brings, found together from the greatest flow, or
tried one by one if the library does not run the session."""

from __future__ import annotations

import contextlib
import os
from array import array
from collections.abc import Collection, Generator, Iterable, Iterator, Sequence
from itertools import chain
from typing import Any, NamedTuple

from ..errors import CapacitiesPast64Bits, TooManyArcs
from ..history import Command
from ..quantity import Quantity
from ..session.base import PROGRAM, ArcColumns
from ..sweeps.cases import SweepResult, sweep
from ..text.lexical import AMOUNTS, NODES
from ..text.table_comments import DEMAND, SUPPLY
from .live_network import LiveNetwork
from .network_arcs import NetworkArcs
from .steps import DeskFault, Node, Second
from .workspace import Desk
from .worth import judge_greatest

# How many pipes a page and a report list beside which a second one gains most.
MOST_SECONDS = 5


class AskedSeconds(NamedTuple):
    """Second arcs beside some pipes of the limit. `arcs` are the new arcs that they come down to,
    and `pipes` has the pipe of each. Where a place has a limit of its own and gives or takes any
    amount, its limits follow; `cases` has the commands for these pipes. What does not fit into 64
    bits is left out."""

    pipes: Sequence[int]
    arcs: ArcColumns
    cases: dict[int, list[Command]]


class SecondGain(NamedTuple):
    """The greatest value with a second arc beside a pipe, and what is gained then."""

    number: int
    doubled: Quantity
    gain: Quantity


def second_arcs(network: LiveNetwork, numbers: Collection[int]) -> AskedSeconds:
    """Return the second arcs beside these open pipes."""
    joined, fits, whole = _joined(network), _fitting(network, numbers), network.measure.whole
    pipes: list[int] = []
    arcs: list[tuple[int, int, int]] = []
    cases: dict[int, list[Command]] = {}
    for number in filter(fits.__contains__, numbers):
        # An unlimited source gives whatever the new arc carries: the arc might as well begin where
        # the sources are joined. It is the same with a sink.
        ends = [
            (
                joined.get((SUPPLY, add.tail), add.tail),
                joined.get((DEMAND, add.head), add.head),
                whole(add.capacity),
            )
            for add in network.second(number)
        ]
        if any(0 in it[:2] for it in ends):
            cases[number] = [*chain(*_case(network, number))]
        else:
            pipes += [number] * len(ends)
            arcs += ends
    kinds = zip((NODES, NODES, AMOUNTS), zip(*arcs) if arcs else ((), (), ()))
    return AskedSeconds(pipes, ArcColumns(*(array(kind, column) for kind, column in kinds)), cases)


def _joined(network: NetworkArcs) -> dict[tuple[str, int], int]:
    """Return for each unlimited source the node that its arcs leave, with the node that joins the
    sources; and for each unlimited sink the node that its arcs enter, likewise. If such a place has
    a limit, 0 stands for the joining node."""
    found = {}
    if network.folding.has_unlimited:
        added = range(network.first_count + 1, len(network.lines) + 1)
        for number in chain(network.subject.described.roles, added):
            line, role = network.lines[number - 1], network.role(number)
            if role and line.is_unlimited and not line.is_closed:
                leaving = network.folding.second(role.node)
                joint = line.tail if role.kind == SUPPLY else line.head
                node = leaving if role.kind == SUPPLY else role.node
                found[role.kind, node] = joint if leaving == role.node else 0
    return found


def _case(network: NetworkArcs, number: int) -> tuple[list[Command], list[Command]]:
    """Return the commands that put a second one beside a pipe, and those for what follows."""
    whole, added = network.measure.whole, network.second(number)
    return (
        [("add", add.tail, add.head, whole(add.capacity)) for add in added],
        [("cap", it.arc, whole(it.capacity)) for it in network.following(added)],
    )


def _fitting(network: LiveNetwork, numbers: Iterable[int]) -> set[int]:
    """Return those of these open pipes beside which the network has room for a second one."""
    room = network.room()

    def size(number: int) -> int:
        case, follow = _case(network, number)
        more = sum(int(capacity) - network.whole(arc) for _, arc, capacity in follow)
        return more + sum(int(command[-1]) for command in case)

    # A pipe has two arcs at most, and a source and a sink follow by as much at most.
    if 6 * network.largest_capacity() <= room:
        return {*numbers}
    return {number for number in numbers if size(number) <= room}


def gains_by_pipe(seconds: AskedSeconds, gains: Iterable[int]) -> dict[int, int]:
    """Return the gain by each pipe, from those of its new arcs.

    The greatest value is a concave function of what flows forward on the two arcs of a pipe, less
    what flows back. Second arcs let it be greater at both ends, and at the better one of them
    alone it is as great as with both."""
    found: dict[int, int] = {}
    for number, gain in zip(seconds.pipes, gains):
        found[number] = max(gain, found.get(number, 0))
    return found


def are_found_together(desk: Desk) -> bool:
    """Return True if the library runs the session, which finds all gains from one flow."""
    return not isinstance(desk.network.network._session.way, PROGRAM)


def seconds_of(
    desk: Desk, numbers: Iterable[int], *, is_together: bool = True
) -> Generator[Second, None, None]:
    """Return the greatest values if each alone of these pipes has a second one beside it, of the
    network as it is at the call. What is not found together is tried on copies of the network, on
    all processors. Raise a `DeskFault` unless the flow is greatest and the pipes are open."""
    judge_greatest(desk)
    wanted = list(numbers)
    for number in wanted:
        desk.network.open_arcs(number)
    desk.follow()
    network, value, limit = desk.network, desk.value, desk.cut_arcs()
    # A second arc beside one that is not in the limit leaves the limit as it is, and so the value,
    # if there is room for its capacity.
    fits = _fitting(network, wanted)
    inside = [number for number in wanted if number in limit and number in fits]
    found = _gains(desk, inside) if is_together else {}
    left = [number for number in inside if number not in found]
    tried = _tried(network, left)
    quantity, present = network.measure.quantity, network.measure.whole(value)

    def told() -> Generator[Second, None, None]:
        with contextlib.closing(tried):
            for number in wanted:
                doubled: Quantity | None = value if number in fits else None
                if number in found:
                    doubled = quantity(present + found[number])
                elif number in inside:
                    greatest = next(tried)
                    doubled = None if greatest is None else quantity(greatest)
                yield Second(number, doubled)

    return told()


def _gains(desk: Desk, numbers: Collection[int]) -> dict[int, int]:
    """Return what second arcs beside these pipes of the limit gain, as far as that is found
    together."""
    known = desk.state.answers.gains
    if known is None or not known.keys() >= {*numbers}:
        seconds = second_arcs(desk.network, numbers)
        gains = desk.network.gains(seconds.arcs) if seconds.pipes else None
        known = {} if gains is None else gains_by_pipe(seconds, gains)
    return known


def _tried(network: LiveNetwork, numbers: Sequence[int]) -> Generator[int | None, None, None]:
    """Return a sweep over second arcs beside these pipes. None stands for one that is refused since
    the sum of the capacities would exceed 64 bits."""
    cases = [[*_named(network, chain(*_case(network, number)))] for number in numbers]
    jobs = max(1, min(len(cases), len(os.sched_getaffinity(0))))
    results = sweep(network.network, cases, jobs=jobs)

    def found() -> Generator[int | None, None, None]:
        with contextlib.closing(results):
            yield from map(_greatest_or_none, results)

    return found()


def _named(network: LiveNetwork, commands: Iterable[Command]) -> Iterator[tuple[Any, ...]]:
    """Yield commands of nodes and arcs by number as a sweep takes them."""
    for word, *rest in commands:
        if word == "add":
            tail, head, capacity = rest
            yield word, network.node_of(tail), network.node_of(head), capacity
        else:
            yield word, network.handle(rest[0]), rest[1]


def _greatest_or_none(result: SweepResult[Node]) -> int | None:
    if isinstance(result.refusal, (CapacitiesPast64Bits, TooManyArcs)):
        return None
    if result.value is None:
        raise DeskFault(f"what was tried failed: {result.refusal}")
    return result.value


def best_seconds(desk: Desk, most: int) -> tuple[list[SecondGain], int] | None:
    """Return the `most` pipes of the limit beside which a second one gains most, the greatest gain
    first, and how many others gain something; None while that is not known."""
    gains = desk.state.answers.gains
    if gains is None:
        return None
    network, quantity = desk.network, desk.network.measure.quantity
    present = network.measure.whole(desk.value)
    ranked = sorted((-gain, number) for number, gain in gains.items() if gain)
    chosen = [
        SecondGain(number, quantity(present - less), quantity(-less))
        for less, number in ranked[:most]
    ]
    return chosen, len(ranked) - len(chosen)
