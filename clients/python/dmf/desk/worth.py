"""What each arc, each place and each pair of arcs is worth: what is left of the greatest value
without it.

The session finds that for all arcs, for all nodes and for the worst pairs of arcs from its greatest
flow, and the desk asks it once for each state."""

from __future__ import annotations

from bisect import bisect_left
from collections.abc import Callable, Iterable, Mapping, Sequence
from functools import partial
from heapq import nsmallest
from typing import NamedTuple

from ..losses import PairsWithout, first_pairs
from ..quantity import Quantity
from ..session.base import Part, ValuesWithout, WorstWithout
from .network_arcs import NetworkArcs
from .steps import DeskFault, Place
from .workspace import Desk

# How many pairs of arcs are listed at first. Many of them may have an arc that is not of a pipe,
# such as that of a source, and a long list takes little longer than a short one.
AT_FIRST = 1_000
# How many pairs a page and a report list.
MOST_PAIRS = 5
# The most arcs of a network whose pairs they list: of 3,000 arcs they take half a second of
# processor time, and of 10,000 some seconds.
MOST_PAIRED = 3_000


class Loss(NamedTuple):
    """The greatest value without a pipe or a place, and what is lost then. `number` is that of the
    pipe, or of the node of the place."""

    number: int
    left: Quantity
    loss: Quantity


class PairLoss(NamedTuple):
    """The greatest value without two pipes, and what is lost then. `numbers` are those of the
    pipes, the smaller one first."""

    numbers: tuple[int, int]
    left: Quantity
    loss: Quantity


def judge_greatest(desk: Desk) -> None:
    """Raise a `DeskFault` unless the flow is greatest."""
    if not desk.is_greatest:
        raise DeskFault(
            f"{desk.network.words.not_most}, so nothing can be compared with it; `solve` first"
        )


def worth_of(desk: Desk, part: Part) -> ValuesWithout:
    """Return the greatest value, and the value without each arc or node, in the whole numbers of
    the session. Raise what a network's `vital` raises."""
    network, worth = desk.network, desk.state.answers.worth
    if part not in worth:
        worth[part] = network.values_without(part)
    return worth[part]


def left_without(desk: Desk, worth: ValuesWithout, number: int) -> int:
    """Return what is left without a pipe, in the whole numbers of the session.

    The greatest value is a concave function of what flows forward on the two arcs of a pipe, less
    what flows back. Without one of them it is the greatest at 0 and on one side of 0; so at 0,
    which is without both, it is the lesser of these.
    """
    return min([worth.without[arc - 1] for arc in desk.state.network.pipes.arcs(number)])


def left_without_place(desk: Desk, worth: ValuesWithout, place: Place) -> int:
    """Return what is left without a place and all arcs at it, in the whole numbers of the session:
    nothing without the source or the sink.

    A place with a limit has two nodes. All arcs into it enter the first, so without that one
    nothing flows through the second one either. If a problem has other arcs into the second one,
    both are shut on a desk beside this one.
    """
    network = desk.state.network
    if network.source in place or network.sink in place:
        return 0
    if place.exit in network.entered_exits:
        with desk.aside() as other:
            other.shut(place)
            other.solve()
            return network.measure.whole(other.value)
    return worth.without[place.entry - 1]


def losses(desk: Desk, numbers: Iterable[int]) -> list[Loss]:
    """Return what is lost without each of these pipes alone. Raise a `DeskFault` unless the flow is
    greatest."""
    return _losses(desk, _left(desk, numbers))


def losses_of_places(desk: Desk, nodes: Iterable[int]) -> list[Loss]:
    """Return what is lost without each of the places of these nodes alone. Raise a `DeskFault`
    unless the flow is greatest."""
    return _losses(desk, _left_of_places(desk, nodes))


def _left(desk: Desk, numbers: Iterable[int]) -> list[tuple[int, int]]:
    """Return what is left without each of these pipes, with its number."""
    judge_greatest(desk)
    worth = worth_of(desk, Part.ARC)
    return [(left_without(desk, worth, number), number) for number in numbers]


def _left_of_places(desk: Desk, nodes: Iterable[int]) -> list[tuple[int, int]]:
    judge_greatest(desk)
    worth, place_of = worth_of(desk, Part.NODE), desk.network.names.place_of
    return [(left_without_place(desk, worth, place_of(node)), node) for node in nodes]


def _losses(desk: Desk, left: Iterable[tuple[int, int]]) -> list[Loss]:
    """Return losses by what is left of the value without each of some things."""
    measure = desk.network.measure
    quantity, value = measure.quantity, measure.whole(desk.value)
    return [Loss(number, quantity(it), quantity(value - it)) for it, number in left]


def worst(desk: Desk, most: int) -> tuple[list[Loss], int]:
    """Return the `most` pipes of the table whose loss is greatest, with what each loses, and how
    many other pipes have a loss. Raise a `DeskFault` unless the flow is greatest."""
    return _worst(desk, _left(desk, desk.network.pictured()), most)


def worst_places(desk: Desk, most: int) -> tuple[list[Loss], int]:
    """Return the same of the places, without the source and the sink. If several places are sources
    or sinks, these are among the places."""
    return _worst(desk, _left_of_places(desk, desk.network.inner_places()), most)


def _worst(desk: Desk, left: list[tuple[int, int]], most: int) -> tuple[list[Loss], int]:
    value = desk.network.measure.whole(desk.value)
    costly = [it for it in left if it[0] < value]
    return _losses(desk, nsmallest(most, costly)), max(0, len(costly) - most)


def worst_pairs(desk: Desk, most: int) -> list[PairLoss]:
    """Return the `most` pairs of open pipes of the table that cost most to lose together, with what
    each loses, the greatest loss first. Raise a `DeskFault` unless the flow is greatest, and
    otherwise what a network's `vital_pairs` raises.

    The greatest value is a concave function of the net flows on the two pipes. Closing both pipes
    leaves only the point 0 of these two flows, and closing one arc of each leaves a closed
    quadrant. The point 0 lies in the convex hull of any four points with one in each quadrant, so
    the four quadrants cannot all have a greater value than 0 has: what is left without both pipes
    is the least of the four. (With a pipe that leads one way, the same is true of two halves of a
    line.) So a pair of pipes stands in the list of pairs of arcs first with what it loses, and
    pairs with equal losses come in the order of that list.
    """
    judge_greatest(desk)
    network, known = desk.network, desk.state.answers.pairs
    if most not in known:
        pipes = pipes_by_arc(network)
        known[most] = pairs_of_pipes(partial(network.pairs_without, arcs=pipes), pipes, most)
    value, pairs, without = known[most]
    quantity = network.measure.quantity
    return [
        PairLoss(pair, quantity(left), quantity(value - left)) for pair, left in zip(pairs, without)
    ]


def pipes_by_arc(network: NetworkArcs) -> dict[int, int]:
    """Return the arcs of the open pipes of the table, each with the number of its pipe."""
    return {arc: pipe for pipe in network.opened_pipes() for arc in network.pipes.arcs(pipe)}


def pairs_of_pipes(
    find: Callable[[int], WorstWithout], pipes: Mapping[int, int], most: int
) -> PairsWithout:
    """Return the `most` worst pairs of these pipes, without those that cost nothing to lose, in the
    whole numbers of the session. `find` returns the given number of worst pairs of their arcs."""

    def costly(asked: int) -> WorstWithout:
        found = find(asked)
        count = bisect_left(found.without, found.value)
        numbers = tuple(column[:count] for column in found.numbers)
        return WorstWithout(found.value, numbers, found.without[:count])

    def pair_of(*arcs: int) -> tuple[int, int] | None:
        first, second = sorted(pipes.get(arc, 0) for arc in arcs)
        return (first, second) if 0 < first < second else None

    return first_pairs(costly, pair_of, most, AT_FIRST)


def left_without_all(desk: Desk, numbers: Sequence[int]) -> Quantity:
    """Return the greatest value if all these open pipes are closed at once. They are closed on a
    desk beside this one, which solves."""
    with desk.aside() as other:
        other.close(*numbers)
        other.solve()
        return other.value
