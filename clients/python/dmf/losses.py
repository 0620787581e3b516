"""What is left of a network's greatest value without each of its arcs, each of its nodes, or each
pair of its arcs."""

from __future__ import annotations

from array import array
from collections.abc import Callable, Container, Mapping, Sequence
from dataclasses import dataclass
from heapq import nsmallest
from typing import TYPE_CHECKING, Any, Generic, NamedTuple

from .arcs import Arc, OpenArcs
from .columns import Node
from .rows import whole
from .session.base import Part, Ranked, ValuesWithout, WorstWithout
from .text.lexical import AMOUNTS
from .value_differences import Thing, ValueDifferences

if TYPE_CHECKING:
    from .quantity import Measure

# The most arcs or nodes that a session or the program ranks; for more, all values are sorted.
MOST_RANKED = 1_000


class Finder(NamedTuple):
    """How many nodes a network has, and what finds its greatest values: without each arc or node,
    and without each of the given number of worst arcs, nodes or pairs, the worst first, among the
    arcs that have a mark other than 0, or all if there are no marks."""

    node_count: int
    values_without: Callable[[Part], ValuesWithout]
    worst_without: Callable[[Ranked, int, bytes], WorstWithout]


class Losses(ValueDifferences[Thing]):
    """What is left without each arc, node or pair, in rows: the arc, node or pair, the greatest
    value without it, and the loss."""

    __module__ = __package__
    _number_titles = "without", "loss"

    losses: Sequence[Any]

    def _differences(self) -> Sequence[Any]:
        return self.losses


@dataclass(frozen=True, repr=False)
class VitalArcs(Losses[Arc[Node]], Generic[Node]):
    """The greatest value of a network, and what is left of it without each arc. It yields a row for
    each arc: the arc, the greatest value without it, and the loss.

    Attributes
    ----------
    value
        The greatest value.
    arcs
        The arcs, closed ones too.
    values
        The greatest value without each of them: the value if only that arc is closed.
    losses
        The value minus each of these.
    """

    __module__ = __package__
    _word, _titles = "arcs", ("arc", "tail", "head")

    value: Any
    arcs: Sequence[Arc[Node]]
    values: Sequence[Any]
    losses: Sequence[Any]

    @classmethod
    def of(
        cls, arcs: OpenArcs[Node], finder: Finder, measure: Measure | None, top: int | None
    ) -> VitalArcs[Node]:
        """Return what is found about these arcs: about the `top` of them whose loss costs most, if
        that is given."""
        most = _most(top, cls._word)
        if most is not None and most <= MOST_RANKED:
            found = finder.worst_without(Ranked.ARCS, most, arcs.marks())
            ranked = [*map(arcs.handle, *found.numbers)]
            return cls(*_shown(measure, found.value, ranked, found.without))
        value, without = finder.values_without(Part.ARC)
        return cls(*_shown(measure, value, *_sorted(arcs, arcs.chosen(without), most)))

    def _things(self) -> Sequence[Arc[Node]]:
        return self.arcs

    def _cells(self, thing: Arc[Node]) -> tuple[object, ...]:
        return cells_of(thing)


@dataclass(frozen=True, repr=False)
class VitalNodes(Losses[Node], Generic[Node]):
    """The greatest value of a network, and what is left of it without each node. It yields a row
    for each node: the node, the greatest value without it, and the loss.

    Attributes
    ----------
    value
        The greatest value.
    nodes
        The nodes, except the source and the sink.
    values
        The greatest value without each of them: the value if only the arcs at that node are closed.
    losses
        The value minus each of these.
    """

    __module__ = __package__
    _word, _titles = "nodes", ("node",)

    value: Any
    nodes: Sequence[Node]
    values: Sequence[Any]
    losses: Sequence[Any]

    @classmethod
    def of(
        cls, nodes: Mapping[Node, int], finder: Finder, measure: Measure | None, top: int | None
    ) -> VitalNodes[Node]:
        """Return what is found about these nodes, given with their numbers, which ascend: about the
        `top` of them whose loss costs most, if that is given."""
        most, by_number = _most(top, cls._word), {number: node for node, number in nodes.items()}
        unseen = finder.node_count - 2 - len(nodes)
        if most is not None and most + unseen <= MOST_RANKED:
            found = finder.worst_without(Ranked.NODES, most + unseen, b"")
            return cls(*_shown(measure, found.value, *_seen(found, by_number.get, most)))
        value, without = finder.values_without(Part.NODE)
        left = array(AMOUNTS, (without[number - 1] for number in by_number))
        return cls(*_shown(measure, value, *_sorted([*nodes], left, most)))

    def _things(self) -> Sequence[Node]:
        return self.nodes

    def _cells(self, thing: Node) -> tuple[object, ...]:
        return (thing,)


@dataclass(frozen=True, repr=False)
class VitalPairs(Losses[tuple[Arc[Node], Arc[Node]]], Generic[Node]):
    """The greatest value of a network, and what is left of it without the two arcs of each pair. It
    yields a row for each pair, the greatest loss first: the pair, the greatest value without it,
    and the loss.

    Attributes
    ----------
    value
        The greatest value.
    pairs
        The pairs of arcs, closed ones too. The first arc of a pair has the smaller number.
    values
        The greatest value without each of them: the value if only these two arcs are closed.
    losses
        The value minus each of these.
    """

    __module__ = __package__
    _word = "pairs"
    _titles = "first arc", "tail", "head", "second arc", "tail", "head"

    value: Any
    pairs: Sequence[tuple[Arc[Node], Arc[Node]]]
    values: Sequence[Any]
    losses: Sequence[Any]

    @classmethod
    def of(
        cls, arcs: OpenArcs[Node], finder: Finder, measure: Measure | None, top: int
    ) -> VitalPairs[Node]:
        """Return what is found about pairs of these arcs: about the `top` of them whose loss costs
        most."""
        most = whole(top, "vital_pairs", "a number of pairs")
        found = finder.worst_without(Ranked.PAIRS, most, arcs.marks())
        firsts, seconds = (map(arcs.handle, numbers) for numbers in found.numbers)
        return cls(*_shown(measure, found.value, [*zip(firsts, seconds)], found.without))

    def _things(self) -> Sequence[tuple[Arc[Node], Arc[Node]]]:
        return self.pairs

    def _cells(self, thing: tuple[Arc[Node], Arc[Node]]) -> tuple[object, ...]:
        return *cells_of(thing[0]), *cells_of(thing[1])


def marks_of(numbers: Container[int], count: int) -> bytes:
    """Return a byte for each of `count` arcs, in order: 1 if its number is one of these, otherwise
    0."""
    return bytes(number in numbers for number in range(1, count + 1))


class PairsWithout(NamedTuple):
    """The greatest value, pairs of things, and the greatest value without each of them, the least
    first."""

    value: int
    pairs: Sequence[Any]
    without: array[int]


def first_pairs(
    find: Callable[[int], WorstWithout],
    pair_of: Callable[[int, int], tuple[Any, Any] | None],
    most: int,
    at_first: int = 0,
) -> PairsWithout:
    """Return the `most` pairs that cost most to lose, or all if there are fewer.

    Parameters
    ----------
    find
        Returns the given number of worst pairs of arcs.
    pair_of
        Returns the pair of things that two arcs stand for, or None. If several pairs of arcs stand
        for one pair of things, it counts once, with what the first of them leaves.
    most
        The number of pairs to return.
    at_first
        The number of pairs of arcs that `find` lists at first, if it is more than `most`.
    """
    asked = max(most, at_first)
    while True:
        found = find(asked)
        pairs, without = _seen(found, pair_of, most)
        if len(pairs) == most or len(found.without) < asked:
            return PairsWithout(found.value, pairs, without)
        # Too many stand for nothing, or for a pair that was listed before.
        asked *= 4


def _most(top: int | None, word: str) -> int | None:
    return None if top is None else whole(top, "vital", f"a number of {word}")


def cells_of(arc: Arc[Any]) -> tuple[object, ...]:
    return arc.number if arc.given_key is None else arc.given_key, arc.tail, arc.head


def _seen(
    found: WorstWithout, thing_of: Callable[..., Any], most: int
) -> tuple[Sequence[Any], array[int]]:
    """Return the first `most` things of a list, each once, and the values without them. Numbers
    whose thing is None are those of arcs and nodes that callers do not see."""
    values: dict[Any, int] = {}
    for *numbers, left in zip(*found.numbers, found.without):
        thing = thing_of(*numbers)
        if thing is not None and len(values) < most:
            values.setdefault(thing, left)
    return [*values], array(AMOUNTS, values.values())


def _sorted(
    things: Sequence[Any], values: array[int], most: int | None
) -> tuple[Sequence[Any], array[int]]:
    """Return the `most` things without which the least is left, with their values, or all in their
    order."""
    if most is None:
        return things, values
    places = nsmallest(most, range(len(things)), key=lambda at: (values[at], at))
    return [things[at] for at in places], array(AMOUNTS, [values[at] for at in places])


def _shown(
    measure: Measure | None, value: int, things: Sequence[Any], values: array[int]
) -> tuple[Any, Sequence[Any], Sequence[Any], Sequence[Any]]:
    """Return the value, the things, the value without each, and the loss of each, in the caller's
    numbers."""
    losses = array(AMOUNTS, (value - left for left in values))
    if measure is None:
        return value, things, values, losses
    quantity = measure.quantity
    return quantity(value), things, [*map(quantity, values)], [*map(quantity, losses)]
