"""What a second arc beside each arc of a network would bring, and what new arcs would."""

from __future__ import annotations

from array import array
from collections.abc import Callable, Sequence
from dataclasses import dataclass
from heapq import nsmallest
from typing import TYPE_CHECKING, Any, Generic, Tuple

from .arcs import Arc
from .columns import Node
from .losses import cells_of
from .text.lexical import AMOUNTS
from .value_differences import Thing, ValueDifferences

if TYPE_CHECKING:
    from .quantity import Measure

# A new arc, as the caller gives it: its tail, its head and its capacity.
NewArc = Tuple[Node, Node, Any]


class Gains(ValueDifferences[Thing]):
    """What each new arc would bring, in rows: the arc, the greatest value with it, and the gain."""

    __module__ = __package__
    _number_titles = "with", "gain"

    gains: Sequence[Any]

    def _differences(self) -> Sequence[Any]:
        return self.gains


@dataclass(frozen=True, repr=False)
class SecondArcs(Gains[Arc[Node]], Generic[Node]):
    """The greatest value of a network, and what it is with a second arc beside each arc. It yields
    a row for each arc: the arc, the greatest value with a second one beside it, and the gain.

    Attributes
    ----------
    value
        The greatest value.
    arcs
        The arcs, closed ones too.
    values
        The greatest value with a second arc beside each of them alone: from the same tail to the
        same head, and of the same capacity.
    gains
        Each of these minus the value.
    """

    __module__ = __package__
    _word, _titles = "arcs", ("arc", "tail", "head")

    value: Any
    arcs: Sequence[Arc[Node]]
    values: Sequence[Any]
    gains: Sequence[Any]

    def _things(self) -> Sequence[Arc[Node]]:
        return self.arcs

    def _cells(self, thing: Arc[Node]) -> tuple[object, ...]:
        return cells_of(thing)


@dataclass(frozen=True, repr=False)
class NewArcs(Gains[NewArc[Node]], Generic[Node]):
    """The greatest value of a network, and what it is with each of some new arcs. It yields a row
    for each: the arc as it was given, the greatest value with it, and the gain.

    Attributes
    ----------
    value
        The greatest value.
    arcs
        The new arcs, `(tail, head, capacity)`.
    values
        The greatest value with each of them alone.
    gains
        Each of these minus the value.
    """

    __module__ = __package__
    _word, _titles = "new arcs", ("tail", "head", "capacity")

    value: Any
    arcs: Sequence[NewArc[Node]]
    values: Sequence[Any]
    gains: Sequence[Any]

    def _things(self) -> Sequence[NewArc[Node]]:
        return self.arcs

    def _cells(self, thing: NewArc[Node]) -> tuple[object, ...]:
        return thing


def greatest(
    things: Sequence[Thing], gains: array[int], most: int | None
) -> tuple[Sequence[Thing], array[int]]:
    """Return the `most` things that gain most, with their gains, or all in their order."""
    if most is None:
        return things, gains
    places = nsmallest(most, range(len(things)), key=lambda at: (-gains[at], at))
    return [things[at] for at in places], array(AMOUNTS, [gains[at] for at in places])


def shown(
    measure: Measure | None, value: int, things: Sequence[Thing], gains: array[int]
) -> tuple[Any, Sequence[Thing], Sequence[Any], Sequence[Any]]:
    """Return the value, the things, the value with each, and the gain of each, in the caller's
    numbers."""
    values = array(AMOUNTS, (value + gain for gain in gains))
    if measure is None:
        return value, things, values, gains
    quantity: Callable[[int], Any] = measure.quantity
    return quantity(value), things, [*map(quantity, values)], [*map(quantity, gains)]
