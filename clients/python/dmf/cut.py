"""The answer of a session about a minimum cut of a network."""

from __future__ import annotations

from collections.abc import Callable, Sequence
from typing import TYPE_CHECKING, Generic

from .arcs import Arc
from .columns import Node

if TYPE_CHECKING:
    from .notebook import Look


class Cut(Generic[Node]):
    """The minimum cut with the fewest nodes on the source's side.

    Two cuts are equal if their capacities, sides and arcs are equal. A notebook shows a cut as a
    picture if Graphviz is installed and the network is small, and otherwise as a table.

    Attributes
    ----------
    capacity
        The sum of the capacities of `arcs`.
    side
        The nodes that every minimum cut has on the source's side.
    other_side
        All other nodes.
    arcs
        The open arcs that lead from `side` to `other_side`, in order.
    """

    __module__ = __package__

    def __init__(
        self,
        capacity: int,
        side: frozenset[Node],
        arcs: tuple[Arc[Node], ...],
        nodes: Sequence[Node] = (),
        look: Callable[[], Look] | None = None,
    ) -> None:
        self.capacity = capacity
        self.side = side
        self.arcs = arcs
        self._nodes = nodes
        self._look = look

    @property
    def other_side(self) -> frozenset[Node]:
        """Return the nodes on the side of the sink.

        Examples
        --------
        >>> network = Network([("a", "b", 3), ("b", "c", 2)], "a", "c")
        >>> value = network.solve().value
        >>> network.cut().other_side
        frozenset({'c'})
        """
        return frozenset(node for node in self._nodes if node not in self.side)

    def __eq__(self, other: object) -> bool:
        if not isinstance(other, Cut):
            return NotImplemented
        return (self.capacity, self.side, self.arcs) == (other.capacity, other.side, other.arcs)

    def __hash__(self) -> int:
        return hash((self.capacity, self.side))

    def __repr__(self) -> str:
        return f"Cut(capacity={self.capacity!r}, side={self.side!r}, arcs={self.arcs!r})"

    def _repr_svg_(self) -> str | None:
        return self._look().svg() if self._look else None

    def _repr_html_(self) -> str:
        from .notebook import table

        rows = (
            (arc.number if arc.given_key is None else arc.given_key, arc.tail, arc.head)
            for arc in self.arcs
        )
        return table(
            f"cut of capacity {self.capacity}", ("arc", "tail", "head"), len(self.arcs), rows
        )
