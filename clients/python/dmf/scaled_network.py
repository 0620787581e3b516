"""Changes of a network in the numbers of its caller, for which whole numbers stand."""

from __future__ import annotations

from collections.abc import Hashable
from typing import TYPE_CHECKING, Any

from .arcs import Arc
from .columns import Node
from .network_changes import ChangeableNetwork
from .scaled_solution import ScaledSolution
from .session.base import Session
from .solution import Flows
from .state import NetworkState

if TYPE_CHECKING:
    from .quantity import Measure


class ScaledChanges(ChangeableNetwork[Node]):
    """The calls of a network that take or give numbers, in those of the caller."""

    def _begin(self, session: Session, kept: NetworkState[Any]) -> None:
        self._measure = kept.described.measure
        super()._begin(session, kept)

    @property
    def measure(self) -> Measure:
        """The measure by which the program's whole numbers stand for the caller's numbers."""
        return self._kept.described.measure

    def _quantity(self, number: int) -> Any:
        return self.measure.quantity(number)

    def _whole(self, amount: Any, at: object) -> int:
        from .scaled_amounts import whole_of

        return whole_of(self.measure, amount, at)

    def _solution(self, flows: Flows[Node]) -> ScaledSolution[Node]:
        return ScaledSolution(flows, self.measure)

    if TYPE_CHECKING:

        def add(self, tail: Node, head: Node, capacity: Any, key: Hashable = None) -> Arc[Node]:
            ...

        def solve(self) -> ScaledSolution[Node]:
            ...

        def flow(self) -> ScaledSolution[Node]:
            ...

    @property
    def value(self) -> Any:
        """The value of the present flow."""
        return self._quantity(self._kept.value)

    def capacity(self, arc: Any) -> Any:
        """Return a capacity as `Network.capacity` does, in the caller's numbers."""
        return self._quantity(super().capacity(arc))

    def capacity_now(self, arc: Arc[Any]) -> Any:
        return self._quantity(super().capacity_now(arc))

    def flow_now(self, arc: Arc[Any]) -> Any:
        return self._quantity(super().flow_now(arc))

    def cap(self, arc: Any, capacity: Any) -> Any:
        """Change a capacity as `Network.cap` does, in the caller's numbers."""
        return self._quantity(super().cap(arc, capacity))

    def close(self, arc: Any) -> Any:
        """Close an arc as `Network.close` does, and return the value in the caller's numbers."""
        return self._quantity(super().close(arc))

    def shut(self, node: Node) -> Any:
        """Close a node's arcs as `Network.shut` does, and return the value in the caller's
        numbers."""
        return self._quantity(super().shut(node))

    def undo(self, count: int = 1) -> Any:
        """Undo changes as `Network.undo` does, and return the value in the caller's numbers."""
        return self._quantity(super().undo(count))

    def redo(self, count: int = 1) -> Any:
        """Redo changes as `Network.redo` does, and return the value in the caller's numbers."""
        return self._quantity(super().redo(count))
