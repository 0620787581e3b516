"""What is lost of a network's greatest value without each arc, each node, and each two arcs."""

from __future__ import annotations

from array import array
from collections.abc import Sequence
from typing import TYPE_CHECKING

from .arcs import OpenArcs
from .columns import Node
from .network_changes import ChangeableNetwork
from .session.base import Part, Ranked, ValuesWithout, WorstWithout
from .session.runners import program_of
from .session_holder import exclusive

if TYPE_CHECKING:
    from .losses import Finder, VitalArcs, VitalNodes, VitalPairs


class VitalNetwork(ChangeableNetwork[Node]):
    """A network that tells what each of its arcs and nodes is worth. No call changes it."""

    def vital(self, top: int | None = None) -> VitalArcs[Node]:
        """Find for each arc the greatest value without it.

        All of them are found from one greatest flow, in a fraction of the time that it takes to
        close each arc and solve. The network is read as it is now, with all changes; it stays as it
        is, and its flow need not be greatest. If the library runs the session and the flow is
        greatest, the session finds them; otherwise a program is needed.

        Parameters
        ----------
        top
            How many arcs are returned: those whose loss costs most, the greatest loss first, and
            of equal losses the first arc. By default all are returned, in their order.

        Returns
        -------
        VitalArcs
            The greatest value, the arcs, the value without each, and the loss of each. A closed
            arc is one of them, and costs nothing to lose.

        Raises
        ------
        NoProgram
            If a program is needed, and none is found that fits.
        NotANumber
            If `top` is not a whole number.

        Examples
        --------
        >>> network = Network(
        ...     [("lake", "mill", 3), ("mill", "sea", 2), ("lake", "sea", 1)], "lake", "sea")
        >>> found = network.vital()
        >>> found.value, list(found.values), list(found.losses)
        (3, [1, 1, 2], [2, 2, 1])
        >>> [(arc.tail, arc.head, loss) for arc, _, loss in network.vital(top=1)]
        [('lake', 'mill', 2)]
        """
        from .losses import VitalArcs

        self._ready()
        return VitalArcs.of(self._every_arc(), self._finder(), self._measure, top)

    def vital_nodes(self, top: int | None = None) -> VitalNodes[Node]:
        """Find for each node except the source and the sink the greatest value without it.

        Without a node all arcs at it are closed, as by `shut`. All values are found from one
        greatest flow, as for `vital`. The source and the sink are left out, since nothing flows
        without them; of a table with several sources or sinks each of these places is a node.

        Parameters
        ----------
        top
            How many nodes are returned: those whose loss costs most, the greatest loss first, and
            of equal losses the first node. By default all are returned, in the order of `nodes`.

        Returns
        -------
        VitalNodes
            The greatest value, the nodes, the value without each, and the loss of each.

        Raises
        ------
        Error
            What `vital` raises.

        Examples
        --------
        >>> network = Network(
        ...     [("lake", "mill", 3), ("mill", "sea", 2), ("lake", "sea", 1)], "lake", "sea")
        >>> found = network.vital_nodes()
        >>> found.value, found.nodes, list(found.values), list(found.losses)
        (3, ['mill'], [1], [2])
        """
        from .losses import VitalNodes

        self._ready()
        return VitalNodes.of(self._inner_nodes(), self._finder(), self._measure, top)

    def vital_pairs(self, top: int = 20) -> VitalPairs[Node]:
        """Find the pairs of arcs that cost most to lose together.

        Two arcs can cost more together than their two losses added up, since each may stand in for
        the other. The network is read as for `vital`, and the session or the program finds the
        pairs as it does there. That takes longer than `vital`, but far less time than closing each
        pair and solving.

        Parameters
        ----------
        top
            How many pairs are returned: those whose loss costs most, the greatest loss first.
            Pairs with equal losses are in the order of their first arcs, and then of their second
            arcs.

        Returns
        -------
        VitalPairs
            The greatest value, the pairs, the value without each, and the loss of each. Closed
            arcs are in pairs too: such a pair costs what the other arc does.

        Raises
        ------
        NumberTooLarge
            If a program is needed, and it would have to rank more than 10,000 pairs.
        Error
            What `vital` raises.

        Examples
        --------
        >>> network = Network(
        ...     [("lake", "mill", 3), ("mill", "sea", 2), ("lake", "sea", 1)], "lake", "sea")
        >>> found = network.vital_pairs(top=2)
        >>> [(first.number, second.number, loss) for (first, second), _, loss in found]
        [(1, 3, 3), (2, 3, 3)]
        """
        from .losses import VitalPairs

        self._ready()
        return VitalPairs.of(self._every_arc(), self._finder(), self._measure, top)

    def _every_arc(self) -> OpenArcs[Node]:
        """Return all arcs that callers see, including closed ones."""
        return self._kept.every_arc()

    def _inner_nodes(self) -> dict[Node, int]:
        """Return the nodes that callers see, except the source and the sink, each with its
        number."""
        kept = self._kept
        ends = kept.source, kept.sink
        return {node: kept.number(node) for node in self.nodes if node not in ends}

    def _finder(self) -> Finder:
        from .losses import Finder

        return Finder(len(self._kept.columns.numbers), self._values_without, self._worst_without)

    def _values_without(self, part: Part) -> ValuesWithout:
        """Return the greatest value without each arc or node, from the session if it finds that,
        else from the program."""
        found = self._asked_values_without(part)
        if found is not None:
            return found
        from .session.fresh import values_without

        problem = self._kept.copy().problem()
        return values_without(problem, part, program_of(self._session.program))

    @exclusive
    def _asked_values_without(self, part: Part) -> ValuesWithout | None:
        return self._session.values_without(part)

    @exclusive
    def _asked_losses(self, ranked: Ranked, columns: Sequence[array[int]]) -> array[int] | None:
        return self._session.losses(ranked, columns)

    def _worst_without(self, ranked: Ranked, most: int, among: bytes) -> WorstWithout:
        """Return the greatest value without each of the worst, as `_values_without` does."""
        found = self._asked_worst_without(ranked, most, among)
        if found is not None:
            return found
        from .session.fresh import judge_count, worst_among

        judge_count(ranked, most)
        problem = self._kept.copy().problem()
        return worst_among(problem, ranked, most, among, program_of(self._session.program))

    @exclusive
    def _asked_worst_without(self, ranked: Ranked, most: int, among: bytes) -> WorstWithout | None:
        return self._session.worst_without(ranked, most, among)
