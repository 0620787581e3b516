"""What a second arc beside each arc of a network would bring, and what new arcs would."""

from __future__ import annotations

from array import array
from collections.abc import Iterable, Sequence
from typing import TYPE_CHECKING, Any

from .columns import Node
from .errors import NotAnArc, Refused, shown_value
from .network_losses import VitalNetwork
from .rows import whole
from .session.base import ArcColumns
from .session_holder import exclusive
from .text.lexical import AMOUNTS, LARGEST, MOST_ARCS, NODES

if TYPE_CHECKING:
    from contextlib import AbstractContextManager

    from .gains import NewArc, NewArcs, SecondArcs


class GrowingNetwork(VitalNetwork[Node]):
    """A network that tells what more arcs would bring. No call changes it."""

    if TYPE_CHECKING:

        def copy(self) -> AbstractContextManager[GrowingNetwork[Node]]:
            """Return a copy, as `Network` does."""

    def gains(self, top: int | None = None) -> SecondArcs[Node]:
        """Find for each arc the greatest value with a second arc beside it.

        The second arc leads from the same tail to the same head, and has the same present capacity.
        Only arcs that leave the smallest minimum cut can gain anything. If the library runs the
        session, all gains are found from one greatest flow, in a fraction of the time that it takes
        to add each arc and solve. The network is read as it is now, with all changes; it stays as
        it is, and its flow need not be greatest.

        Parameters
        ----------
        top
            How many arcs are returned: those that gain most, the greatest gain first, and of equal
            gains the first arc. By default all are returned, in their order.

        Returns
        -------
        SecondArcs
            The greatest value, the arcs, the value with a second arc beside each, and the gain of
            each. A closed arc is one of them, and gains nothing.

        Raises
        ------
        CapacitiesPast64Bits, TooManyArcs
            If the network cannot take a second arc beside one of them.
        NotANumber
            If `top` is not a whole number.

        Examples
        --------
        >>> network = Network(
        ...     [("lake", "mill", 3), ("mill", "sea", 2), ("lake", "sea", 1)], "lake", "sea")
        >>> found = network.gains()
        >>> found.value, list(found.values), list(found.gains)
        (3, [3, 4, 4], [0, 1, 1])
        >>> [(arc.tail, arc.head, gain) for arc, _, gain in network.gains(top=1)]
        [('mill', 'sea', 1)]
        """
        from .gains import SecondArcs, greatest, shown

        most = None if top is None else whole(top, "gains", "a number of arcs")
        self._ready()
        arcs = self._every_arc()
        capacities = self._kept.capacities[:]
        for number in self._kept.closed:
            capacities[number - 1] = 0
        columns = ArcColumns(*arcs.ends(), arcs.chosen(capacities))
        value, gains = self._gains_of(columns, arcs)
        return SecondArcs(*shown(self._measure, value, *greatest(arcs, gains, most)))

    def gains_of(self, new_arcs: Iterable[NewArc[Node]]) -> NewArcs[Node]:
        """Find for each of some new arcs the greatest value with it.

        The gains are found as for `gains`, each as if the network had only that arc more.

        Parameters
        ----------
        new_arcs
            The new arcs, `(tail, head, capacity)`, between nodes of the network.

        Returns
        -------
        NewArcs
            The greatest value, the new arcs, the value with each, and the gain of each.

        Raises
        ------
        NotAnArc
            If a row has another form.
        NoSuchNode, CapacitiesPast64Bits, TooManyArcs, NotANumber, NumberTooLarge
            If `add` would raise it for one of the arcs.

        Examples
        --------
        >>> network = Network(
        ...     [("lake", "mill", 3), ("mill", "sea", 2), ("lake", "sea", 1)], "lake", "sea")
        >>> found = network.gains_of([("mill", "sea", 5), ("lake", "mill", 5)])
        >>> list(found.values), list(found.gains)
        ([4, 3], [1, 0])
        """
        from .gains import NewArcs, shown

        self._ready()
        arcs = [_new_arc(row) for row in new_arcs]
        ends = [(tail, head) for tail, head, _ in arcs]
        columns = ArcColumns(
            array(NODES, [self._kept.columns.outlet(tail) for tail, _ in ends]),
            array(NODES, [self._kept.number(head) for _, head in ends]),
            array(AMOUNTS, [self._whole(arc[2], at) for arc, at in zip(arcs, ends)]),
        )
        value, gains = self._gains_of(columns, ends)
        return NewArcs(*shown(self._measure, value, arcs, gains))

    def _gains_of(self, columns: ArcColumns, names: Sequence[object]) -> tuple[int, array[int]]:
        """Return the greatest value, and how much greater it is with each of these new arcs, which
        go by these names in a refusal."""
        self._judge_new(columns, names)
        gains = self._asked_gains(columns)
        if gains is not None:
            return self._kept.value, gains
        with self.copy() as solved:
            solved.solve()
            value = solved._kept.value
            gains = solved._asked_gains(columns)
            if gains is None:
                values: list[int] = []
                solved._try_cases([[("add", *row)] for row in zip(*columns)], values)
                gains = array(AMOUNTS, (more - value for more in values))
        return value, gains

    def _judge_new(self, columns: ArcColumns, names: Sequence[object]) -> None:
        """Raise a `Refused` if the network cannot take one of these arcs alone."""
        kept = self._kept
        if names and kept.arc_count >= MOST_ARCS:
            raise Refused.of("too many arcs", shown_value(names[0]))
        left = LARGEST - sum(kept.capacities)
        left += sum(kept.capacities[number - 1] for number in kept.closed)
        for capacity, name in zip(columns.capacities, names):
            if capacity > left:
                raise Refused.of("capacities past 64 bits", shown_value(name))

    @exclusive
    def _asked_gains(self, columns: ArcColumns) -> array[int] | None:
        return self._session.gains(columns)


def _new_arc(row: Any) -> NewArc[Any]:
    """Return a row as a new arc. Raises `NotAnArc`."""
    try:
        tail, head, capacity = row
    except (TypeError, ValueError):
        raise NotAnArc(f"not an arc: {shown_value(row)}; expected (tail, head, capacity)") from None
    return tail, head, capacity
