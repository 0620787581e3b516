"""The arcs of a network, and the changes of it that can be undone."""

from __future__ import annotations

import weakref
from collections.abc import Callable, Hashable, Sequence

from .arcs import Arc
from .columns import Node
from .errors import ArcIsOpen
from .history import Change
from .presentation import Presentable
from .rows import Whole, whole
from .session_holder import exclusive
from .solution import Solution

SOLVE = ("solve",)


class ChangeableNetwork(Presentable[Node]):
    """The changes of a network: each call is one change, which `undo` takes back."""

    @property
    def arcs(self) -> Sequence[Arc[Node]]:
        """Return the open arcs, in their order.

        They are a sequence, which takes no time to get, and stays as it is when the network
        changes.

        Examples
        --------
        >>> network = Network([("a", "b", 3), ("b", "c", 2)], "a", "c")
        >>> [(arc.tail, arc.head) for arc in network.arcs]
        [('a', 'b'), ('b', 'c')]
        """
        return self._kept.opened()

    def arc(self, key: Hashable) -> Arc[Node]:
        """Return the arc with a key, or with the ends `(tail, head)`.

        If several arcs have it, that is the open one; if all are closed, it is the one that no
        other arc replaces.

        Raises
        ------
        NoSuchArc
            If there is none.
        AmbiguousArc
            If several arcs are left.

        Examples
        --------
        >>> network = Network([("a", "b", 3, "bridge")], "a", "b")
        >>> network.arc("bridge") == network.arc(("a", "b"))
        True
        """
        return self._kept.arc(key)

    def capacity(self, arc: Hashable) -> int:
        """Return the capacity of an open arc.

        Raises
        ------
        ArcIsClosed
            If the arc was closed.
        Error
            What `arc` raises.

        Examples
        --------
        >>> Network([("a", "b", 3, "bridge")], "a", "b").capacity("bridge")
        3
        """
        return self._kept.capacity(self._kept.arc(arc))

    @exclusive
    def cap(self, arc: Hashable, capacity: Whole) -> int:
        """Give an arc another capacity.

        If more flows on the arc, the difference is taken off it, and off paths through it.

        Parameters
        ----------
        arc
            A handle, a key, or the ends `(tail, head)`.
        capacity
            A whole number from 0.

        Returns
        -------
        int
            The value of the flow that is left.

        Raises
        ------
        ArcIsClosed, CapacitiesPast64Bits, NotANumber, NumberTooLarge
            And what `arc` raises. Nothing has changed then.

        Examples
        --------
        >>> network = Network([("a", "b", 3), ("b", "c", 2)], "a", "c")
        >>> network.solve().value, network.cap(("b", "c"), 1)
        (2, 1)
        """
        found = self._kept.arc(arc)
        room = self._whole(capacity, found)
        command = "cap", found.number, room
        value = self._changed(command, found)
        self._kept.note_capacities(command, [found], room, value)
        return value

    @exclusive
    def close(self, arc: Hashable) -> int:
        """Close an arc, which then carries nothing.

        Only `undo` opens it again; `open` adds another arc in its place.

        Returns
        -------
        int
            The value of the flow that is left.

        Raises
        ------
        ArcIsClosed
            If it was closed before.
        Error
            What `arc` raises.

        Examples
        --------
        >>> network = Network([("a", "b", 3), ("a", "b", 4, "tunnel")], "a", "b")
        >>> network.solve().value, network.close("tunnel")
        (7, 3)
        """
        found = self._kept.arc(arc)
        command = "close", found.number
        value = self._changed(command, found)
        self._kept.note_capacities(command, [found], None, value)
        return value

    @exclusive
    def shut(self, node: Node) -> int:
        """Close every open arc at a node, as one change.

        Returns
        -------
        int
            The value of the flow that is left.

        Raises
        ------
        NoSuchNode
            If the network does not have the node.

        Examples
        --------
        >>> network = Network([("a", "b", 3), ("b", "c", 2), ("a", "c", 1)], "a", "c")
        >>> network.solve().value, network.shut("b")
        (3, 1)
        """
        command = "shut", self._kept.number(node)
        value = self._changed(command, node)
        self._kept.note_capacities(command, self._kept.at(node), None, value)
        return value

    @exclusive
    def add(self, tail: Node, head: Node, capacity: Whole, key: Hashable = None) -> Arc[Node]:
        """Add an arc without flow between two nodes of the network.

        Returns
        -------
        Arc
            The handle of the new arc.

        Raises
        ------
        NoSuchNode, CapacitiesPast64Bits, TooManyArcs, NotANumber, NumberTooLarge
            Nothing has changed then.

        Examples
        --------
        >>> network = Network([("a", "b", 3)], "a", "b")
        >>> canal = network.add("a", "b", 4)
        >>> network.solve()[canal]
        4
        """
        hash(key)
        return self._add(tail, head, self._whole(capacity, (tail, head)), key, None)

    @exclusive
    def add_node(self, node: Node) -> None:
        """Add a node without arcs, unless the network has it.

        This is not a change: `undo` leaves it. The next call begins a new session, which takes as
        long as all commands so far took together; so nodes that are known at the beginning are
        better given to `Network`.

        Raises
        ------
        NotAnArc
            If the node is None or NaN.
        CountOutOfRange
            If there would be too many nodes.

        Examples
        --------
        >>> network = Network([("a", "b", 3)], "a", "b")
        >>> network.add_node("c")
        >>> network.add("a", "c", 1).head
        'c'
        """
        self._part()
        self._is_broken = self._kept.add_node(node)

    @exclusive
    def open(self, arc: Hashable) -> Arc[Node]:
        """Open a closed arc: add it again, with its ends, its key and its last capacity.

        To the program it is a new arc with a new number, after all others, and without flow;
        `undo` removes it. The key and the ends name the new arc from then on, while the old
        handle still names the arc that is closed.

        Returns
        -------
        Arc
            The handle of the new arc.

        Raises
        ------
        ArcIsOpen
            If the arc is open.
        TooManyArcs, CapacitiesPast64Bits
            And what `arc` raises.

        Examples
        --------
        >>> network = Network([("a", "b", 3, "bridge")], "a", "b")
        >>> network.close("bridge")
        0
        >>> network.open("bridge").number, network.solve().value
        (2, 3)
        """
        found = self._kept.arc(arc)
        if found.number not in self._kept.closed:
            raise ArcIsOpen(f"arc is open: {found!r}")
        return self._add(
            found.tail,
            found.head,
            self._kept.capacities[found.number - 1],
            found.given_key,
            found.number,
        )

    def _add(
        self, tail: Node, head: Node, room: int, key: Hashable, replaced: int | None
    ) -> Arc[Node]:
        command = "add", self._kept.columns.outlet(tail), self._kept.number(head), room
        value = self._changed(command, (tail, head))
        arc = Arc(self._kept.arc_count + 1, tail, head, key, weakref.ref(self))
        self._kept.note(Change(command, added=(arc, room, replaced)), value)
        return arc

    @exclusive
    def solve(self) -> Solution[Node]:
        """Make the flow a maximum flow, going on from the present one.

        That is a change, which `undo` takes back.

        Returns
        -------
        Solution
            The value, and the flow on each open arc.

        Examples
        --------
        >>> plan = Network([("a", "b", 3), ("b", "c", 2)], "a", "c").solve()
        >>> plan.value, plan["a", "b"]
        (2, 2)
        """
        self._kept.note(Change(SOLVE), self._changed(SOLVE))
        return self._solution(self._flows())

    def undo(self, count: int = 1) -> int:
        """Take back the last changes, all of them or none; a `solve` is one of them.

        Flows, too, are restored.

        Parameters
        ----------
        count
            How many.

        Returns
        -------
        int
            The value of the flow after that.

        Raises
        ------
        NothingToUndo
            If there are fewer changes, or some of them are forgotten.

        Examples
        --------
        >>> network = Network([("a", "b", 3)], "a", "b")
        >>> network.solve().value, network.cap(("a", "b"), 1), network.undo()
        (3, 1, 3)
        """
        return self._step("undo", count, self._kept.judge_undo, self._kept.undo)

    def redo(self, count: int = 1) -> int:
        """Make the changes again that were undone last, all of them or none.

        Parameters
        ----------
        count
            How many.

        Returns
        -------
        int
            The value of the flow after that.

        Raises
        ------
        NothingToRedo
            If fewer changes were undone.

        Examples
        --------
        >>> network = Network([("a", "b", 3)], "a", "b")
        >>> network.solve().value, network.undo(), network.redo()
        (3, 0, 3)
        """
        return self._step("redo", count, self._kept.judge_redo, self._kept.redo)

    @exclusive
    def _step(
        self,
        word: str,
        count: int,
        judge: Callable[[int], None],
        follow: Callable[[int, int], None],
    ) -> int:
        """Step `count` changes back or on, and return the value. `judge` raises if there are fewer
        changes, and `follow` makes the same steps in the history, to a flow of that value.
        """
        steps = whole(count, word, "a number of steps")
        judge(steps)
        value = self._stepped((word, steps))
        follow(steps, value)
        return value
