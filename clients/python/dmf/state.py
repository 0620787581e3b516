"""What is kept of a network outside its session, which knows only numbers: names, which arcs are
open, and the changes."""

from __future__ import annotations

from array import array
from collections.abc import Callable, Hashable, Iterable
from typing import TYPE_CHECKING, Any, Generic

from .arcs import Added, Arc, Handles, OpenArcs, one_of
from .columns import Columns, Node
from .errors import ArcIsClosed, CountOutOfRange, NoSuchArc, NotAnArc, shown_value
from .history import Change, Command, History
from .rows import is_missing
from .session.base import ProblemColumns
from .text.lexical import AMOUNTS, MOST_NODES, NODES

if TYPE_CHECKING:
    from .text.table_comments import TableComments


class NetworkState(History, Generic[Node]):
    """The arcs of a network with the capacities that they have, or had when they were closed; which
    arcs are closed; the added arcs; and the changes that can be undone or redone, of which there
    are at most `most`. With its commands and the first capacities, a new session can begin."""

    # A function that is called after each change is made or unmade.
    watcher: Callable[[Change, bool], None] | None = None

    def __init__(
        self, columns: Columns[Node], capacities: array[int], source: Node, sink: Node, most: int
    ) -> None:
        """Begin without changes and with every arc open. Raises `NoSuchNode` if the source or the
        sink is not a node of the columns."""
        super().__init__(most)
        self.columns = columns
        self.handles = Handles(columns)
        self.capacities = capacities
        self.closed: set[int] = set()
        self.added: list[Arc[Node]] = []
        # For each added arc, the number of the closed arc that it replaces, or None.
        self.replaced: list[int | None] = []
        # The arcs of the network from which this one was copied. Their handles name the arcs here
        # too.
        self.origin: OpenArcs[Node] | None = None
        # The problem's comments about its table.
        self._described: TableComments | None = columns.described
        self._added_index: Added[Node] | None = None
        self._opened: OpenArcs[Node] | None = None
        self.begin_here()
        for node in source, sink:
            self.number(node)
        self.source, self.sink = source, sink

    def begin_here(self) -> None:
        """Make the present state the first one."""
        self.first_count = len(self.capacities)
        self._first_closed = frozenset(self.closed)
        # The first capacities of the arcs whose capacity has changed since.
        self._first: dict[int, int] = {}

    @property
    def described(self) -> TableComments:
        """The problem's comments about its table."""
        if self._described is None:
            from .text.table_comments import TableComments

            self._described = TableComments()
        return self._described

    @described.setter
    def described(self, described: TableComments) -> None:
        self._described = described

    def number(self, node: Node) -> int:
        """Return the number of a node. Raises `NoSuchNode`."""
        return self.columns.number(node)

    @property
    def arc_count(self) -> int:
        """The number of arcs, including closed ones."""
        return len(self.capacities)

    @property
    def open_count(self) -> int:
        return len(self.capacities) - len(self.closed)

    def add_node(self, node: Node) -> bool:
        """Add a node, and return False if it existed. Arcs keep their handles."""
        if node in self.columns.numbers:
            return False
        if is_missing(node):
            raise NotAnArc(f"not an arc: {shown_value(node)} cannot be the name of a node")
        if len(self.columns.numbers) >= MOST_NODES:
            raise CountOutOfRange(shown_value(node))
        columns = self.columns.with_node(node)
        self.columns, self.handles, self._opened = columns, self.handles.with_columns(columns), None
        return True

    def problem(self) -> ProblemColumns:
        """Return the first problem, with which a new session begins."""
        added = self.added[: self.first_count - len(self.columns)]
        tails, heads = self.columns.tails, self.columns.heads
        if added:
            tails = tails + array(NODES, [self.columns.outlet(arc.tail) for arc in added])
            heads = heads + array(NODES, [self.number(arc.head) for arc in added])
        ends = self.number(self.source), self.number(self.sink)
        return ProblemColumns(
            len(self.columns.numbers), *ends, tails, heads, self.first_capacities()
        )

    def first_capacity(self, number: int) -> int:
        """Return the capacity that an arc had in the first state."""
        return self._first.get(number, self.capacities[number - 1])

    def first_capacities(self) -> array[int]:
        """Return the capacities of the first arcs in the problem with which a new session begins.
        An arc that was closed in the first state has 0 there. The array may have more entries than
        there are first arcs."""
        if not self._first and not self._first_closed:
            return self.capacities
        capacities = self.capacities[:]
        for number, capacity in self._first.items():
            capacities[number - 1] = capacity
        for number in self._first_closed:
            capacities[number - 1] = 0
        return capacities

    def commands(self) -> list[Command]:
        """Return the commands that lead from the problem with the first capacities to the present
        state."""
        return [*(("close", number) for number in sorted(self._first_closed)), *super().commands()]

    def opened(self) -> OpenArcs[Node]:
        """Return the arcs that are open now."""
        if self._opened is None:
            self._opened = OpenArcs(self.handles, tuple(self.added), self.closed)
        return self._opened

    def every_arc(self) -> OpenArcs[Node]:
        """Return all arcs as they are now, including closed ones."""
        return OpenArcs(self.handles, tuple(self.added), ())

    def handle(self, number: int) -> Arc[Node]:
        """Return the handle of the arc with this number, which exists."""
        return (
            self.handles.of(number)
            if number <= len(self.columns)
            else self.added[number - len(self.columns) - 1]
        )

    def arc(self, key: Hashable) -> Arc[Node]:
        """Return the arc that a handle, a key or a pair of ends names. Raises `NoSuchArc` and
        `AmbiguousArc`."""
        if isinstance(key, Arc):
            if self.has(key):
                return key
            if self.origin is not None and self.origin.has(key) and key.number <= self.arc_count:
                return self.handle(key.number)
            raise NoSuchArc(repr(key))
        numbers = [*self.columns.named(key), *(arc.number for arc in self._added_named(key))]
        opened = [number for number in numbers if number not in self.closed]
        if not numbers:
            raise self.columns.no_such_arc(key)
        if opened:
            return one_of(list(map(self.handle, opened)), key)
        return one_of(
            [self.handle(number) for number in numbers if number not in self.replaced],
            key,
            "closed",
        )

    def _added_named(self, key: Hashable) -> list[Arc[Node]]:
        if self._added_index is None:
            self._added_index = Added(self.added)
        return self._added_index.named(key)

    def has(self, arc: Arc[Any]) -> bool:
        """Return True if a handle names an arc of this state, open or closed."""
        if arc.number <= len(self.columns):
            return self.handles.has(arc)
        place = arc.number - len(self.columns) - 1
        return self.added[place : place + 1] == [arc]

    def at(self, node: Node) -> list[Arc[Node]]:
        """Return the open arcs at a node, in their order."""
        numbers = [
            number
            for number in self.columns.at(self.columns.numbers[node])
            if number not in self.closed
        ]
        added = (
            arc
            for arc in self.added
            if node in (arc.tail, arc.head) and arc.number not in self.closed
        )
        return [*map(self.handles.of, numbers), *added]

    def leaving(self, side: list[int]) -> list[Arc[Node]]:
        """Return the open arcs that lead out of a set of nodes, in their order."""
        return [*map(self.handle, self.numbers_leaving(side))]

    def numbers_leaving(self, side: list[int]) -> list[int]:
        """Return the numbers of these arcs."""
        numbers = self.columns.leaving(side)
        if self.added:
            inside, columns = set(side), self.columns
            numbers += [
                arc.number
                for arc in self.added
                if columns.outlet(arc.tail) in inside and columns.number(arc.head) not in inside
            ]
        return [number for number in numbers if number not in self.closed]

    def capacity(self, arc: Arc[Node]) -> int:
        """Return the capacity of an open arc. Raises `ArcIsClosed`."""
        if arc.number in self.closed:
            raise ArcIsClosed(repr(arc))
        return self.capacities[arc.number - 1]

    def note_capacities(
        self, command: Command, arcs: Iterable[Arc[Node]], after: int | None, value: int
    ) -> None:
        """Record a change that gave these open arcs the capacity `after`, or closed them if that is
        None, and left a flow of this value."""
        self.note(
            Change(command, [(arc.number, self.capacities[arc.number - 1], after) for arc in arcs]),
            value,
        )

    def _make(self, change: Change) -> None:
        self._opened = None
        if change.added:
            arc, capacity, replaced = change.added
            place = arc.number - len(self.columns) - 1
            self._drop_added(place)
            self.added[place:], self.replaced[place:] = [arc], [replaced]
            self.capacities[arc.number - 1 :] = array(AMOUNTS, [capacity])
            if self._added_index is not None:
                self._added_index.put(arc)
        for number, _, after in change.capacities:
            self._put(number, after)
        self._opened = None
        if self.watcher:
            self.watcher(change, True)

    def _unmake(self, change: Change) -> None:
        if change.added:
            number = change.added[0].number
            self._drop_added(number - len(self.columns) - 1)
            del self.capacities[number - 1 :]
        for number, before, _ in change.capacities:
            self._put(number, before)
        self._opened = None
        if self.watcher:
            self.watcher(change, False)

    def _drop_added(self, place: int) -> None:
        """Drop the added arcs from this place on, if there are any."""
        for arc in self.added[place:]:
            if self._added_index is not None:
                self._added_index.drop(arc)
        del self.added[place:], self.replaced[place:]

    def _put(self, number: int, capacity: int | None) -> None:
        """Set an arc's capacity, or close the arc."""
        if capacity is None:
            self.closed.add(number)
            return
        self.closed.discard(number)
        # If a call was broken off before the arc was added, the arc has no capacity here.
        if number > len(self.capacities) or self.capacities[number - 1] == capacity:
            return
        if number <= self.first_count:
            self._first.setdefault(number, self.capacities[number - 1])
        self.capacities[number - 1] = capacity
        if self._first.get(number) == capacity:
            del self._first[number]

    def roll_back(self) -> None:
        """Go back to the state before the present call, however far the call got."""
        self._added_index = self._opened = None
        super().roll_back()

    def copy(self) -> NetworkState[Node]:
        """Return a state with the same arcs, without changes and without flow. The handles of these
        arcs also name the arcs of the copy."""
        copy = self._copy(Arc.again)
        copy.begin_here()
        return copy

    def twin(self) -> NetworkState[Node]:
        """Return a state with the same arcs, the same changes, made and undone, and the same flow.
        The handles of these arcs also name the arcs of the twin."""
        made: dict[Arc[Node], Arc[Node]] = {}

        def again(arc: Arc[Node]) -> Arc[Node]:
            made[arc] = made.get(arc) or arc.again()
            return made[arc]

        twin = self._copy(again)
        twin.first_count, twin._first_closed, twin._first = (
            self.first_count,
            self._first_closed,
            dict(self._first),
        )
        twin.take_changes(self, again)
        return twin

    def _copy(self, again: Callable[[Arc[Node]], Arc[Node]]) -> NetworkState[Node]:
        """Return a state with the same arcs, in which `again` makes the handles of the added
        ones."""
        copy = NetworkState(self.columns, self.capacities[:], self.source, self.sink, self.most)
        copy.closed = set(self.closed)
        copy._described = self._described
        copy.origin = self.opened() if self.origin is None else self.origin
        for arc, replaced in zip(self.added, self.replaced):
            copy.put_added(again(arc), replaced)
        return copy

    def put_added(self, arc: Arc[Node], replaced: int | None) -> None:
        """Add an arc that was added in another state, in which it has its capacity. `replaced` is
        the number of the closed arc that it replaces, or None."""
        self.added.append(arc)
        self.replaced.append(replaced)
        self._added_index = None
