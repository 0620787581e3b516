"""The arcs of a network: their columns, the handles by which callers name them, and which of them
are open."""

from __future__ import annotations

import functools
import weakref
from array import array
from bisect import bisect_left
from collections.abc import Collection, Hashable, Iterable, Iterator, Sequence
from itertools import compress
from typing import Any, Generic, Protocol, SupportsIndex, overload

from .columns import Columns, Node
from .errors import AmbiguousArc, NoSuchArc, SessionEnded, shown_value
from .text.lexical import NODES

# The most arcs that a repr shows.
MOST_SHOWN = 20
_NONE = array(NODES)


class Owner(Protocol):
    """The network of an arc, which knows the arc as it is now."""

    def capacity_now(self, arc: Arc[Any]) -> int:
        ...

    def flow_now(self, arc: Arc[Any]) -> int:
        ...

    def is_open_now(self, arc: Arc[Any]) -> bool:
        ...


class Arc(Generic[Node]):
    """An arc of a network: its handle. `number` is its number in the session, `tail` and `head` are
    its ends, and `given_key` is the key that the caller gave it, or None. `is_open`, `capacity` and
    `flow` say how it is now in its network. Each arc is equal only to itself, so a copy of it is
    the arc itself. An arc that was pickled no longer has a network."""

    __module__ = __package__

    __slots__ = "number", "tail", "head", "given_key", "_owner"

    def __init__(
        self,
        number: int,
        tail: Node,
        head: Node,
        given_key: Hashable,
        owner: weakref.ref[Owner] | None = None,
    ) -> None:
        self.number = number
        self.tail = tail
        self.head = head
        self.given_key = given_key
        self._owner = owner

    @property
    def key(self) -> Hashable:
        """The key that the caller gave, or else the pair of tail and head."""
        return (self.tail, self.head) if self.given_key is None else self.given_key

    @property
    def is_open(self) -> bool:
        """Return True if the arc exists in the network's present state and is open."""
        return self._network().is_open_now(self)

    @property
    def capacity(self) -> int:
        """The arc's present capacity. Raises `ArcIsClosed` if it is closed, and `NoSuchArc` if the
        change that added it was undone."""
        return self._network().capacity_now(self)

    @property
    def flow(self) -> int:
        """The present flow on the arc, which is 0 if it is closed. Raises `NoSuchArc` if the change
        that added it was undone. The first look at an arc after a change asks the session for all
        flows."""
        return self._network().flow_now(self)

    def _network(self) -> Owner:
        owner = None if self._owner is None else self._owner()
        if owner is None:
            raise SessionEnded(f"the network of {self!r} no longer exists")
        return owner

    def again(self) -> Arc[Node]:
        """Return an arc with the same number, ends and key, for another network."""
        return Arc(self.number, self.tail, self.head, self.given_key)

    def __copy__(self) -> Arc[Node]:
        return self

    def __deepcopy__(self, _: object) -> Arc[Node]:
        return self

    def __reduce__(self) -> tuple[Any, ...]:
        return Arc, (self.number, self.tail, self.head, self.given_key)

    def __repr__(self) -> str:
        key = "" if self.given_key is None else f", {shown_value(self.given_key)}"
        return f"<Arc {self.number}: {shown_value(self.tail)} to {shown_value(self.head)}{key}>"


class Handles(Generic[Node]):
    """The handles of the arcs of a problem. Each is made when it is first asked for."""

    def __init__(self, columns: Columns[Node]) -> None:
        self.columns = columns
        self.owner: weakref.ref[Owner] | None = None
        self._made: dict[int, Arc[Node]] = {}

    def with_columns(self, columns: Columns[Node]) -> Handles[Node]:
        """Return the handles of the same arcs for other columns."""
        handles = Handles(columns)
        handles.owner, handles._made = self.owner, self._made
        return handles

    def of(self, number: int) -> Arc[Node]:
        """Return the handle of the arc with this number."""
        arc = self._made.get(number)
        if arc is None:
            columns = self.columns
            tail, head = (
                columns.names[columns.tails[number - 1] - 1],
                columns.names[columns.heads[number - 1] - 1],
            )
            # If two threads make one at once, both get the same.
            made = Arc(number, tail, head, columns.key(number), self.owner)
            arc = self._made.setdefault(number, made)
        return arc

    def has(self, arc: Arc[Any]) -> bool:
        return self._made.get(arc.number) is arc

    def __reduce__(self) -> tuple[Any, ...]:
        # Without the network, which is a running session.
        return Handles, (self.columns,), {"_made": self._made}


class Added(Generic[Node]):
    """Added arcs by their ends, and by the keys that were given."""

    def __init__(self, arcs: Iterable[Arc[Node]] = ()) -> None:
        self._arcs: dict[Hashable, list[Arc[Node]]] = {}
        for arc in arcs:
            self.put(arc)

    def put(self, arc: Arc[Node]) -> None:
        """Add an arc."""
        for key in _keys(arc):
            self._arcs.setdefault(key, []).append(arc)

    def drop(self, arc: Arc[Node]) -> None:
        """Remove an arc that was added."""
        for key in _keys(arc):
            self._arcs[key].remove(arc)

    def named(self, key: Hashable) -> list[Arc[Node]]:
        """Return the arcs that have this key or this pair of ends, in their order."""
        return self._arcs.get(key, [])


def _keys(arc: Arc[Node]) -> list[Hashable]:
    ends = arc.tail, arc.head
    return [ends] if arc.given_key is None or arc.given_key == ends else [ends, arc.given_key]


def one_of(found: list[Arc[Node]], key: Hashable, state: str = "open") -> Arc[Node]:
    """Return the only arc in `found`. Raises `NoSuchArc` if it is empty, and `AmbiguousArc` if it
    has several arcs."""
    if not found:
        raise NoSuchArc(shown_value(key))
    if len(found) > 1:
        some = ", ".join(map(repr, found[:9])) + ", .." * (len(found) > 9)
        raise AmbiguousArc(
            f"{len(found)} {state} arcs have the key or the ends {shown_value(key)}: {some}"
            f"{_each_way(found)}"
        )
    return found[0]


def _each_way(found: list[Arc[Node]]) -> str:
    """Return how to name either of two arcs that are the two ways of a pipe; empty for others."""
    ends = {(arc.tail, arc.head) for arc in found}
    if len(found) != 2 or len(ends) != 2 or (found[0].head, found[0].tail) not in ends:
        return ""
    ways = " and ".join(shown_value((arc.tail, arc.head)) for arc in found)
    return f"; they are the two ways of one pipe: change each by its ends, {ways}"


class OpenArcs(Sequence[Arc[Node]], Generic[Node]):
    """The open arcs of a network at one time, in their order: those of the problem that are not
    closed, and then the added ones. It is a sequence of their handles, each made when it is first
    asked for, and stays as it is when the network changes."""

    def __init__(
        self, handles: Handles[Node], added: tuple[Arc[Node], ...], closed: Collection[int]
    ) -> None:
        self.handles = handles
        self.columns = handles.columns
        self.added = added
        # In their order.
        self.closed = array(NODES, sorted(closed)) if closed else _NONE

    def __len__(self) -> int:
        return len(self.columns) + len(self.added) - len(self.closed)

    @overload
    def __getitem__(self, place: SupportsIndex) -> Arc[Node]:
        ...

    @overload
    def __getitem__(self, place: slice) -> list[Arc[Node]]:
        ...

    def __getitem__(self, place: SupportsIndex | slice) -> Arc[Node] | list[Arc[Node]]:
        places = range(len(self))[place]
        if isinstance(places, range):
            return [self.handle(self._number_at(it)) for it in places]
        return self.handle(self._number_at(places))

    def _number_at(self, place: int) -> int:
        """Return the number of the open arc at a place, counted from 0."""
        low, high = 0, len(self.closed)
        while low < high:
            middle = (low + high) // 2
            # The number of open arcs before this closed one.
            if self.closed[middle] - 1 - middle <= place:
                low = middle + 1
            else:
                high = middle
        return place + 1 + low

    def __contains__(self, arc: object) -> bool:
        return isinstance(arc, Arc) and self.has(arc) and self.is_open(arc.number)

    def __repr__(self) -> str:
        more = [f".. {len(self) - MOST_SHOWN} more"] * (len(self) > MOST_SHOWN)
        return f"[{', '.join([*map(repr, self[:MOST_SHOWN]), *more])}]"

    def __eq__(self, other: object) -> bool:
        if isinstance(other, (list, tuple)):
            return list(self) == list(other)
        if not isinstance(other, OpenArcs):
            return NotImplemented
        return (self.handles, self.added, self.closed) == (other.handles, other.added, other.closed)

    __hash__ = None  # type: ignore[assignment]

    def without(self, numbers: Collection[int]) -> OpenArcs[Node]:
        """Return these open arcs without those that have one of the given numbers."""
        if not numbers:
            return self
        return OpenArcs(self.handles, self.added, {*self.closed, *numbers})

    def numbers(self) -> Iterable[int]:
        """Return the numbers of the open arcs, in order."""
        everything = range(1, len(self.columns) + len(self.added) + 1)
        return compress(everything, self.marks()) if self.closed else everything

    def marks(self) -> bytes:
        """Return a byte for each arc, in order: 1 if it is open, otherwise 0. Returns no bytes if
        all are open."""
        if not self.closed:
            return b""
        is_open = bytearray(b"\1") * (len(self.columns) + len(self.added))
        for number in self.closed:
            is_open[number - 1] = 0
        return bytes(is_open)

    def __iter__(self) -> Iterator[Arc[Node]]:
        return map(self.handle, self.numbers())

    def handle(self, number: int) -> Arc[Node]:
        """Return the handle of the arc with this number."""
        return (
            self.handles.of(number)
            if number <= len(self.columns)
            else self.added[number - len(self.columns) - 1]
        )

    def is_open(self, number: int) -> bool:
        place = bisect_left(self.closed, number)
        return self.closed[place : place + 1] != array(NODES, [number])

    def place(self, number: int) -> int:
        """Return the place of an open arc among the open ones, counted from 0."""
        return number - 1 - bisect_left(self.closed, number)

    def has(self, arc: Arc[Any]) -> bool:
        """Return True if this is one of the arcs, open or closed."""
        if arc.number > len(self.columns):
            place = arc.number - len(self.columns) - 1
            return self.added[place : place + 1] == (arc,)
        return self.handles.has(arc)

    @functools.cached_property
    def _added_index(self) -> Added[Node]:
        return Added(self.added)

    def find(self, key: Hashable) -> Arc[Node]:
        """Return the open arc that a handle, a key or a pair of ends names. Raises `NoSuchArc` and
        `AmbiguousArc`."""
        if isinstance(key, Arc):
            if not self.has(key) or not self.is_open(key.number):
                raise NoSuchArc(repr(key))
            return key
        numbers = self.columns.named(key)
        added = self._added_index.named(key)
        if not numbers and not added:
            raise self.columns.no_such_arc(key)
        found = [self.handles.of(number) for number in numbers if self.is_open(number)]
        return one_of(found + [arc for arc in added if self.is_open(arc.number)], key)

    def between(self, tail: Node, head: Node) -> list[int]:
        """Return the numbers of the open arcs from `tail` to `head`. Raises `NoSuchNode`."""
        numbers = self.columns.between(self.columns.number(tail), self.columns.number(head))
        added = (arc.number for arc in self.added if (arc.tail, arc.head) == (tail, head))
        return [number for number in (*numbers, *added) if self.is_open(number)]

    def tails(self) -> list[Node]:
        """Return the tail of each open arc."""
        return [self.columns.names[node - 1] for node in self.ends()[0]]

    def heads(self) -> list[Node]:
        """Return the head of each open arc."""
        return [self.columns.names[node - 1] for node in self.ends()[1]]

    def keys(self) -> list[Hashable]:
        """Return the key of each open arc, or None where it was given none."""
        return [
            self.columns.keys.get(n) if n <= len(self.columns) else self.handle(n).given_key
            for n in self.numbers()
        ]

    def ends(self) -> tuple[array[int], array[int]]:
        """Return the node numbers of the tails, and of the heads, of the open arcs."""
        tails, heads = self.columns.tails[:], self.columns.heads[:]
        for arc in self.added:
            tails.append(self.columns.outlet(arc.tail))
            heads.append(self.columns.numbers[arc.head])
        return self.chosen(tails), self.chosen(heads)

    def chosen(self, column: array[int]) -> array[int]:
        """Return the entries of the open arcs from a column of all arcs."""
        if not self.closed:
            return column
        return array(column.typecode, [column[number - 1] for number in self.numbers()])
