"""The arcs of a problem, column by column, and the numbers by which a session knows its nodes."""

from __future__ import annotations

import contextlib
import functools
from array import array
from collections import defaultdict
from collections.abc import Callable, Hashable, Iterable, Iterator, Mapping, Sequence
from itertools import compress, count
from operator import gt
from typing import TYPE_CHECKING, Any, Generic, TypeVar

from .errors import NoSuchArc, shown_value
from .session.column_texts import loaded_numpy
from .text.lexical import NO_NODE, NODES, NUMBERS

if TYPE_CHECKING:
    from .text.table_comments import TableComments


class WholeNodes(Mapping[Any, int]):
    """Nodes that are whole numbers from 0 on, each with its number: from 1 on, in the order in
    which they came. It works as a dictionary does, in a tenth of the memory and time."""

    def __init__(self, names: array[int] | None = None, numbers: array[int] | None = None) -> None:
        """Take `names`, the nodes in the order of their numbers, and `numbers`, which has the
        number of each node at the index that is the node."""
        self.names = array(NODES) if names is None else names
        self._numbers = array(NUMBERS) if numbers is None else numbers

    @classmethod
    def of(cls, names: list[int]) -> WholeNodes:
        """Number these nodes, which all differ, in their order."""
        made = cls()
        made.names.extend(names)
        made._make_room(max(names, default=0))
        for number, node in enumerate(names, 1):
            made._numbers[node] = number
        return made

    def take(self, nodes: list[Any], most: int) -> array[int] | None:
        """Return the numbers of these nodes, after giving each new node the next number. If one of
        them is not a whole number from 0 to `most`, number none and return None."""
        if not nodes or set(map(type, nodes)) != {int} or min(nodes) < 0:
            return None if nodes else array(NODES)
        try:
            return array(NODES, map(self._numbers.__getitem__, nodes))
        except (IndexError, OverflowError):
            highest = max(nodes)
        if highest > most:
            return None
        self._make_room(highest)
        for node in nodes:
            if self._numbers[node] == NO_NODE:
                self.names.append(node)
                self._numbers[node] = len(self.names)
        return array(NODES, map(self._numbers.__getitem__, nodes))

    def _make_room(self, highest: int) -> None:
        """Make room for nodes up to `highest`, and at least double the room, so that this is seldom
        called."""
        room = len(self._numbers)
        if highest >= room:
            self._numbers.extend(array(NUMBERS, [NO_NODE]) * (max(highest + 1, 2 * room) - room))

    @functools.cached_property
    def _dictionary(self) -> dict[Any, int]:
        """A dictionary of the same numbers, for nodes of other types, some of which equal whole
        numbers."""
        return dict(zip(self.names, count(1)))

    def __getitem__(self, node: Any) -> int:
        if type(node) is not int:
            return self._dictionary[node]
        number = self._numbers[node] if 0 <= node < len(self._numbers) else NO_NODE
        if number == NO_NODE:
            raise KeyError(node)
        return number

    def __len__(self) -> int:
        return len(self.names)

    def __iter__(self) -> Iterator[Any]:
        return iter(self.names)

    def __reduce__(self) -> tuple[Any, ...]:
        return WholeNodes.of, (list(self.names),)


Node = TypeVar("Node", bound=Hashable)
Named = TypeVar("Named")
# The number of searches that look at all arcs before an index is made, and the number of arcs from
# which numpy, if it is loaded, looks at them faster.
MOST_MISSED, MANY = 20, 1_000


class Index(Generic[Named]):
    """Numbers, or other things, by their names. `_last` has the last number of each name, and
    `_several` all numbers of a name with several."""

    def __init__(self, names: Callable[[], Iterable[Any]], numbers: Sequence[Named]) -> None:
        self._last: dict[Any, Named] = dict(zip(names(), numbers))
        self._several: dict[Any, list[Named]] = defaultdict(list)
        if len(numbers) > len(self._last):
            for name, number in zip(names(), numbers):
                if name in self._several or self._last[name] != number:
                    self._several[name].append(number)

    def find(self, name: Any) -> list[Named]:
        """Return the numbers that a name has, in their order."""
        if name in self._several:
            return self._several[name]
        return [self._last[name]] if name in self._last else []


class Columns(Generic[Node]):
    """The arcs of a problem, column by column: the numbers of their tails and heads, from 1 on, and
    the keys that were given, by the arcs' numbers. `numbers` has the number of each node, in order.
    None of this changes. A function may make the keys when one is first asked for. `described` has
    the problem's comments about its table, if it has any."""

    described: TableComments | None = None

    def __init__(
        self,
        numbers: Mapping[Node, int],
        tails: array[int],
        heads: array[int],
        keys: dict[int, Hashable] | Callable[[], dict[int, Hashable]],
    ) -> None:
        self.numbers = numbers
        self.tails = tails
        self.heads = heads
        self._given = keys
        # Keys that a function makes are names in a text, so none of them is a pair.
        self._may_be_pairs = not callable(keys)
        # The number of searches so far: for the arcs at a node, and for the arcs between two nodes.
        self._missed = 0
        self._missed_ends = 0

    def __len__(self) -> int:
        return len(self.tails)

    def __reduce__(self) -> tuple[Any, ...]:
        return Columns, (self.numbers, self.tails, self.heads, self.keys)

    def with_node(self, node: Any) -> Columns[Node]:
        """Return columns of the same arcs with one more node."""
        numbers = {**self.numbers, node: len(self.numbers) + 1}
        return Columns(numbers, self.tails, self.heads, self._same_keys())

    def _same_keys(self) -> dict[int, Hashable] | Callable[[], dict[int, Hashable]]:
        """Return the keys in the form in which the columns of the same arcs with more nodes take
        them."""
        return self.keys if self._may_be_pairs else lambda: self.keys

    @property
    def keys(self) -> dict[int, Hashable]:
        """The keys that were given, by the arcs' numbers, in order."""
        if callable(self._given):
            # If two threads do this at once, both make the same.
            self._given = self._given()
        return self._given

    def key(self, number: int) -> Hashable:
        """Return the key that was given to an arc, or None."""
        return self.keys.get(number)

    @functools.cached_property
    def names(self) -> Sequence[Node]:
        """The nodes in the order of their numbers."""
        numbers: Any = self.numbers
        return numbers.names if isinstance(numbers, WholeNodes) else list(numbers)

    @functools.cached_property
    def _by_ends(self) -> Index[int]:
        scale = len(self.numbers) + 1
        return Index(
            lambda: (tail * scale + head for tail, head in zip(self.tails, self.heads)),
            range(1, len(self) + 1),
        )

    @functools.cached_property
    def _by_key(self) -> Index[int]:
        return Index(self.keys.values, list(self.keys))

    def between(self, tail: int, head: int) -> list[int]:
        """Return the numbers of the arcs from one node to another. After `MOST_MISSED` calls, which
        look at every arc, the next one makes an index."""
        self._missed_ends += 1
        if self._missed_ends > MOST_MISSED:
            return self._by_ends.find(tail * (len(self.numbers) + 1) + head)
        if len(self.tails) >= MANY and (arrays := self._arrays()):
            np, tails, heads = arrays
            found: list[int] = (np.flatnonzero((tails == tail) & (heads == head)) + 1).tolist()
            return found
        leaving = compress(count(1), map(tail.__eq__, self.tails))
        return [number for number in leaving if self.heads[number - 1] == head]

    def number(self, node: Node) -> int:
        """Return the number of a node. Raises `NoSuchNode`, also for a value that cannot be
        hashed."""
        with contextlib.suppress(KeyError, TypeError):
            return self.numbers[node]
        from .text.spelling import no_such_node

        raise no_such_node(node, self.numbers)

    def outlet(self, node: Node) -> int:
        """Return the number of the node at which the arcs out of `node` begin. It differs from the
        node's own number only where a place of a table has two nodes. Raises `NoSuchNode`."""
        return self.number(node)

    def no_such_arc(self, key: Hashable) -> NoSuchArc:
        """Return the exception for a key, or a pair of ends, that no arc has."""
        from .text.spelling import no_such_arc

        return no_such_arc(key, self.numbers, self.keys, self.named)

    def named(self, key: Hashable) -> list[int]:
        """Return the numbers of the arcs that have this key or this pair of ends, in their order.
        Raises `NoSuchArc` for a value that cannot be hashed."""
        try:
            found = self._of_key(key)
        except TypeError:
            raise NoSuchArc(shown_value(key)) from None
        if isinstance(key, tuple) and len(key) == 2:
            tail, head = map(self.numbers.get, key)
            if tail and head and (pairs := self.between(tail, head)):
                return sorted({*found, *pairs}) if found else pairs
        return found

    def _of_key(self, key: Hashable) -> list[int]:
        """Return the numbers of the arcs that have this key. Raises a TypeError for a value that
        cannot be hashed."""
        hash(key)
        is_none = isinstance(key, tuple) and not self._may_be_pairs
        return [] if is_none else self._by_key.find(key)

    @functools.cached_property
    def _at_nodes(self) -> tuple[tuple[array[int], array[int]], tuple[array[int], array[int]]]:
        """The arcs in the order of their tails, and in that of their heads, each with the places at
        which the arcs of each node begin."""
        return _grouped(self.tails, len(self.numbers)), _grouped(self.heads, len(self.numbers))

    def _arrays(self) -> tuple[Any, Any, Any] | None:
        """Return numpy, the tails and the heads, if it is loaded."""
        np = loaded_numpy()
        if np is None:
            return None
        tails, heads = (np.frombuffer(it, it.typecode) for it in (self.tails, self.heads))
        return np, tails, heads

    def _is_indexed(self) -> bool:
        """Return True once the arcs at each node are to be found by an index: after `MOST_MISSED`
        searches without one."""
        self._missed += 1
        return self._missed > MOST_MISSED

    def at(self, node: int) -> list[int]:
        """Return the numbers of the arcs at a node, in their order."""
        if self._is_indexed():
            return sorted(
                {
                    number
                    for order, begins in self._at_nodes
                    for number in order[begins[node] : begins[node + 1]]
                }
            )
        if len(self.tails) >= MANY and (arrays := self._arrays()):
            np, tails, heads = arrays
            found: list[int] = (np.flatnonzero((tails == node) | (heads == node)) + 1).tolist()
            return found
        here = node.__eq__
        return sorted(
            {
                number
                for ends in (self.tails, self.heads)
                for number in compress(count(1), map(here, ends))
            }
        )

    def leaving(self, side: list[int]) -> list[int]:
        """Return the numbers of the arcs that lead out of a set of nodes, in their order."""
        inside = bytearray(len(self.numbers) + 1)
        for node in side:
            inside[node] = 1
        if self._is_indexed():
            if 2 * len(side) <= len(self.numbers):
                order, begins = self._at_nodes[0]
                arcs = (
                    number for node in side for number in order[begins[node] : begins[node + 1]]
                )
                return sorted(number for number in arcs if not inside[self.heads[number - 1]])
            order, begins = self._at_nodes[1]
            others = compress(range(1, len(self.numbers) + 1), (not one for one in inside[1:]))
            arcs = (number for node in others for number in order[begins[node] : begins[node + 1]])
            return sorted(number for number in arcs if inside[self.tails[number - 1]])
        if len(self.tails) >= MANY and (arrays := self._arrays()):
            np, tails, heads = arrays
            within = np.frombuffer(inside, np.uint8)
            found: list[int] = (np.flatnonzero(within[tails] > within[heads]) + 1).tolist()
            return found
        is_in = inside.__getitem__
        return list(compress(count(1), map(gt, map(is_in, self.tails), map(is_in, self.heads))))


def _grouped(ends: array[int], most: int) -> tuple[array[int], array[int]]:
    order = array(NODES, sorted(range(1, len(ends) + 1), key=lambda number: ends[number - 1]))
    begins = array(NODES, [0]) * (most + 2)
    for node in ends:
        begins[node + 1] += 1
    for node in range(1, most + 2):
        begins[node] += begins[node - 1]
    return order, begins
