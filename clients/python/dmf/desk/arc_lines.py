"""The arcs of a desk by their numbers, which are made as they are looked up."""

from __future__ import annotations

from array import array
from collections.abc import Container, Hashable, Iterable, Iterator, Mapping, Sequence
from functools import cached_property
from itertools import chain, compress, count
from operator import or_
from typing import Any, overload

from ..columns import Columns
from ..quantity import Measure, Quantity
from .steps import DeskArc, Node


class ArcLines(Sequence[DeskArc]):
    """A sequence of arcs, made of the columns of a problem. It keeps those that were looked up or
    have changed, which are few in a large network."""

    def __init__(self, columns: Columns[Node], capacities: array[int], measure: Measure) -> None:
        """Copy the capacities, since the network changes its own. `measure` is how whole numbers
        stand for quantities."""
        self._columns, self._capacities = columns, capacities[:]
        self._measure = measure
        self._first_count = len(capacities)
        # Those that were looked up, or have changed, by their places.
        self._made: dict[int, DeskArc] = {}
        self._added: list[DeskArc] = []
        # The names of added arcs, by their numbers.
        self._added_keys: dict[int, Hashable] = {}

    def __len__(self) -> int:
        return self._first_count + len(self._added)

    @overload
    def __getitem__(self, place: int) -> DeskArc:
        ...

    @overload
    def __getitem__(self, place: slice) -> list[DeskArc]:
        ...

    def __getitem__(self, place: int | slice) -> DeskArc | list[DeskArc]:
        if isinstance(place, slice):
            return [self[at] for at in range(len(self))[place]]
        if line := self._made.get(place):
            return line
        if place < 0:
            return self[range(len(self))[place]]
        if place >= self._first_count:
            return self._added[place - self._first_count]
        quantity = self._measure.quantity(self._capacities[place])
        line = DeskArc(self._columns.tails[place], self._columns.heads[place], quantity)
        self._made[place] = line
        return line

    def __iter__(self) -> Iterator[DeskArc]:
        quantities: Iterable[Quantity] = (
            self._capacities
            if self._measure.divisor == 1
            else map(self._measure.quantity, self._capacities)
        )
        first = map(DeskArc, self._columns.tails, self._columns.heads, quantities)
        return chain(map(self._made.get, range(self._first_count), first), self._added)

    def __setitem__(self, place: int, line: DeskArc) -> None:
        at = range(self._first_count + len(self._added))[place]
        if at >= self._first_count:
            self._added[at - self._first_count] = line
        else:
            self._made[at] = line

    def append(self, line: DeskArc, key: Hashable) -> None:
        """Add an arc, with the name that was given to it, or None."""
        self._added.append(line)
        if key is not None:
            self._added_keys[len(self)] = key

    def pop(self) -> None:
        """Drop the last arc, which was added."""
        self._added_keys.pop(len(self), None)
        self._added.pop()

    def of(self, numbers: Sequence[int]) -> list[DeskArc]:
        """Return the arcs with these numbers."""
        made = self._made
        return [made.get(number - 1) or self[number - 1] for number in numbers]

    def first_of(self, number: int) -> int:
        """Return the number that an arc had before it was opened again, or else its number."""
        if number <= self._first_count:
            return number
        return self._added[number - 1 - self._first_count].first or number

    def ends_of(self, number: int) -> tuple[int, int]:
        """Return the ends of an arc, by their numbers."""
        if number > self._first_count:
            return self._added[number - 1 - self._first_count][:2]
        return self._columns.tails[number - 1], self._columns.heads[number - 1]

    def ends(self) -> Iterator[tuple[int, int]]:
        """Yield the ends of each arc."""
        added = (line[:2] for line in self._added)
        return chain(zip(self._columns.tails, self._columns.heads), added)

    @cached_property
    def _keys(self) -> Mapping[int, Hashable]:
        """Return the names of the first arcs, by their numbers."""
        return self._columns.keys

    def key(self, number: int) -> Hashable:
        """Return the name that was given to an arc, or None."""
        return (self._added_keys if number > self._first_count else self._keys).get(number)

    def ends_and_key(self, number: int) -> tuple[int, int, Hashable]:
        """Return the ends of an arc, by their numbers, and the name that was given to it, or
        None."""
        if number > self._first_count:
            return (*self.ends_of(number), self.key(number))
        columns = self._columns
        return columns.tails[number - 1], columns.heads[number - 1], self._keys.get(number)

    @cached_property
    def given_names(self) -> Mapping[int, str]:
        """Return the names that the problem gives its arcs, by their numbers."""
        keys: Mapping[int, Any] = self._keys
        if {*map(type, keys.values())} <= {str}:
            return keys
        return {number: name for number, name in keys.items() if isinstance(name, str)}

    def given_at(self, nodes: Container[int]) -> Iterator[int]:
        """Yield the arcs of the problem that are at one of these nodes, in their order."""
        is_at = nodes.__contains__
        ends = self._columns.tails, self._columns.heads
        return compress(count(1), map(or_, *(map(is_at, column) for column in ends)))

    def between(self, tail: int, head: int) -> list[int]:
        """Return the arcs from one node to another, without those that were opened again as other
        ones."""
        # Places that were made are not among the problem's nodes.
        is_given = max(tail, head) <= len(self._columns.numbers)
        found = self._columns.between(tail, head) if is_given else []
        if self._added:
            added = enumerate(self._added, self._first_count + 1)
            found = [*found, *(number for number, line in added if line[:2] == (tail, head))]
        return self.present(found)

    def present(self, numbers: Sequence[int]) -> list[int]:
        """Return those of these arcs that were not opened again as other ones."""
        # What was opened again is an arc that was added.
        if not self._added:
            return [*numbers]
        return [number for number in numbers if not self._is_replaced(number)]

    def _is_replaced(self, number: int) -> bool:
        is_added = number > self._first_count
        line = self[number - 1] if is_added else self._made.get(number - 1)
        return line is not None and line.is_replaced
