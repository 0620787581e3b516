"""The columns of rows of arcs, as callers give them: numbers for the nodes, whole capacities, and
rows that are not arcs."""

from __future__ import annotations

import contextlib
import math
import operator
from array import array
from collections import defaultdict
from collections.abc import Hashable, Iterable, Mapping, MappingView, Set
from itertools import count, islice
from typing import Any, NoReturn, SupportsIndex, Union

from .columns import Columns, Node, WholeNodes
from .errors import NotAnArc, NotANumber, NumberTooLarge, shown_value
from .text.lexical import AMOUNTS, LARGEST, NODES

# A whole number, which may also come as a float without a fraction.
Whole = Union[SupportsIndex, float]
# What to do about a capacity with decimals.
DECIMALS = (
    "; for decimals use dmf.read_table, or scale= of Network.from_arrays, Network.from_frame and "
    "the calls on graphs"
)
# How many rows are taken together: the objects that they refer to fit the processor's cache.
PIECE = 1 << 8
# The expected number of rows if it is not known; and for each row, how large whole numbers may be
# that are nodes.
USUAL, LARGEST_NODE = 1 << 18, 4
WANTED = (
    "expected (tail, head, capacity) or (tail, head, capacity, key), in which all but the capacity "
    "can be hashed"
)


def whole(number: Any, at: object, what: str = "a capacity") -> int:
    """Return a value as a whole number from 0 to 2^64 - 1. Raises `NotANumber` and
    `NumberTooLarge`, whose messages name what it stands in, `at`, and what it should be."""
    if type(number) is int and 0 <= number <= LARGEST:
        return number
    try:
        # A float of Python or of numpy, of any width.
        is_whole = getattr(number, "is_integer", bool)
        taken = int(number) if is_whole() else operator.index(number)
    except TypeError:
        taken = -1
    if 0 <= taken <= LARGEST:
        return taken
    expected = f"{shown_value(at)}: {what} is a whole number from 0 to 2^64 - 1"
    if taken > LARGEST:
        raise NumberTooLarge(f"one of {taken.bit_length()} bits in {expected}")
    hint = DECIMALS if _can_be_scaled(number) else ""
    raise NotANumber(f"{shown_value(number)} in {expected}{hint}")


def _can_be_scaled(number: Any) -> bool:
    """Return True for a float, a Decimal or a Fraction above 0 that is not whole."""
    try:
        nearest = float(number)
    except (OverflowError, TypeError, ValueError):
        return False
    return 0 < nearest < math.inf and nearest % 1 > 0


def columns_of(rows: Iterable[Any], nodes: Iterable[Node]) -> tuple[Columns[Node], array[int]]:
    """Return the columns of rows of arcs, and their capacities. Raises `NotAnArc`, `NotANumber` and
    `NumberTooLarge`."""
    nodes = list(nodes)
    taken = _ColumnBuilder(nodes, operator.length_hint(rows, USUAL))
    left = iter(rows)
    while piece := list(islice(left, PIECE)):
        if not taken.take_together(piece):
            for row in piece:
                taken.take(row)
    if isinstance(taken.numbers, defaultdict):
        # From now on looking up an unknown node is a KeyError.
        taken.numbers.default_factory = None
    columns = Columns(taken.numbers, taken.tails, taken.heads, taken.keys)
    _judge_nodes(columns, taken.capacities)
    return columns, taken.capacities


def is_unordered(values: object) -> bool:
    """Return True if values come in an order that their caller did not choose, so that one could be
    taken for another."""
    return isinstance(values, (Set, Mapping, MappingView))


def is_missing(value: object) -> bool:
    """Return True if a value of a table is missing: None, or a value that is not equal to itself,
    such as NaN and the NA of pandas."""
    try:
        return value is None or bool(value != value)
    except TypeError:
        return True
    except ValueError:
        # An array, whose values are compared one by one.
        return False


def is_unbounded(capacity: object) -> bool:
    """Return True if a capacity is missing or has no bound: None, NaN, or infinite."""
    return is_missing(capacity) or not hasattr(capacity, "__len__") and capacity == float("inf")


def _judge_nodes(columns: Columns[Any], capacities: array[int]) -> None:
    """Raise `NotAnArc` if a node is not equal to itself, since it could not be found again."""
    numbers = columns.numbers
    if isinstance(numbers, WholeNodes):
        return
    with contextlib.suppress(TypeError):
        if not any(map(operator.ne, numbers, numbers)):
            return
    for node in numbers:
        if node is not None and is_missing(node):
            refuse_node(columns, capacities, node)


def refuse_node(columns: Columns[Any], capacities: array[int], node: object) -> NoReturn:
    """Raise `NotAnArc` for a value that cannot be a node, with the first arc that has it."""
    number = columns.numbers[node]
    at = next(
        (at for at, ends in enumerate(zip(columns.tails, columns.heads)) if number in ends), None
    )
    if at is None:
        raise NotAnArc(f"not an arc: {shown_value(node)} cannot be the name of a node")
    tail, head = columns.names[columns.tails[at] - 1], columns.names[columns.heads[at] - 1]
    raise NotAnArc(
        f"not an arc: number {at + 1}, {shown_value((tail, head, capacities[at]))}: "
        f"{shown_value(node)} is not a node"
    )


class _ColumnBuilder:
    """The columns of the rows so far, of `expected` rows in all. `numbers` gives each new node the
    next number. It becomes a dictionary at the first node that is not a whole number, or so large
    that a dictionary takes less memory.
    """

    def __init__(self, nodes: Iterable[Hashable], expected: int) -> None:
        self.numbers: WholeNodes | defaultdict[Any, int] = WholeNodes()
        self.tails, self.heads, self.capacities = array(NODES), array(NODES), array(AMOUNTS)
        self.keys: dict[int, Hashable] = {}
        self._most = LARGEST_NODE * expected
        self._numbers_of(list(nodes))

    def _numbers_of(self, nodes: list[Any]) -> array[int]:
        """Return the numbers of nodes. Raises a TypeError if one cannot be hashed."""
        if isinstance(self.numbers, WholeNodes):
            numbers = self.numbers.take(nodes, self._most)
            if numbers is not None:
                return numbers
            self.numbers = defaultdict(count(len(self.numbers) + 1).__next__, self.numbers)
        return array(NODES, map(self.numbers.__getitem__, nodes))

    def take_together(self, rows: list[Any]) -> bool:
        """Take rows of the same form column by column, which is several times as fast, and return
        True. If a row has another form, or a value that needs a closer look, take none and return
        False."""
        if not set(map(type, rows)) <= {tuple, list} or not set(map(len, rows)) in ({3}, {4}):
            return False
        tails, heads, amounts, *others = zip(*rows)
        keys = others[0] if others else ()
        ends: list[Any] = [None] * (2 * len(rows))
        ends[0::2], ends[1::2] = tails, heads
        try:
            capacities = array(AMOUNTS, amounts)
            hash(keys)
            numbers = self._numbers_of(ends)
        except (TypeError, OverflowError):
            return False
        first = len(self.tails) + 1
        self.keys.update((number, key) for number, key in enumerate(keys, first) if key is not None)
        self.tails += numbers[0::2]
        self.heads += numbers[1::2]
        self.capacities += capacities
        return True

    def take(self, row: Any) -> None:
        """Take a row. Raises what `columns_of` raises."""
        try:
            if is_unordered(row) or isinstance(row, (str, bytes, bytearray)):
                raise TypeError
            if len(row) == 3:
                tail, head, capacity = row
            else:
                tail, head, capacity, key = row
                hash(key)
                if key is not None:
                    self.keys[len(self.tails) + 1] = key
            numbers = self._numbers_of([tail, head])
        except (TypeError, ValueError):
            raise NotAnArc(f"not an arc: {shown_value(row)}: {WANTED}") from None
        self.tails += numbers[:1]
        self.heads += numbers[1:]
        try:
            self.capacities.append(capacity)
        except (TypeError, OverflowError):
            self.capacities.append(whole(capacity, row))
