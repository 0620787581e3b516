"""Answer cases that each close one arc, shut one node, add one arc or raise one capacity, from
greatest values that are found together."""

from __future__ import annotations

import functools
from array import array
from collections.abc import Callable, Iterable
from dataclasses import dataclass
from operator import length_hint
from typing import Any, Tuple

from ..errors import Error
from ..network import Network
from ..rows import whole
from ..session.base import PROGRAM, ArcColumns, Part
from ..state import NetworkState
from ..text.lexical import AMOUNTS, LARGEST, MOST_ARCS, NODES
from .case_losses import is_there_and_back
from .copies import CaseAnswer, Plain
from .each import Each
from .pool import MOST_AT_ONCE, Pending, Tries

# Finding all values takes less time than trying a SHARE-th of the cases. If only a program finds
# them, there must be FEWEST cases or more: fewer are tried sooner than the program starts.
SHARE, FEWEST = 4, 500

# Returns the greatest value after a case, or None if it is not known.
ValueOf = Callable[["list[Any]"], "int | None"]
# A new arc by the numbers of its ends, with its capacity.
NewArc = Tuple[int, int, int]


class KnownValues(Tries):
    """Cases whose values were found together. The others, such as cases that may be refused, are
    tried."""

    first = MOST_AT_ONCE

    def __init__(self, value_of: ValueOf, begin_others: Callable[[], Tries]) -> None:
        super().__init__(1)
        self._value_of = value_of
        self._begin_others = begin_others
        self._others: Tries | None = None

    @classmethod
    def beginning(
        cls,
        network: Network[Any],
        kept: NetworkState[Any],
        made: Each,
        plain: Callable[[Any], Plain | Error],
        begin_others: Callable[[], Tries],
    ) -> Callable[[], Tries]:
        """Return what begins these cases, for a copy of the network's state: `begin_others` if the
        values are not worth finding, or cannot be found."""
        try:
            value_of = (
                _values_with(network, kept, map(plain, made.make_all()))
                if made.part is None
                else _values_without(network, kept, made.part, length_hint(made))
            )
        except Error:
            return begin_others
        if value_of is None:
            return begin_others
        return functools.partial(cls, value_of, begin_others)

    def begin(self, cases: list[Plain | Error]) -> Pending:
        values = [self._value_of(case) if isinstance(case, list) else None for case in cases]
        known = [value for value in values if value is not None]
        if len(known) == len(cases):
            return lambda: [*map(CaseAnswer, known)]
        if self._others is None:
            self._others = self._begin_others()
        return self._others.begin(cases)

    def close(self) -> None:
        if self._others is not None:
            self._others.close()


def _values_without(
    network: Network[Any], kept: NetworkState[Any], part: Part, count: int
) -> ValueOf | None:
    """Find the greatest values without each arc or node, if `count` cases are worth it."""
    if SHARE * count < (kept.open_count if part is Part.ARC else len(kept.columns.numbers)):
        return None
    find = network._asked_values_without if count < FEWEST else network._values_without
    found = find(part)
    if found is None:
        return None
    without = _Without(kept, found.without)
    return without.arcs if part is Part.ARC else without.node


@dataclass(frozen=True)
class _Without:
    """The greatest values without each arc or node, for cases that close or shut these."""

    kept: NetworkState[Any]
    values: array[int]

    def arcs(self, case: list[Any]) -> int | None:
        """Return the value without the open arc that a case closes, or the two arcs of a case that
        lead there and back."""
        numbers = [int(number) for _, number in case]
        if any(number in self.kept.closed for number in numbers):
            return None
        if len(numbers) == 1 or len(numbers) == 2 and is_there_and_back(self.kept, *numbers):
            return min(self.values[number - 1] for number in numbers)
        return None

    def node(self, case: list[Any]) -> int | None:
        """Return the value without the node that a case shuts, unless that is the source or the
        sink."""
        kept = self.kept
        try:
            number, *ends = map(kept.number, (case[0][1], kept.source, kept.sink))
        except Error:
            return None
        return None if number in ends else self.values[number - 1]


def _values_with(
    network: Network[Any], kept: NetworkState[Any], cases: Iterable[Plain | Error]
) -> ValueOf | None:
    """Find the greatest values with the new arc of each of these cases, if enough of them have
    one."""
    new_arc_of = _NewArcs(kept)
    arcs = [new_arc_of(case) for case in cases if isinstance(case, list)]
    if SHARE * sum(arc is not None for arc in arcs) < max(1, kept.open_count):
        return None
    each = dict.fromkeys(arc for arc in arcs if arc is not None)
    kinds = zip((NODES, NODES, AMOUNTS), zip(*each))
    columns = ArcColumns(*(array(kind, column) for kind, column in kinds))
    found = _gains(network, columns)
    if found is None:
        return None
    values = {arc: found[0] + gain for arc, gain in zip(each, found[1])}

    def value_of(case: list[Any]) -> int | None:
        arc = new_arc_of(case)
        return None if arc is None else values.get(arc)

    return value_of


def _gains(network: Network[Any], columns: ArcColumns) -> tuple[int, array[int]] | None:
    """Return the greatest value and the gains of new arcs, if the library finds them."""
    if isinstance(network._session.way, PROGRAM):
        return None
    gains = network._asked_gains(columns)
    if gains is not None:
        return network._kept.value, gains
    with network.copy() as solved:
        solved.solve()
        gains = solved._asked_gains(columns)
        return None if gains is None else (solved._kept.value, gains)


class _NewArcs:
    """What finds the new arc that a case comes down to: the arc that it adds, or one beside the arc
    whose capacity it raises."""

    def __init__(self, kept: NetworkState[Any]) -> None:
        self._kept = kept
        self._tails, self._heads = kept.every_arc().ends()
        # How much may be added to the capacities.
        self._room = LARGEST - sum(kept.first_capacities())

    def __call__(self, case: list[Any]) -> NewArc | None:
        """Return the arc, or None if the case has none, or the network may refuse it."""
        if len(case) != 1:
            return None
        try:
            arc = self._arc(*case[0])
        except Error:
            return None
        return arc if arc and 0 <= arc[2] <= self._room else None

    def _arc(self, word: str, *rest: Any) -> NewArc | None:
        kept = self._kept
        if word == "add" and kept.arc_count < MOST_ARCS:
            tail, head, capacity = rest
            return kept.columns.outlet(tail), kept.number(head), whole(capacity, rest)
        if word == "cap" and rest[0] not in kept.closed:
            number = rest[0]
            more = whole(rest[1], rest) - kept.capacities[number - 1]
            return self._tails[number - 1], self._heads[number - 1], more
        return None
