"""What the network of a table answers, in the numbers of the table, and its columns, in which some
nodes and arcs are not of the table."""

from __future__ import annotations

from array import array
from collections.abc import Callable, Collection, Iterable, Iterator, Mapping
from dataclasses import dataclass
from functools import cached_property
from typing import Any, Optional, cast

from ..arcs import Arc
from ..columns import Columns
from ..cut import Cut
from ..quantity import LARGEST, Measure
from ..scaled_solution import ScaledSolution
from ..text.table_comments import SUPPLY, Role, TableComments
from .arcs_and_places import Term


@dataclass(frozen=True)
class InnerNode:
    """A node that is not in the table. No caller sees it."""

    number: int
    name: str

    def __repr__(self) -> str:
        return f"<{self.name}>"


class FoldedColumns(Columns[Any]):
    """The arcs of the network of a table. A place with a limit has two nodes: arcs into it enter
    the first, which has its name, and arcs out of it leave the second. `inner_names` has the names
    of the arcs that are not in the table, and `row_name` returns the name of another arc, if it has
    one, without making all."""

    described: TableComments

    def __init__(
        self,
        numbers: Mapping[Any, int],
        tails: array[int],
        heads: array[int],
        keys: Any,
        described: TableComments,
        inner_names: Mapping[int, str],
        row_name: Optional[Callable[[int], Optional[str]]] = None,
    ) -> None:
        super().__init__(numbers, tails, heads, keys)
        self.described = described
        self.inner_names = inner_names
        self._row_name = row_name
        self.outlets = {first: second for second, first in described.halves.items()}

    def __reduce__(self) -> tuple[Any, ...]:
        return FoldedColumns, (
            self.numbers,
            self.tails,
            self.heads,
            self.keys,
            self.described,
            self.inner_names,
        )

    def with_node(self, node: Any) -> FoldedColumns:
        numbers = {**self.numbers, node: len(self.numbers) + 1}
        columns = numbers, self.tails, self.heads, self._same_keys()
        return FoldedColumns(*columns, self.described, self.inner_names, self._row_name)

    def key(self, number: int) -> Any:
        return self._row_name(number) if self._row_name else super().key(number)

    @cached_property
    def names(self) -> list[Any]:
        """The names of the nodes, in the order of their numbers; both nodes of a place have its
        name."""
        names = list(self.numbers)
        for second, first in self.described.halves.items():
            names[second - 1] = names[first - 1]
        return names

    def is_place(self, node: int) -> bool:
        """Return True if a node is a place of the table; of a place's two nodes only the first
        is."""
        return node not in self.described.joints and node not in self.described.halves

    def places(self) -> list[Any]:
        """Return the places, in the order of their nodes."""
        return [name for number, name in enumerate(self.numbers, 1) if self.is_place(number)]

    def outlet(self, node: Any) -> int:
        number = self.number(node)
        return self.outlets.get(number, number)

    def between(self, tail: int, head: int) -> list[int]:
        return super().between(self.outlets.get(tail, tail), head)

    def beside(self, role: Role) -> Iterable[int]:
        """Return the numbers of the table's arcs that leave an unlimited source, or enter an
        unlimited sink."""
        ends, node = (
            (self.tails, self.outlets.get(role.node, role.node))
            if role.kind == SUPPLY
            else (self.heads, role.node)
        )
        return (
            number
            for number in self.at(node)
            if ends[number - 1] == node and number not in self.described.roles
        )


def with_room(capacities: array[int], described: TableComments) -> array[int]:
    """Return capacities with which each source and each sink without a limit can carry what its
    arcs may ever carry: the room left below 2^64 is shared between them."""
    unlimited = [number for number, role in described.roles.items() if role.is_unlimited]
    if not unlimited:
        return capacities
    more = (LARGEST - sum(capacities)) // (len(unlimited) + 1)
    roomy = capacities[:]
    for number in unlimited:
        roomy[number - 1] += more
    return roomy


class TableCut(Cut[str]):
    """The smallest minimum cut of a table's network: beside the arcs, `terms` are the places whose
    supply, demand or limit is in it, with how much that is. All numbers are the table's. A place is
    on the side of the source if what enters it is.
    """

    def __init__(
        self,
        capacity: Any,
        side: frozenset[str],
        arcs: tuple[Arc[str], ...],
        nodes: list[str],
        terms: tuple[Term, ...],
    ) -> None:
        super().__init__(capacity, side, arcs, nodes)
        self.terms = terms

    def __repr__(self) -> str:
        return (
            f"TableCut(capacity={self.capacity!r}, side={self.side!r}, arcs={self.arcs!r}, "
            f"terms={self.terms!r})"
        )


class TableSolution(ScaledSolution[str]):
    """A flow of a table's network, in the numbers of the table: ints if its measure has no
    decimals, else Decimals."""

    def __init__(self, flows: Any, measure: Measure, inner: Collection[int]) -> None:
        super().__init__(flows, measure)
        self._inner = inner

    def _pairs(self) -> Iterator[tuple[int, int]]:
        return (pair for pair in super()._pairs() if pair[0] not in self._inner)

    def __iter__(self) -> Iterator[Arc[str]]:
        return (self._flows.arcs.handle(number) for number, _ in self._pairs())

    def __len__(self) -> int:
        return sum(number not in self._inner for number in self._flows.arcs.numbers())

    def _nodes(self) -> list[str]:
        return cast(FoldedColumns, self._flows.arcs.columns).places()
