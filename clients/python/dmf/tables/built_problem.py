"""The network of a table by numbers, and its text as a problem."""

from __future__ import annotations

from array import array
from collections.abc import Hashable, Iterable, Iterator, Sequence
from dataclasses import dataclass
from itertools import chain
from typing import Any, Optional

from ..session.base import ProblemColumns
from ..text.table_comments import TableComments, table_comments
from .other_columns import Extra

# How many lines are made at once.
PIECE = 1 << 11


@dataclass
class BuiltProblem:
    """The network of a table, by numbers from 1 on: the names of the nodes, of which `place_count`
    are places; the ends and capacities of the arcs, of which the first `row_count` belong to rows,
    `ways` to each; the names of the rows, if they have any, and of the other arcs; and the comments
    about the table."""

    node_names: list[str]
    tails: array[int]
    heads: array[int]
    capacities: array[int]
    labels: Sequence[str]
    ways: int
    inner_names: dict[int, str]
    described: TableComments
    source: int = 0
    sink: int = 0
    place_count: int = 0
    row_count: int = 0

    def row_names(self) -> dict[int, str]:
        """Return the names of the arcs of rows that have one, by number."""
        names: Iterable[str] = self.labels
        if self.ways > 1:
            names = (name for name in self.labels for _ in range(self.ways))
        return {number: name for number, name in enumerate(names, 1) if name}

    def row_name(self, number: int) -> Optional[str]:
        """Return the name of an arc, if it belongs to a row that has one."""
        place = (number - 1) // self.ways
        return self.labels[place] or None if place < len(self.labels) else None

    def arc_names(self) -> dict[int, Hashable]:
        """Return the names of all arcs that have one, by number."""
        names: dict[int, Any] = self.row_names()
        names.update(self.inner_names)
        return names

    @property
    def columns(self) -> ProblemColumns:
        """The problem without names."""
        ends = self.source, self.sink
        return ProblemColumns(len(self.node_names), *ends, self.tails, self.heads, self.capacities)


def problem_text(net: BuiltProblem, extra: Extra = Extra()) -> str:
    """Return the problem, with what it is, its names and these columns in comments."""
    arc_names = (
        _lines("c arc %d %s\n", [*named], [*named.values()])
        for named in (net.row_names(), net.inner_names)
    )
    head = f"p max {len(net.node_names)} {len(net.tails)}\nn {net.source} s\nn {net.sink} t\n"
    return "".join(
        chain(
            [table_comments(net.described)],
            _lines("c node %d %s\n", range(1, len(net.node_names) + 1), net.node_names),
            *arc_names,
            [extra.comments(range(1, net.row_count + 1)), head],
            _lines("a %d %d %d\n", net.tails, net.heads, net.capacities),
        )
    )


def _lines(form: str, *columns: Sequence[object]) -> Iterator[str]:
    """Yield pieces of lines of a form, each with a field of each column."""
    for begin in range(0, len(columns[0]), PIECE):
        pieces = [column[begin : begin + PIECE] for column in columns]
        fields: list[object] = [None] * (len(columns) * len(pieces[0]))
        for place, piece in enumerate(pieces):
            fields[place :: len(columns)] = piece
        yield form * len(pieces[0]) % tuple(fields)
