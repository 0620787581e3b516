"""Networks of what a caller gives: graphs of networkx and igraph, matrices of scipy, dictionaries,
frames, arrays and rows."""

from __future__ import annotations

from array import array
from collections.abc import Hashable, Iterator, Mapping, Sequence
from typing import Any, NamedTuple

from .arrays import column_of, columns_of_arrays, no_capacity
from .capacities import CapacityReader
from .columns import Columns
from .rows import columns_of, is_unbounded
from .session_holder import SessionHolder
from .state import NetworkState


class GivenNetwork(NamedTuple):
    """A network as it was given: its state, and the places of the arcs without a bound, from 0
    on."""

    state: NetworkState[Any]
    unbounded: Sequence[int] = ()


def is_networkx(graph: Any) -> bool:
    """Return True for a graph of networkx."""
    return hasattr(graph, "is_directed") and hasattr(graph, "is_multigraph")


def is_igraph(graph: Any) -> bool:
    """Return True for a graph of igraph."""
    return hasattr(graph, "get_edgelist") and hasattr(graph, "vcount")


def given_network(
    graph: Any, source: Hashable, sink: Hashable, capacity: str, reader: CapacityReader
) -> GivenNetwork:
    """Return the network of what a caller gives."""
    if isinstance(graph, SessionHolder):
        raise TypeError("a Network has the method solve, whose value is the greatest")
    unbounded: list[int] = []
    if isinstance(graph, Mapping) or is_networkx(graph) or is_igraph(graph):
        rows, nodes = _rows_and_nodes(graph, capacity)
        rows, unbounded = _bounded(list(reader.rows(rows)))
        columns = columns_of(rows, nodes)
        if is_igraph(graph):
            source, sink = (vertex_of(nodes, end) for end in (source, sink))
    else:
        columns = _columns_of_tables(graph, capacity, reader)
    return GivenNetwork(NetworkState(*columns, source, sink, 0), unbounded)


def _columns_of_tables(
    graph: Any, capacity: str, reader: CapacityReader
) -> tuple[Columns[Any], array[int]]:
    """Return the columns of a matrix, a frame, three arrays, or rows."""
    if hasattr(graph, "tocoo"):
        entries = graph.tocoo()
        nodes = range(max(graph.shape))
        return columns_of_arrays(entries.row, entries.col, entries.data, None, nodes, reader)
    if hasattr(graph, "columns"):
        tails, heads, amounts = (column_of(graph, title) for title in ("tail", "head", capacity))
        return columns_of_arrays(tails, heads, amounts, None, (), reader)
    if (
        isinstance(graph, tuple)
        and len(graph) == 3
        and all(hasattr(column, "dtype") for column in graph)
    ):
        tails, heads, amounts = graph
        return columns_of_arrays(tails, heads, amounts, None, (), reader)
    return columns_of(reader.rows(graph), ())


def _rows_and_nodes(graph: Any, capacity: str) -> tuple[list[tuple[Any, ...]], Any]:
    if is_networkx(graph):
        return rows_of_networkx(graph, capacity, may_lack=True), graph
    if is_igraph(graph):
        return rows_of_igraph(graph, capacity, may_lack=True), vertices_of(graph)
    return _rows_of_dictionaries(graph, capacity), graph


def _rows_of_dictionaries(
    graph: Mapping[Any, Mapping[Any, Any]], capacity: str
) -> list[tuple[Any, ...]]:
    return [
        (tail, head, given.get(capacity) if isinstance(given, Mapping) else given, None)
        for tail, heads in graph.items()
        for head, given in heads.items()
    ]


def _bounded(rows: list[tuple[Any, ...]]) -> tuple[list[tuple[Any, ...]], list[int]]:
    """Return the rows with a capacity of 0 where they have none, and the places of those, from 0
    on."""
    unbounded = [place for place, row in enumerate(rows) if is_unbounded(row[2])]
    for place in unbounded:
        rows[place] = (*rows[place][:2], 0, rows[place][3])
    return rows, unbounded


def rows_of_networkx(graph: Any, capacity: str, *, may_lack: bool) -> list[tuple[Any, ...]]:
    """Return the arcs of a graph of networkx, with their keys in a multigraph.

    The capacity is the attribute `capacity`, or None if the edge lacks it. Raises `NoCapacity` if
    it may not.
    """
    edges = graph.edges(keys=True, data=True) if graph.is_multigraph() else graph.edges(data=True)

    def ends() -> Iterator[tuple[tuple[Any, ...], Any]]:
        for tail, head, *key, attributes in edges:
            if capacity not in attributes and not may_lack:
                raise no_capacity((tail, head, *key), capacity)
            yield (tail, head, *key), attributes.get(capacity)

    return _both_ways(ends(), graph.is_directed())


def rows_of_igraph(graph: Any, capacity: str, *, may_lack: bool) -> list[tuple[Any, ...]]:
    """Return the arcs of a graph of igraph. The key of each is `(tail, head, number)`, where the
    number is that of its edge. Raises `NoCapacity` if an edge lacks the attribute `capacity`, and
    it may not.
    """
    names = vertices_of(graph)
    is_known = capacity in graph.es.attributes()
    amounts = graph.es[capacity] if is_known else [None] * graph.ecount()

    def ends() -> Iterator[tuple[tuple[Any, ...], Any]]:
        for number, ((tail, head), amount) in enumerate(zip(graph.get_edgelist(), amounts)):
            edge = names[tail], names[head], number
            if amount is None and not may_lack:
                raise no_capacity(edge, capacity)
            yield edge, amount

    return _both_ways(ends(), graph.is_directed())


def _both_ways(
    edges: Iterator[tuple[tuple[Any, ...], Any]], is_directed: bool
) -> list[tuple[Any, ...]]:
    """Return the arcs of edges with their capacities: each edge is one arc, or two opposite ones,
    one after the other, if the graph is undirected. An arc has a key if its edge has a third
    part."""
    rows: list[tuple[Any, ...]] = []
    for (tail, head, *key), amount in edges:
        rows.append((tail, head, amount, (tail, head, *key) if key else None))
        if not is_directed and tail != head:
            rows.append((head, tail, amount, (head, tail, *key) if key else None))
    return rows


def vertices_of(graph: Any) -> list[Any]:
    """Return the vertices of a graph of igraph: their names if they have any, or else numbers from
    0 on. Raises a ValueError if two have one name."""
    if "name" not in graph.vs.attributes():
        return list(range(graph.vcount()))
    names = list(graph.vs["name"])
    seen: set[Any] = set()
    for name in names:
        if name in seen:
            raise ValueError(f"two vertices of the graph have the name {name!r}")
        seen.add(name)
    return names


def vertex_of(names: Sequence[Any], end: Any) -> Any:
    """Return the node of a vertex that goes by its name or, as in igraph, by its number."""
    if type(end) is int and end not in names and 0 <= end < len(names):
        return names[end]
    return end
