"""Networks of graphs of networkx and igraph, and of sparse matrices of scipy."""

from __future__ import annotations

from typing import Any

from .capacities import CapacityReader, Scale
from .columns import Node
from .graph_rows import rows_of_igraph, rows_of_networkx, vertex_of, vertices_of
from .network import Network
from .rows import columns_of
from .session.base import Program, bound


def from_networkx(
    graph: Any,
    source: Node,
    sink: Node,
    capacity: str = "capacity",
    *,
    infinite: Scale | None = None,
    scale: Scale | None = None,
    program: Program = None,
    history: int | None = None,
) -> Network[Node]:
    """Return the network of a graph of networkx.

    Each edge is an arc, or two opposite ones if the graph is undirected. In a multigraph the
    key of an arc is `(u, v, k)`.

    Parameters
    ----------
    graph
        The graph.
    source, sink, program, history
        As those of `Network`.
    capacity
        The attribute with the capacities.
    infinite
        The capacity of edges that lack the attribute, or whose capacity is infinite, None or
        NaN.
    scale
        As that of `Network.from_arrays`.

    Raises
    ------
    NoCapacity
        If an edge lacks the attribute and there is no `infinite`.
    Error
        What `Network` raises.

    Examples
    --------
    >>> import networkx
    >>> graph = networkx.DiGraph()
    >>> graph.add_edge("lake", "mill", capacity=3)
    >>> graph.add_edge("mill", "sea", capacity=2)
    >>> from_networkx(graph, "lake", "sea").solve().value
    2
    """
    most, reader = bound(history), CapacityReader(infinite, scale)
    rows = rows_of_networkx(graph, capacity, may_lack=reader.infinite is not None)
    columns = columns_of(reader.rows(rows), graph)
    return Network._of_columns(*columns, source, sink, program, most, reader.measure)


def from_igraph(
    graph: Any,
    source: Any,
    sink: Any,
    capacity: str = "capacity",
    *,
    infinite: Scale | None = None,
    scale: Scale | None = None,
    program: Program = None,
    history: int | None = None,
) -> Network[Any]:
    """Return the network of a graph of igraph.

    Its nodes are the names of the vertices if they have any, or else their numbers from 0. Each
    edge is an arc, or two opposite ones if the graph is undirected. The key of an arc is `(tail,
    head, number)`, with the number of its edge.

    Parameters
    ----------
    graph
        The graph.
    source, sink
        Two vertices, by their names or their numbers.
    capacity
        The attribute of edges with the capacities.
    infinite
        The capacity of edges that lack the attribute, or whose capacity is infinite, None or
        NaN.
    scale
        As that of `Network.from_arrays`.
    program, history
        As those of `Network`.

    Raises
    ------
    NoCapacity
        If an edge lacks the attribute and there is no `infinite`.
    ValueError
        If two vertices have one name.
    Error
        What `Network` raises.

    Examples
    --------
    >>> import igraph
    >>> graph = igraph.Graph([(0, 1), (1, 2)], directed=True, edge_attrs={"capacity": [3, 2]})
    >>> network = from_igraph(graph, 0, 2)
    >>> network.solve().value, network.close((0, 1, 0))
    (2, 0)
    """
    most, reader = bound(history), CapacityReader(infinite, scale)
    rows = rows_of_igraph(graph, capacity, may_lack=reader.infinite is not None)
    nodes = vertices_of(graph)
    source, sink = (vertex_of(nodes, end) for end in (source, sink))
    columns = columns_of(reader.rows(rows), nodes)
    return Network._of_columns(*columns, source, sink, program, most, reader.measure)


def from_scipy(
    matrix: Any,
    source: int,
    sink: int,
    *,
    infinite: Scale | None = None,
    scale: Scale | None = None,
    program: Program = None,
    history: int | None = None,
) -> Network[int]:
    """Return the network of a sparse matrix of scipy.

    Parameters
    ----------
    matrix
        The entry of row i and column j is the capacity of an arc from node i to node j, counted
        from 0.
    source, sink, program, history
        As those of `Network`.
    infinite
        The capacity of arcs whose capacity is infinite or NaN.
    scale
        As that of `Network.from_arrays`.

    Raises
    ------
    Error
        What `Network` raises.

    Examples
    --------
    >>> from scipy.sparse import csr_matrix
    >>> from_scipy(csr_matrix([[0, 3, 0], [0, 0, 2], [0, 0, 0]]), 0, 2).solve().value
    2
    """
    entries = matrix.tocoo()
    return Network.from_arrays(
        entries.row,
        entries.col,
        entries.data,
        source=source,
        sink=sink,
        nodes=range(max(matrix.shape)),
        infinite=infinite,
        scale=scale,
        program=program,
        history=history,
    )
