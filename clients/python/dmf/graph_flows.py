"""Flows of graphs in the shapes of networkx, igraph and scipy."""

from __future__ import annotations

from array import array
from collections.abc import Callable, Sequence
from typing import TYPE_CHECKING, Any, NamedTuple

from . import arrays
from .capacities import CapacityReader
from .columns import Columns
from .graph_rows import GivenNetwork, is_networkx
from .scaled_solution import numbers_of
from .session.column_texts import kind_for
from .state import NetworkState

if TYPE_CHECKING:
    from .quantity import Measure


class MatrixFlow(NamedTuple):
    """A maximum flow of a matrix, with the names of scipy: its value, and the flow as a sparse
    matrix: row i and column j have what flows from node i to node j less what flows back, so it is
    negative where more flows back. The numbers are signed, of 64 bits. If one is 2^63 or more, they
    are unsigned instead, and the entries that would be negative are left out. With a scale they are
    floats, each the one nearest to its number, and `flow_value` is exact."""

    flow_value: Any
    flow: Any


class EdgeFlow(NamedTuple):
    """A maximum flow of a graph of igraph, with the names of igraph: its value, and the flow on
    each edge in the order of the edges. In an undirected graph it is negative where it goes from
    the vertex with the larger number to the other one."""

    value: Any
    flow: Sequence[Any]


def net_matrix(columns: Columns[Any], flow: Any, count: int, measure: Measure | None) -> Any:
    """Return what flows between each two nodes of a matrix, less what flows back."""
    # The nodes are numbers from 0 on, in this order.
    there = arrays.matrix_of(flow, columns.tails, columns.heads, count)
    onward = there - there.minimum(there.T)
    if measure is not None and measure.divisor != 1:
        onward = onward.astype("float64", copy=True) if not onward.nnz else _scaled(onward, measure)
        return (onward - onward.T).tocsr()
    kind = kind_for(onward.data)
    signed = onward.astype(kind)
    return (signed - signed.T).tocsr() if kind == "int64" else onward


def _scaled(matrix: Any, measure: Measure) -> Any:
    return type(matrix)(
        (numbers_of(measure, matrix.data), matrix.indices, matrix.indptr), shape=matrix.shape
    )


def flows_on_edges(graph: Any, flows: Sequence[int]) -> list[int]:
    """Return the flow on each edge of a graph of igraph. An edge without a direction has two arcs,
    one after the other, unless it is a loop."""
    if graph.is_directed():
        return list(flows)
    found, left = [], iter(flows)
    for tail, head in graph.get_edgelist():
        onward = next(left)
        back = 0 if tail == head else next(left)
        found.append(onward - back if tail <= head else back - onward)
    return found


def flow_dictionaries(
    graph: Any, given: GivenNetwork, flows: Sequence[int], reader: CapacityReader
) -> dict[Any, dict[Any, Any]]:
    """Return the flows as networkx has them. Each node has its dictionary."""
    columns = given.state.columns
    names, quantity = columns.names, reader.quantity
    found: dict[Any, dict[Any, Any]] = {node: {} for node in names}
    if not is_networkx(graph):
        for tail, head, flow in zip(columns.tails, columns.heads, flows):
            found[names[tail - 1]][names[head - 1]] = quantity(flow)
        return found
    back = _opposite_flows(given.state, flows, graph.is_directed())
    for number, (tail, head, flow) in enumerate(zip(columns.tails, columns.heads, flows), 1):
        u, v = names[tail - 1], names[head - 1]
        net = quantity(max(0, flow - back(number)))
        if graph.is_multigraph():
            key: Any = columns.keys[number]
            found[u].setdefault(v, {})[key[2]] = net
        else:
            found[u][v] = net
    return found


def _opposite_flows(
    state: NetworkState[Any], flows: Sequence[int], is_directed: bool
) -> Callable[[int], int]:
    """Return what says how much flows back on the edge of an arc of a number: in an undirected
    graph its two arcs stand one after the other."""
    if is_directed:
        return lambda number: 0
    twins = array("I", [0]) * (len(flows) + 1)
    number = 1
    while number <= len(flows):
        is_loop = state.columns.tails[number - 1] == state.columns.heads[number - 1]
        if not is_loop:
            twins[number], twins[number + 1] = number + 1, number
        number += 1 if is_loop else 2
    return lambda number: flows[twins[number] - 1] if twins[number] else 0
