"""Answers about graphs of one call each, without a session."""

from __future__ import annotations

from collections.abc import Hashable, Mapping
from typing import TYPE_CHECKING, Any, Dict, overload

from .capacities import CapacityReader, Scale
from .columns import Node
from .errors import Refused
from .graph_rows import given_network, is_igraph, is_networkx
from .graph_solves import bounded_problem, solved_graph
from .rows import Whole
from .session.base import Program, Solved, where
from .session.column_texts import flow_array
from .session.fresh import CUT, FLOW, VALUE, values_without, worst_among
from .session.runners import program_of

if TYPE_CHECKING:
    from decimal import Decimal

    from .losses import VitalArcs

    Flows = Dict[Node, Dict[Node, int]]

WANTED = "a graph of networkx or igraph, a sparse matrix of scipy, or a dictionary of dictionaries"


@overload
def value(
    graph: Any,
    source: Hashable,
    sink: Hashable,
    capacity: str = ...,
    *,
    infinite: Whole | None = ...,
    scale: None = ...,
    program: Program = ...,
) -> int:
    ...


@overload
def value(
    graph: Any,
    source: Hashable,
    sink: Hashable,
    capacity: str = ...,
    *,
    infinite: Scale | None = ...,
    scale: Scale,
    program: Program = ...,
) -> Decimal:
    ...


def value(
    graph: Any,
    source: Hashable,
    sink: Hashable,
    capacity: str = "capacity",
    *,
    infinite: Any = None,
    scale: Scale | None = None,
    program: Program = None,
) -> Any:
    """Return the greatest value of a flow from the source to the sink.

    One call answers, and leaves no session behind.

    Parameters
    ----------
    graph
        What `maximum_flow` takes, or rows `(tail, head, capacity)` as `Network` has them, a
        tuple of three arrays, or a frame with columns `tail`, `head` and `capacity`.
    source, sink
        Two nodes of it.
    capacity
        The attribute, or the column, with the capacities.
    infinite
        The capacity of arcs whose capacity is missing or infinite.
    scale
        What capacities with decimals are multiplied by, which makes them whole: 10 for one
        decimal. A float is taken by its shortest decimal form.
    program
        As that of `Network`.

    Returns
    -------
    int or Decimal
        The value. With a scale it is a Decimal, which is exact; or an int if the scale is 1.

    Raises
    ------
    Error
        What `maximum_flow` raises.

    Examples
    --------
    >>> value([("lake", "mill", 3), ("mill", "sea", 2)], "lake", "sea")
    2
    >>> value([("lake", "mill", 0.3), ("lake", "mill", 0.1)], "lake", "mill", scale=10)
    Decimal('0.4')
    """
    reader = CapacityReader(infinite, scale)
    given = given_network(graph, source, sink, capacity, reader)
    return reader.quantity(solved_graph(given, VALUE, program).value)


@overload
def minimum_cut(
    graph: Any,
    source: Node,
    sink: Node,
    capacity: str = ...,
    *,
    infinite: Whole | None = ...,
    scale: None = ...,
    program: Program = ...,
) -> tuple[int, tuple[set[Node], set[Node]]]:
    ...


@overload
def minimum_cut(
    graph: Any,
    source: Node,
    sink: Node,
    capacity: str = ...,
    *,
    infinite: Scale | None = ...,
    scale: Scale,
    program: Program = ...,
) -> tuple[Decimal, tuple[set[Node], set[Node]]]:
    ...


def minimum_cut(
    graph: Any,
    source: Any,
    sink: Any,
    capacity: str = "capacity",
    *,
    infinite: Any = None,
    scale: Scale | None = None,
    program: Program = None,
) -> tuple[Any, tuple[set[Any], set[Any]]]:
    """Return the capacity of a minimum cut and the two sides of the smallest one.

    That is the shape of `networkx.minimum_cut`, whose cut is the one with the largest side of
    the source. One call answers, and leaves no session behind.

    Parameters
    ----------
    graph, source, sink, capacity, infinite, scale, program
        As those of `value`. The nodes of a matrix are numbers from 0.

    Returns
    -------
    tuple
        The capacity, and a pair of sets: the nodes that every minimum cut has on the side of
        the source, and all others.

    Raises
    ------
    Error
        What `maximum_flow` raises.

    Examples
    --------
    >>> graph = {"lake": {"mill": 3}, "mill": {"sea": 2}}
    >>> capacity, (side, others) = minimum_cut(graph, "lake", "sea")
    >>> capacity, sorted(side), sorted(others)
    (2, ['lake', 'mill'], ['sea'])
    """
    reader = CapacityReader(infinite, scale)
    given = given_network(graph, source, sink, capacity, reader)
    found = solved_graph(given, CUT, program)
    names = given.state.columns.names
    side = {names[node - 1] for node in found.side}
    return reader.quantity(found.value), (side, {node for node in names if node not in side})


@overload
def maximum_flow(
    graph: Mapping[Node, Mapping[Node, Any]],
    source: Node,
    sink: Node,
    capacity: str = ...,
    *,
    infinite: Whole | None = ...,
    scale: None = ...,
    program: Program = ...,
) -> tuple[int, Flows[Node]]:
    ...


@overload
def maximum_flow(
    graph: Any,
    source: Any,
    sink: Any,
    capacity: str = ...,
    *,
    infinite: Any = ...,
    scale: Scale | None = ...,
    program: Program = ...,
) -> Any:
    ...


def maximum_flow(
    graph: Any,
    source: Any,
    sink: Any,
    capacity: str = "capacity",
    *,
    infinite: Any = None,
    scale: Scale | None = None,
    program: Program = None,
) -> Any:
    """Return a maximum flow, in the shape in which the package of the graph has it.

    One call answers, and leaves no session behind.

    Parameters
    ----------
    graph
        A graph of networkx or igraph, a dictionary `{tail: {head: capacity}}` or `{tail:
        {head: {"capacity": 3}}}`, or a sparse matrix of scipy, whose entry of row i and column
        j is the capacity from node i to node j, counted from 0.
    source, sink
        Two nodes of it. In a graph of igraph they are the names of vertices if they have any,
        or their numbers from 0.
    capacity
        The attribute with the capacities.
    infinite
        The bound of an edge without the attribute, or with an infinite one. Without this
        argument such an edge has no bound.
    scale
        What capacities with decimals are multiplied by, as for `value`. Flows are Decimals then.
    program
        As that of `Network`.

    Returns
    -------
    tuple, MatrixFlow or EdgeFlow
        For a graph or a dictionary `(value, flows)`, where `flows[tail][head]` is the flow on
        that edge. In an undirected graph the flow stands in the direction in which it goes,
        and in a multigraph `flows[tail][head][key]` is that of an edge. For a matrix a
        `MatrixFlow` with `flow_value` and `flow`, and for a graph of igraph an `EdgeFlow` with
        `value` and `flow`.

    Raises
    ------
    Unbounded
        If the flow has no bound.
    NoSuchNode
        If the source or the sink is not a node.
    Refused
        If the problem has another fault.
    TypeError
        If the graph is of another kind.
    NoProgram
        If no program is found.

    Examples
    --------
    >>> maximum_flow({"lake": {"mill": 3}, "mill": {"sea": 2}}, "lake", "sea")
    (2, {'lake': {'mill': 2}, 'mill': {'sea': 2}, 'sea': {}})
    """
    # Imported here, so that a first call of `value` does not wait for them.
    from .graph_flows import EdgeFlow, MatrixFlow, flow_dictionaries, flows_on_edges, net_matrix
    from .unbounded_arcs import flows_of

    is_matrix = hasattr(graph, "tocoo")
    if not (is_matrix or isinstance(graph, Mapping) or is_networkx(graph) or is_igraph(graph)):
        raise TypeError(
            f"a flow in the shape of the graph needs {WANTED}, and not a {type(graph).__name__}: "
            "make a Network of it"
        )
    reader = CapacityReader(infinite, scale)
    given = given_network(graph, source, sink, capacity, reader)
    found, columns = solved_graph(given, FLOW, program), given.state.columns
    amount, count = reader.quantity(found.value), len(columns)
    if is_matrix:
        assert isinstance(found, Solved), "an entry of a matrix has a bound"
        flow = flow_array(found.flows, count)
        return MatrixFlow(amount, net_matrix(columns, flow, max(graph.shape), reader.measure))
    flows = flows_of(found.flows, count) if isinstance(found, Solved) else found.flows
    if is_igraph(graph):
        return EdgeFlow(amount, list(map(reader.quantity, flows_on_edges(graph, flows))))
    return amount, flow_dictionaries(graph, given, flows, reader)


def vital(
    graph: Any,
    source: Hashable,
    sink: Hashable,
    capacity: str = "capacity",
    *,
    top: int | None = None,
    infinite: Any = None,
    scale: Scale | None = None,
    program: Program = None,
) -> VitalArcs[Any]:
    """Return the greatest value, and for each arc the greatest value without it.

    The program finds all of them from one greatest flow, in a fraction of the time that it takes
    to close each arc and solve. No session is left.

    An undirected edge is two opposite arcs, and each value is that without one of them. The value
    without both is the lesser of the two.

    Parameters
    ----------
    graph, source, sink, capacity, infinite, scale, program
        As those of `value`.
    top
        How many arcs are returned: those whose loss costs most, the greatest loss first, and of
        equal losses the first arc. By default all are returned, in their order.

    Returns
    -------
    VitalArcs
        The value, the arcs, the value without each, and the loss of each.

    Raises
    ------
    CapacitiesPast64Bits
        Also if arcs without a bound may carry more than 2^64 - 1 together.
    Error
        What `maximum_flow` raises.

    Examples
    --------
    >>> graph = {"lake": {"mill": 3, "sea": 1}, "mill": {"sea": 2}}
    >>> found = vital(graph, "lake", "sea")
    >>> found.value, list(found.values), list(found.losses)
    (3, [1, 2, 1], [2, 1, 2])
    """
    from .losses import Finder, VitalArcs

    reader = CapacityReader(infinite, scale)
    given = given_network(graph, source, sink, capacity, reader)
    state = given.state
    problem = bounded_problem(given, program) if given.unbounded else state.problem()
    try:
        finder = Finder(
            problem.nodes,
            lambda part: values_without(problem, part, program_of(program)),
            lambda ranked, most, among: worst_among(
                problem, ranked, most, among, program_of(program)
            ),
        )
        return VitalArcs.of(state.every_arc(), finder, reader.measure, top)
    except Refused as refused:
        raise where(refused, state.handle) from None
