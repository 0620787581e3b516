"""Columns of numbers: as texts for the program, out of its answers, and as arrays of numpy, frames
of pandas and matrices of scipy. None of these packages is needed until its function is called."""

from __future__ import annotations

from array import array
from collections.abc import Hashable, Iterable, Mapping
from typing import Any

from .arcs import OpenArcs
from .capacities import CapacityReader
from .columns import Columns, Node, WholeNodes
from .errors import NoCapacity, NotAnArc, NumberTooLarge, shown_value
from .rows import (
    LARGEST_NODE,
    columns_of,
    is_missing,
    is_unbounded,
    is_unordered,
    refuse_node,
    whole,
)
from .session.base import import_package
from .session.column_texts import kind_for
from .text.lexical import AMOUNTS, MOST_NODES, NO_NODE, NODES, NUMBERS


def columns_of_arrays(
    tail: Any,
    head: Any,
    capacity: Any,
    key: Any,
    nodes: Iterable[Node],
    reader: CapacityReader,
) -> tuple[Columns[Node], array[int]]:
    """Return the columns of three sequences of one length, and their capacities. Numbers in arrays
    of numpy are taken all together, and everything else row by row. Raises `NotAnArc` if the
    lengths differ or a node is missing, and what `columns_of` raises."""
    tail, head, capacity, key = (_plain(column) for column in (tail, head, capacity, key))
    lengths = {len(column) for column in (tail, head, capacity, key) if column is not None}
    if len(lengths) > 1:
        raise NotAnArc(
            f"not an arc: the columns have several lengths: {', '.join(map(str, sorted(lengths)))}"
        )
    if reader.measure is not None:
        capacity = _scaled(tail, head, capacity, reader)
    if all(_kind(column) in ("i", "u") for column in (tail, head)) and _kind(capacity) in (
        "i",
        "u",
        "f",
    ):
        np = import_package("numpy", "arrays")
        columns, capacities = _of_numbers(np, tail, head, capacity, nodes, reader.infinite)
        if key is not None:
            columns.keys.update(
                (at, value) for at, value in enumerate(_listed(key), 1) if not is_missing(value)
            )
            for at, given in columns.keys.items():
                try:
                    hash(given)
                except TypeError:
                    raise NotAnArc(
                        f"not an arc: number {at}: its key {shown_value(given)} cannot be hashed"
                    ) from None
        return columns, capacities
    rows = zip(
        *map(_listed, (tail, head, capacity)), *([] if key is None else [map(_known, _listed(key))])
    )
    nodes = list(nodes)
    columns, capacities = columns_of(rows if reader.measure else reader.rows(rows), nodes)
    if None in columns.numbers and None not in nodes:
        refuse_node(columns, capacities, None)
    return columns, capacities


def column_of(frame: Any, title: str) -> Any:
    """Return a column of a frame. Raises a KeyError that names the titles of the frame, if they are
    known."""
    try:
        return frame[title]
    except Exception:
        titles = list(frame.keys() if hasattr(frame, "keys") else getattr(frame, "columns", ()))
        if not titles or title in titles:
            raise
        shown = ", ".join(map(shown_value, titles))
        raise KeyError(f"no column {shown_value(title)}: the columns are {shown}") from None


def _plain(column: Any) -> Any:
    """Return a series of pandas as an array of numpy, a masked array as a list with None for its
    hidden values, an iterable without a length as a list, and any other column as it is. Raises
    `NotAnArc` for a table, a set and a dictionary, and for times that Python cannot represent."""
    if is_unordered(column):
        raise NotAnArc(f"not an arc: a column is a {type(column).__name__}, and not a list")
    if getattr(column, "ndim", 1) != 1:
        raise NotAnArc(f"not an arc: a column has {column.ndim} dimensions, and not one")
    if hasattr(column, "to_numpy"):
        column = column.to_numpy()
    if _kind(column) in ("m", "M") and any(isinstance(value, int) for value in column.tolist()):
        raise NotAnArc(
            f"not an arc: a column of {column.dtype}, whose times would become whole numbers: make "
            "texts of them"
        )
    if hasattr(column, "filled"):
        return column.tolist()
    return column if column is None or hasattr(column, "__len__") else list(column)


def _scaled(tail: Any, head: Any, capacity: Any, reader: CapacityReader) -> Any:
    """Return a column of capacities in whole numbers: an array if the ends are arrays, and none is
    missing."""
    # A number of an array of narrow floats has a shorter decimal form than the same float of
    # Python.
    is_narrow = _kind(capacity) == "f" and capacity.dtype.itemsize != 8
    amounts = list(capacity) if is_narrow else _listed(capacity)
    wholes = reader.column(zip(_listed(tail), _listed(head)), amounts)
    if not _kind(tail) or any(map(is_unbounded, wholes)):
        return wholes
    return import_package("numpy", "arrays").array(wholes, "uint64")


def _kind(column: Any) -> str:
    """Return the kind of numbers that an array of numpy has, or an empty text for another
    column."""
    return str(column.dtype.kind) if hasattr(column, "dtype") else ""


def _listed(column: Any) -> Any:
    return column.tolist() if hasattr(column, "tolist") else column


def _known(value: Any) -> Any:
    """Return a value of a frame, or None if it is missing."""
    return None if is_missing(value) else value


def _of_numbers(
    np: Any, tail: Any, head: Any, capacity: Any, nodes: Iterable[Node], infinite: int | None
) -> tuple[Columns[Node], array[int]]:
    """Return the columns, and the capacities, of arrays of whole numbers."""
    for column in tail, head:
        if column.dtype.kind == "u" and column.size and int(column.max()) >> 63:
            raise NumberTooLarge(
                f"the node {int(column.max())} of an array: a node that is a number lies below 2^63"
            )
    known, tails, heads = _numbered(
        np, tail.astype(np.int64, copy=False), head.astype(np.int64, copy=False), nodes
    )
    capacities = _column(np, AMOUNTS, _amounts(np, tail, head, capacity, infinite))
    return Columns(known, _column(np, NODES, tails), _column(np, NODES, heads), {}), capacities


def _column(np: Any, kind: str, numbers: Any) -> array[int]:
    """Return an array of numbers as a column."""
    column = array(kind, [0]) * len(numbers)
    np.frombuffer(column, kind)[...] = numbers
    return column


def _numbered(
    np: Any, tail: Any, head: Any, nodes: Iterable[Any]
) -> tuple[Mapping[Any, int], Any, Any]:
    """Number the given nodes, and then the ends of arcs in the order in which they first occur,
    from 1 on. Return these numbers, and arrays of the numbers of the tails and of the heads."""
    low, high = (
        (min(int(tail.min()), int(head.min())), max(int(tail.max()), int(head.max())))
        if tail.size
        else (0, -1)
    )
    if (
        isinstance(nodes, range)
        and nodes == range(len(nodes))
        and 0 <= low
        and high < len(nodes) <= MOST_NODES
    ):
        return _whole_nodes(np, np.arange(len(nodes))), tail + 1, head + 1
    names, width = None, high + 1 - low
    if width > 8 * tail.size:
        names, places = np.unique(np.concatenate([tail, head]), return_inverse=True)
        tail, head = np.split(places.reshape(-1), 2)
        width = names.size
    elif low:
        tail, head = tail - low, head - low
    order = _in_order(np, tail, head, width)
    known, numbers = _known_nodes(
        np,
        list(nodes),
        order + low if names is None else names[order],
        LARGEST_NODE * 2 * tail.size,
    )
    number_of = np.zeros(width, np.uint32)
    number_of[order] = numbers
    return known, number_of[tail], number_of[head]


def _in_order(np: Any, tail: Any, head: Any, width: int) -> Any:
    """Return the different ends of arcs, numbers from 0 to `width` - 1, in the order in which they
    first occur."""
    count = tail.size
    backward = np.arange(count - 1, -1, -1, dtype=np.int64 if count >> 30 else np.int32)
    places = []
    for column in tail, head:
        first = np.full(width, count, backward.dtype)
        # If several are put at one place, the last counts, which is here the first of the column.
        first[column[::-1]] = backward
        places.append(first)
    is_first = np.zeros(2 * count + 2, bool)
    is_first[np.minimum(2 * places[0], 2 * places[1] + 1)] = True
    found = np.flatnonzero(is_first[: 2 * count])
    return np.where(found & 1, head[found >> 1], tail[found >> 1])


def _known_nodes(
    np: Any, given: list[Any], names: Any, limit: int
) -> tuple[Mapping[Any, int], Any]:
    """Number the given nodes, and then these names. Return these numbers, and an array of the
    numbers of the names. No dictionary is made if all are whole numbers below `limit`."""
    if not given and 0 <= int(names.min(initial=0)) and int(names.max(initial=0)) < limit:
        return _whole_nodes(np, names), np.arange(1, names.size + 1)
    known: dict[Any, int] = {}
    for node in given:
        known.setdefault(node, len(known) + 1)
    return known, np.array(
        [known.setdefault(name, len(known) + 1) for name in names.tolist()], np.uint32
    )


def _whole_nodes(np: Any, names: Any) -> WholeNodes:
    """Return these names, different whole numbers from 0 on, as nodes in this order."""
    numbers = np.full(int(names.max(initial=-1)) + 1, NO_NODE, np.int32)
    numbers[names] = np.arange(1, names.size + 1)
    return WholeNodes(_column(np, NODES, names), _column(np, NUMBERS, numbers))


def _amounts(np: Any, tail: Any, head: Any, capacity: Any, infinite: int | None) -> Any:
    """Return an array of capacities as whole numbers from 0 on. Raises `NotANumber` and
    `NumberTooLarge`, which name the first arc whose capacity is not one."""
    if capacity.dtype.kind == "f":
        missing = np.isnan(capacity) | (capacity == np.inf)
        if infinite is not None and missing.any():
            capacity = np.where(missing, 0.0, capacity)
            with np.errstate(invalid="ignore"):
                amounts = _amounts(np, tail, head, capacity, None)
            amounts[missing] = infinite
            return amounts
        wrong = (
            ~np.isfinite(capacity)
            | (capacity != np.floor(capacity))
            | (capacity < 0)
            | (capacity >= 2.0**64)
        )
    elif capacity.dtype.kind == "u" or int(capacity.min(initial=0)) >= 0:
        return capacity
    else:
        wrong = capacity < 0
    if wrong.any():
        place = int(np.flatnonzero(wrong)[0])
        amount = capacity[place].item()
        whole(amount, (tail[place].item(), head[place].item(), amount))
    return capacity.astype(np.uint64)


def frame(arcs: OpenArcs[Any], flow: Any, capacities: array[int]) -> Any:
    """Return a frame of pandas with a row for each open arc."""
    pd = import_package("pandas", "a frame of flows")
    columns = {
        "tail": arcs.tails(),
        "head": arcs.heads(),
        "key": arcs.keys(),
        "flow": flow,
        "capacity": capacities,
    }
    return pd.DataFrame(columns, index=pd.Index(list(arcs.numbers()), name="arc"))


def flow_matrix(arcs: OpenArcs[Any], flow: Any) -> Any:
    """Return the flows as a sparse matrix of scipy, of the type that `kind_for` returns."""
    matrix = matrix_of(flow, *arcs.ends(), len(arcs.columns.numbers))
    return matrix.astype(kind_for(matrix.data))


def matrix_of(flow: Any, tails: array[int], heads: array[int], count: int) -> Any:
    """Return the flows between nodes, which are counted from 1, as a sparse matrix of scipy of
    unsigned numbers. Flows on parallel arcs are added up: all flows of a network together are below
    2^64, since its capacities are."""
    sparse = import_package("scipy.sparse", "a matrix of flows")
    np = import_package("numpy", "a matrix of flows")
    rows, columns = (np.frombuffer(ends, np.uint32).astype(np.int64) - 1 for ends in (tails, heads))
    matrix = sparse.csr_matrix((flow.astype(np.uint64), (rows, columns)), shape=(count, count))
    matrix.eliminate_zeros()
    return matrix


def no_capacity(edge: tuple[Any, ...], attribute: Hashable) -> NoCapacity:
    return NoCapacity(
        f"no capacity: the edge {shown_value(edge)} has no attribute {shown_value(attribute)}"
    )
