"""Columns with values that are missing or hidden, tables in the place of columns, and nodes that
are none."""

from __future__ import annotations

from collections.abc import Callable
from datetime import date
from typing import Any

import pytest
from client_shared import dmf
from packages import load

NAN = float("nan")
numpy, pandas = load("numpy"), load("pandas")
make = dmf.Network.from_arrays


def whole_numbers() -> tuple[Any, Any]:
    return numpy.array([1, 2]), numpy.array([2, 3])


def refused(call: Callable[[], object], said: str) -> None:
    with pytest.raises(dmf.NotAnArc) as caught:
        call()
    assert str(caught.value) == f"not an arc: {said}"


NO_NODES: list[tuple[list[Any], str]] = [
    ([("a", "b", 1), ("b", NAN, 2)], "number 2, ('b', nan, 2): nan is not a node"),
    ([(NAN, "b", 1), ("b", NAN, 2)], "number 1, (nan, 'b', 1): nan is not a node"),
    ([(1, 2, 1), (2, NAN, 2)], "number 2, (2, nan, 2): nan is not a node"),
]


@pytest.mark.parametrize(("rows", "said"), NO_NODES)
def test_a_node_in_rows(rows: list[Any], said: str) -> None:
    refused(lambda: dmf.Network(rows, rows[0][0], rows[0][1]), said)
    tail, head, capacity = zip(*rows)
    refused(lambda: make(tail, head, capacity, source=tail[0], sink=head[0]), said)


def test_none_is_a_node_of_rows_alone() -> None:
    """A row names its nodes. In a column None is what is missing, unless `nodes` names it."""
    with dmf.Network([("a", None, 3)], "a", None) as network:
        assert network.solve().value == 3
    refused(
        lambda: make(["a", "b"], ["b", None], [1, 2], source="a", sink="b"),
        "number 2, ('b', None, 2): None is not a node",
    )
    with make(["a"], [None], [3], source="a", sink=None, nodes=[None]) as network:
        assert network.solve().value == 3
    refused(
        lambda: dmf.Network([("a", "b", 1)], "a", "b", nodes=[NAN]),
        "nan cannot be the name of a node",
    )


def test_a_node_in_arrays() -> None:
    hidden = numpy.ma.masked_array([1, 2], [False, True])
    refused(
        lambda: make(hidden, numpy.array([2, 3]), numpy.array([5, 6]), source=1, sink=3),
        "number 2, (None, 3, 6): None is not a node",
    )
    refused(
        lambda: make(numpy.array([1.0, NAN]), numpy.array([2, 3]), [5, 6], source=1, sink=3),
        "number 2, (nan, 3, 6): nan is not a node",
    )


def test_a_node_in_frames() -> None:
    for kind, tail in ("string", ["a", pandas.NA]), ("Int64", [1, pandas.NA]):
        frame = pandas.DataFrame(
            {"tail": pandas.Series(tail, dtype=kind), "head": [2, 3], "capacity": [5, 6]}
        )
        refused(
            lambda: dmf.Network.from_frame(frame, source=2, sink=3),
            "number 2, (<NA>, 3, 6): <NA> is not a node",
        )


def test_a_table_is_no_column() -> None:
    for place in range(4):
        columns: list[Any] = [*whole_numbers(), numpy.array([5, 6]), numpy.array([7, 8])]
        columns[place] = columns[place].reshape(2, 1)
        tail, head, capacity, key = columns
        refused(
            lambda: make(tail, head, capacity, key=key, source=1, sink=3),
            "a column has 2 dimensions, and not one",
        )
    refused(
        lambda: make(*whole_numbers(), numpy.array([[1, 2], [3, 4]]), source=1, sink=3),
        "a column has 2 dimensions, and not one",
    )
    refused(
        lambda: make(*whole_numbers(), numpy.array(7), source=1, sink=3),
        "a column has 0 dimensions, and not one",
    )


@pytest.mark.parametrize("kind", ["datetime64[ns]", "timedelta64[ns]"])
def test_times_that_would_become_whole_numbers(kind: str) -> None:
    """They are refused in each column; times that Python has are nodes as they are."""
    times = numpy.array([1, 2], kind)
    for place in range(4):
        columns: list[Any] = [[1, 2], [2, 3], [5, 6], [7, 8]]
        for column in (
            times,
            numpy.ma.masked_array(times, [False, True]),
            *([pandas.Series(times)] if pandas else []),
        ):
            columns[place] = column
            tail, head, capacity, key = columns
            said = f"a column of {kind}, whose times would become whole numbers: make texts of them"
            refused(lambda: make(tail, head, capacity, key=key, source=1, sink=3), said)
    days = numpy.array(["2026-11-24", "2026-11-25"], "datetime64[D]")
    with make(days, ["night", "sea"], [5, 6], source=date(2026, 11, 24), sink="sea") as network:
        assert network.nodes == [date(2026, 11, 24), "night", date(2026, 11, 25), "sea"]


@pytest.mark.parametrize("kind", ["int64", "float64", "uint8"])
def test_a_hidden_capacity(kind: str) -> None:
    """What stands under the mask is not read: it is a capacity that is missing."""
    hidden = numpy.ma.masked_array(numpy.array([4, 5], kind), [False, True])
    with pytest.raises(dmf.NotANumber, match=r"^not a number: None in \(2, 3, None\): "):
        make(*whole_numbers(), hidden, source=1, sink=3)
    with make(*whole_numbers(), hidden, source=1, sink=3, infinite=9) as network:
        assert [arc.capacity for arc in network.arcs] == [4, 9]
    with make(*whole_numbers(), numpy.ma.masked_array([4, 5]), source=1, sink=3) as network:
        assert [arc.capacity for arc in network.arcs] == [4, 5]


def test_capacities_and_keys_of_frames() -> None:
    """What pandas writes as missing is missing, in the columns that are taken together and in those
    that are taken row by row."""
    rooms = pandas.Series([4, pandas.NA], dtype="Int64")
    keys = pandas.Series(["x", pandas.NA], dtype="string")
    ends: list[tuple[Any, Any]] = [(["a", "b"], ["b", "c"]), whole_numbers()]
    for tail, head in ends:
        options: dict[str, Any] = {"source": tail[0], "sink": head[1], "key": keys}
        with make(tail, head, rooms, infinite=9, **options) as network:
            assert [(arc.capacity, arc.given_key) for arc in network.arcs] == [(4, "x"), (9, None)]
        with make(tail, head, numpy.array([4, 5]), **options) as network:
            assert [(arc.capacity, arc.given_key) for arc in network.arcs] == [(4, "x"), (5, None)]
        with pytest.raises(dmf.NotANumber, match=r"^not a number: <NA> in "):
            make(tail, head, rooms, **options)


def test_capacities_of_numpy_in_rows() -> None:
    """Every width of floats is taken where it is whole."""
    for kind in (
        numpy.float16,
        numpy.float32,
        numpy.float64,
        numpy.longdouble,
        numpy.int8,
        numpy.uint64,
    ):
        with dmf.Network([("a", "b", kind(3))], "a", "b") as network:
            assert (network.cap(("a", "b"), kind(2)), network.solve().value) == (0, 2)
    for number in (
        numpy.float32(3.5),
        numpy.float32(NAN),
        numpy.float32("inf"),
        numpy.float32(-1),
        float,
        "3",
    ):
        with pytest.raises(dmf.NotANumber):
            dmf.Network([("a", "b", number)], "a", "b")


def test_keys_that_cannot_be_hashed() -> None:
    for key in [1], numpy.array([1, 2]):
        with pytest.raises(
            dmf.NotAnArc, match=r"^not an arc: number 1: its key .* cannot be hashed$"
        ):
            make(*whole_numbers(), numpy.array([4, 5]), key=[key, "y"], source=1, sink=3)
        with pytest.raises(dmf.NotAnArc, match=r"^not an arc: \('a', 'b', 4, "):
            make(["a", "b"], ["b", "c"], [4, 5], key=[key, "y"], source="a", sink="c")
    with pytest.raises(dmf.NotANumber):
        make(["a", "b"], ["b", "c"], [numpy.array([1, 2]), 5], source="a", sink="c", infinite=9)
