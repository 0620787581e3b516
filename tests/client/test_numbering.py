"""The numbers of nodes, against a dictionary: nodes are whole numbers that one array has, or
anything else, or first these and then those."""

from __future__ import annotations

import pickle
from array import array
from typing import Any

import pytest
from client_shared import dmf
from dmf.columns import WholeNodes
from hypothesis import given
from hypothesis import strategies as st

# Where nodes are whole numbers, how large they may be for each row: a few rows, and many.
few, others = st.integers(0, 6), st.one_of(
    st.integers(-3, 300),
    st.sampled_from(["a", "", (1, 2), 1.0, 2.5, True, False, 2**31, 2**64, b"x"]),
)
nodes = st.one_of(few, few, few, few, others)
rows = st.lists(
    st.one_of(
        st.tuples(few, few, few), st.tuples(nodes, nodes, few), st.tuples(few, few, few, nodes)
    ),
    max_size=30,
)


@pytest.fixture(autouse=True, scope="module")
def pieces_of_three() -> Any:
    """A few rows are more than are taken together."""
    with pytest.MonkeyPatch.context() as patch:
        patch.setattr(dmf.rows, "PIECE", 3)
        yield


def columns_of(rows: Any, nodes: Any) -> Any:
    return dmf.rows.columns_of(rows, nodes)[0]


def named(nodes: Any) -> list[tuple[type, Any]]:
    return [(type(node), node) for node in nodes]


@given(rows=rows, first=st.lists(nodes, max_size=4), asked=st.lists(st.one_of(few, others)))
def test_rows(rows: list[Any], first: list[Any], asked: list[Any]) -> None:
    wanted: dict[Any, int] = {}
    for node in [*first, *(end for row in rows for end in row[:2])]:
        wanted.setdefault(node, len(wanted) + 1)
    columns = columns_of(iter(rows) if len(rows) % 2 else rows, first)
    copy = pickle.loads(pickle.dumps(columns))
    for numbers in columns.numbers, copy.numbers:
        assert (named(numbers), list(map(numbers.get, wanted)), len(numbers)) == (
            named(wanted),
            list(wanted.values()),
            len(wanted),
        )
        assert [numbers.get(node) for node in asked] == [wanted.get(node) for node in asked]
        assert [node in numbers for node in asked] == [node in wanted for node in asked]
    assert named(columns.names) == named(wanted)
    ends = [[wanted[row[place]] for row in rows] for place in (0, 1)]
    assert [list(columns.tails), list(columns.heads)] == ends


@pytest.mark.parametrize("count", [10, 300])
def test_what_is_kept(count: int) -> None:
    """Small whole numbers take an array; large ones, negative ones and those of another type a
    dictionary."""
    small = [(at % 7, at % 5, 1) for at in range(count)]
    kinds: dict[Any, bool] = {
        (3, 4, 1): True,
        (4 * count, 1, 1): True,
        (2**40, 1, 1): False,
        (-1, 2, 1): False,
        ("a", 2, 1): False,
        (True, 2, 1): False,
    }
    for row, is_whole in kinds.items():
        numbers = columns_of([*small, row], ()).numbers
        assert isinstance(numbers, WholeNodes) == is_whole, row
    with pytest.raises(TypeError):
        numbers.get([])
    numbers = columns_of(small, ()).numbers
    with pytest.raises(TypeError):
        numbers.get([])
    with pytest.raises(KeyError):
        numbers[7]
    assert numbers.take([1, 2], 9) == array("I", [numbers[1], numbers[2]])
