"""Capacities that are no whole numbers: each call says what one is, where it stands and what to do;
and a wrong title names those that the frame has."""

from __future__ import annotations

import re
from collections.abc import Callable
from decimal import Decimal
from fractions import Fraction
from typing import Any

import pytest
from client_shared import dmf, pipes
from packages import load

names = "numpy", "pandas", "networkx", "scipy.sparse"
numpy, pandas, networkx, sparse = map(load, names)
EXPECTED = "a capacity is a whole number from 0 to 2^64 - 1"
DECIMALS = (
    "; for decimals use dmf.read_table, or scale= of Network.from_arrays, Network.from_frame and "
    "the calls on graphs"
)


def graph_of(capacity: object) -> Any:
    graph = networkx.DiGraph()
    graph.add_edge("a", "b", capacity=capacity)
    return graph


def made(call: Callable[..., object], capacity: object) -> Callable[[], object]:
    return lambda: call([("a", "b", capacity)], "a", "b")


def calls(capacity: Any) -> dict[str, Callable[[], object]]:
    """Each call that takes a capacity, with what stands around it in the message."""
    row, key = repr(("a", "b", capacity)), repr(("a", "b", capacity, None))
    columns = [["a"], ["b"], [capacity]]
    frame = pandas.DataFrame({"tail": ["a"], "head": ["b"], "capacity": [capacity]}, dtype=object)
    network = pipes()
    arc = repr(network.arc(("mill", "sea")))
    ends: dict[str, Any] = {"source": "a", "sink": "b"}
    return {
        f"Network {row}": lambda: dmf.Network([("a", "b", capacity)], "a", "b"),
        f"from_arrays {row}": lambda: dmf.Network.from_arrays(*columns, **ends),
        f"from_frame {row}": lambda: dmf.Network.from_frame(frame, **ends),
        f"from_networkx {key}": lambda: dmf.from_networkx(graph_of(capacity), "a", "b"),
        f"value of rows {row}": lambda: dmf.value([("a", "b", capacity)], "a", "b"),
        f"value of a frame {row}": lambda: dmf.value(frame, "a", "b"),
        f"minimum_cut {key}": lambda: dmf.minimum_cut({"a": {"b": capacity}}, "a", "b"),
        f"maximum_flow {key}": lambda: dmf.maximum_flow({"a": {"b": capacity}}, "a", "b"),
        f"cap {arc}": lambda: network.cap(("mill", "sea"), capacity),
        "add ('lake', 'sea')": lambda: network.add("lake", "sea", capacity),
    }


@pytest.mark.parametrize(
    ("capacity", "hint"),
    [
        (1.5, DECIMALS),
        (-1, ""),
        # No scale makes it a capacity.
        (-1.5, ""),
        ("3", ""),
        (Decimal("0.1"), DECIMALS),
        (Fraction(1, 3), DECIMALS),
    ],
)
def test_each_call(capacity: Any, hint: str) -> None:
    for where, call in calls(capacity).items():
        at = where[re.search(r"[(<]", where).start() :]  # type: ignore[union-attr]
        with pytest.raises(dmf.NotANumber) as caught:
            call()
        assert str(caught.value) == f"not a number: {capacity!r} in {at}: {EXPECTED}{hint}", where


def test_arrays_and_matrices() -> None:
    ends = numpy.array([0]), numpy.array([1])
    for capacity, hint in (1.5, DECIMALS), (-1.5, ""), (-1, ""), (float("nan"), ""):
        said = re.escape(f"not a number: {capacity} in (0, 1, {capacity}): {EXPECTED}{hint}") + "$"
        with pytest.raises(dmf.NotANumber, match=said):
            dmf.Network.from_arrays(*ends, numpy.array([capacity]), source=0, sink=1)
        matrix = sparse.coo_matrix((numpy.array([capacity]), ends), shape=(2, 2))
        given: list[Any] = [dmf.from_scipy, dmf.value, dmf.maximum_flow, dmf.minimum_cut]
        for call in given:
            with pytest.raises(dmf.NotANumber, match=said):
                call(matrix, 0, 1)


def test_a_capacity_too_large() -> None:
    said = f"number too large: one of 65 bits in ('a', 'b', {2**64}): {EXPECTED}"
    with pytest.raises(dmf.NumberTooLarge, match=f"^{re.escape(said)}$"):
        dmf.Network([("a", "b", 2**64)], "a", "b")


def test_a_number_of_steps() -> None:
    with pipes() as network:
        for call, word in (network.undo, "undo"), (network.redo, "redo"):
            said = f"not a number: -1 in '{word}': a number of steps is a whole number from 0 "
            with pytest.raises(dmf.NotANumber, match=f"^{re.escape(said)}"):
                call(-1)


def test_a_title_that_a_frame_lacks() -> None:
    """Of pandas, of a dictionary, and of what only gives columns, whose own error comes."""

    class Columns:
        def __getitem__(self, title: str) -> list[str]:
            raise KeyError(title)

    columns = {"from": ["a"], "to": ["b"], "Q max": [3]}
    said = "no column 'tail': the columns are 'from', 'to', 'Q max'"
    for frame in columns, pandas.DataFrame(columns):
        with pytest.raises(KeyError) as caught:
            dmf.Network.from_frame(frame, source="a", sink="b")
        assert caught.value.args == (said,)
        with dmf.Network.from_frame(frame, "from", "to", "Q max", source="a", sink="b") as network:
            assert network.solve().value == 3
    with pytest.raises(KeyError) as caught:
        dmf.Network.from_frame(
            pandas.DataFrame(columns), "from", "to", "Q max", key="name", source="a", sink="b"
        )
    assert caught.value.args == ("no column 'name': the columns are 'from', 'to', 'Q max'",)
    with pytest.raises(KeyError) as caught:
        dmf.value(pandas.DataFrame(columns), "a", "b")
    assert caught.value.args == (said,)
    with pytest.raises(KeyError) as caught:
        dmf.Network.from_frame(Columns(), source="a", sink="b")
    assert caught.value.args == ("tail",)
