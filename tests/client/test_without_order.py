"""What has no order of its own, and so can be no row, no pair and no case: each of its values could
be taken for another one."""

from __future__ import annotations

from collections import Counter
from types import MappingProxyType
from typing import Any

import pytest
from client_shared import WANTED, dmf, pipes

BY_NAME = {"a": 1, "b": 2, 3: 4}
ROWS: list[Any] = [
    {"a", "b", 3},
    frozenset(["a", "b", 3]),
    BY_NAME,
    BY_NAME.keys(),
    BY_NAME.values(),
    BY_NAME.items(),
    MappingProxyType(BY_NAME),
    Counter("ab3"),
    {"a", "b", 3, "key"},
    "ab3",
    b"ab3",
    bytearray(b"ab3"),
]


@pytest.mark.parametrize("row", ROWS, ids=lambda row: type(row).__name__)
def test_rows(row: Any) -> None:
    """No program is started."""
    for rows in [row], [("a", "b", 3), row]:
        with pytest.raises(dmf.NotAnArc) as caught:
            dmf.Network(rows, "a", "b", program="/nowhere/dmf")
        assert str(caught.value) == f"not an arc: {row!r}: {WANTED}"


def test_rows_with_an_order() -> None:
    class Pipe(tuple[Any, ...]):
        pass

    rows: list[Any] = [["a", "b", 3], Pipe(["a", "b", 4]), ("b", "c", 9)]
    with dmf.Network(rows, "a", "c") as network:
        assert network.solve().value == 7


def test_pairs() -> None:
    """The results of the pairs before it come first."""
    pairs: list[Any] = [("lake", "sea"), ["sea", "lake"], {"lake", "sea"}]
    with pipes() as network:
        network.solve()
        results = dmf.sweep(network, dmf.each_pair_added(pairs, 7))
        assert [next(results).value for _ in range(2)] == [12, 5]
        with pytest.raises(dmf.NotAnArc, match=r"^not an arc: \{.*\}: expected \(tail, head\)$"):
            next(results)
        for pair in frozenset(["lake", "sea"]), {"lake": 1, "sea": 2}, {"lake": 1, "sea": 2}.keys():
            with pytest.raises(dmf.NotAnArc):
                list(dmf.sweep(network, dmf.each_pair_added([pair], 7)))  # type: ignore[list-item]


def test_cases() -> None:
    """The commands of a case are made in their order."""
    commands = {("cap", ("lake", "mill"), 1), ("cap", ("lake", "town"), 1)}
    cases: list[Any] = [
        commands,
        frozenset(commands),
        dict.fromkeys(commands),
        dict.fromkeys(commands).keys(),
        list(commands),
    ]
    with pipes() as network:
        network.solve()
        *refused, made = dmf.sweep(network, cases)
        assert made.value == 2
        for case, result in zip(cases, refused):
            assert (str(result.refusal), result.value) == (
                f"unknown command: {case!r} in a sweep",
                None,
            )
