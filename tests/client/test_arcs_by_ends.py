"""The arcs between two nodes, at a node and out of a set of nodes: found among all at first, by
numpy if it is loaded and there are many, and by an index later."""

from __future__ import annotations

from array import array
from pathlib import Path
from random import Random
from typing import Any

import numpy  # noqa: F401 (with it loaded, it is used)
import pytest
from client_shared import dmf
from dmf.columns import MOST_MISSED, Columns

# From how many arcs on numpy looks at them: from 1, or with none of these tests.
MANY = pytest.mark.parametrize("many", [1, 1_000])


def drawn(rng: Random) -> tuple[Columns[int], int, list[tuple[int, int]]]:
    """Columns of twelve arcs, how many nodes they have, and the ends of each arc."""
    count = rng.randint(1, 5)
    tails, heads = (array("I", (rng.randint(1, count) for _ in range(12))) for _ in range(2))
    columns = Columns({node: node for node in range(1, count + 1)}, tails, heads, {})
    return columns, count, list(zip(tails, heads))


@MANY
@pytest.mark.parametrize("seed", range(40))
def test_between(seed: int, many: int, monkeypatch: pytest.MonkeyPatch) -> None:
    """Each call finds what the definition says, before and after the index is made."""
    monkeypatch.setattr("dmf.columns.MANY", many)
    rng = Random(seed)
    columns, count, ends = drawn(rng)
    for _ in range(MOST_MISSED + 5):
        tail, head = rng.randint(1, count), rng.randint(1, count)
        found = [number for number, it in enumerate(ends, 1) if it == (tail, head)]
        assert columns.between(tail, head) == found
    assert "_by_ends" in vars(columns)


@MANY
@pytest.mark.parametrize("seed", range(40))
def test_at_and_leaving(seed: int, many: int, monkeypatch: pytest.MonkeyPatch) -> None:
    """The arcs at a node, and those that lead out of a set of nodes, likewise."""
    monkeypatch.setattr("dmf.columns.MANY", many)
    rng = Random(seed)
    columns, count, ends = drawn(rng)
    for _ in range(MOST_MISSED + 5):
        node = rng.randint(1, count)
        side = sorted(rng.sample(range(1, count + 1), rng.randint(0, count)))
        at = [number for number, it in enumerate(ends, 1) if node in it]
        out = [
            number
            for number, (tail, head) in enumerate(ends, 1)
            if tail in side and head not in side
        ]
        assert columns.at(node) == at and columns.leaving(side) == out


def test_the_first_makes_no_index(tmp_path: Path) -> None:
    """The first arc that is named by its ends needs no index of all arcs, nor of their names; a
    name that is a pair is found all the same."""
    (tmp_path / "t.csv").write_text("from,to,capacity,name\nA,B,5,P1\nB,C,4,P2\nA,B,2,P3\n")
    with dmf.read_table(tmp_path / "t.csv") as network:
        assert network.solve().value == 4
        assert network.cap(("B", "C"), 3) == 3
        columns = network._kept.columns
        assert not {"_by_ends", "_by_key"} & set(vars(columns)) and callable(columns._given)
        with pytest.raises(dmf.AmbiguousArc):
            network.cap(("A", "B"), 1)
        with pytest.raises(dmf.NoSuchArc):
            network.cap(("C", "B"), 1)
        network.cap("P1", 1)
        assert network.solve().value == 3
    with dmf.Network([("a", "b", 3, ("x", "y"))], "a", "b") as pairs:
        assert pairs.solve().value == 3
        assert pairs.cap(("x", "y"), 2) == 2
        assert pairs.solve().value == 2


@pytest.mark.parametrize("both_ways", [False, True])
@pytest.mark.parametrize("is_named", [False, True])
def test_names_one_by_one(both_ways: bool, is_named: bool) -> None:
    """An arc has the same name, whether the names of all arcs are made or not. The arcs of two
    sources and of a limit have none."""
    names = ["P1", "", "P1", "P4"]
    ends: dict[str, list[Any]] = {
        "from": ["A", "B", "A", "C"],
        "to": ["B", "C", "C", "D"],
        "capacity": [5, 4, 2, 9],
    }
    table = {**ends, "name": names} if is_named else ends
    with dmf.read_table(
        table, source={"A": 3, "B": 1}, sink="D", limits={"C": 4}, both_ways=both_ways
    ) as network:
        columns = network._kept.columns
        numbers = range(1, len(columns) + 1)
        found = [columns.key(number) for number in numbers]
        assert callable(columns._given)
        given = [name or None for name in names for _ in range(1 + both_ways)]
        wanted = [*(given if is_named else [None] * len(given)), *[None] * 3]
        assert found == wanted == [columns.keys.get(number) for number in numbers]
