"""Many cells or arcs at once, beside one by one: the numbers of places, the ends of networks, and
rows that are the same."""

from __future__ import annotations

from array import array
from collections import Counter
from contextlib import ExitStack
from importlib import import_module
from unittest.mock import patch

from dmf.tables import lone_ends, warnings
from dmf.tables.lone_ends import ends_alone
from dmf.tables.readers import Numbers, name_of
from dmf.tables.warnings import _alike, _equal
from hypothesis import given
from hypothesis import strategies as some

CELLS = some.sampled_from(
    [
        "A",
        "B",
        " A",
        "A ",
        "a  b",
        "a b",
        "'=x",
        "''=x",
        "=x",
        "'A",
        "\u00a0A",
        "C",
        "D",
        "E",
        "\ufeffA",
        "x\x07",
        "",
        " ",
        "7",
    ]
)


@given(some.lists(some.lists(CELLS, min_size=1, max_size=5), max_size=8), some.booleans())
def test_numbers_of_places(pieces: list[list[str]], is_raw: bool) -> None:
    """Places have the numbers in which their names first come; a piece with a cell that is no name
    gives none. What is spelled in two ways is told."""
    numbers = Numbers(is_raw)
    known: dict[str, int] = {}
    ways: dict[str, dict[str, None]] = {}
    for piece in pieces:
        names = []
        for cell in piece:
            try:
                names.append(name_of(cell, is_raw=is_raw))
            except ValueError:
                names.append("")
        if not all(names):
            if "" not in piece:
                assert numbers.of(piece) is None
            continue
        for name, cell in zip(names, piece):
            known.setdefault(name, len(known) + 1)
            ways.setdefault(name, {})[cell] = None
        assert numbers.of(piece) == [known[name] for name in names]
    assert numbers.places == known
    for name, other in numbers.respelled.items():
        assert other != name and name_of(other, is_raw=is_raw) == name
    assert {name for name, found in ways.items() if len(found) > 1} <= numbers.respelled.keys()


ENDS = some.lists(
    some.tuples(some.integers(1, 6), some.integers(1, 6), some.integers(0, 3)), max_size=12
)


@given(ENDS, some.booleans())
def test_ends_and_rows(rows: list[tuple[int, int, int]], by_numpy: bool) -> None:
    """By numpy, where it is there, and without."""
    tails, heads, numbers = (
        array(code, [row[place] for row in rows]) for place, code in enumerate("IIQ")
    )
    with ExitStack() as stack:
        for module in lone_ends, warnings:
            stack.enter_context(
                patch.object(
                    module, "numpy_for", lambda _: import_module("numpy") if by_numpy else None
                )
            )
        alone, alike, loops = (
            ends_alone(tails, heads),
            set(_alike(tails, heads, numbers)),
            _equal(tails, heads),
        )
    ways = [(tail, head) for tail, head, _ in rows if tail != head]
    left, entered = {tail for tail, _ in ways}, {head for _, head in ways}
    first = list(dict.fromkeys(tail for tail, _ in ways if tail not in entered))
    last = list(dict.fromkeys(head for _, head in ways if head not in left))
    assert alone == (first, last)
    assert loops == [place for place, (tail, head, _) in enumerate(rows) if tail == head]
    assert alike >= {place for place, row in enumerate(rows) if Counter(rows)[row] > 1}
