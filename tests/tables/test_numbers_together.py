"""Columns of numbers that are read together, as those of a frame, beside the same column read cell
by cell."""

from __future__ import annotations

from decimal import Decimal
from typing import Any

import dmf
import pytest
from dmf.errors import TableFault
from dmf.tables import amount_columns, network_loader
from dmf.tables.amount_columns import Amounts
from dmf.tables.arcs_and_places import read_arcs
from dmf.tables.sheet import Faults, Rows, Sheet
from dmf.tables.table_file import ReadOptions
from dmf.tables.workbook import cell_text, cell_texts
from hypothesis import example, given
from hypothesis import strategies as some
from packages import load

FLOATS = [0.0, -0.0, 50.0, 0.1, 1.5, 1e3, 1e-7, 1e15, 1e16, 1e22, 1e40, 1e300, -2.5, 2.0**50]
FLOATS += [2.0**53 + 2, 0.1 + 0.2, 123456789012345.0, 1234567890123.45, 99999999999999.9, 5e-324]
ODD = [float("nan"), float("inf"), float("-inf")]
WHOLE = [
    0,
    7,
    10,
    -3,
    2**50,
    2**53 + 1,
    10**17,
    10**18 - 1,
    10**18,
    2**64 - 1,
    2**64,
    10**25,
]
DECIMALS = [Decimal(it) for it in ("0.30", "1E+3", "1E-7", "NaN", "123456789.123456789", "-0")]
TEXTS = ["", "n/a", "12", "1.5", "1,5", "1.200", "1,200", "12 l/s", "0", "-4", "1e3", "x", " 7 "]
NUMBERS = some.one_of(
    some.sampled_from([*FLOATS, *WHOLE, *DECIMALS]),
    some.floats(),
    some.floats(0, 1e6).map(lambda number: round(number, 2)),
    some.integers(0, 10**19),
)
VALUES = some.one_of(
    some.lists(some.sampled_from(FLOATS + ODD) | some.floats()),
    some.lists(some.sampled_from(WHOLE) | some.integers()),
    some.lists(some.sampled_from(TEXTS)),
    some.lists(some.sampled_from([*FLOATS, *ODD, *WHOLE, *DECIMALS, *TEXTS, None, True])),
)
NAMES = some.sampled_from(["A", "B", "\u00c4rger", "a  b", " A", "", "Total", "from", None, 7, 2.0])
ROWS = some.lists(
    some.tuples(
        NAMES,
        NAMES,
        NUMBERS | some.sampled_from([*TEXTS, None]) | some.sampled_from([1.5, 20.0, 3]),
        some.sampled_from(["p", "q", "", None, 3.5]),
    ),
    min_size=1,
    max_size=9,
)
# The cells of pieces of a column: numbers alone, zeros alone, and with texts.
PIECES = some.lists(
    some.one_of(
        some.lists(NUMBERS, min_size=1, max_size=6),
        some.lists(some.sampled_from([0, 0.0, Decimal("0.00")]), min_size=1, max_size=3),
        some.lists(NUMBERS | some.sampled_from(TEXTS), min_size=1, max_size=6),
        some.lists(some.sampled_from(TEXTS), min_size=1, max_size=3),
    ),
    min_size=1,
    max_size=4,
)


@given(VALUES)
def test_cells_of_a_column(values: list[Any]) -> None:
    wanted = [cell_text(value) for value in values]
    found = cell_texts(values)
    assert (found, [*map(type, found)]) == (wanted, [*map(type, wanted)])


def read(pieces: list[list[str]], unit: str, given: str, usual: str) -> list[object]:
    """Return all that is read of a column, with its faults."""
    amounts, faults = Amounts("capacity", 1, "t", unit), Faults("t", ["capacity"])
    for cells in pieces:
        amounts.add(cells)
    count = sum(map(len, pieces))
    amounts.settle(range(2, count + 2), faults, given, usual)
    told = []
    try:
        faults.judge()
    except TableFault as fault:
        told = [*fault.lines()]
    numbers = [amounts.quantity(place) for place in range(count)]
    return [
        numbers,
        amounts.decimals,
        amounts.unit,
        amounts.sign,
        amounts.missing,
        *told,
        *amounts.notes,
    ]


@given(PIECES, some.sampled_from(["", "l/s"]), *[some.sampled_from(["", ".", ","])] * 2)
@example([[0], ["12 l/s"]], "", "", "")
@example([[0, 5], ["12 l/s"]], "", "", "")
@example([[5.25, 1.5], ["1.200"]], "", "", "")
@example([["1,5"], [5.25]], "", "", "")
def test_columns(pieces: list[list[Any]], unit: str, given: str, usual: str) -> None:
    cells = [[*map(cell_text, piece)] for piece in pieces]
    found = read(cells, unit, given, usual)
    with pytest.MonkeyPatch.context() as patch:
        patch.setattr(amount_columns, "plain_of", lambda _: None)
        assert found == read(cells, unit, given, usual)


def table_of(sheet: Sheet) -> list[object]:
    """Return all that is read of a table, or what is wrong with it."""
    try:
        table = read_arcs(sheet, ReadOptions())
    except TableFault as fault:
        return [*fault.lines()]
    amounts = [table.amounts.quantity(row) for row in range(len(table.tails))]
    arcs = [*table.tails, *table.heads, *table.lines, *table.labels, *amounts]
    return [*table.places, *arcs, *table.notes, table.amounts.unit, *table.respelled.items()]


@given(ROWS, some.sampled_from([1, 2, 5, 1 << 10]), some.booleans())
def test_frames(rows: list[tuple[Any, ...]], size: int, by_pandas: bool) -> None:
    """A frame has the arcs that the same rows have one by one, with odd rows among them."""
    columns: dict[str, list[Any]] = {
        title: [*column] for title, column in zip(["from", "to", "capacity", "name"], zip(*rows))
    }
    frame = load("pandas").DataFrame(columns) if by_pandas else columns
    values = frame.to_dict("list") if by_pandas else columns
    cells = [[*values], *([*map(cell_text, row)] for row in zip(*values.values()))]
    wanted = table_of(Sheet("", lambda: iter([Rows(range(1, len(cells) + 1), cells)])))
    with pytest.MonkeyPatch.context() as patch:
        patch.setattr(network_loader, "PIECE", size)
        assert table_of(network_loader._sheet_of_frame(frame)) == wanted


@pytest.mark.parametrize("size", [1, 3, 1 << 10])
def test_pieces_of_a_frame(size: int, monkeypatch: pytest.MonkeyPatch) -> None:
    monkeypatch.setattr(network_loader, "PIECE", size)
    frame = {
        "from": ["a", "a", "b", "c", "a"],
        "to": ["b", "c", "t", "t", "t"],
        "name": ["x", "y", "z", "x", ""],
        "Q [l/s]": [2.5, 10.0, 3, 4.25, Decimal("0.5")],
    }
    with dmf.read_table(frame, columns={"capacity": "Q [l/s]"}, source="a", sink="t") as network:
        # Over b go 2.5, over c 4.25, and 0.5 straight on.
        assert network.solve().value == Decimal("7.25")
        assert network.cut().capacity == Decimal("7.25")
