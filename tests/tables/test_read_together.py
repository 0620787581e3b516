"""What reads many cells at once, beside what goes one by one: rows without quotes beside a reader
of CSV, columns, and decimals."""

from __future__ import annotations

import csv
import io
from collections.abc import Iterator
from contextlib import contextmanager
from decimal import Decimal
from fractions import Fraction

import pytest
from dmf.errors import TableFault
from dmf.tables import csv_file as file
from dmf.tables import numpy_rows as spans
from dmf.tables import readers as numbered
from dmf.tables.arcs_and_places import read_arcs
from dmf.tables.csv_file import Block
from dmf.tables.numpy_rows import Spans, first_alike, spans_of
from dmf.tables.plain_numbers import Plain, plain_of
from dmf.tables.readers import Numbers, are_plain
from dmf.tables.sheet import Rows
from dmf.tables.table_file import ReadOptions
from hypothesis import given
from hypothesis import strategies as some
from packages import load

LINES = some.lists(some.text("ab;,\u00e9 '\t", max_size=6), max_size=12)


@contextmanager
def pieces_of(size: int, *, by_numpy: bool) -> Iterator[None]:
    """Reads rows in pieces of so many bytes, by numpy or without it."""
    with pytest.MonkeyPatch.context() as patch:
        patch.setattr(file, "PIECE_BYTES", size)
        patch.setattr(file, "LARGE_PIECE_BYTES", 3 * size)
        patch.setattr(file, "LEAST_LINES", 0)
        patch.setattr(file, "numpy_for", lambda _: load("numpy") if by_numpy else None)
        yield


@given(
    LINES,
    some.sampled_from(["\n", "\r\n"]),
    some.booleans(),
    some.sampled_from(["utf-8", "utf-8-sig", "cp1252"]),
    some.sampled_from([1, 7, 1 << 16]),
    some.booleans(),
)
def test_rows_without_quotes(
    lines: list[str], end: str, is_ended: bool, encoding: str, piece: int, by_numpy: bool
) -> None:
    """The same rows in the same lines as a reader of CSV finds, whatever pieces they are read
    in."""
    text = end.join(lines) + end * is_ended
    with pieces_of(piece, by_numpy=by_numpy):
        found = [
            (line, row)
            for rows in file._rows_of(text.encode(encoding), encoding, ";")
            for line, row in zip(*rows)
        ]
    assert found == list(
        enumerate(csv.reader(io.StringIO(text, newline=""), delimiter=";", strict=True), 1)
    )


def block_of(text: str, encoding: str = "utf-8") -> Block:
    """A text as lines that stand after others."""
    return Block(
        b"other\n" + text.encode(encoding), 6, 6 + len(text.encode(encoding)), encoding, ";", 1
    )


def spanned(rows: list[list[str]], end: str = "\n", encoding: str = "utf-8") -> Spans:
    """Rows, read by numpy."""
    found = spans_of(load("numpy"), block_of(end.join(map(";".join, rows)) + end, encoding))
    assert found
    return found


@given(
    some.integers(2, 4).flatmap(
        lambda width: some.lists(
            some.lists(some.text("ab\u00e9' ", max_size=20), min_size=width, max_size=width),
            min_size=1,
            max_size=9,
        )
    ),
    some.sampled_from(["\n", "\r\n"]),
    some.booleans(),
    some.sampled_from(["utf-8", "cp1252"]),
)
def test_columns_by_numpy(rows: list[list[str]], end: str, is_ended: bool, encoding: str) -> None:
    """Columns as texts, and the places that two of them name; also of the rows but the first."""
    np = load("numpy")
    whole = spans_of(np, block_of(end.join(map(";".join, rows)) + end * is_ended, encoding))
    for begin, read in (0, whole), (1, whole and whole.after_first()):
        assert (
            read is not None
            and read.cells == rows[begin:]
            and [*read.lines] == [*range(begin + 1, len(rows) + 1)]
        )
        assert [row for fewer in read.smaller() for row in fewer.cells] in ([], rows[begin:])
        if not rows[begin:]:
            continue
        for place, column in enumerate(zip(*rows[begin:])):
            assert isinstance(read, Spans)
            assert read.text(place) == "\n".join(column) and read.column(place) == [
                *column
            ] == read._block.column(place)
            assert [read.has(place, cell) for cell in ("a", "", column[0], column[0] + "a")] == [
                cell in column for cell in ("a", "", column[0], column[0] + "a")
            ]
            assert read.has_something(place) == any(map(str.strip, column))
        assert_numbered([(read, rows[begin:])])


def assert_numbered(pieces: list[tuple[Rows, list[list[str]]]]) -> None:
    """The first two columns of pieces name the same places as cells that are looked up one by
    one."""
    together, alone = Numbers(is_raw=False), Numbers(is_raw=False)
    for piece, rows in pieces:
        found, wanted = piece.numbered((1, 0), together), alone.of(
            [cell for row in rows for cell in (row[1], row[0])]
        )
        assert (found is None) == (wanted is None)
        if found is not None and wanted is not None:
            assert [list(column) for column in found] == [wanted[0::2], wanted[1::2]]
        assert (together.places, together.respelled) == (alone.places, alone.respelled)


WORDS = some.sampled_from(
    [
        "a",
        "b",
        " a",
        "a ",
        "A" * 8,
        "A" * 9,
        "A" * 16 + "b",
        "A" * 16 + "c",
        "D" * 70,
        "'=x",
        "=x",
        "",
        "\u00e9",
        "\x07",
    ]
)


@given(
    some.lists(
        some.lists(some.lists(WORDS, min_size=2, max_size=2), min_size=1, max_size=9), max_size=5
    ),
    some.integers(0, 3),
)
def test_numbers_of_pieces(pieces: list[list[list[str]]], rounds: int) -> None:
    """Places have the numbers in which they first come, from piece to piece, also where a piece has
    a name that is too long or no name, and where names cannot be told apart in so many rounds."""
    with pytest.MonkeyPatch.context() as patch:
        patch.setattr(spans, "MOST_ROUNDS", rounds or 100)
        patch.setattr(spans, "_ODD", 1 << 40 if rounds == 2 else spans._ODD)
        assert_numbered([(spanned(rows), rows) for rows in pieces])


@given(
    some.lists(some.tuples(some.integers(0, 3), some.integers(0, 2)), min_size=1, max_size=40),
    some.booleans(),
)
def test_first_alike(rows: list[tuple[int, int]], is_mixed: bool) -> None:
    """By a good hash each row has the first one that is the same; by a bad one too, or there is no
    answer."""
    np = load("numpy")
    with pytest.MonkeyPatch.context() as patch:
        patch.setattr(spans, "_ODD", spans._ODD if is_mixed else 0)
        found = first_alike(np, [np.array(column, np.uint64) for column in zip(*rows)])
    assert found is not None or not is_mixed and len(set(rows)) > 1
    assert found is None or found.tolist() == [*map(rows.index, rows)]


def test_long_names_by_numpy() -> None:
    """Names past a bound, and names that only their last letters tell apart."""
    for size in 0, 7, 8, 9, 16, 63, 64, 65, 1000:
        rows = [["a" * size + "bc"[row % 2], "a" * size + "d"] for row in range(9)]
        assert_numbered(
            [
                (spanned(rows), rows),
                (spanned([["bc", "bd"]]), [["bc", "bd"]]),
                (spanned(rows), rows),
            ]
        )


@given(
    some.lists(some.text("ab \n'\u00a0", max_size=9), min_size=1, max_size=6), some.integers(1, 9)
)
def test_plain_names(cells: list[str], longest: int) -> None:
    """Cells are plain if each is, and none is too long."""
    with pytest.MonkeyPatch.context() as patch:
        patch.setattr(numbered, "LONGEST_CELL", longest)
        found = are_plain("\n".join(cells), len(cells))
    is_odd = [
        not cell.isprintable()
        or " ".join(cell.split()) != cell
        or cell[:1] == "'"
        or len(cell) > longest
        for cell in cells
    ]
    assert found == (not any(is_odd))


@pytest.mark.parametrize(
    "text",
    ["a", "a\nb\n", "a;b\nc\n", "a;b\n\nc;d", "a;b\nc;d;e\nf\n", ";;\n;\n", "a;b;c\nd\ne;f\n"],
)
def test_no_columns(text: str) -> None:
    """Rows of several widths, blank ones, and those of one column are read by themselves."""
    assert spans_of(load("numpy"), block_of(text)) is None


NAMES = some.sampled_from(
    ["A", "B", "\u00c4rger", "a  b", " A", "'=x", "", "D" * 70, "\u00a0", "7", "E\x07"]
)
AMOUNTS = some.sampled_from(
    [
        "1",
        "2,5",
        "0,125",
        " 3",
        "1.200,5",
        "12 l/s",
        "-1",
        "",
        "x",
        "007",
        "4,",
        ",",
        "1,2,3",
        "123456789012345,6",
        "1" * 19,
    ]
)
ROWS = some.lists(
    some.tuples(
        NAMES,
        NAMES,
        AMOUNTS,
        some.sampled_from(["", "r1", " r2", "'-r", "von"]),
        some.sampled_from(["", "x"]),
    ),
    min_size=1,
    max_size=12,
)


@given(
    ROWS,
    some.lists(some.integers(0, 12), max_size=2),
    some.sampled_from(["\n", "\r\n"]),
    some.integers(1, 60),
    some.booleans(),
    some.integers(2, 5),
)
def test_tables_by_numpy(
    rows: list[tuple[str, ...]], gaps: list[int], end: str, size: int, has_titles: bool, width: int
) -> None:
    """Whole tables, with odd rows among others, which may lack the last columns: the same rows,
    names, notes and faults as without numpy."""
    lines = [";".join(row[:width]) for row in rows]
    for gap in gaps:
        lines.insert(gap, ["", "von;nach;kap;rohr;rest", ";;;;"][gap % 3])
    lines = ["von;nach;kap;rohr;rest"] * has_titles + lines
    found = [read(end.join(lines), size, by_numpy=by_numpy) for by_numpy in (True, False)]
    assert found[0] == found[1]


def read(text: str, size: int, *, by_numpy: bool) -> list[object]:
    """All that is read of a table, or what is wrong with it."""
    with pieces_of(size, by_numpy=by_numpy):
        try:
            table = read_arcs(file.csv_sheet(text.encode(), "t", None, 3), ReadOptions())
        except TableFault as fault:
            return [*fault.lines()]
        amounts = [table.amounts.quantity(row) for row in range(len(table.tails))]
        labels = table.labels or [""] * len(amounts)
        told = (
            *table.notes,
            *sorted(table.others),
            table.amounts.unit,
            table.amounts.sign,
            *table.respelled.items(),
        )
        return [*table.places, *table.tails, *table.heads, *table.lines, *amounts, *labels, *told]


def plain_ones(cells: list[str]) -> list[Plain | None]:
    """What plain cells are, one by one and by numpy."""
    return [plain_of(cells), spanned([["a", cell] for cell in cells])._plain(1)]


@given(
    some.lists(
        some.tuples(some.integers(0, 10**12), some.integers(0, 17)), min_size=1, max_size=8
    ),
    some.sampled_from(".,"),
)
def test_decimals(numbers: list[tuple[int, int]], sign: str) -> None:
    """Each number is exact, also where floats would not have it."""
    cells = [f"{number}".rjust(places + 1, "0") for number, places in numbers]
    cells = [
        f"{cell[: len(cell) - places]}{sign}{cell[len(cell) - places :]}"
        for cell, (_, places) in zip(cells, numbers)
    ]
    wanted = [Fraction(number, 10**places) for number, places in numbers]
    most = max(places for _, places in numbers)
    for plain, is_there in zip(plain_ones(cells), (True, max(wanted) * 10**most < 2**64)):
        if plain is None:
            assert max(map(len, cells)) > 18 or not is_there
            continue
        assert [Fraction(number, 10**plain.decimals) for number in plain.numbers] == wanted
        assert plain.sign == sign and plain.decimals <= most


@given(some.lists(some.text("0123.,", min_size=1, max_size=7), min_size=1, max_size=6))
def test_plain_cells(cells: list[str]) -> None:
    """One by one and by numpy the same cells are plain, with the same numbers, sign and telling
    cell."""
    one, other = plain_ones(cells)
    assert one == (other and Plain([*other.numbers], other.decimals, other.sign, other.telling))


@pytest.mark.parametrize(
    "cells",
    [
        ["1125899906842623.5", "0.5"],
        ["1125899906842624.5", "0.25"],
        ["0.3000000000000004", "1.1"],
        ["9007199254740993.0", "0.1"],
    ],
)
def test_decimals_past_floats(cells: list[str]) -> None:
    for plain in plain_ones(cells):
        assert plain and [Decimal(number).scaleb(-plain.decimals) for number in plain.numbers] == [
            *map(Decimal, cells)
        ]
