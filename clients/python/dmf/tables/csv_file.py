"""From the bytes of a file to rows of cells: tables of comma-separated values in any usual
encoding.

Commas, semicolons, tabs or bars separate columns, whichever fits the first rows best. A row with
quoted ends of lines goes by its first line.
"""

from __future__ import annotations

import codecs
import contextlib
import csv
import io
import re
from collections.abc import Callable, Iterator, Sequence
from functools import partial
from itertools import islice
from typing import TYPE_CHECKING, Any, NamedTuple, Optional

from ..errors import TableFault
from ..quantity import readings
from ..session.column_texts import numpy_for
from .other_kinds import refuse_other_kinds
from .sheet import DELIMITERS, PIECE, Rows, Sheet
from .table_file import TableFile
from .text_bytes import SAMPLE_BYTES, encoding_of, judge_bytes

if TYPE_CHECKING:
    from .numpy_rows import Spans

# The same in bytes where rows have no quotes; and encodings in which the byte of an end of a line
# is nothing else, with what they are after the first bytes.
PIECE_BYTES = 1 << 16
BARE_ENCODINGS = {"utf-8": "utf-8", "utf-8-sig": "utf-8", "cp1252": "cp1252"}
# The same where numpy reads them, and of how many lines a table is worth it.
LARGE_PIECE_BYTES, LEAST_LINES = 1 << 24, 10_000
_SEPARATOR = re.compile(rb"(?:\xef\xbb\xbf)?sep=([,;\t|])\r?\n", re.IGNORECASE)
_LINE_END = re.compile("\r\n|\r|\n")


def sheets_of(file: TableFile) -> list[Sheet]:
    """Return the table of a CSV file. Raises a `TableFault`."""
    return [csv_sheet(file.data, file.path, file.encoding, file.width)]


def csv_sheet(data: bytes, path: str, encoding: Optional[str], width: int) -> Sheet:
    """Return the table in the bytes of a CSV file, which has at least `width` columns. Raises a
    `TableFault`."""
    refuse_other_kinds(data, path)
    found, note = (encoding, "") if encoding else encoding_of(data)
    skipped = _SEPARATOR.match(data)
    body = data[skipped.end() :] if skipped else data
    delimiter = skipped[1].decode() if skipped else _delimiter_of(data[:SAMPLE_BYTES], found, width)
    return Sheet(
        path, _reader(body, found, delimiter, 2 if skipped else 1), (note,) if note else ()
    )


def _rows_of(data: bytes, encoding: str, delimiter: str, line: int = 1) -> Iterator[Rows]:
    """Yield the rows of a table, some thousands at once, blank ones too. Raises a `TableFault` if a
    quote is wrong, or a byte."""
    return _reader(data, encoding, delimiter, line)()


def _reader(data: bytes, encoding: str, delimiter: str, line: int) -> Callable[[], Iterator[Rows]]:
    """Return what reads the rows, as often as it is called."""
    if encoding not in BARE_ENCODINGS or not _is_bare(data):
        return partial(_quoted_rows, data, encoding, delimiter, line)
    count = data.count(b"\n")
    np = numpy_for(count) if count >= LEAST_LINES else None
    return partial(_bare_rows, data, encoding, delimiter, line, np)


def _quoted_rows(data: bytes, encoding: str, delimiter: str, line: int) -> Iterator[Rows]:
    """Yield the rows of a table that has quotes, or other odd bytes."""
    csv.field_size_limit(max(csv.field_size_limit(), len(data) + 1))
    reader = csv.reader(
        io.TextIOWrapper(io.BytesIO(data), encoding, newline=""), delimiter=delimiter, strict=True
    )
    cells: list[list[str]] = [[]]
    while cells:
        cells, before, fault = [], reader.line_num, None
        try:
            cells += islice(reader, PIECE)
        except csv.Error as error:
            fault = _quote_fault(str(error))
        except UnicodeError:
            judge_bytes(data, encoding)
            raise
        lines: Sequence[int] = range(line, line + len(cells))
        if fault or reader.line_num - before != len(cells):
            lines = [line]
            lines += [line := line + _line_count(row) for row in cells]
            line = lines.pop()
        else:
            line += len(cells)
        yield Rows(lines, cells)
        if fault:
            raise TableFault(fault, line)


def _is_bare(data: bytes) -> bool:
    """Return True if no quote, no other end of a line and no NUL is in a table."""
    return (
        b'"' not in data
        and b"\0" not in data
        and (b"\r" not in data or data.count(b"\r") == data.count(b"\r\n"))
    )


def _bare_rows(data: bytes, encoding: str, delimiter: str, line: int, np: Any) -> Iterator[Rows]:
    """Yield the same of a table without quotes, in which each line is a row, and each delimiter is
    between two cells: by numpy where it is there and the table is long. The first rows come alone,
    since a table is looked at before it is read."""
    begin, size = 0, PIECE_BYTES if np is not None else len(data)
    while begin < len(data):
        end = data.find(b"\n", begin + size) + 1 or len(data)
        spans = (
            None
            if begin == 0
            else _spans(np, Block(data, begin, end, BARE_ENCODINGS[encoding], delimiter, line))
        )
        for rows in (
            [spans]
            if spans
            else small_rows(
                data[begin:end],
                encoding if begin == 0 else BARE_ENCODINGS[encoding],
                delimiter,
                line,
            )
        ):
            line += len(rows)
            yield rows
        begin, size = end, LARGE_PIECE_BYTES


class Block(NamedTuple):
    """Whole lines of a table without quotes, from one byte of its file to another; `line` is the
    number of the first."""

    file: bytes
    begin: int
    end: int
    encoding: str
    delimiter: str
    line: int

    @property
    def data(self) -> bytes:
        """Return the bytes of the lines."""
        return self.file[self.begin : self.end]

    def from_byte(self, begin: int) -> Block:
        """Return the lines from the second one on, which begins at this byte of the file."""
        return self._replace(begin=begin, line=self.line + 1)

    def rows(self) -> Iterator[Rows]:
        """Yield the rows, some thousands at once."""
        return small_rows(self.data, self.encoding, self.delimiter, self.line)

    def column(self, place: int) -> list[str]:
        """Return the cells of a column."""
        return [cell for rows in self.rows() for cell in rows.column(place)]


def _spans(np: Any, block: Block) -> Optional[Spans]:
    from .numpy_rows import spans_of

    with contextlib.suppress(UnicodeError):
        # The bytes are judged here, and no text is kept.
        if (data := block.data).isascii() or data.decode(block.encoding):
            return spans_of(np, block)
    return None


def small_rows(data: bytes, encoding: str, delimiter: str, line: int) -> Iterator[Rows]:
    """Yield the rows of a table without quotes, some thousands at once: column by column where all
    lines have as many, which is twice as fast as a reader of CSV."""
    begin = (
        len(codecs.BOM_UTF8) if encoding == "utf-8-sig" and data.startswith(codecs.BOM_UTF8) else 0
    )
    while begin < len(data):
        end = data.find(b"\n", begin + PIECE_BYTES) + 1 or len(data)
        try:
            text = data[begin:end].decode(BARE_ENCODINGS[encoding])
        except UnicodeError:
            judge_bytes(data, encoding)
            raise
        text = text.replace("\r\n", "\n").removesuffix("\n")
        rows = text.split("\n")
        lines = range(line, line + len(rows))
        widths = {row.count(delimiter) + 1 for row in rows}
        if len(widths) == 1 and all(rows):
            (width,) = widths
            cells = text.replace("\n", delimiter).split(delimiter)
            yield Rows(lines, None, [cells[place::width] for place in range(width)])
        else:
            yield Rows(lines, [row.split(delimiter) if row else [] for row in rows])
        begin, line = end, lines.stop


def _line_count(row: list[str]) -> int:
    return 1 + sum(len(_LINE_END.findall(cell)) for cell in row if "\n" in cell or "\r" in cell)


def _quote_fault(said: str) -> str:
    if "NUL" in said:
        return "a cell has the character U+0000, which no cell may have"
    return (
        "a quote is not closed"
        if "end of data" in said
        else "a quote inside quotes is not written twice"
    )


def _delimiter_of(data: bytes, encoding: str, width: int) -> str:
    """Return the delimiter with which most of the first rows have at least `width` columns; of
    several, the one with which most of their cells are numbers."""
    # A letter may be cut at the end of these bytes.
    text = data.decode(encoding, "replace").encode("utf-8", "replace")

    def score(delimiter: str) -> tuple[int, int, int]:
        sample = Sheet("", lambda: _rows_of(text, "utf-8", delimiter)).sample().cells
        cells = [cell for row in sample for cell in row]
        return (
            sum(len(row) >= width for row in sample),
            sum(bool(readings(cell)) for cell in cells),
            len(cells),
        )

    return max(DELIMITERS, key=score)
