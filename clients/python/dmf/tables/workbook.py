"""Sheets of workbooks: `.xlsx` by `xlsx`, and `.ods` by odfpy. A cell that has a number is a
number, with the 15 digits that a workbook shows; a formula counts as what it gave when the workbook
was saved."""

from __future__ import annotations

import contextlib
import datetime
import importlib
import io
import zipfile
from collections.abc import Callable, Iterator
from decimal import Context, Decimal
from functools import partial
from typing import Any

from ..errors import TableFault
from ..quantity import POINT
from .sheet import PIECE, Exact, Rows, Sheet, is_blank, shown_number
from .table_file import TableFile
from .xlsx import Workbook

# The most bytes that a workbook may unpack to.
LARGEST = 1 << 30
XLSX, ODS = "xlsx", "ods"
_SHOWN = Context(prec=15)


def is_workbook(data: bytes) -> bool:
    """Return True if a file is a workbook, or another thing that is packed as one is."""
    return data.startswith(b"PK\x03\x04")


def sheets_of(file: TableFile) -> list[Sheet]:
    """Return the sheets of a workbook that have cells; the path of each ends with its name. Raises
    a `TableFault`."""
    kind = _kind(file.data)
    with _judging(kind):
        of_kind = _xlsx if kind == XLSX else _ods
        sheets = of_kind(file.data, file.path)
    return [sheet for sheet in sheets if _has_cells(sheet)]


def _has_cells(sheet: Sheet) -> bool:
    """Return True if a sheet has cells, or what is wrong with it has to be told."""
    try:
        return any(not is_blank(row) for rows in sheet.read() for row in rows.cells)
    except TableFault:
        return True


def _kind(data: bytes) -> str:
    """Return the kind of a workbook. Raises a `TableFault` if the bytes are not a workbook."""
    try:
        with zipfile.ZipFile(io.BytesIO(data)) as archive:
            names = {member.filename: member.file_size for member in archive.infolist()}
            kind = archive.read("mimetype") if names.get("mimetype", LARGEST) < 200 else b""
    except (zipfile.BadZipFile, OSError, ValueError, RuntimeError) as error:
        raise TableFault(f"it is a damaged zip file or workbook: {error}") from None
    size = sum(names.values())
    if size > LARGEST:
        raise TableFault(f"the workbook unpacks to {size} bytes, and {LARGEST} are the most")
    if kind.startswith(b"application/vnd.oasis.opendocument.spreadsheet"):
        return ODS
    if "xl/workbook.xml" in names:
        return XLSX
    what = (
        "a binary workbook (.xlsb)"
        if "xl/workbook.bin" in names
        else "a text document"
        if "word/document.xml" in names or kind
        else "a zip file"
    )
    raise TableFault(f"it is {what}; a table is a CSV file, or a workbook (.xlsx or .ods)")


def cell_text(value: Any) -> str:
    """Return what a cell has, as a text."""
    if value is None or isinstance(value, str):
        return value or ""
    if isinstance(value, bool):
        return str(value).upper()
    if isinstance(value, (int, Decimal)):
        return (
            Exact(format(value, "f" if isinstance(value, Decimal) else "d"))
            if value - value == 0
            else str(value)
        )
    if isinstance(value, float):
        if value != value:
            return ""
        return (
            Exact(f"{_SHOWN.create_decimal(repr(value)):f}") if value - value == 0 else str(value)
        )
    if isinstance(value, datetime.datetime) and value.time() == datetime.time():
        return value.date().isoformat()
    return "" if str(value) in ("<NA>", "NaT") else str(value)


def cell_texts(values: list[Any]) -> list[str]:
    """Return what the cells of a column have, as `cell_text` does, faster if all are alike."""
    kinds = set(map(type, values))
    if kinds == {str}:
        return values
    if kinds == {int}:
        return [*map(Exact, map(str, values))]
    if kinds == {float}:
        # What has no more digits than a workbook shows stands there as it is.
        most = _SHOWN.prec + len(POINT)
        return [
            Exact(text)
            if len(text) <= most and "e" not in text and "n" not in text
            else cell_text(value)
            for text, value in zip(map(repr, values), values)
        ]
    return [*map(cell_text, values)]


def _xlsx(data: bytes, path: str) -> list[Sheet]:
    book = Workbook.opened(zipfile.ZipFile(io.BytesIO(data)))
    return [
        Sheet(f"{path}#{name}", partial(_whole, XLSX, partial(book.rows, name)))
        for name in book.sheets
    ]


def _whole(kind: str, read: Callable[[], Iterator[Rows]]) -> Iterator[Rows]:
    """Yield the rows that are read. Raises a `TableFault` where the workbook is damaged."""
    with _judging(kind):
        yield from read()


@contextlib.contextmanager
def _judging(kind: str) -> Iterator[None]:
    try:
        yield
    except (TableFault, MemoryError, GeneratorExit, ImportError):
        raise
    except Exception as error:
        raise TableFault(f"the workbook (.{kind}) is damaged: {str(error)[:200]}") from None


def _ods(data: bytes, path: str) -> list[Sheet]:
    opendocument, table = importlib.import_module("odf.opendocument"), importlib.import_module(
        "odf.table"
    )
    book = opendocument.load(io.BytesIO(data))
    sheets = []
    for sheet in book.spreadsheet.getElementsByType(table.Table):
        sheets.append(
            Sheet(
                f"{path}#{sheet.getAttribute('name')}",
                partial(_whole, ODS, partial(_ods_rows, sheet, table)),
            )
        )
    return sheets


def _ods_rows(sheet: Any, table: Any) -> Iterator[Rows]:
    """Yield the rows of a sheet. One that stands for many blank ones is passed over."""
    line = 1
    for row in sheet.getElementsByType(table.TableRow):
        cells: list[str] = []
        for cell in row.childNodes:
            text = _ods_text(cell)
            count = int(cell.getAttribute("numbercolumnsrepeated") or 1)
            cells += [text] * (count if text else min(count, 1024))
        while cells and not cells[-1]:
            cells.pop()
        count = int(row.getAttribute("numberrowsrepeated") or 1)
        if cells:
            yield Rows(
                range(line, line + count), [list(cells) for _ in range(min(count, PIECE * 256))]
            )
        line += count


def _ods_text(cell: Any) -> str:
    """Return what a cell has, as a text."""
    kind = cell.getAttribute("valuetype")
    if kind in ("float", "currency", "percentage"):
        return shown_number(cell.getAttribute("value"))
    if kind == "date":
        return str(cell.getAttribute("datevalue"))
    teletype = importlib.import_module("odf.teletype")
    return "\n".join(teletype.extractText(part) for part in cell.childNodes if part.qname[1] == "p")
