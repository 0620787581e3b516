"""Shapefiles and dBASE tables, by pyshp: a row for each record, with its line in WKT."""

from __future__ import annotations

import contextlib
import importlib
import io
import os
from collections.abc import Iterator, Sequence
from functools import partial
from typing import Any

from ..errors import TableFault
from ..text.spelling import quoted_name
from .line_ends import WKT_TITLE, wkt_of
from .other_kinds import SHAPES
from .sheet import Positions, Rows, Sheet, text_cell
from .table_file import TableFile
from .text_bytes import encoding_of
from .workbook import cell_text

# What the .prj of a map in degrees begins with.
_GLOBES = b"GEOGCS", b"GEOGCRS"
# The shapes that are lines, and one that is empty.
_LINES, _NO_SHAPE = {3, 13, 23}, 0
# What the .cpg says for Windows-1252 and the like: a number alone.
_NUMBERED = "cp{}"


def is_one(file: TableFile) -> bool:
    """Return True if a file is the .shp of a shapefile, or a dBASE table."""
    is_shape = file.data.startswith(SHAPES) and file.ending not in (".shx", "")
    return is_shape or file.ending == ".shp" or file.ending == ".dbf" and b"\0" in file.data[:32]


def sheets_of(file: TableFile) -> list[Sheet]:
    """Return the records of a shapefile with their lines, or those of a dBASE table. Raises a
    `TableFault`."""
    if file.ending != ".dbf":
        return [_shapes(file)]
    if shapes := file.beside(".shp"):
        name = quoted_name(os.path.basename(shapes))
        raise TableFault(f"it is the table of a shapefile (.dbf); give {name}")
    encoding, notes = _encoding(file, file.data)
    with _judging("dBASE table"), _opened(encoding, dbf=file.data) as reader:
        titles = _titles(reader)
        rows = [_cells(record, file) for record in reader.iterRecords()]
    return [_sheet(file, [titles, *rows], notes)]


def _shapes(file: TableFile) -> Sheet:
    table = file.beside(".dbf")
    if not table:
        name = os.path.basename(os.path.splitext(file.path)[0])
        raise TableFault(
            f"its table, {quoted_name(f'{name}.dbf')}, does not stand beside it; a shapefile is"
            " several files of one name"
        )
    data = file.read(table)
    encoding, notes = _encoding(file, data)
    with _judging("shapefile"), _opened(encoding, shp=file.data, dbf=data) as reader:
        titles = [*_titles(reader), WKT_TITLE]
        records = [_cells(record, file) for record in reader.iterRecords()]
        shapes = [_wkt(shape) for shape in reader.iterShapes()]
    if len(records) != len(shapes):
        raise TableFault(f"it has {len(shapes)} lines, and its table {len(records)} rows")
    rows = [[*cells, shape] for cells, shape in zip(records, shapes)]
    projection = file.beside(".prj")
    is_globe = bool(projection) and file.read(projection).lstrip().startswith(_GLOBES)
    return _sheet(file, [titles, *rows], notes, Positions({}, is_globe))


def _encoding(file: TableFile, table: bytes) -> tuple[str, list[str]]:
    """Return the encoding of a table: the one that was given, that of its .cpg, or the one that is
    found."""
    if file.encoding:
        return file.encoding, []
    if path := file.beside(".cpg"):
        name = file.read(path).decode("ascii", "replace").strip()
        for word in (name, _NUMBERED.format(name.rpartition(" ")[2])):
            with contextlib.suppress(LookupError, ValueError):
                "A".encode(word)
                return word, []
        raise TableFault(f"its .cpg names no encoding that is known: {quoted_name(name)}")
    # The head of the table has bytes that are not text.
    body = table[int.from_bytes(table[8:10], "little") :]
    found, note = encoding_of(body.replace(b"\0", b" "))
    return (
        found,
        ["the table is not UTF-8, and is read as Windows-1252; --encoding names another"]
        if note
        else [],
    )


def _opened(encoding: str, **parts: bytes) -> Any:
    package = importlib.import_module("shapefile")
    files = {name: io.BytesIO(data) for name, data in parts.items()}
    return package.Reader(**files, encoding=encoding)


@contextlib.contextmanager
def _judging(what: str) -> Iterator[None]:
    """Raise a `TableFault` where a file is damaged."""
    try:
        yield
    except (TableFault, MemoryError, ImportError):
        raise
    except Exception as error:
        why = str(error)[:200] or type(error).__name__
        raise TableFault(f"the {what} is damaged: {why}") from None


def _titles(reader: Any) -> list[str]:
    return [str(field[0]) for field in reader.fields if field[0] != "DeletionFlag"]


def _cells(record: Sequence[Any], file: TableFile) -> list[str]:
    is_raw = file.reading.raw_names
    return [
        text_cell(value.strip("\0 "), is_raw=is_raw) if isinstance(value, str) else cell_text(value)
        for value in record
    ]


def _wkt(shape: Any) -> str:
    if shape.shapeType == _NO_SHAPE:
        return "LINESTRING EMPTY"
    if shape.shapeType not in _LINES:
        kind = shape.shapeTypeName.removesuffix("Z").removesuffix("M")
        return f"{'POINT' if 'POINT' in kind else 'POLYGON'} EMPTY"
    points = [[repr(float(number)) for number in point[:2]] for point in shape.points]
    ends = [*shape.parts[1:], len(points)]
    return wkt_of([points[begin:end] for begin, end in zip(shape.parts, ends)])


def _sheet(
    file: TableFile, rows: list[list[str]], notes: list[str], positions: Positions | None = None
) -> Sheet:
    """Return a sheet whose titles are in line 1, and its records below them."""
    lines = range(1, len(rows) + 1)
    return Sheet(file.path, partial(_read, lines, rows), tuple(notes), positions=positions)


def _read(lines: Sequence[int], rows: list[list[str]]) -> Iterator[Rows]:
    yield Rows(lines, [list(cells) for cells in rows])
