"""The kinds of files that have tables: how each is told from the others, and what reads it."""

from __future__ import annotations

from collections.abc import Callable, Sequence
from typing import NamedTuple, Optional

from ..errors import TableFault
from . import (
    contents,
    csv_file,
    epanet,
    epanet_sections,
    geojson,
    graph_files,
    shapefiles,
    workbook,
)
from .sheet import Sheet
from .table_file import Content, TableFile


class Package(NamedTuple):
    """A package that a reader needs: its name for pip, and that of Debian."""

    name: str
    debian: str


class FileKind(NamedTuple):
    """A kind of file: what messages call it, the endings of such files, whether a file is one, what
    reads it, and the package that this needs, with what to do without. `settings` are the options
    that no other kind reads. `contents` returns the parts of a file, given its sheets, as far as
    they could be read, and the sheet of the arcs, if that is known."""

    what: str
    endings: tuple[str, ...]
    is_one: Callable[[TableFile], bool]
    read: Callable[[TableFile], list[Sheet]]
    package: Package = Package("", "")
    instead: str = ""
    settings: tuple[str, ...] = ()
    contents: Callable[[TableFile, Sequence[Sheet], Optional[Sheet]], list[Content]] = contents.none


CSV = FileKind("a CSV file", (".csv", ".tsv"), lambda file: True, csv_file.sheets_of)
# A file is of the first kind that it can be.
KINDS = [
    FileKind(
        "a network of EPANET",
        (".inp",),
        epanet_sections.is_one,
        epanet.sheets_of,
        settings=("velocity", "tanks"),
        contents=epanet.contents_of,
    ),
    FileKind(
        "a GeoJSON file",
        (".geojson",),
        geojson.is_one,
        geojson.sheets_of,
        contents=contents.of_map,
    ),
    FileKind(
        "a shapefile",
        (".shp", ".dbf"),
        shapefiles.is_one,
        shapefiles.sheets_of,
        Package("pyshp", "python3-pyshp"),
        "export the layer as GeoJSON",
        contents=contents.of_map,
    ),
    FileKind(
        "a GraphML file or an edge list",
        (".graphml", ".edgelist", ".edges"),
        graph_files.is_one,
        graph_files.sheets_of,
        Package("networkx", "python3-networkx"),
        "save the edges as CSV",
    ),
    FileKind(
        "a workbook (.ods)",
        (".xlsx", ".ods"),
        lambda file: workbook.is_workbook(file.data),
        workbook.sheets_of,
        Package("odfpy", "python3-odf"),
        "save the sheet as CSV",
        contents=contents.of_sheets,
    ),
    CSV,
]


def kind_of(file: TableFile) -> FileKind:
    """Return the kind of a file."""
    return next(kind for kind in KINDS if kind.is_one(file))


def has_table(file: TableFile) -> bool:
    """Return True if a file is of a kind of its own, or its name ends as that of a table."""
    kind = kind_of(file)
    return kind is not CSV or file.path.endswith(CSV.endings)


def refuse_settings(file: TableFile) -> None:
    """Raise a `TableFault` if an option was given that files of this kind do not read."""
    read_here = kind_of(file).settings
    for other in KINDS:
        for option in other.settings:
            if getattr(file.reading, option) and option not in read_here:
                raise TableFault(
                    f"--{option} is for {other.what}, and this is {kind_of(file).what}: leave it"
                    " out"
                )


def sheets_of(file: TableFile) -> list[Sheet]:
    """Return the sheets of a file, of which a CSV file has one. Raises a `TableFault`."""
    kind = kind_of(file)
    try:
        return kind.read(file)
    except ImportError:
        name, debian = kind.package
        raise TableFault(
            f"{kind.what} needs the package {name}, which is not installed (pip install {name}, or"
            f" apt install {debian}); or {kind.instead}"
        ) from None
