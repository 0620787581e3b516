"""Names files of kinds that have no table, or that lie beside one that has."""

from __future__ import annotations

import os
import re

from ..errors import TableFault
from ..text.lexical import fields
from ..text.spelling import quoted_name

# What files of other kinds begin with.
STARTS = {
    b"\x1f\x8b": "a gzip file",
    b"BZh": "a bzip2 file",
    b"\xfd7zXZ": "an xz file",
    b"\x28\xb5\x2f\xfd": "a zstd file",
    b"7z\xbc\xaf": "a 7z archive",
    b"Rar!": "a RAR archive",
    b"PK\x03\x04": "a zip file",
    b"%PDF": "a PDF document",
    b"\x89PNG": "a picture",
    b"\xff\xd8\xff": "a picture",
    b"GIF8": "a picture",
    b"PAR1": "a Parquet file",
    b"SQLite format 3": "a database of SQLite",
    b"\x7fELF": "a program",
    b"{\\rtf": "a document (RTF)",
    b"\xd0\xcf\x11\xe0": "an Excel workbook of before 2007, or one with a password",
}
# What the database of a GeoPackage has among its first bytes.
_GEOPACKAGE = b"GPKG", b"GP10", b"GP11"
# The files beside the .shp of a shapefile, by their endings, and how those begin that are told by
# their bytes.
SHAPES = b"\0\0\x27\x0a"
SISTERS = {
    ".shx": "the index of a shapefile (.shx)",
    ".prj": "the projection of a shapefile (.prj)",
    ".cpg": "the encoding of a shapefile (.cpg)",
    ".sbn": "an index of a shapefile (.sbn)",
    ".sbx": "an index of a shapefile (.sbx)",
    ".qix": "an index of a shapefile (.qix)",
    ".qpj": "the projection of a shapefile (.qpj)",
}
# What EPANET writes beside a network, by what it has among its first bytes.
RESULTS = {
    b"YH\xc3\x1e": "the results of a run of EPANET",
    b"E P A N E T": "the report of a run of EPANET",
}
PROBLEMS = {
    b"max": "a max-flow problem",
    b"min": "a min-cost problem",
    b"sp": "a shortest-path problem",
    b"asn": "an assignment problem",
}
WANTED = "a table is a CSV file, or a workbook (.xlsx or .ods)"
_MARKUP = re.compile(rb"\s*(?:<\?xml|<!doctype|<html|\{\s*\"|\[\s*[\[{])", re.IGNORECASE)
# Kinds of these that networks come in, by what is in the first bytes.
MARKUPS = {
    b'"FeatureCollection"': "a GeoJSON file",
    b"<graphml": "a GraphML file",
    b"<gexf": "a GEXF file",
    b"<kml": "a KML file",
    b"<gml": "a GML file",
}
# The names of files that Excel and LibreOffice put beside one that is open in them.
_LOCK = re.compile(r"~\$(.+)|\.~lock\.(.+)#")


def refuse_other_kinds(data: bytes, path: str) -> None:
    """Raise a `TableFault` that names the kind of a file which is not a CSV file."""
    if mark := _LOCK.fullmatch(os.path.basename(path)):
        raise TableFault(
            f"it only marks that a program has {quoted_name(mark[1] or mark[2])} open: name that "
            "file"
        )
    if sister := SISTERS.get(os.path.splitext(path)[1].lower()):
        raise TableFault(f"it is {sister}; give the .shp")
    head = data[:2048]
    if what := next((what for mark, what in RESULTS.items() if mark in head), ""):
        raise TableFault(f"it is {what}; give the .inp")
    if what := _other_kind(data):
        raise TableFault(f"it is {what}; {WANTED}")


def is_part_of(path: str, shapes: str) -> bool:
    """Return True if by their names one file is a part of the shapefile whose .shp is the other."""
    (stem, ending), (other, of_shapes) = os.path.splitext(path), os.path.splitext(shapes)
    is_part = ending.lower() == ".dbf" or ending.lower() in SISTERS
    return is_part and stem == other and of_shapes.lower() == ".shp"


def markup_of(data: bytes) -> str:
    """Return the kind of a file of XML, HTML or JSON; empty if these bytes begin none."""
    if not _MARKUP.match(data):
        return ""
    usual = "a page of HTML or XML" if data.lstrip()[:1] == b"<" else "a JSON file"
    return next((what for mark, what in MARKUPS.items() if mark in data[:4096]), usual)


def _other_kind(data: bytes) -> str:
    """Return what a file of another kind is."""
    if data.startswith(b"SQLite format 3") and any(mark in data[:100] for mark in _GEOPACKAGE):
        return "a GeoPackage (.gpkg); export its layer as GeoJSON, or as CSV with WKT"
    what = next((what for mark, what in STARTS.items() if data.startswith(mark)), "")
    if what or not data:
        return what
    if data.startswith(SHAPES):
        return "a part of a shapefile, which ends in .shp or .shx"
    if what := markup_of(data):
        return what
    head = (fields(line) for line in data[:4096].split(b"\n"))
    first: list[bytes] = next((found for found in head if found and found[0] != b"c"), [])
    if len(first) == 4 and first[0] == b"p" and all(it.strip(b"\r").isdigit() for it in first[2:]):
        return PROBLEMS.get(first[1], "a problem of the DIMACS format")
    if len(first) == 2 and first[0] == b"s" and first[1].isdigit():
        return "a solution"
    return ""
