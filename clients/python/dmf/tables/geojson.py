"""Lines in GeoJSON: a row for each feature, with its properties and its line in WKT."""

from __future__ import annotations

import json
import re
from collections.abc import Iterator, Mapping, Sequence
from decimal import Decimal
from functools import partial
from itertools import count
from typing import Any, NamedTuple

from ..errors import TableFault
from ..text.spelling import cleaned, quoted_name
from .line_ends import WKT_TITLE, wkt_of
from .other_kinds import markup_of
from .sheet import Positions, Rows, Sheet, text_cell
from .table_file import TableFile
from .text_bytes import text_of
from .title_row import LONGEST_LEFT
from .titles import NAME, USUAL, folded
from .workbook import cell_text

_FEATURES = re.compile(r'"features"\s*:\s*\[')
_BLANK = re.compile(r"[\s,]*")
# The most characters of a number that stands in a cell as digits alone.
LONGEST_DIGITS = 60


class Feature(NamedTuple):
    """A feature: its number, the line of the file in which it begins, whether it is the first one
    there, its properties and its geometry, and what messages call it."""

    number: int
    line: int
    has_line: bool
    properties: dict[str, Any]
    geometry: dict[str, Any]
    name: str

    def fault(self, reason: str) -> TableFault:
        """Return a fault of this feature."""
        return _fault(reason, self.line, "" if self.has_line else self.name)


def is_one(file: TableFile) -> bool:
    """Return True if a file is one of GeoJSON."""
    return file.ending == ".geojson" or markup_of(file.data) == "a GeoJSON file"


def sheets_of(file: TableFile) -> list[Sheet]:
    """Return the lines of a file of GeoJSON. Raises a `TableFault`."""
    text, notes = text_of(file.data, file.encoding)
    features = list(_features(text))
    if not features:
        raise TableFault("the file has no feature")
    titles = list(dict.fromkeys(key for feature in features for key in feature.properties))
    # The titles are taken for the first line, so that no feature stands there. Where some features
    # share a line, all are counted, and are told by their numbers.
    rows = [(1, [*titles, WKT_TITLE])]
    is_counted = not all(feature.has_line for feature in features)
    names = {feature.number + 1: feature.name for feature in features} if is_counted else {}
    is_raw = file.reading.raw_names
    for feature in features:
        cells = [_cell(feature.properties.get(title), is_raw=is_raw) for title in titles]
        line = feature.number + 1 if is_counted else feature.line
        rows.append((line, [*cells, _wkt(feature)]))
    # Without a member that names another system, coordinates are degrees.
    is_globe = '"crs"' not in text[: _FEATURES.search(text).start()]  # type: ignore[union-attr]
    read = partial(_read, rows)
    places = Positions({}, is_globe)
    return [Sheet(file.path, read, tuple(notes), positions=places, row_names=names)]


def _features(text: str) -> Iterator[Feature]:
    """Yield the features of a collection. Raises a `TableFault` with the line of what is wrong, and
    with the feature if it shares its line."""
    begin = _FEATURES.search(text)
    if begin is None:
        raise TableFault("a collection of features is expected, and the file has none")
    decoder = json.JSONDecoder(parse_float=Decimal)
    at, line, counted, last = begin.end(), 1, 0, 1
    for number in count(1):
        at = _BLANK.match(text, at).end()  # type: ignore[union-attr]
        line, counted = line + text.count("\n", counted, at), at
        if text[at : at + 1] == "]":
            return
        try:
            feature, at = decoder.raw_decode(text, at)
        except (ValueError, RecursionError) as error:
            where = error.lineno if isinstance(error, json.JSONDecodeError) else line
            is_end = not text[getattr(error, "pos", 0) :].strip() or at >= len(text)
            why = "it ends in the middle of a feature" if is_end else str(error).partition(":")[0]
            name = f"feature {number}" if line == last and text[at:].strip() else ""
            if name and isinstance(error, json.JSONDecodeError):
                why += f", at character {error.colno} of line {where}"
            raise _fault(f"the JSON is damaged: {why}", where, name) from None
        yield _feature(feature, number, line, line > last)
        last = line


def _feature(found: Any, number: int, line: int, has_line: bool) -> Feature:
    name = "" if has_line else f"feature {number}"
    if not isinstance(found, dict) or found.get("type") != "Feature":
        raise _fault("a feature is expected", line, name)
    properties, geometry = found.get("properties") or {}, found.get("geometry") or {}
    if not isinstance(properties, dict) or not isinstance(geometry, dict):
        reason = "the properties or the geometry of the feature are not an object"
        raise _fault(reason, line, name)
    return Feature(number, line, has_line, properties, geometry, _name(number, found, properties))


def _fault(reason: str, line: int, name: str) -> TableFault:
    """Return a fault in a line, which is told by a name if there is one."""
    fault = TableFault(reason, line)
    fault.row_names = {line: name} if name else {}
    return fault


def _name(number: int, found: Mapping[str, Any], properties: Mapping[str, Any]) -> str:
    """Return what messages call a feature: its number, and its name or its own number if it has
    one."""
    names = [properties[key] for word in USUAL[NAME] for key in properties if folded(key) == word]
    texts = [str(it) for it in (*names, found.get("id")) if isinstance(it, (str, int))]
    own = next(filter(None, map(cleaned, texts)), "")
    return f"feature {number} {quoted_name(own[:LONGEST_LEFT])}" if own else f"feature {number}"


def _cell(value: Any, *, is_raw: bool) -> str:
    """Return the cell of a property."""
    if isinstance(value, (list, dict)):
        return json.dumps(value, default=str, ensure_ascii=False)
    if isinstance(value, str):
        return text_cell(value, is_raw=is_raw)
    is_long = isinstance(value, Decimal) and abs(value.adjusted()) > LONGEST_DIGITS
    return str(value) if is_long else cell_text(value)


def _wkt(feature: Feature) -> str:
    kind, points = feature.geometry.get("type"), feature.geometry.get("coordinates")
    if kind not in ("LineString", "MultiLineString"):
        return f"{str(kind or 'GEOMETRYCOLLECTION').upper()} EMPTY"
    parts: Any = [points] if kind == "LineString" else points
    try:
        return wkt_of([[_point(point) for point in part] for part in parts])
    except (TypeError, ValueError, IndexError):
        reason = f"the coordinates of the {quoted_name(str(kind))} are not pairs of numbers"
        raise feature.fault(reason) from None


def _point(point: Any) -> Sequence[str]:
    if any(isinstance(number, (bool, str)) for number in point[:2]):
        raise ValueError("not numbers")
    x, y = point[:2]
    return [f"{Decimal(x):f}" if Decimal(x).is_finite() else str(x) for x in (x, y)]


def _read(rows: Sequence[tuple[int, list[str]]]) -> Iterator[Rows]:
    yield Rows([line for line, _ in rows], [list(cells) for _, cells in rows])
