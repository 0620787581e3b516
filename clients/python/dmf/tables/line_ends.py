"""Tables whose rows are lines on a map, as QGIS writes them: a place is where lines end.

A column has the lines in WKT. Where no titles say from which place a row leads to which, the ends
of its line are the places, and their coordinates the names. Ends are one place if they have the
same coordinates, or lie no farther apart than a tolerance that was given."""

from __future__ import annotations

import math
import re
from collections.abc import Iterator, Sequence
from dataclasses import dataclass, field, replace
from decimal import Decimal
from functools import partial
from typing import Optional

from ..errors import TableFault
from ..quantity import plain_text
from .headings import ARCS
from .sheet import Faults, Positions, Rows, Sheet, cell_of, is_blank
from .table_file import ReadOptions
from .title_row import has_places
from .titles import END_OF_LINE, HEAD, START_OF_LINE, TAIL

# What the column of the lines is called where a file has no title for it.
WKT_TITLE = "WKT"
_GEOMETRY = re.compile(
    r"\s*(?:SRID=[0-9]+;)?\s*((?:MULTI)?(?:POINT|LINESTRING|POLYGON|CURVE|SURFACE)|CIRCULARSTRING"
    r"|COMPOUNDCURVE|CURVEPOLYGON|GEOMETRYCOLLECTION)\s*(ZM|Z|M)?\s*(\(|EMPTY)",
    re.IGNORECASE,
)
LINES = {"LINESTRING", "MULTILINESTRING"}
_PART = re.compile(r"\(([^()]*)\)")
_NUMBER = re.compile(r"[+-]?(?:[0-9]+\.?[0-9]*|\.[0-9]+)(?:[eE][+-]?[0-9]{1,2})?")

Point = tuple[Decimal, Decimal]


class LineFault(ValueError):
    """The reason why a cell does not have a line with two ends."""


def wkt_of(parts: Sequence[Sequence[Sequence[str]]]) -> str:
    """Return the WKT of a line of these parts, each of points."""
    told = [f"({', '.join(' '.join(point) for point in part)})" for part in parts]
    if len(told) == 1:
        return f"LINESTRING {told[0]}" if parts[0] else "LINESTRING EMPTY"
    return f"MULTILINESTRING ({', '.join(told)})" if told else "LINESTRING EMPTY"


def ends_of(cell: str) -> tuple[Point, Point]:
    """Return the two ends of a line in WKT. Raises a `LineFault`."""
    found = _GEOMETRY.match(cell)
    kind = found[1].upper() if found else ""
    if found is None or not kind:
        raise LineFault("is not a line in WKT, as in LINESTRING (0 0, 1 1)")
    if kind not in LINES:
        raise LineFault(f"is a {kind}, not a line; give the layer of lines")
    parts = [part.split(",") for part in _PART.findall(cell, found.end(1))]
    if found[3] != "(" or not parts:
        raise LineFault("is a line without points")
    ends = [(_point(part[0]), _point(part[-1])) for part in parts]
    for (_, last), (first, _) in zip(ends, ends[1:]):
        if last != first:
            raise LineFault(
                f"has {len(parts)} parts that do not follow each other; make a row of each part (in"
                " QGIS: Multipart to singleparts)"
            )
    if any(len(part) < 2 for part in parts):
        raise LineFault("is a line with one point")
    return ends[0][0], ends[-1][1]


def _point(text: str) -> Point:
    words = text.split()
    if len(words) < 2 or not all(map(_NUMBER.fullmatch, words[:2])):
        raise LineFault(f"has a point that is not two numbers: {' '.join(words) or 'empty'}")
    return Decimal(words[0]), Decimal(words[1])


def lines_of(sheet: Sheet, reading: ReadOptions) -> Sheet:
    """Return a sheet with the ends of its lines as columns; or the sheet as it is, if it has no
    lines, or titles say where its rows begin and end. Raises a `TableFault` with all rows that have
    no line."""
    named = {reading.titles[column] for column in (TAIL, HEAD) if column in reading.titles}
    found = _found(sheet)
    if found is None or named - {START_OF_LINE, END_OF_LINE} or has_places(found.titles, ARCS):
        if reading.tolerance:
            raise TableFault("--tolerance is for lines on a map, and this has none: leave it out")
        return sheet
    faults = Faults(sheet.path, found.titles, sheet.row_names)
    rows = list(_lines(sheet, found, faults))
    faults.judge()
    places = _Places(reading.tolerance)
    ends = [[places.add(end) for end in both] for both in rows]
    named_places = places.names()
    cells = [
        [cell_of(named_places[end], is_raw=reading.raw_names) for end in both] for both in ends
    ]
    is_globe = sheet.positions is not None and sheet.positions.is_globe
    spots = {name: places.spot(at) for at, name in named_places.items()}
    notes = (*sheet.notes, *places.told(2 * len(rows)))
    read = partial(_with_ends, sheet, found, cells)
    return replace(sheet, read=read, notes=notes, positions=Positions(spots, is_globe))


@dataclass(frozen=True)
class _Geometry:
    """The position of the lines in a sheet: the line of the titles, the titles, and the column."""

    line: int
    titles: list[str]
    column: int


def _found(sheet: Sheet) -> Optional[_Geometry]:
    """Return where the lines stand, if a column has geometry below a title."""
    sample = sheet.sample()
    rows = list(zip(*sample))
    for (line, titles), (_, row) in zip(rows, rows[1:]):
        for column, cell in enumerate(row[: len(titles)]):
            if _GEOMETRY.match(cell) and titles[column].strip():
                return _Geometry(line, titles, column)
    return None


def _has_line(line: int, row: list[str], found: _Geometry) -> bool:
    """Return True if a row has a line on a map, or a fault."""
    return line > found.line and not is_blank(row)


def _lines(sheet: Sheet, found: _Geometry, faults: Faults) -> Iterator[tuple[Point, Point]]:
    """Yield the ends of the line of each row that has one."""
    for rows in sheet.read():
        for line, row in zip(*rows):
            if not _has_line(line, row, found):
                continue
            cell = row[found.column] if found.column < len(row) else ""
            try:
                yield ends_of(cell)
            except LineFault as fault:
                faults.add(f"the geometry {fault}", line, found.column + 1)


def _with_ends(sheet: Sheet, found: _Geometry, ends: list[list[str]]) -> Iterator[Rows]:
    """Yield the rows, with two columns more at the end."""
    width, following = len(found.titles), iter(ends)
    for rows in sheet.read():
        lines, cells = [], []
        for line, row in zip(*rows):
            more = next(following) if _has_line(line, row, found) else []
            if line == found.line:
                more = [START_OF_LINE, END_OF_LINE]
            lines.append(line)
            cells.append([*row, *[""] * (width - len(row)), *more] if more else row)
        yield Rows(lines, cells)


@dataclass
class _Places:
    """The points at which lines end, and the places that they are."""

    tolerance: Decimal
    numbers: dict[Point, int] = field(default_factory=dict)

    def add(self, point: Point) -> int:
        """Take a point in, and return its number."""
        return self.numbers.setdefault(point, len(self.numbers))

    def spot(self, number: int) -> tuple[float, float]:
        """Return where the place of a point lies."""
        x, y = self._points[self._joined[number]]
        return float(x), float(y)

    def names(self) -> dict[int, str]:
        """Return the name of the place of each point, which is that of its first point."""
        self._points = list(self.numbers)
        self._joined = self._join()
        return {
            number: ",".join(map(plain_text, self._points[first]))
            for number, first in enumerate(self._joined)
        }

    def _join(self) -> list[int]:
        """Return for each point the first one of its place."""
        firsts = list(range(len(self._points)))

        def first_of(number: int) -> int:
            while firsts[number] != number:
                firsts[number] = firsts[firsts[number]]
                number = firsts[number]
            return number

        for number, other in _near(self._points, self.tolerance):
            one, two = sorted((first_of(number), first_of(other)))
            firsts[two] = one
        return list(map(first_of, range(len(firsts))))

    def told(self, count: int) -> Iterator[str]:
        """Yield the notes on the places, where `count` is the number of ends of lines."""
        places = len(set(self._joined))
        joined = len(self._joined) - places
        how = f"ends that lie up to {plain_text(self.tolerance)} apart are one place"
        if not self.tolerance:
            how = "only ends with the same coordinates are one place (--tolerance joins others)"
        yield (
            f"places are the ends of lines, and rows lead as lines were drawn: {count} ends are"
            f" {places} places; {how}"
        )
        if self.tolerance:
            told = "1 point was" if joined == 1 else f"{joined} points were"
            yield f"{told} joined to another by the tolerance"


def _near(points: Sequence[Point], tolerance: Decimal) -> Iterator[tuple[int, int]]:
    """Yield the pairs of points that lie no farther apart than a tolerance."""
    if not tolerance:
        return
    fields: dict[tuple[int, int], list[int]] = {}
    for number, (x, y) in enumerate(points):
        column, row = math.floor(x / tolerance), math.floor(y / tolerance)
        for other in (
            other
            for right in (-1, 0, 1)
            for up in (-1, 0, 1)
            for other in fields.get((column + right, row + up), ())
        ):
            across, along = x - points[other][0], y - points[other][1]
            if across * across + along * along <= tolerance * tolerance:
                yield number, other
        fields.setdefault((column, row), []).append(number)
