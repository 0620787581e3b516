"""The table of a map, which says where the places of a network lie, in a plane or on the globe."""

from __future__ import annotations

from collections.abc import Iterator, Sequence
from typing import NamedTuple

from ...errors import TableFault
from ...files import read_file
from ...quantity import POINT, readings
from ...tables.file_kinds import sheets_of
from ...tables.loader import split_path
from ...tables.sheet import Faults, Sheet, naming
from ...tables.table_file import TableFile
from ...tables.titles import PLACE, USUAL, title_of
from ...text.spelling import cleaned, quoted_name
from ...text.table_comments import listed
from ..pictures.layout import Spot
from ..pictures.map_spots import Map, spots_on
from ..project.scenarios import Scenarios
from ..workspace import Desk

# The usual titles of columns to the right and upwards: of a plane, and of the globe.
PLANE = ("x easting east rechtswert".split(), "y northing north hochwert".split())
GLOBE = ("lon longitude long lng".split(), "lat latitude".split())
# The most degrees to the right and upwards.
DEGREES = 180, 90


class NoMap(TableFault):
    """The refusal of a table of places that does not say where they lie."""


class _MapColumns(NamedTuple):
    """The columns of a map: the place, and how far it lies to the right and upwards."""

    place: int
    right: int
    up: int
    is_globe: bool


def read_map(path: str, sign: str = "", encoding: str | None = None) -> Map:
    """Return the map in a table of places; `sign` is its decimal sign, if that is known. Raises a
    `TableFault` that names all rows that cannot be read, and a `FileFault` if the file cannot be
    read."""
    told, name = split_path(path)
    data = read_file(told)
    with naming(told):
        sheet = _sheet(data, told, name, encoding)
        rows = [
            (line, row)
            for piece in sheet.read()
            for line, row in zip(*piece)
            if any(map(cleaned, row))
        ]
        if not rows:
            raise TableFault("the table has no row")
        columns = _columns_of(rows[0][1], rows[0][0])
        return Map(_spots(rows[1:], columns, sign, sheet.path), columns.is_globe)


def _sheet(data: bytes, path: str, name: str, encoding: str | None) -> Sheet:
    found = [
        sheet
        for sheet in sheets_of(TableFile(data, path, encoding))
        if not name or sheet.path.rpartition("#")[2] == name
    ]
    if len(found) != 1:
        several = "which sheet is it? Name one after the file, as in places.xlsx#Sheet"
        raise TableFault(several if found else f"no sheet is called {quoted_name(name)}")
    return found[0]


def _columns_of(titles: Sequence[str], line: int) -> _MapColumns:
    words = [title_of(title).word for title in titles]

    def first(usual: Sequence[str]) -> int:
        return next((place for place, word in enumerate(words) if word in usual), -1)

    for is_globe, (right, up) in (False, PLANE), (True, GLOBE):
        found = _MapColumns(first(USUAL[PLACE]), first(right), first(up), is_globe)
        if min(found[:3]) >= 0:
            return found
    raise NoMap(
        "a map has the columns place, x and y, or place, lon and lat; here are "
        f"{', '.join(map(quoted_name, titles))}",
        line,
    )


def _spots(
    rows: Sequence[tuple[int, list[str]]], columns: _MapColumns, sign: str, path: str
) -> dict[str, Spot]:
    faults = Faults(path)
    sign = sign or _sign_of([row[at] for _, row in rows for at in columns[1:3] if at < len(row)])
    spots: dict[str, Spot] = {}
    for line, row in rows:
        cells = [row[at] if at < len(row) else "" for at in columns[:3]]
        name, numbers = cleaned(cells[0]), [readings(cell).get(sign) for cell in cells[1:]]
        for number, at, most in zip(numbers, columns[1:3], DEGREES):
            if number is None or columns.is_globe and abs(number) > most:
                why = "is not a number" if number is None else f"is past {most} degrees"
                faults.add(f"{quoted_name(row[at] if at < len(row) else '')} {why}", line, at + 1)
        if not name or name in spots:
            faults.add(
                "a place has no name"
                if not name
                else f"the place {quoted_name(name)} stands twice",
                line,
                columns.place + 1,
            )
        elif all(number is not None for number in numbers):
            spots[name] = Spot(*(float(number) for number in numbers if number is not None))
    faults.judge()
    if not spots:
        raise TableFault("the table has titles, and no row below them")
    return spots


def _sign_of(cells: Sequence[str]) -> str:
    """Return the decimal sign of all cells. Raises a `TableFault` if they leave it open."""
    found = [one for one in map(readings, cells) if one]
    fitting = [sign for sign in (POINT, ",") if all(sign in one for one in found)]
    if len(fitting) == 2 and any(len(set(one.values())) > 1 for one in found):
        cell = next(cell for cell in cells if len(set(readings(cell).values())) > 1)
        raise TableFault(
            f"{quoted_name(cell)} can be read in two ways; say --decimal . or --decimal ,"
        )
    return fitting[0] if fitting else POINT


def placed(desk: Desk, given: Map) -> tuple[dict[int, Spot], list[str]]:
    """Return the spots of the desk's places in a picture, by their nodes, and notes on the map."""
    found = spots_on(desk, given)
    if not found:
        raise TableFault("no place of the map is one of the network")
    return found, list(_notes(desk, given, len(found)))


def _notes(desk: Desk, given: Map, count: int) -> Iterator[str]:
    missing = [name for name in desk.network.names.places if name not in given.spots]
    if missing:
        yield (
            f"{len(missing)} places are not on the map, as {quoted_name(missing[0])}: each lies "
            "near its neighbours"
        )
    unknown = len(given.spots) - count
    if unknown:
        yield f"{unknown} places of the map are none of the network"
    project = Scenarios.of(desk)
    if project and project.project.moved:
        yield f"the map takes back what was moved by hand: {listed(project.project.moved)}"
