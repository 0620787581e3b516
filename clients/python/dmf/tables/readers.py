"""From rows to columns: the number of the place that each cell names, and the amounts."""

from __future__ import annotations

import sys
import unicodedata
from array import array
from collections import defaultdict
from collections.abc import Mapping, Sequence
from dataclasses import dataclass, field
from itertools import count, islice
from typing import Any, NamedTuple, Optional, Union

from ..errors import TableFault
from ..text.both_ways import TwoWayArcs
from ..text.lexical import NODES
from ..text.spelling import cleaned, quoted_name
from .amount_columns import Amounts
from .column_finder import layout_of
from .headings import Form, Layout, unit_of
from .sheet import SAMPLE, Faults, Rows, Sheet, called_row, is_blank, name_in
from .table_file import ReadOptions

# The most characters of a cell. A longer one mostly has a quote that is not closed.
LONGEST_CELL = 131_072


def name_of(cell: str, *, is_raw: bool = False) -> str:
    """Return the name in a cell. Raises a ValueError if it has a control character, or half a
    character."""
    name = cleaned(name_in(cell.strip(), is_raw=is_raw))
    for letter in name if not name.isprintable() else "":
        if unicodedata.category(letter) in ("Cc", "Cs"):
            raise ValueError(f"has the character U+{ord(letter):04X}, which no name may have")
    return name


def are_plain(text: str, count: int) -> bool:
    """Return True if each of the `count` cells of a text, one in each line, is a name as it stands,
    or empty."""
    lines = f"\n{text}\n"
    if lines.count("\n") != count + 1 or any(odd in lines for odd in ("  ", "\n ", " \n", "\n'")):
        return False
    return text.replace("\n", "").isprintable() and not _has_long(lines)


def _has_long(lines: str) -> bool:
    """Return True if one of the lines between the ends of lines is longer than a cell may be. Each
    such line goes past one of these places."""
    return any(
        lines.find("\n", at) - lines.rfind("\n", 0, at) > LONGEST_CELL + 1
        for at in range(LONGEST_CELL, len(lines), LONGEST_CELL)
    )


class Numbers:
    """The number of the place that each cell names; 0 if it names none. A new place gets the next
    number."""

    def __init__(self, is_raw: bool) -> None:
        self.is_raw = is_raw
        # What is looked up here and is not there gets the next number.
        self._places: defaultdict[str, int] = defaultdict(count(1).__next__)
        # The numbers of cells that are not the name of a place as it stands.
        self._odd: dict[str, int] = {}
        # For each name the first cell that writes it, where cells differ; and the first that does
        # so in another way (see `Table`).
        self.spellings: dict[str, str] = {}
        self.respelled: dict[str, str] = {}
        # What `numpy_rows` knows of the cells that were looked up.
        self.seen: Any = None

    @property
    def places(self) -> dict[str, int]:
        """Return the places, each with its number."""
        return dict(self._places)

    def of(self, cells: list[str]) -> list[int] | None:
        """Return the numbers of these cells; None, and nothing is noted, if one names no place."""
        if (
            are_plain("\n".join(cells), len(cells))
            and "" not in cells
            and self.spellings.keys().isdisjoint(cells)
        ):
            return list(map(self._places.__getitem__, cells))
        noted: list[dict[str, Any]] = [self._places, self._odd, self.spellings, self.respelled]
        sizes = list(map(len, noted))
        numbers = list(map(self.number, cells))
        if 0 not in numbers:
            return numbers
        for known, size in zip(noted, sizes):
            for text in [*islice(known, size, None)]:
                del known[text]
        self._places.default_factory = count(len(self._places) + 1).__next__
        return None

    def number(self, cell: str) -> int:
        """Return the number of a cell."""
        if cell in self._odd:
            return self._odd[cell]
        if cell in self._places and cell[0] != "'" and cell not in self.spellings:
            return self._places[cell]
        number = 0
        if cell.strip() and len(cell) <= LONGEST_CELL:
            try:
                name = name_of(cell, is_raw=self.is_raw)
            except ValueError:
                name = ""
            if name:
                is_new = name not in self._places
                number = self._places[name]
                if name != cell or name in self.spellings:
                    self._respell(name, cell, is_new)
                if name == cell:
                    return number
        self._odd[cell] = number
        return number

    def _respell(self, name: str, cell: str, is_new: bool) -> None:
        # A name that is first written as it is needs no entry.
        first = self.spellings.setdefault(name, cell if is_new else name)
        if first != cell:
            self.respelled.setdefault(name, cell if cell != name else first)


class Said(NamedTuple):
    """A row about a place: by the column, each cell that is not blank."""

    line: int
    place: str
    cells: dict[str, str]


@dataclass
class Table:
    """The rows of a table of arcs: `places` has the number of each place, from 1 on, `tails` and
    `heads` those of each row, `labels` the names of the rows, if there are any, and `lines` the
    lines in which they begin. `said` has the rows of places. `heading` is the first row if it was
    read as titles although nobody named any, and `begins_bare` says that it was not. `respelled`
    has for each name that the table also writes with other spaces one of these other ways. `is_raw`
    says that no apostrophe protects a name. `others` are the columns that are read for nothing and
    have something, if there are no titles. `states` has what each row is, by the column that says
    it; `unlimited` are the rows whose capacity is missing and was read as without a limit; and
    `both_ways` are those that were one row, there and back."""

    sheet: Sheet
    layout: Layout
    amounts: Amounts
    places: dict[str, int] = field(default_factory=dict)
    tails: array[int] = field(default_factory=lambda: array(NODES))
    heads: array[int] = field(default_factory=lambda: array(NODES))
    lines: Union[range, array[int]] = range(0)
    labels: Sequence[str] = ()
    said: list[Said] = field(default_factory=list)
    heading: list[str] = field(default_factory=list)
    begins_bare: bool = False
    respelled: dict[str, str] = field(default_factory=dict)
    is_raw: bool = False
    others: set[int] = field(default_factory=set)
    notes: list[str] = field(default_factory=list)
    states: dict[str, list[str]] = field(default_factory=dict)
    unlimited: Sequence[int] = ()
    both_ways: TwoWayArcs = TwoWayArcs()

    @property
    def path(self) -> str:
        return self.sheet.path

    def add_lines(self, lines: range) -> None:
        """Take in the lines of more rows. As long as no line is left out, a range has all of
        them."""
        if isinstance(self.lines, range) and (not self.lines or self.lines.stop == lines.start):
            self.lines = range(self.lines.start if self.lines else lines.start, lines.stop)
            return
        if isinstance(self.lines, range):
            self.lines = array("Q", self.lines)
        self.lines.extend(lines)

    def fault(self, reason: str, line: int = 0) -> TableFault:
        fault = TableFault(reason, line, self.path)
        fault.row_names = self.sheet.row_names
        return fault

    def called_row(self, row: int) -> str:
        """Return what messages call a row."""
        return called_row(self.lines[row], self.sheet.row_names)


class CrossTables(NamedTuple):
    """What a matrix or a roster says: the sheet of its arcs, that of its places if it says
    something of them, and the names of the places that need have no arc."""

    arcs: Sheet
    places: Optional[Sheet]
    names: Sequence[str]

    def add_places(self, table: Table) -> None:
        """Add the places that have no arc to those of the table of the arcs."""
        for name in self.names:
            table.places.setdefault(name, len(table.places) + 1)


class Reader:
    """A reader of the rows of a table, which collects their faults."""

    def __init__(self, sheet: Sheet, form: Form, layout: Layout, reading: ReadOptions) -> None:
        self.form = form
        self.layout = layout
        self.reading = reading
        titles = [title.text for title in layout.titles]
        self.faults = Faults(sheet.path, titles, sheet.row_names)
        self.width = len(layout.titles) if layout.line else None
        self.heading = [title.text for title in layout.titles]

    def take(self, rows: Rows) -> None:
        """Take rows."""
        raise NotImplementedError

    def column(self, place: int) -> str:
        return next(
            (f"the {column}" for column, at in self.layout.at.items() if at == place), "a cell"
        )

    def is_passed_over(self, line: int, row: list[str]) -> bool:
        """Return True if a row is blank, the row of titles, or that row once more."""
        if line < self.layout.begin or is_blank(row):
            return True
        return bool(self.heading) and [cleaned(cell) for cell in row] == self.heading

    def are_cells_right(self, line: int, row: list[str]) -> bool:
        """Return True if no cell is too long, and no row has more columns than there are titles."""
        before = self.faults.count
        for place, cell in enumerate(row):
            if len(cell) > LONGEST_CELL:
                long = (
                    f"{self.column(place)} has {len(cell)} characters, and {LONGEST_CELL} are the "
                    "most; is a quote not closed?"
                )
                self.faults.add(long, line, place + 1)
            elif self.width is not None and place >= self.width and cell.strip():
                self.faults.add(f"{len(row)} columns, and {self.width} have titles", line)
                break
        return self.faults.count == before

    def name(self, line: int, row: list[str], column: str) -> str:
        """Return the name in a cell. If there is none, that is a fault."""
        place = self.layout.at[column]
        cell = row[place] if place < len(row) else ""
        if not cleaned(cell):
            count = (
                f": the row has {len(row)} column{'s' * (len(row) != 1)}"
                if place >= len(row)
                else ""
            )
            self.faults.add(f"no {column}{count}", line, place + 1)
            return ""
        try:
            return name_of(cell, is_raw=self.reading.raw_names)
        except ValueError as fault:
            self.faults.add(f"the {column} {quoted_name(cell)} {fault}", line, place + 1)
            return ""

    def cell(self, row: list[str], column: str) -> str:
        place = self.layout.at.get(column, len(row))
        return row[place] if place < len(row) else ""


def amounts_of(column: str, layout: Layout, path: str) -> Amounts:
    """Return an empty column of amounts, as a layout has it."""
    title = layout.title(column)
    return Amounts(
        column, layout.at.get(column, -1) + 1, path, unit_of(title), named=bool(title.unit)
    )


def layout_of_sheet(
    sheet: Sheet, form: Form, named: Mapping[str, str], ignored: Sequence[str] = ()
) -> Layout:
    """Return where the columns of a sheet are. Raises a `TableFault`."""
    layout = layout_of(first_rows(sheet), form, named, ignored)
    if layout.is_by_numbers:
        # A column without a cell so far may have numbers too.
        layout = layout_of(first_rows(sheet, sys.maxsize), form, named, ignored)
    return layout


def first_rows(sheet: Sheet, most: int = SAMPLE) -> Rows:
    """Return the first rows of a sheet. Raises a `TableFault` if there is none."""
    sample = sheet.sample(most)
    if not sample.cells:
        for _ in sheet.read():
            # What is wrong with a quote or a byte is told here.
            pass
        raise TableFault("the table is empty")
    return sample


def take_all(sheet: Sheet, reader: Reader) -> None:
    """Take all rows. A quote or a byte that is wrong ends them."""
    try:
        for rows in sheet.read():
            reader.take(rows)
    except TableFault as fault:
        reader.faults.add(fault.reason, fault.line)
