"""The arcs of a matrix. A cell is the capacity from the place of its row to that of its column; an
empty one, or 0, means no arc. Where a row or a column says what places give, take or let through,
a second sheet has that."""

from __future__ import annotations

from collections.abc import Collection, Iterator, Mapping, Sequence
from decimal import Decimal
from typing import NamedTuple, Optional

from ..errors import TableFault
from ..quantity import SIGNS, plain_text, readings
from ..text.spelling import cleaned, quoted_name
from .amount_cells import is_limitless, is_missing, no_number, read_cell
from .arcs_and_places import MARKS
from .headings import PLACE_COLUMNS
from .matrices import (
    COUNTED,
    LEFT_OUT,
    TITLES_AGAIN,
    TOTAL,
    UNITS,
    Corner,
    Matrix,
    MatrixFinder,
    corner_in,
)
from .readers import CrossTables, first_rows
from .rosters import refuse_options
from .sheet import Exact, Faults, Rows, Sheet, is_blank
from .table_file import ReadOptions
from .title_row import has_units, told_above
from .titles import CAPACITY, LIMIT, PLACE, title_of, unit_in

_NOUNS = dict(zip(PLACE_COLUMNS, ("supplies", "demands", "limits")))


class _SaidCell(NamedTuple):
    """What a cell says of a place, of this kind."""

    line: int
    place: str
    kind: str
    cell: str


class _Sum:
    """The sum of cells with either decimal sign, as far as each can be read with it."""

    def __init__(self) -> None:
        self.sums: dict[str, Decimal] = dict.fromkeys(SIGNS, Decimal(0))

    def add(self, found: Mapping[str, Decimal]) -> None:
        self.sums = {
            sign: number + found[sign] for sign, number in self.sums.items() if sign in found
        }

    def is_told_by(self, cell: str) -> bool:
        """Return True if a cell has this sum."""
        found = read_cell(cell)[0]
        return any(found.get(sign) == number for sign, number in self.sums.items())

    def __str__(self) -> str:
        return plain_text(next(iter(self.sums.values()), Decimal(0)))


def matrix_tables(
    sheet: Sheet, reading: ReadOptions, ends: Mapping[str, Collection[str]]
) -> Optional[CrossTables]:
    """Return the tables of a sheet that is a matrix, as it says itself, or as was asked for; None
    if it is none. `ends` are the places that options name as sources and sinks, by `supply` and
    `demand`. Raises a `TableFault`."""
    sample = first_rows(sheet)
    is_open = not (reading.titles or sheet.taken)
    corner = corner_in(sample, is_asked=reading.is_matrix) if is_open else None
    if corner is None:
        return None
    refuse_options(reading, is_matrix=True)
    return _MatrixReader(sheet, sample, corner, reading, ends).tables()


class _MatrixReader:
    """A reader of the rows of a matrix."""

    def __init__(
        self,
        sheet: Sheet,
        sample: Rows,
        corner: Corner,
        reading: ReadOptions,
        ends: Mapping[str, Collection[str]],
    ) -> None:
        self.sheet = sheet
        at = corner.at
        titles = [cleaned(cell) for cell in sample.cells[at]]
        self.faults = Faults(sheet.path, titles)
        self.matrix = Matrix(sample.lines[at], titles, corner.column)
        self.notes: list[str] = []
        self.units: dict[int, str] = {}
        self.said: list[_SaidCell] = []
        self.row_totals: list[tuple[int, list[str]]] = []
        self.sums = [_Sum() for _ in titles]
        self._refuse_same_titles()
        self._take_above(sample, at)
        if at + 1 < len(sample) and has_units(sample.cells[at + 1]):
            self._take_units(sample.lines[at + 1], sample.cells[at + 1])
        for line, row in self._rows():
            if line > self.matrix.line:
                self.matrix.names[line] = cleaned(self._name(row))
            if [*map(cleaned, row)] == titles:
                self.matrix.rows[line] = TITLES_AGAIN
        finder = MatrixFinder(self.matrix, reading, ends, self.faults)
        finder.find()
        finder.judge_cells(self._rows())
        self.faults.judge()
        self.has_totals = TOTAL in {*self.matrix.rows.values(), *self.matrix.columns.values()}

    def tables(self) -> CrossTables:
        """Return the tables. Raises a `TableFault` with all cells that cannot be read."""
        for line, row in self._rows():
            self._take(line, row)
        self.faults.judge()
        self._tell()
        notes = (*self.sheet.notes, *self.notes)
        arcs = Sheet(self.sheet.path, self._arc_rows, notes, self._taken())
        names = [cleaned(it.place) for it in self.said]
        places = Sheet(self.sheet.path, self._place_rows, gives_way=True) if names else None
        return CrossTables(arcs, places, names)

    def _rows(self) -> Iterator[tuple[int, list[str]]]:
        """Yield the rows below the titles, and those above that say something, with their
        lines."""
        for rows in self.sheet.read():
            for line, row in zip(*rows):
                is_in = line > self.matrix.line or line in self.matrix.above
                if is_in and not is_blank(row):
                    yield line, row

    def _name(self, row: Sequence[str]) -> str:
        return row[self.matrix.corner] if self.matrix.corner < len(row) else ""

    def _take_above(self, sample: Rows, at: int) -> None:
        """Take what stands above the titles: units, and rows that say something of places."""
        left = []
        for line, row in zip(sample.lines[:at], sample.cells[:at]):
            if has_units(row) and line == self.matrix.line - 1:
                self._take_units(line, row)
            elif not self.matrix.take_above(line, row):
                left.append(row)
        if at:
            self.notes.append(told_above(self.matrix.line, left))

    def _refuse_same_titles(self) -> None:
        titles = [self.matrix.titles[place] for place in self.matrix.places()]
        if twice := next((title for title in titles if titles.count(title) > 1), ""):
            raise TableFault(f"two columns have the title {quoted_name(twice)}", self.matrix.line)

    def _take_units(self, line: int, row: Sequence[str]) -> None:
        self.matrix.rows[line] = UNITS
        self.units = {place: unit for place, cell in enumerate(row) if (unit := unit_in(cell))}
        self.notes.append(f"line {line} has the units")

    # Cells.

    def _take(self, line: int, row: list[str]) -> None:
        """Take what a row says of places, and the sums of its arcs; judge its cells."""
        kind = self.matrix.rows.get(line, "")
        if kind == TOTAL:
            self.row_totals.append((line, row))
        if kind and kind not in PLACE_COLUMNS:
            return
        total = _Sum()
        for place, cell in enumerate(row):
            of_column = self.matrix.columns.get(place, "")
            if place == self.matrix.corner or is_missing(cell) or kind and of_column:
                continue
            if kind or of_column in PLACE_COLUMNS:
                of = self.matrix.title(place) if kind else self._name(row)
                self._say(_SaidCell(line, of, kind or of_column, cell), place)
            elif not of_column and self._is_number(line, place, cell) and self.has_totals:
                found = read_cell(cell)[0]
                total.add(found)
                if place < len(self.sums):
                    self.sums[place].add(found)
        self._judge_total(line, row, total)

    def _is_number(self, line: int, place: int, cell: str) -> bool:
        """Return True if a cell is a number. What it cannot be goes to the faults."""
        text = cell.strip()
        if _is_plain(text):
            return True
        found = read_cell(cell)[0].values()
        if not found and not is_limitless(cell):
            self.faults.add(f"{quoted_name(text)} {no_number(text)}", line, place + 1)
        if found and max(found) < 0:
            self.faults.add(f"{quoted_name(text)} is below 0", line, place + 1)
        return bool(found)

    def _say(self, said: _SaidCell, place: int) -> None:
        """Take what a cell says of a place. A limit that is none says nothing."""
        is_mark = said.kind != LIMIT and said.cell.strip().casefold() in MARKS
        if is_mark or is_limitless(said.cell):
            self.said += [said._replace(cell="x")] * (said.kind != LIMIT)
        elif self._is_number(said.line, place, said.cell):
            self.said.append(said)

    # Totals, and what else is told.

    def _judge_total(self, line: int, row: Sequence[str], total: _Sum) -> None:
        """Tell a total at the right or left that is not the sum of its row."""
        for place in self._columns(TOTAL) if not self.matrix.rows.get(line) else ():
            cell = row[place] if place < len(row) else ""
            if not is_missing(cell) and not total.is_told_by(cell):
                says = f"the column {self._title(place)} says {cleaned(cell)}"
                self.notes.append(f"line {line}: {says}, and its other cells {total}")

    def _tell(self) -> None:
        """Tell the totals and what else is left out."""
        if columns := self._columns(TOTAL):
            left = " and ".join(map(self._title, columns))
            self.notes.append(f"totals are left out: the column {left}")
        for line, row in self.row_totals:
            told = f"line {line} is a total, and is left out"
            wrong = [
                f"{cleaned(cell)} below {self._title(place)} and the other cells {self.sums[place]}"
                for place, cell in enumerate(row[: len(self.sums)])
                if place != self.matrix.corner and place not in self.matrix.columns
                if not is_missing(cell)
                if not self.sums[place].is_told_by(cell)
            ]
            self.notes.append(told + (f", though it says {wrong[0]}" if wrong else ""))
        matrix = self.matrix
        if left_out := matrix.told_rows(LEFT_OUT) + matrix.told_columns(LEFT_OUT):
            self.notes.append(f"left out, as asked: {', '.join(left_out)}")
        if counted := matrix.told_columns(COUNTED):
            self.notes.append(f"numbers of the rows are left out: {counted[0]}")
        if again := [str(line) for line, it in matrix.rows.items() if it == TITLES_AGAIN]:
            told = "the titles stand once more, and are passed over"
            self.notes.append(f"{told}: line {', '.join(again)}")

    def _columns(self, kind: str) -> list[int]:
        return [place for place, it in self.matrix.columns.items() if it == kind]

    def _title(self, place: int) -> str:
        return quoted_name(self.matrix.titles[place])

    def _taken(self) -> str:
        matrix = self.matrix
        title = matrix.titles[matrix.corner]
        corner = quoted_name(title) if title else f"column {matrix.corner + 1}"
        count = sum(place not in matrix.columns for place in matrix.places())
        said = "".join(
            f", {noun} from {' and '.join(found)}"
            for kind, noun in _NOUNS.items()
            if (found := matrix.told_rows(kind) + matrix.told_columns(kind))
        )
        return (
            f"a matrix: from {corner}, to the titles of the {count} other columns{said}; empty"
            " cells and 0 are no arcs"
        )

    # Sheets.

    def _arc_rows(self) -> Iterator[Rows]:
        yield Rows([self.matrix.line], [["from", "to", self._titled(CAPACITY, self._unit())]])
        for rows in self.sheet.read():
            lines: list[int] = []
            cells: list[list[str]] = []
            for line, row in zip(*rows):
                if line > self.matrix.line and row and line not in self.matrix.rows:
                    for arc in self._arcs(row):
                        lines.append(line)
                        cells.append(arc)
            yield Rows(lines, cells)

    def _arcs(self, row: Sequence[str]) -> Iterator[list[str]]:
        for place, cell in enumerate(row):
            if place != self.matrix.corner and place not in self.matrix.columns:
                if not is_missing(cell) and not _is_zero(cell):
                    amount = cell if isinstance(cell, Exact) else cell.strip()
                    yield [self._name(row), self.matrix.title(place), amount]

    def _place_rows(self) -> Iterator[Rows]:
        titles = [self._titled(kind, self._unit(kind)) for kind in PLACE_COLUMNS]
        rows = [
            [it.place, *(it.cell if it.kind == kind else "" for kind in PLACE_COLUMNS)]
            for it in self.said
        ]
        # These titles stand in no line, and rows may stand above those of the matrix.
        lines = [0, *(it.line for it in self.said)]
        yield Rows(lines, [[PLACE, *titles], *rows])

    def _unit(self, kind: str = "") -> str:
        """Return the unit of the arcs, or of what is said of places of this kind."""
        matrix = self.matrix
        names = [matrix.names[line] for line, it in matrix.rows.items() if it == kind]
        names += [matrix.title(place) for place in self._columns(kind)]
        found = [unit for name in names if (unit := title_of(name).unit)] if kind else []
        columns = self._columns(kind) if kind else [*self.units.keys() - matrix.columns.keys()]
        found += [self.units[place] for place in columns if place in self.units]
        if len({*found}) > 1:
            told = " and ".join(map(quoted_name, [*dict.fromkeys(found)][:2]))
            raise TableFault(f"the columns have several units: {told}", matrix.line)
        return found[0] if found else ""

    @staticmethod
    def _titled(title: str, unit: str) -> str:
        return f"{title} [{unit}]" if unit else title


def _is_zero(cell: str) -> bool:
    text = cell.strip()
    if _is_plain(text):
        return not text.strip("0")
    found = readings(text)
    return bool(found) and not any(found.values())


def _is_plain(text: str) -> bool:
    """Return True if a text has only digits, as most cells have: a number in any case, or one that
    is too large."""
    return text.isdigit() and text.isascii()
