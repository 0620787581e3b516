"""Tables of comma-separated values for spreadsheets: how names stand in their cells, and the table
of the arcs of a plan.

A spreadsheet runs a cell that begins with one of = + - @, a tab or an end of a line as a formula.
So a name stands there with an apostrophe before it if such a character is its first, or the first
after apostrophes. A reader takes one apostrophe off where one or more stand before such a
character. So each name comes back as it was: `=a` is written `'=a`, `'=a` is written `''=a`, and
`'a` stays. Names, and cells of other columns that are not numbers, are written and read in this
way, so numbers stay numbers.

Numbers are those of the table that a problem was made of, and have its decimal sign. Where that is
a comma, semicolons stand between cells, as spreadsheets write it then.
"""

from __future__ import annotations

import contextlib
import csv
import re
from array import array
from collections.abc import Callable, Iterable, Iterator, Mapping, Sequence
from dataclasses import dataclass, field
from decimal import Context
from functools import cached_property
from itertools import zip_longest
from typing import Any, NamedTuple, Optional, Protocol

from ..errors import TableFault
from ..quantity import COMMA, POINT, Measure, Quantity, plain_text, readings
from ..text.lexical import NODES
from ..text.spelling import quoted_name

# How many faults are told in full; the others are counted.
MOST_FAULTS = 5


# What rows are called that each have a line of their own: as their lines are.
NO_NAMES: Mapping[int, str] = {}


def called_row(line: int, row_names: Mapping[int, str]) -> str:
    """Return what messages call a row."""
    return row_names.get(line) or f"line {line}"


class Faults:
    """The faults found so far in a table whose columns have these titles, and whose rows have these
    names beside their lines, if any."""

    def __init__(
        self, path: str, titles: Sequence[str] = (), row_names: Mapping[int, str] = NO_NAMES
    ) -> None:
        self.path = path
        self.titles = titles
        self.row_names = row_names
        self.count = 0
        self._first: list[TableFault] = []

    def add(self, reason: str, line: int, column: int = 0, more_lines: Sequence[int] = ()) -> None:
        """Take a fault in."""
        self.count += 1
        fault = TableFault(reason, line, self.path, column)
        title = self.titles[column - 1] if 0 < column <= len(self.titles) else ""
        fault.column_name = quoted_name(title) if title else ""
        fault.more_lines = more_lines
        fault.row_names = self.row_names
        self._first.append(fault)
        if len(self._first) > 2 * MOST_FAULTS:
            self._sort()

    def _sort(self) -> None:
        self._first.sort(key=lambda fault: (fault.line, fault.column))
        del self._first[MOST_FAULTS:]

    def judge(self) -> None:
        """Raise the first of the faults, with the others, if there is one."""
        if not self.count:
            return
        self._sort()
        first, *others = self._first
        first.others, first.untold = others, self.count - len(self._first)
        raise first


@contextlib.contextmanager
def naming(path: str) -> Iterator[None]:
    """Name this file in the faults that name none."""
    try:
        yield
    except TableFault as fault:
        fault.name_path(path)
        raise


# The last four are the wide forms of the first four.
DANGEROUS = "=+\\-@\t\r\n\uff1d\uff0b\uff0d\uff20"
_TO_PROTECT = re.compile(f"'*[{DANGEROUS}]")
_PROTECTED = re.compile(f"'+[{DANGEROUS}]")


def cell_of(name: str, *, is_raw: bool = False) -> str:
    """Return the cell of a name, which is the name itself if it is to be raw."""
    return f"'{name}" if not is_raw and _TO_PROTECT.match(name) else name


def name_in(cell: str, *, is_raw: bool = False) -> str:
    """Return the name in a cell."""
    return cell[1:] if not is_raw and _PROTECTED.match(cell) else cell


def text_cell(text: str, *, is_raw: bool = False) -> str:
    """Return the cell of a text that may be a number, which then stands as it is."""
    return text if readings(text) else cell_of(text, is_raw=is_raw)


def text_in(cell: str, *, is_raw: bool = False) -> str:
    """Return the text in such a cell."""
    text = name_in(cell, is_raw=is_raw)
    return cell if text != cell and readings(text) else text


class _Lines:
    """The lines that a writer of the module `csv` makes, each in one piece."""

    END = "\r\n"

    def __init__(self) -> None:
        self.lines: list[str] = []

    def write(self, text: str) -> None:
        self.lines.append(text.removesuffix(self.END) + "\n")


def delimiter(measure: Measure) -> str:
    """Return what stands between the cells of a table with such numbers."""
    return ";" if measure.sign == COMMA else ","


def number_cell(number: Quantity, measure: Measure) -> str:
    """Return the cell of a quantity."""
    return plain_text(number).replace(POINT, measure.sign or POINT)


def lines(rows: Iterable[Sequence[object]], measure: Measure = Measure()) -> str:
    """Return the lines of a table with these cells."""
    written = _Lines()
    # With this end of a line, a carriage return in a name is quoted; without quotes it would be
    # read as the end of a line.
    csv.writer(written, delimiter=delimiter(measure), lineterminator=_Lines.END).writerows(rows)
    return "".join(written.lines)


def line(cells: Sequence[object], measure: Measure = Measure()) -> str:
    """Return a line of a table."""
    return lines([cells], measure)


# What stands in the cell of a supply or a demand without a limit.
UNLIMITED = "x"
# The titles of a plan's table that no reader of tables takes for anything.
PLAN_TITLES = {"number", "flow", "full", "in cut"}
OPEN_NUMBER = re.compile("[1-9][0-9]{0,2}[.,][0-9]{3}")

# What may stand between cells; how many rows are looked at before a table is read, and how many are
# read at once.
DELIMITERS = ",;\t|"
SAMPLE, PIECE = 40, 1 << 10
_SHOWN = Context(prec=15)


class Exact(str):
    """A cell that a workbook has as a number: digits, and a point if it needs one."""

    __slots__ = ()


def shown_number(text: str) -> str:
    """Return the cell of a number with the 15 digits that a workbook shows. What is not a number
    stays a text."""
    number = _SHOWN.create_decimal(text)
    return Exact(plain_text(number)) if number.is_finite() else text


class PlaceSink(Protocol):
    """A receiver of cells that name places."""

    # What a reader by numpy knows of the cells that were looked up.
    seen: Any

    def of(self, cells: list[str]) -> list[int] | None:
        """Return the numbers of the places that these cells name, or None if one names none."""


class AmountSink(Protocol):
    """A receiver of the cells of a column of numbers."""

    def add(self, cells: list[str]) -> None:
        """Take in cells below those that are there."""

    def add_plain(self, plain: Any, count: int, cells: Callable[[], list[str]]) -> None:
        """Take in cells whose numbers are known already."""


class Rows:
    """Successive rows: the line in which each begins, and its cells as texts. Iterating over it
    yields the lines, and then the cells."""

    def __init__(
        self,
        lines: Sequence[int],
        cells: Optional[list[list[str]]] = None,
        columns: Sequence[Sequence[str]] = (),
    ) -> None:
        """Take either the cells, row by row, or all columns, in which no cell is missing."""
        self.lines = lines
        self._cells = cells
        self._columns = columns

    @property
    def cells(self) -> list[list[str]]:
        """Return the cells of each row."""
        if self._cells is None:
            self._cells = [[*row] for row in zip(*self._columns)]
        return self._cells

    def widths(self) -> set[int]:
        """Return how many cells rows have."""
        return set(map(len, self._cells)) if self._cells is not None else {len(self._columns)}

    def columns(self) -> Sequence[Sequence[str]]:
        """Return the columns; where a row has no cell, that is empty."""
        if self._cells is None:
            return self._columns
        return list(
            zip_longest(*self._cells, fillvalue="") if len(self.widths()) > 1 else zip(*self._cells)
        )

    def column(self, place: int) -> list[str]:
        """Return the cells of a column."""
        columns = self.columns()
        return [*columns[place]] if place < len(columns) else [""] * len(self)

    def has(self, place: int, cell: str) -> bool:
        """Return True if this cell stands in a column."""
        return cell in self.columns()[place]

    def has_something(self, place: int) -> bool:
        """Return True if a cell of a column is not blank."""
        return any(map(str.strip, self.columns()[place]))

    def text(self, place: int) -> str:
        """Return the cells of a column, one below the other."""
        return "\n".join(self.column(place))

    def numbered(
        self, places: tuple[int, int], numbers: PlaceSink
    ) -> Optional[tuple[array[int], array[int]]]:
        """Return the numbers of the places that the cells of these two columns name; None, and
        nothing is noted, if one names none."""
        columns = self.columns()
        cells = [""] * (2 * len(self))
        cells[0::2], cells[1::2] = (columns[place] for place in places)
        found = numbers.of(cells)
        return None if found is None else (array(NODES, found[0::2]), array(NODES, found[1::2]))

    def put_amounts(self, amounts: AmountSink, place: int) -> None:
        """Add the cells of a column to amounts."""
        amounts.add(self.column(place))

    def smaller(self) -> Iterator[Rows]:
        """Yield the same rows, fewer at once, if there are many."""
        return iter(())

    def after_first(self) -> Rows:
        """Return the rows but the first."""
        if self._cells is None:
            return Rows(self.lines[1:], None, [column[1:] for column in self._columns])
        return Rows(self.lines[1:], self._cells[1:])

    def __iter__(self) -> Iterator[Any]:
        return iter((self.lines, self.cells))

    def __len__(self) -> int:
        return len(self.lines)


class Positions(NamedTuple):
    """The position of places on a map, to the right and upwards, by their names; `is_globe` says
    that these are degrees."""

    spots: Mapping[str, tuple[float, float]]
    is_globe: bool = False


@dataclass(frozen=True)
class Sheet:
    """A table whose rows can be read again and again. `path` names it, with its sheet if it has
    one, `notes` say what was taken for granted, and `taken` says what was taken for what, if its
    titles do not say it. `positions` are those of its places, if it has them. What a table of
    places that `gives_way` says of supplies counts only if no option names a source, and so with
    demands. `row_names` are what rows are called that do not have a line of their own, by the
    numbers that stand for their lines."""

    path: str
    read: Callable[[], Iterator[Rows]]
    notes: tuple[str, ...] = ()
    taken: str = ""
    positions: Optional[Positions] = None
    gives_way: bool = False
    row_names: Mapping[int, str] = field(default_factory=dict)

    @property
    def name(self) -> str:
        """Return the name of the sheet in its workbook."""
        return self.path.rpartition("#")[2]

    def sample(self, most: int = SAMPLE) -> Rows:
        """Return the first rows that are not blank. What is wrong with a quote is left for
        later."""
        lines: list[int] = []
        cells: list[list[str]] = []
        try:
            for piece in self.read():
                for line, row in zip(*piece):
                    if not is_blank(row):
                        lines.append(line)
                        cells.append(row)
                    if len(cells) == most:
                        return Rows(lines, cells)
        except TableFault:
            pass
        return Rows(lines, cells)


def is_blank(row: list[str]) -> bool:
    """Return True if a row has only white space or delimiters, since another delimiter may have
    been guessed."""
    return not any(cell and cell.strip(DELIMITERS + " ") and not cell.isspace() for cell in row)


class Cells(Sequence[str]):
    """The cells of a column, each of one line. They are kept as a few texts until one is asked for,
    with no object for each."""

    def __init__(self) -> None:
        self._texts: list[str] = []
        self._count = 0

    def add(self, text: str, count: int) -> None:
        """Take in the `count` cells of a text, one in each line."""
        self._texts.append(text)
        self._count += count

    def has_some(self) -> bool:
        """Return True if one is not empty."""
        return any(text.strip("\n") for text in self._texts)

    @cached_property
    def _cells(self) -> list[str]:
        return "\n".join(self._texts).split("\n") if self._texts else []

    def __len__(self) -> int:
        return self._count

    def __getitem__(self, place: Any) -> Any:
        return self._cells[place]

    def __iter__(self) -> Iterator[str]:
        return iter(self._cells)
