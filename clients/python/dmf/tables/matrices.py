"""Matrices: tables whose rows are the places where arcs begin and whose columns are those where
they end. A row or a column may also say what the places of the others give, take or let through, or
be a total. Where it may as well be a place, nothing is read."""

from __future__ import annotations

from collections.abc import Collection, Iterable, Mapping, Sequence
from dataclasses import dataclass, field
from typing import NamedTuple, Optional

from ..errors import TableFault
from ..text.spelling import cleaned, quoted_name
from .amount_cells import is_limitless, read_cell
from .headings import PLACE_COLUMNS
from .matrix_shapes import MOST_CELLS, TEXTS, Shapes
from .matrix_words import counts_rows, meaning_of, names_people
from .roster_words import is_cross
from .sheet import Faults, Rows
from .table_file import ReadOptions
from .title_row import MOST_ABOVE, column_number, has_units
from .titles import DEMAND, HEAD, LIMIT, SUPPLY, TAIL, USUAL, folded, names_total

# What rows and columns are that are neither places nor say something of them.
TOTAL, LEFT_OUT, UNITS, TITLES_AGAIN = "total", "left out", "units", "titles again"
COUNTED = "numbers of the rows"
# What places do, by what is said of them.
_DONE = {SUPPLY: "give", DEMAND: "take", LIMIT: "let through"}


def is_corner(cell: str) -> bool:
    """Return True if a cell says that arcs lead from the rows' places to the columns' places, as in
    `from \\ to`."""
    words = folded(cell).split()
    return len(words) == 2 and words[0] in USUAL[TAIL] and words[1] in USUAL[HEAD]


class Corner(NamedTuple):
    """The cell in which the titles and the names of the rows meet: how many rows stand above it,
    and how many columns to its left."""

    at: int
    column: int


@dataclass
class Matrix:
    """A matrix: the line of its titles, these titles, the column of the names, and what rows, by
    their lines, and columns are that are not places. `names` has the names of all rows below the
    titles, by their lines, and of those above them whose numbers say something, of which `above`
    says whether they line up with the titles."""

    line: int
    titles: list[str]
    corner: int = 0
    names: dict[int, str] = field(default_factory=dict)
    above: dict[int, bool] = field(default_factory=dict)
    rows: dict[int, str] = field(default_factory=dict)
    columns: dict[int, str] = field(default_factory=dict)

    def title(self, place: int) -> str:
        return self.titles[place] if place < len(self.titles) else ""

    def places(self) -> list[int]:
        """Return the columns with titles beside that of the names."""
        return [place for place, title in enumerate(self.titles) if title and place != self.corner]

    def take_above(self, line: int, row: Sequence[str]) -> bool:
        """Take a row above the titles if its numbers may say something of places. Return True if
        so."""
        name = next(filter(None, map(cleaned, reversed(row[: self.corner + 1]))), "")
        begin, meaning = self.corner + 1, meaning_of(name)
        kind = meaning.kind if meaning else ""
        # What is no amount after all is told as a fault of its cell.
        is_amount = _may_be_amount if kind else _is_number
        found = {begin + at for at, cell in enumerate(row[begin:]) if is_amount(cell)}
        titled = {place for place in self.places() if place >= begin}
        lines_up = found <= titled and len(found) >= min(2, len(titled))
        if not found or counts_rows(name) or not (lines_up or kind):
            return False
        self.names[line], self.above[line] = name, lines_up
        return True

    def told_rows(self, kind: str) -> list[str]:
        """Return the rows of a kind as messages name them."""
        lines = [line for line, it in self.rows.items() if it == kind]
        return [f"the row {quoted_name(self.names[line])} (line {line})" for line in lines]

    def told_columns(self, kind: str) -> list[str]:
        """Return the columns of a kind as messages name them."""
        places = [place for place, it in self.columns.items() if it == kind]
        return [f"the column {quoted_name(self.titles[place])}" for place in places]


def _is_number(cell: str) -> bool:
    return bool(read_cell(cell)[0])


def _may_be_amount(cell: str) -> bool:
    """Return True if a cell has a digit, or says that something is without a limit."""
    return any(map(str.isdigit, cell)) or is_cross(cell) or is_limitless(cell)


def corner_in(sample: Rows, *, is_asked: bool) -> Optional[Corner]:
    """Return where the titles and the names of a matrix meet; None if a sheet is none. Raises a
    `TableFault` if one was asked for."""
    rows = sample.cells[: MOST_ABOVE + 1]
    for at, row in enumerate(rows):
        if (column := _column_of_corner(row)) is not None:
            return Corner(at, column)
    if not is_asked:
        return None
    for at, row in enumerate(rows):
        if len(_filled(row)) > 1 and not _stands_above(row, sample.cells[at + 1 : at + 2]):
            return Corner(at, 0)
    raise TableFault(
        "no row has the titles of a matrix: a cell for the rows, and a place in each other one",
        sample.lines[0],
    )


def _column_of_corner(row: Sequence[str]) -> Optional[int]:
    """Return the column of a corner that says so; None if a row has none. What says something of
    the rows may stand to its left if a place stands to its right."""
    for column, cell in enumerate(row):
        if is_corner(cell):
            is_first = not column
            return column if is_first or any(map(_is_place, row[column + 1 :])) else None
        meaning = meaning_of(cell)
        if cleaned(cell) and not counts_rows(cell) and not (meaning and meaning.is_sure):
            return None
    return None


def _is_place(cell: str) -> bool:
    return bool(cleaned(cell)) and meaning_of(cell) is None and not names_total(cell)


def _filled(row: Sequence[str]) -> list[str]:
    return [cell for cell in map(cleaned, row[1:]) if cell]


def _stands_above(row: Sequence[str], below: Sequence[Sequence[str]]) -> bool:
    """Return True if a row has numbers, and the next one, without any, has the titles."""
    return (
        all(map(_may_be_amount, _filled(row)))
        and bool(below)
        and len(_filled(below[0])) > 1
        and not any(map(_is_number, _filled(below[0])))
        and not has_units(below[0])
    )


class MatrixFinder:
    """A search for what the rows and columns of a matrix are."""

    def __init__(
        self,
        matrix: Matrix,
        reading: ReadOptions,
        ends: Mapping[str, Collection[str]],
        faults: Faults,
    ) -> None:
        self.matrix, self.ends, self.faults = matrix, ends, faults
        self.ignored = [*map(cleaned, reading.ignored)]
        self.needs = cleaned(reading.needs)

    def find(self) -> None:
        """Put what the rows and columns are into the matrix. What nobody can tell goes to the
        faults."""
        matrix = self.matrix
        places = [place for place in range(len(matrix.titles)) if place != matrix.corner]
        titles, names = {matrix.titles[place] for place in places}, {*matrix.names.values()}
        for word in (*self.ignored, *([self.needs] if self.needs else [])):
            if word not in titles | names and column_number(word) - 1 not in places:
                reason = f"no row and no column of the matrix is called {quoted_name(word)}"
                raise TableFault(reason, matrix.line)
        for place in places:
            title = matrix.titles[place]
            if any(column_number(it) == place + 1 for it in self.ignored):
                matrix.columns[place] = LEFT_OUT
            elif place < matrix.corner and title not in self.ignored and counts_rows(title):
                matrix.columns[place] = COUNTED
            elif kind := self._kind(title, names, matrix.line, place + 1):
                matrix.columns[place] = kind
        for line, name in matrix.names.items():
            find = self._kind_above if line in matrix.above else self._kind_of_row
            if line not in matrix.rows and (kind := find(name, titles, line)):
                matrix.rows[line] = kind
        for kind in PLACE_COLUMNS:
            self._refuse_doubles(kind)

    def _kind_of_row(self, name: str, titles: Collection[str], line: int) -> str:
        return self._kind(name, titles, line, 0)

    def _kind_above(self, name: str, titles: Collection[str], line: int) -> str:
        """Return what a row above the titles is, which is never a place."""
        if name and name in self.ignored:
            return LEFT_OUT
        if name and name == self.needs:
            return DEMAND
        meaning = meaning_of(name)
        if self.matrix.above[line] and name not in titles:
            if meaning and meaning.is_sure:
                return meaning.kind
            if names_total(name):
                return TOTAL
        self.faults.add(self._question_above(name, meaning.kind if meaning else ""), line)
        return LEFT_OUT

    @staticmethod
    def _question_above(name: str, kind: str) -> str:
        """Return the fault of a row above the titles whose numbers nobody can tell."""
        if not name:
            return (
                "numbers stand above the titles, and nothing says what they are: write it before"
                " them, such as 'demand', or take the line away"
            )
        it = quoted_name(name)
        how = f"give --needs {it} if that is what places take"
        if kind in (SUPPLY, LIMIT):
            how = f"move it below the titles if that is what places {_DONE[kind]}"
        return (
            f"{it} stands above the titles, and has numbers: {how}, or --ignore {it} to leave it"
            " out"
        )

    def _kind(self, name: str, others: Collection[str], line: int, column: int) -> str:
        """Return what a row or a column is by its name; empty if it is a place."""
        if name in self.ignored:
            return LEFT_OUT
        if name and name == self.needs:
            return DEMAND
        meaning = meaning_of(name)
        if names_total(name) and not (meaning and meaning.is_sure):
            return TOTAL
        is_both = name in others
        if meaning is None or self._is_end(name, column, is_both):
            return ""
        if meaning.is_sure and not is_both:
            return meaning.kind
        # As a place, what gives is a source, and what takes is a sink, which is the same. People
        # may be there, or be needed.
        is_same = meaning.kind == (DEMAND if column else SUPPLY) and not names_people(name)
        if (meaning.is_sure and column) if is_both else not is_same:
            question = self._question(name, meaning.kind, column, is_both)
            self.faults.add(question, line, column or self.matrix.corner + 1)
            return LEFT_OUT
        return ""

    def judge_cells(self, rows: Iterable[tuple[int, Sequence[str]]]) -> None:
        """Ask about the rows and columns that are likely no places by their cells."""
        matrix = self.matrix
        names = {line: it for line, it in matrix.names.items() if line not in matrix.rows}
        titles = {
            place: it
            for place, it in enumerate(matrix.titles)
            if place != matrix.corner and place not in matrix.columns
        }
        if len(names) * len(titles) > MOST_CELLS:
            return
        shapes = Shapes(
            [
                [row[at] if at < len(row) else "" for at in titles]
                for line, row in rows
                if line in names
            ]
        )
        for at, (place, title) in enumerate(titles.items()):
            if title not in names.values() and not self._is_end(title, place + 1, False):
                if shape := shapes.of_column(at):
                    question = _question_of_shape(title or f"column {place + 1}", shape, DEMAND)
                    self.faults.add(question, matrix.line, place + 1)
        for at, (line, name) in enumerate(names.items()):
            if name and name not in titles.values() and not self._is_end(name, 0, False):
                if shape := shapes.of_row(at):
                    question = _question_of_shape(name, shape, SUPPLY)
                    self.faults.add(question, line, matrix.corner + 1)

    def _is_end(self, name: str, column: int, is_both: bool) -> bool:
        """Return True if an option names it as a source that arcs leave, or a sink that they
        enter."""
        kinds = (SUPPLY, DEMAND) if is_both else (DEMAND if column else SUPPLY,)
        words = [cleaned(word) for kind in kinds for word in self.ends.get(kind, ())]
        return name in words or name in (word.rpartition("=")[0].rstrip() for word in words)

    @staticmethod
    def _question(name: str, kind: str, column: int, is_both: bool) -> str:
        """Return the fault of a row or a column that may be a place."""
        it = quoted_name(name)
        is_place = f"--{'sink' if column or is_both else 'source'} {it} if it is a place"
        if is_both:
            return (
                f"{it} is a row and a column, and may be a place, or say what places"
                f" {_DONE[kind]}: give {is_place}, or --ignore {it} to leave both out"
            )
        how = f"--ignore {it} to leave it out, or {is_place}"
        if kind == DEMAND:
            how = f"--needs {it} if it says that, {how}"
        elif kind:
            how = f"it the title '{kind}' if it says that, {how}"
        what = f"what places {_DONE[kind]}" if kind else "something of places"
        return f"{it} may be a place, or say {what}: give {how}"

    def _refuse_doubles(self, kind: str) -> None:
        """Refuse two rows, or two columns, that both say what the same places do."""
        for found in self.matrix.told_rows(kind), self.matrix.told_columns(kind):
            if len(found) > 1:
                told = f"{found[0]} and {found[1]} both say what places {_DONE[kind]}"
                self.faults.add(f"{told}: leave one out by --ignore", self.matrix.line)


def _question_of_shape(name: str, shape: str, kind: str) -> str:
    """Return the fault of a row or a column that is likely no place by its cells."""
    it = quoted_name(name)
    how = f"give --ignore {it} to leave it out"
    if shape == TEXTS:
        return f"{it} has texts, and no number: {how}"
    beside, option = ("row", "sink") if kind == DEMAND else ("column", "source")
    return (
        f"{it} may be no place, since each of its cells is the {shape} of the others in its"
        f" {beside}: {how}, or --{option} {it} if it is a place"
    )
