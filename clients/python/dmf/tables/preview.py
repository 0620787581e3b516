"""The first rows of a table as its file has them, and what each column is taken for, also if the
table cannot be read as it is."""

from __future__ import annotations

from collections.abc import Container, Mapping, Sequence
from dataclasses import replace
from typing import NamedTuple, Optional

from ..errors import TableFault
from ..text.spelling import cleaned
from .arcs_and_places import arcs_in
from .column_finder import layout_of
from .column_question import ColumnQuestion
from .headings import ARCS, CHOSEN, NAMED, Layout, name_of_column
from .loader import Stages
from .matrix_arcs import matrix_tables
from .sheet import Rows, Sheet
from .table_file import ReadOptions
from .title_row import column_number, heading_at, named_row, title_row
from .titles import COLUMNS, Title, title_of

# How many rows are shown, and how many characters of a cell.
MOST_ROWS, LONGEST_CELL = 12, 200
# The role of a column that an option says to read nothing from.
IGNORED = "ignore"


class ColumnGuess(NamedTuple):
    """A column: its place, from 0 on, its title, what options call it, what it is taken for, and
    why. It is taken for nothing if its role is empty."""

    place: int
    title: str
    option: str
    role: str
    sure: str


class Preview(NamedTuple):
    """The first rows, each with its line; the line of the titles, if there is a row of them; and
    all columns."""

    rows: Sequence[Sequence[str]]
    lines: Sequence[int]
    header: Optional[int]
    columns: Sequence[ColumnGuess]


def preview_of(stages: Stages, reading: ReadOptions) -> Preview:
    """Return the preview of a table that was read so far, or of none."""
    if stages.sheet is None:
        return Preview([], [], None, [])
    arcs = stages.table.sheet if stages.table else _arcs_in(stages.sheet, reading)
    if arcs.taken and not stages.sheet.taken:
        # A matrix, whose columns are places.
        sample = stages.sheet.sample()
        line = arcs.sample(1).lines[0]
        row = sample.cells[list(sample.lines).index(line)]
        layout = Layout({}, tuple(map(title_of, row)), line)
    else:
        sample = arcs.sample()
        layout = stages.table.layout if stages.table else _layout(sample, reading)
    rows = [[cell[:LONGEST_CELL] for cell in row] for row in sample.cells[:MOST_ROWS]]
    return Preview(
        rows, sample.lines[:MOST_ROWS], layout.line or None, _columns(rows, layout, reading)
    )


def _arcs_in(sheet: Sheet, reading: ReadOptions) -> Sheet:
    """Return the sheet whose columns are to be found, or the sheet as it is, if it has a fault."""
    try:
        matrix = matrix_tables(sheet, reading, {})
        return matrix.arcs if matrix else arcs_in(sheet, reading)
    except TableFault:
        return sheet


def _layout(sample: Rows, reading: ReadOptions) -> Layout:
    """Return what is known of the columns of a table that cannot be read as it is."""
    try:
        return _found(sample, reading.titles, reading.ignored)
    except TableFault:
        pass
    try:
        # An option may name a column that there is not.
        return _certain(_found(sample, {}, ()), reading.titles)
    except TableFault:
        return _heading(sample, reading)


def _found(sample: Rows, named: Mapping[str, str], ignored: Sequence[str]) -> Layout:
    """Return the columns that are found: all, or if a question is open, those that options or
    titles name. Raises a `TableFault`."""
    answers: dict[str, str] = {}
    for _ in COLUMNS:
        try:
            found = layout_of(sample, ARCS, {**named, **answers}, ignored)
            return _certain(found, answers) if answers else found
        except ColumnQuestion as question:
            # With any answer, the other columns are found.
            answers.update((question.sought, name) for name, _ in question.choices[:1])
    raise TableFault("too many columns are open")


def _certain(found: Layout, but: Container[str]) -> Layout:
    """Return a layout with the columns alone that options or titles name, without some."""
    sure = {
        column: why
        for column, why in found.sure.items()
        if why in (CHOSEN, NAMED) and column not in but
    }
    return replace(found, at={column: found.at[column] for column in sure}, sure=sure)


def _heading(sample: Rows, reading: ReadOptions) -> Layout:
    """Return the titles of a table, of whose columns nothing is known."""
    named = reading.titles
    at = named_row(sample, ARCS, named, ()) if named else title_row(sample, ARCS)
    if at is None or not sample.cells:
        return Layout({})
    heading = heading_at(sample, at)
    return Layout({}, heading.titles, heading.line, heading.begin)


def _columns(
    rows: Sequence[Sequence[str]], layout: Layout, reading: ReadOptions
) -> list[ColumnGuess]:
    width = max([len(layout.titles), *map(len, rows)])
    roles = {place: column for column, place in layout.at.items()}
    guesses = []
    for place in range(width):
        name = name_of_column(layout.titles, place)
        role, sure = roles.get(place, ""), layout.sure.get(roles.get(place, ""), "")
        if not role and (role := _said(place, layout.titles, reading)):
            sure = CHOSEN
        title = layout.titles[place].text if place < len(layout.titles) else ""
        guesses.append(ColumnGuess(place, title, name, role, sure))
    return guesses


def _said(place: int, titles: Sequence[Title], reading: ReadOptions) -> str:
    """Return what options say of a column; empty if they say nothing."""
    said: Mapping[str, Sequence[str]] = {
        **{column: [title] for column, title in reading.titles.items()},
        IGNORED: reading.ignored,
    }
    return next(
        (role for role, names in said.items() if any(_calls(it, place, titles) for it in names)), ""
    )


def _calls(name: str, place: int, titles: Sequence[Title]) -> bool:
    """Return True if an option calls a column by this name."""
    texts = [title.text for title in titles]
    wanted = cleaned(name)
    return texts[place : place + 1] == [wanted] or (
        wanted not in texts and column_number(wanted) == place + 1
    )
