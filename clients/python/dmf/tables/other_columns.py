"""The columns of a table that are read for nothing, such as cost, length or remark: they are kept,
and stand again in what is exported. A problem text has them in comments, the number of the arc and
then that of the column before each cell that is not empty:

    c column 1 length (m)
    c column 2 remark
    c cell 5 1 120
    c cell 5 2 by the school

A text that cannot stand there as it is, is one of JSON: `"two\\nlines"`. Where there are more than
`MOST_COLUMNS`, or `MOST_CELLS` of their cells, or these take more than `MOST_TOLD` bytes, none is
there, and a comment says so: `c columns left out: length (m), remark`. A text that has more all the
same is read without them.
"""

from __future__ import annotations

import json
import re
from collections import Counter
from collections.abc import Iterable, Iterator, Mapping, Sequence
from dataclasses import dataclass

from ..text.table_comments import COLUMN_WORDS, between
from .headings import PLACE_COLUMNS, Layout
from .readers import Table
from .sheet import PLAN_TITLES, text_in

# The most columns, cells and bytes of cells in a problem text, of which `dmf` takes 2^30 at most.
MOST_COLUMNS, MOST_CELLS, MOST_TOLD = 1 << 10, 1 << 21, 1 << 26
CELL_WORDS, LEFT_OUT = b"c cell ", "c columns left out: "
# How much of what was left out a note shows.
LONGEST_NOTE = 200
_COLUMN = re.compile(rb"^c column ([1-9][0-9]{0,8}) ([^\n]*)", re.MULTILINE)
_CELL = re.compile(rb"^c cell ([1-9][0-9]{0,8}) ([1-9][0-9]{0,8}) ([^\n]*)", re.MULTILINE)


@dataclass(frozen=True)
class Extra:
    """The titles of the columns that are not needed, and for each its cells by row, as texts,
    perhaps only those that are not empty. Each row of the table is `ways` arcs."""

    titles: Sequence[str] = ()
    columns: Sequence[Sequence[str] | Mapping[int, str]] = ()
    ways: int = 1

    def of(self, number: int) -> list[str]:
        """Return the cells of an arc, which are empty if it is of no row."""
        return [self._cell(column, number) for column in self.columns]

    def _cell(self, column: Mapping[int, str] | Sequence[str], number: int) -> str:
        row = (number - 1) // self.ways
        if isinstance(column, Mapping):
            return column.get(row, "")
        return column[row] if row < len(column) else ""

    def by_title(self, numbers: Sequence[int]) -> dict[str, list[str]]:
        """Return the cells of these arcs by the titles; of two columns with one title the second
        gets a number."""
        found: dict[str, list[str]] = {}
        counts: Counter[str] = Counter()
        for title, column in zip(self.titles, self.columns):
            title = name = title or "without title"
            while name in found:
                counts[title] += 1
                name = f"{title} {counts[title] + 1}"
            found[name] = [self._cell(column, number) for number in numbers]
        return found

    def comments(self, numbers: Iterable[int]) -> str:
        """Return the comments that tell the columns in the text of a problem whose arcs have these
        numbers here."""
        if not self.titles:
            return ""
        titles = [
            f"c column {column} {_said(title)}\n" for column, title in enumerate(self.titles, 1)
        ]
        cells: list[str] = []
        size = 0
        for line in self._cell_lines(numbers):
            size += len(line.encode())
            cells.append(line)
            if size > MOST_TOLD or len(cells) > MOST_CELLS:
                break
        if size > MOST_TOLD or len(cells) > MOST_CELLS or len(titles) > MOST_COLUMNS:
            return f"{LEFT_OUT}{', '.join(map(_said, self.titles))}\n"
        return "".join(titles + cells)

    def _cell_lines(self, numbers: Iterable[int]) -> Iterator[str]:
        for place, number in enumerate(numbers, 1):
            for column, cell in enumerate(self.of(number), 1):
                if cell:
                    yield f"c cell {place} {column} {_said(cell)}\n"


def _said(text: str) -> str:
    """Return a text as a comment has it."""
    is_plain = text.isprintable() and text.strip() == text and text[:1] not in ("", '"')
    return text if is_plain else json.dumps(text)


def _read(written: bytes) -> str:
    text = written.removesuffix(b"\r").decode(errors="replace")
    try:
        found = json.loads(text) if text[:1] == '"' else text
    except ValueError:
        return text
    return str(found)


def _is_too_much(text: bytes) -> bool:
    """Return True if comments tell more columns, or more of their cells, than are read."""
    return _count(text, COLUMN_WORDS) > MOST_COLUMNS or _count(text, CELL_WORDS) > MOST_CELLS


def _count(text: bytes, words: bytes) -> int:
    """Return how many lines begin with these words."""
    return text.startswith(words) + text.count(b"\n" + words)


def left_out(text: bytes) -> list[str]:
    """Return what there is to say of the columns that a problem's text leaves out, or
    `extra_in`."""
    notes = []
    if _is_too_much(text):
        notes.append(
            f"comments tell more than {MOST_COLUMNS} other columns, or {MOST_CELLS} cells of "
            "these: "
            "none is kept"
        )
    begin = 0 if text.startswith(LEFT_OUT.encode()) else text.find(b"\n" + LEFT_OUT.encode()) + 1
    if begin or text.startswith(LEFT_OUT.encode()):
        titles = (
            text[begin + len(LEFT_OUT) : begin + len(LEFT_OUT) + LONGEST_NOTE]
            .partition(b"\n")[0]
            .decode(errors="replace")
        )
        notes.append(
            f"other columns of the table were left out when this problem was written: {titles}"
        )
    return notes


def extra_in(text: bytes) -> Extra:
    """Return the columns that the comments of a problem's text tell. Of two that say the same thing
    the first counts. Raises nothing."""
    if _is_too_much(text):
        return Extra()
    titles: dict[int, str] = {}
    for found in _COLUMN.finditer(between(text, COLUMN_WORDS)):
        titles.setdefault(int(found[1]), _read(found[2]))
    columns: dict[int, dict[int, str]] = {number: {} for number in sorted(titles)}
    for found in _CELL.finditer(between(text, CELL_WORDS)):
        if int(found[2]) in columns:
            columns[int(found[2])].setdefault(int(found[1]) - 1, _read(found[3]))
    return Extra([titles[number] for number in columns], [*columns.values()])


def extra_of(table: Table, ways: int = 1) -> Extra:
    """Return the columns of a table of arcs that are read for nothing, also where one has a usual
    title of places and arcs have something in it. A table that the desk wrote has some that it
    writes again; they are none of these. Reads the table once more. Raises a `TableFault` if a
    quote or a byte in it is wrong."""
    layout, is_raw = table.layout, table.is_raw
    # A column without a title, or with one of places, counts if it has something.
    doubtful = [
        *_of_places(layout),
        *(
            place
            for place, title in enumerate(layout.titles)
            if not title.text and place not in layout.at.values()
        ),
    ]
    titles = {
        place: text_in(layout.titles[place].text, is_raw=is_raw)
        for place in (*layout.others(), *doubtful)
    } | dict.fromkeys(table.others, "")
    for place in _written(layout):
        del titles[place]
    columns: dict[int, list[str]] = {place: [] for place in sorted(titles)}
    wanted = iter(table.lines)
    next_line = next(wanted, 0)
    for rows in table.sheet.read() if titles else ():
        for line, row in zip(*rows):
            while line == next_line:
                next_line = next(wanted, 0)
                for place, column in columns.items():
                    column.append(text_in(row[place], is_raw=is_raw) if place < len(row) else "")
    for place in doubtful:
        if not any(map(str.strip, columns[place])):
            del columns[place]
    return Extra([titles[place] for place in columns], [*columns.values()], ways)


def _of_places(layout: Layout) -> list[int]:
    return [layout.at[column] for column in PLACE_COLUMNS if column in layout.at]


def _written(layout: Layout) -> list[int]:
    """Return the columns that the desk writes again, if it wrote this table."""
    found: dict[str, int] = {}
    for place in layout.others():
        found.setdefault(layout.titles[place].word, place)
    return [found[word] for word in PLAN_TITLES] if PLAN_TITLES <= found.keys() else []
