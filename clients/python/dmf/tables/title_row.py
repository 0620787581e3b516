"""The row of titles, which need not be the first one: the name of the sheet and its day may stand
above it, and a row of units below it."""

from __future__ import annotations

from collections.abc import Collection, Mapping, Sequence
from typing import NamedTuple

from ..quantity import readings
from ..text.spelling import cleaned, quoted_name
from .headings import ARCS, Form
from .sheet import Rows
from .titles import (
    HEAD,
    PLACE,
    USUAL,
    Title,
    is_unit,
    paired,
    says_capacity,
    says_end,
    title_of,
    unit_in,
)

# How many rows may stand above the titles; how many of them are told, with how many characters.
MOST_ABOVE, MOST_LEFT, LONGEST_LEFT = 15, 3, 60


class TitleRow(NamedTuple):
    """The titles of a table, their line, the first line below them, the rows from there on, and the
    row of the titles as it stands."""

    titles: tuple[Title, ...]
    line: int
    begin: int
    rows: Sequence[Sequence[str]]
    cells: Sequence[str] = ()
    notes: tuple[str, ...] = ()


def heading_at(sample: Rows, at: int) -> TitleRow:
    """Return the row of titles, which is `at` rows below the first one, with a row of units below
    it if there is one."""
    line, cells = sample.lines[at], list(sample.cells[at])
    notes = []
    if at:
        above = sample.cells[at - 1]
        if sample.lines[at - 1] == line - 1 and sum(map(bool, map(str.strip, above))) > 1:
            cells = [
                _joined(above[place], cell) if place < len(above) else cell
                for place, cell in enumerate(cells)
            ]
        notes.append(told_above(sample.lines[at], sample.cells[:at]))
    titles = list(map(title_of, cells))
    rows = sample.cells[at + 1 :]
    begin = line + 1
    if rows and has_units(rows[0]):
        begin = sample.lines[at + 1] + 1
        for place, cell in enumerate(rows[0][: len(titles)]):
            if not titles[place].unit:
                titles[place] = titles[place]._replace(unit=unit_in(cell))
        rows = rows[1:]
        notes.append(f"line {begin - 1} has the units")
    return TitleRow(tuple(titles), line, begin, rows, sample.cells[at], tuple(notes))


def told_above(line: int, rows: Sequence[Sequence[str]]) -> str:
    """Return the line that tells in which line the titles are, and what stands above and is left
    out."""
    texts = [next(cleaned(cell) for cell in row if cell.strip()) for row in rows]
    shown = ", ".join(quoted_name(text[:LONGEST_LEFT]) for text in texts[:MOST_LEFT])
    rest = ", .." if len(rows) > MOST_LEFT else ""
    left = f"; what stands above is left out: {shown}{rest}" if rows else ""
    return f"the titles are in line {line}{left}"


def _joined(above: str, cell: str) -> str:
    """Return a title, with what stands above it if it has nothing but a unit."""
    title = title_of(cell)
    return cell if title.word or not above.strip() else f"{above} {cell}".strip()


def has_units(row: Sequence[str]) -> bool:
    """Return True if a row has nothing but units."""
    cells = [cell for cell in row if cell.strip()]
    return (
        bool(cells)
        and all(map(is_unit, cells))
        and any(map(unit_in, cells))
        and not any(map(readings, cells))
    )


def title_row(sample: Rows, form: Form) -> int | None:
    """Return how many rows stand above the titles, if a row has titles of all places, no number,
    and no row of data above it."""
    for at, row in enumerate(sample.cells[: MOST_ABOVE + 1]):
        titles = list(map(title_of, row))
        if _has_all(titles, form) and (
            not any(map(readings, row)) or at == 0 and _is_no_arc(sample.cells, titles)
        ):
            return at
        if sum(map(bool, map(str.strip, row))) > len(form.places) and any(map(is_number, row)):
            return None
    return None


def _is_no_arc(rows: Sequence[Sequence[str]], titles: Sequence[Title]) -> bool:
    """Return True if a first row that has a number has titles all the same, as `from`, `to` and
    `2024`: none of its texts is a place below."""
    texts = {title.text for title in titles if not readings(title.text)}
    below = {cleaned(cell) for row in rows[1:] for cell in row}
    return bool(below) and texts.isdisjoint(below) and not paired(titles)


def has_places(cells: Sequence[str], form: Form) -> bool:
    """Return True if these titles say where all places are."""
    return _has_all(list(map(title_of, cells)), form)


def _has_all(titles: Sequence[Title], form: Form) -> bool:
    """Return True if titles say where all places are."""
    if form is ARCS:
        return all(
            any(_is_end(titles, place, role) for place in range(len(titles)))
            for role in form.places
        ) or bool(paired([title for title in titles if title.words[1:]]))
    words = [title.word for title in titles]
    return any(word in USUAL[PLACE] for word in words) and any(
        word in USUAL[kind] for kind in form.amounts for word in words
    )


def named_row(
    sample: Rows, form: Form, named: Mapping[str, str], ignored: Collection[str]
) -> int | None:
    """Return how many rows stand above the titles that were given; none if columns are given by
    their numbers, and no row has titles."""
    wanted = [cleaned(title) for title in named.values()]
    for at, row in enumerate(sample.cells[: MOST_ABOVE + 1]):
        if {*wanted} <= {*map(cleaned, row)}:
            return at
    top = title_row(sample, form)
    if top is None and not all(column_number(title) for title in wanted):
        top = 0
    return top


def column_number(title: str) -> int:
    """Return the number of the column that is called by it, as in `column 3`; 0 if it is not."""
    number = title.casefold().removeprefix("column").strip()
    return int(number) if number.isdecimal() and len(number) < 6 else 0


def _is_end(titles: Sequence[Title], place: int, role: str) -> bool:
    """Return True if the title of a column says that it has the places where rows begin, or where
    they end."""
    return titles[place].word in usual_words(titles, role) or says_end(titles[place], role)


def usual_words(titles: Sequence[Title], role: str) -> list[str]:
    """Return the usual titles of a column. In French and Spanish `a` is one beside `de`; otherwise
    it is a letter."""
    words = USUAL[role]
    return (
        [word for word in words if word != "a"]
        if role == HEAD and all(title.word != "de" for title in titles)
        else words
    )


def is_number(cell: str) -> bool:
    """Return True if a cell is a number, perhaps with a unit."""
    text = cell.strip()
    return bool(readings(text) or readings(text.rpartition(" ")[0]))


def fits(sample: Rows, form: Form) -> bool:
    """Return True if the titles of a table tell all columns of a form that it needs."""
    at = title_row(sample, form)
    titles = heading_at(sample, at).titles if at is not None else ()
    return any(
        title.word in USUAL[kind] or form is ARCS and says_capacity(title)
        for kind in form.amounts
        for title in titles
    )
