"""Rosters: tables whose rows are people and whose columns are shifts. An x says that somebody can
take a shift, a row says how many people each shift needs, and a column how much each person may
work. A column of wards parts the people and the needs of each shift."""

from __future__ import annotations

from collections.abc import Iterator, Sequence
from dataclasses import dataclass
from typing import NamedTuple, Optional

from ..errors import TableFault
from ..quantity import readings
from ..text.spelling import cleaned, quoted_name
from .column_question import ColumnQuestion
from .headings import ARCS
from .matrices import is_corner
from .roster_words import day_in, is_cross, is_limit, is_mark, is_ward, names_needs
from .setting_question import SettingQuestion
from .sheet import Rows, Sheet, is_blank
from .table_file import ReadOptions
from .title_row import MOST_ABOVE, column_number, has_places
from .titles import CAPACITY, HEAD, TAIL, Title, is_index, is_other, names_total, title_of

# How many columns must have a mark before a table is looked at as a roster.
LEAST_SHIFTS = 2


class RosterRow(NamedTuple):
    """A row and the line in which it begins."""

    line: int
    row: list[str]

    def cell(self, place: int) -> str:
        return self.row[place] if place < len(self.row) else ""


class Shift(NamedTuple):
    """A column of a shift: its position, its title and its day."""

    place: int
    title: str
    day: str


@dataclass(frozen=True)
class Roster:
    """A roster: the line of the titles and the titles, the positions of the columns of people, of
    limits and of wards (None if there is none), the shifts, the rows of needs and of people, and
    what was left out."""

    line: int
    titles: list[Title]
    name: int
    limit: Optional[int]
    ward: Optional[int]
    shifts: list[Shift]
    needs: list[RosterRow]
    people: list[RosterRow]
    notes: list[str]

    def called(self, place: int) -> str:
        """Return a column as messages name it."""
        text = self.titles[place].text if place < len(self.titles) else ""
        return quoted_name(text) if text else f"column {place + 1}"


def roster_in(sheet: Sheet, reading: ReadOptions) -> Optional[Roster]:
    """Return the roster in a sheet, or None if it has none. Raises a `TableFault`."""
    if not _may_be(sheet.sample(), reading):
        return None
    lines = [
        RosterRow(line, row)
        for rows in sheet.read()
        for line, row in zip(*rows)
        if not is_blank(row)
    ]
    return _RosterFinder(lines, reading).roster()


def refuse_options(reading: ReadOptions, *, is_matrix: bool) -> None:
    """Raise a `TableFault` if an option was given that only rosters read, or matrices too."""
    if reading.needs and not is_matrix:
        raise TableFault("--needs is for rosters and matrices, and this is neither: leave it out")
    for option in "shift", "daily":
        if getattr(reading, option):
            raise TableFault(f"--{option} is for rosters, and this is none: leave it out")


def _may_be(sample: Rows, reading: ReadOptions) -> bool:
    """Return True if the first rows have marks in several columns, or an option names the row of
    needs, and no titles of arcs."""
    if reading.is_matrix or reading.titles.keys() & {TAIL, HEAD}:
        return False
    if reading.needs:
        return True
    for row in sample.cells[: MOST_ABOVE + 1]:
        if has_places(row, ARCS) or row and is_corner(row[0]):
            return False
    marked = {place for row in sample.cells for place, cell in enumerate(row) if is_cross(cell)}
    return len(marked) >= LEAST_SHIFTS


class _RosterFinder:
    """A search for where things stand in the rows of a roster."""

    def __init__(self, lines: list[RosterRow], reading: ReadOptions) -> None:
        self.lines = lines
        self.reading = reading
        self.needs: list[RosterRow] = []
        self.name = 0
        # The day of each column, if a row above the titles has them.
        self.days: dict[int, str] = {}

    def roster(self) -> Optional[Roster]:
        """Return the roster, or None if no row can have needs."""
        if not self._find_needs():
            return None
        head = self._head()
        titles = [*map(title_of, self._joined(head))]
        ignored = {at for at in range(self._width()) if self._is_ignored(titles, at)}
        people = [it for it in self.lines[head + 1 :] if it not in self.needs]
        totals = [it for it in people if names_total(it.cell(self.name))]
        people = [it for it in people if it not in totals]
        notes = [f"line {it.line} is a total, and is left out" for it in totals]
        limit = self._limit(titles, people, ignored)
        shifts = [
            at
            for at in range(self._width())
            if at not in (self.name, limit) and at not in ignored and self._is_shift(at, people)
        ]
        found = self._shifts(titles, shifts)
        ward = self._ward(titles, {*shifts, limit, self.name})
        if head > bool(self.days):
            notes.append(f"the titles are in line {self.lines[head].line}")
        return Roster(
            self.lines[head].line, titles, self.name, limit, ward, found, self.needs, people, notes
        )

    def _width(self) -> int:
        return max(len(it.row) for it in self.lines)

    def _find_needs(self) -> bool:
        """Find the rows of needs and the column of the cell that names them. Raises a question if
        none is named."""
        wanted = cleaned(self.reading.needs)
        for it in self.lines:
            places = [
                at
                for at, cell in enumerate(it.row)
                if (cleaned(cell) == wanted if wanted else names_needs(cell))
            ]
            if places and _numbers(it):
                if self.needs and self.name != places[0]:
                    raise TableFault("the rows of needs are named in two columns", it.line)
                self.needs.append(it)
                self.name = places[0]
        if not self.needs:
            if wanted:
                raise TableFault(f"no row of needs is called {quoted_name(wanted)}")
            self._ask_for_needs()
        return bool(self.needs)

    def _ask_for_needs(self) -> None:
        """Ask which row has the needs, if a row can have them."""
        answers = [
            (next(filter(None, map(cleaned, it.row))), f"as in {', '.join(_numbers(it)[:3])}")
            for it in self.lines
            if len(_numbers(it)) > 1
            and not any(map(is_cross, it.row))
            and not readings(next(filter(None, map(cleaned, it.row))))
        ]
        if answers:
            raise SettingQuestion(
                "which row says how many people each shift needs?", "needs", answers
            )

    def _head(self) -> int:
        """Return which row has the titles: the last one above all marks and needs whose cells are
        texts."""
        first = next(
            at for at, it in enumerate(self.lines) if it in self.needs or any(map(is_cross, it.row))
        )
        needed = {at for it in self.needs for at, _ in _numbered(it)}
        least = min(len(needed), LEAST_SHIFTS)
        for at in range(first - 1, -1, -1):
            if sum(is_mark(self.lines[at].cell(place)) is None for place in needed) >= least:
                return at
        raise TableFault("no row has the titles of the shifts", self.lines[first].line)

    def _joined(self, head: int) -> list[str]:
        """Return the titles, with the days above them, which stand once for several columns."""
        row = [self.lines[head].cell(at) for at in range(self._width())]
        needed = sorted({at for it in self.needs for at, _ in _numbered(it)})
        above = [cleaned(self.lines[head - 1].cell(at)) if head else "" for at in range(len(row))]
        days = {at: above[at] for at in needed if above[at]}
        if len(days) < 2 and not any(map(day_in, days.values())):
            return row
        day = ""
        for at in range(min(days), len(row)):
            day = above[at] or day
            if at in needed and row[at].strip():
                row[at], self.days[at] = f"{day} {row[at]}", day
        return row

    def _is_ignored(self, titles: Sequence[Title], at: int) -> bool:
        names = [*map(cleaned, self.reading.ignored)]
        text = titles[at].text if at < len(titles) else ""
        return text in names or any(column_number(it) == at + 1 for it in names)

    def _limit(
        self, titles: Sequence[Title], people: Sequence[RosterRow], ignored: set[int]
    ) -> Optional[int]:
        """Return the column of what people may work, or None. Asks if several are possible, or if
        no title says it."""
        named = self.reading.titles.get(CAPACITY)
        columns = [at for at in range(len(titles)) if at != self.name and at not in ignored]
        if named is not None:
            found = [at for at in columns if titles[at].text == cleaned(named)]
            found = found or [at for at in columns if column_number(named) == at + 1]
            if len(found) != 1:
                raise TableFault(f"there is no column {quoted_name(named)} of limits")
            return found[0]
        found = [at for at in columns if is_limit(titles[at])]
        if len(found) == 1:
            return found[0]
        likely = found or [
            at
            for at in columns
            if not is_index(titles[at]) and not is_other(titles[at]) and _has_numbers(people, at)
        ]
        if not likely:
            return None
        cells = [[it.cell(at) for it in people if it.cell(at).strip()] for at in likely]
        names = [titles[at].text or f"column {at + 1}" for at in likely]
        raise ColumnQuestion(
            "which column says how much each person may work? No title says it; name it by"
            " --capacity, or give --ignore for each that does not",
            people[0].line,
            CAPACITY,
            [*zip(names, cells)],
            True,
        )

    def _is_shift(self, at: int, people: Sequence[RosterRow]) -> bool:
        """Return True if a column is that of a shift: it has a need or a mark. Raises a
        `TableFault` if it has marks and no need."""
        needed = [it for it in self.needs if it.cell(at).strip()]
        marked = [it for it in people if is_cross(it.cell(at))]
        if marked and not needed:
            raise TableFault(
                f"column {at + 1} has marks, as in line {marked[0].line}, and no row says how many"
                " people it needs: write 0 if it needs nobody, or leave the column out by --ignore",
                self.needs[0].line,
            )
        return bool(needed) and bool(marked or _numbers_at(self.needs, at))

    def _shifts(self, titles: Sequence[Title], places: Sequence[int]) -> list[Shift]:
        texts = [titles[at].text for at in places]
        line = self.needs[0].line
        if not places:
            raise TableFault("no column is that of a shift", line)
        if untitled := [at + 1 for at, text in zip(places, texts) if not text]:
            raise TableFault(f"column {untitled[0]} has needs, and no title", line)
        if twice := next((text for text in texts if texts.count(text) > 1), ""):
            raise TableFault(f"two columns have the title {quoted_name(twice)}", line)
        days = [self.days.get(at, "") for at in places] if self.days else days_of(texts)
        return [Shift(at, text, day) for at, text, day in zip(places, texts, days)]

    def _ward(self, titles: Sequence[Title], taken: set[Optional[int]]) -> Optional[int]:
        """Return the column of wards, if rows of needs name theirs. Raises a `TableFault` if
        several rows of needs name none."""
        found = [at for at, title in enumerate(titles) if at not in taken and is_ward(title)]
        if len(found) == 1 and any(it.cell(found[0]).strip() for it in self.needs):
            return found[0]
        if len(self.needs) > 1:
            raise TableFault(
                f"lines {self.needs[0].line} and {self.needs[1].line} both say how many people"
                " shifts need; give the column with their wards the title 'ward'",
                self.needs[0].line,
            )
        return None


def days_of(titles: Sequence[str]) -> list[str]:
    """Return the day of each shift by its title: the day that it names, or else its first word."""
    days = [*map(day_in, titles)]
    if any(days):
        return [day or title for day, title in zip(days, titles)]
    return [title.split()[0] for title in titles]


def _numbered(line: RosterRow) -> Iterator[tuple[int, str]]:
    """Yield the positions and texts of the cells that are numbers."""
    for at, cell in enumerate(line.row):
        if readings(cell.strip()):
            yield at, cell.strip()


def _numbers(line: RosterRow) -> list[str]:
    return [cell for _, cell in _numbered(line)]


def _numbers_at(lines: Sequence[RosterRow], at: int) -> list[str]:
    return [cell for it in lines if readings(cell := it.cell(at).strip())]


def _has_numbers(people: Sequence[RosterRow], at: int) -> bool:
    """Return True if a column has numbers that are not marks, and nothing else."""
    cells = [cell for it in people if (cell := it.cell(at).strip())]
    return all(map(readings, cells)) and any(is_mark(cell) is None for cell in cells)
