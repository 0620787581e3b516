"""The arcs of a roster. Hours flow from each person, at most those that they may work, on to each
of their days, at most as many shifts as one person works in a day, to the shifts of that day, and
from each shift to its needs. All numbers are multiples of a shift, so nobody gets a part of one."""

from __future__ import annotations

from collections.abc import Iterator, Sequence
from dataclasses import dataclass, field, replace
from decimal import Decimal
from functools import partial
from typing import Optional

from ..errors import TableFault
from ..quantity import plain_text
from ..text.spelling import cleaned, quoted_name
from .amount_cells import is_limitless, is_missing, read_cell
from .readers import CrossTables, name_of
from .roster_words import SAID_OF_ROSTERS, counts_shifts, is_mark, unit_of_limits
from .rosters import Roster, RosterRow, Shift, refuse_options, roster_in
from .setting_question import SettingQuestion
from .sheet import Exact, Faults, Rows, Sheet, cell_of
from .table_file import ReadOptions

PLACE_TITLES = ["place", "supply", "demand"]
# How many days a line names.
MOST_DAYS = 7
ALL = "all"


@dataclass
class _Person:
    """A person: the line, what they may work (None without a limit), and the shifts that they can
    take, each with its place in the plan."""

    line: int
    limit: Optional[Decimal]
    shifts: dict[str, Shift] = field(default_factory=dict)


def roster_tables(sheet: Sheet, reading: ReadOptions) -> Optional[CrossTables]:
    """Return the tables of a roster, or None if a sheet has none. Raises a `TableFault`, and a
    question if an option must say something."""
    roster = None if sheet.taken else roster_in(sheet, reading)
    if roster is None:
        refuse_options(reading, is_matrix=False)
        return None
    return _RosterMaker(sheet, roster, reading).tables()


class _RosterMaker:
    """A maker of the tables of a roster."""

    def __init__(self, sheet: Sheet, roster: Roster, reading: ReadOptions) -> None:
        self.sheet, self.roster, self.reading = sheet, roster, reading
        self.faults = Faults(sheet.path, [title.text for title in roster.titles])
        self.notes = list(roster.notes)
        self.length = self._length()
        self.most = self._most_a_day()
        self.people: dict[str, _Person] = {}
        self.needs: dict[str, tuple[int, Decimal]] = {}

    @property
    def unit(self) -> str:
        limit = self.roster.limit
        if limit is not None:
            return unit_of_limits(self.roster.titles[limit])
        return "shifts" if self.length == 1 else ""

    def tables(self) -> CrossTables:
        """Return the tables. Raises a `TableFault` with all cells that cannot be read."""
        for row in self.roster.needs:
            self._take_needs(row)
        for row in self.roster.people:
            self._take_person(row)
        self.faults.judge()
        self._refuse_doubles()
        idle = [quoted_name(name) for name, person in self.people.items() if not person.shifts]
        if idle:
            self.notes.append(f"no shift has a mark of {', '.join(idle)}")
        notes = (*self.sheet.notes, *self.notes)
        arcs = replace(
            self.sheet, read=partial(_read, [*self._arc_rows()]), notes=notes, taken=self._taken()
        )
        places = Sheet(self.sheet.path, partial(_read, [*self._place_rows()]), gives_way=True)
        return CrossTables(arcs, places, [*self.people, *self.needs])

    # Options.

    def _length(self) -> Decimal:
        """Return how much of a limit a shift takes. Asks if nothing says it."""
        limit = self.roster.limit
        if self.reading.shift:
            return self.reading.shift
        if limit is None or counts_shifts(self.roster.titles[limit]):
            return Decimal(1)
        raise SettingQuestion(
            f"how long is a shift? People may work what {self.roster.called(limit)} says; an x is"
            f" one shift, and {self._needs_cell()} counts people",
            "shift",
        )

    def _needs_cell(self) -> str:
        return quoted_name(cleaned(self.roster.needs[0].cell(self.roster.name)))

    def _days(self) -> list[str]:
        """Return the days that have several shifts."""
        days = [shift.day for shift in self.roster.shifts]
        return [day for day in dict.fromkeys(days) if days.count(day) > 1]

    def _most_a_day(self) -> Optional[int]:
        """Return the most shifts of one person in a day, or None if there is no limit. Asks if a
        day has several shifts and no option says it."""
        if not (days := self._days()) or self.reading.daily == ALL:
            return None
        if self.reading.daily:
            return int(self.reading.daily)
        raise SettingQuestion(
            f"how many shifts of a day may one person work? The days are {_listed(days)}", "daily"
        )

    # Cells.

    def _take_needs(self, row: RosterRow) -> None:
        for shift in self.roster.shifts:
            cell = row.cell(shift.place)
            number = None if is_missing(cell) else self._number(row, shift.place)
            number = number or Decimal(0)
            if number % 1:
                self._fault(row, shift.place, "is not a whole number of people")
            name = self._shift_name(row, shift)
            if name in self.needs:
                self.faults.add(f"the needs of {quoted_name(name)} stand twice", row.line)
            self.needs[name] = row.line, number * self.length

    def _take_person(self, row: RosterRow) -> None:
        marks = {shift: is_mark(row.cell(shift.place)) for shift in self.roster.shifts}
        if sum(bool(cell.strip()) for cell in row.row) == 1 and not any(marks.values()):
            told = quoted_name(next(filter(None, map(cleaned, row.row)))[:60])
            self.notes.append(f"line {row.line} has nothing but {told}, and is left out")
            return
        name = self._name(row)
        limit = self._limit(row)
        person = self.people.setdefault(name, _Person(row.line, limit))
        if person.line != row.line and (self.roster.ward is None or person.limit != limit):
            self.faults.add(f"{quoted_name(name)} stands in line {person.line} already", row.line)
        for shift, mark in marks.items():
            if mark is None:
                self._fault(row, shift.place, "does not say whether somebody can take a shift")
            elif mark:
                self._add_mark(row, person, shift)

    def _add_mark(self, row: RosterRow, person: _Person, shift: Shift) -> None:
        name = self._shift_name(row, shift)
        if name not in self.needs:
            self.faults.add(f"no row has the needs of {quoted_name(name)}", row.line, shift.place)
        person.shifts[name] = shift

    def _name(self, row: RosterRow) -> str:
        cell = row.cell(self.roster.name)
        try:
            name = name_of(cell, is_raw=self.reading.raw_names)
        except ValueError as fault:
            self.faults.add(f"{quoted_name(cell)} {fault}", row.line, self.roster.name + 1)
            return ""
        if not name:
            self.faults.add("no name", row.line, self.roster.name + 1)
        return name

    def _shift_name(self, row: RosterRow, shift: Shift) -> str:
        """Return the name of a shift in the ward of a row."""
        title = name_of(shift.title, is_raw=self.reading.raw_names)
        if self.roster.ward is None:
            return title
        ward = cleaned(row.cell(self.roster.ward))
        if not ward:
            self.faults.add("no ward", row.line, self.roster.ward + 1)
        return f"{title}, {ward}"

    def _limit(self, row: RosterRow) -> Optional[Decimal]:
        """Return what a person may work, in whole shifts; None if there is no limit."""
        place = self.roster.limit
        if place is None or is_limitless(row.cell(place)):
            return None
        if is_missing(row.cell(place)):
            if not self.reading.missing:
                how = "Give --missing 0 to read such cells as 0, or write unlimited"
                self.faults.add(f"no limit. {how}", row.line, place + 1)
            return Decimal(0) if self.reading.missing == "0" else None
        number = self._number(row, place) or Decimal(0)
        whole = number // self.length * self.length
        if whole != number:
            told = f"{plain_text(whole)} of {plain_text(number)}"
            name = quoted_name(cleaned(row.cell(self.roster.name)))
            self.notes.append(f"line {row.line}: the whole shifts of {name} are {told} {self.unit}")
        return whole

    def _number(self, row: RosterRow, place: int) -> Optional[Decimal]:
        found, _ = read_cell(row.cell(place))
        numbers = {*found.values()}
        if self.reading.sign in found:
            return found[self.reading.sign]
        if len(numbers) > 1:
            self._fault(row, place, "may have a decimal point or a decimal comma: give --decimal")
        elif not numbers or min(numbers) < 0:
            self._fault(row, place, "is not a number of at least 0")
        else:
            return numbers.pop()
        return None

    def _fault(self, row: RosterRow, place: int, reason: str) -> None:
        self.faults.add(f"{quoted_name(cleaned(row.cell(place)))} {reason}", row.line, place + 1)

    def _refuse_doubles(self) -> None:
        """Refuse a person whose name is also that of a shift, or of a person's day."""
        days = {
            self._day(name, shift)
            for name, it in self.people.items()
            for shift in it.shifts.values()
        }
        both = [name for name in self.people if name in self.needs or name in days]
        both += [name for name in self.needs if name in days]
        if both:
            line = self.people[both[0]].line if both[0] in self.people else self.roster.line
            raise TableFault(f"a person and a shift are both called {quoted_name(both[0])}", line)

    # Rows.

    def _day(self, name: str, shift: Shift) -> str:
        return f"{name} on {shift.day}"

    def _arc_rows(self) -> Iterator[tuple[int, list[str]]]:
        capacity = f"capacity [{self.unit}]" if self.unit else "capacity"
        yield self.roster.line, ["from", "to", capacity]
        one = Exact(plain_text(self.length))
        for name, person in self.people.items():
            leaves = {it: self._day(name, shift) for it, shift in person.shifts.items()}
            if self.most is None:
                leaves = dict.fromkeys(leaves, name)
            else:
                most = Exact(plain_text(self.length * self.most))
                for day in dict.fromkeys(leaves.values()):
                    yield person.line, [*map(self._cell, (name, day)), most]
            for shift_name, tail in leaves.items():
                yield person.line, [*map(self._cell, (tail, shift_name)), one]

    def _place_rows(self) -> Iterator[tuple[int, list[str]]]:
        yield self.roster.line, PLACE_TITLES
        for name, person in self.people.items():
            limit = "x" if person.limit is None else Exact(plain_text(person.limit))
            yield person.line, [self._cell(name), limit, ""]
        for name, (line, need) in self.needs.items():
            yield line, [self._cell(name), "", Exact(plain_text(need))]

    def _cell(self, name: str) -> str:
        return cell_of(name, is_raw=self.reading.raw_names)

    def _taken(self) -> str:
        roster = self.roster
        most = f", at most {roster.called(roster.limit)} each" if roster.limit is not None else ""
        length = f" of {plain_text(self.length)} {self.unit}" if self.length != 1 else ""
        ward = f", wards from {roster.called(roster.ward)}" if roster.ward is not None else ""
        days = f" ({self.most} a day, of {_listed(self._days())})" if self.most else ""
        return (
            f"{SAID_OF_ROSTERS}people from {roster.called(roster.name)}{most}{ward}, needs from"
            f" {self._needs_cell()}, {len(roster.shifts)} shifts{length}{days}{self._kept()}"
        )

    def _kept(self) -> str:
        roster = self.roster
        read = {roster.name, roster.limit, roster.ward, *(it.place for it in roster.shifts)}
        left = [at for at, it in enumerate(roster.titles) if at not in read and it.text]
        return f"; not read: {', '.join(map(roster.called, left))}" if left else ""


def _listed(days: Sequence[str]) -> str:
    return ", ".join(map(quoted_name, days[:MOST_DAYS])) + ", .." * (len(days) > MOST_DAYS)


def _read(rows: Sequence[tuple[int, list[str]]]) -> Iterator[Rows]:
    yield Rows([line for line, _ in rows], [list(cells) for _, cells in rows])
