"""From rows to arcs, and to what is said of places: what each gives, takes or lets through."""

from __future__ import annotations

from collections.abc import Iterable, Sequence
from decimal import Decimal
from typing import NamedTuple, Optional

from ..errors import TableFault
from ..quantity import LARGEST, plain_text
from ..text.spelling import cleaned, quoted_name
from .amount_cells import is_limitless, no_number
from .amount_columns import Amounts
from .asides import Aside, kind_of, told_aside
from .headings import ARCS, PLACE_COLUMNS, Form, Layout
from .line_ends import lines_of
from .readers import (
    LONGEST_CELL,
    Numbers,
    Reader,
    Said,
    Table,
    amounts_of,
    are_plain,
    first_rows,
    layout_of_sheet,
    take_all,
)
from .row_states import RowStates, closed_rows, told_lines, told_states
from .sheet import Cells, Exact, Faults, Rows, Sheet, is_blank, name_in
from .table_file import ReadOptions
from .titles import CAPACITY, HEAD, LIMIT, MOST_WORDS, NAME, PLACE, TAIL

# What a missing capacity may be read as, beside 0.
UNLIMITED_WORD = "unlimited"
# What stands in the cell of a source or a sink that has no limit.
MARKS = {
    "x",
    "yes",
    "ja",
    "oui",
    "si",
    "s\xed",
    "true",
    "wahr",
    "vrai",
    "unlimited",
    "unbegrenzt",
    "\u2713",
}


class Term(NamedTuple):
    """What a place gives, takes or lets through (`supply`, `demand` or `limit`): at most
    `quantity`, or what its arcs can carry if that is None; and the line and the file that say so,
    if a table does. `is_idle` marks a supply or a demand of 0 in a table that also says other
    things about places: it counts only if no other place gives, or takes."""

    kind: str
    place: str
    quantity: Optional[Decimal]
    line: int = 0
    path: str = ""
    is_idle: bool = False


class _PlaceReader(Reader):
    """A reader of rows of places."""

    def __init__(self, sheet: Sheet, form: Form, layout: Layout, reading: ReadOptions) -> None:
        super().__init__(sheet, form, layout, reading)
        self.said: list[Said] = []

    def take(self, rows: Rows) -> None:
        for line, row in zip(*rows):
            if self.is_passed_over(line, row) or not self.are_cells_right(line, row):
                continue
            place = self.name(line, row, PLACE)
            cells = {
                column: cell
                for column in self.form.amounts
                if cleaned(cell := self.cell(row, column))
            }
            if len(self.form.amounts) == 1 and not cells:
                (column,) = self.form.amounts
                at = self.layout.at[column]
                count = (
                    f": the row has {len(row)} column{'s' * (len(row) != 1)}"
                    if at >= len(row)
                    else ""
                )
                self.faults.add(f"no {column}{count}", line, at + 1)
            elif place:
                self.said.append(Said(line, place, cells))


class Heading(NamedTuple):
    """A first row that was read as titles: the cells that would otherwise be a place and an amount
    of this kind."""

    kind: str
    place: str
    amount: str
    line: int
    path: str


def read_places(
    sheet: Sheet, kinds: Sequence[str], reading: ReadOptions, arcs: Amounts
) -> tuple[list[Term], list[Heading]]:
    """Return what a table of places says of these kinds, beside the capacities of the table of
    arcs, and the row of its titles. Raises a `TableFault` with all rows that cannot be read, and if
    there is none."""
    form = Form((PLACE,), tuple(kinds))
    layout = layout_of_sheet(sheet, form, {})
    reader = _PlaceReader(sheet, form, layout, reading)
    take_all(sheet, reader)
    terms = terms_of(reader.said, layout, reader.faults, reading.sign, arcs)
    reader.faults.judge()
    if not reader.said:
        raise TableFault("the table has titles, and no row below them")
    heading = Heading(
        kinds[0], layout.title(PLACE).text, layout.title(kinds[0]).text, layout.line, sheet.path
    )
    return terms, [heading] if layout.line else []


def terms_of(
    said: list[Said], layout: Layout, faults: Faults, sign: str, arcs: Amounts
) -> list[Term]:
    """Return what rows of places say, beside the capacities of the table of arcs: with their
    decimal sign where both can be, and in their unit."""
    terms: list[Term] = []
    for kind in PLACE_COLUMNS:
        rows = [row for row in said if kind in row.cells]
        marked = [
            row for row in rows if kind != LIMIT and cleaned(row.cells[kind]).casefold() in MARKS
        ]
        terms += (Term(kind, row.place, None, row.line, faults.path) for row in marked)
        numbered = [row for row in rows if row not in marked]
        amounts = amounts_of(kind, layout, faults.path)
        if numbered:
            amounts.add([row.cells[kind] for row in numbered])
        amounts.settle([row.line for row in numbered], faults, sign, arcs.sign)
        for place, cell in amounts.missing.items():
            faults.add(
                f"{quoted_name(cell)} {no_number(cell)}", numbered[place].line, amounts.column
            )
        amounts.judge_beside(arcs, faults)
        for place, row in enumerate(numbered):
            quantity = amounts.quantity(place)
            is_idle = not quantity and kind != LIMIT and len(layout.at) > 2
            terms.append(Term(kind, row.place, quantity, row.line, faults.path, is_idle))
    return terms


class _ArcReader(Reader):
    """A reader of rows of arcs, and of places among them."""

    def __init__(self, sheet: Sheet, layout: Layout, reading: ReadOptions) -> None:
        super().__init__(sheet, ARCS, layout, reading)
        self.table = Table(sheet, layout, amounts_of(CAPACITY, layout, sheet.path))
        self.numbers = Numbers(reading.raw_names)
        self.label = layout.at.get(NAME)
        self.labels = Cells()
        self.needed = max(layout.at[column] for column in (TAIL, HEAD, CAPACITY))
        self.states = RowStates(layout)
        self.asides: list[Aside] = []
        # Once a row was not taken together with others, there may be more.
        self.titles_again: list[int] = []

    def take(self, rows: Rows) -> None:
        """Take rows: all together if they are plain, which is several times as fast."""
        while rows.lines and rows.lines[0] < self.layout.begin:
            rows = rows.after_first()
        if not rows.lines or self._take_together(rows):
            return
        is_many = False
        for fewer in rows.smaller():
            is_many = True
            self.take(fewer)
        for line, row in () if is_many else zip(*rows):
            self._take_row(line, row)

    def _take_together(self, rows: Rows) -> bool:
        widths, lines, at = rows.widths(), rows.lines, self.layout.at
        if (
            min(widths) <= self.needed
            or self.width is not None
            and max(widths) > self.width
            or not isinstance(lines, range)
        ):
            return False
        if self.heading and rows.has(at[CAPACITY], self.heading[at[CAPACITY]]):
            return False
        labels = self._labels(rows)
        ends = None if labels is None else rows.numbered((at[TAIL], at[HEAD]), self.numbers)
        if labels is None or ends is None:
            return False
        self.labels.add(labels, len(rows))
        for column, more in zip((self.table.tails, self.table.heads), ends):
            column.extend(more)
        self.table.add_lines(lines)
        rows.put_amounts(self.table.amounts, at[CAPACITY])
        for role, place in self.states.columns.items():
            self.states.cells[role] += rows.column(place)
        if self.width is None:
            self._keep(place for place in range(max(widths)) if rows.has_something(place))
        return True

    def _labels(self, rows: Rows) -> str | None:
        """Return the names of rows, each in a line; None if one cannot be read."""
        text = "\n" * (len(rows) - 1) if self.label is None else rows.text(self.label)
        if are_plain(text, len(rows)):
            return text
        cells = rows.column(self.label or 0)
        if max(map(len, cells)) > LONGEST_CELL or not "".join(cells).isprintable():
            return None
        return "\n".join(
            cleaned(name_in(it.strip(), is_raw=self.reading.raw_names)) for it in cells
        )

    def _keep(self, places: Iterable[int]) -> None:
        """Note which columns of a table without titles have something, and are read for nothing."""
        self.table.others.update({*places} - {*self.layout.at.values()})

    def _take_row(self, line: int, row: list[str]) -> None:
        if self.is_passed_over(line, row):
            if line >= self.layout.begin and not is_blank(row):
                self.titles_again.append(line)
            return
        if self._is_aside(line, row) or not self.are_cells_right(line, row):
            return
        if not self._is_of_place(line, row):
            self._take_arc(line, row)

    def _is_aside(self, line: int, row: list[str]) -> bool:
        """Return True if a row may be a total or a note, which is judged when all rows are
        taken."""
        ends = [cleaned(self.cell(row, column)) for column in (TAIL, HEAD)]
        amount = self.cell(row, CAPACITY)
        kind = "" if all(ends) or max(map(len, row)) > LONGEST_CELL else kind_of(row, ends, amount)
        if kind:
            self.asides.append(Aside(line, row, kind, amount, len(self.table.tails)))
        return bool(kind)

    def _judge_asides(self) -> None:
        """Tell the totals and notes that are left out. What is neither has the faults of a row."""
        for aside in self.asides:
            told = told_aside(aside, self.table)
            if told is not None:
                self.table.notes.append(told)
            elif self.are_cells_right(aside.line, aside.row):
                self._judge_row(aside.line, aside.row)

    def _judge_row(self, line: int, row: list[str]) -> None:
        """Note the faults of a row that is not whole."""
        for column in TAIL, HEAD:
            self.name(line, row, column)
        if self.layout.at[CAPACITY] >= len(row):
            count = f"the row has {len(row)} column{'s' * (len(row) != 1)}"
            self.faults.add(f"no {CAPACITY}: {count}", line, self.layout.at[CAPACITY] + 1)

    def _take_arc(self, line: int, row: list[str]) -> None:
        before = self.faults.count
        self._judge_row(line, row)
        amount = self.cell(row, CAPACITY)
        label = (
            self.name(line, row, NAME)
            if self.label is not None and cleaned(self.cell(row, NAME))
            else ""
        )
        if self.faults.count > before and not amount.strip():
            return
        for role in self.states.columns:
            self.states.cells[role].append(self.cell(row, role))
        self.labels.add(label, 1)
        numbers = [self.numbers.number(self.cell(row, column)) for column in (TAIL, HEAD)]
        self.table.tails.append(numbers[0])
        self.table.heads.append(numbers[1])
        self.table.add_lines(range(line, line + 1))
        self.table.amounts.add([amount if isinstance(amount, Exact) else amount.strip()])
        if self.width is None:
            self._keep(place for place, cell in enumerate(row) if cell.strip())

    def _is_of_place(self, line: int, row: list[str]) -> bool:
        """Return True if a row is of a place, which has no head and no capacity. If so, takes
        it."""
        if cleaned(self.cell(row, HEAD)) or cleaned(self.cell(row, CAPACITY)):
            return False
        cells = {
            column: self.cell(row, column)
            for column in PLACE_COLUMNS
            if cleaned(self.cell(row, column))
        }
        if not cells:
            return False
        place = self.name(line, row, TAIL)
        if place:
            self.table.said.append(Said(line, place, cells))
        return True

    def end(self) -> Table:
        """Return the table. Raises a `TableFault` if a row has a fault."""
        table = self.table
        table.labels = self.labels if self.labels.has_some() else ()
        table.places, table.respelled, table.is_raw = (
            self.numbers.places,
            self.numbers.respelled,
            self.reading.raw_names,
        )
        if self.titles_again:
            told = ", ".join(map(str, self.titles_again[:9])) + ", .." * (
                len(self.titles_again) > 9
            )
            table.notes.append(f"the titles stand once more, and are passed over: line {told}")
        table.amounts.settle(table.lines, self.faults, self.reading.sign)
        table.notes += table.amounts.notes
        self._judge_asides()
        self._read_missing()
        table.states = self.states.settled(table.lines, self.faults)
        table.notes += told_states(table.states, self.layout, table.lines, table.sheet.row_names)
        table.amounts.put(closed_rows(table.states), 0)
        if self.faults.count:
            # What is wrong with the places among the rows is told with it.
            terms_of(table.said, self.layout, self.faults, self.reading.sign, table.amounts)
        self.faults.judge()
        return table

    def _read_missing(self) -> None:
        """Read capacities that are not there as was asked for. Otherwise they are a fault."""
        amounts, lines = self.table.amounts, self.table.lines
        closed = {*closed_rows(self.states.settled(lines, Faults("")))}
        missing = {at: cell for at, cell in amounts.missing.items() if at not in closed}
        limitless = [at for at, cell in missing.items() if is_limitless(cell)]
        if limitless:
            self._put_unlimited(limitless, "rows without a limit")
        missing = {at: cell for at, cell in missing.items() if not is_limitless(cell)}
        if not missing:
            return
        first, *more = sorted(lines[place] for place in missing)
        if not self.reading.missing:
            words = [quoted_name(cell) for cell in dict.fromkeys(missing.values()) if cell]
            is_one = "is not a number" if len(words) == 1 else "are not numbers"
            told = f"{' and '.join(words[:MOST_WORDS])} {is_one}" if words else f"no {CAPACITY}"
            how = (
                "Give --missing 0 to read such cells as 0, or --missing unlimited to read them as "
                "without a limit"
            )
            self.faults.add(f"{told}. {how}", first, self.layout.at[CAPACITY] + 1, more)
            return
        if self.reading.missing == UNLIMITED_WORD:
            self._put_unlimited(missing, "missing capacities")
        else:
            amounts.put(missing, 0)
            told = told_lines([first, *more], self.table.sheet.row_names)
            self.table.notes.append(f"missing capacities are read as 0: {told}")

    def _put_unlimited(self, places: Iterable[int], what: str) -> None:
        """Give the capacities at these places more than all others have together."""
        amounts, rows = self.table.amounts, sorted(places)
        unlimited = {*self.table.unlimited}
        others = (it for at, it in enumerate(amounts.numbers) if at not in unlimited)
        amounts.put(rows, min(10 ** (len(str(sum(others))) + 1), LARGEST))
        self.table.unlimited = sorted({*unlimited, *rows})
        shown = plain_text(amounts.quantity(rows[0]))
        lines = [self.table.lines[at] for at in rows]
        self.table.notes.append(
            f"{what} are read as {shown}, which is more than all others together: "
            f"{told_lines(lines, self.table.sheet.row_names)}"
        )


def arcs_in(sheet: Sheet, reading: ReadOptions) -> Sheet:
    """Return a sheet with a row for each arc: that of lines with their ends, or the sheet as it
    is. Raises a `TableFault`."""
    first_rows(sheet)
    return lines_of(sheet, reading)


def read_arcs(sheet: Sheet, reading: ReadOptions) -> Table:
    """Return the table of arcs of a sheet. Raises a `TableFault` with all rows that cannot be read,
    and if there is none."""
    sheet = arcs_in(sheet, reading)
    layout = layout_of_sheet(sheet, ARCS, reading.titles, reading.ignored)
    reader = _ArcReader(sheet, layout, reading)
    try:
        take_all(sheet, reader)
        table = reader.end()
    except TableFault as fault:
        for told in (fault, *fault.others):
            is_first = not layout.line and told.line == first_rows(sheet).lines[0]
            told.reason += ARCS.hint if is_first else ""
        raise
    table.begins_bare = not layout.line
    is_written = bool(layout.line) and not reading.titles and not sheet.taken
    table.heading = reader.heading if is_written else []
    if not table.tails:
        raise TableFault("the table has titles, and no row below them")
    return table
