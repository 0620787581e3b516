"""The columns of a table among which is chosen: those that may still be taken for something, and
the question if two may be meant."""

from __future__ import annotations

from collections.abc import Collection, Mapping, Sequence

from ..errors import TableFault
from ..text.spelling import cleaned, quoted_name
from .column_question import ColumnQuestion
from .column_samples import ColumnSample
from .headings import ARCS, MOST_LISTED, Form, name_of_column
from .title_row import TitleRow, column_number
from .titles import CAPACITY, HEAD, TAIL, USUAL, is_share

# What a question asks for, and how the line that tells what was taken calls a column.
_SOUGHT = {
    TAIL: "has the places where rows begin (from)",
    HEAD: "has the places where rows end (to)",
}


class ColumnCandidates:
    """The columns of a table with these titles, or with none. Some are given by their titles, and
    others ignored."""

    def __init__(
        self, form: Form, heading: TitleRow, named: Mapping[str, str], ignored: Collection[str]
    ) -> None:
        self.form = form
        self.titles = heading.titles
        self.heading = heading
        rows = heading.rows or ([heading.cells] if heading.cells else [])
        self.sample = ColumnSample(rows, heading.titles)
        self.width = self.sample.width
        self.given = {column: self._place_of(title) for column, title in named.items()}
        self.ignored = [self._place_of(title) for title in ignored] if form is ARCS else []

    def _place_of(self, title: str) -> int:
        """Return the column that is called by this title, or by its number. Raises a `TableFault`
        if none is, or two are."""
        texts = [title.text for title in self.titles]
        wanted = cleaned(title)
        if texts.count(wanted) == 1:
            return texts.index(wanted)
        if wanted not in texts and 0 < column_number(wanted) <= self.width:
            return column_number(wanted) - 1
        if column_number(wanted) and wanted not in texts:
            reason = f"there is no {wanted}: the table has {self.width} columns"
            raise TableFault(reason, self.heading.line)
        which = "two columns have" if wanted in texts else "no column has"
        listed = ", ".join(quoted_name(text) for text in texts[:MOST_LISTED])
        reason = f"{which} the title {quoted_name(title)}; the titles are {listed}"
        raise TableFault(reason, self.heading.line)

    def free(self, at: Mapping[str, int]) -> list[int]:
        """Return the columns that may still be taken for something."""
        return [
            place
            for place in range(self.width)
            if place not in at.values() and place not in self.ignored
        ]

    def numeric(self, at: Mapping[str, int]) -> list[int]:
        """Return the columns with numbers that may still be taken for something, but counters of
        rows and percentages."""
        return [
            place
            for place in self.free(at)
            if not self.sample.is_text(place)
            and not is_share(self.sample.title(place))
            and not self.sample.counts_rows(place)
        ]

    def question(self, column: str, places: Sequence[int], why: str) -> ColumnQuestion:
        """Return the question which of these columns is the one that is looked for."""
        is_arcs = self.form is ARCS
        sought = _SOUGHT.get(column, f"is the {column}")
        title = USUAL[column][0]
        if not is_arcs:
            how = f"give it the title {title!r}, and the others none like it"
        elif self.titles:
            how = f"name it by --{column}, or give it the title {title!r}"
        else:
            how = f"name it by --{column}"
        reason = f"which column {sought}? {why[:1].upper()}{why[1:]}; {how}"
        choices = [
            (name_of_column(self.titles, place), self.sample.cells(place)) for place in places
        ]
        question = ColumnQuestion(reason, self.heading.line, column, choices, is_arcs)
        numeric = [place for place in range(self.width) if not self.sample.is_text(place)]
        question.may_be_matrix = (
            column == CAPACITY
            and bool(self.titles)
            and 1 < self.width - 1 == len(numeric)
            and 0 not in numeric
        )
        return question
