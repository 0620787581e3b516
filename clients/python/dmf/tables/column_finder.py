"""Which column of a table is what: by its title, by its place, or as the only one that can be
meant. Where two can be, nothing is guessed: that is a question."""

from __future__ import annotations

import shlex
from collections.abc import Collection, Mapping, Sequence

from ..errors import TableFault
from ..quantity import readings
from ..text.spelling import cleaned, quoted_name
from .column_candidates import ColumnCandidates
from .headings import (
    ARCS,
    CHOSEN,
    IN_ORDER,
    NAMED,
    ONLY,
    Form,
    Layout,
    called,
    is_heading,
    name_of_column,
)
from .sheet import Rows
from .state_words import state_of
from .title_row import TitleRow, heading_at, named_row, title_row
from .titled_columns import columns_by_title
from .titles import (
    CAPACITY,
    DIRECTION,
    NAME,
    OTHERS,
    STATUS,
    USUAL,
    hints_at_state,
    is_least,
    is_other,
    names_total,
    paired,
    says_capacity,
)


def layout_of(
    sample: Rows, form: Form, named: Mapping[str, str], ignored: Collection[str] = ()
) -> Layout:
    """Return where the columns of a table are, of which these are the first rows. `named` has the
    titles that were given for columns, and `ignored` those of columns that are read for nothing.
    Raises a `TableFault`."""
    at = named_row(sample, form, named, ignored) if named else title_row(sample, form)
    if at is not None:
        return _Finder(form, heading_at(sample, at), named, ignored).layout()
    finder = _Finder(form, heading_at(sample, 0), named, ignored)
    if finder.begins_with_titles():
        return finder.layout()
    return _Finder(form, TitleRow((), 0, 0, sample.cells), named, ignored).layout_without_titles()


class _Finder(ColumnCandidates):
    """Finds the columns of a table with these titles, or with none."""

    def __init__(
        self, form: Form, heading: TitleRow, named: Mapping[str, str], ignored: Collection[str]
    ) -> None:
        super().__init__(form, heading, named, ignored)
        self.is_by_numbers = False
        # The columns that titles name, and those that were taken by where they stand.
        self.by_title: set[str] = set()
        self.by_order: set[str] = set()

    def begins_with_titles(self) -> bool:
        """Return True if the first row has titles. They are usual ones; or in the column of the
        amounts its first letter or digit is a letter."""
        first = self.heading.cells
        if len(self.heading.rows) and self._has_number_above(first):
            return False
        at = columns_by_title(self)
        pair = paired(self.titles)
        # The letters A and B may as well be places.
        is_told = pair is None or bool(self.titles[pair[0]].words[1:])
        if is_told and {*at} >= {*self.form.places} or {*at} & {*self.form.amounts}:
            amounts = [at[column] for column in self.form.amounts if column in at] or [
                self._amount(at)
            ]
            return not any(
                readings(first[place])
                for place in (*at.values(), *amounts[:1])
                if place < len(first)
            )
        place = self._amount_in_order()
        return place < len(first) and bool(first[place].strip()) and is_heading(first[place])

    def _has_number_above(self, first: Sequence[str]) -> bool:
        """Return True if the first row has a number where the rows below it have numbers too, and
        so is a row as they are."""
        numeric = [place for place in range(self.width) if not self.sample.is_text(place)]
        return any(readings(first[place]) for place in numeric if place < len(first))

    def layout(self) -> Layout:
        """Return where all columns are. Raises a `ColumnQuestion` if one cannot be settled, since
        two can be meant."""
        form = self.form
        at = columns_by_title(self)
        self.by_title.update(at)
        if not at.keys() & {*form.amounts}:
            at[form.amounts[0]] = self._amount(at)
        self._add_ends(at)
        if (
            form.label
            and form.label not in at
            and not self.given.keys() >= {*form.places, *form.amounts}
            and self._has_label(at)
        ):
            at[form.label] = form.order[form.label]
            self.by_order.add(form.label)
        self._judge_twice(at)
        return self._layout(at)

    def _layout(self, at: Mapping[str, int]) -> Layout:
        form, heading = self.form, self.heading
        if form is ARCS:
            self._judge_states(at)
        ordered = {
            column: at[column] for column in dict.fromkeys((*form.order, *at)) if column in at
        }
        needed = [place for column, place in at.items() if column != form.label]
        blank = [
            place
            for place in range(self.width)
            if place not in needed and not self.sample.cells(place)
        ]
        notes = [*heading.notes]
        for place, title in enumerate(self.titles) if form is ARCS else ():
            if is_least(title) and place not in at.values() and self.sample.has_number(place):
                notes.append(
                    f"{quoted_name(title.text)} is kept as a remark: a maximum flow keeps to no"
                    " least amounts"
                )
        return Layout(
            ordered,
            self.titles,
            heading.line,
            heading.begin,
            self.is_by_numbers and bool(blank),
            tuple(notes),
            tuple(
                place
                for place, title in enumerate(self.titles)
                if not title.text and place not in at.values() and self.sample.cells(place)
            ),
            {column: self._why(column) for column in ordered},
        )

    def _why(self, column: str) -> str:
        """Return why a column was taken for what it is."""
        if column in self.given:
            return CHOSEN
        if column in self.by_title:
            return NAMED
        return IN_ORDER if column in self.by_order else ONLY

    def _amount(self, at: Mapping[str, int]) -> int:
        """Return the column of amounts, if no title tells it: the only one with numbers. Raises a
        `ColumnQuestion`."""
        amount = self.form.amounts[0]
        numeric = self.numeric(at)
        free = [place for place in self.free(at) if self.sample.title(place).word not in OTHERS]
        usual = self.form.order[amount]
        if len(numeric) == 1 and not is_other(self.sample.title(numeric[0])):
            self.is_by_numbers = True
            return numeric[0]
        if not numeric and usual in free:
            self.by_order.add(amount)
            return usual
        why = (
            f"{len(numeric)} columns have numbers, and no title says it"
            if len(numeric) > 1
            else "no title says it"
        )
        raise self.question(amount, numeric or free or self.free(at), why)

    def _judge_states(self, at: Mapping[str, int]) -> None:
        """Raise a `TableFault` if a column whose title does not say it seems to say which rows are
        open, or which way they lead."""
        read = {place for column, place in at.items() if column != NAME}
        for place in range(self.width):
            if place in read or place in self.ignored:
                continue
            if role := state_of(self.sample.cells(place)) or self._state_by_title(place):
                is_plain = state_of(self.sample.cells(place)) == role
                says = "which rows are open" if role == STATUS else "which way rows lead"
                says += "" if is_plain else ", or which way they lead"
                name = name_of_column(self.titles, place)
                title = repr(role) if is_plain else f"{STATUS!r} or {DIRECTION!r}"
                how = f"give it the title {title}, or keep it as a remark by --ignore"
                reason = f"{called(self.titles, place)} seems to say {says}, as in "
                reason += f"{quoted_name(self.sample.cells(place)[0])}; {how} {shlex.quote(name)}"
                raise TableFault(reason, self.heading.line)

    def _state_by_title(self, place: int) -> str:
        """Return what a column may say by its title, if its cells are words, and few of them."""
        cells = set(map(cleaned, self.sample.cells(place)))
        is_said = hints_at_state(self.sample.title(place)) and 0 < len(cells) <= 4
        return STATUS if is_said and not any(map(str.isdigit, "".join(cells))) else ""

    def _add_ends(self, at: dict[str, int]) -> None:
        """Add the columns of places that no title tells: the only ones that are left without
        numbers, or those at their usual places. Raises a `ColumnQuestion`."""
        form = self.form
        missing = [column for column in form.places if column not in at]
        free = self.free(at)
        texts = [
            place
            for place in free
            if self.sample.cells(place)
            and self.sample.is_text(place)
            and not is_other(self.sample.title(place))
        ]
        is_in_order = (
            at[form.amounts[0]] == form.order[form.amounts[0]] if form.amounts[0] in at else False
        )
        if len(texts) == len(missing):
            at.update(zip(missing, texts))
            # Of two columns, the first is where rows begin.
            self.by_order.update(missing if len(missing) > 1 else ())
        elif is_in_order and all(form.order[column] in free for column in missing):
            at.update((column, form.order[column]) for column in missing)
            self.by_order.update(missing)
        elif missing:
            raise self.question(missing[0], texts or free, "no title says it")

    def _has_label(self, at: Mapping[str, int]) -> bool:
        """Return True if the column where names usually stand has names, although its title does
        not say it."""
        form = self.form
        place = form.order[form.label]
        title = self.sample.title(place)
        if place not in self.free(at) or any(
            at.get(column, usual) != usual for column, usual in form.order.items()
        ):
            return False
        is_amount = title.unit or says_capacity(title) or title.word in USUAL[CAPACITY]
        is_remark = is_other(title) or title.word in OTHERS or names_total(title.text)
        return not (is_amount or is_remark or self.sample.has_no_names(place))

    def layout_without_titles(self) -> Layout:
        """Return where the columns of a table without titles are: in their usual order, unless the
        only column with numbers stands elsewhere."""
        form = self.form
        at = dict(self.given)
        amount = form.amounts[0]
        if amount not in at:
            at[amount] = self._amount_in_order()
            self.by_order.update(() if self.is_by_numbers else [amount])
        self._add_ends(at)
        is_given = self.given.keys() >= {*form.places, amount}
        label = form.order.get(form.label, self.width)
        if (
            not is_given
            and form.label not in at
            and label in self.free(at)
            and all(at[column] == form.order[column] for column in form.places)
        ):
            at[form.label] = label
            self.by_order.add(form.label)
        return self._layout(at)

    def _amount_in_order(self) -> int:
        """Return the column of amounts of a table without usual titles: the only one with numbers,
        or the one at its usual place, if none has numbers or all before it. Raises a
        `ColumnQuestion`."""
        form = self.form
        usual = form.order[form.amounts[0]]
        numeric = self.numeric(self.given)
        if not numeric or numeric == [*range(usual + 1)]:
            return usual
        return self._amount(self.given)

    def _judge_twice(self, at: Mapping[str, int]) -> None:
        """Raise a `ColumnQuestion` if a column that is needed has the title of another one, since
        each may be meant."""
        texts = [title.text for title in self.titles]
        for column, place in at.items():
            if (
                column != self.form.label
                and column not in self.given
                and texts[place : place + 1] != [""]
                and texts.count(texts[place]) > 1
            ):
                alike = [other for other, text in enumerate(texts) if text == texts[place]]
                raise self.question(
                    column,
                    alike,
                    f"{len(alike)} columns have the title {quoted_name(texts[place])}",
                )
