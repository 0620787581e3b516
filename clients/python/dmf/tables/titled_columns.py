"""Which columns of a table were given, and which its titles tell."""

from __future__ import annotations

from collections.abc import Collection, Mapping

from ..errors import TableFault
from .column_candidates import ColumnCandidates
from .headings import ARCS, PLACE_COLUMNS, STATES, called
from .title_row import usual_words
from .titles import (
    CAPACITY,
    LIMIT,
    STATUS,
    USUAL,
    WEAK,
    is_rate,
    is_share,
    paired,
    rivals_capacity,
    says_capacity,
    says_end,
    says_state,
)


def columns_by_title(table: ColumnCandidates) -> dict[str, int]:
    """Return the columns that were given, and those that titles tell."""
    form, at = table.form, dict(table.given)
    is_given = form is ARCS and at.keys() >= {*form.places, *form.amounts}
    for role in form.places:
        _add_titled_end(table, at, role)
    if form is ARCS and not at.keys() & {*form.places} and (pair := paired(table.titles)):
        at.update(zip(form.places, pair))
    for role in STATES if form is ARCS else ():
        _add_state(table, at, role)
    if form is ARCS:
        at.update(
            () if CAPACITY in at else [(CAPACITY, place) for place in _titled_amount(table, at)]
        )
    else:
        _add_usual(table, at, form.amounts)
    _add_usual(table, at, () if is_given or not form.label else [form.label])
    _add_usual(table, at, PLACE_COLUMNS if form is ARCS else ())
    return at


def _add_usual(table: ColumnCandidates, at: dict[str, int], columns: Collection[str]) -> None:
    """Add these columns, if usual titles tell them. Of two titles for one column the preferred one
    is taken."""
    for column in columns:
        words = usual_words(table.titles, column)
        ranks = sorted(
            (words.index(word), place)
            for place in table.free(at)
            if (word := table.sample.title(place).word) in words
        )
        if column not in at and ranks:
            at[column] = ranks[0][1]


def _add_titled_end(table: ColumnCandidates, at: dict[str, int], role: str) -> None:
    """Add the column of an end of rows, if a title says it. Raises a `ColumnQuestion` if two do."""
    _add_usual(table, at, [role])
    if role in at or table.form is not ARCS:
        return
    found = [place for place in table.free(at) if says_end(table.sample.title(place), role)]
    if len(found) > 1:
        raise table.question(role, found, "more than one title says it")
    at.update((role, place) for place in found)


def _add_state(table: ColumnCandidates, at: dict[str, int], role: str) -> None:
    found = [place for place in table.free(at) if says_state(table.sample.title(place), role)]
    if len(found) > 1:
        says = "which rows are open" if role == STATUS else "which way rows lead"
        names = " and ".join(called(table.titles, place) for place in found)
        reason = (
            f"{names} both say {says}; give one of them to --ignore, and it is kept as a remark"
        )
        raise TableFault(reason, table.heading.line)
    at.update((role, place) for place in found)


def _titled_amount(table: ColumnCandidates, at: Mapping[str, int]) -> list[int]:
    """Return the column of capacities, if titles tell it. Raises a `ColumnQuestion` if more than
    one does."""
    free = table.free(at)
    usual = [
        place
        for place in free
        if (table.sample.title(place).word in USUAL[CAPACITY] or is_rate(table.sample.title(place)))
        and not is_share(table.sample.title(place))
    ]
    sure = [place for place in free if says_capacity(table.sample.title(place))]
    # In a table of arcs a limit may be that of a place, and a weight the length of an arc.
    likely = [place for place in usual if table.sample.title(place).word not in WEAK]
    likely = [
        place for place in likely if table.sample.title(place).word not in USUAL[LIMIT][:3]
    ] or likely
    weak = [place for place in usual if table.sample.title(place).word in WEAK]
    if not sure and not likely and {*table.numeric(at)} <= {*weak}:
        likely = weak
    if len(sure) == 1:
        sure += [
            place
            for place in table.numeric({**at, CAPACITY: sure[0]})
            if rivals_capacity(table.sample.title(place))
        ]
    found = sure or likely
    found = [place for place in found if table.sample.has_number(place)] or found
    if len(found) > 1:
        raise table.question(CAPACITY, found, "more than one title says it")
    return found
