"""Rows that belong to a sheet and not to its table: totals, and notes below the last row."""

from __future__ import annotations

from collections.abc import Sequence
from decimal import Decimal
from typing import NamedTuple, Optional

from ..quantity import plain_text, readings
from ..text.spelling import cleaned, quoted_name
from .amount_cells import read_cell
from .readers import Table
from .titles import names_total

TOTAL, SUM, NOTE = "total", "sum", "note"
# How much of a note is told.
LONGEST_TOLD = 60


class Aside(NamedTuple):
    """A row that may be a total, a sum or a note: its line and cells, what it may be, its amount,
    and the number of rows of arcs above it."""

    line: int
    row: list[str]
    kind: str
    amount: str
    above: int

    @property
    def text(self) -> str:
        return next(cell for cell in map(cleaned, self.row) if cell)


def kind_of(row: Sequence[str], ends: Sequence[str], amount: str) -> str:
    """Return what a row may be that lacks one of its ends, and has this amount; empty if it is none
    of these."""
    cells = [cell for cell in map(cleaned, row) if cell]
    if any(map(names_total, cells)):
        return TOTAL
    if not any(ends) and readings(amount.strip()):
        return SUM
    return NOTE if len(cells) == 1 and not readings(cells[0]) else ""


def told_aside(aside: Aside, table: Table) -> Optional[str]:
    """Return the line that tells why a row is left out; None if it must not be: a row without a
    name whose amount is not the sum of those above it, a note with arcs below it, or one that names
    a place."""
    if aside.kind == NOTE:
        is_last = aside.above == len(table.tails)
        if not is_last or aside.text in table.places:
            return None
        told = aside.text if len(aside.text) <= LONGEST_TOLD else f"{aside.text[:LONGEST_TOLD]}.."
        return f"below the table, line {aside.line} is left out: {quoted_name(told)}"
    amounts = table.amounts
    found = read_cell(aside.amount)[0]
    said = found.get(amounts.sign or next(iter(found), ""))
    total = Decimal(sum(amounts.numbers[: aside.above])).scaleb(-amounts.decimals)
    if aside.kind == SUM and said != total:
        return None
    told = f"line {aside.line} is a total, and is left out"
    if said is None or said == total:
        return told
    return f"{told}, though it says {plain_text(said)} and the rows above it {plain_text(total)}"
