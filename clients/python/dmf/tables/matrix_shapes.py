"""Rows and columns of a matrix that are likely no places by their cells: each is the sum, the mean,
the least or the greatest of the others beside it, or all of a column are texts."""

from __future__ import annotations

from collections.abc import Callable, Sequence
from decimal import Decimal
from typing import Optional

from ..quantity import SIGNS
from .amount_cells import is_limitless, is_missing, read_cell

# The most cells of a matrix that is looked at: a larger one was written by a program.
MOST_CELLS = 20_000
# How many texts, or sums of different numbers, are more than chance.
LEAST = 2
TEXTS = "texts"


class Shapes:
    """What the rows and the columns of a matrix are by their cells."""

    def __init__(self, rows: Sequence[Sequence[str]]) -> None:
        self.rows = rows
        read = [[read_cell(cell)[0] for cell in row] for row in rows]
        # With either decimal sign; None where a cell has no such number.
        self._by_row = [[[it.get(sign) for it in row] for row in read] for sign in SIGNS]
        self._by_column = [[*zip(*rows)] for rows in self._by_row]

    def of_column(self, at: int) -> str:
        """Return what the cells of a column are: texts, or what of the others in their rows; empty
        if they may be capacities."""
        cells = [row[at] for row in self.rows]
        return TEXTS if _are_texts(cells) else _statistic(self._by_row, at)

    def of_row(self, at: int) -> str:
        """Return what the cells of a row are of the others in their columns; empty if they may be
        capacities."""
        return _statistic(self._by_column, at)


_Numbers = Sequence[Optional[Decimal]]


def _are_texts(cells: Sequence[str]) -> bool:
    filled = [cell for cell in cells if not is_missing(cell)]
    return len(filled) >= LEAST and not any(read_cell(it)[0] or is_limitless(it) for it in filled)


def _statistic(readings: Sequence[Sequence[_Numbers]], at: int) -> str:
    """Return what each number at this place is of the others in its line; empty if it is none."""
    for lines in readings:
        for name, is_it in _STATISTICS.items():
            if _is_each(is_it, lines, at):
                return name
    return ""


_Statistic = Callable[[Decimal, Sequence[Decimal], int], bool]


def _is_each(is_it: _Statistic, lines: Sequence[_Numbers], at: int) -> bool:
    """Return True if in each line the number at this place is what was asked of the others."""
    telling = 0
    for line in lines:
        own = line[at]
        others = [it for place, it in enumerate(line) if place != at and it is not None]
        if not others and not own:
            continue
        if own is None or not others or not is_it(own, others, len(line) - 1):
            return False
        telling += len({*others}) > 1
    return telling >= LEAST


def _is_quotient(own: Decimal, total: Decimal, count: int) -> bool:
    """Return True if a number is this quotient, as far as it has digits."""
    exponent = own.normalize().as_tuple().exponent
    assert isinstance(exponent, int)
    return abs(own - total / count) <= Decimal(5).scaleb(min(exponent, 0) - 1)


# Of the others, empty cells may count in a mean.
_STATISTICS: dict[str, _Statistic] = {
    "sum": lambda own, others, _: own == sum(others),
    "least": lambda own, others, _: own == min(others),
    "greatest": lambda own, others, _: own == max(others),
    "mean": lambda own, others, most: any(
        _is_quotient(own, sum(others, Decimal(0)), count) for count in (len(others), most)
    ),
}
