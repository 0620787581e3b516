"""What the cells of the first rows say of the columns of a table."""

from __future__ import annotations

from collections.abc import Sequence
from dataclasses import dataclass

from .amount_cells import is_date, is_missing
from .title_row import is_number
from .titles import Title, is_index


@dataclass(frozen=True)
class ColumnSample:
    """The first rows of a table below its titles, and these titles, if there are any."""

    rows: Sequence[Sequence[str]]
    titles: Sequence[Title]

    @property
    def width(self) -> int:
        """Return how many columns there are."""
        return len(self.titles) or max(map(len, self.rows), default=0)

    def title(self, place: int) -> Title:
        """Return the title of a column; an empty one if it has none."""
        return self.titles[place] if place < len(self.titles) else Title("", "", "")

    def cells(self, place: int) -> list[str]:
        """Return the cells of a column that have something."""
        return [row[place] for row in self.rows if place < len(row) and not is_missing(row[place])]

    def has_number(self, place: int) -> bool:
        """Return True if a cell of a column is a number."""
        return any(map(is_number, self.cells(place)))

    def is_text(self, place: int) -> bool:
        """Return True if less than half of the cells of a column are numbers."""
        cells = [cell for cell in self.cells(place) if not cell.strip().endswith(("%", "\u2030"))]
        numbers = sum(map(is_number, cells))
        return numbers == 0 or 2 * numbers < len(cells)

    def has_no_names(self, place: int) -> bool:
        """Return True if all cells of a column are percentages or dates."""
        cells = [cell.strip() for cell in self.cells(place)]
        return bool(cells) and all(it.endswith(("%", "\u2030")) or is_date(it) for it in cells)

    def counts_rows(self, place: int) -> bool:
        """Return True if a column counts the rows."""
        cells = self.cells(place)
        first = (
            int(cells[0]) if cells and cells[0].strip().isdecimal() and len(cells[0]) < 10 else -1
        )
        is_counted = first in (0, 1) and cells == [str(first + at) for at in range(len(cells))]
        return is_counted and (
            is_index(self.title(place)) if self.titles else place == 0 and len(cells) > 2
        )
