"""What is in a file, part by part, also if its table cannot be read yet: the sheets of a workbook,
and the kinds of features of a map."""

from __future__ import annotations

from collections import Counter
from collections.abc import Sequence
from typing import Optional

from ..text.spelling import cleaned
from .headings import ARCS
from .line_ends import LINES, WKT_TITLE
from .sheet import Sheet
from .table_file import Content, TableFile
from .title_row import title_row

# The most titles of a sheet that are told.
MOST_TITLES = 8


def none(file: TableFile, sheets: Sequence[Sheet], arcs: Optional[Sheet]) -> list[Content]:
    """Return no part: the file has one table."""
    return []


def of_sheets(file: TableFile, sheets: Sequence[Sheet], arcs: Optional[Sheet]) -> list[Content]:
    """Return the sheets of a workbook, each with its titles, if there are several."""
    if len(sheets) < 2:
        return []
    is_read = [arcs is not None and sheet.path == arcs.path for sheet in sheets]
    return [
        Content(sheet.name, None, f"{'is read: ' if chosen else ''}{_titles(sheet)}")
        for sheet, chosen in zip(sheets, is_read)
    ]


def _titles(sheet: Sheet) -> str:
    """Return the titles of a sheet, or what stands first in it."""
    sample = sheet.sample()
    if not sample.cells:
        return ""
    titles = [cell for cell in map(cleaned, sample.cells[title_row(sample, ARCS) or 0]) if cell]
    return ", ".join(titles[:MOST_TITLES]) + ", .." * (len(titles) > MOST_TITLES)


def of_map(file: TableFile, sheets: Sequence[Sheet], arcs: Optional[Sheet]) -> list[Content]:
    """Return the kinds of features of a map, each with how many there are."""
    kinds: Counter[str] = Counter()
    has_shapes = False
    for rows in sheets[0].read() if sheets else ():
        for row in rows.cells:
            if has_shapes:
                kinds[row[-1].partition(" ")[0]] += 1
            else:
                has_shapes = row[-1:] == [WKT_TITLE]
                if not has_shapes:
                    return []
    return [
        Content(kind, count, "each is a row" if kind in LINES else "not a line")
        for kind, count in kinds.items()
    ]
