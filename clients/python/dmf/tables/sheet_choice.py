"""Which sheet of a file has the arcs of a network, and which have its places."""

from __future__ import annotations

from collections.abc import Sequence

from ..errors import TableFault
from ..text.spelling import quoted_name
from .file_kinds import kind_of
from .headings import ARCS, PLACE_COLUMNS, Form
from .sheet import Sheet
from .table_file import TableFile
from .title_row import fits
from .titles import PLACE


def arcs_sheet(file: TableFile, sheets: Sequence[Sheet], name: str) -> tuple[Sheet, list[Sheet]]:
    """Return the sheet of arcs out of those of a file, and those of places beside it."""
    if len(sheets) == 1 and not name:
        return sheets[0], []
    places = [
        sheet
        for sheet in sheets
        if _fits(sheet, Form((PLACE,), PLACE_COLUMNS)) and not _fits(sheet, ARCS)
    ]
    if name:
        chosen = sheet_of_name(file, sheets, name)
    else:
        fit = [sheet for sheet in sheets if _fits(sheet, ARCS)]
        likely = fit or [sheet for sheet in sheets if sheet not in places] or sheets
        chosen = only_sheet(likely, name, option="sheet")
    return chosen, [sheet for sheet in places if sheet is not chosen]


def _fits(sheet: Sheet, form: Form) -> bool:
    """Return True if the titles of a sheet tell all columns of a form that it needs."""
    sample = sheet.sample()
    return bool(sample.cells) and fits(sample, form)


def sheet_of_name(file: TableFile, sheets: Sequence[Sheet], name: str) -> Sheet:
    """Return the sheet of a name, in whose case workbooks see no difference."""
    if all("#" not in sheet.path for sheet in sheets):
        raise TableFault(
            f"{kind_of(file).what} has no sheets, and so none that is called {quoted_name(name)};"
            " name the file alone"
        )
    found = {sheet.name.casefold(): sheet for sheet in reversed(sheets)}
    if name.casefold() not in found:
        raise TableFault(f"no sheet is called {quoted_name(name)}; the sheets are {_names(sheets)}")
    return found[name.casefold()]


def only_sheet(sheets: Sequence[Sheet], name: str, option: str = "") -> Sheet:
    """Return the sheet, if it is the only one. Otherwise the option settles which it is."""
    if not sheets:
        raise TableFault("no sheet of the workbook has a cell")
    if len(sheets) > 1:
        fault = TableFault(
            f"which sheet is it? Name one after the file, as in {sheets[0].path}; the sheets are "
            f"{_names(sheets)}"
        )
        fault.option, fault.answers = option, [(sheet.name, "") for sheet in sheets]
        raise fault
    return sheets[0]


def _names(sheets: Sequence[Sheet]) -> str:
    return ", ".join(quoted_name(sheet.name) for sheet in sheets)
