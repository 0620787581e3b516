"""Workbooks: cell by cell as openpyxl reads them, in each form in which programs write them; and
what is none, or damaged."""

from __future__ import annotations

import datetime
import io
import re
import zipfile
from collections.abc import Callable
from decimal import Decimal
from itertools import count
from pathlib import Path
from typing import Any

import pytest
from client_shared import dmf
from dmf.quantity import plain_text
from dmf.tables.sheet import Exact
from dmf.tables.table_file import TableFile
from dmf.tables.workbook import cell_text, sheets_of
from dmf.tables.xlsx import Workbook, is_date, unescaped
from hypothesis import given
from hypothesis import strategies as some
from packages import load

openpyxl: Any = load("openpyxl")
MAIN = "http://schemas.openxmlformats.org/spreadsheetml/2006/main"
TEXTS = some.text(some.characters(blacklist_categories=["Cs", "Cc"]), max_size=5).filter(
    lambda text: "_x" not in text
)
NUMBERS = some.one_of(
    some.integers(-(10**20), 10**20),
    some.floats(allow_nan=False, allow_infinity=False, width=32),
    some.floats(-1e9, 1e9),
)
DATES = some.datetimes(datetime.datetime(1900, 3, 2), datetime.datetime(2100, 1, 1)).map(
    lambda time: time.replace(microsecond=0)
)
CELLS = some.one_of(
    some.none(), TEXTS, NUMBERS, some.booleans(), DATES, DATES.map(datetime.datetime.date)
)


def rows(data: bytes, name: str = "Sheet") -> dict[int, list[str]]:
    """The rows of a sheet, by their lines."""
    book = Workbook.opened(zipfile.ZipFile(io.BytesIO(data)))
    return {line: row for piece in book.rows(name) for line, row in zip(*piece)}


def told(cell: Any) -> str:
    """What a cell has, as a text; a number without zeros at its end."""
    text = cell_text(cell)
    return Exact(plain_text(Decimal(text))) if isinstance(text, Exact) else text


def saved(book: Any) -> bytes:
    data = io.BytesIO()
    book.save(data)
    return data.getvalue()


@pytest.mark.parametrize("is_stream", [True, False])
@given(given_rows=some.lists(some.lists(CELLS, max_size=4), max_size=6))
def test_as_openpyxl_reads_it(is_stream: bool, given_rows: list[list[Any]]) -> None:
    """Numbers, texts, dates and gaps, with texts that cells share and with texts of their own."""
    book = openpyxl.Workbook(write_only=is_stream)
    sheet = book.create_sheet("Sheet") if is_stream else book.active
    for row in given_rows:
        # A text that begins so would be a formula.
        sheet.append(
            [f"x{cell}" if isinstance(cell, str) and cell.startswith("=") else cell for cell in row]
        )
    data = saved(book)
    wanted = [
        [told(cell) for cell in row]
        for row in openpyxl.load_workbook(io.BytesIO(data), data_only=True)["Sheet"].iter_rows(
            values_only=True
        )
    ]
    found = rows(data)
    for line, row in enumerate(wanted, 1):
        while row and not row[-1]:
            row.pop()
        assert found.get(line, []) == row
        assert [type(cell) for cell in found.get(line, []) if cell] == [
            type(cell) for cell in row if cell
        ]


def packed(sheet: str, strings: str = "", styles: str = "", book: str = "") -> bytes:
    """A workbook with these parts."""
    data = io.BytesIO()
    with zipfile.ZipFile(data, "w") as archive:
        kinds = {
            "worksheet": "worksheets/sheet1.xml",
            "sharedStrings": "/xl/texts.xml",
            "styles": "styles.xml",
        }
        related = "".join(
            f'<Relationship Id="r{kind}" Type="http://x/{kind}" Target="{path}"/>'
            for kind, path in kinds.items()
        )
        archive.writestr(
            "xl/workbook.xml",
            book
            or f'<workbook xmlns="{MAIN}" xmlns:r="r"><sheets><sheet name="Sheet" '
            'r:id="rworksheet"/></sheets></workbook>',
        )
        archive.writestr("xl/_rels/workbook.xml.rels", f"<Relationships>{related}</Relationships>")
        archive.writestr("xl/worksheets/sheet1.xml", sheet)
        archive.writestr("xl/texts.xml", strings or "<sst/>")
        archive.writestr("xl/styles.xml", styles or "<styleSheet/>")
    return data.getvalue()


def sheet_of(cells: str) -> str:
    return f'<worksheet xmlns="{MAIN}"><sheetData>{cells}</sheetData></worksheet>'


@pytest.mark.parametrize(
    ("cells", "wanted"),
    [
        # Without references, with gaps, and a cell and a row that have a form alone.
        (
            "<row><c><v>1</v></c><c><v>2</v></c></row><row><c><v>3</v></c></row>",
            {1: ["1", "2"], 2: ["3"]},
        ),
        (
            '<row r="3"><c r="B3"><v>1</v></c></row><row r="9"><c r="AB9" s="1"/></row>',
            {3: ["", "1"], 9: []},
        ),
        ('<row r="2"><c r="XFD2" s="1"/><c r="A2"><v>7</v></c></row>', {2: ["7"]}),
        # A formula with what it gave, without it, with a text, and an error.
        (
            "<row><c><f>A1+1</f><v>3.5</v></c><c><f>A1</f></c><c t='str'><f>A1</f><v>ab</v></c><c "
            "t='e'><v>#N/A</v></c></row>",
            {1: ["3.5", "", "ab", "#N/A"]},
        ),
        (
            "<row><c t='b'><v>1</v></c><c t='b'><v>0</v></c><c t='d'><v>2024-05-03</v></c></row>",
            {1: ["TRUE", "FALSE", "2024-05-03"]},
        ),
        (
            "<row><c t='inlineStr'><is><r><t>a</t></r><r><t> "
            "b</t></r><rPh><t>spoken</t></rPh></is></c></row>",
            {1: ["a b"]},
        ),
        (
            "<row><c t='inlineStr'><is><t>a_x000D__x005F_x0041_b_x1</t></is></c></row>",
            {1: ["a\r_x0041_b_x1"]},
        ),
        (
            "<row><c><v>0.30000000000000004</v></c><c><v>1E3</v></c>"
            "<c><v>12345678901234567890</v></c><c><v>-0.5</v></c></row>",
            {1: ["0.3", "1000", "12345678901234567890", "-0.5"]},
        ),
        ("<row><c t='s'><v>1</v></c><c t='s'><v>0</v></c></row>", {1: ["two parts", "one"]}),
    ],
)
@pytest.mark.parametrize("change", ["", "prefix", "strict", "utf-16"])
def test_forms(cells: str, wanted: dict[int, list[str]], change: str) -> None:
    sheet, strings = (
        sheet_of(cells),
        "<sst><si><t>one</t></si><si><r><t>two</t></r><r><t xml:space='preserve'> "
        "parts</t></r><rPh><t>x</t></rPh></si></sst>",
    )
    if change == "prefix":
        sheet = re.sub("<(/?)", r"<\1x:", sheet).replace("xmlns=", "xmlns:x=")
    elif change == "strict":
        sheet = sheet.replace(MAIN, "http://purl.oclc.org/ooxml/spreadsheetml/main")
    elif change:
        sheet = "<?xml version='1.0' encoding='utf-16'?>" + sheet
    text = sheet.encode("utf-16") if change == "utf-16" else sheet
    data = packed(text, strings)  # type: ignore[arg-type]
    assert rows(data) == wanted


def test_dates() -> None:
    """By hand: both calendars, the 29 February 1900 that one of them has, and times; formats that
    are no dates; and how Python counts days."""
    styles = (
        "<styleSheet><numFmts><numFmt numFmtId='170' formatCode='dd.mm.yyyy'/><numFmt "
        "numFmtId='171' formatCode='0.0 \"l/s\"'/></numFmts><cellStyleXfs><xf "
        "numFmtId='14'/></cellStyleXfs>"
    )
    styles += (
        "<cellXfs><xf numFmtId='0'/><xf numFmtId='14'/><xf numFmtId='170'/><xf "
        "numFmtId='171'/><xf/></cellXfs></styleSheet>"
    )
    numbers = ["45415", "45415.5", "0.25", "59", "61", "1e9", "-1"]
    cells = "".join(
        f"<c s='{style}'><v>{number}</v></c>" for style in range(6) for number in numbers
    )
    (row,) = rows(packed(sheet_of(f"<row>{cells}</row>"), styles=styles)).values()
    found = [row[begin : begin + 7] for begin in range(0, 42, 7)]
    plain = ["45415", "45415.5", "0.25", "59", "61", "1000000000", "-1"]
    day = (datetime.date(1899, 12, 30) + datetime.timedelta(45415)).isoformat()
    assert (
        found[1]
        == found[2]
        == [
            day,
            f"{day} 12:00:00",
            "06:00:00",
            "1900-02-28",
            "1900-03-01",
            "1000000000",
            "1899-12-30",
        ]
    )
    assert found[0] == found[3] == found[4] == found[5] == plain
    book = (
        f'<workbook xmlns="{MAIN}" xmlns:r="r"><workbookPr date1904="1"/><sheets><sheet '
        'name="Sheet" r:id="rworksheet"/></sheets></workbook>'
    )
    (row,) = rows(
        packed(
            sheet_of("<row><c s='1'><v>0</v></c><c s='1'><v>2.5</v></c></row>"),
            styles=styles,
            book=book,
        )
    ).values()
    assert row == ["00:00:00", "1904-01-03 12:00:00"]


@pytest.mark.parametrize(
    ("code", "wanted"),
    [
        ("General", False),
        ("0.00", False),
        ("#,##0.0", False),
        ("0.00E+00", False),
        ('0 "days"', False),
        ("[Red]0.0", False),
        (r"0\d", False),
        ("0_d", False),
        ("0*s", False),
        ("[$-407]d. mmm", True),
        ("hh:mm", True),
        ("[h]:mm:ss", True),
        ("yyyy-mm-dd;@", True),
        ("0;dd", False),
        ("mmm\\-yy", True),
        ("", False),
    ],
)
def test_formats(code: str, wanted: bool) -> None:
    assert is_date(code) == wanted


def test_unescaped() -> None:
    assert [*map(unescaped, ["a_x000d_b", "_x005F_x000D_", "_x00_", "_xGGGG_", "a"])] == [
        "a\rb",
        "_x000D_",
        "_x00_",
        "_xGGGG_",
        "a",
    ]


BOMB = (
    '<?xml version="1.0"?><!DOCTYPE x [<!ENTITY a "lol"><!ENTITY b '
    '"&a;&a;&a;&a;&a;&a;&a;&a;&a;&a;">]>'
)
ROWS = (
    "<row><c t='inlineStr'><is><t>from</t></is></c><c t='inlineStr'><is><t>to</t></is></c><c "
    "t='inlineStr'><is><t>cap</t></is></c></row>"
)
GOOD = sheet_of(ROWS)


@pytest.mark.parametrize(
    ("data", "told"),
    [
        (
            packed(BOMB + sheet_of("<row><c t='str'><v>&b;</v></c></row>")),
            "the workbook (.xlsx) has a document type, which no workbook has",
        ),
        (
            packed(GOOD, book=BOMB + "<workbook/>"),
            "the workbook (.xlsx) has a document type, which no workbook has",
        ),
        (
            packed(sheet_of("<row><c t='s'><v>0</v></c></row>"), strings=BOMB + "<sst/>"),
            "the workbook (.xlsx) has a document type, which no workbook has",
        ),
        (
            packed(sheet_of("<row><c t='s'><v>0</v></c></row>")),
            "the workbook (.xlsx) is damaged: list index out of range",
        ),
        (
            packed(sheet_of("<row><c><v>x</v></c></row>")),
            "the workbook (.xlsx) is damaged: could not convert string to float: 'x'",
        ),
        (
            packed(sheet_of("<row><c r='AAAA1'><v>1</v></c></row>")),
            "the workbook (.xlsx) is damaged: a cell is called AAAA1",
        ),
        (
            packed(sheet_of("<row><c r='ZZZ1'><v>1</v></c></row>")),
            "the workbook (.xlsx) is damaged: a cell is called ZZZ1",
        ),
        (packed(GOOD, book="<workbook/>"), "no sheet of the workbook has a cell"),
        (packed(GOOD, book="<workbook"), "the workbook (.xlsx) is damaged: unclosed token"),
    ],
    ids=count(),
)
def test_damaged(tmp_path: Path, data: bytes, told: str) -> None:
    (tmp_path / "t.xlsx").write_bytes(data)
    with pytest.raises(dmf.TableFault) as caught:
        dmf.read_table(tmp_path / "t.xlsx")
    assert str(caught.value).partition(": ")[2].startswith(told)


@pytest.mark.parametrize(
    "damage",
    [
        lambda text: text[:-30],
        lambda text: text.replace("<v>200</v>", "<v>200</w>"),
        lambda text: text.replace("<v>200</v>", "<v>x</v>"),
    ],
)
def test_damaged_further_down(tmp_path: Path, damage: Callable[[str], str]) -> None:
    """It is told with the sheet, also past the rows that are looked at first."""
    more = "".join(
        f"<row><c t='str'><v>A</v></c><c t='str'><v>B</v></c><c><v>{number}</v></c></row>"
        for number in range(9000)
    )
    (tmp_path / "t.xlsx").write_bytes(packed(damage(sheet_of(ROWS + more))))
    with pytest.raises(dmf.TableFault, match="t.xlsx#Sheet: the workbook \\(.xlsx\\) is damaged: "):
        dmf.read_table(tmp_path / "t.xlsx")


def test_gaps_in_lines(tmp_path: Path) -> None:
    """A fault is told with the line that the sheet shows."""
    cells = "<c t='str'><v>A</v></c><c t='str'><v>B</v></c><c><v>-1</v></c>"
    (tmp_path / "t.xlsx").write_bytes(
        packed(sheet_of(ROWS + f"<row r='7'>{cells}</row><row r='1048576'>{cells}</row>"))
    )
    with pytest.raises(dmf.TableFault) as caught:
        dmf.read_table(tmp_path / "t.xlsx")
    places = [line.split(": ")[0].partition("#Sheet, ")[2] for line in caught.value.lines()]
    assert [place.split(", ")[0] for place in places] == ["line 7", "line 1048576"]


def test_sheets_that_are_none() -> None:
    """A sheet that is a chart has no rows; hidden ones are read as others."""
    book = openpyxl.Workbook()
    book.active.append(["A", "B", 3])
    book.create_chartsheet("Chart")
    hidden = book.create_sheet("Hidden")
    hidden.append(["C", "D", 4])
    hidden.sheet_state = "hidden"
    assert [sheet.path for sheet in sheets_of(TableFile(saved(book), "t"))] == [
        "t#Sheet",
        "t#Hidden",
    ]


def test_a_number_is_one() -> None:
    """A number is read as such whatever the decimal sign; a text is not."""
    (row,) = rows(
        packed(sheet_of("<row><c><v>1.125</v></c><c t='str'><v>1.125</v></c></row>"))
    ).values()
    assert [isinstance(cell, Exact) for cell in row] == [True, False]
