"""The sheets of a workbook of Excel (`.xlsx`), row by row as its XML comes, by the parser of
Python. It takes a third of the time of openpyxl. A workbook with a document type, in which entities
could be defined, is refused.

The parts of the archive that are read: the workbook with its sheets, what says where these are, the
styles, which tell dates from other numbers, and the texts that cells share.
"""

from __future__ import annotations

import datetime
import posixpath
import re
import zipfile
from collections.abc import Iterator
from dataclasses import dataclass, field
from functools import cached_property
from itertools import dropwhile
from typing import Any
from xml.parsers import expat

from ..errors import TableFault
from .sheet import PIECE, Exact, Rows, shown_number

# How many bytes are parsed at once.
CHUNK = 1 << 16
# The most columns of a sheet.
MOST_COLUMNS = 16_384
WORKBOOK = "xl/workbook.xml"
# The numbers of formats of dates that each workbook has.
DATE_FORMATS = {*range(14, 23), *range(27, 37), 45, 46, 47, *range(50, 59)}
# The parts of a format that are not letters of a date: texts in quotes, what is in brackets except
# elapsed hours, minutes and seconds, and escaped letters.
_NO_LETTERS = re.compile(r'"[^"]*"|\[(?!hh?\]|mm?\]|ss?\])[^\]]*\]|\\.|_.|\*.', re.IGNORECASE)
_ESCAPED = re.compile("_x([0-9A-Fa-f]{4})_")
_REFERENCE = re.compile("([A-Z]{1,3})[0-9]+")
# A whole number; a longer one is past all bounds.
_COUNTED = re.compile("-?[0-9]{1,300}")
DAY = 86_400


class _Parser:
    """A parser that calls `begin` and `end` for the elements of a part, with names without a
    namespace. `inside` says whether texts count now."""

    def __init__(self) -> None:
        self.parser = expat.ParserCreate(namespace_separator=" ")
        self.parser.buffer_text = True
        self.parser.StartElementHandler = self._start
        self.parser.EndElementHandler = self._end
        self.parser.CharacterDataHandler = self._text
        self.parser.StartDoctypeDeclHandler = _refuse
        self._names: dict[str, str] = {}
        self.texts: list[str] = []
        self.inside = False

    def _name(self, name: str) -> str:
        found = self._names[name] = name.rpartition(" ")[2]
        return found

    def _start(self, name: str, given: dict[str, str]) -> None:
        self.begin(self._names.get(name) or self._name(name), given)

    def _end(self, name: str) -> None:
        self.end(self._names.get(name) or self._name(name))

    def _text(self, text: str) -> None:
        if self.inside:
            self.texts.append(text)

    def begin(self, name: str, given: dict[str, str]) -> None:
        """Handle the beginning of an element with these attributes."""

    def end(self, name: str) -> None:
        """Handle the end of an element."""

    def take(self, part: Any) -> None:
        """Take a whole part."""
        self.parser.ParseFile(part)


def _refuse(*_: object) -> None:
    raise TableFault("the workbook (.xlsx) has a document type, which no workbook has")


class _Elements(_Parser):
    """A parser that collects elements: their names, and their attributes by names without a
    namespace."""

    def __init__(self) -> None:
        super().__init__()
        self.found: list[tuple[str, dict[str, str]]] = []

    def begin(self, name: str, given: dict[str, str]) -> None:
        self.found.append((name, {self._name(it): value for it, value in given.items()}))


class _Strings(_Parser):
    """The texts that cells share."""

    def __init__(self) -> None:
        super().__init__()
        self.found: list[str] = []
        self.is_spoken = False

    def begin(self, name: str, given: dict[str, str]) -> None:
        if name == "t":
            self.inside = not self.is_spoken
        elif name == "rPh":
            # How a text is spoken, which stands beside it in Japanese.
            self.is_spoken = True

    def end(self, name: str) -> None:
        if name == "t":
            self.inside = False
        elif name == "rPh":
            self.is_spoken = False
        elif name == "si":
            self.found.append(unescaped("".join(self.texts)))
            self.texts.clear()


class _SheetCells(_Parser):
    """A parser of the rows of a sheet: `lines` and `rows` have those that were read and not taken
    yet. A row ends with its last cell that has a content or a formula."""

    def __init__(self, book: Workbook) -> None:
        super().__init__()
        self.book = book
        self.line = 0
        self.lines: list[int] = []
        self.rows: list[list[str]] = []
        self.row: list[str] = []
        self.column = 0
        self.kind = self.style = ""
        self.has_something = self.is_spoken = False
        self._columns: dict[str, int] = {}

    def begin(self, name: str, given: dict[str, str]) -> None:
        if name == "v" or name == "t":
            self.inside = not self.is_spoken
            self.has_something = True
        elif name == "c":
            self.column = self._column(given["r"]) if "r" in given else self.column + 1
            self.kind, self.style, self.has_something = (
                given.get("t", "n"),
                given.get("s", "0"),
                False,
            )
            self.texts.clear()
        elif name == "f":
            self.has_something = True
        elif name == "row":
            self.line = int(given["r"]) if "r" in given else self.line + 1
            self.row, self.column = [], 0
        elif name == "rPh":
            self.is_spoken = True

    def end(self, name: str) -> None:
        if name == "c":
            if self.has_something:
                self.row += [""] * (self.column - 1 - len(self.row))
                self.row[self.column - 1 :] = [
                    self._cell("".join(self.texts)) if self.texts else ""
                ]
        elif name == "v" or name == "t":
            self.inside = False
        elif name == "row":
            self.lines.append(self.line)
            self.rows.append(self.row)
        elif name == "rPh":
            self.is_spoken = False

    def _column(self, reference: str) -> int:
        """Return the number of a column, by the reference of a cell: 28 for AB5."""
        letters = reference.rstrip("0123456789")
        if letters not in self._columns:
            number = 0
            for letter in letters if _REFERENCE.fullmatch(reference) else "":
                number = 26 * number + ord(letter) - ord("A") + 1
            if not 1 <= number <= MOST_COLUMNS:
                raise ValueError(f"a cell is called {reference[:20]}")
            self._columns[letters] = number
        return self._columns[letters]

    def _cell(self, text: str) -> str:
        """Return what a cell has, as a text."""
        if self.kind == "s":
            return self.book.strings[int(text)]
        if self.kind == "n":
            return self.book.number(text, self.style)
        if self.kind == "b":
            return "TRUE" if text.strip() == "1" else "FALSE"
        return unescaped(text)

    def taken(self) -> Iterator[Rows]:
        """Yield the rows that were read; those without a gap between them come at once."""
        begin = 0
        for at in range(1, len(self.lines) + 1):
            if (
                at == len(self.lines)
                or self.lines[at] != self.lines[at - 1] + 1
                or at - begin == PIECE
            ):
                yield Rows(
                    range(self.lines[begin], self.lines[begin] + at - begin), self.rows[begin:at]
                )
                begin = at
        self.lines, self.rows = [], []


@dataclass
class Workbook:
    """A workbook: the part of each sheet, by its name."""

    archive: zipfile.ZipFile
    sheets: dict[str, str]
    parts: dict[str, str]
    begins_1904: bool = False
    _numbers: dict[tuple[str, str], str] = field(default_factory=dict)

    @classmethod
    def opened(cls, archive: zipfile.ZipFile) -> Workbook:
        """Return the workbook in an archive."""
        elements = _elements(archive, WORKBOOK)
        related = [
            given
            for name, given in _elements(archive, "xl/_rels/workbook.xml.rels")
            if name == "Relationship"
        ]
        kinds = {given["Id"]: given["Type"].rpartition("/")[2] for given in related}
        paths = {
            given["Id"]: posixpath.normpath(posixpath.join("/xl", given["Target"])).lstrip("/")
            for given in related
        }
        sheets = {
            given["name"]: paths[given["id"]]
            for name, given in elements
            if name == "sheet" and kinds.get(given.get("id", "")) == "worksheet"
        }
        parts = {kinds[number]: path for number, path in paths.items()}
        begins_1904 = any(
            name == "workbookPr" and given.get("date1904") in ("1", "true")
            for name, given in elements
        )
        return cls(archive, sheets, parts, begins_1904)

    @cached_property
    def strings(self) -> list[str]:
        """Return the texts that cells share."""
        found = _Strings()
        if "sharedStrings" in self.parts:
            with self.archive.open(self.parts["sharedStrings"]) as part:
                found.take(part)
        return found.found

    @cached_property
    def dates(self) -> set[str]:
        """Return the numbers of the styles whose numbers are dates."""
        elements = _elements(self.archive, self.parts["styles"]) if "styles" in self.parts else []
        own = {
            given["numFmtId"]: is_date(given.get("formatCode", ""))
            for name, given in elements
            if name == "numFmt"
        }
        # Before these stand formats of the same form that no cell names.
        cells = dropwhile(lambda element: element[0] != "cellXfs", elements)
        formats = [given.get("numFmtId", "0") for name, given in cells if name == "xf"]
        usual = {str(number) for number in DATE_FORMATS}
        return {
            str(style) for style, number in enumerate(formats) if own.get(number, number in usual)
        }

    def rows(self, sheet: str) -> Iterator[Rows]:
        """Yield the rows of a sheet, some thousands at once."""
        cells = _SheetCells(self)
        with self.archive.open(self.sheets[sheet]) as part:
            while chunk := part.read(CHUNK):
                cells.parser.Parse(chunk)
                yield from cells.taken()
        cells.parser.Parse(b"", True)
        yield from cells.taken()

    def number(self, text: str, style: str) -> str:
        """Return the cell of a number: of a date its day, and of any other number the 15 digits
        that a workbook shows."""
        found = self._numbers.get((text, style))
        if found is None:
            found = self._number(text.strip(), style)
            if len(self._numbers) < 100_000:
                self._numbers[text, style] = found
        return found

    def _number(self, text: str, style: str) -> str:
        if style in self.dates:
            return _date(float(text), begins_1904=self.begins_1904)
        return Exact(int(text)) if _COUNTED.fullmatch(text) else shown_number(repr(float(text)))


def unescaped(text: str) -> str:
    """Return a text in which `_x000D_` stands for what XML cannot have."""
    return _ESCAPED.sub(lambda found: chr(int(found[1], 16)), text) if "_x" in text else text


def is_date(code: str) -> bool:
    """Return True if numbers in a format are dates or times."""
    return any(letter in "dmhysDMHYS" for letter in _NO_LETTERS.sub("", code.split(";")[0]))


def _date(number: float, *, begins_1904: bool) -> str:
    """Return a date, with its time if it has one; and the time alone of a number below 1."""
    # In the calendar of Excel there is a 29 February 1900, so days before it count one less.
    first = (
        datetime.datetime(1904, 1, 1)
        if begins_1904
        else datetime.datetime(1899, 12, 31 if number < 60 else 30)
    )
    try:
        found = first + datetime.timedelta(seconds=round(number * DAY))
    except OverflowError:
        return shown_number(repr(number))
    if 0 <= number < 1:
        return found.time().isoformat()
    return str(found.date() if found.time() == datetime.time() else found)


def _elements(archive: zipfile.ZipFile, part: str) -> list[tuple[str, dict[str, str]]]:
    found = _Elements()
    with archive.open(part) as opened:
        found.take(opened)
    return found.found
