"""A file that has tables, as the readers of all kinds of files take it."""

from __future__ import annotations

import os
from collections.abc import Callable, Mapping, Sequence
from dataclasses import dataclass, field
from decimal import Decimal
from typing import Optional

from ..files import read_file


@dataclass(frozen=True)
class ReadOptions:
    """How a table is read: `titles` has the title of each column that was named, by the column;
    `sign` is the decimal sign, if it was given; `raw_names` says that no apostrophe protects a
    name; `missing` is what a capacity that is not there is read as: `0` or `unlimited`;
    `ignored` has the titles of columns that are read for nothing; and `is_matrix` says that rows
    are the places where arcs begin, and columns those where they end. In a network of EPANET water
    flows at a `velocity` in m/s, and `tanks` are `source` or `none`. Ends of lines on a map that
    are not farther apart than `tolerance` are one place. In a roster the row of needs begins with
    `needs`, as may a row or a column of a matrix; a shift takes `shift` of what a person may work,
    and a person works at most `daily` shifts a day, a number or `all`."""

    titles: Mapping[str, str] = field(default_factory=dict)
    sign: str = ""
    raw_names: bool = False
    missing: str = ""
    ignored: Sequence[str] = ()
    is_matrix: bool = False
    velocity: Optional[Decimal] = None
    tanks: str = ""
    tolerance: Decimal = Decimal(0)
    needs: str = ""
    shift: Optional[Decimal] = None
    daily: str = ""


@dataclass(frozen=True)
class TableFile:
    """The bytes of a file, its path, how it is encoded if that was given, and how its tables are
    read. A CSV file has at least `width` columns. `read` reads a file that stands beside it."""

    data: bytes
    path: str
    encoding: Optional[str] = None
    reading: ReadOptions = ReadOptions()
    width: int = 3
    read: Callable[[str], bytes] = read_file

    @property
    def ending(self) -> str:
        """Return the ending of the file's name, in small letters: `.csv`."""
        return os.path.splitext(self.path)[1].lower()

    def beside(self, ending: str) -> str:
        """Return the path of the file beside this one whose name has another ending, as its letters
        stand there; empty if there is none."""
        stem = os.path.splitext(self.path)[0]
        return next(
            (path for it in (ending, ending.upper()) if os.path.isfile(path := stem + it)), ""
        )


@dataclass(frozen=True)
class Content:
    """A part of a file, such as a section or a sheet: its name, how many lines it has, if that is
    known, and what it is read for."""

    name: str
    count: Optional[int]
    said: str
