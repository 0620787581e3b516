"""A column of numbers as people write them: `47,3`, `1.200,5`, `1 200`, `1e3`, `12 l/s`. How they
are read is settled for the whole column: the decimal sign is the one that every cell admits, and
the unit the one that every cell has.
"""

from __future__ import annotations

import unicodedata
from array import array
from collections.abc import Callable, Iterable, Iterator, Sequence
from dataclasses import dataclass
from decimal import Decimal
from itertools import compress, count
from math import gcd
from typing import Optional, Union

from ..quantity import (
    COMMA,
    EXACT,
    LARGEST,
    LONGEST_NUMBER,
    POINT,
    SIGNS,
    Measure,
    decimals,
    plain_text,
    readings,
)
from ..text.lexical import AMOUNTS
from ..text.spelling import quoted_name
from .amount_cells import is_limitless, is_missing, no_number, read_cell
from .plain_numbers import Plain, over_power, plain_of, zeros_of
from .sheet import Exact, Faults, called_row

OTHER = {POINT: COMMA, COMMA: POINT}
NAMES = {POINT: "point", COMMA: "comma"}


@dataclass
class _CellPiece:
    """Some cells of a column, and what they are if they are plain. `first` is the place of the
    first one in the column."""

    first: int
    cells: Callable[[], list[str]]
    plain: Optional[Plain] = None


class Amounts:
    """A column of numbers. `what` is the word for one in messages, and `column` its number, from 1
    on. `unit` is that of the title, and `named` says that the title gives it as a unit, and does
    not just say what is counted."""

    def __init__(
        self, what: str, column: int = 0, path: str = "", unit: str = "", *, named: bool = True
    ) -> None:
        self.what = what
        self.column = column
        self.path = path
        # The unit of the title, and then of all cells.
        self.unit = unit
        self._word = "" if named else unit
        self.sign = ""
        self.lines: Sequence[int] = []
        # The places of cells that say that there is no number, or have nothing, with these cells.
        self.missing: dict[int, str] = {}
        self.notes: list[str] = []
        # The numbers, over ten to the power of this.
        self.decimals = 0
        self.numbers: Union[list[int], array[int]] = []
        self._count = 0
        self._pieces: list[_CellPiece] = []
        self._read: dict[str, tuple[dict[str, Decimal], str]] = {}

    def add(self, cells: list[str]) -> None:
        """Take in cells below those that are there."""
        cells = [it if isinstance(it, Exact) else it.strip() for it in cells]
        self._put(len(cells), lambda: cells, plain_of(cells))

    def add_plain(self, plain: Plain, count: int, cells: Callable[[], list[str]]) -> None:
        """Take in `count` cells that are plain."""
        self._put(count, cells, plain)

    def _put(self, count: int, cells: Callable[[], list[str]], plain: Optional[Plain]) -> None:
        self._pieces.append(_CellPiece(self._count, cells, plain))
        self._count += count

    @property
    def named_unit(self) -> str:
        """Return the unit, if the title or the cells name one."""
        return self.unit if self.unit != self._word else ""

    def judge_beside(self, other: Amounts, faults: Faults) -> None:
        """Check that this column has the unit of another one, if both have a unit."""
        mine, theirs = self.named_unit, other.named_unit
        if self.lines and mine and theirs and _folded(mine) != _folded(theirs):
            faults.add(
                f"the {self.what} has the unit {quoted_name(mine)}, and the {other.what} has "
                f"{quoted_name(theirs)}",
                self.lines[0],
                self.column,
            )

    def reading(self, cell: str) -> tuple[dict[str, Decimal], str]:
        found = self._read.get(cell)
        if found is None or isinstance(cell, Exact):
            found = read_cell(cell)
            if len(self._read) < 100_000 and not isinstance(cell, Exact):
                self._read[cell] = found
        return found

    def put(self, places: Iterable[int], number: int) -> None:
        """Give the cells at these places another number."""
        for place in places:
            self.numbers[place] = number

    def arrange(self, places: Iterable[int], lines: Sequence[int]) -> None:
        """Take the numbers of these places, one by one, as those of the cells in these lines."""
        taken = [self.numbers[place] for place in places]
        self.numbers = array(AMOUNTS, taken) if isinstance(self.numbers, array) else taken
        self.lines = lines

    def settle(
        self, lines: Sequence[int], faults: Faults, given: str = "", usual: str = ""
    ) -> None:
        """Read all cells, which stand in these lines: with the decimal sign that was given, or else
        the one that all admit; where both are left, with the usual one of the table, if it has one.
        What cannot be read goes to the faults."""
        self.lines = lines
        self.sign = given or self._settled_sign(faults, usual)
        self._judge_units(faults)
        read = [self._read_piece(piece, faults) for piece in self._pieces]
        most = max((plain.decimals - zeros_of(plain) for plain in read), default=0)
        numbers = array(AMOUNTS)
        rest: list[int] = []
        for plain in read:
            over = over_power(plain, most)
            try:
                if rest:
                    raise OverflowError
                numbers.extend(array(AMOUNTS, over))
            except OverflowError:
                rest += over
        self.numbers = [*numbers, *rest] if rest else numbers
        self._pieces.clear()
        self._read.clear()
        self.decimals = most
        self._judge_negative(faults)

    def _settled_sign(self, faults: Faults, usual: str) -> str:
        """Return the sign that all cells admit; none if the sign makes no difference."""
        # For each sign the first cell that admits no other, and the first that is another number
        # with it.
        only: dict[str, tuple[int, str]] = {}
        open_cell: tuple[int, str] | None = None
        for place, cell, found in self._telling():
            numbers = set(found.values())
            if len(found) == 1:
                only.setdefault(next(iter(found)), (place, cell))
            elif len(numbers) == 2 and open_cell is None:
                open_cell = place, cell
        if len(only) == 2:
            (first, one), (second, other) = sorted(only.values())
            told = (
                f"{quoted_name(other)} has another decimal sign than {quoted_name(one)} in line "
                f"{self.lines[first]}"
            )
            faults.add(
                f"{told}; change one, or name the sign: --decimal . or --decimal ,",
                self.lines[second],
                self.column,
            )
            return ""
        if only:
            return next(iter(only))
        if open_cell and not usual and (mark := self._thousands_mark()):
            told = f"the {NAMES[mark]} in {quoted_name(open_cell[1].strip())}"
            self.notes.append(f"{told} stands between thousands, as in all cells that have one")
            return OTHER[mark]
        if open_cell and not usual:
            place, cell = open_cell
            found, unit = self.reading(cell)
            both = " or ".join(
                f"{plain_text(found[sign])} with a decimal {NAMES[sign]}" for sign in SIGNS
            )
            faults.add(
                f"{quoted_name(cell.strip())} may be {both}: --decimal . or --decimal ,",
                self.lines[place],
                self.column,
            )
        return usual if open_cell else ""

    def _thousands_mark(self) -> str:
        """Return the sign that stands between thousands, where no cell tells it alone; none if it
        may be the decimal sign. Numbers with three decimals each have the sign in all cells, and
        numbers with as many decimals as they need have none that ends in 0. So it stands between
        thousands if a cell has it and ends in 0, and cells below 1000 have none."""
        marks, has_zero, has_small = set(), False, False
        for piece in self._pieces:
            for cell in piece.cells():
                found, unit = self.reading(cell)
                text = cell.strip().removesuffix(unit).rstrip()
                is_exact = isinstance(cell, Exact)
                if not is_exact and text.strip(f"0123456789{COMMA}{POINT}"):
                    if found:
                        return ""
                    continue
                mark = set() if is_exact else set(text) & {*SIGNS}
                marks |= mark
                if not mark and found and found[POINT] >= 1000:
                    return ""
                has_zero = has_zero or bool(mark) and text.endswith("0")
                has_small = has_small or not mark and bool(found)
        return marks.pop() if len(marks) == 1 and has_zero and has_small else ""

    def _telling(self) -> Iterator[tuple[int, str, dict[str, Decimal]]]:
        """Yield the cells that tell something of the sign, with their readings: enough of them."""
        for piece in self._pieces:
            if piece.plain:
                place, cell = piece.plain.telling
                if piece.plain.sign:
                    yield piece.first + place, cell, readings(cell)
                continue
            for place, cell in enumerate(piece.cells(), piece.first):
                found = self.reading(cell)[0]
                if found and (len(found) == 1 or found[POINT] != found[COMMA]):
                    yield place, cell, found

    def _judge_units(self, faults: Faults) -> None:
        """Check that all cells have one unit, or that of the title."""
        units: dict[str, int] = {}
        for piece in self._pieces:
            if piece.plain:
                # A 0 needs no unit.
                place = next(compress(count(piece.first), piece.plain.numbers), None)
                if place is not None:
                    units.setdefault("", place)
                continue
            for place, cell in enumerate(piece.cells(), piece.first):
                found, unit = self.reading(cell)
                if found and (unit or any(found.values())):
                    units.setdefault(unit, place)
        named = {unit: place for unit, place in units.items() if unit}
        # A word in the title that need be no unit gives way to the unit of the cells.
        of_title = self.unit if self.named_unit or _folded(self.unit) in map(_folded, named) else ""
        wanted = of_title or next(iter(named), self.unit)
        for unit, place in named.items():
            if _folded(unit) != _folded(wanted):
                where = "the title" if of_title else self._called(named[wanted], faults)
                faults.add(
                    f"a {self.what} has the unit {quoted_name(unit)}, and {where} has "
                    f"{quoted_name(wanted)}",
                    self.lines[place],
                    self.column,
                )
        if named and "" in units and not of_title:
            told = (
                f"a {self.what} has no unit, and {self._called(named[wanted], faults)} has "
                f"{quoted_name(wanted)}"
            )
            faults.add(told, self.lines[units[""]], self.column)
        self.unit = wanted

    def _called(self, place: int, faults: Faults) -> str:
        return called_row(self.lines[place], faults.row_names)

    def _read_piece(self, piece: _CellPiece, faults: Faults) -> Plain:
        """Return the numbers of a piece with the sign that was settled. If that is another one, or
        cells are not plain, each is read by itself."""
        if piece.plain and piece.plain.sign in ("", self.sign):
            return piece.plain
        numbers = [
            self._number(place, cell, faults)
            for place, cell in enumerate(piece.cells(), piece.first)
        ]
        most = max(map(decimals, numbers))
        return Plain([int(EXACT.scaleb(number, most)) for number in numbers], most)

    def _number(self, place: int, cell: str, faults: Faults) -> Decimal:
        found = self.reading(cell)[0]
        if found and (not self.sign or self.sign in found):
            # Without a sign it makes no difference, or a fault was told.
            return found[self.sign or next(iter(found))]
        text = cell.strip()
        if is_missing(cell) or is_limitless(cell):
            self.missing[place] = text
            return Decimal(0)
        if len(text) > LONGEST_NUMBER and text.isdigit():
            reason = f"is past {LARGEST}"
        elif found:
            reason = f"is not a number with a decimal {NAMES[self.sign]}"
        else:
            reason = no_number(text)
        faults.add(f"{quoted_name(text)} {reason}", self.lines[place], self.column)
        return Decimal(0)

    def _judge_negative(self, faults: Faults) -> None:
        if isinstance(self.numbers, list) and min(self.numbers) < 0:
            for place, number in enumerate(self.numbers):
                if number < 0:
                    faults.add(
                        f"{self._shown(place)} is below 0",
                        self.lines[place],
                        self.column,
                    )

    def wholes(self, measure: Measure, faults: Faults) -> Sequence[int]:
        """Return the whole numbers by which these numbers stand in a problem. One past 64 bits, or
        no whole number, goes to the faults."""
        scale, over = measure.scale.as_integer_ratio()
        over *= 10**self.decimals
        common = gcd(scale, over)
        scale, over = scale // common, over // common
        wholes = self.numbers if scale == 1 else [number * scale for number in self.numbers]
        if over != 1:
            self._judge_whole(wholes, over, measure, faults)
            wholes = [number // over for number in wholes]
        if isinstance(wholes, list) and max(wholes, default=0) > LARGEST:
            for place, number in enumerate(wholes):
                if number > LARGEST:
                    faults.add(
                        f"{self._shown(place)} is past {measure.text(LARGEST)}",
                        self.lines[place],
                        self.column,
                    )
        return wholes

    def _judge_whole(
        self, numbers: Sequence[int], over: int, measure: Measure, faults: Faults
    ) -> None:
        for place, number in enumerate(numbers):
            if number % over:
                quantity = self.quantity(place)
                hint = f"; --scale {10 ** decimals(quantity)}?"
                told = (
                    f"{self._shown(place)} times {measure.scale:f} is not a whole " f"number{hint}"
                )
                faults.add(told, self.lines[place], self.column)

    def _shown(self, place: int) -> str:
        """Return a number as messages show it: with the decimal sign of the column."""
        return quoted_name(plain_text(self.quantity(place)).replace(POINT, self.sign or POINT))

    def quantity(self, place: int) -> Decimal:
        """Return the number at a place."""
        return EXACT.scaleb(Decimal(self.numbers[place]), -self.decimals)


def _folded(unit: str) -> str:
    """Return a unit in one spelling: `m3/h` for `m³ / h` and for `m^3/h`."""
    return "".join(unicodedata.normalize("NFKC", unit).replace("^", "").split())
