"""Columns of cells with nothing but digits and one decimal sign, which are read all at once."""

from __future__ import annotations

import re
from collections.abc import Sequence
from dataclasses import dataclass
from decimal import Decimal
from itertools import repeat
from math import gcd
from operator import mul

from ..quantity import POINT, SIGNS
from .sheet import PIECE, Exact

# The most characters of a number that is read together with others.
PLAIN_LENGTH = 18
# Up to where floats have each whole number and a bit more.
LARGEST_EXACT = 1 << 50
# A cell of digits and one kind of sign in which that sign does not stand between thousands.
_UNGROUPED = {
    sign: re.compile(
        rf"^(?![1-9][0-9]{{0,2}}(?:{re.escape(sign)}[0-9]{{3}})+$)[0-9{sign}]*{re.escape(sign)}",
        re.MULTILINE,
    )
    for sign in SIGNS
}
# Cells without a digit, or with two signs, among cells of digits and signs.
_NO_NUMBER = {
    sign: re.compile(
        rf"^{re.escape(sign)}?$|{re.escape(sign)}[0-9]*{re.escape(sign)}", re.MULTILINE
    )
    for sign in SIGNS
}
# Cells of at least 1 decimal, 2 and so on.
_DECIMALS = {
    sign: [
        re.compile(rf"{re.escape(sign)}[0-9]{{{count}}}") for count in range(1, PLAIN_LENGTH + 1)
    ]
    for sign in SIGNS
}


@dataclass
class Plain:
    """Cells that have only digits and at most one decimal sign, the same in all: their numbers,
    over ten to the power of `decimals`. `telling` is the place and the text of a cell with the
    sign: one in which it can only be the decimal sign, if there is one."""

    numbers: Sequence[int]
    decimals: int = 0
    sign: str = ""
    telling: tuple[int, str] = (0, "")


def plain_of(cells: list[str]) -> Plain | None:
    """Return these cells, if they are plain and not too long. Those of a workbook or a frame, all
    of which are numbers already, say nothing of the decimal sign."""
    kinds = set(map(type, cells))
    if (
        kinds not in ({str}, {Exact})
        or not 0 < min(map(len, cells)) <= max(map(len, cells)) <= PLAIN_LENGTH
    ):
        return None
    text = "\n".join(cells)
    digits = "".join(cells)
    if not text.isascii() or digits.isdigit():
        return Plain([*map(int, cells)]) if text.isascii() else None
    for sign in SIGNS:
        if digits.replace(sign, "").isdigit():
            if _NO_NUMBER[sign].search(text):
                return None
            plain = _plain_decimals(cells, text, sign)
            return plain if kinds == {str} else Plain(plain.numbers, plain.decimals)
    return None


def _plain_decimals(cells: list[str], text: str, sign: str) -> Plain:
    found = _UNGROUPED[sign].search(text)
    at = found.start() if found else text.rfind("\n", 0, text.index(sign)) + 1
    telling = text.count("\n", 0, at), text[at:].partition("\n")[0]
    most = 0
    while _DECIMALS[sign][most].search(text):
        most += 1
    numbers = _scaled(cells if sign == POINT else text.replace(sign, POINT).split("\n"), most)
    return Plain(numbers, most, sign, telling)


def _scaled(cells: list[str], most: int) -> list[int]:
    """Return decimal numbers, times ten to the power of `most`."""
    # A number whose digits are below 2^50 is exact: each step is off by less than its 2^52nd part.
    numbers: list[int] = list(map(round, map(mul, map(float, cells), repeat(10.0**most))))
    if max(numbers) >= LARGEST_EXACT:
        numbers = list(map(int, map(mul, map(Decimal, cells), repeat(Decimal(10) ** most))))
    return numbers


def zeros_of(plain: Plain) -> int:
    """Return how many of the decimals of all numbers are zeros at the end."""
    common = 10**plain.decimals
    for begin in range(0, len(plain.numbers), PIECE):
        common = gcd(common, *plain.numbers[begin : begin + PIECE])
        if common % 10:
            return 0
    return next(zeros for zeros in range(plain.decimals, -1, -1) if common % 10**zeros == 0)


def over_power(plain: Plain, most: int) -> Sequence[int]:
    """Return the numbers, over ten to this power."""
    if plain.decimals == most:
        return plain.numbers
    if plain.decimals > most:
        rest = 10 ** (plain.decimals - most)
        return [number // rest for number in plain.numbers]
    more = 10 ** (most - plain.decimals)
    return [number * more for number in plain.numbers]
