"""Quantities: exact decimal numbers with a unit, as a table has them and a planner types them,
beside the whole numbers that stand for them in the program.

A text can be a number in two ways: `1,200` is 1.2 where a comma is the decimal sign, and 1200 where
a point is. `readings` gives both, and the code that reads a column or a command decides, or asks.
"""

from __future__ import annotations

import re
import unicodedata
from dataclasses import dataclass, replace
from decimal import Context, Decimal
from functools import cached_property
from typing import Union

# An exact number as a table has it.
Quantity = Union[Decimal, int]
LARGEST = 2**64 - 1
# The decimal signs.
POINT, COMMA = ".", ","
SIGNS = (POINT, COMMA)
# Thousands separators besides the sign that is not the decimal one: spaces and apostrophes.
_SPACES = " \u00a0\u2007\u2009\u202f"
_APOSTROPHES = "'\u2019"
# The most characters of a number, and the largest exponent: what is longer is past 64 bits, or has
# more decimals than any scale.
LONGEST_NUMBER = 60
LARGEST_EXPONENT = 40
# Numbers are exact in this context.
EXACT = Context(prec=2 * (LONGEST_NUMBER + LARGEST_EXPONENT))


class QuantityFault(ValueError):
    """What is wrong with a quantity, in words that follow it: `is below 0`."""


def _pattern(sign: str) -> re.Pattern[str]:
    other = next(re.escape(it) for it in SIGNS if it != sign)
    thousands = "|".join(
        rf"[1-9][0-9]{{0,2}}(?:{mark}[0-9]{{3}})+"
        for mark in (other, f"[{_SPACES}]", f"[{_APOSTROPHES}]")
    )
    return re.compile(
        rf"([+-]?)((?:{thousands}|[0-9]*))(?:{re.escape(sign)}([0-9]*))?"
        r"(?:[eE]([+-]?[0-9]{1,3}))?"
    )


_PATTERNS = {sign: _pattern(sign) for sign in SIGNS}


def readings(text: str) -> dict[str, Decimal]:
    """Return the numbers that a text may stand for, by the decimal sign: `{".": 1200, ",": 1.2}`
    for `1,200`, the same number twice for `12`, only one entry for `47,3`, and none for a text that
    is not a number."""
    plain = _plain(text.strip())
    if len(plain) > LONGEST_NUMBER:
        plain = plain.lstrip("0") or "0"
    if not plain or len(plain) > LONGEST_NUMBER:
        return {}
    return {
        sign: number
        for sign, number in ((sign, _number(plain, sign)) for sign in SIGNS)
        if number is not None
    }


def _plain(text: str) -> str:
    """Return a text with ASCII digits, and with a hyphen for a minus sign."""
    if text.isascii():
        return text
    digits = (str(unicodedata.decimal(letter, letter)) for letter in text)
    return "".join(digits).replace("\u2212", "-")


def _number(plain: str, sign: str) -> Decimal | None:
    found = _PATTERNS[sign].fullmatch(plain)
    if not found or not (found[2] or found[3]) or abs(int(found[4] or 0)) > LARGEST_EXPONENT:
        return None
    whole = "".join(filter(str.isdigit, found[2]))
    return Decimal(f"{found[1]}{whole or '0'}.{found[3] or '0'}e{found[4] or '0'}")


def number_in(text: str, sign: str = "") -> Decimal:
    """Return the number that a text stands for, with `sign` as its decimal sign, or without one if
    both readings agree. Raises a `QuantityFault`: `is not a number`, `may be 1.2 or 1200`."""
    found = readings(text)
    if sign in found:
        return found[sign]
    numbers = set(found.values())
    if not numbers:
        raise QuantityFault("is not a number")
    if len(numbers) > 1:
        raise QuantityFault(f"may be {' or '.join(sorted(map(plain_text, numbers), key=Decimal))}")
    return numbers.pop()


def magnitude(amount: Quantity) -> Quantity:
    """Return an amount without its sign."""
    return -amount if amount < 0 else amount


def plain_text(number: Quantity) -> str:
    """Return a number as a text with a point, and without an exponent, thousands separators or
    trailing zeros: `30.5`."""
    text = f"{Decimal(number):f}"
    return text.rstrip("0").rstrip(POINT) if POINT in text else text


def moved(before: Quantity, after: Quantity) -> str:
    """Return in words how much is gained or lost."""
    by = EXACT.subtract(after, before)
    return f"{plain_text(abs(by))} {'more' if by > 0 else 'less'}" if by else "no change"


def decimals(number: Quantity) -> int:
    """Return how many decimals a number has: 1 for 30.5 and for 30.50, 0 for 30."""
    return len(plain_text(number).partition(POINT)[2])


@dataclass(frozen=True)
class Measure:
    """How the whole numbers of a problem stand for quantities: a quantity times `scale` is the
    whole number. `unit` is what the quantities are counted in, as `l/s`, and `table` the name of
    the file that has them; either may be empty. `sign` is the decimal sign in that file, and empty
    if nothing says it.

    Where the quantity of a whole number need not be a finite decimal number, as with a scale of 60,
    quantities are the whole numbers, and the unit that is told says so: `hours times 60`."""

    scale: Decimal = Decimal(1)
    unit: str = ""
    table: str = ""
    sign: str = ""

    @property
    def decimals(self) -> int:
        """The most decimals that a quantity may have."""
        return decimals(self.quantity(1))

    @property
    def legend(self) -> str:
        """The line that explains the numbers: `numbers in l/s, from pipes.csv`, or as much of it as
        is known."""
        parts = [f"numbers in {self.told_unit}"] * bool(self.told_unit) + [
            f"from {self.table}"
        ] * bool(self.table)
        return ", ".join(parts)

    def title(self, words: str) -> str:
        """Return the title of a column of quantities: `flow (l/s)`."""
        return f"{words} ({self.told_unit})" if self.told_unit else words

    def finer(self, quantity: Quantity) -> Measure:
        """Return this measure with its scale times the least power of ten that makes `quantity`
        whole too. Where quantities are the whole numbers although there is a scale, return it
        unchanged."""
        scale = self.scale
        while (
            self.divisor == self.scale
            and (product := EXACT.multiply(Decimal(quantity), scale)) != product.to_integral_value()
        ):
            scale = EXACT.multiply(scale, Decimal(10))
        return replace(self, scale=scale)

    @classmethod
    def fitting(
        cls, quantities: set[Decimal], unit: str = "", table: str = "", sign: str = ""
    ) -> Measure:
        """Return the measure whose scale is the least power of ten that makes all these quantities
        whole."""
        most = max(map(decimals, quantities), default=0)
        return cls(Decimal(10) ** most, unit, table, sign)

    @cached_property
    def divisor(self) -> Decimal:
        """The number by which a whole number is divided: the scale, or 1 if some quotients are not
        finite decimals."""
        numerator = self.scale.as_integer_ratio()[0]
        for prime in 2, 5:
            while numerator % prime == 0:
                numerator //= prime
        return self.scale if numerator == 1 else Decimal(1)

    @property
    def told_unit(self) -> str:
        """The unit of quantities, for people; empty if it is not known."""
        return (
            self.unit
            if self.divisor == self.scale
            else f"{self.unit or 'units'} times {plain_text(self.scale)}"
        )

    def quantity(self, whole: int) -> Quantity:
        """Return the exact quantity of a whole number; it is a whole number too if the divisor is
        1."""
        if self.divisor == 1:
            return whole
        return EXACT.divide(Decimal(whole), self.divisor)

    def whole(self, quantity: Quantity) -> int:
        """Return the whole number of a quantity. Raises a `QuantityFault`: `is below 0`, `has 2
        decimals, and 1 is the most here`, `is past 1844674407370955161.5`."""
        number = Decimal(quantity)
        if not number.is_finite():
            raise QuantityFault("is not a number")
        if number < 0:
            raise QuantityFault("is below 0")
        if number.adjusted() > LARGEST_EXPONENT:
            raise QuantityFault(f"is past {self.text(LARGEST)}")
        product = EXACT.multiply(number, self.divisor)
        if product != product.to_integral_value():
            most = decimals(1 / self.divisor) if self.divisor >= 1 else 0
            if decimals(number) <= most:
                raise QuantityFault(f"times {plain_text(self.scale)} is not a whole number")
            told = f"{decimals(number)} decimal{'s' * (decimals(number) != 1)}"
            raise QuantityFault(
                f"has {told}, and {most} {'is' if most == 1 else 'are'} the most here"
            )
        if product > LARGEST:
            raise QuantityFault(f"is past {self.text(LARGEST)}")
        return int(product)

    def text(self, whole: int) -> str:
        """Return the quantity of a whole number as a text with a point: `30.5`."""
        return plain_text(self.quantity(whole))

    def told(self, whole: int) -> str:
        """Return the quantity of a whole number with its unit: `30.5 l/s`."""
        return f"{self.text(whole)} {self.told_unit}".rstrip()

    def cell(self, whole: int) -> str:
        """Return the quantity of a whole number as a cell of its table: with the table's decimal
        sign."""
        return self.text(whole).replace(POINT, self.sign or POINT)
