"""Capacities with decimals, as callers give them, and the whole numbers that stand for them."""

from __future__ import annotations

from collections.abc import Iterable, Iterator
from decimal import Decimal, InvalidOperation
from fractions import Fraction
from typing import Any

from .errors import NotANumber, shown_value
from .quantity import EXACT, LARGEST_EXPONENT, Measure, QuantityFault, decimals, number_in
from .rows import is_unbounded, is_unordered, whole

# A hint names no scale that has more digits than a capacity may have.
MOST_PLACES = 19
EXPECTED = (
    "expected a scale such as 10, 1000 or 4, which divides whole numbers into finite decimals"
)


def measure_of(scale: object) -> Measure:
    """Return how whole numbers stand for capacities, which are multiplied by a scale. Raises a
    ValueError for a scale by which not every whole number can be divided without a rest."""
    try:
        factor = exact(scale)
    except (TypeError, QuantityFault):
        factor = Decimal(0)
    if factor.is_finite() and factor > 0 and abs(factor.adjusted()) <= LARGEST_EXPONENT:
        measure = Measure(factor)
        if measure.divisor == factor:
            return measure
    raise ValueError(f"{EXPECTED}, and not {shown_value(scale)}")


def exact(number: Any) -> Decimal:
    """Return a number as a Decimal: a float by its shortest decimal form, so that 0.1 is a tenth.
    Raises a TypeError for a value that is not a number, and a `QuantityFault` for a fraction that
    is not a finite decimal."""
    if isinstance(number, Decimal):
        return number
    if isinstance(number, int):
        return Decimal(number)
    if isinstance(number, float):
        return Decimal(repr(float(number)))
    if isinstance(number, Fraction):
        quotient = EXACT.divide(Decimal(number.numerator), Decimal(number.denominator))
        if Fraction(quotient) != number:
            raise QuantityFault("is not a finite decimal")
        return quotient
    try:
        # A float of numpy, of another width, is written in its shortest form too.
        return (
            Decimal(str(number)) if hasattr(number, "is_integer") else Decimal(number.__index__())
        )
    except (AttributeError, InvalidOperation):
        raise TypeError from None


def whole_of(measure: Measure, quantity: Any, at: object) -> int:
    """Return the whole number of a quantity, which may be a number of any kind, or a text as a
    table has it. Raises `NotANumber`, whose message says that it stands in `at`, and why it is
    none."""
    try:
        if isinstance(quantity, str):
            return measure.whole(number_in(quantity, measure.sign))
        try:
            number = exact(quantity)
        except TypeError:
            number = Decimal(whole(quantity, at))
        return measure.whole(number)
    except QuantityFault as fault:
        raise NotANumber(f"{shown_value(quantity)} in {shown_value(at)} {fault}") from None


def whole_amount(measure: Measure, amount: Any, at: object) -> Any:
    """Return the whole number of a capacity, and a capacity that is missing or infinite as it is.
    Raises `NotANumber`, whose message says which scale would do."""
    if is_unbounded(amount):
        return amount
    try:
        return whole_of(measure, amount, at)
    except NotANumber as fault:
        places = 0 if isinstance(amount, (str, Fraction)) else decimals(exact(amount))
        if not 0 < places <= MOST_PLACES or amount < 0:
            raise
        raise NotANumber(f"{fault.what}; scale={10**places} is enough for it") from None


def whole_rows(measure: Measure, rows: Iterable[Any]) -> Iterator[Any]:
    """Yield rows of arcs with whole capacities; one of another form as it is."""
    for row in rows:
        if is_unordered(row) or isinstance(row, (str, bytes)) or len(row) < 3:
            yield row
        else:
            yield (*row[:2], whole_amount(measure, row[2], tuple(row)), *row[3:])
