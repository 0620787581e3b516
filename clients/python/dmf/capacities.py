"""Capacities as callers give them: with a scale, or missing."""

from __future__ import annotations

from collections.abc import Iterable
from typing import TYPE_CHECKING, Any, Union

from .rows import is_unbounded, whole

if TYPE_CHECKING:
    from decimal import Decimal

    from .quantity import Measure

# What capacities are multiplied by.
Scale = Union["Decimal", float]


class CapacityReader:
    """A converter of capacities to whole numbers: with the scale by which they are multiplied, if
    there is one, and the number that replaces a missing or infinite capacity, if there is one.
    `measure` says how the whole numbers stand for capacities, and is None without a scale."""

    def __init__(self, infinite: object = None, scale: object = None) -> None:
        """Check the scale and the number for missing capacities. Raises a ValueError for an
        unusable scale, `NotANumber` and `NumberTooLarge`."""
        self.measure: Measure | None = None
        if scale is not None:
            from .scaled_amounts import measure_of

            self.measure = measure_of(scale)
        self.infinite = None if infinite is None else self._whole(infinite, "infinite")

    def _whole(self, amount: object, at: object) -> int:
        if self.measure is None:
            return whole(amount, at)
        from .scaled_amounts import whole_of

        return whole_of(self.measure, amount, at)

    def quantity(self, number: int) -> Any:
        """Return what a caller sees of a whole number."""
        return number if self.measure is None else self.measure.quantity(number)

    def rows(self, rows: Iterable[Any]) -> Iterable[Any]:
        """Return rows of arcs with their capacities as whole numbers. One that has none stays as it
        is, unless a number stands for it."""
        if self.measure is not None:
            from .scaled_amounts import whole_rows

            rows = whole_rows(self.measure, rows)
        return rows if self.infinite is None else map(self._filled, rows)

    def _filled(self, row: Any) -> tuple[Any, ...]:
        return (*row[:2], self.infinite, *row[3:]) if is_unbounded(row[2]) else tuple(row)

    def column(self, ends: Iterable[tuple[Any, Any]], amounts: Iterable[Any]) -> list[Any]:
        """Return a column of capacities, of arcs with these ends, as `rows` does."""
        return [row[2] for row in self.rows((*pair, it) for pair, it in zip(ends, amounts))]
