"""Rows of arcs, nodes or pairs, each with a greatest value and its difference from a network's."""

from __future__ import annotations

from collections.abc import Iterator, Sequence
from typing import Any, Generic, TypeVar

# An arc, a node or a pair of arcs.
Thing = TypeVar("Thing")


class ValueDifferences(Generic[Thing]):
    """Rows: an arc, node or pair, a greatest value, and its difference from the network's."""

    __module__ = __package__

    value: Any
    values: Sequence[Any]
    # What the things are called, and the titles of the columns: those that name one, and those of
    # its value and its difference.
    _word: str
    _titles: tuple[str, ...]
    _number_titles: tuple[str, str]

    def _things(self) -> Sequence[Thing]:
        raise NotImplementedError

    def _differences(self) -> Sequence[Any]:
        raise NotImplementedError

    def _cells(self, thing: Thing) -> tuple[object, ...]:
        """Return the cells that name an arc, a node or a pair."""
        raise NotImplementedError

    def __iter__(self) -> Iterator[tuple[Thing, Any, Any]]:
        return zip(self._things(), self.values, self._differences())

    def __len__(self) -> int:
        return len(self.values)

    def __repr__(self) -> str:
        return f"<{type(self).__name__} of value {self.value} on {len(self)} {self._word}>"

    def _repr_html_(self) -> str:
        from .notebook import table

        rows = ((*self._cells(thing), value, by) for thing, value, by in self)
        titles = *self._titles, *self._number_titles
        return table(f"value {self.value}", titles, len(self), rows)
