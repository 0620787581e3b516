"""The arcs of a desk by their names."""

from __future__ import annotations

from collections.abc import Callable, Container, Sequence
from functools import cached_property
from itertools import compress, repeat
from operator import eq

from ..columns import MOST_MISSED, Index
from ..text.spelling import folded, folded_names, typed_names
from ..text.table_comments import ROLE_WORD
from .arc_lines import ArcLines


class ArcsByName:
    """The arcs of a desk by what can be typed for them, without those that were opened again as
    other ones."""

    def __init__(
        self, lines: ArcLines, inner_nodes: Container[int], typed: Callable[[int], set[str]]
    ) -> None:
        """Take `typed`, which returns what can be typed for an arc, and the nodes at which arcs may
        be that stand for what a place gives, takes or lets through."""
        self._lines, self._inner_nodes, self._typed = lines, inner_nodes, typed
        # The number of searches so far.
        self._missed = 0
        # The arcs that were added, by their names.
        self._added: dict[str, tuple[int, ...]] = {}

    @cached_property
    def _given_names(self) -> Sequence[str]:
        """Return what can be typed for the names that the problem gives its arcs, in the order of
        their numbers."""
        return typed_names([*self._lines.given_names.values()])

    @cached_property
    def _index(self) -> Index[int]:
        return Index(lambda: self._given_names, [*self._lines.given_names])

    @cached_property
    def _inner(self) -> dict[str, list[int]]:
        """Return by its names each arc of the problem that is at an inner node."""
        found: dict[str, list[int]] = {}
        for number in self._lines.given_at(self._inner_nodes):
            for name in self._typed(number):
                found.setdefault(name, []).append(number)
        return found

    def find(self, name: str) -> list[int]:
        """Return the arcs that have this name, in their order. After `MOST_MISSED` calls, which
        look at every name, the next one makes an index."""
        self._missed += 1
        found = {*self._added.get(name, ())}
        if self._missed > MOST_MISSED:
            found.update(self._index.find(name))
        else:
            is_it = map(eq, self._given_names, repeat(name))
            found.update(compress(self._lines.given_names, is_it))
        # Only a name that begins as theirs does is looked for among inner arcs.
        if folded(name).startswith(ROLE_WORD):
            found.update(self._inner.get(name, ()))
        return self._lines.present(sorted(found))

    def spellings(self, name: str) -> list[str]:
        """Return the names of arcs that are this one without case and accents."""
        sought, given = folded(name), self._given_names
        lines, found = "\n".join(given), set[str]()
        # A search in one text is several times as fast as one among many.
        if not lines.isascii() or f"\n{sought}\n" in f"\n{lines.casefold()}\n":
            found.update(compress(given, map(eq, folded_names(given), repeat(sought))))
        inner = self._inner if sought.startswith(ROLE_WORD) else ()
        found.update(other for other in (*inner, *self._added) if folded(other) == sought)
        return [*found]

    def put(self, number: int) -> None:
        """Take in an arc that was added."""
        for name in self._typed(number):
            others = self._added.get(name, ())
            if number not in others:
                self._added[name] = (*others, number)

    def drop(self, number: int) -> None:
        """Take out an arc that was taken in, or half of it: Ctrl-C may have come between."""
        for name in self._typed(number):
            others = tuple(other for other in self._added.get(name, ()) if other != number)
            if others:
                self._added[name] = others
            else:
                self._added.pop(name, None)
