"""Which arcs of a problem are the two ways of one pipe, as comments in its text say:

    c both ways 3 4
    c both ways 5 to 20

Arcs 3 and 4 are one pipe, and so are 5 and 6, 7 and 8, and the others up to 19 and 20.
"""

from __future__ import annotations

import re
from array import array
from collections.abc import Callable, Collection, Iterable, Iterator, Sequence
from dataclasses import dataclass

from .lexical import NODES

WORDS = "c both ways "
_FORM = re.compile(
    rf"^{WORDS}([1-9][0-9]{{0,8}}) (to )?([1-9][0-9]{{0,8}})[ \t]*\r?$", re.MULTILINE
)


@dataclass(frozen=True)
class TwoWayArcs:
    """Pairs of arcs by their numbers, in runs: (3, 4, 2) are the pairs 3 and 4, and 5 and 6."""

    runs: tuple[tuple[int, int, int], ...] = ()

    def __bool__(self) -> bool:
        return bool(self.runs)

    def pairs(self) -> Iterator[tuple[int, int]]:
        """Yield the pairs, in their order."""
        for first, second, count in self.runs:
            yield from ((first + by, second + by) for by in range(0, 2 * count, 2))

    def within(self, arcs: int) -> TwoWayArcs:
        """Return the pairs of arcs 1 to `arcs` alone."""
        kept = (
            (first, second, min(count, (arcs - max(first, second)) // 2 + 1))
            for first, second, count in self.runs
        )
        return TwoWayArcs(tuple(run for run in kept if run[2] > 0))

    def among(self, numbers: Iterable[int]) -> TwoWayArcs:
        """Return the pairs among the arcs with these numbers, by their places from 1 on."""
        if not self.runs:
            return self
        places = {number: place for place, number in enumerate(numbers, 1)}
        return of_pairs(
            (places[one], places[other])
            for one, other in self.pairs()
            if one in places and other in places
        )

    def comments(self) -> Iterator[str]:
        """Yield the comments that say this."""
        for first, second, count in self.runs:
            yield (
                f"{WORDS}{first} {second}"
                if count == 1
                else f"{WORDS}{first} to {second + 2 * count - 2}"
            )


def of_pairs(pairs: Iterable[tuple[int, int]]) -> TwoWayArcs:
    """Return these pairs, in runs."""
    runs: list[tuple[int, int, int]] = []
    for first, second in pairs:
        begin, after, count = runs[-1] if runs else (0, 0, 0)
        if count and after == begin + 1 and (first, second) == (begin + 2 * count, first + 1):
            runs[-1] = begin, after, count + 1
        else:
            runs.append((first, second, 1))
    return TwoWayArcs(tuple(runs))


def in_comments(text: str) -> TwoWayArcs:
    """Return the pairs that comments say. Those that cannot be pairs are left out."""
    runs = []
    for first, to, last in _FORM.findall(text):
        begin, end = int(first), int(last)
        if not to and begin != end:
            runs.append((begin, end, 1))
        elif to and begin < end and (end - begin) % 2:
            runs.append((begin, begin + 1, (end - begin + 1) // 2))
    return TwoWayArcs(tuple(runs))


def partners(
    ways: TwoWayArcs,
    tails: Sequence[int],
    heads: Sequence[int],
    inner: Collection[int],
    place: Callable[[int], int],
) -> array[int]:
    """Return for each arc, by its number, the other way of its pipe, or 0; nothing if no pipe leads
    both ways. A pair counts only if its arcs lead there and back between two places, and neither is
    one of the `inner` arcs, which the table does not have."""
    if not ways:
        return array(NODES)
    found = array(NODES, [0]) * (len(tails) + 1)
    for first, second, count in ways.within(len(tails)).runs:
        there, back = slice(first - 1, first + 2 * count - 2, 2), slice(first, first + 2 * count, 2)
        after = first + 2 * count
        if (
            second == first + 1
            and tails[there] == heads[back]
            and heads[there] == tails[back]
            and not any(found[first:after])
            and not any(first <= number < after for number in inner)
        ):
            found[first:after:2] = array(NODES, range(second, after, 2))
            found[second:after:2] = array(NODES, range(first, after, 2))
            continue
        for one, other in TwoWayArcs(((first, second, count),)).pairs():
            ends = [place(end) for arc in (one, other) for end in (tails[arc - 1], heads[arc - 1])]
            is_free = not (found[one] or found[other] or one in inner or other in inner)
            if is_free and ends[:2] == ends[:1:-1]:
                found[one], found[other] = other, one
    return found


class TiedArcs:
    """The arcs of a problem that are the two ways of one pipe, by their numbers."""

    def __init__(self, partners: Sequence[int]) -> None:
        """Keep them. `partners` is what the function of this name returns."""
        self._partners = partners

    def __bool__(self) -> bool:
        return bool(self._partners)

    def pair(self, number: int) -> tuple[int, int] | None:
        """Return both arcs of the pipe that an arc is one way of, in order, or None."""
        partner = self._partners[number] if number < len(self._partners) else 0
        return (min(number, partner), max(number, partner)) if partner else None

    def pairs(self) -> Iterator[tuple[int, int]]:
        """Yield the arcs of each pipe that leads both ways."""
        yield from ((it, other) for it, other in enumerate(self._partners) if it < other)

    def among(self, numbers: Iterable[int]) -> TwoWayArcs:
        """Return those among the arcs with these numbers, by their places from 1 on."""
        return of_pairs(self.pairs()).among(numbers)
