"""The pipes of a desk: each is an arc, or the two arcs of one that leads both ways.

A pipe has the number of its arc, or of the first of its two. Its flow is that of its arc, or the
net flow of the two, which is below 0 if it goes from the head to the tail."""

from __future__ import annotations

from array import array
from collections.abc import Callable, Iterable, Iterator, Sequence
from typing import NamedTuple, Union

from ..quantity import Quantity, magnitude, plain_text
from .arc_lines import ArcLines
from .steps import DeskArc


class TwoWayPipe(NamedTuple):
    """A pipe that leads both ways as it is, which has what an arc has: its two arcs. It is closed
    if both are; if one is, it leads one way for now."""

    there: DeskArc
    back: DeskArc

    @property
    def tail(self) -> int:
        return self.there.tail

    @property
    def head(self) -> int:
        return self.there.head

    @property
    def first(self) -> int:
        return self.there.first

    @property
    def capacity(self) -> Quantity:
        """Return what it can carry from its tail to its head, or back if it only leads back."""
        return self.way(0).capacity

    @property
    def is_closed(self) -> bool:
        return self.there.is_closed and self.back.is_closed

    @property
    def is_partly_closed(self) -> bool:
        """Return True if it is closed, or one way of it is."""
        return self.there.is_closed or self.back.is_closed

    @property
    def is_replaced(self) -> bool:
        return self.there.is_replaced

    @property
    def is_unlimited(self) -> bool:
        return False

    @property
    def is_even(self) -> bool:
        """Return True if both ways are open, or closed, and can carry the same."""
        return self.room(1) == self.room(-1)

    def room(self, flow: Quantity) -> Quantity:
        """Return what it can carry the way that this flow goes: nothing if it is closed that way
        alone."""
        if not flow:
            return self.capacity
        way = self.there if flow > 0 else self.back
        return 0 if way.is_closed and not self.is_closed else way.capacity

    def way(self, flow: Quantity) -> DeskArc:
        """Return the arc that this net flow goes over; if nothing flows, one that is open."""
        is_back = flow < 0 or not flow and self.there.is_closed and not self.back.is_closed
        return self.back if is_back else self.there

    def is_full(self, flow: Quantity) -> bool:
        """Return True if this net flow fills it the way that it goes."""
        return flow != 0 and magnitude(flow) == self.room(flow)


Pipe = Union[DeskArc, TwoWayPipe]


class Pipes:
    """Which arcs of a desk are the two ways of one pipe."""

    def __init__(self, lines: ArcLines, partners: array[int]) -> None:
        """Keep which arcs are one pipe. `partners` has for each arc of the problem, by its number,
        the other way of its pipe, or 0; it is empty if no pipe leads both ways."""
        self._lines = lines
        self._partners = partners
        # The partners of arcs that were added; and by its first number the present number of each
        # arc that was opened again.
        self._added: dict[int, int] = {}
        self._now: dict[int, int] = {}
        # Whether there are pipes that lead both ways.
        self.are_two_way = bool(partners)
        # Returns the pipes of these numbers as they are.
        self.of: Callable[[Sequence[int]], Sequence[Pipe]] = lines.of
        if partners:
            self.of = self._of

    def _partner(self, number: int) -> tuple[int, int]:
        """Return the first number of an arc, and that of the other way of its pipe, or 0."""
        first = self._lines.first_of(number)
        if first < len(self._partners):
            return first, self._partners[first]
        return first, self._added.get(first, 0)

    def is_two_way(self, number: int) -> bool:
        """Return True if an arc is of a pipe that leads both ways."""
        return self.are_two_way and self._partner(number)[1] > 0

    def is_second(self, number: int) -> bool:
        """Return True if an arc is the second way of its pipe."""
        first, partner = self._partner(number) if self.are_two_way else (0, 0)
        return 0 < partner < first

    def number(self, number: int) -> int:
        """Return the number of the pipe that an arc is of. An arc that was opened again as another
        one is of no pipe of now."""
        if not self.are_two_way:
            return number
        first, partner = self._partner(number)
        if not 0 < partner < first:
            return number
        return self._now.get(partner, partner) if self._is_present(number, first) else partner

    def numbers(self, arcs: Iterable[int]) -> list[int]:
        """Return the numbers of the pipes that these arcs are of, each once, in their order."""
        return list(dict.fromkeys(map(self.number, arcs) if self.are_two_way else arcs))

    def arcs(self, number: int) -> tuple[int, ...]:
        """Return the arcs of a pipe as they are now: one, or two."""
        if not self.are_two_way:
            return (number,)
        first, partner = self._partner(number)
        if not partner or not self._is_present(number, first):
            return (number,)
        return number, self._now.get(partner, partner)

    def _is_present(self, number: int, first: int) -> bool:
        """Return True if an arc of this first number was not opened again as another one."""
        return self._now.get(first, first) == number

    def pipe(self, number: int) -> Pipe:
        """Return a pipe as it is."""
        line = self._lines[number - 1]
        if not self.are_two_way:
            return line
        _, *back = self.arcs(number)
        return TwoWayPipe(line, self._lines[back[0] - 1]) if back else line

    def _of(self, numbers: Sequence[int]) -> list[Pipe]:
        return [*map(self.pipe, numbers)]

    def net(self, flows: array[int]) -> Sequence[int]:
        """Return the net flow on each pipe from the flows of all arcs: at the second arc of a pipe
        it is that of the first one, the other way round."""
        found, now = [*flows], self._now
        for one, other in self._pairs():
            there, back = now.get(one, one), now.get(other, other)
            found[there - 1] = flows[there - 1] - flows[back - 1]
            found[back - 1] = -found[there - 1]
        return found

    def _pairs(self) -> Iterator[tuple[int, int]]:
        """Yield the first numbers of the arcs of each pipe that leads both ways."""
        yield from (
            (number, partner) for number, partner in enumerate(self._partners) if number < partner
        )
        yield from (
            (number, partner) for number, partner in self._added.items() if number < partner
        )

    def pairs(self, numbers: Iterable[int]) -> Iterator[tuple[int, int]]:
        """Yield the arcs of each pipe that leads both ways, among those with these numbers, by
        their places."""
        if not self.are_two_way:
            return
        places = {number: place for place, number in enumerate(numbers, 1)}
        for number, place in places.items():
            if not self.is_second(number):
                yield from ((place, places[it]) for it in self.arcs(number)[1:] if it in places)

    # How they follow.

    def tie(self, number: int) -> None:
        """Make the arc that was added last the way back of the one before it."""
        self._added[number - 1], self._added[number] = number, number - 1
        self.are_two_way, self.of = True, self._of

    def put(self, number: int, first: int) -> None:
        """Take in an arc of this first number that is opened again as another one."""
        self._now[first] = number

    def drop(self, number: int, replaced: int | None) -> None:
        """Take out the last arc, in whose place a closed one may come back."""
        first = self._lines.first_of(number)
        if replaced:
            self._now[first] = replaced
        elif number in self._added:
            self._added.pop(number - 1, None)
            self._added.pop(number)


# Which way a pipe that leads both ways flows.
THERE, BACK, STILL = ">", "<", "-"


def way_sign(pipe: Pipe, flow: Quantity) -> str:
    """Return the sign of the way that a pipe flows, which is empty if it leads one way only."""
    if not isinstance(pipe, TwoWayPipe):
        return ""
    return THERE if flow > 0 else BACK if flow < 0 else STILL


def other_way(pipe: Pipe, flow: Quantity, ends: tuple[str, str]) -> str:
    """Return what an open pipe between these ends can carry against this flow: `30 to Mill`, or
    `closed to Mill`; nothing if that is what it can carry with it, or the pipe leads one way."""
    if not isinstance(pipe, TwoWayPipe) or pipe.is_even:
        return ""
    other = pipe.back if pipe.way(flow) is pipe.there else pipe.there
    to = ends[1] if other is pipe.there else ends[0]
    return f"{'closed' if other.is_closed else plain_text(other.capacity)} to {to}"


def amounts(pipe: Pipe, flow: Quantity, ends: tuple[str, str]) -> str:
    """Return the flow on an open pipe between these ends and what it can carry: `40 of 60`. Of one
    that leads both ways they say which way: `40 of 60 to Town`, and `; 30 to Mill` if it can carry
    something else the other way."""
    if pipe.is_unlimited:
        return f"{plain_text(flow)}, no limit"
    if not isinstance(pipe, TwoWayPipe):
        return f"{plain_text(flow)} of {plain_text(pipe.capacity)}"
    other, to = other_way(pipe, flow, ends), ends[pipe.way(flow) is pipe.there]
    told = f"{plain_text(magnitude(flow))} of {plain_text(pipe.room(flow))}"
    return told + f" to {to}" * bool(flow or other) + f"; {other}" * bool(other)


def told_beside(pipe: Pipe, flow: Quantity, ends: tuple[str, str]) -> str:
    """Return what a picture says beside the flow on a pipe and what it can carry that way: `30 to
    Mill`, or `to Town; 30 to Mill` if its arrow points nowhere; nothing where an arrow says all."""
    other = "" if pipe.is_closed else other_way(pipe, flow, ends)
    if flow or pipe.is_partly_closed or not other:
        return other
    return f"to {ends[1]}; {other}"
