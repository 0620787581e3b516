"""In what two scenarios differ: the value, the limit, and each arc whose flow, capacity or state is
another one."""

from __future__ import annotations

from collections import Counter
from collections.abc import Iterator
from dataclasses import dataclass
from typing import Any, NamedTuple, Union

from ...quantity import Measure, Quantity, magnitude, moved, plain_text
from ...text.lexical import display
from ..pipes import Pipe, TwoWayPipe, amounts
from ..workspace import Desk
from .scenarios import Scenarios

# By what an arc is known in every scenario: its number, if it is one of the table; else its ends,
# its name and its place among those alike that were added. A place that was made is known by its
# name, since another scenario may have made another one with its node.
End = Union[int, str]
Known = Union[int, tuple[End, End, str, int]]
OPEN, CLOSED, ABSENT = "open", "closed", "not there"


class ArcState(NamedTuple):
    """An arc in a scenario: `open`, `closed` or `not there`; its capacity, or the one that it had
    before it was closed; its flow, below 0 if it goes back on one that leads both ways; whether it
    belongs to the limit; whether it carries as much as the arcs at its place, so that its capacity
    means nothing; and its amounts in words, if it leads both ways."""

    state: str
    capacity: Quantity
    flow: Quantity
    is_limit: bool
    is_unlimited: bool = False
    amounts: str = ""

    def told(self, limit: str = "limit") -> str:
        """Return the state in words: `45 of 45, limit`. The page and a report have another word
        for the limit."""
        if self.state != OPEN:
            return self.state
        amounts = self.amounts or (
            f"{plain_text(self.flow)}, no limit"
            if self.is_unlimited
            else f"{plain_text(self.flow)} of {plain_text(self.capacity)}"
        )
        return amounts + f", {limit}" * self.is_limit


# The planner's word for the limit, on the page and in a report.
BOTTLENECK = "bottleneck"
_ABSENT = ArcState(ABSENT, 0, 0, False)


@dataclass(frozen=True)
class Standing:
    """A scenario: its value, the places on the source's side of its limit, and the arcs of the
    limit, by their names."""

    name: str
    value: Quantity
    side: tuple[str, ...]
    limit: tuple[str, ...]


@dataclass(frozen=True)
class ArcDifference:
    """An arc that differs: its name with its ends, and what it is in each scenario. `known`
    distinguishes it from others with the same name."""

    arc: str
    first: ArcState
    second: ArcState
    known: Known

    @property
    def kind(self) -> str:
        """Return what is other in the second scenario: the arc has `come` or `gone`, `more` or
        `less` flows on it, or something `else`."""
        was, now = self.first.state == OPEN, self.second.state == OPEN
        if was != now:
            return "come" if now else "gone"
        before, after = magnitude(self.first.flow), magnitude(self.second.flow)
        return "more" if after > before else "less" if after < before else "else"


@dataclass(frozen=True)
class Comparison:
    """Two scenarios beside each other, and the arcs that differ, in the order of the table. Numbers
    are the table's. `alike` are the arcs that do not differ, and `noun` is the word for an arc."""

    first: Standing
    second: Standing
    arcs: tuple[ArcDifference, ...]
    measure: Measure
    alike: tuple[Known, ...] = ()
    noun: str = "arc"

    def __setstate__(self, state: dict[str, Any]) -> None:
        """Take what was pickled, also by an earlier version, which had no noun."""
        self.__dict__.update({"noun": "arc", **state})

    def lines(self) -> Iterator[str]:
        """Yield the comparison in words, with a line for each thing that differs."""
        names = [display(it.name) for it in (self.first, self.second)]
        for name, standing in zip(names, (self.first, self.second)):
            yield f"{name}: value {plain_text(standing.value)} {self.measure.told_unit}".rstrip()
        yield f"  {moved(self.first.value, self.second.value)}"
        if self.first.limit == self.second.limit:
            yield f"  the limit is the same: {'; '.join(self.first.limit) or 'nothing'}"
        else:
            for name, standing in zip(names, (self.first, self.second)):
                yield f"  limit of {name}: {'; '.join(standing.limit) or 'nothing'}"
        differ = f"{self.noun}s that differ, {' | '.join(names)}:"
        yield f"  {differ}" if self.arcs else f"  no {self.noun} differs"
        yield from (f"  {it.arc}: {it.first.told()} | {it.second.told()}" for it in self.arcs)


class _Snapshot:
    """A scenario that a desk shows, with its arcs, read before the desk shows another one."""

    def __init__(self, desk: Desk, name: str) -> None:
        network = desk.network
        cut, names = desk.cut_arcs(), network.names
        limit = tuple(names.arc(number) for number in cut)
        self.standing = Standing(name, desk.value, tuple(names.side(desk.side())), limit)
        flows, lines = desk.flows(), network.lines
        self._cut = frozenset(cut)
        self._flows = flows
        self._measure = network.measure
        self.numbers = dict(known_arcs(desk))
        self._pipes: dict[int, Pipe] = (
            {number: network.pipes.pipe(number) for number in self.numbers.values()}
            if network.pipes.are_two_way
            else dict(enumerate(lines, 1))
        )
        node = network.names.node
        self._ends = {
            number: (node(pipe.tail), node(pipe.head))
            for number, pipe in self._pipes.items()
            if isinstance(pipe, TwoWayPipe)
        }
        # What can differ of each arc, as it can be compared at once.
        self.bare = {
            known: (
                pipe.is_closed,
                pipe.room(1),
                pipe.room(-1),
                flows[number - 1],
                number in cut,
                pipe.is_unlimited,
            )
            for known, number in self.numbers.items()
            for pipe in (self._pipes[number],)
        }
        # An arc that was added is not there in another scenario, and goes by other numbers in it.
        self._added = {
            known: names.arc(number)
            for known, number in self.numbers.items()
            if isinstance(known, tuple)
        }

    def state(self, known: Known) -> ArcState:
        number = self.numbers.get(known)
        if number is None:
            return _ABSENT
        pipe = self._pipes[number]
        flow = self._measure.quantity(self._flows[number - 1])
        return ArcState(
            CLOSED if pipe.is_closed else OPEN,
            pipe.capacity,
            flow,
            number in self._cut,
            pipe.is_unlimited,
            amounts(pipe, flow, self._ends[number]) if number in self._ends else "",
        )

    def label(self, known: Known) -> str:
        """Return how an arc is called that was added in the scenario; nothing if it was not."""
        return self._added.get(known, "") if isinstance(known, tuple) else ""


def known_arcs(desk: Desk) -> Iterator[tuple[Known, int]]:
    """Yield the pipes of a desk by what they are known by. One that was closed and opened again is
    the one that it was."""
    network = desk.network
    count = Counter[tuple[End, End, str]]()
    given, made = network.first_count, network.names.made
    yield from (
        (number, number)
        for number, line in enumerate(network.lines[:given], 1)
        if not line.is_replaced and not network.pipes.is_second(number)
    )
    known: dict[int, Known] = {}
    for number, line in enumerate(network.lines[given:], given + 1):
        tail, head = (made.get(node, node) for node in line[:2])
        alike = tail, head, network.names.arc_name(number)
        if line.first:
            known[number] = known.get(line.first, line.first)
        else:
            count[alike] += 1
            known[number] = (*alike, count[alike])
        if not line.is_replaced and not network.pipes.is_second(number):
            yield known[number], number


def compare(project: Scenarios, first: str, second: str) -> Comparison:
    """Compare two scenarios of a project; `base` is the network of the table. The desk shows the
    present scenario as before. Raise a `DeskFault` if a scenario does not exist. This takes as long
    as the steps that the three do not share."""
    with project.visiting(first) as desk:
        one = _Snapshot(desk, first)
    with project.visiting(second) as desk:
        two = _Snapshot(desk, second)
    network = project.desk.network

    def label(known: Known) -> str:
        return (
            network.names.arc(known)
            if isinstance(known, int)
            else one.label(known) or two.label(known)
        )

    every = dict.fromkeys([*one.numbers, *two.numbers])
    found = {known for known in every if one.bare.get(known) != two.bare.get(known)}
    rows = tuple(
        ArcDifference(label(it), one.state(it), two.state(it), it) for it in every if it in found
    )
    return Comparison(
        one.standing,
        two.standing,
        rows,
        network.measure,
        tuple(it for it in every if it not in found),
        network.words.noun,
    )
