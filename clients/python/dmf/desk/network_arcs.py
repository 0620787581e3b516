"""The arcs of a desk's network as its changes have left them, with what the table says of them:
limits and roles. It has no session.

Amounts are quantities, as the table has them. A session has whole numbers: the quantities times the
scale of the problem.
"""

from __future__ import annotations

import contextlib
from collections.abc import Collection, Iterable, Iterator, Sequence
from functools import cached_property
from itertools import chain
from typing import Any

from .. import history as session
from ..arcs import Arc
from ..quantity import EXACT, Quantity
from ..state import NetworkState
from ..tables.loader import LoadedProblem
from ..text.spelling import folded, quoted_name
from ..text.table_comments import Role
from .network_words import NetworkWords
from .pipes import Pipe
from .steps import (
    Add,
    Cap,
    Change,
    DeskArc,
    DeskFault,
    Follow,
    MakePlace,
    Marks,
    Node,
    Place,
    Reopen,
)


class NetworkArcs(NetworkWords):
    """The arcs of a problem, which follow the changes that a network keeps, made and undone: there
    is one timeline. Arcs and nodes go by their numbers."""

    def __init__(
        self, subject: LoadedProblem, state: NetworkState[Node], nodes: Sequence[Node]
    ) -> None:
        super().__init__(subject, state, nodes)
        self._nodes = nodes
        # The arcs of unlimited sources and sinks.
        self._at_first_unlimited = {
            number for number, role in subject.described.roles.items() if role.is_unlimited
        }
        # The changes that added the way back of a pipe, by their identities.
        self.ways_back: dict[int, session.Change] = {}
        # The number of the problem's arcs; those after them were added.
        self.first_count = len(self.lines)
        self.marks = Marks()
        self._mark(self.marks)

    def taken(self, amount: Quantity) -> Quantity:
        """Return an amount as the session's numbers have it."""
        return self.measure.quantity(self.measure.whole(amount))

    @property
    def shut_nodes(self) -> frozenset[int]:
        """Return the nodes that are shut."""
        return self.marks.shut

    @property
    def sources(self) -> list[int]:
        """Return the places that flow comes from, by their nodes."""
        return self.folding.ends(self.source)

    @property
    def sinks(self) -> list[int]:
        """Return the places that flow goes to, by their nodes."""
        return self.folding.ends(self.sink)

    def inner_places(self) -> list[int]:
        """Return the places, by their nodes, without the problem's source and sink."""
        ends = {*map(self.folding.place, (self.source, self.sink))}
        every = self.folding.places(range(1, self.names.node_count + 1))
        return [node for node in every if node not in ends]

    @cached_property
    def entered_exits(self) -> set[int]:
        """Return the second nodes of places that arcs enter from other places. A problem that was
        made from a table has none."""
        if not self.folding.has_roles:
            return set()
        place = self.folding.place
        return {
            head
            for tail, head in self.lines.ends()
            if place(head) != head and place(tail) != place(head)
        }

    def line(self, number: int) -> DeskArc:
        """Return an arc as it is. Raise a `DeskFault` if no arc has this number."""
        if number >= 1:
            with contextlib.suppress(IndexError):
                return self.lines[number - 1]
        raise DeskFault(f"{self.words.noun} #{number} does not exist")

    def pipe(self, number: int) -> Pipe:
        """Return a pipe as it is. Raise a `DeskFault` if no arc has this number."""
        self.line(number)
        return self.pipes.pipe(number)

    def open_arcs(self, number: int) -> list[int]:
        """Return the open arcs of the pipe that an arc is of. Raise a `DeskFault` if it is
        closed."""
        line = self.line(number)
        opened = [] if line.is_closed else [number]
        if self.pipes.are_two_way:
            arcs = self.pipes.arcs(self.pipes.number(number))
            opened = [arc for arc in arcs if not self.lines[arc - 1].is_closed]
        if not opened:
            raise DeskFault(f"{self.names.arc(number)} is closed")
        return opened

    def both_arcs(self, number: int) -> list[int]:
        """Return the open arcs of a pipe that leads both ways: from its first place to its second,
        and back. Raise a `DeskFault` if it leads one way, or one of them is closed."""
        opened, label = self.open_arcs(number), self.names.arc(number)
        if not self.pipes.is_two_way(number):
            raise DeskFault(f"{label} leads one way only, so it has no capacity back")
        if len(opened) < 2:
            raise DeskFault(f"one way of {label} is closed; `open` opens it")
        return opened

    def closed_arcs(self, number: int) -> list[int]:
        """Return the closed arcs of the pipe that an arc is of. Raise a `DeskFault` if it is
        open."""
        self.line(number)
        arcs = self.pipes.arcs(self.pipes.number(number))
        lines = {arc: self.lines[arc - 1] for arc in arcs}
        closed = [arc for arc, it in lines.items() if it.is_closed and not it.is_replaced]
        if not closed:
            raise DeskFault(f"{self.names.arc(number)} is open")
        return closed

    def second(self, number: int) -> list[Add]:
        """Return the changes that put a second pipe beside an open one. Raise a `DeskFault` if it
        is closed."""
        lines = self.lines.of(self.open_arcs(number))
        return [Add(*line[:3], is_back=at > 0) for at, line in enumerate(lines)]

    def ends_of_new(self, ends: Iterable[Place | MakePlace]) -> tuple[list[MakePlace], list[Place]]:
        """Return the places to be made among the ends of a new arc, and all ends as places. Raise a
        `DeskFault` if one cannot be made."""
        made: list[MakePlace] = []
        found = []
        for end in ends:
            if isinstance(end, MakePlace):
                made.append(MakePlace(self.names.new_name(end.name)))
                number = self.names.node_count + len(made)
                end = Place(number, number)
            found.append(end)
        if len({folded(it.name) for it in made}) < len(made):
            raise DeskFault(f"two new places cannot both be called {quoted_name(made[0].name)}")
        return made, found

    def opened(self) -> Iterator[tuple[int, DeskArc]]:
        """Yield the open arcs, with their numbers."""
        return ((number, line) for number, line in enumerate(self.lines, 1) if not line.is_closed)

    def role(self, number: int) -> Role | None:
        """Return what an arc stands for, or None if it is an arc of the table."""
        return self.folding.role(*self.lines[number - 1][:2])

    def roles(self) -> dict[int, list[tuple[int, str]]]:
        """Return the arcs that stand for what a place gives, takes or lets through, each with which
        of these, by the node of the place."""
        found: dict[int, list[tuple[int, str]]] = {}
        for number, line in enumerate(self.lines, 1) if self.folding.has_roles else ():
            if (role := self.role(number)) and not line.is_replaced:
                found.setdefault(role.node, []).append((number, role.kind))
        return found

    def pictured(self) -> list[int]:
        """Return the pipes of the table and those that were added. One that was opened again counts
        once."""
        found = [number for number, line in enumerate(self.lines, 1) if not line.is_replaced]
        if self.pipes.are_two_way:
            found = [number for number in found if not self.pipes.is_second(number)]
        if not self.folding.has_roles:
            return found
        # An arc of the table has no role, and most have no end at which an arc may have one.
        ends_of, is_table = self.lines.ends_of, self.folding.inner_nodes.isdisjoint
        return [number for number in found if is_table(ends_of(number)) or not self.role(number)]

    def opened_pipes(self) -> list[int]:
        """Return those of them that are open."""
        pipe = self.pipes.pipe
        return [number for number in self.pictured() if not pipe(number).is_closed]

    def told_side(self, inside: Collection[int]) -> set[int]:
        """Return the side of a minimum cut in which no unlimited source or sink is, by the side of
        the smallest one."""
        if not self.folding.has_unlimited:
            return {*inside}
        opened = (line[:3] for _, line in self.opened())
        return self.folding.told_side({*inside}, opened, self.limited())

    def limited(self) -> set[int]:
        """Return the places of sources and sinks to which a limit was given that had none."""
        if not self.folding.has_unlimited:
            return set()
        lines = (line for line in self.lines if not line.is_unlimited and not line.is_replaced)
        roles = (self.folding.role(*line[:2]) for line in lines)
        return {role.node for role in roles if role and role.is_unlimited}

    def whole(self, number: int) -> int:
        """Return the capacity of an arc as the session has it."""
        return self.measure.whole(self.lines[number - 1].capacity)

    def following(self, changes: Iterable[Change]) -> list[Follow]:
        """Return what changes with these: an unlimited source gives as much as the arcs there carry
        then, and a sink takes as much."""
        if not self.folding.has_unlimited:
            return []
        more: dict[tuple[int, int], Quantity] = {}
        for change in changes:
            if isinstance(change, Add):
                ends, by = (change.tail, change.head), change.capacity
            elif isinstance(change, (Cap, Reopen)):
                line = self.lines[change.arc - 1]
                ends, by = line[:2], line.capacity
                if isinstance(change, Cap):
                    by = EXACT.subtract(change.capacity, line.capacity)
            else:
                continue
            more[ends] = EXACT.add(more.get(ends, 0), by)
        found = []
        for number, role in self._unlimited(more):
            arcs = [line[:3] for _, line in self.opened()] + [
                (*ends, by) for ends, by in more.items()
            ]
            carried = self._sum(
                capacity for tail, head, capacity in arcs if self.folding.at_role(role, tail, head)
            )
            if carried > self.lines[number - 1].capacity:
                found.append(Follow(number, carried))
        return found

    def _unlimited(self, ends: Iterable[tuple[int, int]]) -> Iterator[tuple[int, Role]]:
        """Yield the open arcs of the unlimited sources and sinks at which arcs with such ends
        are."""
        wanted = list(ends)
        added = range(self.first_count + 1, len(self.lines) + 1)
        for number in chain(self.subject.described.roles, added):
            line, role = self.lines[number - 1], self.role(number)
            if role and line.is_unlimited and not line.is_closed:
                if any(self.folding.at_role(role, *those) for those in wanted):
                    yield number, role

    def _sum(self, amounts: Iterable[Quantity]) -> Quantity:
        total: Quantity = 0
        for amount in amounts:
            total = EXACT.add(total, amount)
        return self.taken(total)

    def _opened_places(self, changes: Iterable[Change]) -> set[int]:
        """Return the shut places whose arcs these changes opened again, all but those to other shut
        places."""
        ends = (self.lines[it.arc - 1][:2] for it in changes if isinstance(it, Reopen))
        opened = {node for nodes in ends for node in nodes if node in self.shut_nodes}
        left = set()
        for line in self.lines if opened else ():
            if line.is_shut and line.is_closed:
                left |= {
                    node
                    for node in line[:2]
                    if node in opened and not self.shut_nodes & {*line[:2]} - {node}
                }
        return opened - left

    # Updates after a change.

    def _mark(self, marks: Marks) -> None:
        """Set the marks, which say what places were made, and what sources and sinks are
        unlimited."""
        self.marks = marks
        if marks.made != self.names.made_names:
            self.names.call(marks.made)
        later = range(self.first_count + 1, len(self.lines) + 1) if self._at_first_unlimited else ()
        for number in chain(self._at_first_unlimited, later):
            line = self.lines[number - 1]
            is_unlimited = self._is_unlimited(line.first or number)
            if line.is_unlimited != is_unlimited:
                self.lines[number - 1] = line._replace(is_unlimited=is_unlimited)

    def _is_unlimited(self, first: int) -> bool:
        return first in self._at_first_unlimited and first not in self.marks.limited

    def _follow(self, change: session.Change, is_made: bool) -> None:
        """Update the lines after the network has made a change or, if not `is_made`, has undone
        it."""
        if change.added:
            arc, capacity, replaced = change.added
            if is_made and arc.number > len(self.lines):
                self._put(arc, capacity, replaced)
                if id(change) in self.ways_back:
                    self.pipes.tie(arc.number)
            elif not is_made and arc.number <= len(self.lines):
                self._drop(arc.number, replaced)
        for number, before, after in change.capacities:
            line, now = self.lines[number - 1], after if is_made else before
            if now is None:
                was_shut = change.command[0] == "shut"
                self.lines[number - 1] = line._replace(is_closed=True, was_shut=was_shut)
            else:
                looks: dict[str, Any] = {"is_closed": False, "was_shut": False}
                looks["is_unlimited"] = self._is_unlimited(line.first or number)
                self.lines[number - 1] = line._replace(capacity=self.measure.quantity(now), **looks)

    def _put(self, arc: Arc[Node], capacity: int, replaced: int | None) -> None:
        """Add the line of an arc that was added; it replaces that of a closed arc which was opened
        again."""
        if replaced:
            was = self.lines[replaced - 1]
            line = was._replace(is_closed=False, was_shut=False, first=was.first or replaced)
            self.pipes.put(arc.number, line.first)
        else:
            nodes = self.names.nodes
            line = DeskArc(nodes[arc.tail], nodes[arc.head], self.measure.quantity(capacity))
        self.lines.append(line, arc.given_key)
        self.names.put(arc.number)
        if replaced:
            self.lines[replaced - 1] = was._replace(is_replaced=True)

    def _drop(self, number: int, replaced: int | None) -> None:
        """Drop the line of the last arc."""
        self.names.drop(number)
        self.pipes.drop(number, replaced)
        self.lines.pop()
        if replaced:
            self.lines[replaced - 1] = self.lines[replaced - 1]._replace(is_replaced=False)
