"""The network of a desk on a session: the steps that it has made, how it goes to others, and its
flows."""

from __future__ import annotations

import contextlib
from array import array
from collections.abc import Container, Iterable

from ..arcs import Arc
from ..errors import Error, Refused
from ..losses import marks_of
from ..quantity import Quantity, moved
from ..session.base import (
    ArcColumns,
    Part,
    ProblemColumns,
    Program,
    Ranked,
    ValuesWithout,
    WorstWithout,
)
from ..tables.loader import LoadedProblem
from ..tables.problem_networks import network_of_subject
from ..text.lexical import LARGEST
from .network_arcs import NetworkArcs
from .steps import Add, Change, Close, Follow, MakePlace, Marks, Node, Reopen, Shut, Solve, Step

# How many nodes are added at once for places that may be made.
SPARES = 8


class LiveNetwork(NetworkArcs):
    """The network of a problem, on a session of its own. Raises what `dmf.read` raises.

    The steps that the session has made are read off the network's history: its changes are the
    very objects of the steps, or they are not. So an interrupted call leaves no doubt, and
    `stand_on` goes from any state to the steps that are asked for.
    """

    def __init__(self, subject: LoadedProblem, program: Program = None) -> None:
        self.network = network_of_subject(subject, program)
        super().__init__(subject, self.network._kept, self.network.nodes)
        self.network._kept.watcher = self._follow
        # Whether changes are being made. An error that is not a refusal leaves this True, and the
        # session is then abandoned.
        self._is_moving = self._is_dropped = False
        # The moment of the network's history, the steps that it was found to stand on then, and
        # their marks.
        self._found: tuple[object, tuple[Step, ...], Marks] | None = None

    # The session.

    @property
    def has_ended(self) -> bool:
        """Return True if the session is known to have ended."""
        return self._is_moving or self._is_dropped or not self.network._session.end.alive

    def break_off(self, why: str) -> None:
        """End the session at once, also for a thread that waits for it."""
        self.network._session.break_off(why)

    def drop(self) -> None:
        """End the session, which may be between two steps."""
        self._is_dropped = True
        self.break_off("the session was ended")
        with contextlib.suppress(Error):
            self.network.end()
        self._is_moving = False

    # Its place in the history.

    def stand_on(self, steps: tuple[Step, ...]) -> tuple[Step, ...]:
        """Bring the network to the state after these steps, and return them as they are made now.
        Steps at the end whose value is only promised are made by `make` alone. Without a session it
        can only go to states in its history; otherwise raises `SessionEnded`."""
        kept, found = self.network._kept, self._found
        if (
            found
            and found[0] is kept.moment
            and found[1] is steps
            and found[2] is self.marks
            and not self._is_moving
        ):
            return steps
        if self._is_moving:
            # Something was broken off between two steps.
            self.drop()
        same = place = 0
        for step in steps:
            if step.made is None or not kept.has_after(place, step.made):
                break
            same, place = same + 1, place + len(step.made)
        left = steps[same:] if any(step.made is not None for step in steps[same:]) else ()
        self._go(place, steps[same - 1].marks if same else Marks())
        if left:
            steps = (*steps[:same], *(self.make(step.text, step.changes) for step in left))
        self._found = kept.moment, steps, self.marks
        return steps

    def _go(self, place: int, marks: Marks) -> None:
        """Step back or on to this place in the history, whose state has these marks."""
        by = place - self.network._kept.place
        if by and self.has_ended:
            self.network._go_without_session(place, self.network._kept.value_at(place))
        elif by:
            self._is_moving = True
            self.marks = marks
            if by < 0:
                self.network.undo(-by)
            else:
                self.network.redo(by)
            self._is_moving = False
        self._mark(marks)

    def promise(self, value: int) -> Step:
        """Return the step that solves, for a caller that knows the greatest value already. The
        session makes it when its flows are asked for."""
        return Step("solve", (Solve(),), self.measure.quantity(value), self.marks)

    def extend(
        self, steps: tuple[Step, ...], text: str, changes: tuple[Change, ...]
    ) -> tuple[Step, ...]:
        """Make one more step after these, on which the network stands, and return them all."""
        after = (*steps, self.make(text, changes))
        self._found = self.network._kept.moment, after, self.marks
        return after

    def make(self, text: str, changes: tuple[Change, ...]) -> Step:
        """Make the changes of a step, all of them or none: if one is refused, `stand_on` undoes
        those before it. Any other error ends the session, which might be left between two."""
        if self.has_ended:
            raise self.network._session.ended()
        kept = self.network._kept
        before = kept.moment
        self._is_moving = True
        try:
            for change in changes:
                self._change(change)
        except Refused:
            self._is_moving = False
            raise
        if self.marks.shut:
            opened = self._opened_places(changes)
            self.marks = self.marks._replace(shut=self.marks.shut - opened)
        self._mark(self.marks)
        self._is_moving = False
        quantity, made = self.measure.quantity, kept.changes_after(before.place)
        value = quantity(kept.moment.value)
        by = moved(quantity(before.value), value) if before.place else ""
        return Step(text, changes, value, self.marks, made, by)

    def _change(self, change: Change) -> None:
        """Make a change of the network."""
        network, nodes, marks = self.network, self._nodes, self.marks
        if isinstance(change, Solve):
            network.solve()
        elif isinstance(change, MakePlace):
            self.marks = marks._replace(made=(*marks.made, change.name))
            self.names.call(self.marks.made)
            self._add_spares()
        elif isinstance(change, Add):
            ends = nodes[change.tail - 1], nodes[change.head - 1]
            network.add(*ends, self.measure.whole(change.capacity), change.name)
            if change.is_back:
                (made,) = network._kept.changes_after(network._kept.moment.place - 1)
                self.ways_back[id(made)] = made
                self.pipes.tie(len(self.lines))
        elif isinstance(change, Reopen):
            network.open(self.handle(change.arc))
        elif isinstance(change, Shut):
            self.marks = marks._replace(shut=marks.shut | {change.node})
            network.shut(nodes[change.node - 1])
        elif isinstance(change, Close):
            network.close(self.handle(change.arc))
        else:
            line = self.lines[change.arc - 1]
            if line.is_unlimited and not isinstance(change, Follow):
                self.marks = marks._replace(limited=marks.limited | {line.first or change.arc})
            network.cap(self.handle(change.arc), self.measure.whole(change.capacity))

    def _add_spares(self) -> None:
        """Add nodes to the network, if it lacks those of the places that were made, and some more:
        with each addition the session begins again. A node without arcs is no place, so it stays
        when the step is undone."""
        if len(self._nodes) < self.names.node_count:
            for number in range(len(self._nodes) + 1, self.names.node_count + SPARES):
                self.network.add_node(number)
                self.names.add_spare(number)
            self._nodes = self.network.nodes

    # Answers about that state.

    @property
    def program(self) -> Program:
        """Return the program, if the caller named one."""
        return self.network._session.program

    def problem(self) -> ProblemColumns:
        """Return the problem of all arcs as they are, in which a closed one carries nothing."""
        return self.network._kept.copy().problem()

    def values_without(self, part: Part) -> ValuesWithout:
        """Return the greatest value without each arc or node: from the session if it runs in this
        process and its flow is greatest, else from the program."""
        return self.network._values_without(part)

    def pairs_without(self, most: int, arcs: Container[int]) -> WorstWithout:
        """Return the greatest value without each of the `most` worst pairs of these arcs, likewise.
        They are given by their numbers."""
        marks = marks_of(arcs, self.network._kept.arc_count)
        return self.network._worst_without(Ranked.PAIRS, most, marks)

    def room(self) -> int:
        """Return by how much the sum of the capacities of the open arcs can grow, in the whole
        numbers of the session."""
        kept = self.network._kept
        closed = sum(kept.capacities[number - 1] for number in kept.closed)
        return LARGEST - sum(kept.capacities) + closed

    def largest_capacity(self) -> int:
        """Return the largest capacity that an arc has, or had before it was closed."""
        return max(self.network._kept.capacities, default=0)

    def gains(self, arcs: ArcColumns) -> array[int] | None:
        """Return how much greater the greatest value is with each of these new arcs, or None if
        the session does not find it."""
        return self.network._asked_gains(arcs)

    def flows(self) -> array[int]:
        """Return the flow on each arc, in the whole numbers of the session: that on arc 1 first,
        and 0 on a closed one."""
        return self.network._flow_of_each()

    def handle(self, number: int) -> Arc[Node]:
        """Return the handle of an arc in the session's network."""
        return self.network._kept.handle(number)

    def node_of(self, number: int) -> Node:
        """Return the node of the session's network that has this number."""
        return self._nodes[number - 1]

    def leaving(self, side: Iterable[int]) -> list[int]:
        """Return the open arcs that lead out of a set of nodes, in their order."""
        return self.network._kept.numbers_leaving(sorted(side))

    def changed(self) -> set[int]:
        """Return the pipes that differ from the problem's: closed, added, or of another capacity.
        One that was closed and opened again does not differ."""
        kept = self.network._kept
        found = set()
        for number, line in enumerate(self.lines, 1):
            first = line.first or number
            is_new = first > self.first_count or line.is_closed
            if not line.is_replaced and (
                is_new or kept.first_capacity(first) != kept.capacities[number - 1]
            ):
                found.add(self.pipes.number(number))
        return found

    def first_capacity(self, number: int) -> Quantity | None:
        """Return the capacity that the problem gives an arc, or None if it was added later. One
        that was closed and opened again is the arc that it was."""
        first = self.lines[number - 1].first or number
        kept = self.network._kept
        return (
            self.measure.quantity(kept.first_capacity(first)) if first <= self.first_count else None
        )
