"""The kinds of replies of a session and of `dmf solve`, and how they are read line by line."""

from __future__ import annotations

from collections import Counter, defaultdict
from collections.abc import Sequence
from dataclasses import dataclass
from enum import Enum
from typing import Union

from .lexical import MOST_ARCS, Fault, TextFault, display, read_number
from .problem_text import ArcRecord, Problem, read_problem
from .session_commands import CHANGES, FIELD_COUNTS, Command, ended_line, read_command

# The kinds of a line, judged by its form alone.
Kind = Enum("Kind", "VALUE FLOW CUT SIDE PROBLEM TERMINAL ARC CHANGED SOLVED REFUSED COMMAND OTHER")

_BY_FIRST_FIELD = {
    b"s": Kind.VALUE,
    b"f": Kind.FLOW,
    b"p": Kind.PROBLEM,
    b"n": Kind.TERMINAL,
    b"a": Kind.ARC,
}


def kind_of(found: list[bytes]) -> Kind:
    """Return the kind of a line with these fields."""
    if not found:
        return Kind.OTHER
    if found[0] in _BY_FIRST_FIELD:
        return _BY_FIRST_FIELD[found[0]]
    if found[0] in FIELD_COUNTS:
        return Kind.COMMAND
    if found[0] != b"c" or len(found) < 3:
        return Kind.OTHER
    if len(found) == 3 and found[1] in (b"cut", b"side"):
        return Kind.CUT if found[1] == b"cut" else Kind.SIDE
    if found[1] == b"refused" and len(found) > 3 and found[2].isdigit():
        return Kind.REFUSED
    if found[1:3] == [b"solve", b"value"] and len(found) == 4 and found[3].isdigit():
        return Kind.SOLVED
    is_change = (
        found[1] in CHANGES and len(found) == 4 + (found[1] == b"add") and found[-2] == b"value"
    )
    return (
        Kind.CHANGED
        if is_change and found[2 if found[1] == b"add" else -1].isdigit()
        else Kind.OTHER
    )


@dataclass(frozen=True)
class OneLine:
    """An event that one line tells."""

    line: bytes


class Other(OneLine):
    """A line that is neither a reply nor a command."""


class Asked(OneLine):
    """A command line in a transcript."""


@dataclass(frozen=True)
class ChangedReply(OneLine):
    """A change that was made, and the value after it. `command` is None if it is not known."""

    command: Command | None
    value: int


@dataclass(frozen=True)
class RefusedReply(OneLine):
    """A command that was refused, and why."""

    reason: str


@dataclass(frozen=True)
class SolutionReply:
    """The flows on the open arcs, in order: the arcs' numbers, the arcs as they were, and the
    flows.

    If the flows are missing, the three are empty and `is_told` is false: as in a brief reply to a
    solve, or while the flows of an unknown network have not been read. `serial` identifies the
    state with this flow.
    """

    value: int
    is_told: bool
    numbers: Sequence[int] = ()
    arcs: Sequence[ArcRecord] = ()
    flows: Sequence[int] = ()
    serial: object = None


@dataclass(frozen=True)
class FlowReply:
    """The flow on an arc of which only the ends are known."""

    tail: int
    head: int
    flow: int


@dataclass(frozen=True)
class CutReply:
    """The smallest minimum cut: its capacity, the nodes on the source side, and the numbers of its
    arcs, or None if the network is not known. `line` is the number of its first line, and `serial`
    identifies the state with this cut."""

    capacity: int
    side: list[int]
    arcs: list[int] | None
    line: int
    serial: object = None


@dataclass(frozen=True)
class PrintedReply:
    """A printed problem: its lines, and the number that each of its arcs has in the session, or
    None if these are not known."""

    lines: list[bytes]
    problem: Problem
    numbers: list[int] | None


Event = Union[
    Other, Asked, ChangedReply, RefusedReply, SolutionReply, FlowReply, CutReply, PrintedReply
]


class SolutionReading:
    """A solution of a known network while its lines are read."""

    GOES_ON = (Kind.FLOW,)

    def __init__(self, value: int, arcs: list[ArcRecord], command: Command | None) -> None:
        self.value = value
        self.command = command
        self.numbers = [at for at, arc in enumerate(arcs, 1) if not arc.is_closed]
        self.arcs = [arcs[at - 1] for at in self.numbers]
        self.flows: list[int] = []

    def is_whole_with(self, more: int) -> bool:
        """Return True if no flow is missing once `more` further flows are read."""
        return len(self.flows) + more == len(self.arcs)

    def is_whole(self) -> bool:
        return self.is_whole_with(0)

    def take(self, found: list[bytes]) -> None:
        """Take in a flow line. Raises a `Fault` if the line does not belong to the next open
        arc."""
        tail, head, flow = flow_of(found)
        number, arc = self.numbers[len(self.flows)], self.arcs[len(self.flows)]
        if (tail, head) != (arc.tail, arc.head):
            if not any((tail, head) == (other.tail, other.head) for other in self.arcs):
                raise Fault(f"no such arc: {tail} to {head}")
            raise Fault(
                f"arc {number} leads from {arc.tail} to {arc.head}, not from {tail} to {head}"
            )
        if flow > arc.capacity:
            raise Fault(
                f"over capacity: arc {number}, from {tail} to {head}, carries at most "
                f"{arc.capacity}, not {flow}"
            )
        self.flows.append(flow)

    def judge(self, source: int, sink: int) -> None:
        """Raise a `Fault` unless the flows are a flow of this value from the source to the sink."""
        excesses: Counter[int] = Counter()
        for arc, flow in zip(self.arcs, self.flows):
            if flow:
                excesses[arc.tail] += flow
                excesses[arc.head] -= flow
        unbalanced = {node for node, excess in excesses.items() if excess} - {source, sink}
        if unbalanced:
            raise Fault(f"flow not conserved at node {min(unbalanced)}")
        if excesses[source] != self.value:
            raise Fault(
                f"value differs: {excesses[source]} flows out of the source, not {self.value}"
            )


class CutReading:
    """A cut while its lines are read. If the network is known, so is the end of the side: no
    smaller minimum cut lies inside the smallest one."""

    GOES_ON = (Kind.SIDE,)

    def __init__(
        self, capacity: int, line: int, problem: Problem, arcs: list[ArcRecord] | None
    ) -> None:
        self.capacity = capacity
        self.line = line
        self.problem = problem
        self.arcs = arcs
        self.side: dict[int, None] = {}
        self.carried = 0
        # The positions of the arcs at each node, computed when they are first needed.
        self.at_node: dict[int, list[int]] = {}

    def is_whole(self) -> bool:
        is_cut = self.problem.source in self.side and self.problem.sink not in self.side
        return self.arcs is not None and is_cut and self.carried == self.capacity

    def take(self, found: list[bytes]) -> None:
        """Take in a node of the side."""
        node = read_number(found[2])
        if not 1 <= node <= self.problem.node_count:
            raise Fault(f"no such node: {node}")
        if node in self.side:
            raise Fault(f"node {node} is on the side twice")
        self.side[node] = None
        if self.arcs is not None:
            self._carry(node, self.arcs)

    def _carry(self, node: int, arcs: list[ArcRecord]) -> None:
        """Add the arcs that now leave the side, and remove those that no longer leave it."""
        if not self.at_node:
            self.at_node = defaultdict(list)
            for place, arc in enumerate(arcs):
                if arc.capacity and arc.tail != arc.head:
                    self.at_node[arc.tail].append(place)
                    self.at_node[arc.head].append(place)
        for place in self.at_node.get(node, ()):
            tail, head, capacity, _ = arcs[place]
            if tail == node and head not in self.side:
                self.carried += capacity
            elif head == node and tail in self.side:
                self.carried -= capacity

    def judge(self) -> None:
        """Raise a `Fault` unless the side is that of a cut whose arcs have the capacity in the
        reply."""
        if self.problem.source not in self.side or self.problem.sink in self.side:
            raise Fault("the side of this cut lacks the source or contains the sink")
        if self.arcs is not None and self.carried != self.capacity:
            raise Fault(f"the arcs of this cut carry {self.carried}, not {self.capacity}")

    def crossing(self) -> list[int] | None:
        """Return the numbers of the open arcs that leave the side, or None if the network is not
        known."""
        if self.arcs is None:
            return None
        return [
            at
            for at, arc in enumerate(self.arcs, 1)
            if arc.tail in self.side and arc.head not in self.side and not arc.is_closed
        ]


class ProblemReading:
    """A printed problem while its lines are read."""

    GOES_ON = (Kind.TERMINAL, Kind.ARC)

    def __init__(self, content: bytes, found: list[bytes], line: int) -> None:
        self.lines = [content]
        self.first_line = line
        if len(found) != 4:
            raise Fault("wrong number of fields")
        self.line_count = min(read_number(found[3]), MOST_ARCS) + 3

    def is_whole(self) -> bool:
        return len(self.lines) == self.line_count

    def read(self) -> Problem:
        """Return the problem. Raises its `TextFault`, with the number of the line in the whole
        answer."""
        try:
            return read_problem(b"\n".join(self.lines))
        except TextFault as fault:
            raise TextFault(self.first_line + fault.line - 1, fault.reason, fault.field) from None


def flow_of(found: list[bytes]) -> tuple[int, int, int]:
    """Return the tail, the head and the flow in a line."""
    if len(found) != 4:
        raise Fault("wrong number of fields")
    return read_number(found[1]), read_number(found[2]), read_number(found[3])


class TranscriptFault(TextFault):
    """Commands and replies, or a reply and the network, that do not match. `text` is `answer` or
    `commands`, and `line` the number of the line in it."""

    def __init__(self, text: str, line: int, reason: str, about: bytes = b"") -> None:
        super().__init__(line, reason, about)
        self.text = text


@dataclass(frozen=True)
class Pending:
    """A command that has no reply yet: the text it stands in, its line number there, the line's
    content, and what it asks for or why its form gets it refused."""

    text: str
    line: int
    content: str
    command: Command | None
    refusal: str | None

    @staticmethod
    def of(text: str, line: int, read: bytes) -> Pending | None:
        """Return the command in a line, or None for a comment or a blank line."""
        content = display(ended_line(read)[:80].decode(errors="replace"))
        try:
            command = read_command(read)
        except Fault as fault:
            return Pending(text, line, content, None, fault.reason)
        return Pending(text, line, content, command, None) if command else None

    def __str__(self) -> str:
        return f"`{self.content}`, line {self.line} of the {self.text}"
