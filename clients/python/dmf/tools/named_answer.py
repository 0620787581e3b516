"""Print the output of dmf as it arrives, with the names and numbers of a table."""

from __future__ import annotations

import argparse
from collections.abc import Iterator, Mapping
from typing import TYPE_CHECKING

from ..files import cannot, standard_input
from ..text.events import JsonWriter
from ..text.lexical import Fault, TextFault, display
from ..text.problem_text import ArcRecord, Problem, read_problem
from ..text.session_commands import read_command
from ..text.session_replies import (
    Asked,
    ChangedReply,
    CutReply,
    Event,
    FlowReply,
    Other,
    PrintedReply,
    RefusedReply,
    SolutionReply,
    TranscriptFault,
)
from ..text.table_comments import TableRoles, renumbered, role_words, table_comments
from ..text.transcript import TranscriptReader
from .command import CommandLines, Status, ToolFault, warn, write

if TYPE_CHECKING:
    from ..tables.loader import LoadedProblem

NAME = "dmf-names"
UNKNOWN = (
    "unknown commands changed the network, so capacities and the arcs of cuts are left out from "
    "here on; give the commands with --commands FILE"
)


class AnswerNames:
    """How the nodes and arcs of a problem, and its numbers, are shown: as its table has them."""

    def __init__(self, problem: Problem, subject: LoadedProblem) -> None:
        self.subject = subject
        self.nodes = {number: display(name) for number, name in problem.node_names.items()}
        self.arcs = {number: display(name) for number, name in problem.arc_names.items()}
        self.described = problem.described
        self.measure = problem.described.measure
        self.folding = TableRoles(problem.described)
        self.ends_of_problem = problem.source, problem.sink
        self.ties = self.folding.ties(problem.arcs)

    def node(self, number: int) -> str:
        place = self.folding.place(number)
        return self.nodes.get(place, str(place))

    def ends(self, tail: int, head: int) -> str:
        """Return the ends of an arc, or what the arc stands for if the table does not have it."""
        role = self.folding.role(tail, head)
        return role_words(role, self.node) if role else f"{self.node(tail)} -> {self.node(head)}"

    def arc(self, number: int, arc: ArcRecord) -> str:
        """Return an arc's name and its ends."""
        name, ends = self.arcs.get(number), self.ends(arc.tail, arc.head)
        return ends if name is None or self.folding.role(arc.tail, arc.head) else f"{name}, {ends}"

    def pipe(self, first: int, there: ArcRecord) -> str:
        """Return the name and the ends of a pipe that leads both ways, by the first of its arcs."""
        ends = f"{self.node(there.tail)} <-> {self.node(there.head)}"
        return f"{self.arcs[first]}, {ends}" if first in self.arcs else ends

    def cut(self, cut: CutReply, arcs: list[ArcRecord]) -> tuple[list[int], list[int]]:
        """Return the side of a cut and the numbers of its arcs, without unlimited sources and
        sinks. If the arcs are not known, there are none."""
        if cut.arcs is None or not self.folding.has_unlimited:
            return cut.side, cut.arcs or []
        opened = [(number, arc) for number, arc in enumerate(arcs, 1) if not arc.is_closed]
        side = self.folding.told_side(set(cut.side), (arc[:3] for _, arc in opened))
        return sorted(side), [
            number for number, arc in opened if arc.tail in side and arc.head not in side
        ]

    def places(self, side: list[int]) -> str:
        """Return the places on a side."""
        return ", ".join(map(self.node, self.folding.places(side)))

    def comments(self, printed: PrintedReply) -> Iterator[str]:
        """Yield the comments that describe a printed problem's table and its columns, and its
        names, with the numbers that the arcs have there."""
        ends = (arc[:2] for arc in printed.problem.arcs)
        tied = self.ties.among(printed.numbers or ())
        yield from table_comments(renumbered(self.described, ends, tied)).splitlines()
        for number, name in sorted(self.nodes.items()):
            if 1 <= number <= printed.problem.node_count:
                yield f"c node {number} {name}"
        for place, number in enumerate(printed.numbers or (), 1):
            if number in self.arcs:
                yield f"c arc {place} {self.arcs[number]}"
        yield from self.subject.extra.comments(printed.numbers or ()).splitlines()


class Telling:
    """Prints the events of an answer in words."""

    def __init__(self, names: AnswerNames, follower: TranscriptReader) -> None:
        self.names = names
        self.follower = follower
        pairs = names.ties.pairs()
        self._width_of_pairs = max((len(f"{it},{other}") for it, other in pairs), default=0)

    def tell(self, event: Event) -> Iterator[str]:
        """Yield the lines for an event."""
        text, told = self.names.measure.text, self.names.measure.told
        if isinstance(event, SolutionReply):
            yield f"value {told(event.value)}"
            flows = dict(zip(event.numbers, event.flows)) if self.names.ties else {}
            for number, arc, flow in zip(event.numbers, event.arcs, event.flows):
                if pair := self.pair(number):
                    # A pipe stands where the first of its open arcs does.
                    if number == pair[0] or pair[0] not in flows:
                        yield self.flow_of_pipe(pair, flows)
                    continue
                role = self.names.folding.role(arc.tail, arc.head)
                most = ", no limit" if role and role.is_unlimited else f" of {text(arc.capacity)}"
                yield f"{self.arc(number, arc)}: {text(flow)}{most}"
        elif isinstance(event, FlowReply):
            yield f"  {self.names.ends(event.tail, event.head)}: {text(event.flow)}"
        elif isinstance(event, CutReply):
            yield f"limit {told(event.capacity)}"
            side, numbers = self.names.cut(event, self.follower.timeline.arcs)
            yield from [f"  source's side: {self.names.places(side)}"] * bool(
                self.names.places(side)
            )
            for number in numbers:
                arc = self.follower.timeline.arcs[number - 1]
                pair = self.pair(number)
                to = f" to {self.names.node(arc.head)}" if pair else ""
                told_arc = self.pipe(pair) if pair else self.arc(number, arc)
                yield f"{told_arc}: {text(arc.capacity)}{to}"
        elif isinstance(event, PrintedReply):
            yield from self.names.comments(event)
            yield from (line.decode(errors="replace") for line in event.lines)
        else:
            yield display(event.line.decode(errors="replace")) + self.meaning(event)

    def meaning(self, event: Other | Asked | ChangedReply | RefusedReply) -> str:
        """Return the number in a command or in the reply to a change as the table shows it, if that
        differs."""
        number = (
            event.value
            if isinstance(event, ChangedReply)
            else self.amount(event.line)
            if isinstance(event, Asked)
            else None
        )
        measure = self.names.measure
        return (
            f" ({measure.told(number)})"
            if number is not None and measure.text(number) != str(number)
            else ""
        )

    @staticmethod
    def amount(line: bytes) -> int | None:
        """Return the capacity in a command."""
        try:
            command = read_command(line)
        except Fault:
            return None
        return command.numbers[-1] if command and command.word in ("cap", "add") else None

    def arc(self, number: int, arc: ArcRecord) -> str:
        """Return an arc with its number, if the number is known."""
        if not self.follower.is_numbered:
            return f"  {self.names.ends(arc.tail, arc.head)}"
        return f"  {number:>{self.width()}} {self.names.arc(number, arc)}"

    def width(self) -> int:
        """Return how wide numbers are: those of arcs, or of two as in `3,4` if some are tied."""
        one = len(str(len(self.follower.timeline.arcs)))
        return max(one, self._width_of_pairs)

    def pair(self, number: int) -> tuple[int, int] | None:
        """Return both arcs of the pipe that an arc is one way of, if that is known."""
        return self.names.ties.pair(number) if self.follower.is_numbered else None

    def pipe(self, pair: tuple[int, int]) -> str:
        """Return a pipe that leads both ways with the numbers of its arcs."""
        first, second = pair
        told = self.names.pipe(first, self.follower.timeline.arcs[first - 1])
        return f"  {f'{first},{second}':>{self.width()}} {told}"

    def flow_of_pipe(self, pair: tuple[int, int], flows: Mapping[int, int]) -> str:
        """Return the line for a pipe that leads both ways, from the flows on open arcs."""
        from ..desk.pipes import amounts
        from .tied_pipes import pipe_of

        pipe = pipe_of(pair, self.follower.timeline.arcs, self.names.measure)
        there, back = (flows.get(number, 0) for number in pair)
        net = self.names.measure.quantity(there - back)
        ends = self.names.node(pipe.tail), self.names.node(pipe.head)
        return f"{self.pipe(pair)}: {amounts(pipe, net, ends)}"


def table(names: AnswerNames, follower: TranscriptReader) -> str:
    """Return the arcs of the last solution as a table for a spreadsheet. If the answer has no cut
    of that solution, its column is empty."""
    from ..tables.table_writer import Told, WriterRow, plan_text

    solution, cut = follower.solution, follower.cut
    if solution is None and follower.is_known:
        hint = "; `print flow` after the last solve prints them" * bool(follower.solves_are_brief)
        raise ToolFault(f"the answer ends without a solution and its flows{hint}")
    if solution is None or not follower.is_numbered:
        raise ToolFault(
            "the arcs of the last solution are not known; give the commands with --commands FILE"
        )
    # The arcs of a cut are None if the network was not known at that point.
    is_known = cut is not None and cut.arcs is not None and cut.serial == solution.serial
    is_same = is_known and cut is not None and cut.serial == follower.timeline.serial
    crossing = (
        set(names.cut(cut, follower.timeline.arcs)[1] if is_same else cut.arcs or ())
        if cut and is_known
        else None
    )
    quantity = names.measure.quantity
    arcs = [
        WriterRow(
            number,
            arc.tail,
            arc.head,
            quantity(arc.capacity),
            quantity(flow),
            None if crossing is None else number in crossing,
        )
        for number, arc, flow in zip(solution.numbers, solution.arcs, solution.flows)
    ]
    told = Told(
        names.folding,
        names.node,
        lambda number: names.arcs.get(number, ""),
        names.ends_of_problem,
        names.subject.extra,
        both_ways=tuple(names.ties.among(solution.numbers).pairs()),
    )
    return plan_text(arcs, told, names.measure, raw_names=names.subject.raw_names)


def events(follower: TranscriptReader, commands: CommandLines | None) -> Iterator[Event]:
    """Yield the events of the answer on standard input as its lines come."""
    try:
        for line in standard_input():
            yield from follower.take(line)
    except OSError as error:
        raise cannot("read", "standard input", error) from None
    if commands:
        commands.is_ended = True
    yield from follower.end()


def problem_of(subject: LoadedProblem) -> Problem:
    """Return the problem of what the arguments name. Raises a `ToolFault`."""
    for note in subject.notes:
        warn(NAME, note)
    try:
        return read_problem(subject.text)
    except TextFault as fault:
        raise ToolFault(f"line {fault.line} of the problem: {fault.reason}") from None


def show(subject: LoadedProblem, words: argparse.Namespace) -> int:
    """Show the answer on standard input, and return the tool's status. Raises a `ToolFault`."""
    problem = problem_of(subject)
    commands = CommandLines(words.commands) if words.commands is not None else None
    follower = TranscriptReader(problem, commands)
    names = AnswerNames(problem, subject)
    telling: JsonWriter | Telling = (
        JsonWriter(names, follower) if words.json else Telling(names, follower)
    )
    is_warned = False
    try:
        for event in events(follower, commands):
            if not words.csv:
                write("".join(f"{line}\n" for line in telling.tell(event)))
            if isinstance(event, ChangedReply) and not follower.is_known and not is_warned:
                is_warned = True
                warn(NAME, f"line {follower.line} of the answer: {UNKNOWN}")
    except TranscriptFault as fault:
        raise ToolFault(f"line {fault.line} of the {fault.text}: {fault.reason}") from None
    if words.csv:
        write(table(names, follower))
    return Status.DONE
