"""The words of a desk's network: the names of its places, what is told of its pipes, and which pipe
a text means."""

from __future__ import annotations

from collections.abc import Iterator, Mapping, Sequence
from functools import cached_property

from ..quantity import Measure, Quantity, plain_text
from ..state import NetworkState
from ..tables.loader import LoadedProblem
from ..text.lexical import NODE
from ..text.spelling import cleaned, names_in, naming_pieces, quoted_name
from ..text.table_comments import TableRoles
from .arc_lines import ArcLines
from .directory import Directory
from .pipes import Pipe, Pipes, TwoWayPipe, amounts
from .steps import DeskFault, Node
from .subject_words import words_of


class NetworkWords:
    """The names and the words for the arcs of a problem. Arcs and nodes go by their numbers."""

    def __init__(
        self, subject: LoadedProblem, state: NetworkState[Node], nodes: Sequence[Node]
    ) -> None:
        self.subject = subject
        # The measure by which the session's numbers stand for quantities.
        self.measure: Measure = subject.measure
        self.folding = TableRoles(subject.described)
        self.lines = ArcLines(state.columns, state.capacities, self.measure)
        tied = self.folding.partners(state.columns.tails, state.columns.heads)
        self.pipes = Pipes(self.lines, tied)
        labels = subject.net.node_names if subject.net else _node_names(subject.text, nodes)
        self.words = words_of(subject.notes)
        self.names = Directory(labels, self.lines, self.pipes, nodes, self.folding, self.words)
        # The nodes of the problem's source and sink, which may join several places.
        self.source, self.sink = state.number(state.source), state.number(state.sink)

    def told(self, amount: Quantity) -> str:
        """Return an amount with its unit."""
        return f"{plain_text(amount)} {self.measure.told_unit}".rstrip()

    @cached_property
    def told_source(self) -> str:
        """Return the name of the source, or the names of the places that it joins."""
        return self.names.terminal(self.source)

    @cached_property
    def told_sink(self) -> str:
        """Return the name of the sink, likewise."""
        return self.names.terminal(self.sink)

    def told_amounts(self, number: int, flow: Quantity) -> str:
        """Return the flow on an open pipe and what it can carry, in words."""
        pipe = self.pipes.pipe(number)
        return amounts(pipe, flow, self.told_ends(pipe))

    def told_ends(self, pipe: Pipe) -> tuple[str, str]:
        """Return the names of the places at the ends of a pipe."""
        return self.names.node(pipe.tail), self.names.node(pipe.head)

    def tails(self, number: int) -> list[str]:
        """Return the places that a pipe leads from: two if it leads both ways."""
        lines = self.lines.of(self.pipes.arcs(number))
        return [self.names.node(line.tail) for line in lines]

    def heads(self, number: int) -> list[str]:
        """Return the places that a pipe leads to."""
        lines = self.lines.of(self.pipes.arcs(number))
        return [self.names.node(line.head) for line in lines]

    def told_room(self, number: int, flow: Quantity) -> str:
        """Return what a pipe can carry the way that this flow goes: `50 to Town` if it can carry
        something else the other way."""
        pipe = self.pipes.pipe(number)
        told = plain_text(pipe.room(flow))
        if not isinstance(pipe, TwoWayPipe) or pipe.is_even:
            return told
        return f"{told} to {self.names.node(pipe.tail if flow < 0 else pipe.head)}"

    def told_capacities(self, capacities: Mapping[int, Quantity]) -> Iterator[str]:
        """Yield for each pipe of these arcs the sentence that says what it carries then."""
        for number in self.pipes.numbers(capacities):
            arcs = [arc for arc in self.pipes.arcs(number) if arc in capacities]
            amounts = [self.told(capacities[arc]) for arc in arcs]
            words = amounts[0] + " each way" * (len(arcs) > 1)
            if amounts[1:] not in ([], amounts[:1]):
                heads = (self.names.node(self.lines[arc - 1].head) for arc in arcs)
                words = ", ".join(f"{amount} to {head}" for amount, head in zip(amounts, heads))
            yield f"{self.names.phrase(number)} {words}"

    def the_arc(self, text: str, *, is_closed: bool = False) -> int:
        """Return the pipe that a text means: the open one, or else the closed one. Raise a
        `DeskFault` if it means none, or several."""
        meant = self.names.arcs(text)
        found = [number for number in meant if not self.lines[number - 1].is_replaced]
        if not found:
            was, now = self.names.short(meant[0]), self._replacing(meant[0])
            raise DeskFault(f"{was} was closed as #{meant[0]} and opened again as #{now}")
        pipes = {number: self.pipes.pipe(number) for number in found}
        fitting = [
            number
            for number, it in pipes.items()
            if (it.is_partly_closed if is_closed else not it.is_closed)
        ]
        if len(fitting) == 1:
            return fitting[0]
        if fitting:
            raise DeskFault(
                f"{quoted_name(cleaned(text))} may be {self.names.list(fitting)}; "
                "choose one by its number"
            )
        arcs = self.names.list(found)
        raise DeskFault(f"{arcs} is open" if is_closed else f"{arcs} is closed; `open` opens it")

    def _replacing(self, number: int) -> int:
        """Return the arc that replaced one when it was opened again."""
        first = self.lines[number - 1].first or number
        return max(other for other, it in enumerate(self.lines, 1) if it.first == first)


def _node_names(text: bytes, nodes: Sequence[Node]) -> Sequence[str]:
    """Return the name of each node: the comment's, or else its number. Nodes that go by their
    numbers have a name that several have, or none."""
    if {*map(type, nodes)} <= {str}:
        return [*map(str, nodes)]
    named = names_in(naming_pieces(text, NODE), NODE)
    return [named.get(number, str(number)) for number in range(1, len(nodes) + 1)]
