"""Problem texts."""

from __future__ import annotations

from collections.abc import Callable

from .changes import MOST_ARCS
from .network import Arc, State
from .texts import LARGEST, judge, number_of, read_text, written

MOST_NODES = 16_777_216
# How many fields stand after the first one of each line.
FIELDS = {b"p": 3, b"n": 2, b"a": 3}


class Reading:
    """What the lines of a problem text have said so far. Without a problem line there are no
    nodes."""

    def __init__(self) -> None:
        self.nodes = 0
        self.arc_count = 0
        self.terminals: dict[bytes, int] = {}
        self.arcs: list[Arc] = []
        self.capacities = 0

    def take(self, fields: list[bytes]) -> None:
        kind, *rest = fields
        judge(
            (kind not in FIELDS, "unknown line"),
            (kind != b"p" and not self.nodes, "problem line expected"),
            (kind == b"p" and self.nodes > 0, "second problem line"),
            (kind == b"a" and len(self.terminals) < 2, "arc before source and sink"),
            (kind == b"a" and len(self.arcs) == self.arc_count, "too many arcs"),
            (len(rest) != FIELDS.get(kind), "wrong number of fields"),
        )
        takes: dict[bytes, Callable[..., None]] = {
            b"p": self.take_counts,
            b"n": self.take_terminal,
            b"a": self.take_arc,
        }
        takes[kind](*rest)

    def take_counts(self, name: bytes, nodes_field: bytes, arcs_field: bytes) -> None:
        judge((name != b"max", "not a max problem"))
        nodes, arcs = number_of(nodes_field), number_of(arcs_field)
        judge((not 2 <= nodes <= MOST_NODES or arcs > MOST_ARCS, "count out of range"))
        self.nodes, self.arc_count = nodes, arcs

    def take_terminal(self, field: bytes, letter: bytes) -> None:
        node = number_of(field)
        judge(
            (letter not in (b"s", b"t"), "neither source nor sink"),
            (not 1 <= node <= self.nodes, "no such node"),
            (letter in self.terminals, "terminal named twice"),
            (node in self.terminals.values(), "source and sink are the same"),
        )
        self.terminals[letter] = node

    def take_arc(self, tail: bytes, head: bytes, cap: bytes) -> None:
        arc = Arc(number_of(tail), number_of(head), number_of(cap))
        judge(
            (not (1 <= arc.tail <= self.nodes and 1 <= arc.head <= self.nodes), "no such node"),
            (self.capacities + arc.cap > LARGEST, "capacities past 64 bits"),
        )
        self.capacities += arc.cap
        self.arcs.append(arc)

    def end(self) -> State:
        judge(
            (not self.nodes, "problem line expected"),
            (len(self.terminals) < 2, "source or sink missing"),
            (len(self.arcs) < self.arc_count, "too few arcs"),
        )
        return State(
            self.nodes,
            self.terminals[b"s"],
            self.terminals[b"t"],
            tuple(self.arcs),
            (0,) * len(self.arcs),
        )


def read_problem(text: bytes) -> State:
    """The state that a problem text stands for. Raises its first fault."""
    return read_text(text, Reading())


def problem_text(state: State) -> bytes:
    arcs = [written("a", arc.tail, arc.head, arc.cap) for arc, _ in state.open_arcs()]
    head = [
        written("p", "max", state.nodes, len(arcs)),
        written("n", state.source, "s"),
        written("n", state.sink, "t"),
    ]
    return b"".join(head + arcs)
