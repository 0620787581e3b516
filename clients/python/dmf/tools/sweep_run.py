"""A sweep of dmf-sweep: its cases by number, the names of what they change, and its rows."""

from __future__ import annotations

import argparse
import sys
from collections.abc import Iterator, Sequence
from decimal import Decimal
from typing import Any

from ..arcs import Arc
from ..errors import Refused
from ..files import read_file
from ..network import Network
from ..quantity import POINT
from ..session.base import Part
from ..sweeps.cases import SweepResult, sweep
from ..sweeps.each import Each
from ..tables.sheet import cell_of, line, number_cell
from ..text.events import case_line
from ..text.lexical import FIELD, LARGEST, NODE, Fault, display, read_number
from ..text.spelling import names_in, naming_pieces
from ..text.table_comments import TableRoles, described, role_words
from .command import ToolFault

NAME = "dmf-sweep"
# The commands that a case may have, each with its form.
CHANGES = {
    "cap": "cap ARC CAPACITY",
    "add": "add TAIL HEAD CAPACITY",
    "close": "close ARC",
    "shut": "shut NODE",
}
ANY_CHANGE = "expected cap, add, close or shut"


class CaseNames:
    """Cases in numbers as commands that the client takes, and the names of what they change."""

    def __init__(self, network: Network[Any], text: bytes) -> None:
        """Read the names from the comments in the problem's text."""
        self.arcs = network.arcs
        self.nodes = network.nodes
        said = described(text)
        self.measure = said.measure
        self._folding = TableRoles(said)
        columns = network._kept.columns
        # The other way of the pipe that an arc is of, or 0.
        self.partners = self._folding.partners(columns.tails, columns.heads)
        self._names = names_in(naming_pieces(text, NODE), NODE)
        self._numbers = {node: number for number, node in enumerate(self.nodes, 1)}

    def case(self, numbered: list[tuple[Any, ...]]) -> list[tuple[Any, ...]]:
        return [self.command(*command) for command in numbered]

    def command(self, word: str, *numbers: int) -> tuple[Any, ...]:
        if word in ("cap", "close"):
            # The client refuses None as it refuses an arc that does not exist.
            arc = self.arcs[numbers[0] - 1] if 1 <= numbers[0] <= len(self.arcs) else None
            return (word, arc, *numbers[1:])
        ends = [self.node(number) for number in numbers[: 2 if word == "add" else 1]]
        return (word, *ends, *numbers[len(ends) :])

    def node(self, number: int) -> Any:
        return self.nodes[number - 1] if 1 <= number <= len(self.nodes) else None

    def text(self, word: str, *numbers: int) -> str:
        """Return a command, with its capacity as the table shows it if that differs."""
        text = " ".join(map(str, (word, *numbers)))
        is_told = word in ("cap", "add") and self.measure.text(numbers[-1]) != str(numbers[-1])
        return f"{text} ({self.measure.told(numbers[-1])})" if is_told else text

    def name(self, numbered: list[tuple[Any, ...]]) -> str:
        """Return the name of what the first command of a case changes, or nothing if that does not
        exist."""
        if not numbered:
            return ""
        word, *numbers = numbered[0]
        if word in ("cap", "close"):
            return (
                self.arc_name(self.arcs[numbers[0] - 1])
                if 1 <= numbers[0] <= len(self.arcs)
                else ""
            )
        nodes = numbers[: 2 if word == "add" else 1]
        return (
            " -> ".join(map(self.node_name, nodes))
            if all(1 <= node <= len(self.nodes) for node in nodes)
            else ""
        )

    def arc_name(self, arc: Arc[Any]) -> str:
        tail, head = self._numbers[arc.tail], self._numbers[arc.head]
        role = self._folding.role(tail, head)
        if role:
            return role_words(role, self.node_name)
        arrow = "<->" if self.partners and self.partners[arc.number] else "->"
        return (
            f"{self.node_name(tail)} {arrow} {self.node_name(head)}"
            if arc.given_key is None
            else str(arc.given_key)
        )

    def node_name(self, number: int) -> str:
        place = self._folding.place(number)
        return self._names.get(place, str(place))


def case_of(line: bytes, place: str) -> list[tuple[Any, ...]]:
    """Return the commands in a line. Raises a `ToolFault` for a command that is not a change, which
    names the line's `place`, the column and what stands there."""
    commands: list[tuple[Any, ...]] = []
    begin = 0
    for part in line.split(b";"):
        try:
            commands.append(_change(part))
        except _CaseFault as fault:
            column = len(line[: begin + fault.begin].decode(errors="replace")) + 1
            raise ToolFault(f"{place}, column {column}: {fault}") from None
        begin += len(part) + 1
    return commands


class _CaseFault(Exception):
    """What is wrong with a command of a case, which stands `begin` bytes behind its beginning."""

    def __init__(self, begin: int, why: str) -> None:
        super().__init__(why)
        self.begin = begin


def _change(part: bytes) -> tuple[Any, ...]:
    """Return the command that the part of a line between two semicolons has. Raises a
    `_CaseFault`."""
    fields = [*FIELD.finditer(part)]
    if not fields:
        raise _CaseFault(len(part), f"no command stands here; {ANY_CHANGE}")
    (begin, first), numbers = fields[0].span(), []
    word = _shown(part[begin:first])
    if word not in CHANGES:
        raise _CaseFault(begin, f"'{word}' is not a change; {ANY_CHANGE}")
    usage = f"usage: {CHANGES[word]}"
    if len(fields) != len(usage.split()) - 1:
        found = _shown(part[begin : fields[-1].end()])
        raise _CaseFault(begin, f"'{found}' has the wrong number of fields; {usage}")
    for field in fields[1:]:
        try:
            numbers.append(read_number(field[0]))
        except Fault:
            why = f"'{_shown(field[0])}' is not a whole number from 0 to {LARGEST}; {usage}"
            raise _CaseFault(field.start(), why) from None
    return (word, *numbers)


def _shown(field: bytes) -> str:
    return display(field.decode(errors="replace"))


def cases_of_file(path: str) -> list[list[tuple[Any, ...]]]:
    """Return the cases in the lines of a file. Raises a `ToolFault` for the first that has a
    fault."""
    name = "standard input" if path == "-" else path
    return [
        case_of(line, f"{name}, line {at}")
        for at, line in enumerate(read_file(path).splitlines(), 1)
        if line.strip() and not line.strip().startswith(b"c ")
    ]


def cases_of_arcs(
    network: Network[Any], of: str, partners: Sequence[int]
) -> list[list[tuple[Any, ...]]]:
    """Return the cases that each close a pipe: an arc, or the two ways of one that leads both
    ways."""
    arcs = network._leaving_cut() if of == "cut" else network.arcs
    back = {arc.number: partners[arc.number] for arc in arcs} if partners else {}
    pipes = dict.fromkeys(
        tuple(sorted(filter(None, (arc.number, back.get(arc.number, 0))))) for arc in arcs
    )
    return [[("close", number) for number in pipe] for pipe in pipes]


class SweepRun:
    """A sweep as it was asked for: the network, its cases, and the form of its rows."""

    def __init__(self, network: Network[Any], text: bytes, words: argparse.Namespace) -> None:
        self.network = network
        self._named = CaseNames(network, text)
        self.measure = self._named.measure
        self.cases = (
            cases_of_arcs(network, words.of, self._named.partners)
            if words.cases is None
            else cases_of_file(words.cases)
        )
        self._is_close_each = words.cases is None
        self.jobs: int | None = words.jobs
        self.anew: bool = words.anew
        self.head = [
            "case",
            "commands",
            "name",
            *map(self.measure.title, ("value", "difference")),
            "refused",
        ]
        self._raw_names: bool = words.raw_names

    def begin_of_row(self, at: int) -> list[str]:
        """Return the fields of a case's row that do not depend on its result."""
        numbered = self.cases[at - 1]
        commands = "; ".join(self._named.text(*command) for command in numbered)
        return [
            str(at),
            commands,
            cell_of(self._named.name(numbered), is_raw=self._raw_names),
        ]

    def row(self, at: int, result: SweepResult[Any]) -> list[str]:
        refused = (
            result.refusal.text
            if isinstance(result.refusal, Refused)
            else str(result.refusal or "")
        )
        return [
            *self.begin_of_row(at),
            *map(self._cell, (result.value, result.difference)),
            refused,
        ]

    def _cell(self, number: int | None) -> str:
        return "" if number is None else number_cell(self.measure.quantity(number), self.measure)

    def line(self, row: list[str]) -> str:
        """Return a row as a line of a table."""
        return line(row, self.measure)

    def difference(self, row: list[str]) -> Decimal:
        """Return the difference in a row that has one."""
        return Decimal(row[4].replace(self.measure.sign or POINT, POINT))

    def losses(self, rows: list[list[str]]) -> list[list[str]]:
        """Return the rows with a value, the greatest loss first; equal losses stay in order."""
        return sorted((row for row in rows if row[4]), key=self.difference)

    def rows(self, done: int) -> Iterator[list[str]]:
        """Yield the rows of the cases after the first `done` ones."""
        cases = Each(self._named.case, self.cases[done:], Part.ARC if self._is_close_each else None)
        is_watched = sys.stderr is not None and sys.stderr.isatty()
        for at, result in enumerate(
            sweep(self.network, cases, jobs=self.jobs, progress=is_watched, anew=self.anew),
            done + 1,
        ):
            yield self.row(at, result)


class JsonSweep(SweepRun):
    """A sweep whose rows are written as JSON objects."""

    def __init__(self, network: Network[Any], text: bytes, words: argparse.Namespace) -> None:
        super().__init__(network, text, words)
        self._raw_names = True

    def line(self, row: list[str]) -> str:
        """Return a row as an object, and nothing for the titles."""
        return "" if row is self.head else case_line(row, self.measure)
