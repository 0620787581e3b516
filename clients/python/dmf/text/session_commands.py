"""Read the command lines of a session, or say why their form alone gets them refused, and track a
network through the commands.

docs/SESSION.md describes the commands. A tracked network has no flows, only the value after each
command.
"""

from __future__ import annotations

import sys
from typing import NamedTuple

from ..history import Change, History
from .lexical import LARGEST, MOST_ARCS, Fault, fields, read_number
from .problem_text import ArcRecord, Problem

LONGEST_LINE = 4_096
SOLVE, ADD, UNDO, REDO = "solve", "add", "undo", "redo"
PRINT_PROBLEM, PRINT_FLOW, PRINT_CUT = "print problem", "print flow", "print cut"
# tests/commands.py has the commands:
# /usr/bin/python3 -m pytest --write tests/test_commands.py makes these lists.

# How many fields may follow each command's word.
FIELD_COUNTS = {
    b"cap": (2,),
    b"add": (3,),
    b"close": (1,),
    b"shut": (1,),
    b"solve": (0,),
    b"undo": (0, 1),
    b"redo": (0, 1),
    b"print": (1,),
}
PRINTED = (b"problem", b"flow", b"cut")
# The commands whose replies contain the value.
CHANGES = (b"cap", b"add", b"close", b"shut", b"undo", b"redo")
# End of these lists.


class Command(NamedTuple):
    """What a line asks for: the command's word, or two words for `print`, and its numbers. `undo`
    without a number has the number 1."""

    word: str
    numbers: tuple[int, ...] = ()

    def __str__(self) -> str:
        return " ".join([self.word, *map(str, self.numbers)])


def ended_line(line: bytes) -> bytes:
    """Return a line as it was read, without its line feed and a carriage return directly before
    it."""
    return line[:-1].removesuffix(b"\r") if line.endswith(b"\n") else line


def read_command(line: bytes) -> Command | None:
    """Return what a line asks for, or None for a blank line or a comment. The line may still have
    its line feed. Raises the `Fault` for which every session refuses the line, whatever its network
    is."""
    if len(line.removesuffix(b"\n")) > LONGEST_LINE:
        raise Fault("line too long")
    found = fields(ended_line(line))
    if not found or found[0] == b"c":
        return None
    word, *rest = found
    if word not in FIELD_COUNTS:
        raise Fault("unknown command")
    if len(rest) not in FIELD_COUNTS[word]:
        raise Fault("wrong number of fields")
    if word == b"print":
        if rest[0] not in PRINTED:
            raise Fault("unknown command")
        return Command(f"print {rest[0].decode()}")
    numbers = tuple(map(read_number, rest))
    is_step = word in (b"undo", b"redo")
    return Command(word.decode(), numbers or (1,) if is_step else numbers)


class TrackedNetwork(History):
    """A network with its history: the changes that led to it, and those that were undone. If
    `begins_known` is false, the session knows earlier changes than the history does, so more can be
    undone."""

    def __init__(self, problem: Problem, value: int = 0, begins_known: bool = True) -> None:
        super().__init__(sys.maxsize)
        self.problem = problem
        self.begins_known = begins_known
        self.arcs = [ArcRecord(tail, head, capacity) for tail, head, capacity in problem.arcs]
        self.capacity_sum = sum(arc.capacity for arc in self.arcs)
        self.begin_with(value)

    @property
    def serial(self) -> object:
        """An object that identifies the present state: the change that led to it, or the start. It
        is the same object again after an undo and a redo."""
        return self._changes[self.place - 1] if self.place else self._start

    def shut_nodes(self) -> set[int]:
        """Return the nodes that were shut and that no open arc leaves or enters now."""
        shut = {numbers[0] for word, *numbers in self.commands()[: self.place] if word == "shut"}
        if shut:
            shut -= {
                node for arc in self.arcs if not arc.is_closed for node in (arc.tail, arc.head)
            }
        return shut

    def forget_history(self, value: int) -> None:
        """Forget all changes, since an unknown change may be among them."""
        self.begin_with(value)
        self.begins_known = False

    def refusal(self, command: Command) -> str | None:
        """Return why this network refuses a command, or None. If earlier changes are unknown, an
        undo or a redo may be accepted."""
        word, numbers = command
        if word in ("cap", "close") and not 1 <= numbers[0] <= len(self.arcs):
            return "no such arc"
        if word in ("cap", "close") and self.arcs[numbers[0] - 1].is_closed:
            return "arc is closed"
        if word in (ADD, "shut") and not all(
            1 <= node <= self.problem.node_count for node in numbers[:2]
        ):
            return "no such node"
        if word == ADD and len(self.arcs) == MOST_ARCS:
            return "too many arcs"
        if (
            word in (ADD, "cap")
            and self.capacity_sum - self._freed(command) + numbers[-1] > LARGEST
        ):
            return "capacities past 64 bits"
        if word in (UNDO, REDO) and self.begins_known and not self.knows(command):
            return f"nothing to {word}"
        return None

    def _freed(self, command: Command) -> int:
        return self.arcs[command.numbers[0] - 1].capacity if command.word == "cap" else 0

    def knows(self, command: Command) -> bool:
        """Return True if all changes that an undo or a redo steps over are known. No other command
        needs any."""
        known = {UNDO: self.place, REDO: len(self._changes) - self.place}.get(command.word)
        return known is None or command.numbers[0] <= known

    def carry_out(self, command: Command, value: int) -> None:
        """Make a change that is not refused, or step, if the flow's value is `value` after it.
        Raises a `Fault` if the value is impossible."""
        word, numbers = command
        if word in (UNDO, REDO):
            step, by = (self.undo, -numbers[0]) if word == UNDO else (self.redo, numbers[0])
            before = self.value_at(self.place + by)
            if value != before:
                raise Fault(f"value differs: it was {before} there")
            step(numbers[0], value)
        else:
            is_possible = {ADD: value == self.value, SOLVE: value >= self.value}.get(
                word, value <= self.value
            )
            if not is_possible:
                raise Fault(f"value differs: {command} does not make {value} of {self.value}")
            self.note(self._change(command), value)
        self.begin_call()

    def _change(self, command: Command) -> Change:
        word, numbers = command
        if word == ADD:
            tail, head, capacity = numbers
            return Change((word, *numbers), added=(ArcRecord(tail, head, capacity), capacity, None))
        if word == "shut":
            node = numbers[0]
            changed = [
                number
                for number, arc in enumerate(self.arcs, 1)
                if node in (arc.tail, arc.head) and not arc.is_closed
            ]
        else:
            changed = [*numbers[:1]]
        after = numbers[1] if word == "cap" else None
        return Change(
            (word, *numbers),
            [(number, self.arcs[number - 1].capacity, after) for number in changed],
        )

    def _make(self, change: Change) -> None:
        if change.added:
            self.arcs.append(change.added[0])
            self.capacity_sum += change.added[1]
        for number, _, after in change.capacities:
            self._put(number, after)

    def _unmake(self, change: Change) -> None:
        if change.added:
            self.capacity_sum -= self.arcs.pop().capacity
        for number, before, _ in change.capacities:
            self._put(number, before)

    def _put(self, number: int, capacity: int | None) -> None:
        """Give an arc this capacity, or close it if the capacity is None."""
        arc = self.arcs[number - 1]
        self.arcs[number - 1] = arc._replace(capacity=capacity or 0, is_closed=capacity is None)
        self.capacity_sum += (capacity or 0) - arc.capacity
