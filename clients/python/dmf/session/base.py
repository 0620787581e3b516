"""What a network asks of a running session, whether the library or the program runs it, and what
the session answers."""

from __future__ import annotations

import importlib
import math
import operator
import os
import time
import weakref
from array import array
from collections.abc import Callable, Sequence
from enum import Enum
from typing import Any, NamedTuple, Optional, Protocol, Union

from ..errors import HistoryOutOfRange, Refused, SessionEnded, shown_value
from ..history import Command

FilePath = Union[str, bytes, "os.PathLike[str]", "os.PathLike[bytes]"]
Program = Optional[FilePath]
# The largest number of changes that a session can keep.
MOST_KEPT = 1_000_000
# How much text is sent to a program at once, in bytes. Every pipe holds that much, so the program
# never has to wait for a reader of its replies while it has lines to read.
MOST_TEXT = 4_096
# The most commands of a case that are sent together with those of other cases. Their lines have at
# most 42 bytes each, so that all fit into MOST_TEXT.
MOST_COMMANDS = 90
# What runs a session: a program, given by its path, or the library.
Way = Union[FilePath, "Runner"]
PROGRAM = str, bytes, os.PathLike

# The flow on each arc: the lines of the open arcs, as the program writes them, or an array for all
# arcs, closed ones included.
Told = Union[bytes, "array[int]"]


class ProblemColumns(NamedTuple):
    """A network by its numbers: the number of nodes, the source and the sink, and the columns of
    the arcs. `capacities` may be longer than the other columns."""

    nodes: int
    source: int
    sink: int
    tails: array[int]
    heads: array[int]
    capacities: array[int]

    def columns(self) -> tuple[array[int], array[int], array[int]]:
        """Return the columns of the arcs."""
        return self.tails, self.heads, self.capacities


class ArcColumns(NamedTuple):
    """New arcs: the numbers of their tails and heads, and their capacities."""

    tails: array[int]
    heads: array[int]
    capacities: array[int]


class Part(Enum):
    """What is left out of a network in turn: each arc, or each node with all arcs at it."""

    ARC = "arc"
    NODE = "node"


class ValuesWithout(NamedTuple):
    """The greatest value, and the greatest value without each arc or each node, that without number
    1 first. The source and the sink are never left out, so the value stands there."""

    value: int
    without: array[int]


class Ranked(Enum):
    """What is ranked by its loss: arcs, nodes except the source and the sink, or pairs of arcs."""

    ARCS = "arcs"
    NODES = "nodes"
    PAIRS = "pairs"

    @property
    def one(self) -> str:
        """Return the word for one of them."""
        return self.value.removesuffix("s")

    @property
    def column_count(self) -> int:
        """Return how many columns their numbers have."""
        return 2 if self is Ranked.PAIRS else 1

    def count(self, nodes: int, arcs: int) -> int:
        """Return how many of these a network has, by its numbers of nodes and arcs."""
        if self is Ranked.NODES:
            return nodes - 2
        return math.comb(arcs, self.column_count)


class WorstWithout(NamedTuple):
    """The greatest value, and the greatest value without each of the arcs, nodes or pairs whose
    loss is greatest, the greatest loss first; of equal losses that with the smaller numbers. Their
    numbers are in one column, or in two for pairs, where the first is the smaller one."""

    value: int
    numbers: tuple[array[int], ...]
    without: array[int]


class Solved(NamedTuple):
    """The greatest value, and the flows or the nodes of the source side if they were asked for."""

    value: int
    flows: Told = b""
    side: Sequence[int] = ()


class Runner(Protocol):
    """The library, which begins sessions in this process."""

    def begin(self, problem: ProblemColumns, most: int) -> Session:
        """Begin a session on a problem, in which at most `most` changes can be undone."""

    def begin_text(self, text: bytes, most: int) -> Session:
        """Begin a session on the text of a problem."""


class Session:
    """A running session.

    It has one user at a time; only `break_off` may be called by another thread. Each call that asks
    the session something raises `SessionEnded` if the session has ended, and a `Refused` that names
    the command, or the thing `at` that the command was about. Any other exception leaves the
    session in an unknown state, and its user then has to `kill` it.
    """

    # The program, if the caller named one.
    program: Program = None

    def __init__(self, free: Callable[..., None], *held: object) -> None:
        """Call `free(*held)` when nothing refers to the session any more, or when `end` is
        called."""
        self.end = weakref.finalize(self, free, *held)
        self.why_ended = "the session was ended"
        self._why_broken = ""
        # The process that began the session.
        self.owner = os.getpid()
        # How many commands the session was given, except those that are known to have left it as it
        # was: to the library, questions that have ended, and solves that were stopped.
        self.asked_count = 0
        # How many seconds of a processor calls of the library took in other threads.
        self._seconds_beside = 0.0

    @property
    def way(self) -> Way:
        """The program's path, or the library, that begins another session in the same way."""
        raise NotImplementedError

    @property
    def processor_seconds(self) -> float:
        """Return how many seconds of a processor this thread took so far, and the calls that it
        made in other threads. To read that takes microseconds, so each call does not."""
        return time.thread_time() + self._seconds_beside

    @property
    def is_owned(self) -> bool:
        """Return True if this process began the session, rather than its parent process."""
        return os.getpid() == self.owner

    def ended(self) -> SessionEnded:
        """Return the error that says why the session no longer answers."""
        return SessionEnded(self.why_ended)

    def is_full_after(self, most: int) -> bool:
        """Return True if the session has taken more than `most` commands and takes few more."""
        return False

    def copy(self) -> Session | None:
        """Return a session in the same state, with the same changes before and after it, or None if
        only a new session that repeats all commands gets there."""
        return None

    def break_off(self, why: str) -> None:
        """End the session on behalf of a thread that waits for its answer or may ask it later: each
        of that thread's calls raises `SessionEnded`."""
        raise NotImplementedError

    def kill(self, why: str) -> None:
        """End the session at once, unless it has ended before."""
        raise NotImplementedError

    def step(self, command: Command, at: object = None) -> int:
        """Carry out a command that changes the network or steps, and return the value."""
        raise NotImplementedError

    def carry_out(self, commands: Sequence[Command]) -> int:
        """Carry out commands that a session carried out before, and return the value after the last
        one, or 0 if there are none. Raises `SessionEnded` if one is refused now."""
        raise NotImplementedError

    def flows(self, value: int, open_count: int) -> Told:
        """Return the present flow, which has this value and runs over `open_count` open arcs."""
        raise NotImplementedError

    def cut(self) -> tuple[int, list[int]]:
        """Return the capacity of the smallest minimum cut and the node numbers of its source side,
        in ascending order."""
        raise NotImplementedError

    def maximum_flow(self, want_flows: bool, want_side: bool) -> Solved:
        """Return the greatest value and, if they are wanted, the flows of any maximum flow and the
        source side of the smallest minimum cut. The session's own flow stays as it is."""
        raise NotImplementedError

    def values_without(self, part: Part) -> ValuesWithout | None:
        """Return the greatest value without each arc or node, or None if only a run of its own
        finds it: the session runs in the program, or its flow is not a maximum flow."""
        return None

    def losses(self, ranked: Ranked, columns: Sequence[array[int]]) -> array[int] | None:
        """Return how much less the greatest value is without each of some arcs, nodes or pairs of
        arcs, given by the columns of their numbers. Pairs with the same first arc should stand
        together. Returns None as `values_without` does."""
        return None

    def worst_without(self, ranked: Ranked, most: int, among: bytes = b"") -> WorstWithout | None:
        """Return the greatest value without each of the `most` worst arcs, nodes or pairs, or
        without all of them if there are fewer. If `among` is not empty, it has a byte for each arc,
        and arcs whose byte is 0 are left out, alone and in pairs. Returns None as `values_without`
        does."""
        return None

    def gains(self, arcs: ArcColumns) -> array[int] | None:
        """Return how much greater the greatest value is with each of these new arcs, or None if
        only solves with each arc tell: the session runs in the program, its flow is not a maximum
        flow, or the capacities are too large."""
        return None

    def problem(self) -> bytes:
        """Return the text of the problem of the open arcs."""
        raise NotImplementedError

    def try_cases(self, cases: Sequence[Sequence[Command]], value: int, found: list[int]) -> None:
        """Try cases one after another, and append the value of each to `found`. A case is its
        commands, a `solve`, and the `undo` of them all. The network has this value before and after
        each case. Raises `SessionEnded` if anything is refused, since later answers would be those
        of another network."""
        raise NotImplementedError


def bound(history: int | None) -> int:
    """Return the largest number of changes that can be undone. Raises `HistoryOutOfRange`."""
    if history is None:
        return MOST_KEPT
    try:
        kept = operator.index(history)
    except TypeError:
        kept = -1
    if not 0 <= kept <= MOST_KEPT:
        raise HistoryOutOfRange(
            f"history out of range: {shown_value(history)} is not a whole number from 0 to "
            "1,000,000"
        )
    return kept


def command_line(command: Command) -> str:
    """Return a command as a line of a session."""
    return " ".join(map(str, command))


def case_lines(commands: Sequence[Command]) -> list[str]:
    """Return the lines that try a case: its commands, a solve, and the steps back."""
    return [*map(command_line, commands), "solve", f"undo {len(commands) + 1}"]


def refused(text: str, line: str, at: object) -> Refused:
    """Return the exception for a refused command. It names the command's line, or the thing that
    the command was about."""
    return Refused.of(text, line if at is None else shown_value(at))


def refused_line(text: str, line: int | None) -> Refused:
    """Return the exception for a refused problem, with the line of its fault, if the fault is in a
    line."""
    fault = Refused.of(text, f"line {line} of the problem" if line else "")
    fault.line = line
    return fault


def where(fault: Refused, handle: Callable[[int], object]) -> Refused:
    """Return the refusal of a problem that was made from arcs, with the faulty arc. Three lines
    stand before those of the arcs."""
    number = (fault.line or 0) - 3
    return Refused.of(fault.text, repr(handle(number)) if number >= 1 else "")


def judged(value: int, wanted: int) -> int:
    """Return a value that must be the expected one. Raises a ValueError."""
    if value != wanted:
        raise ValueError
    return value


def import_package(name: str, why: str) -> Any:
    """Import a package that only some calls need. Raises an ImportError that says which call needs
    it."""
    try:
        return importlib.import_module(name)
    except ImportError as error:
        raise ImportError(
            f"{why} needs the package {name.partition('.')[0]}, which is not installed: {error}",
            name=name,
        ) from None
