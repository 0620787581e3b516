"""What is known of one state of a desk's network, and the first answer about a large one: its value
and its limit, before its flows."""

from __future__ import annotations

import contextlib
import threading
from array import array
from collections.abc import Iterable, Sequence
from dataclasses import dataclass, field
from typing import TYPE_CHECKING, NamedTuple

from ..errors import Error, FlowIsNotGreatest
from ..losses import PairsWithout
from ..session.base import Part, Program, Solved, ValuesWithout
from ..session.column_texts import problem_pieces
from ..session.fresh import CUT, solved
from ..session.runners import program_of
from ..tables.loader import LoadedProblem
from .live_network import LiveNetwork

if TYPE_CHECKING:
    import subprocess

# The least number of arcs of a network whose flows may come later than its value.
LARGE = 100_001


class FirstAnswer:
    """A run of the program that finds the greatest value of a problem, and the source side of its
    limit, while the caller does other things."""

    def __init__(self, problem: Iterable[bytes], program: Program) -> None:
        self._problem = problem
        self._program = program
        self._found: Solved | None = None
        self._lock, self._is_ended = threading.Lock(), False
        self._process: subprocess.Popen[bytes] | None = None
        self._thread = threading.Thread(target=self._find, daemon=True)
        self._thread.start()

    @classmethod
    def of(cls, subject: LoadedProblem, program: Program) -> FirstAnswer | None:
        """Return one for a large problem, or None if it is small."""
        if subject.net:
            problem = subject.net.columns
            return cls(problem_pieces(problem), program) if len(problem.tails) >= LARGE else None
        return cls([subject.text], program) if subject.text.count(b"\na ") >= LARGE else None

    def _find(self) -> None:
        # If this fails, the caller that needs the answer solves, and reports what is wrong.
        with contextlib.suppress(Error, OSError):
            self._found = solved(self._problem, CUT, program_of(self._program), self._begun)

    def _begun(self, process: subprocess.Popen[bytes]) -> None:
        with self._lock:
            self._process = process
            if self._is_ended:
                process.kill()

    def end(self) -> None:
        """Kill the program, so that nobody waits for it any more. There is no answer then."""
        with self._lock:
            self._is_ended = True
            if self._process:
                self._process.kill()

    def wait(self) -> Solved | None:
        """Return the answer, or None if there is none."""
        self._thread.join()
        return self._found


class Limit(NamedTuple):
    """The smallest minimum cut: the nodes on the source's side, its arcs, in their order, and the
    pipes that these are of. No pipe is there with both its ways."""

    side: set[int]
    arcs: dict[int, None]
    pipes: dict[int, None]


@dataclass
class Answers:
    """What is known of one state of the network, each found once.

    Parameters
    ----------
    inside
        The nodes on the source's side of the smallest minimum cut, if the first answer has them.
    promised
        The greatest value, while the flows that reach it are not known.
    flows, net
        The flow on each arc, and the net flow on each pipe.
    worth
        The greatest value without each arc, and without each node, once these were asked for.
    pairs
        The worst pairs of pipes, by how many were asked for.
    gains
        What a second pipe beside each of the limit gains, or None while that is not known. Those
        beside which no second one fits are left out.
    """

    inside: Sequence[int] | None = None
    promised: int | None = None
    is_greatest: bool | None = None
    limit: Limit | None = None
    flows: array[int] | None = None
    net: Sequence[int] | None = None
    worth: dict[Part, ValuesWithout] = field(default_factory=dict)
    pairs: dict[int, PairsWithout] = field(default_factory=dict)
    gains: dict[int, int] | None = None

    @property
    def knows_worth(self) -> bool:
        """Return True if what is left without each arc and without each node is known."""
        return len(self.worth) == len(Part)

    def find_limit(self, network: LiveNetwork) -> Limit:
        """Return the limit of this state, in which the network has to stand. Raise
        `FlowIsNotGreatest`."""
        try:
            inside = network.network._cut_side() if self.inside is None else self.inside
        except FlowIsNotGreatest:
            self.is_greatest = False
            raise
        side = network.told_side(inside)
        arcs = dict.fromkeys(network.leaving(side))
        pipes = network.pipes
        found = dict.fromkeys(pipes.numbers(arcs)) if pipes.are_two_way else arcs
        self.limit = Limit(side, arcs, found)
        self.is_greatest = True
        return self.limit
