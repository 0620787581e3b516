"""Solved copies of a network, on which the cases of a sweep are tried and undone."""

from __future__ import annotations

import functools
import threading
import time
from collections.abc import Callable, Sequence
from itertools import takewhile
from typing import Any, NamedTuple, Tuple, Union

from ..arcs import Arc
from ..errors import Error, NoProgram, SessionEnded
from ..history import Command as Numbered
from ..network import Network
from ..rows import whole
from ..session.base import MOST_COMMANDS, PROGRAM, FilePath, Way
from ..session.fresh import FreshSession
from ..state import NetworkState
from ..text.lexical import LARGEST, MOST_ARCS
from .case_losses import CaseLosses

# A command of a case: ("cap", arc, capacity), ("close", arc), ("open", arc), ("shut", node) or
# ("add", tail, head, capacity).
Command = Tuple[Any, ...]
# A case as a copy takes it: commands with the numbers of arcs, or a function.
Plain = Union["list[Command]", Callable[[Network[Any]], object]]
# How often a case is tried.
TRIES = 2


class CaseAnswer(NamedTuple):
    """A copy's answer to a case: its value, and the arcs of its cut, by number, or as they are if
    the case added them."""

    value: int = 0
    cut: tuple[int | Arc[Any], ...] | None = None
    refusal: Error | None = None


def _try(network: Network[Any], case: Plain, want_cut: bool) -> CaseAnswer:
    """Try a case on a solved network, which is afterwards as it was."""
    known = network._kept.arc_count
    with network.try_out():
        if callable(case):
            # A case does not redo what was undone before it.
            network._kept.forget_undone()
            case(network)
        else:
            for word, *rest in case:
                if word in ("cap", "close", "open"):
                    rest[0] = network._kept.handle(rest[0])
                if word in ("cap", "add"):
                    rest[-1] = network._quantity(rest[-1])
                getattr(network, word)(*rest)
        network.solve()
        value = network._kept.value
        if not want_cut:
            return CaseAnswer(value)
        return CaseAnswer(
            value,
            tuple(arc.number if arc.number <= known else arc for arc in network._leaving_cut()),
        )


def _try_together(
    network: Network[Any], answers: list[CaseAnswer], cases: Sequence[list[Numbered]]
) -> None:
    """Try cases together, and append the answer to each. Raises `SessionEnded` if one is
    refused."""
    values: list[int] = []
    try:
        network._try_cases(cases, values)
    finally:
        answers.extend(map(CaseAnswer, values))


class SolvedCopy:
    """A solved copy of a network. It begins when the first case comes, and again after its session
    has ended.

    Several programs may read its problem from one file. With `anew` the copy is not solved; this
    program solves each case from scratch instead.
    """

    def __init__(
        self,
        kept: NetworkState[Any],
        way: Way,
        path: str | None = None,
        anew: FilePath | None = None,
        kind: type[Network[Any]] = Network,
    ) -> None:
        self._kept = kept
        self._kind = kind
        self._anew = anew
        self._way = way
        self._path = path
        # How long the copy took to begin, in seconds, over all its beginnings.
        self.begin_seconds = 0.0
        self._is_over = False
        self._lock = threading.Lock()
        # How much may be added to the capacities.
        self._room = LARGEST - sum(kept.first_capacities())
        self.network: Network[Any] | None = None
        # What asks for the values after cases, if a session of the library may know them.
        can_ask = anew is None and not isinstance(way, PROGRAM)
        self._losses = CaseLosses(kept) if can_ask else None
        self.used = time.monotonic()

    def answers(self, cases: list[Plain | Error], want_cut: bool) -> list[CaseAnswer]:
        """Return the answers to cases. Cases that no session can refuse are sent together, so that
        a program need not wait for the next one; the library may be asked for their values. If the
        session ends during one of these, that case is tried once more."""
        answers: list[CaseAnswer] = []
        if self._losses:
            self._losses.has_asked = False
        while len(answers) < len(cases):
            together: list[list[Numbered]] = []
            if not want_cut:
                together.extend(takewhile(bool, map(self._commands, cases[len(answers) :])))
            tries = TRIES
            if len(together) > 1 or together and self._losses:
                try:
                    self._answer_together(together, answers)
                    continue
                except Error:
                    self.end()
                    tries = 1
            answers.append(self._answer(cases[len(answers)], want_cut, tries))
        return answers

    @property
    def look(self) -> float:
        """Return how many seconds a look at all arcs took for the last answers, or 0 if the library
        was not asked for values."""
        return self._losses.look if self._losses else 0.0

    def _answer_together(self, cases: list[list[Numbered]], answers: list[CaseAnswer]) -> None:
        """Record the answers to cases that no session can refuse. Raises `SessionEnded`."""
        network = self._solved()
        attempt = functools.partial(_try_together, network, answers)
        if self._losses is None:
            attempt(cases)
        else:
            self._losses.find(
                network, cases, attempt, lambda values: answers.extend(map(CaseAnswer, values))
            )

    def _answer(self, case: Plain | Error, want_cut: bool, tries: int) -> CaseAnswer:
        """Return the answer to a case. If the session ends, the case is tried once more, if it may
        be."""
        if isinstance(case, Error):
            return CaseAnswer(refusal=case)
        for left in reversed(range(tries)):
            try:
                return _try(self._solved(), case, want_cut)
            except SessionEnded as error:
                self.end()
                if not left or self._is_over:
                    return CaseAnswer(refusal=error)
            except NoProgram:
                raise
            except Error as error:
                return CaseAnswer(refusal=error)
        raise AssertionError

    def _commands(self, case: Plain | Error) -> list[Numbered]:
        """Return the commands of a case that a session can refuse only for lack of memory, or an
        empty list for another case."""
        if not isinstance(case, list) or len(case) > MOST_COMMANDS:
            return []
        changed: set[int] = set()
        amount = added = 0
        try:
            commands = [
                command if command[0] == "close" else self._in_numbers(*command) for command in case
            ]
        except Error:
            return []
        for word, number, *rest in commands:
            if word in ("close", "cap"):
                if number in changed or number in self._kept.closed:
                    return []
                changed.add(number)
            elif word != "add" and (word != "shut" or len(commands) > 1):
                return []
            else:
                added += word == "add"
            amount += rest[-1] if rest else 0
        return (
            commands if amount <= self._room and self._kept.arc_count + added <= MOST_ARCS else []
        )

    def _in_numbers(self, word: str, *rest: Any) -> Numbered:
        """Return a command with its nodes by number, too. Raises a `Refused` if something in it is
        not a node or not a capacity."""
        if word == "add":
            tail, head, capacity = rest
            return (
                word,
                self._kept.columns.outlet(tail),
                self._kept.number(head),
                whole(capacity, rest),
            )
        if word == "cap":
            return word, rest[0], whole(rest[1], rest)
        return word, self._kept.number(rest[0]) if word == "shut" else rest[0]

    def _solved(self) -> Network[Any]:
        if self._is_over:
            raise SessionEnded("the sweep was ended")
        if self.network is None:
            began = time.monotonic()
            network: Network[Any] = self._kind._of(self._kept.copy(), self._way, self._path)
            with self._lock:
                self.network = network
                if self._anew is not None:
                    network._session = FreshSession(network._session, self._anew)
                if self._is_over:
                    network._stop("the sweep was ended")
            if self._anew is None:
                solving = network._session.processor_seconds
                network.solve()
                if self._losses:
                    self._losses.begin(network._session.processor_seconds - solving)
            self.begin_seconds += time.monotonic() - began
        return self.network

    def end(self) -> None:
        """End the session."""
        network, self.network = self.network, None
        if network:
            network._session.end()

    def break_off(self) -> None:
        """End the session on behalf of another thread, which may be waiting for it, and let it
        begin no other one."""
        with self._lock:
            self._is_over = True
            if self.network:
                self.network._stop("the sweep was ended")
