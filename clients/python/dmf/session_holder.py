"""A network and its running session: calls that ask it, one at a time, and how a new session
replaces one that was broken off."""

from __future__ import annotations

import functools
import os
import sys
import weakref
from _thread import get_ident
from array import array
from collections.abc import Callable, Sequence
from types import CodeType, FrameType
from typing import TYPE_CHECKING, Any, Generic, TypeVar, cast

from .arcs import Arc, Owner
from .columns import Node
from .errors import Error, NoSuchArc, SessionEnded, UsedByTwoProcesses, UsedByTwoThreads
from .history import Command
from .rows import whole
from .session.base import Session, Told
from .session.runners import start
from .solution import Flows, Solution
from .state import NetworkState
from .text.lexical import AMOUNTS

if TYPE_CHECKING:
    from .quantity import Measure

# A session of the program takes 1,000,000 lines, so a new one replaces it before that.
MOST_LINES = 900_000
TWICE = "the session was ended for good: it was broken off, and again"

Method = TypeVar("Method", bound=Callable[..., Any])


def exclusive(method: Method) -> Method:
    """Return a method that has the session, and the state kept beside it, to itself. The method
    raises `UsedByTwoThreads` if another call has them, and `UsedByTwoProcesses` in a forked
    process. If an error such as Ctrl-C breaks the call off, the network is as it was before; unless
    the session is known to be so too, the next call begins a new one."""

    @functools.wraps(method)
    def called(self: SessionHolder[Any], *words: Any, **named: Any) -> Any:
        if self._session.owner != os.getpid():
            raise UsedByTwoProcesses(
                "used by two processes at once: a process that was forked off needs a network of "
                "its own"
            )
        user = [get_ident()]
        if self._taken.setdefault(0, user) is not user:
            self._judge_use(called.__code__)
        try:
            self._begin_call()
            sent, present = self._session.asked_count, self._present
            try:
                return method(self, *words, **named)
            except BaseException as error:
                is_touched = self._session.asked_count != sent or not self._session.end.alive
                if is_touched and not isinstance(error, Error):
                    self._break_off(present)
                raise
        finally:
            self._taken.pop(0, None)

    return cast(Method, called)


class SessionHolder(Generic[Node]):
    """The lower half of a network: a session, and the state that is kept outside it. An error that
    breaks a call off ends the session, and leaves that state as it was before the call. The next
    call begins a new session in the same state."""

    # The measure by which whole numbers stand for the caller's, if there is one.
    _measure: Measure | None = None

    def _begin(self, session: Session, kept: NetworkState[Node]) -> None:
        self._session = session
        self._kept = kept
        # The thread that makes a call, while it makes it.
        self._taken: dict[int, list[int]] = {}
        # Whether a call was broken off, so that the next one starts a new session; and why no call
        # can be answered any more.
        self._is_broken = False
        self._why_over = ""
        # The same, from another thread.
        self._why_stopped = ""
        # The present flow, while somebody has it or it was read.
        self._present: weakref.ref[Flows[Node]] | None = None
        self._told: Flows[Node] | None = None
        owner: weakref.ref[Owner] = weakref.ref(self)
        kept.handles.owner = owner
        for arc in kept.added:
            arc._owner = owner

    @property
    def value(self) -> int:
        """The value of the present flow, from the source to the sink."""
        return self._kept.value

    def _whole(self, amount: Any, at: object) -> int:
        """Return the whole number that stands for an amount of the caller. Raises `NotANumber` and
        `NumberTooLarge`."""
        return whole(amount, at)

    def _quantity(self, number: Any) -> Any:
        """Return what the caller sees of a whole number."""
        return number

    def _judge_use(self, call: CodeType) -> None:
        """Raise `UsedByTwoThreads`, unless this thread has the session but is not in a call: before
        Python 3.11 an error may come just as a call begins or ends, which then does not give the
        session back."""
        frame: FrameType | None = sys._getframe(2)
        is_in_call = self._taken.get(0) != [get_ident()]
        while frame and not is_in_call:
            is_in_call = frame.f_code is call and frame.f_locals.get("self") is self
            frame = frame.f_back
        if is_in_call:
            raise UsedByTwoThreads(
                "used by two threads at once: each needs a network of its own, or a lock around "
                "its calls"
            ) from None
        self._is_broken = self._is_broken or not self._session.end.alive

    @exclusive
    def _ready(self) -> None:
        """Raise what every call raises if the session cannot be asked."""

    @exclusive
    def _twin(self) -> tuple[NetworkState[Node], Session | None]:
        """Return another state like the present one, and a session in it, if the session can be
        copied."""
        return self._kept.twin(), self._session.copy()

    @exclusive
    def _try_cases(self, cases: Sequence[Sequence[Command]], found: list[int]) -> None:
        """Carry out the cases, each a list of commands, and append the greatest value of each to
        `found`. The network is then as it was before."""
        self._session.try_cases(cases, self._kept.value, found)

    @exclusive
    def _cut_side(self) -> list[int]:
        """Return the source side of the smallest minimum cut, as the numbers of its nodes. Raises
        `FlowIsNotGreatest`."""
        return self._session.cut()[1]

    @exclusive
    def _flow_of_each(self) -> array[int]:
        """Return the flow on each arc, by their numbers: that on arc 1 first, 0 on a closed one."""
        if not self._session.end.alive:
            raise self._session.ended()
        kept = self._kept
        told = self._session.flows(kept.value, kept.open_count)
        if isinstance(told, array):
            return told
        opened, flows = kept.opened(), array(AMOUNTS, [0]) * kept.arc_count
        read = Flows(kept.value, opened, kept.capacities, lambda: told).numbers()
        for number, flow in zip(opened.numbers(), read):
            flows[number - 1] = flow
        return flows

    @exclusive
    def _leaving_cut(self) -> list[Arc[Node]]:
        """Return the open arcs of the smallest minimum cut, including those that are not in the
        table. Raises `FlowIsNotGreatest`."""
        return self._kept.leaving(self._session.cut()[1])

    def _begin_call(self) -> None:
        if self._why_stopped or self._why_over:
            raise SessionEnded(self._why_stopped or self._why_over)
        is_full = self._session.is_full_after(MOST_LINES)
        if self._is_broken or is_full and self._is_restart_shorter():
            self._restart()
        self._kept.begin_call()

    def _break_off(self, present: weakref.ref[Flows[Node]] | None) -> None:
        """Go back to the state before the present call, which the session may have left. `present`
        was the present flow then."""
        self._why_over = f"{TWICE} at once"
        self._session.kill("the session was ended when a call was broken off")
        self._kept.roll_back()
        self._present, self._told = present, None
        self._is_broken, self._why_over = True, ""

    def _go_without_session(self, place: int, value: int) -> None:
        """Go to the state after the first `place` changes, with a flow of this value, without the
        session. A session that still runs is ended, since something broke off its `undo`."""
        self._lose_flows()
        if self._is_running:
            self._session.kill("the session was ended when a call was broken off")
            self._is_broken = True
        kept = self._kept
        if place < kept.place:
            kept.undo(kept.place - place, value)
        else:
            kept.redo(place - kept.place, value)

    def _is_restart_shorter(self) -> bool:
        """Return True if a new session would take fewer commands to get here than one that is
        nearly full."""
        return self._kept.place < MOST_LINES // 2

    def _restart(self) -> None:
        """Start a new session and let it carry out the commands that led to the present state."""
        self._why_over = f"{TWICE} while a new one began"
        try:
            session = start(self._kept, self._session.way)
        except Exception as error:
            self._why_over = str(error) if isinstance(error, SessionEnded) else ""
            raise
        session.program = self._session.program
        self._session.end()
        self._session = session
        if self._why_stopped:
            session.break_off(self._why_stopped)
        self._is_broken, self._why_over = False, ""

    def _stop(self, why: str) -> None:
        """End the session at once and for good, from another thread than the one that may be
        waiting for its answer."""
        self._why_stopped = why
        self._session.break_off(why)

    @property
    def _is_free(self) -> bool:
        """Return True if no call has the session and this process began it."""
        return not self._taken and self._session.is_owned

    @property
    def _is_running(self) -> bool:
        """Return True if the session runs and is in the state that is kept."""
        return self._session.end.alive and not self._is_broken

    def _stepped(self, command: Command, at: object = None) -> int:
        """Return the value in the reply to a command that changes the network. If the present flow
        is still in use, read it first."""
        self._part()
        value = self._session.step(command, at)
        self._present = self._told = None
        return value

    def _changed(self, command: Command, at: object = None) -> int:
        """Do the same as `_stepped` for a new change, and raise `HistoryOutOfRange` if a trial
        could not be undone after it."""
        self._kept.judge_change()
        return self._stepped(command, at)

    def _asked_flow(self) -> Told:
        """Ask for the present flow: its text, or the flow on each open arc."""
        told = self._session.flows(self._kept.value, self._kept.open_count)
        return self._kept.opened().chosen(told) if isinstance(told, array) else told

    def _flows(self) -> Flows[Node]:
        """Return the present flow, of which only the value is known until somebody looks at it."""
        flows = None if self._present is None else self._present()
        if flows is None:
            flows = Flows(
                self._kept.value, self._kept.opened(), self._kept.capacities, self._ask_flow
            )
            self._present = weakref.ref(flows)
        return flows

    @exclusive
    def _ask_flow(self) -> Told:
        """Ask for the present flow in a call of its own, for a caller who looks at a flow that was
        returned earlier."""
        return self._asked_flow()

    def _solution(self, flows: Flows[Node]) -> Solution[Node]:
        """Return what the caller gets of flows."""
        return Solution(flows)

    def _lose_flows(self) -> None:
        """Record that the present flow can no longer be read, unless it was."""
        flows = None if self._present is None else self._present()
        if flows is not None:
            flows.lose(self._session.ended())
        self._present = self._told = None

    @exclusive
    def _settle(self) -> None:
        self._part()

    def _part(self) -> None:
        """Read the present flow before a change, if it is still in use."""
        flows = None if self._present is None else self._present()
        if flows is not None:
            flows.part(self._asked_flow)

    def capacity_now(self, arc: Arc[Any]) -> int:
        """Return the capacity of an open arc, for its handle."""
        self._judge_arc(arc)
        return self._kept.capacity(arc)

    def is_open_now(self, arc: Arc[Any]) -> bool:
        """Return True if an arc is open, for its handle."""
        return self._kept.has(arc) and arc.number not in self._kept.closed

    def flow_now(self, arc: Arc[Any]) -> int:
        """Return the flow on an arc, for its handle."""
        self._judge_arc(arc)
        if arc.number in self._kept.closed:
            return 0
        return Solution(self._tell_flows())[arc]

    @exclusive
    def _tell_flows(self) -> Flows[Node]:
        """Return the present flow with its text, which is kept until the next change for questions
        about other arcs."""
        self._told = self._flows()
        self._told.settle(self._asked_flow)
        return self._told

    def _judge_arc(self, arc: Arc[Any]) -> None:
        if not self._kept.has(arc):
            raise NoSuchArc(repr(arc))
