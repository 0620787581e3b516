"""The C library in this process, and a session that makes its calls. include/dmf.h says what each
call does."""

from __future__ import annotations

import ctypes
import functools
from array import array
from collections.abc import Callable, Sequence
from itertools import compress, count, islice
from typing import Any

from ..errors import Error
from ..history import Command
from ..text.lexical import AMOUNTS, NODES
from .base import (
    ArcColumns,
    Part,
    ProblemColumns,
    Ranked,
    Session,
    Solved,
    ValuesWithout,
    WorstWithout,
    command_line,
    judged,
    refused,
    refused_line,
)
from .column_texts import problem_pieces
from .library_batches import TOGETHER, pieces, run, try_together
from .library_calls import LONG, SIZE, WORD, LibraryCalls, loading, open_library, place_of
from .library_gains import gains
from .statuses import BAD_LENGTH, BAD_TEXT, FAULTS, NO_MEMORY, OK, REASONS, STOPPED
from .stops import CallStopped, Flag, is_answered
from .worker_threads import Given, Handle, Job, Unbegun

# A call that looks at no more than MOST_AT_ONCE arcs runs in the caller's thread, where Ctrl-C has
# to wait for it to end, which takes milliseconds. Arcs count again for each thing that is valued.
# Any other call runs in another thread, where a flag ends solves, losses and gains; a change or a
# maximum flow goes on there after Ctrl-C. Calls that look at each arc only a few times, and steps
# over at most MOST_STEPS states, run in the caller's thread in any network.
MOST_AT_ONCE, MOST_STEPS = 20_000, 4


class Library(LibraryCalls):
    """The loaded library, which begins sessions."""

    def begin(self, problem: ProblemColumns, most: int) -> LibrarySession:
        """Begin a session on a problem, in which at most `most` changes can be undone. Raises a
        `Refused` as the program does for the text of the problem."""
        held, bad_arc = Handle(self.free), SIZE()
        columns = [
            part for column in problem.columns() for part in (place_of(column), len(problem.tails))
        ]
        places = ctypes.byref(held.address), ctypes.byref(bad_arc)
        status = self.new(problem.nodes, problem.source, problem.sink, *columns, most, *places)
        if status == OK:
            return LibrarySession(self, held, len(problem.tails))
        if status == NO_MEMORY:
            raise refused_line(REASONS[NO_MEMORY], None)
        # Only from the text does the library know which fault the program reports.
        return self.begin_text(b"".join(problem_pieces(problem)), most)

    def begin_text(self, text: bytes, most: int) -> LibrarySession:
        """Begin a session on the text of a problem. Raises a `Refused` as the program does."""
        held, line, fault = Handle(self.free), LONG(), WORD()
        places = ctypes.byref(held.address), ctypes.byref(line), ctypes.byref(fault)
        status = self.read(text, len(text), most, *places)
        if status == BAD_TEXT:
            reason = FAULTS[fault.value - 1]
            raise refused_line(reason, None if reason == REASONS[NO_MEMORY] else line.value)
        if status != OK:
            raise refused_line(REASONS[NO_MEMORY], None)
        return LibrarySession(self, held, self.arcs(held.address))


@functools.cache
def load(path: str) -> Library:
    """Load the library at this path. Raises `NoProgram` if it cannot be loaded, or has a version
    that this package does not work with."""
    loaded = open_library(path)
    with loading(path):
        return Library(path, loaded)


class LibrarySession(Session):
    """A session of the library."""

    def __init__(self, library: Library, held: Handle, arc_count: int) -> None:
        self._library = library
        self._held = [held]
        super().__init__(self._held.clear)
        self._arc_count = arc_count
        self._job: Job[Any] | None = None
        # What ends solves, losses and gains, once one was asked for.
        self._flag: Flag | None = None

    @property
    def way(self) -> Library:
        return self._library

    def break_off(self, why: str) -> None:
        """End the session. A call that waits for another thread stops waiting; any other call
        finishes, and then raises `SessionEnded`."""
        if self.end.alive:
            self._why_broken = why
            job = self._job
            if job is not None:
                job.leave()

    def kill(self, why: str) -> None:
        """End the session. Work that another thread has begun goes on, and the session is freed
        when it is done."""
        if self.end.alive:
            self.why_ended = why
            self.end()

    def copy(self) -> LibrarySession:
        return self._do(self._copied, changes=False)

    def _copied(self, held: Handle) -> LibrarySession:
        copied = Handle(self._library.free)
        status = self._library.copy(held.address, ctypes.byref(copied.address))
        if status != OK:
            raise refused_line(REASONS[status], None)
        return LibrarySession(self._library, copied, self._arc_count)

    def _do(
        self,
        work: Callable[..., Given],
        *words: Any,
        is_beside: bool = False,
        changes: bool = True,
        flag: Flag | None = None,
    ) -> Given:
        """Return what calls at the session's address return, in the caller's thread or beside it in
        another one. `changes` says whether they may change the session, and `flag` ends them, if
        anything does."""
        if self._why_broken:
            self.kill(self._why_broken)
        held = next(iter(self._held), None)
        if held is None:
            raise self.ended()
        self.asked_count += changes or is_beside
        try:
            job = Job(work, held, words) if is_beside else None
            given = work(held, *words) if job is None else self._do_beside(job, changes, flag)
        except ValueError as error:
            self.kill("the session was ended, since dmf's answer was not understood")
            raise self.ended() from error
        finally:
            if self._why_broken:
                self.kill(self._why_broken)
        if self._why_broken:
            raise self.ended()
        return given

    def _do_beside(self, job: Job[Given], changes: bool, flag: Flag | None) -> Given:
        """Return the result of a job. If Ctrl-C interrupts the wait for it, the flag ends the job;
        a job without a flag goes on."""
        self._job = job
        try:
            if not self._why_broken:
                job.wait()
            if self._why_broken:
                if flag:
                    flag.put_up()
                self.kill(self._why_broken)
                raise self.ended()
            given = job.given()
        except Error:
            raise
        except BaseException:
            if flag:
                error = job.give_up(flag.put_up)
                flag.take_down()
                if not changes or isinstance(error, (CallStopped, Unbegun)):
                    # The last step: the session is as it was, with nothing left to do.
                    self.asked_count -= 1
            raise
        finally:
            self._seconds_beside += job.seconds
            self._job = None
        if not changes:
            # A question leaves the session as it was.
            self.asked_count -= 1
        return given

    def _is_long(self, count: int = 1) -> bool:
        """Return True if a call that looks at all arcs this many times runs in another thread."""
        return self._arc_count * count > MOST_AT_ONCE

    def _ask(self, work: Callable[..., Given], *words: Any, count: int) -> Given:
        """Return the losses or gains of this many things. A flag ends the call."""
        flag, is_beside = self._flag or self._new_flag(""), self._is_long(count)
        return self._do(work, *words, flag, is_beside=is_beside, changes=False, flag=flag)

    def _carried_out(self, held: Handle, command: Command, at: object = None) -> int:
        word, *numbers = command
        status = self._library.commands[word](held.address, *numbers)
        if status != OK:
            raise refused(REASONS[status], command_line(command), at)
        return self._library.value(held.address)

    def step(self, command: Command, at: object = None) -> int:
        word, *numbers = command
        if word == "solve":
            flag = self._flag or self._new_flag(word)
            return self._do(self._solved, flag, is_beside=self._is_long(), flag=flag)
        is_short = word in ("undo", "redo") and numbers[0] <= MOST_STEPS
        is_beside = self._is_long() and not is_short
        return self._do(self._carried_out, command, at, is_beside=is_beside)

    def _new_flag(self, line: str) -> Flag:
        """Return the flag that ends calls. Raises a `Refused` that names the line of a command if
        memory is short."""
        try:
            self._flag = Flag(self._library)
        except MemoryError as error:
            raise refused(str(error), line, None) from None
        return self._flag

    def _solved(self, held: Handle, flag: Flag) -> int:
        status = self._library.solve_until(held.address, flag.calling)
        if status == STOPPED:
            raise CallStopped
        if status != OK:
            raise refused(REASONS[status], "solve", None)
        return self._library.value(held.address)

    def carry_out(self, commands: Sequence[Command]) -> int:
        return self._do(self._carried_on, commands, is_beside=self._is_long()) if commands else 0

    def _carried_on(self, held: Handle, commands: Sequence[Command]) -> int:
        values = array(AMOUNTS, [0])
        for piece in pieces(commands, self._is_long()):
            if self._why_broken:
                break
            status, values = run(self._library, held.address, piece)
            if status != OK:
                line = command_line(piece[len(values)])
                self._why_broken = (
                    f"the session could not be restarted: `{line}` was refused: {REASONS[status]}"
                )
        return values[-1] if values else 0

    def flows(self, value: int, open_count: int) -> array[int]:
        return self._do(self._flows, value, changes=False)

    def _flows(self, held: Handle, value: int) -> array[int]:
        judged(self._library.value(held.address), value)
        flows = array(AMOUNTS, [0]) * self._library.arcs(held.address)
        # Every click on a page calls this, so no other module is called for it.
        judged(self._library.flows(held.address, flows.buffer_info()[0], len(flows)), OK)
        return flows

    def cut(self) -> tuple[int, list[int]]:
        return self._do(self._cut, changes=False)

    def _cut(self, held: Handle) -> tuple[int, list[int]]:
        marks, status = self._side(held)
        if status != OK:
            raise refused(REASONS[status], "print cut", None)
        # The cut has the capacity of the value, as each minimum cut.
        return self._library.value(held.address), list(compress(count(1), marks))

    def _side(self, held: Handle) -> tuple[array[int], int]:
        """Return a mark for each node, which is 1 on the source's side of the smallest minimum cut,
        and the library's status."""
        marks = array("B", bytes(self._library.nodes(held.address)))
        return marks, self._library.side(held.address, marks.buffer_info()[0], len(marks))

    def maximum_flow(self, want_flows: bool, want_side: bool) -> Solved:
        words, is_beside = (want_flows, want_side), self._is_long()
        return self._do(self._maximum_flow, *words, is_beside=is_beside, changes=False)

    def _maximum_flow(self, held: Handle, want_flows: bool, want_side: bool) -> Solved:
        address, value = held.address, LONG()
        flows = array(AMOUNTS, [0]) * (self._library.arcs(address) if want_flows else 0)
        marks = array("B", bytes(self._library.nodes(address) if want_side else 0))
        columns = place_of(flows), len(flows), place_of(marks), len(marks)
        is_answered(self._library.maximum_flow(address, ctypes.byref(value), *columns))
        return Solved(value.value, flows, list(compress(count(1), marks)))

    def values_without(self, part: Part) -> ValuesWithout | None:
        return self._ask(self._values_without, part, count=self._arc_count)

    def _values_without(self, held: Handle, part: Part, flag: Flag) -> ValuesWithout | None:
        is_arc = part is Part.ARC
        count = (self._library.arcs if is_arc else self._library.nodes)(held.address)
        numbers = array(NODES, range(1, count + 1))
        losses = self._losses(held, Ranked.ARCS if is_arc else Ranked.NODES, [numbers], flag)
        if losses is None:
            return None
        value = self._library.value(held.address)
        return ValuesWithout(value, array(AMOUNTS, [value - loss for loss in losses]))

    def losses(self, ranked: Ranked, columns: Sequence[array[int]]) -> array[int] | None:
        return self._ask(self._losses, ranked, columns, count=len(columns[0]))

    def _losses(
        self, held: Handle, ranked: Ranked, columns: Sequence[array[int]], flag: Flag
    ) -> array[int] | None:
        losses = array(AMOUNTS, [0]) * len(columns[0])
        places = [part for column in (*columns, losses) for part in (place_of(column), len(column))]
        status = self._library.losses[ranked](held.address, *places, flag.calling)
        return losses if is_answered(status) else None

    def worst_without(self, ranked: Ranked, most: int, among: bytes = b"") -> WorstWithout | None:
        count = self._arc_count**ranked.column_count
        return self._ask(self._worst_without, ranked, most, among, count=count)

    def _worst_without(
        self, held: Handle, ranked: Ranked, most: int, among: bytes, flag: Flag
    ) -> WorstWithout | None:
        address = held.address
        arcs = len(among) - among.count(0) if among else self._library.arcs(address)
        most = min(most, ranked.count(self._library.nodes(address), arcs))
        numbers = [array(NODES, [0]) * most for _ in range(ranked.column_count)]
        losses, found = array(AMOUNTS, [0]) * most, SIZE()
        columns: list[Any] = [
            part for column in (*numbers, losses) for part in (place_of(column), most)
        ]
        if ranked is not Ranked.NODES:
            columns = [among, len(among), *columns]
        columns += [ctypes.byref(found), flag.calling]
        if not is_answered(self._library.worst[ranked](address, *columns)):
            return None
        judged(found.value, most)
        value = self._library.value(address)
        without = array(AMOUNTS, (value - loss for loss in losses))
        return WorstWithout(value, tuple(numbers), without)

    def gains(self, arcs: ArcColumns) -> array[int] | None:
        return self._ask(self._gains, arcs, count=len(arcs.tails))

    def _gains(self, held: Handle, arcs: ArcColumns, flag: Flag) -> array[int] | None:
        marks, status = self._side(held)
        return (
            gains(self._library, held.address, arcs, marks, flag) if is_answered(status) else None
        )

    def problem(self) -> bytes:
        return self._do(self._problem, changes=False)

    def _problem(self, held: Handle) -> bytes:
        length = SIZE()
        text = array("B")
        while True:
            status = self._library.problem(
                held.address, place_of(text), len(text), ctypes.byref(length)
            )
            if status == OK:
                return text.tobytes()
            if status != BAD_LENGTH or len(text) == length.value:
                raise refused(REASONS[status], "print problem", None)
            text = array("B", bytes(length.value))

    def try_cases(self, cases: Sequence[Sequence[Command]], value: int, found: list[int]) -> None:
        self._do(self._tried, cases, value, found, is_beside=self._is_long())

    def _tried(
        self, held: Handle, cases: Sequence[Sequence[Command]], value: int, found: list[int]
    ) -> None:
        """Try the cases. Raises a ValueError if something in a case is refused, or if the network
        has another value at the end; then none of their values is used."""
        begin, together = len(found), 1 if self._is_long() else TOGETHER
        left = iter(cases)
        while not self._why_broken and (piece := [*islice(left, together)]):
            try_together(self._library, held.address, piece, found)
        if self._library.value(held.address) != value:
            del found[begin:]
            raise ValueError
