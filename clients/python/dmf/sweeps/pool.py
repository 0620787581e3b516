"""Try the cases of a sweep in sessions of this process, or in the processes of an executor, which
may run on other machines."""

from __future__ import annotations

import contextlib
import functools
import os
import pickle
import threading
import time
from collections.abc import Callable
from dataclasses import dataclass
from typing import TYPE_CHECKING, Any

from ..arcs import Arc
from ..errors import Error
from ..network import Network
from ..session.base import MOST_KEPT, PROGRAM, FilePath, Program, Way
from ..session.runners import chosen, problem_file, program_of
from ..state import NetworkState
from .copies import CaseAnswer, Plain, SolvedCopy

if TYPE_CHECKING:
    from concurrent.futures import Executor, Future

# How many cases an executor is given at first, and how many pieces of that size wait for each of
# its workers.
PIECE, WAITING = 16, 2
# Later, a piece has as many cases as are tried in SOON seconds, but at most MOST_AT_ONCE. If its
# values are asked for, the library first looks at all arcs: such a piece may take TIMES as long as
# that, and may have a PIECES-th as many cases as there are arcs.
SOON, MOST_AT_ONCE = 0.1, 256
TIMES, PIECES = 4, 128
# How long a copy in an executor's process waits for the next cases before it is ended, in seconds.
PATIENCE = 30.0


class Tries:
    """The way in which cases are tried: `size` cases at once, and at most `most` such pieces before
    the first answer is awaited."""

    first = 1

    def __init__(self, most: int, arc_count: int = 0) -> None:
        self.most = most
        self._most_asked = max(MOST_AT_ONCE, arc_count // PIECES)
        self.size = self.first
        self._answered = 0

    def learn(self, count: int, seconds: float, look: float = 0.0) -> None:
        """Record how long `count` cases took, and how long a look at all arcs took if values were
        asked for."""
        self._answered += count
        most = self._most_asked if look else MOST_AT_ONCE
        soon = int(max(SOON, TIMES * look) * count / max(seconds, 1e-9))
        self.size = max(1, min(soon, max(self.first, self._answered // self.most), most))

    def begin(self, cases: list[Plain | Error]) -> Pending:
        """Begin cases, and return a function that waits for their answers."""
        raise NotImplementedError

    def close(self) -> None:
        """End all that was begun."""
        raise NotImplementedError


Pending = Callable[[], "list[CaseAnswer]"]


class LocalPool(Tries):
    """Sessions of this process, each with a thread that waits for it. All programs read one file.

    The first session tries the cases alone. Another one begins once the present ones have tried
    cases for as long as they took to begin, and will need as long again, if the number of cases is
    known. So all sessions together take at most about half as long again as one session would. The
    first cases of a session count as part of its beginning, since it then computes what all cases
    use.
    """

    def __init__(
        self,
        kept: NetworkState[Any],
        way: Way,
        want_cut: bool,
        jobs: int,
        count: int | None = None,
        anew: FilePath | None = None,
        kind: type[Network[Any]] = Network,
    ) -> None:
        """Begin no session yet. `count` is the number of cases, if it is known. `anew` is the
        program that solves each case from scratch, if there is one. `kind` is the class of the
        copies."""
        # Imported here: it takes 1 MB, and nothing else needs it.
        from concurrent.futures import ThreadPoolExecutor

        super().__init__(4 * jobs, kept.arc_count)
        self._count = count
        self._begin_copy = functools.partial(SolvedCopy, kept, way, anew=anew, kind=kind)
        self._want_cut = want_cut
        self._jobs = jobs
        self._stack = contextlib.ExitStack()
        self._file = (
            problem_file(kept) if isinstance(way, PROGRAM) else contextlib.nullcontext(None)
        )
        self._path: str | None = None
        self._copies: list[SolvedCopy] = []
        # The copies that no thread uses. A thread that waits for a copy waits for a change of this.
        self._free: list[SolvedCopy] = []
        # How many copies have begun, and in how many seconds; how many cases were tried, and in how
        # many seconds; and how long each of the latest took.
        self._begun_count, self._begun = 0, 0.0
        self._tried_count, self._tried = 0, 0.0
        self._pace = 0.0
        self._is_over = False
        self._changed = threading.Condition()
        self._threads = ThreadPoolExecutor(jobs, "dmf-sweep")

    def begin(self, cases: list[Plain | Error]) -> Pending:
        return self._threads.submit(self._answers, cases).result

    def _answers(self, cases: list[Plain | Error]) -> list[CaseAnswer]:
        copy = self._take()
        began, before = time.monotonic(), copy.begin_seconds
        try:
            return copy.answers(cases, self._want_cut)
        finally:
            seconds = time.monotonic() - began - (copy.begin_seconds - before)
            look = copy.look
            with self._changed:
                self._free.append(copy)
                self._note(len(cases), seconds, copy.begin_seconds - before, is_first=not before)
                self._changed.notify_all()
            self.learn(len(cases), seconds, look)

    def _note(self, count: int, seconds: float, begin_seconds: float, is_first: bool) -> None:
        """Record how long `count` cases took, and how long their copy took to begin before them."""
        self._tried_count += count
        self._tried += seconds
        self._begun += begin_seconds + (seconds if is_first else 0)
        self._begun_count += is_first
        self._pace = seconds / count

    def _take(self) -> SolvedCopy:
        """Return a copy that no other thread uses: one that has begun, or another one if beginning
        it is worthwhile."""
        with self._changed:
            self._changed.wait_for(lambda: self._free or self._is_worth_another())
            if self._free:
                return self._free.pop()
            self._path = self._path or self._stack.enter_context(self._file)
            copy = self._begin_copy(self._path)
            if self._is_over:
                copy.break_off()
            self._copies.append(copy)
            return copy

    def _is_worth_another(self) -> bool:
        if self._is_over or not self._copies:
            return True
        if (
            len(self._copies) >= self._jobs
            or self._begun_count < len(self._copies)
            or self._tried < self._begun
        ):
            return False
        return self._count is None or (self._count - self._tried_count) * self._pace >= self._begun

    def close(self) -> None:
        with self._changed:
            self._is_over = True
            self._changed.notify_all()
        for copy in self._copies:
            copy.break_off()
        self._threads.shutdown(cancel_futures=True)
        for copy in self._copies:
            copy.end()
        self._stack.close()


def _workers(executor: Any) -> int:
    """Return how many processes or threads an executor has, as far as it says; the client of
    dask.distributed does."""
    workers = getattr(executor, "_max_workers", None)
    if isinstance(workers, int):
        return workers
    threads = getattr(getattr(executor, "_client", None), "nthreads", None)
    return (sum(threads().values()) if callable(threads) else 0) or os.cpu_count() or 1


@dataclass(eq=False)
class _Batch:
    """Cases that an executor was given, its future for them, and the error for which it accepts no
    more."""

    asked: Any
    future: Future[Any]
    error: Exception | None = None


class ExecutorPool(Tries):
    """The processes of an executor, which may run on other machines."""

    first = PIECE

    def __init__(self, sent: RemoteCopy, executor: Executor, want_cut: bool) -> None:
        # Imported here: it takes 4 MB, and nothing else needs it.
        import hashlib

        self._executor = executor
        self._want_cut = want_cut
        self._sent = pickle.dumps(sent)
        self._name = hashlib.sha256(self._sent).hexdigest()
        # At first one piece for each worker, which is sent with the network.
        self._workers = _workers(executor)
        super().__init__(self._workers, len(sent.capacities))
        self._futures: list[Future[Any]] = []
        # The pieces that are sent again, with the network, because their process did not have it
        # yet.
        self._first: list[_Batch] = []

    def begin(self, cases: list[Plain | Error]) -> Pending:
        asked = (
            pickle.dumps((cases, self._want_cut))
            if not any(map(callable, cases))
            else (cases, self._want_cut)
        )
        piece = _Batch(asked, self._submit(None, asked))
        self._first.append(piece)
        return lambda: self._answers(piece)

    def _answers(self, piece: _Batch) -> list[CaseAnswer]:
        """Return the answers to a piece. While it waits, it sends the network with each piece whose
        process lacks it, so that all processes begin at once."""
        from concurrent.futures import FIRST_COMPLETED, wait

        while piece in self._first:
            wait([first.future for first in self._first], return_when=FIRST_COMPLETED)
            for first in [first for first in self._first if first.future.done()]:
                self._first.remove(first)
                self._send_again(first)
        if piece.error is not None:
            raise piece.error
        answers: list[CaseAnswer]
        answers, seconds, look = piece.future.result()
        self._futures.remove(piece.future)
        self.most = WAITING * self._workers
        self.learn(len(answers), seconds, look)
        return answers

    def _send_again(self, piece: _Batch) -> None:
        """Send a piece once more, with the network, if its process did not have it yet, or died."""
        try:
            error = piece.future.exception()
            if _is_lost(error) if error is not None else piece.future.result() is None:
                self._futures.remove(piece.future)
                piece.future = self._submit(self._sent, piece.asked)
        except Exception as error:
            # This error is reported when its piece's turn comes.
            piece.error = error

    def _submit(self, sent: bytes | None, asked: Any) -> Future[Any]:
        future = self._executor.submit(_answers_there, self._name, sent, asked)
        self._futures.append(future)
        return future

    def close(self) -> None:
        for future in self._futures:
            future.cancel()


def _is_lost(error: BaseException) -> bool:
    """Return True if an executor says that the process of a task died, and not that the task
    failed."""
    return type(error).__name__ in (
        "KilledWorker",
        "BrokenProcessPool",
        "CommClosedError",
        "BrokenExecutor",
    )


@dataclass
class RemoteCopy:
    """A network as it is sent to another process, with the program, if the caller named one, and
    whether its cases are solved from scratch."""

    columns: Any
    capacities: Any
    added: list[tuple[Any, ...]]
    closed: set[int]
    ends: tuple[Any, Any]
    program: Program
    is_anew: bool
    kind: type[Network[Any]]

    @staticmethod
    def of(
        kept: NetworkState[Any], program: Program, is_anew: bool, kind: type[Network[Any]]
    ) -> RemoteCopy:
        rows = zip(kept.added, kept.replaced)
        added: list[tuple[Any, ...]] = [
            ((arc.number, arc.tail, arc.head, arc.given_key), replaced) for arc, replaced in rows
        ]
        return RemoteCopy(
            kept.columns,
            kept.capacities,
            added,
            kept.closed,
            (kept.source, kept.sink),
            program,
            is_anew,
            kind,
        )

    def kept(self) -> NetworkState[Any]:
        kept = NetworkState(self.columns, self.capacities, *self.ends, MOST_KEPT)
        for row, replaced in self.added:
            kept.put_added(Arc(*row), replaced)
        kept.closed = self.closed
        kept.begin_here()
        return kept


# The copies in this process that no case uses now, and how another one is made, by the name of what
# was sent.
_free: dict[str, list[SolvedCopy]] = {}
_known: dict[str, Callable[[], SolvedCopy]] = {}
_free_lock = threading.Lock()


def _forget_copies() -> None:
    """Forget the copies in a forked process, since they belong to its parent."""
    global _free_lock
    _free.clear()
    _free_lock = threading.Lock()


os.register_at_fork(after_in_child=_forget_copies)


def _answers_there(
    name: str, sent: bytes | None, asked: Any
) -> tuple[list[CaseAnswer], float, float] | None:
    """Answer cases in the process of an executor. Returns the answers, the seconds that they took
    and those of a look at all arcs, or None if the process needs the network first."""
    with _free_lock:
        copies = _free.get(name, [])
        copy = copies.pop() if copies else None
        if copy is None and name in _known:
            copy = _known[name]()
    if copy is None:
        if sent is None:
            return None
        network: RemoteCopy = pickle.loads(sent)
        anew = program_of(network.program) if network.is_anew else None
        another = functools.partial(
            SolvedCopy, network.kept(), chosen(network.program), anew=anew, kind=network.kind
        )
        with _free_lock:
            _known.clear()
            _known[name] = another
        copy = another()
    cases, want_cut = pickle.loads(asked) if isinstance(asked, bytes) else asked
    try:
        began = time.monotonic()
        answers = copy.answers(cases, want_cut)
        return answers, time.monotonic() - began, copy.look
    finally:
        copy.used = time.monotonic()
        with _free_lock:
            _free.setdefault(name, []).append(copy)
        timer = threading.Timer(PATIENCE, _end_idle)
        timer.daemon = True
        timer.start()


def _end_idle() -> None:
    """End the copies that no case has used for some time."""
    now = time.monotonic()
    with _free_lock:
        for name, copies in list(_free.items()):
            for copy in [copy for copy in copies if now - copy.used >= PATIENCE]:
                copies.remove(copy)
                copy.end()
            if not copies:
                del _free[name]
