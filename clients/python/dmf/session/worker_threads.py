"""Calls of the library in other threads than their caller's, which can stop waiting for them."""

from __future__ import annotations

import _thread
import contextlib
import ctypes
import functools
import os
import time
import weakref
from collections.abc import Callable
from typing import Any, Generic, TypeVar

# How many idle threads are kept for later calls.
MOST_THREADS = 8

Given = TypeVar("Given")


class Handle:
    """The place for the address of a session or a stop of the library, which is freed when nothing
    refers to this object any more. Every call refers to it, so that nothing is freed during a call.
    That needs no lock, which Ctrl-C could interrupt."""

    def __init__(self, free: Callable[..., int]) -> None:
        """Make the place, into which a call of the library then writes."""
        self.address = ctypes.c_void_p()
        # When the interpreter ends, the system frees everything at once, even while a call is
        # running.
        weakref.finalize(self, _free, free, self.address, os.getpid()).atexit = False


def _free(free: Callable[..., int], address: ctypes.c_void_p, owner: int) -> None:
    """Free what is at an address, if anything is, in the process that made it."""
    if address and os.getpid() == owner:
        free(address)


class Threads:
    """The threads that run calls on behalf of other threads. Each takes one call after another."""

    def __init__(self) -> None:
        # Imported here, since only large networks need it.
        from queue import SimpleQueue

        self._jobs: SimpleQueue[Job[Any]] = SimpleQueue()
        # One entry for each thread that waits for a job, or is about to. Ctrl-C may leave one entry
        # too few; then one more thread is started.
        self._waiting: list[None] = []

    def begin(self, job: Job[Any]) -> None:
        """Begin a job at once."""
        if not self._take_one():
            _thread.start_new_thread(self._run, ())
        self._jobs.put(job)

    def _take_one(self) -> bool:
        """Claim a waiting thread. Returns False if none is waiting."""
        try:
            self._waiting.pop()
        except IndexError:
            return False
        return True

    def _run(self) -> None:
        is_kept = True
        while is_kept:
            job = self._jobs.get()
            job.run()
            self._waiting.append(None)
            job.leave()
            # Nothing of the job is held while the thread waits.
            del job
            is_kept = len(self._waiting) <= MOST_THREADS or not self._take_one()


@functools.cache
def threads() -> Threads:
    return Threads()


# A forked process has none of these threads.
os.register_at_fork(after_in_child=threads.cache_clear)


class Unbegun(Exception):
    """Work was given up before it began."""


class Job(Generic[Given]):
    """Calls at a session in another thread. The caller's thread waits for the result, and can stop
    waiting, or wait for the end of work that it has told to end."""

    def __init__(self, work: Callable[..., Given], held: Handle, words: tuple[Any, ...]) -> None:
        self._work = work
        self._held = held
        self._words = words
        self._given: list[Given] = []
        self._error: BaseException | None = None
        # How many seconds of a processor the work took.
        self.seconds = 0.0
        # Whoever takes this entry decides whether the work begins: the thread that would do it, or
        # a caller who gives it up before.
        self._claims: list[None] = [None]
        # To wait for the first lock is to wait for the work, or for `leave`. The second one is for
        # a caller whose wait was interrupted, who may have the first one by then.
        self._is_going_on, self._has_not_ended = _thread.allocate_lock(), _thread.allocate_lock()
        self._is_going_on.acquire()
        self._has_not_ended.acquire()

    def wait(self) -> None:
        """Begin the work, and wait until it is done or `leave` is called. Ctrl-C interrupts only
        the waiting."""
        threads().begin(self)
        self._is_going_on.acquire()

    def leave(self) -> None:
        """Let the waiting thread go on."""
        with contextlib.suppress(RuntimeError):
            self._is_going_on.release()

    def give_up(self, tell: Callable[[], None]) -> BaseException | None:
        """Keep work from beginning, and return an `Unbegun`; or `tell` it to end, wait until it
        does, and return what it raised, if anything. May be called once, after `wait` was
        interrupted."""
        if self._claim():
            return Unbegun()
        tell()
        self._has_not_ended.acquire()
        return self._error

    def _claim(self) -> bool:
        """Return True if nobody else has decided whether the work begins."""
        try:
            self._claims.pop()
        except IndexError:
            return False
        return True

    def run(self) -> None:
        """Do the work, unless it was given up."""
        if not self._claim():
            return
        began = time.thread_time()
        try:
            self._given.append(self._work(self._held, *self._words))
        except BaseException as error:
            self._error = error
        self.seconds = time.thread_time() - began
        self._has_not_ended.release()

    def given(self) -> Given:
        """Return the result of the work, or raise what it raised."""
        if self._error is not None:
            raise self._error
        return self._given[0]
