"""Work of one thread that another one can stop, wherever it is."""

from __future__ import annotations

import contextlib
import ctypes
import threading
import time
from collections.abc import Callable


class Stopped(BaseException):
    """The work was stopped. As with a KeyboardInterrupt, nobody takes it for a fault of a file."""


class Stoppable:
    """Work that can be stopped, one piece at a time."""

    def __init__(self) -> None:
        self._lock = threading.Lock()
        # The thread that works, and what ends that for which it waits.
        self._thread = 0
        self._end: Callable[[], None] | None = None
        self._is_stopped = False

    def run(self, work: Callable[[], None], end: Callable[[], None]) -> None:
        """Do the work. `stop` raises a `Stopped` in it, at the latest at its end. `end` ends what
        the work may wait for outside Python."""
        has_come = False
        try:
            try:
                with self._lock:
                    self._thread, self._end, self._is_stopped = threading.get_ident(), end, False
                work()
            finally:
                self._forget()
        except Stopped:
            has_come = True
            self._forget()
        if self._is_stopped:
            if not has_come:
                _await_stopped()
            raise Stopped

    def stop(self) -> bool:
        """Stop the work that is going on, and return True if there is any. The exception comes
        before the next instruction of its thread."""
        with self._lock:
            if self._thread and not self._is_stopped:
                self._is_stopped = True
                _raise_in(self._thread)
                if self._end:
                    self._end()
            return bool(self._thread)

    def _forget(self) -> None:
        """Forget the thread, so that no exception is sent to it from now on."""
        with self._lock:
            self._thread, self._end = 0, None


def _raise_in(thread: int) -> None:
    """Raise a `Stopped` in a thread.

    It is never taken back: after that CPython 3.11 would not go on under a debugger."""
    ctypes.pythonapi.PyThreadState_SetAsyncExc(ctypes.c_ulong(thread), ctypes.py_object(Stopped))


def _await_stopped() -> None:
    """Let the `Stopped` come that was sent to this thread. It does at a next call, unless it came
    where Python drops exceptions, as in a destructor."""
    with contextlib.suppress(Stopped):
        for _ in range(100):
            time.sleep(0)
