"""Flags of the library, by which the thread that waits for a call ends it."""

from __future__ import annotations

import ctypes
from collections.abc import Callable

from .base import refused_line
from .library_calls import LibraryCalls
from .statuses import NO_MEMORY, NOT_GREATEST, OK, REASONS, STOPPED
from .worker_threads import Handle


class CallStopped(Exception):
    """A call ended since its flag was raised. The session is as it was before."""


class Flag:
    """A flag that ends calls in another thread. The library lets a hold of a flag be used by one
    thread at a time, so the thread that waits has one, and the thread that calls has another."""

    def __init__(self, calls: LibraryCalls) -> None:
        """Raise a MemoryError if memory is short."""
        self._calls = calls
        self._waiting = _hold(calls, calls.stop_new)
        self._calling = _hold(calls, calls.stop_share, self._waiting.address)
        # The hold of the thread that calls.
        self.calling = self._calling.address

    def put_up(self) -> None:
        """Raise the flag, which ends a call, also one that is about to begin."""
        self._calls.stop_raise(self._waiting.address)

    def take_down(self) -> None:
        """Let calls go on until they are done."""
        self._calls.stop_clear(self._waiting.address)


def is_answered(status: int) -> bool:
    """Return True if a call that a flag may end has answered, and False if the session's flow is
    not a maximum flow. Raises `CallStopped`, or a `Refused` for want of memory."""
    if status == STOPPED:
        raise CallStopped
    if status not in (OK, NOT_GREATEST):
        raise refused_line(REASONS[status], None)
    return status == OK


def _hold(calls: LibraryCalls, make: Callable[..., int], *shared: ctypes.c_void_p) -> Handle:
    held = Handle(calls.stop_free)
    if make(*shared, ctypes.byref(held.address)) != OK:
        raise MemoryError(REASONS[NO_MEMORY])
    return held
