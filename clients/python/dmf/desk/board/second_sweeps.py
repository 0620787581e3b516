"""What a second arc beside some others brings, found in portions beside the requests of a page."""

from __future__ import annotations

import contextlib
import queue
import threading
import time
from collections.abc import Generator

from ..seconds import seconds_of
from ..steps import Second
from ..workspace import Desk
from .worth_finder import MOST_IN_PROCESS

# How long a request may sweep before it answers with the results so far, in seconds.
PORTION = 0.15
# How long a sweep waits for the next such request before it ends its copies of the network, and how
# long its end is waited for, in seconds.
PATIENCE, ENDING = 5.0, 0.5


class BackgroundSweep:
    """A sweep in a thread of its own, so that no request waits for a result that takes long."""

    def __init__(self, seconds: Generator[Second, None, None]) -> None:
        self._seconds = seconds
        self._found: queue.SimpleQueue[Second | Exception] = queue.SimpleQueue()
        self._is_over = False
        self._thread = threading.Thread(target=self._run, daemon=True)
        self._thread.start()

    def _run(self) -> None:
        try:
            with contextlib.closing(self._seconds):
                for second in self._seconds:
                    self._found.put(second)
                    if self._is_over:
                        return
        except Exception as error:
            self._found.put(error)

    def portion(self, most: int) -> list[Second]:
        """Return the next results, as many as come in the time of a portion. Raise what the sweep
        raises."""
        until = time.monotonic() + PORTION
        seconds: list[Second] = []
        with contextlib.suppress(queue.Empty):
            while len(seconds) < most:
                found = self._found.get(timeout=max(until - time.monotonic(), 0))
                if isinstance(found, Exception):
                    raise found
                seconds.append(found)
        return seconds

    def end(self) -> None:
        """End it, with its next result at the latest."""
        self._is_over = True
        self._thread.join(ENDING)


class SecondSweeps:
    """The sweep of a desk that is running, if there is one."""

    def __init__(self, desk: Desk) -> None:
        self._desk = desk
        # Whether there is one.
        self.is_going = False
        # The sweep, and the arcs that it has not tried yet.
        self._sweep: BackgroundSweep | None = None
        self._left: list[int] = []
        self._lock = threading.Lock()
        self._end = threading.Timer(0, self.end)

    def end(self) -> None:
        """End the sweep that has not ended, if there is one."""
        with self._lock:
            self._end.cancel()
            if self._sweep:
                self._sweep.end()
            self._sweep, self._left, self.is_going = None, [], False

    def portion(self, numbers: list[int]) -> list[Second]:
        """Return the results for the first arcs, as many as the time of a portion allows. The next
        portion goes on with the same copies of the network, if it is asked for in time. Where no
        arc is left to try, as after a stop, they end at once."""
        if not self._left or numbers[: len(self._left)] != self._left:
            self.end()
        if not numbers:
            return []
        with self._lock:
            self._end.cancel()
            is_together = len(self._desk.network.lines) <= MOST_IN_PROCESS
            going_on = self._sweep or BackgroundSweep(
                seconds_of(self._desk, numbers, is_together=is_together)
            )
            left = self._left or numbers
            # If this raises, the sweep is over.
            self._sweep, self._left, self.is_going = None, [], False
            seconds = going_on.portion(len(left))
            if len(seconds) < len(left):
                self._sweep, self._left, self.is_going = going_on, left[len(seconds) :], True
                self._end = threading.Timer(PATIENCE, self.end)
                self._end.daemon = True
                self._end.start()
        return seconds
