"""The C library as tests watch it: a call that waits until it is let go, and which sessions are
freed."""

from __future__ import annotations

import contextlib
import gc
import subprocess
import sys
import threading
import time
from collections.abc import Iterator
from typing import Any

import pytest
from built import heed_interrupts
from c_library import library_file
from client_shared import environment
from dmf.session import library as loaded
from dmf.session import worker_threads
from dmf.session.base import Ranked
from limits import SECONDS

# A network large enough that its calls run beside, whose solve takes a second on an idle processor:
# a grid with arcs in three directions. And a signal as of Ctrl-C soon after the call of the library
# at a place has begun; what that call answers is listed.
GRID = """
import os, random, signal, sys, threading
import dmf

def grid(side):
    draw = random.Random(side)
    places = [(x, y) for x in range(side) for y in range(side)]
    ends = [((x, y), to) for x, y in places for to in ((x + 1, y), (x, y + 1), (x, y - 1))]
    inside = range(side)
    rows = [(*it, draw.randint(1, 99)) for it in ends if it[1][0] in inside and it[1][1] in inside]
    rows += [("s", (0, y), 10**6) for y in inside]
    return rows + [((side - 1, y), "t", 10**6) for y in inside]

def interrupted_within(calls, place):
    call, answers = calls[place], []
    def noted(*words):
        if not answers:
            threading.Timer(0.05, os.kill, (os.getpid(), signal.SIGINT)).start()
        answers.append(call(*words))
        return answers[-1]
    calls[place] = noted
    return answers
"""


def told_by(code: str, *words: str) -> str:
    """Return what a process that heeds Ctrl-C writes, which runs this code with these words."""
    ran = subprocess.run(
        [sys.executable, "-c", code, *words],
        env=environment(),
        capture_output=True,
        text=True,
        timeout=SECONDS,
        preexec_fn=heed_interrupts,
    )
    assert (ran.returncode, ran.stderr) == (0, "")
    return ran.stdout


@contextlib.contextmanager
def slow_call(
    monkeypatch: pytest.MonkeyPatch, name: str, ranked: Ranked | None = None
) -> Iterator[tuple[threading.Event, threading.Event]]:
    """A block in which the next call of this name begins with the first event, and goes on until
    the second one comes or a flag is raised."""
    begun, until, raised = threading.Event(), threading.Event(), threading.Event()
    calls: Any = loaded.load(library_file())
    where = calls.commands if name in calls.commands else vars(calls)
    where, key = (where[name], ranked) if ranked else (where, name)
    call, put_up = where[key], calls.stop_raise

    def slow(*words: Any) -> int:
        is_first = not begun.is_set()
        begun.set()
        while is_first and not until.is_set() and not raised.wait(0.01):
            pass
        return int(call(*words))

    def noted(stop: int) -> None:
        put_up(stop)
        raised.set()

    with monkeypatch.context() as patched:
        patched.setitem(where, key, slow)
        patched.setattr(calls, "stop_raise", noted)
        yield begun, until
        until.set()


@contextlib.contextmanager
def ctrl_c_in_a_solve(is_begun: bool) -> Iterator[None]:
    """A block in which Ctrl-C comes once the library works on a solve, or just before that. The
    solve runs in another thread, however small the network is."""
    calls: Any = loaded.load(library_file())
    begun, raised = threading.Event(), threading.Event()
    solve_until, put_up, threads = calls.solve_until, calls.stop_raise, worker_threads.threads

    def until_raised(*words: int) -> int:
        begun.set()
        raised.wait(SECONDS)
        return int(solve_until(*words))

    def noted(stop: int) -> None:
        put_up(stop)
        raised.set()

    class Interrupted:
        def begin(self, job: worker_threads.Job[Any]) -> None:
            if is_begun:
                threads().begin(job)
                begun.wait(SECONDS)
            raise KeyboardInterrupt

    with pytest.MonkeyPatch.context() as patched:
        patched.setattr(loaded, "MOST_AT_ONCE", -1)
        patched.setattr(calls, "solve_until", until_raised)
        patched.setattr(calls, "stop_raise", noted)
        patched.setattr(worker_threads, "threads", Interrupted)
        yield
    assert begun.is_set() == is_begun


@contextlib.contextmanager
def counted(monkeypatch: pytest.MonkeyPatch) -> Iterator[list[int]]:
    """The addresses of the sessions that are freed in the block."""
    freed: list[int] = []
    library_here = loaded.load(library_file())
    free = library_here.free

    def noted(address: int) -> int:
        freed.append(address)
        return free(address)

    with monkeypatch.context() as patched:
        patched.setattr(library_here, "free", noted)
        yield freed


def wait_until_freed(freed: list[int]) -> None:
    """Waits until one session is freed: a thread that was left does that at its end."""
    until = time.monotonic() + SECONDS
    while not freed:
        gc.collect()
        assert time.monotonic() < until, "nothing is freed"
        time.sleep(0.01)
    assert len(freed) == 1
