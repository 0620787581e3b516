"""When a session of the C library is freed, and how many threads run its calls."""

from __future__ import annotations

import _thread
import contextlib
import gc
import os
import threading
import time
from typing import Any

import pytest
from broken_off import all_told, prepared
from client_shared import BUILT, PIPES, dmf, interrupted_when, pipes
from dmf.session import library as loaded
from dmf.session import worker_threads
from limits import SECONDS
from watched_library import counted, slow_call, wait_until_freed

pytestmark = pytest.mark.usefixtures("by_library")


def test_it_is_freed(monkeypatch: pytest.MonkeyPatch) -> None:
    """By `end`, when nothing refers to it, and when a problem is refused or a call was broken off;
    once each."""
    with counted(monkeypatch) as freed:
        with pipes() as network:
            network.solve()
            assert freed == []
        assert len(freed) == 1
        network = pipes()
        plan = network.solve()
        # A flow that nobody has looked at asks for it later.
        del network
        gc.collect()
        assert len(freed) == 1 and list(plan.values()) == [3, 2, 1, 2, 3]
        del plan
        gc.collect()
        assert len(freed) == 2
        network = pipes()
        network.end()
        network.end()
        assert len(freed) == 3
        with pytest.raises(dmf.Refused):
            dmf.Network(PIPES, "lake", "lake")
        assert dmf.value(PIPES, "lake", "sea") == 5
        assert len(freed) == 4


def test_what_was_broken_off_is_freed_at_its_end(monkeypatch: pytest.MonkeyPatch) -> None:
    """Ctrl-C leaves a call alone that nothing ends, whose session is freed once the call is done;
    meanwhile the network goes on by another one."""
    monkeypatch.setattr(loaded, "MOST_AT_ONCE", 0)
    with counted(monkeypatch) as freed, prepared() as network, prepared(
        program=BUILT
    ) as other, slow_call(monkeypatch, "close") as (begun, until):
        with pytest.raises(KeyboardInterrupt), interrupted_when(begun.is_set):
            network.close(("lake", "town"))
        assert all_told(network) == all_told(other) and freed == []
        until.set()
        wait_until_freed(freed)


def test_one_thread_runs_call_after_call(monkeypatch: pytest.MonkeyPatch) -> None:
    """Another one begins only while a call was left and goes on; and a forked process has its
    own."""
    monkeypatch.setattr(loaded, "MOST_AT_ONCE", 0)
    worker_threads.threads.cache_clear()
    begun: list[object] = []
    begin = _thread.start_new_thread

    def noted(*words: Any) -> int:
        begun.append(words)
        return begin(*words)

    monkeypatch.setattr(_thread, "start_new_thread", noted)
    with prepared() as network, prepared(program=BUILT) as other:
        for _ in range(20):
            assert all_told(network) == all_told(other)
        assert len(begun) == 1
        with slow_call(monkeypatch, "close") as (is_begun, _):
            with pytest.raises(KeyboardInterrupt), interrupted_when(is_begun.is_set):
                network.close(("lake", "town"))
            assert all_told(network) == all_told(other)
        assert len(begun) == 2
        child = os.fork()
        if child == 0:
            with contextlib.suppress(BaseException), pipes() as own:
                os._exit(0 if own.solve().value == 5 and len(begun) == 3 else 1)
            os._exit(2)
        assert os.waitpid(child, 0)[1] == 0


def test_few_threads_are_kept() -> None:
    threads, until = worker_threads.Threads(), threading.Event()
    done: list[int] = []

    def work(_: object, number: int) -> None:
        until.wait(SECONDS)
        done.append(number)

    for turn in range(3):
        until.clear()
        for number in range(turn * 50, turn * 50 + 50):
            threads.begin(worker_threads.Job(work, worker_threads.Handle(int), (number,)))
        until.set()
        end = time.monotonic() + SECONDS
        while len(done) < turn * 50 + 50 or len(threads._waiting) > worker_threads.MOST_THREADS:
            assert time.monotonic() < end
            time.sleep(0.01)
    assert sorted(done) == list(range(150))


def test_a_forked_process_leaves_it_alone(monkeypatch: pytest.MonkeyPatch) -> None:
    with pipes() as network:
        child = os.fork()
        if child == 0:
            status = 1
            with contextlib.suppress(BaseException), counted(monkeypatch) as freed:
                with contextlib.suppress(dmf.UsedByTwoProcesses):
                    network.solve()
                    os._exit(2)
                network._session.end()
                status = 3 if freed else 0
            os._exit(status)
        assert os.waitpid(child, 0)[1] == 0
        assert network.solve().value == 5
