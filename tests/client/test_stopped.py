"""Solves in another thread that Ctrl-C ends: the session is as it was before, and goes on. What it
is compared with is another network that made the same steps and was never broken off."""

from __future__ import annotations

import _thread
import contextlib
import threading
from collections.abc import Callable, Iterator
from typing import Any

import pytest
from broken_off import all_told, prepared
from c_library import library_file
from client_shared import BUILT, dmf, interrupted_when
from dmf.session import library as loaded
from dmf.session import worker_threads
from dmf.session.statuses import NO_MEMORY, OK, STOPPED
from limits import SECONDS
from watched_library import GRID, counted, slow_call, told_by, wait_until_freed

# A solve of GRID's network, which ends with what the library answers. One arc is closed, and the
# change of another one undone, which can be redone.
A_SOLVE = (
    GRID
    + """
rows = grid(200)
network, other = (dmf.Network(rows, "s", "t", history=5) for _ in range(2))
for each in network, other:
    each.close(((3, 4), (4, 4)))
    each.cap(((5, 5), (6, 5)), 7)
    each.undo()
session = network._session
calls = session.way
answers = interrupted_within(vars(calls), "solve_until")
try:
    network.solve()
except KeyboardInterrupt:
    print(answers, network.redo() - network.undo())
plan = network.solve()
print(answers, network._session is session, [*plan.values()] == [*other.solve().values()])
print(network.undo(2) == other.undo(2) == 0, network.problem() == other.problem())
"""
)
pytestmark = pytest.mark.usefixtures("by_library", "beside")


@pytest.fixture
def beside(monkeypatch: pytest.MonkeyPatch) -> None:
    """Has all calls run in another thread."""
    monkeypatch.setattr(loaded, "MOST_AT_ONCE", 0)


@contextlib.contextmanager
def interrupted(network: dmf.Network[str]) -> Iterator[None]:
    """A block that Ctrl-C breaks off, after which the network is in the state of another one."""
    with prepared(program=BUILT) as other:
        with pytest.raises(KeyboardInterrupt):
            yield
        assert all_told(network) == all_told(other)


@pytest.mark.seconds(8)
def test_ctrl_c() -> None:
    """A signal to a process of its own: the solve ends before it is done, and the session has its
    changes, its undone ones too."""
    told = told_by(A_SOLVE)
    assert told == f"[{STOPPED}] 0\n[{STOPPED}, {OK}, {OK}] True True\nTrue True\n"


@pytest.mark.parametrize("history", [None, 6])
def test_the_session_goes_on(monkeypatch: pytest.MonkeyPatch, history: int | None) -> None:
    """It is neither left nor begun again, and its thread runs the next call."""
    worker_threads.threads.cache_clear()
    begin, threads = _thread.start_new_thread, []
    monkeypatch.setattr(_thread, "start_new_thread", lambda *words: threads.append(begin(*words)))
    with counted(monkeypatch) as freed, prepared(history=history) as network, prepared(
        program=BUILT, history=history
    ) as other:
        session = network._session
        for _ in range(3):
            with slow_call(monkeypatch, "solve_until") as (begun, _):
                with pytest.raises(KeyboardInterrupt), interrupted_when(begun.is_set):
                    network.solve()
            assert network._session is session and not network._is_broken
            assert all_told(network) == all_told(other)
        assert freed == [] and len(threads) == 1
        assert list(network.solve().values()) == list(other.solve().values())
        assert all_told(network) == all_told(other)


def test_a_flow_that_was_not_read(monkeypatch: pytest.MonkeyPatch) -> None:
    """The solve reads it before it begins, which does not count as a change."""
    with prepared() as network, prepared(program=BUILT) as other:
        session, plan = network._session, network.solve()
        wanted = list(other.solve().values())
        with slow_call(monkeypatch, "solve_until") as (begun, _):
            with pytest.raises(KeyboardInterrupt), interrupted_when(begun.is_set):
                network.solve()
        assert network._session is session and list(plan.values()) == wanted
        assert all_told(network) == all_told(other)


def test_ctrl_c_twice(monkeypatch: pytest.MonkeyPatch) -> None:
    """The second one comes while the solve is about to end: it is left, and freed at its end."""
    calls: Any = loaded.load(library_file())
    begun, raised, until = (threading.Event() for _ in range(3))
    solve_until, put_up = calls.solve_until, calls.stop_raise

    def slow(*words: int) -> int:
        begun.set()
        until.wait(SECONDS)
        return int(solve_until(*words))

    def noted(stop: int) -> None:
        put_up(stop)
        raised.set()

    with counted(monkeypatch) as freed, prepared() as network:
        session = network._session
        with interrupted(network), monkeypatch.context() as patched:
            patched.setattr(calls, "solve_until", slow)
            patched.setattr(calls, "stop_raise", noted)
            with interrupted_when(begun.is_set, raised.is_set):
                network.solve()
        assert network._session is not session and freed == []
        until.set()
        del session
        wait_until_freed(freed)


def test_before_it_begins(monkeypatch: pytest.MonkeyPatch) -> None:
    """Nobody has begun the work, whether or not it waits for a thread; nobody begins it then."""
    given: list[worker_threads.Job[Any]] = []
    begins: list[Callable[[worker_threads.Job[Any]], object]] = [given.append, id]
    for begin in begins:

        class Interrupted(worker_threads.Threads):
            def begin(self, job: worker_threads.Job[Any]) -> None:
                begin(job)
                raise KeyboardInterrupt

        with prepared() as network:
            session = network._session
            with interrupted(network), monkeypatch.context() as patched:
                patched.setattr(worker_threads, "threads", Interrupted)
                network.solve()
            assert network._session is session
    for job in given:
        job.run()
        with pytest.raises(IndexError):
            job.given()


def test_between_its_end_and_its_result(monkeypatch: pytest.MonkeyPatch) -> None:
    """The session has moved, so another one begins in the state before."""

    def interrupt(_: object) -> None:
        raise KeyboardInterrupt

    with prepared() as network:
        session = network._session
        with interrupted(network), monkeypatch.context() as patched:
            patched.setattr(worker_threads.Job, "given", interrupt)
            network.solve()
        assert network._session is not session


def test_without_memory_for_the_flag(monkeypatch: pytest.MonkeyPatch) -> None:
    """The solve is refused, whichever hold of the flag is; what was made before is freed."""
    calls: Any = loaded.load(library_file())
    free, freed = calls.stop_free, []
    monkeypatch.setattr(calls, "stop_free", lambda place: freed.append(free(place)))
    with dmf.Network([("a", "b", 3)], "a", "b") as network:
        for made, name in enumerate(["stop_new", "stop_share"]):
            with monkeypatch.context() as patched:
                patched.setattr(calls, name, lambda *_: NO_MEMORY)
                with pytest.raises(dmf.NoMemory, match="^no memory: solve$"):
                    network.solve()
            assert len(freed) == made and network.value == 0
        assert network.solve().value == 3
    del network
    assert len(freed) == 3
