"""Sessions by the C library in this process: what its calls answer, how they are broken off, and
what happens if memory is short."""

from __future__ import annotations

import ctypes
import gc
import itertools
import threading
import time
from collections.abc import Callable
from typing import Any

import pytest
from broken_off import CALLS, all_told, prepared
from c_library import library_file
from client_shared import BUILT, MOMENT, PIPES, dmf, interrupted_when, pipes
from dmf.session import library as loaded
from dmf.session.base import Ranked
from dmf.session.library_batches import KINDS
from dmf.session.statuses import NO_MEMORY, OK
from limits import SECONDS
from watched_library import counted, slow_call, wait_until_freed

pytestmark = pytest.mark.usefixtures("by_library")


@pytest.fixture(params=[0, 10**9], ids=["beside", "at once"])
def bound(request: pytest.FixtureRequest, monkeypatch: pytest.MonkeyPatch) -> int:
    """The most arcs of a network whose calls do not run beside."""
    most = int(request.param)
    monkeypatch.setattr(loaded, "MOST_AT_ONCE", most)
    return most


@pytest.mark.parametrize("call", CALLS)
def test_each_call(bound: int, call: str) -> None:
    """As by the program, in each state that can be undone and redone."""
    with prepared() as network, prepared(program=BUILT) as other:
        assert [isinstance(it._session, loaded.LibrarySession) for it in (network, other)] == [
            True,
            False,
        ]
        CALLS[call](network)
        CALLS[call](other)
        assert all_told(network) == all_told(other)


def test_what_is_refused(bound: int) -> None:
    calls: list[Callable[[Any], object]] = [
        lambda it: it.undo(9),
        lambda it: it.redo(2),
        lambda it: it.cut(),
        lambda it: it.shut(7),
    ]
    calls.append(lambda it: it.add("lake", "sea", 2**64 - 1))
    said: list[list[tuple[type, str]]] = [[], []]
    for told, program in zip(said, (None, BUILT)):
        with pipes(program=program) as network:
            for call in calls:
                with pytest.raises(dmf.Error) as caught:
                    call(network)
                told.append((type(caught.value), str(caught.value)))
            assert network.solve().value == 5
    assert said[0] == said[1]


def test_a_sweep(bound: int) -> None:
    with prepared() as network, prepared(program=BUILT) as other:
        cases: list[Any] = [
            [("cap", ("lake", "mill"), 1)],
            [("close", "canal")],
            [("shut", "pond")],
        ]
        cases.append([("shut", "mill"), ("add", "lake", "sea", 2)])
        for want_cut in False, True:
            found = [
                [*dmf.sweep(one, cases * 20, want_cut=want_cut, jobs=2)] for one in (network, other)
            ]
            told = [
                [(it.value, str(it.refusal), it.cut and len(it.cut)) for it in results]
                for results in found
            ]
            assert told[0] == told[1]


def test_another_thread_breaks_it_off(monkeypatch: pytest.MonkeyPatch, bound: int) -> None:
    """A call that runs beside is left at once; another one is left when it ends."""
    with counted(monkeypatch) as freed, prepared() as network, slow_call(
        monkeypatch, "solve_until"
    ) as (begun, until):
        said: list[str] = []

        def wait() -> None:
            with pytest.raises(dmf.SessionEnded) as caught:
                network.solve()
            said.append(str(caught.value))

        thread = threading.Thread(target=wait)
        thread.start()
        begun.wait(SECONDS)
        network._session.break_off("it was stopped")
        if bound:
            thread.join(0.3)
            assert thread.is_alive()
            until.set()
        thread.join(SECONDS)
        until.set()
        assert said == ["it was stopped"]
        for _ in range(2):
            with pytest.raises(dmf.SessionEnded, match="^it was stopped$"):
                network.solve()
        wait_until_freed(freed)
        assert network.begin_again() == network.value


def test_one_call_needs_no_program(monkeypatch: pytest.MonkeyPatch, bound: int) -> None:
    """For the value, the cut or a flow."""
    monkeypatch.setenv("DMF", "/nowhere")
    graph = {"lake": {"mill": 3, "town": 2}, "mill": {"town": 5, "sea": 2}, "town": {"sea": 3}}
    flows = {"lake": {"mill": 3, "town": 2}, "mill": {"town": 1, "sea": 2}, "town": {"sea": 3}}
    with counted(monkeypatch) as freed:
        assert dmf.value(PIPES, "lake", "sea") == 5
        assert dmf.minimum_cut(graph, "lake", "sea") == (5, ({"lake"}, {"mill", "town", "sea"}))
        flows["sea"] = {}
        assert dmf.maximum_flow(graph, "lake", "sea") == (5, flows)
        assert len(freed) == 3


def test_one_call_without_memory(monkeypatch: pytest.MonkeyPatch, bound: int) -> None:
    with counted(monkeypatch) as freed, monkeypatch.context() as patched:
        patched.setattr(loaded.load(library_file()), "maximum_flow", lambda *_: NO_MEMORY)
        with pytest.raises(dmf.NoMemory, match="^no memory$"):
            dmf.value(PIPES, "lake", "sea")
        wait_until_freed(freed)


def short(monkeypatch: pytest.MonkeyPatch, word: str, arc: int) -> None:
    """Lets the library answer that memory is short to a command about an arc, alone or among
    others."""
    calls: Any = loaded.load(library_file())
    call, run = calls.commands[word], calls.run

    def refusing(address: int, number: int) -> int:
        return NO_MEMORY if number == arc else int(call(address, number))

    def refusing_among(address: int, *words: Any) -> int:
        kinds = (ctypes.c_uint32 * words[1]).from_address(words[0])
        firsts = (ctypes.c_uint64 * words[3]).from_address(words[2])
        commands = [*zip(kinds, firsts)]
        if (KINDS[word], arc) not in commands:
            return int(run(address, *words))
        before = commands.index((KINDS[word], arc))
        lengths = [before if at % 2 else it for at, it in enumerate(words[:-1])]
        assert run(address, *lengths, words[-1]) == OK
        return NO_MEMORY

    monkeypatch.setitem(calls.commands, word, refusing)
    monkeypatch.setattr(calls, "run", refusing_among)


@pytest.mark.parametrize("history", [None, 3, 6])
def test_a_copy(monkeypatch: pytest.MonkeyPatch, bound: int, history: int | None) -> None:
    """The library copies the session with its history, and no command is repeated. Without memory
    for that nothing has changed."""
    calls: Any = loaded.load(library_file())
    with prepared(history=history) as network, prepared(program=BUILT, history=history) as other:
        with monkeypatch.context() as patched:
            patched.setattr(calls, "copy", lambda *_: NO_MEMORY)
            with pytest.raises(dmf.NoMemory, match="^no memory$"):
                network.copy()
        with monkeypatch.context() as patched:
            patched.delattr(calls, "new")
            patched.delattr(calls, "run")
            copy = network.copy()
        wanted = all_told(other)
        assert all_told(copy) == wanted
        copy.close(("lake", "town"))
        copy.solve()
        copy.end()
        assert all_told(network) == wanted


def test_want_of_memory(monkeypatch: pytest.MonkeyPatch, bound: int) -> None:
    """A call that is refused changes nothing; of cases that are tried together the others have
    their values; one that is made again when a session restarts ends that."""
    with pipes() as network:
        network.solve()
        with monkeypatch.context() as patched:
            short(patched, "close", 2)
            with pytest.raises(dmf.NoMemory, match="^no memory: <Arc 2: 'lake' to 'town'>$"):
                network.close(("lake", "town"))
            # Without memory for the losses, each case is tried.
            losses: Any = loaded.load(library_file()).losses
            patched.setitem(losses, Ranked.ARCS, lambda *_: NO_MEMORY)
            # Each pipe closed in turn, worked by hand.
            told = [
                it.value if it.refusal is None else type(it.refusal)
                for it in dmf.sweep(network, dmf.each_arc_closed(), jobs=1)
            ]
            assert told == [2, dmf.NoMemory, 4, 3, 2]
        assert (network.value, network.close(("lake", "town"))) == (5, 3)
        with monkeypatch.context() as patched:
            short(patched, "close", 2)
            network._session.break_off("it was stopped")
            with pytest.raises(dmf.SessionEnded):
                network.solve()
            with pytest.raises(
                dmf.SessionEnded,
                match="^the session could not be restarted: `close 2` was refused: no memory$",
            ):
                network.begin_again()
        assert network.begin_again() == 3
        with monkeypatch.context() as patched:
            patched.setattr(loaded.load(library_file()), "new", lambda *_: NO_MEMORY)
            with pytest.raises(dmf.NoMemory, match="^no memory$"):
                pipes()


def test_cases_that_go_wrong_in_the_middle(monkeypatch: pytest.MonkeyPatch) -> None:
    """Those before it have their values, and the session has ended."""
    with pipes() as network:
        network.solve()
        short(monkeypatch, "close", 3)
        found: list[int] = []
        with pytest.raises(dmf.SessionEnded, match="was not understood"):
            network._try_cases(
                [[("close", 1)], [("close", 2)], [("close", 3)], [("close", 4)]], found
            )
        assert found == [2, 3]
        assert network.begin_again() == 5


def test_a_lost_interrupt_comes_again() -> None:
    """Where a test breaks off a finalizer, whose errors Python ignores."""

    def idle() -> None:
        until = time.monotonic() + SECONDS
        while time.monotonic() < until:
            time.sleep(MOMENT)

    class Freed:
        def __del__(self) -> None:
            idle()

    went_on = False
    with pytest.raises(KeyboardInterrupt), interrupted_when(lambda: True):
        Freed()
        went_on = True
        idle()
    assert went_on


def test_an_interrupt_ends_a_sweep(bound: int) -> None:
    """However many cases are left, and its threads with it."""
    with pipes() as network:
        network.solve()
        before = threading.active_count()
        cases: Any = ([("cap", ("lake", "mill"), turn % 5)] for turn in itertools.count())
        with pytest.raises(KeyboardInterrupt), interrupted_when(lambda: True):
            for result in dmf.sweep(network, cases, jobs=2):
                assert result.refusal is None
        gc.collect()
        until = time.monotonic() + SECONDS
        while threading.active_count() > before:
            assert time.monotonic() < until, "a thread of the sweep goes on"
            time.sleep(0.01)
        assert network.solve().value == 5
