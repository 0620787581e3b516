"""Calls that are broken off, by Ctrl-C above all: the network is as it was before the call, and the
next call begins a new session in the same state. What it is compared with is another
network that made the same steps and was never broken off."""

from __future__ import annotations

import contextlib
import os
import signal
import subprocess
import sys
from collections.abc import Iterator
from pathlib import Path

import pytest
from broken_off import CALLS, all_told, prepared, told
from built import heed_interrupts
from client_shared import (
    BUILT,
    CLIENT,
    dmf,
    ends,
    has_written,
    interrupted_when,
    is_running,
    pipes,
    process_of,
    script,
    stop,
)
from dmf import session_holder as running
from limits import SECONDS
from tool_runs import is_asked, wait_until_asked, wait_until_asleep


@contextlib.contextmanager
def stopped(network: dmf.Network[str]) -> Iterator[None]:
    """A block in which the program never answers, and is broken off."""
    process = process_of(network).pid
    stop(process)
    with broken_off_when_asked(process):
        yield


@contextlib.contextmanager
def broken_off_when_asked(process: int) -> Iterator[None]:
    """A block that is broken off once a program has a command that it does not read."""
    with pytest.raises(KeyboardInterrupt), interrupted_when(lambda: is_asked(process)):
        yield


@pytest.mark.parametrize("history", [None, 3])
@pytest.mark.parametrize("call", CALLS)
def test_each_call(call: str, history: int | None) -> None:
    with prepared(history=history) as network, prepared(history=history) as other:
        process, plan, pump = process_of(network), network.flow(), network.arc("pump")
        with stopped(network):
            CALLS[call](network)
        assert process.returncode == -signal.SIGKILL
        # What is known without the program.
        assert (network.value, ends(network.arcs)) == (other.value, ends(other.arcs))
        assert all_told(network) == all_told(other)
        assert (plan, pump.flow, network.capacity(pump)) == (
            network.flow(),
            other.arc("pump").flow,
            1,
        )
        CALLS[call](network)
        CALLS[call](other)
        assert all_told(network) == all_told(other)


def test_a_solution_that_nobody_has_looked_at() -> None:
    """It is asked for when the program is there again, also where the next change comes before."""
    with prepared() as other:
        wanted = list(other.solve().values())
    for is_changed in False, True:
        with prepared() as network:
            plan = network.solve()
            with stopped(network):
                network.cut()
            if is_changed:
                network.shut("mill")
            assert list(plan.values()) == wanted


@pytest.mark.parametrize("nested", [False, True])
def test_what_is_tried_out(nested: bool) -> None:
    """At the end of the block all is as it was, without waiting for a program. A flow that nobody
    has looked at is lost."""
    with prepared() as network, prepared() as other:
        with pytest.raises(KeyboardInterrupt), network.try_out():
            network.cap(("lake", "mill"), 2)
            with network.try_out() if nested else contextlib.nullcontext():
                plan = network.solve()
                seen = network.flow()
                assert len(seen) == len(list(seen.values()))
                network.close(("lake", "town"))
                lost = network.solve()
                with stopped(network):
                    network.shut("mill")
                raise KeyboardInterrupt
        assert (network.value, ends(network.arcs), network._kept.floors) == (
            other.value,
            ends(other.arcs),
            (),
        )
        with pytest.raises(dmf.SessionEnded, match="was broken off$"):
            lost.values().__iter__()
        assert plan == seen and told(network) == told(other)


def test_the_end_of_what_is_tried_out() -> None:
    """Ctrl-C comes when the program takes back what was tried out."""
    with prepared() as network, prepared() as other:
        with stopped(network), network.try_out():
            network.close(("lake", "town"))
            stop(process_of(network).pid)
        assert told(network) == told(other)


def test_twice() -> None:
    """Ctrl-C while a new session begins ends it for good, and says so; `begin_again` tries once
    more."""
    with script(
        f'[ ! -e "$0.slow" ] || {{ echo >"$0.begun"; kill -STOP $$; }}\nexec {BUILT} "$@"'
    ) as program:
        with prepared(program=program) as network, prepared() as other:
            with stopped(network):
                network.solve()
            Path(f"{program}.slow").touch()
            begun = has_written(f"{program}.begun")
            with pytest.raises(KeyboardInterrupt), interrupted_when(begun):
                network.solve()
            os.remove(f"{program}.slow")
            for _ in range(2):
                with pytest.raises(
                    dmf.SessionEnded,
                    match="^the session was ended for good: it was broken off, and again while "
                    "a new one began$",
                ):
                    network.solve()
            assert (network.value, network.begin_again()) == (other.value, other.value)
            assert all_told(network) == all_told(other)


def test_another_value() -> None:
    """A program that does not come to the same value the second time is not trusted."""
    count = (
        'read line\necho c undo value 0\nread line\nif [ -e "$0.slow" ]; then echo c solve value '
        "4; "
        "else echo c solve value 5; fi\nexec sleep 60"
    )
    with script(count) as program, pipes(program=program) as network:
        network.solve()
        with broken_off_when_asked(process_of(network).pid):
            network.solve()
        Path(f"{program}.slow").touch()
        for _ in range(2):
            with pytest.raises(
                dmf.SessionEnded,
                match="^the session was ended: after a restart its value was 4 instead of 5$",
            ):
                network.solve()


def test_a_refusal_when_it_begins_anew() -> None:
    count = (
        'read line\necho c undo value 0\nread line\nif [ -e "$0.slow" ]; then echo c refused 2 no '
        "memory; else echo c solve value 5; fi\nexec sleep 60"
    )
    with script(count) as program, pipes(program=program) as network:
        network.solve()
        with broken_off_when_asked(process_of(network).pid):
            network.solve()
        Path(f"{program}.slow").touch()
        with pytest.raises(
            dmf.SessionEnded,
            match="^the session could not be restarted: `solve` was refused: no memory$",
        ):
            network.solve()


@pytest.mark.parametrize("how", ["killed", "ended"])
def test_begin_again(how: str) -> None:
    with prepared() as network, prepared() as other:
        plan = network.solve()
        if how == "killed":
            process_of(network).kill()
        else:
            network.end()
        with pytest.raises(dmf.SessionEnded):
            network.close("pump")
        assert network.begin_again() == other.solve().value
        assert list(plan.values()) == list(other.flow().values())
        process = process_of(network)
        assert network.begin_again() == other.value and process_of(network) is process
        assert all_told(network) == all_told(other)


def test_a_copy() -> None:
    """A copy is in the same state, goes its own way, and knows the arcs of the first."""
    with prepared(history=4) as network, prepared(history=4) as other:
        pump, canal = network.arc("pump"), network.arc("canal")
        copy = network.copy()
        assert all_told(copy) == all_told(other)
        copy.close(pump)
        copy.open(canal)
        copy.cap(copy.add("mill", "sea", 3), 4)
        copy.solve()
        assert (pump.is_open, copy.arc("pump").is_open, copy.arc(pump).is_open) == (
            True,
            False,
            False,
        )
        assert all_told(network) == all_told(other)
        again = copy.copy()
        assert all_told(again) == all_told(copy)
        network.end()
        # The first of the five is forgotten.
        again.undo(4)
        other.close("pump")
        assert told(again) == told(other)
        with stopped(again):
            again.redo(3)
        assert told(again) == told(other)
        copy.end()
        again.end()


def test_many_lines(monkeypatch: pytest.MonkeyPatch) -> None:
    """A session takes 1,000,000 lines, here 40, so another one takes its place before."""
    monkeypatch.setattr(running, "MOST_LINES", 40)
    with prepared() as network, prepared() as other:
        processes = set()
        for turn in range(60):
            assert network.cap(("lake", "mill"), turn % 4) == other.cap(("lake", "mill"), turn % 4)
            assert network.solve().value == other.solve().value
            processes.add(process_of(network).pid)
            assert network.undo(2) == other.undo(2)
        assert len(processes) > 3 and all_told(network) == all_told(other)
        assert [result.value for result in dmf.sweep(network, dmf.each_arc_closed())] == [
            result.value for result in dmf.sweep(other, dmf.each_arc_closed(), jobs=1)
        ]


SCRIPT = """
import dmf, sys
network = dmf.Network([("a", "b", 3), ("b", "c", 2, "narrow")], "a", "c")
network.solve()
print(network._session.process.pid, flush=True)
input()
try:
    network.cap("narrow", 1)
except KeyboardInterrupt:
    print("broken off", network.value, network.capacity("narrow"), flush=True)
print(network.cap("narrow", 1), network.undo(), network.undo(), network.redo(2))
network.cap("narrow", 9)
print(network.solve().value)
"""


def test_ctrl_c() -> None:
    """A signal to a process of its own, which waits for a program that does not answer."""
    words = [sys.executable, "-c", SCRIPT]
    with subprocess.Popen(
        words,
        env={**os.environ, "PYTHONPATH": CLIENT},
        stdin=subprocess.PIPE,
        stdout=subprocess.PIPE,
        preexec_fn=heed_interrupts,
    ) as user:
        try:
            assert user.stdin and user.stdout
            session = int(user.stdout.readline())
            stop(session)
            user.stdin.write(b"\n")
            user.stdin.flush()
            wait_until_asked(session)
            wait_until_asleep(user.pid)
            user.send_signal(signal.SIGINT)
            said, _ = user.communicate(timeout=SECONDS)
            assert (said, user.returncode, is_running(session)) == (
                b"broken off 2 2\n1 2 0 1\n3\n",
                0,
                False,
            )
        finally:
            user.kill()
