"""Calls that are broken off before any of their lines and at any time, by both ways: the network is
as it was before the call. What it is compared with is another network that made the same steps and
was never broken off."""

from __future__ import annotations

import contextlib
import linecache
import os
import re
import signal
import sys
import threading
from random import Random
from types import FrameType
from typing import Any

import pytest
from broken_off import CALLS, Step, all_told, prepared, told
from client_shared import dmf

# Lines before which Python heeds no signal: those that take the program and give it back are made
# so.
UNHEEDED = re.compile(r"^ *try:$|self\._taken")


@pytest.mark.parametrize("call", CALLS)
@pytest.mark.seconds(3)
def test_each_line(call: str) -> None:
    """Ctrl-C comes before each line of the package that a call runs, one after another."""
    with prepared() as network, prepared() as other:
        wanted, was, count = all_told(other), told(other), 0
        while interrupted(network, CALLS[call], count):
            assert told(network) == was, f"{call}, line {count}"
            count += 1
        CALLS[call](other)
        assert (count > 9, all_told(network)) == (True, all_told(other))
        assert all_told(network) != wanted or call in ("flow", "cut", "problem", "an arc's flow")


def interrupted(network: dmf.Network[str], call: Step, count: int) -> bool:
    """Whether a call was broken off before so many lines of it were run: it may have fewer."""
    left, folder = count, os.path.dirname(dmf.__file__)

    def trace(frame: FrameType, event: str, _: object) -> Any:
        nonlocal left
        if not frame.f_code.co_filename.startswith(folder):
            return None
        if event == "line" and not UNHEEDED.search(
            linecache.getline(frame.f_code.co_filename, frame.f_lineno)
        ):
            left -= 1
            if left < 0:
                sys.settrace(None)
                raise KeyboardInterrupt
        return trace

    network.undo(0)
    try:
        sys.settrace(trace)
        call(network)
    except KeyboardInterrupt:
        return True
    finally:
        sys.settrace(None)
    return False


@pytest.mark.parametrize("seed", range(8))
def test_at_any_time(seed: int) -> None:
    """Random steps, each of which may be broken off after a random time. One that came to its end
    at that moment may count as made."""
    random = Random(f"interrupted {seed}")
    before = signal.signal(signal.SIGALRM, signal.default_int_handler)
    broken_off = 0
    try:
        with prepared() as network, prepared() as other:
            for _ in range(60):
                name, place = random.choice(sorted(CALLS)), network._kept.place
                try:
                    signal.setitimer(
                        signal.ITIMER_REAL,
                        random.choice([random.random() / 5_000, random.random() / 500]),
                    )
                    try:
                        CALLS[name](network)
                    finally:
                        signal.setitimer(signal.ITIMER_REAL, 0)
                except KeyboardInterrupt:
                    broken_off += 1
                    if network._kept.place == place:
                        assert told(network) == told(other), name
                        continue
                except dmf.Error:
                    pass
                with contextlib.suppress(dmf.Error):
                    CALLS[name](other)
                assert told(network) == told(other), name
            assert all_told(network) == all_told(other)
    finally:
        signal.signal(signal.SIGALRM, before)
    assert broken_off


def test_a_call_that_gave_nothing_back() -> None:
    """Ctrl-C came just when a call ended, and the next one of this thread goes on; a call of
    another thread, or within a call, does not."""
    with prepared() as network, prepared() as other:
        network._taken[0] = [threading.get_ident()]
        assert all_told(network) == all_told(other)
        network._taken[0] = [threading.get_ident() + 1]
        with pytest.raises(dmf.UsedByTwoThreads):
            network.solve()
        del network._taken[0]
        with pytest.raises(dmf.UsedByTwoThreads):
            cases: Any = (network.solve() for _ in range(1))
            network._try_cases(cases, [])
        network.begin_again()
        assert all_told(network) == all_told(other)
