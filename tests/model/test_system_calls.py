"""Calls that a signal breaks off before or after one of their calls to the system, each in turn, by
the preloaded library of tests/interrupts.c: the state is that before the call or that after it, the
next call is right, and so is what is read again from the disk. Networks run by the program behind a
pipe, since the library makes no such calls."""

from __future__ import annotations

import os
import subprocess
import sys
from pathlib import Path

import pytest
from broken_off import CALLS
from broken_off_projects import PROJECT_CALLS
from c_library import library_file
from client_shared import CLIENT

TESTS = Path(__file__).resolve().parents[1]


def count_places(interrupts: str, library: str, *words: str | Path) -> int:
    """Return how many places of a call were tried. None of them was wrong."""
    ran = subprocess.run(
        [sys.executable, TESTS / "interrupted_calls.py", *words],
        capture_output=True,
        text=True,
        env={
            **os.environ,
            "PYTHONPATH": f"{TESTS}:{CLIENT}",
            "LD_PRELOAD": interrupts,
            "DMF_LIBRARY": library,
        },
    )
    assert ran.returncode == 0, ran.stderr
    return int(ran.stdout)


@pytest.mark.parametrize("call", CALLS)
def test_networks(call: str, interrupts: str) -> None:
    """A line is written to the program, and its answer is read."""
    assert count_places(interrupts, "", "network", call) >= 4


@pytest.mark.parametrize("call", PROJECT_CALLS)
def test_projects(call: str, interrupts: str, tmp_path: Path) -> None:
    """An act cuts the journal where it should end, and writes a line that is then on the disk."""
    places = count_places(interrupts, library_file(), "project", call, tmp_path)
    assert places == (0 if call == "compare" else 6)


@pytest.mark.parametrize("kind", ["ending", "opening"])
def test_files(kind: str, interrupts: str, tmp_path: Path) -> None:
    """A project is locked and read, and written beside its older versions."""
    assert count_places(interrupts, library_file(), kind, tmp_path) > 10
