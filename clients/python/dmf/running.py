"""The programs that run for this process, which a tool that ends at once has to end first: each is
in a session of its own, where no signal of a terminal reaches it, and notices only between two
commands that nobody is there any more."""

from __future__ import annotations

import contextlib
import os
from typing import TYPE_CHECKING

if TYPE_CHECKING:
    import subprocess

_running: set[subprocess.Popen[bytes]] = set()
# A copy of this process owns none of them.
os.register_at_fork(after_in_child=_running.clear)


def note(process: subprocess.Popen[bytes]) -> None:
    """Note a program that has begun."""
    _running.add(process)


def forget(process: subprocess.Popen[bytes]) -> None:
    """Forget a program that has ended."""
    _running.discard(process)


def kill_all() -> None:
    """Kill all programs that have not ended."""
    for process in list(_running):
        with contextlib.suppress(OSError):
            process.kill()
