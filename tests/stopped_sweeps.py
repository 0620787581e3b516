"""Runs of dmf-sweep that stop themselves in the middle, for tests of what happens to them there."""

from __future__ import annotations

import os
import subprocess
import sys
from typing import Any

from client_shared import ROOT

TOOL = [sys.executable, f"{ROOT}/tools/dmf-sweep"]
# It stops when it has written some lines of the table.
STOPPING = """
import os, signal
write = os.write
count = 0
def written(file, data):
    global count
    size = write(file, data)
    if os.readlink(f"/proc/self/fd/{file}").endswith("table.csv"):
        count += 1
        if count == 9:
            os.kill(os.getpid(), signal.SIGSTOP)
    return size
os.write = written
"""


def command(*words: str, before: str = "") -> list[str]:
    """The words that run the tool, or a script that carries it out after something else."""
    script = (
        f"import sys, runpy\n{before}\nsys.argv[1:2] = []\nrunpy.run_path({TOOL[1]!r}, "
        "run_name='__main__')"
    )
    return [*([sys.executable, "-c", script, "dmf-sweep"] if before else TOOL), *words]


def wait_until_stopped(process: subprocess.Popen[Any]) -> None:
    how = os.waitid(os.P_PID, process.pid, os.WSTOPPED | os.WEXITED | os.WNOWAIT)
    assert how and how.si_code == os.CLD_STOPPED
