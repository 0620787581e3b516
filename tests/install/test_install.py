"""Runs install.sh, which tries ./install from the shell, as its callers do, and counts its cases in
its last line."""

from __future__ import annotations

import re
import subprocess
from collections.abc import Callable
from pathlib import Path

import pytest


@pytest.mark.seconds(10)
def test_install(record_property: Callable[[str, object], None]) -> None:
    script = Path(__file__).parent / "install.sh"
    ran = subprocess.run(
        ["bash", script], stdin=subprocess.DEVNULL, capture_output=True, text=True, errors="replace"
    )
    counts = re.findall(r"^(\d+) passed, (\d+) failed$", ran.stdout, re.MULTILINE)
    assert counts, f"no count: {ran.stdout[-3000:]}{ran.stderr[-3000:]}"
    passed, failed = map(int, counts[-1])
    record_property("cases", (passed, failed))
    assert (ran.returncode, failed) == (0, 0), ran.stdout[-5000:]
