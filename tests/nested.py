"""Runs pytest within a test, as it is called by hand."""

from __future__ import annotations

import os
import subprocess
import sys
from collections.abc import Mapping
from pathlib import Path


def run_pytest(
    *words: str | Path,
    folder: Path,
    seconds: float | None = None,
    environment: Mapping[str, str] | None = None,
) -> subprocess.CompletedProcess[str]:
    """Calls pytest in a folder, with what is given beside the caller's environment, and with
    nothing there of the pytest that runs the test."""
    plain = {name: value for name, value in os.environ.items() if not name.startswith("PYTEST_")}
    command = [sys.executable, "-m", "pytest", "-p", "no:xdist", *map(str, words)]
    return subprocess.run(
        command,
        cwd=folder,
        env={**plain, **(environment or {})},
        capture_output=True,
        text=True,
        timeout=seconds,
    )
