"""Run the drivers that find many values of one network, and the yardstick that judges them."""

from __future__ import annotations

import os
import signal
import subprocess
from collections.abc import Sequence
from pathlib import Path
from typing import NamedTuple

from setting import CACHE


class Found(NamedTuple):
    """The numbers of each line that a driver wrote, and the processor seconds that it told."""

    rows: list[tuple[int, ...]]
    seconds: float

    def values(self) -> list[int]:
        return [row[0] for row in self.rows]


def run_driver(
    command: Sequence[str | Path],
    problem: Path,
    limit: int = 0,
    environment: dict[str, str] | None = None,
) -> Found | None:
    """Return what a driver found. With a limit it begins no case after this many processor seconds,
    and the answer is None if it has not ended after twice as many."""
    words = ["prlimit", f"--cpu={2 * limit}:", *command] if limit else command
    more = {"DMF_BENCH_LIMIT": str(limit)} if limit else {}
    with problem.open() as given:
        ran = subprocess.run(
            list(map(str, words)),
            stdin=given,
            capture_output=True,
            text=True,
            env={**os.environ, **(environment or {}), **more},
        )
    if limit and ran.returncode == -signal.SIGXCPU:
        return None
    ran.check_returncode()
    rows = [tuple(map(int, line.split()[1:])) for line in ran.stdout.splitlines()]
    told = ran.stderr.partition("cases ")[2].split()
    return Found(rows, float(told[0]) if told else 0)


def solved_by_yardstick(problem: str) -> str:
    """Return the solution of a problem text."""
    return subprocess.run(
        [CACHE / "tree"],
        input=problem,
        stdout=subprocess.PIPE,
        stderr=subprocess.DEVNULL,
        text=True,
    ).stdout
