"""What the tests of the planner's desk share: the water story and what is so of it, and how the
tools are run on it."""

from __future__ import annotations

import contextlib
import os
import re
import signal
import subprocess
from itertools import combinations, product
from pathlib import Path
from typing import NamedTuple

from dmf.desk.workspace import Desk
from dmf.tables.loader import LoadedProblem
from limits import SECONDS

ROOT = Path(__file__).resolve().parents[1]
PIPES = "examples/water/pipes.csv"
# The story of examples/water: the greatest values of the plan of today, with Market Street wider,
# with a new pipe, without the Market link and without the Bridge pipe, as its page reckons them
# from the limits.
STORY = [165, 165, 180, 165, 155]
# The same by commands of dmf-plan.
SCRIPT = """solve
cap "Market Street" 120
solve
undo 2
add Mill Station 25
solve
undo 2
close Market link
solve
undo 2
close "Mill-South Tower"
solve
"""
# An odd name: what would be markup in a page, and a quote.
ODD = '<img src=x onerror="document.title=1"> "Q" & \\N'


class Pipe(NamedTuple):
    tail: str
    head: str
    capacity: int
    name: str


def water() -> list[Pipe]:
    """The pipes of the story, as its table has them."""
    rows = (row.split(",") for row in (ROOT / PIPES).read_text().splitlines()[1:])
    return [Pipe(tail, head, int(capacity), name) for tail, head, capacity, name in rows]


def greatest(pipes: list[Pipe]) -> int:
    """The greatest value from the reservoir to the harbour: the least that the pipes out of any set
    of places carry which has the one and not the other."""
    places = sorted({place for pipe in pipes for place in pipe[:2]} - {"Reservoir", "Harbour"})

    def carried(side: set[str]) -> int:
        return sum(pipe.capacity for pipe in pipes if pipe.tail in side and pipe.head not in side)

    sides = (
        {"Reservoir", *(place for place, is_in in zip(places, chosen) if is_in)}
        for chosen in product((0, 1), repeat=len(places))
    )
    return min(map(carried, sides))


def swept() -> dict[str, tuple[int, int]]:
    """For each pipe the greatest values without it, and with a second one beside it, by trying all
    sets of places."""
    pipes = water()
    return {
        pipe.name: (greatest([it for it in pipes if it != pipe]), greatest([*pipes, pipe]))
        for pipe in pipes
    }


def worst_pairs_of_water() -> list[tuple[str, str, str]]:
    """Return the names of the five worst pairs of the story, what is lost and what is left."""
    pipes = water()
    left = {
        pair: greatest([it for it in pipes if it not in pair]) for pair in combinations(pipes, 2)
    }
    return [
        (" and ".join(it.name for it in pair), str(165 - left[pair]), str(left[pair]))
        for pair in sorted(left, key=left.__getitem__)[:5]
    ]


def run(
    tool: str, *words: str, typed: str = "", **environment: str
) -> subprocess.CompletedProcess[str]:
    """Runs a tool at the root."""
    return subprocess.run(
        [str(ROOT / "tools" / tool), *words],
        input=typed,
        capture_output=True,
        text=True,
        timeout=SECONDS,
        cwd=ROOT,
        env={**os.environ, **environment},
    )


def sessions_of(pid: int) -> list[int]:
    """The sessions of the program that a process has. Asks each process whose child it is: a list
    of the children of threads lacks some when a thread ends."""
    found = []
    for stat in Path("/proc").glob("[0-9]*/stat"):
        # A process may end meanwhile.
        with contextlib.suppress(OSError):
            parent = int(stat.read_text().rpartition(")")[2].split()[1])
            if parent == pid and b"session" in (stat.parent / "cmdline").read_bytes().split(b"\0"):
                found.append(int(stat.parent.name))
    return sorted(found)


def stop_session(session: int) -> None:
    """Stops a session, and waits until it is stopped: until then it may read on."""
    os.kill(session, signal.SIGSTOP)
    while b") T " not in (Path("/proc") / str(session) / "stat").read_bytes():
        os.sched_yield()


def water_problem() -> bytes:
    """The problem of the water story, with its names."""
    words = [str(ROOT / "tools/dmf-problem"), "Reservoir", "Harbour"]
    with open(ROOT / PIPES) as table:
        return subprocess.run(
            words, stdin=table, capture_output=True, check=True, timeout=SECONDS
        ).stdout


def desk_of(text: bytes, with_solve: bool = True) -> Desk:
    return Desk(LoadedProblem("a test", text), with_solve=with_solve)


def end_session(of: int | None = None) -> None:
    """Kills the one session that a process has, and waits until it is gone."""
    pid = of or os.getpid()
    for child in sessions_of(pid):
        os.kill(child, signal.SIGKILL)
        while (Path("/proc") / str(child) / "stat").exists() and b") Z " not in (
            Path("/proc") / str(child) / "stat"
        ).read_bytes():
            os.sched_yield()


def without(*names: str) -> int:
    """The greatest value of the water story without these pipes."""
    return greatest([pipe for pipe in water() if pipe.name not in names])


def values(text: str) -> list[int]:
    """The values that solves of dmf-plan told."""
    return [int(it) for it in re.findall("^value ([0-9]+).*, the greatest$", text, re.MULTILINE)]
