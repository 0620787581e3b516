"""Scenarios by the second implementation: what it has after commands on the network of a project.
"""

from __future__ import annotations

import subprocess
import sys
from pathlib import Path
from typing import NamedTuple

from desk_shared import ROOT
from dmf.desk.project.comparison import OPEN, ArcState
from dmf.text.problem_text import read_problem
from limits import SECONDS


class Played(NamedTuple):
    """What the second implementation has after commands: the value, the arcs of the smallest
    minimum cut, and what each open arc carries."""

    value: int
    cut: set[int]
    flows: dict[int, tuple[int, int]]


def played(folder: Path, text: str, commands: str) -> Played:
    """A session of the second implementation on a problem. No arc is closed in it but by `close`
    and `shut`."""
    (folder / "base.max").write_text(text)
    said = f"solve\n{commands}solve\nprint problem\nprint cut\nprint flow\n"
    words = [sys.executable, f"{ROOT}/tests/oracle", "session", f"{folder}/base.max"]
    lines = subprocess.run(
        words, input=said, capture_output=True, text=True, timeout=SECONDS, check=True
    ).stdout.splitlines()
    begin = len(lines) - lines[::-1].index(
        next(it for it in reversed(lines) if it.startswith("p max"))
    )
    arcs = [[*map(int, it.split()[1:])] for it in lines[begin:] if it.startswith("a ")]
    side = {int(it.split()[2]) for it in lines[begin:] if it.startswith("c side")}
    flows = [int(it.split()[3]) for it in lines if it.startswith("f ")][-len(arcs) :]
    value = next(int(it.split()[1]) for it in reversed(lines) if it.startswith("s "))
    closed = closed_by(text, commands)
    numbers = [it for it in range(1, len(arcs) + len(closed) + 1) if it not in closed]
    cut = {
        number
        for number, (tail, head, _) in zip(numbers, arcs)
        if tail in side and head not in side
    }
    return Played(
        value,
        cut,
        {number: (most, flow) for number, (_, _, most), flow in zip(numbers, arcs, flows)},
    )


def closed_by(text: str, commands: str) -> set[int]:
    """The arcs that commands close."""
    arcs = [it[:2] for it in read_problem(text.encode()).arcs]
    closed: set[int] = set()
    for line in commands.splitlines():
        word, *numbers = line.split()[0], *map(int, line.split()[1:])
        if word == "close":
            closed.add(numbers[0])
        elif word == "shut":
            closed |= {number for number, ends in enumerate(arcs, 1) if numbers[0] in ends}
    return closed


def state(seen: Played, number: int) -> ArcState | None:
    if number in seen.flows:
        most, flow = seen.flows[number]
        return ArcState(OPEN, most, flow, number in seen.cut)
    return None
