"""examples/water/worst.py beside the second implementation, which solves each case from scratch.
"""

from __future__ import annotations

import csv
import os
import re
import shutil
import subprocess
import sys
import tempfile
from pathlib import Path

from client_shared import CLIENT, ROOT
from oracle.network import Arc, State, solved
from packages import load

pandas = load("pandas")
FOLDER = f"{ROOT}/examples/water"


def value(pipes: list[dict[str, str]], changed: str = "", more: int | None = None) -> int:
    """The greatest value of the table, with one pipe that carries more, or is left out."""
    numbers: dict[str, int] = {}
    for pipe in pipes:
        for place in pipe["from"], pipe["to"]:
            numbers.setdefault(place, len(numbers) + 1)
    arcs = []
    for pipe in pipes:
        capacity = int(pipe["litres per second"])
        if pipe["pipe"] == changed:
            capacity = 0 if more is None else capacity + more
        arcs.append(Arc(numbers[pipe["from"]], numbers[pipe["to"]], capacity))
    state = State(
        len(numbers), numbers["Reservoir"], numbers["Harbour"], tuple(arcs), (0,) * len(arcs)
    )
    return int(solved(state).value())


def test_the_worst_pipes() -> None:
    with open(f"{FOLDER}/pipes.csv", newline="") as file:
        pipes = list(csv.DictReader(file))
    now = value(pipes)
    losses = sorted(
        ((now - value(pipes, pipe["pipe"]), -at) for at, pipe in enumerate(pipes)), reverse=True
    )[:10]
    gains = {pipe: value(pipes, pipe, 40) for pipe in ("North rise", "Mill Lane", "South main")}
    best = max(gains, key=lambda pipe: gains[pipe])
    with tempfile.TemporaryDirectory() as folder:
        picture = Path(folder) / "best.svg"
        words = [sys.executable, "worst.py", str(picture)]
        path = f"{CLIENT}:{os.environ.get('PYTHONPATH', '')}"
        ran = subprocess.run(
            words,
            cwd=FOLDER,
            env={**os.environ, "PYTHONPATH": path},
            capture_output=True,
            text=True,
        )
        assert (ran.returncode, ran.stderr) == (0, "")
        if shutil.which("dot"):
            assert best in picture.read_text()
    lines = ran.stdout.splitlines()
    assert lines[0] == f"now: {now} litres per second"
    told = [re.split(r"\s{2,}", line.strip()) for line in lines[2:12]]
    assert told == [[pipes[-at]["pipe"], str(loss)] for loss, at in losses]
    assert lines[12:15] == [f"{pipe} with 40 more: {gains[pipe]}" for pipe in gains]
    assert lines[15:] == [f"the best is {best}: {gains[best]} litres per second"]
