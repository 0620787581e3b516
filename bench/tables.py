"""Write the tables of a run, in Markdown."""

from __future__ import annotations

import math
import os
import platform
import subprocess
from collections.abc import Iterable, Iterator, Sequence
from pathlib import Path

# The seconds and the KiB of a run; by solver; and by family and number of arcs.
Took = tuple[float, int]
Best = dict[str, Took]
Results = dict[tuple[str, int], Best]
# Stands for a run that exceeded the time limit.
LATE: Took = (math.inf, 0)


def machine() -> str:
    info = Path("/proc/cpuinfo").read_text().splitlines()
    model = next(
        (line.split(":")[1].strip() for line in info if line.startswith("model name")),
        platform.machine(),
    )
    system = next(
        line.split('"')[1]
        for line in Path("/etc/os-release").read_text().splitlines()
        if "PRETTY_NAME" in line
    )
    compiler = subprocess.run(
        ["g++", "-dumpfullversion"], capture_output=True, text=True
    ).stdout.strip()
    load = os.getloadavg()[1]
    return f"{os.cpu_count()} x {model}, {system}, g++ {compiler} -O2; load {load:.1f} at the end."


def table(head: Sequence[object], rows: Iterable[Sequence[object]]) -> str:
    first, *lines = ("| " + " | ".join(map(str, row)) + " |" for row in [head, *rows])
    return "\n".join([first, "|---" + "|--:" * (len(head) - 1) + "|", *lines])


def seconds(took: float) -> str:
    return f"{took:.3f}" if took < 0.1 else f"{took:.2f}" if took < 10 else f"{took:.1f}"


def time_cell(took: Took | None, best: float, limit: int, name: str) -> str:
    if took is None:
        return ""
    if took == LATE:
        return f"> {limit}"
    if name == "dmf check":
        return seconds(took[0])
    return f"{seconds(took[0])} ({took[0] / best:.1f})"


def solving(best: Best, name: str) -> float | None:
    """Return the seconds of a run that solved the network, if it did."""
    took = best.get(name, LATE)
    return took[0] if name != "dmf check" and took != LATE else None


def time_rows(results: Results, names: Sequence[str], limit: int) -> Iterator[list[str]]:
    for (family, arcs), best in results.items():
        least = min((took for name in names if (took := solving(best, name))), default=math.inf)
        yardstick = min(solving(best, "phases") or math.inf, solving(best, "tree") or math.inf)
        dmf = solving(best, "dmf")
        ratio = f"{dmf / yardstick:.2f}" if dmf and yardstick < math.inf else ""
        yield [
            f"{family} {arcs:,}",
            *(time_cell(best.get(name), least, limit, name) for name in names),
            ratio,
        ]


def memory_rows(results: Results, names: Sequence[str]) -> Iterator[list[str]]:
    for (family, arcs), best in results.items():
        if arcs < 100_000:
            continue
        kept = [best.get(name) for name in names]
        cells = [f"{took[1] * 1024 / arcs:.0f}" if took and took != LATE else "" for took in kept]
        yield [f"{family} {arcs:,}", *cells]


def text(results: Results, names: Sequence[str], repeat: int, limit: int, patience: int) -> str:
    """Return the tables of the measurements, by family and number of arcs and then by solver."""
    parts = [
        f"Measured on {machine()}",
        f"Seconds to read, solve and write, the least of {repeat} runs (one, where it took more "
        f"than {patience} s; `> {limit}`: "
        "not done by then, here or on a smaller network of the family). After them the ratio to "
        "the quickest of the row.",
        table(["network", *names, "`dmf` to yardstick"], time_rows(results, names, limit)),
        "Peak memory in bytes for each arc, from 100,000 arcs on.",
        table(["network", *names], memory_rows(results, names)),
    ]
    return "\n\n".join(parts)


def put(file: Path, text: str, begin: str, end: str) -> None:
    """Put a text between two marks in a file."""
    before, _, rest = file.read_text().partition(begin)
    file.write_text(f"{before}{begin}\n\n{text}\n\n{end}{rest.partition(end)[2]}")
