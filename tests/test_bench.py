"""The benchmark on small networks: each solver finds the same value on each family, and a wrong
value of any driver is noticed. What it measures is no test's business."""

from __future__ import annotations

import os
import re
import subprocess
from collections.abc import Iterator
from contextlib import contextmanager
from pathlib import Path

import pytest
from conftest import ROOT

FAMILIES = (
    "grid",
    "random",
    "road",
    "street",
    "bip",
    "ac",
    "rmf-wide",
    "wash-wide",
    "rmf-long",
    "wash-long",
)


# A town so small that no cell is late.
TOWN = ("--families", "road", "--arcs", "300", "--cases", "20", "--repeat", "1")


def bench(folder: Path, *words: str, script: str = "run") -> subprocess.CompletedProcess[str]:
    environment = {**os.environ, "DMF_BENCH_CACHE": str(folder)}
    return subprocess.run(
        [ROOT / "bench" / script, *words], env=environment, capture_output=True, text=True
    )


@pytest.mark.long
def test_drivers(tmp_path: Path) -> None:
    """A run ends with 1 where two solvers differ."""
    ran = bench(tmp_path, "--sizes", "1000", "--families", ",".join(FAMILIES), "--repeat", "1")
    assert ran.returncode == 0, ran.stderr
    head, _, *rows = [
        line.split(" | ")
        for line in ran.stdout.partition("\n| ")[2].partition("\n\n")[0].splitlines()
    ]
    assert [row[0].removeprefix("| ") for row in rows] == [f"{family} 1,000" for family in FAMILIES]
    assert len(head) > 10 and all(
        "".join(row).count("(") == len(head) - 3 for row in rows
    ), "each solver has a time beside a check's"


@pytest.mark.seconds(3)
def test_chart(tmp_path: Path) -> None:
    """The chart of README.md is what bench/chart draws of the tables in bench/README.md."""
    ran = bench(tmp_path, str(tmp_path / "speed.svg"), script="chart")
    assert ran.returncode == 0, ran.stderr
    kept = ROOT / "docs/pictures/speed.svg"
    assert (tmp_path / "speed.svg").read_bytes() == kept.read_bytes(), "bench/chart draws it anew"


@pytest.mark.parametrize(
    "script, words, told",
    [
        ("run", ["--families", "comb"], "no such family: comb"),
        ("run", ["--solvers", "dmf--any"], "no such solver: dmf--any"),
        ("vital", ["--towns", "road,town"], "no such family: town"),
    ],
)
def test_unknown_names(tmp_path: Path, script: str, words: list[str], told: str) -> None:
    ran = bench(tmp_path, *words, script=script)
    assert (ran.returncode, ran.stdout, ran.stderr.rstrip().endswith(told)) == (2, "", True)


def rows_of(text: str) -> list[list[str]]:
    """The cells of the rows of a table, without its head."""
    lines = [line.strip("| ").split(" | ") for line in text.splitlines() if line.startswith("| ")]
    return [cells for cells in lines if cells[0] != "network"]


@pytest.fixture(scope="module")
def worths(tmp_path_factory: pytest.TempPathFactory) -> Path:
    """The folder of the drivers of bench/vital, which agree."""
    folder = tmp_path_factory.mktemp("worths")
    ran = bench(folder, *TOWN, "--town-arcs", "60", script="vital")
    assert ran.returncode == 0, ran.stderr
    ((name, *cells),) = rows_of(ran.stdout)
    assert name == "road 300" and len(cells) == 9 and all(float(cell) >= 0 for cell in cells)
    assert re.search(r"worst pairs: \d\.\d+ in road 60, \d\.\d+ in street 60\.\n", ran.stdout)
    return folder


@contextmanager
def replaced(folder: Path, driver: str, script: str) -> Iterator[None]:
    """Let a script run in place of a driver, which it calls `right`."""
    program, right = folder / driver, folder / "right"
    program.rename(right)
    program.write_text(f"#!/bin/sh\nPATH={folder}:$PATH\n{script}\n")
    program.chmod(0o755)
    yield
    right.rename(program)


def worths_of(folder: Path, *words: str) -> subprocess.CompletedProcess[str]:
    return bench(folder, *TOWN, *words, script="vital")


def fault(ran: subprocess.CompletedProcess[str]) -> str:
    assert ran.returncode == 1 and ran.stdout == ""
    return ran.stderr.splitlines()[-1]


@pytest.mark.seconds(15)
@pytest.mark.parametrize("what", ["cases", "arcs", "nodes", "second", "worst", "pairs"])
def test_wrong_worths(worths: Path, what: str) -> None:
    """Each value that the library finds is more by one."""
    script = f"""[ $2 = {what} ] || exec right "$@"\nright "$@" | awk '{{ $NF += 1; print }}'"""
    with replaced(worths, "vital", script):
        ran = worths_of(worths, "--town-arcs", "60")
    assert fault(ran).startswith("failed: road-")


@pytest.mark.parametrize("driver", ["maxflow", "igraph"])
def test_wrong_peers(worths: Path, driver: str) -> None:
    """One value of another library is more by one."""
    with replaced(worths, driver, """right "$@" | awk 'NR == 9 { $NF += 1 } 1'"""):
        ran = worths_of(worths, "--towns", "")
    assert fault(ran).startswith("failed: road-300.max: without arc ")


def test_late_peers(worths: Path) -> None:
    """One is ended, and one has five of its twenty values after eight seconds."""
    with replaced(worths, "maxflow", "kill -XCPU $$"):
        ended = worths_of(worths, "--towns", "", "--limit", "8")
    with replaced(worths, "igraph", """right "$@" 2>&1 | head -n 5; echo cases 8 >&2"""):
        scaled = worths_of(worths, "--towns", "", "--limit", "8")
    assert (ended.returncode, scaled.returncode) == (0, 0), ended.stderr + scaled.stderr
    assert [rows_of(ran.stdout)[0][at] for ran, at in ((ended, 2), (scaled, 3))] == [
        "> 8",
        "32.0 (5)",
    ]
