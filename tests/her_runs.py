"""Runs of the tools on the table of her_table.py, and what their tables and pictures must have."""

from __future__ import annotations

import csv
import io
import re
import subprocess
from fractions import Fraction
from pathlib import Path

from built import BUILT
from desk_shared import run
from her_table import (
    GIVEN,
    INNER,
    LET_THROUGH,
    LIMIT,
    LIMITS,
    PIPES,
    REMARKS,
    TABLE,
    VALUE,
    WORDS,
    number,
    told,
)
from limits import SECONDS


def put_problem(folder: Path) -> None:
    """Put the table and its limits into a folder, and the problem that dmf-plan makes of them."""
    (folder / "pipes.csv").write_text(TABLE)
    (folder / "limits.csv").write_text(LIMITS)
    ran = planned(folder, f"save {folder}/pipes.max\n")
    assert (ran.returncode, ran.stdout) == (0, f"written: {folder}/pipes.max\n")


def planned(folder: Path, typed: str, path: str = "") -> subprocess.CompletedProcess[str]:
    words = [path] if path else [str(folder / "pipes.csv"), *WORDS, str(folder / "limits.csv")]
    return run("dmf-plan", *words, typed=typed)


def solved(folder: Path) -> str:
    with open(folder / "pipes.max") as problem:
        return subprocess.run(
            [BUILT, "solve", "--cut"],
            stdin=problem,
            capture_output=True,
            check=True,
            timeout=SECONDS,
            text=True,
        ).stdout


def judge_flows(flows: dict[str, str]) -> None:
    """Each place passes on what comes to it, within what it lets through, and the sea gets all."""
    carried = {pipe.name: Fraction(flows[pipe.name]) for pipe in PIPES}
    assert all(0 <= carried[pipe.name] <= pipe.capacity for pipe in PIPES)
    into = {
        place: sum(carried[it.name] for it in PIPES if it.head == place)
        for place in ("Weir", "Town", "Port", "Sea")
    }
    out = {
        place: sum(carried[it.name] for it in PIPES if it.tail == place)
        for place in ("Weir", "Town", "Port")
    }
    assert (
        out == {place: into[place] for place in out}
        and into["Sea"] == VALUE
        and into["Weir"] <= LET_THROUGH["Weir"]
    )
    assert carried["Side"] <= GIVEN["New Mill"]


def judge_table(text: str) -> None:
    found = list(csv.DictReader(io.StringIO(text), delimiter=";"))
    assert (
        text.splitlines()[0]
        == "number;name;from;to;flow (l/s);capacity (l/s);full;in cut;supply (l/s);demand "
        "(l/s);limit (l/s);Bemerkung"
    )
    rows, places = [row for row in found if row["to"]], [row for row in found if not row["to"]]
    flows = {row["name"]: row["flow (l/s)"].replace(",", ".") for row in rows}
    judge_flows(flows)
    # Below the pipes stand the places, and what they give, take and let through. The sink is no
    # arc, so it has no number and no flow.
    assert {row["name"]: row["Bemerkung"] for row in rows} == REMARKS
    assert [[row["from"], *[*row.values()][5:-1]] for row in places] == [
        ["Mill", "", "no", "no", "x", "", ""],
        [
            "New Mill",
            "",
            "yes" if Fraction(flows["Side"]) == GIVEN["New Mill"] else "no",
            "no",
            "20,05",
            "",
            "",
        ],
        ["Sea", "", "", "", "", "x", ""],
        ["Weir", "", "no", "no", "", "", "55,5"],
    ]
    given = {row["from"]: row["flow (l/s)"].replace(",", ".") for row in places}
    assert given == {
        "Mill": flows["Main"],
        "New Mill": flows["Side"],
        "Weir": told(VALUE),
        "Sea": "",
    }
    assert {row["name"] for row in places} == {""}
    assert [
        (row["from"], row["to"], number(row["capacity (l/s)"]), row["name"]) for row in rows
    ] == PIPES
    assert {row["name"] for row in rows if row["in cut"] == "yes"} == LIMIT


def judge_picture(text: str) -> None:
    assert '  label="numbers in l/s, from pipes.csv"\n' in text and not any(
        word in text for word in INNER
    )
    judge_flows(
        {
            found[1]: found[2]
            for found in re.finditer(r' -> [0-9]+ \[label="([^"]*)\\n([0-9.]+)/[0-9.]+"', text)
        }
    )
    nodes = re.findall(r'^  [0-9]+ \[label="([^"]*)"', text, re.MULTILINE)
    assert sorted(re.sub(r" [0-9.]+(/|$)", r" .\1", node) for node in nodes) == [
        r"Mill\ngives .",
        r"New Mill\ngives ./20.05",
        "Port",
        "Sea",
        "Town",
        r"Weir\nlets through ./55.5",
    ]
