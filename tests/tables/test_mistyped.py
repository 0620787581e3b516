"""What a planner mistypes on the command line: each is refused with what would do."""

from __future__ import annotations

from pathlib import Path

import pytest
import town_table as town
from desk_shared import run

TOOLS: dict[str, list[str]] = {
    "dmf-plan": [],
    "dmf-board": ["--no-browser"],
    "dmf-names": [],
    "dmf-dot": [],
    "dmf-sweep": ["--close-each"],
}
MISSING = "No such file or directory; is it"


@pytest.fixture(scope="module")
def folder(tmp_path_factory: pytest.TempPathFactory) -> Path:
    """A folder with a blank and an umlaut in its name, in which a workbook and a table are, and
    marks that programs have them open."""
    path = tmp_path_factory.mktemp("Büro Pläne")
    town.put(path)
    town.save_xlsx(path / "netz.xlsx")
    for mark in "~$netz.xlsx", ".~lock.netz.csv#":
        (path / mark).write_bytes(b"\x04Anna" + bytes(160))
    (path / "ordner.csv").mkdir()
    return path


@pytest.mark.parametrize(
    ("name", "status", "told"),
    [
        ("netz.xls", 4, f"cannot read {{0}}/netz.xls: {MISSING} 'netz.xlsx' or 'netz.csv'?"),
        ("ordner.csv", 4, "cannot read {0}/ordner.csv: Is a directory"),
        (
            "netz.csv#Rohre",
            3,
            "{0}/netz.csv: a CSV file has no sheets, and so none that is called 'Rohre'; name the "
            "file alone",
        ),
        (
            "netz.xlsx#Rohr",
            3,
            "{0}/netz.xlsx: no sheet is called 'Rohr'; the sheets are 'Notizen', 'Rohre', 'Orte'",
        ),
        (
            "~$netz.xlsx",
            3,
            "{0}/~$netz.xlsx: it only marks that a program has 'netz.xlsx' open: name that file",
        ),
        (
            ".~lock.netz.csv#",
            3,
            "{0}/.~lock.netz.csv#: it only marks that a program has 'netz.csv' open: name that "
            "file",
        ),
    ],
)
def test_files(folder: Path, name: str, status: int, told: str) -> None:
    ran = run("dmf-plan", f"{folder}/{name}", typed="solve\n")
    assert (ran.returncode, ran.stdout, ran.stderr) == (
        status,
        "",
        f"dmf-plan: {told.format(folder)}\n",
    )


@pytest.mark.parametrize("tool", TOOLS)
def test_files_of_each_tool(folder: Path, tool: str) -> None:
    """The same of a table, and of one beside it."""
    table, ends = f"{folder}/netz.csv", ["--source", "Quelle Nord", "--sink", town.SINK]
    for words, missing in ([f"{folder}/nets.csv"], "nets.csv"), (
        [table, *ends, "--node-limits", f"{folder}/grenze.csv"],
        "grenze.csv",
    ):
        ran = run(tool, *TOOLS[tool], *words)
        assert (
            ran.stderr.startswith(f"{tool}: cannot read {folder}/{missing}: {MISSING} '")
            and ran.stderr.count("\n") == 1
        )
        assert ran.returncode == 4


def test_sheets_in_another_case(folder: Path) -> None:
    """As workbooks have it, the case of a sheet's name makes no difference."""
    ran = run("dmf-plan", f"{folder}/netz.xlsx#ROHRE", typed="solve\n")
    assert ran.returncode == 0 and ran.stdout.startswith(f"value {float(town.wanted().value)} l/s")


@pytest.mark.parametrize("tool", TOOLS)
def test_options(folder: Path, tool: str) -> None:
    ran = run(tool, *TOOLS[tool], f"{folder}/netz.csv", "--decimel", ",")
    assert (ran.returncode, ran.stderr.splitlines()[-1]) == (
        2,
        f"{tool}: error: unrecognized arguments: --decimel ,; is it '--decimal'?",
    )


def test_a_path_without_quotes(folder: Path) -> None:
    """A shell makes several words of it."""
    ran = run("dmf-plan", *f"{folder}/netz.xlsx".split(" "))
    assert (ran.returncode, ran.stderr.splitlines()[-1]) == (
        2,
        f'dmf-plan: error: put a path with spaces in quotes: "{folder}/netz.xlsx"',
    )
