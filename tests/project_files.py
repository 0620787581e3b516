"""A project with all that one can have, and what the tests of its file and its journal do with it.
"""

from __future__ import annotations

import os
from dataclasses import replace
from pathlib import Path
from typing import Any

import pytest
from dmf.desk.project.records import File, KeptStep, KeptTable, Project, Scenario
from dmf.desk.project.schema import said_scenario, said_step
from dmf.desk.project.storage import ProjectFile, created, opened
from dmf.desk.project.strict_json import ProjectFault

ARC = ("Mill", "Town", 'Main "pipe"\n2')
STEP = KeptStep(
    'close "it"\nnow',
    "47.3",
    (("close", ARC), ("cap", (*ARC, 2), "0.25"), ("shut", "Mill"), ("add", ("Mill", 7, ""), "12")),
)


def a_project() -> Project:
    """A project that has all that one can have."""
    table = KeptTable(
        File("t.csv", "00"),
        "Sheet 1",
        {"source": ["Mill"], "both_ways": True, "decimal": ","},
        {"sinks": File("s.csv", "11")},
        "l/s",
        "pipe",
        ["a note"],
    )
    project = Project(
        "ab",
        table,
        "p max 2 0\nn 1 s\nn 2 t\n",
        notes="for\nMay",
        positions={"Mill": (1.5, -2.0)},
        positions_from="drawing",
        moved={"Mill": (3.0, 4.25)},
    )
    scenarios = (
        Scenario("first", (STEP, STEP), 1, note='"so"', left_out=(STEP,)),
        Scenario("Flood \u00fc\udc80", (STEP,), 1, "first", 1),
    )
    return replace(project, scenarios=scenarios, present="first")


def made_project(folder: Path) -> str:
    """The path of a project that was made and closed."""
    path = str(folder / "water.dmf.json")
    created(path, a_project()).end()
    return path


def refused(path: str) -> str:
    """Why a project is not opened."""
    with pytest.raises(ProjectFault) as fault:
        opened(path)
    return str(fault.value)


def keep(file: ProjectFile, word: str, content: Any) -> None:
    """Does this to a project, as a desk does."""
    after = file.after(file.record, [(word, content)])
    file.write(file.record, after)
    file.record = after


def begun(path: str) -> ProjectFile:
    """The project with some acts in its journal, as a kill leaves it."""
    file = opened(path)
    keep(file, "step", said_step(STEP))
    keep(file, "new", said_scenario(Scenario("more")))
    keep(file, "note", "a note\nin two lines")
    return file


def left(file: ProjectFile) -> None:
    """Drops the lock, as a kill does."""
    assert file._journal
    os.close(file._journal._file)
