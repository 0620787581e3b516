"""A table whose project exists: the tools name the project, and how it is opened, and change
nothing of it."""

from __future__ import annotations

import shlex
import shutil
from pathlib import Path

import dmf
import pytest
from desk_shared import PIPES, ROOT, run, without


@pytest.mark.parametrize("folder", ["plain", "with space"])
def test_a_second_time(tmp_path: Path, folder: str) -> None:
    (tmp_path / folder).mkdir()
    table, project = tmp_path / folder / "pipes.csv", tmp_path / folder / "pipes.dmf.json"
    shutil.copy(ROOT / PIPES, table)
    notes = run("dmf-plan", str(table), typed="solve\n").stderr
    assert "project" not in notes
    ran = run("dmf-plan", str(table), "--keep", typed="close Bridge pipe\n")
    assert (ran.returncode, ran.stderr) == (0, notes)
    before = project.read_bytes()
    opening = f"open it with: dmf-plan {shlex.quote(str(project))}"
    for tool in "dmf-plan", "dmf-board":
        ran = run(tool, str(table), "--keep")
        assert (ran.returncode, ran.stdout) == (4, "")
        assert (
            ran.stderr == f"{tool}: {project} already exists; {opening.replace('dmf-plan', tool)}\n"
        )
    # Without it the table is shown as it is.
    ran = run("dmf-plan", str(table), typed="solve\n")
    assert (ran.returncode, ran.stderr) == (
        0,
        f"{notes}dmf-plan: a project of this table exists; {opening}\n",
    )
    assert ran.stdout.startswith("value 165")
    # The line that is named opens it.
    ran = run(*shlex.split(opening.partition(": ")[2]), typed="cut\n")
    assert (ran.returncode, ran.stderr) == (0, "")
    assert ran.stdout.startswith(f"limit {without('Bridge pipe')} ")
    with pytest.raises(
        dmf.ProjectFault,
        match="cannot be made: it already exists; open it, or choose another name$",
    ):
        dmf.new_project(table)
    assert project.read_bytes() == before
