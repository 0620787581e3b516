"""What is saved of the table of her_table.py is read back by each tool, in the table's numbers and
unit."""

from __future__ import annotations

import csv
import subprocess
from pathlib import Path

import pytest
from built import BUILT
from desk_shared import run
from dmf.text.problem_text import read_problem
from her_runs import judge_picture, judge_table, planned, put_problem, solved
from her_table import PIPES, VALUE, told


@pytest.fixture(scope="module")
def folder(tmp_path_factory: pytest.TempPathFactory) -> Path:
    """A folder with the table, its limits and its problem."""
    made = tmp_path_factory.mktemp("numbers")
    put_problem(made)
    return made


def test_what_is_saved_is_read_back(folder: Path, tmp_path: Path) -> None:
    """A problem that was saved says all of its table, and each tool tells the same of it. So does
    the text of a session."""
    files = [tmp_path / f"again.{kind}" for kind in ("max", "csv", "dot")]
    typed = "".join(f"{'draw' if file.suffix == '.dot' else 'save'} {file}\n" for file in files)
    assert planned(folder, f"solve\n{typed}", f"{folder}/pipes.max").returncode == 0
    problem, table, drawn = (file.read_text() for file in files)
    assert problem == (folder / "pipes.max").read_text()
    judge_table(table)
    judge_picture(drawn)
    for said in (
        "c capacities are those of the table times 100",
        "c unit l/s",
        "c decimal sign ,",
        "c table pipes.csv",
        "c inner node 7 half 2",
    ):
        assert f"{said}\n" in problem
    printed = subprocess.run(
        [BUILT, "session", folder / "pipes.max"],
        input="close 1\nprint problem\n",
        capture_output=True,
        check=True,
        text=True,
    ).stdout
    named = run("dmf-names", f"{folder}/pipes.max", typed=printed).stdout.partition("\n")[2]
    again = read_problem(named.encode()).described
    before = read_problem((folder / "pipes.max").read_bytes()).described
    assert (again.measure, again.joints, again.halves) == (
        before.measure,
        before.joints,
        before.halves,
    )
    assert again.roles == {number - 1: role for number, role in before.roles.items()}


def test_a_session_by_names(folder: Path, tmp_path: Path) -> None:
    """The numbers of replies, and of commands in a transcript, are told in the table's terms beside
    them."""
    commands = "solve\ncap 6 1015\nsolve\n"
    ran = subprocess.run(
        [BUILT, "session", "--brief", folder / "pipes.max"],
        input=commands,
        capture_output=True,
        check=True,
        text=True,
    )
    (tmp_path / "commands").write_text(commands)
    lines = run(
        "dmf-names",
        f"{folder}/pipes.max",
        "--commands",
        str(tmp_path / "commands"),
        typed=ran.stdout,
    ).stdout.splitlines()
    assert lines[:2] == [
        f"value {told(VALUE)} l/s",
        f"c cap value {VALUE * 100} ({told(VALUE)} l/s)",
    ]
    replies = ran.stdout.splitlines()
    transcript = "".join(
        f"{line}\n" for pair in zip(commands.splitlines(), replies) for line in pair
    )
    lines = run("dmf-names", f"{folder}/pipes.max", typed=transcript).stdout.splitlines()
    assert lines[2] == "cap 6 1015 (10.15 l/s)"


def test_a_plan_is_a_table(folder: Path, tmp_path: Path) -> None:
    """The saved plan is read as a table: the same numbers, unit, names, sources and limits."""
    ran = planned(folder, f"solve\nsave {tmp_path}/plan.csv\n", f"{folder}/pipes.max")
    assert ran.stdout.splitlines()[-1] == f"written: {tmp_path}/plan.csv"
    ran = run(
        "dmf-plan",
        f"{tmp_path}/plan.csv",
        typed=f"solve\nsave {tmp_path}/again.csv\nsave {tmp_path}/again.max\n",
    )
    assert ran.stdout.splitlines()[0].startswith(f"value {told(VALUE)} l/s, ")
    assert (tmp_path / "again.csv").read_text() == (tmp_path / "plan.csv").read_text()
    assert (tmp_path / "again.max").read_text() == (folder / "pipes.max").read_text().replace(
        "table pipes.csv", "table plan.csv"
    )
    named = run("dmf-names", f"{folder}/pipes.max", "--csv", typed=solved(folder))
    assert (named.stdout, named.stderr) == ((tmp_path / "plan.csv").read_text(), "")


def test_a_point(folder: Path, tmp_path: Path) -> None:
    """Where the table's decimal sign is a point, typed and saved numbers have it too, and commas
    part the cells."""
    path = tmp_path / "point.max"
    path.write_text((folder / "pipes.max").read_text().replace("sign ,", "sign ."))
    ran = planned(
        folder,
        f"solve\ncap Exit 1,200\nundo\ncap Exit 47,3\nundo\nsave {tmp_path}/plan.csv\nsteps\n",
        str(path),
    )
    assert (ran.returncode, ran.stderr) == (0, "")
    assert "Exit carries 47.3 l/s" in ran.stdout
    rows = list(csv.reader((tmp_path / "plan.csv").open()))
    assert [row[5] for row in rows[1:] if row[3]] == [told(pipe.capacity) for pipe in PIPES]
    swept = run("dmf-sweep", str(path), "--close-each", "--top", "1").stdout.splitlines()
    assert swept[1].split(",")[3:5] == ["0", f"-{told(VALUE)}"]


@pytest.mark.parametrize("scale", ["60", "0.3"])
def test_no_finite_numbers(folder: Path, tmp_path: Path, scale: str) -> None:
    """Numbers that are no finite decimals divided by the scale are told as they are, and the unit
    says so."""
    path = tmp_path / "sixty.max"
    path.write_text((folder / "pipes.max").read_text().replace("times 100\n", f"times {scale}\n"))
    ran = planned(folder, f"solve\ncap Exit 1.5\nsave {tmp_path}/plan.csv\n", str(path))
    assert ran.stdout.startswith(f"value {VALUE * 100} l/s times {scale}, ")
    assert ran.stderr == "dmf-plan: line 2: 1.5 has 1 decimal, and 0 are the most here\n"
    titles = (tmp_path / "plan.csv").read_text().splitlines()[0]
    assert f"flow (l/s times {scale});capacity (l/s times {scale})" in titles
