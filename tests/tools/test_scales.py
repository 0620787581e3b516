"""What is written of decimal numbers has them as the table does, with their unit, in every tool
that they go through; and of whole numbers without a unit nothing but these is written."""

from __future__ import annotations

import csv
import io
from pathlib import Path

import pytest
from client_shared import dmf
from desk_shared import run
from dmf.desk.export import picture_text
from dmf.desk.pictures.picture import Picture
from dmf.desk.workspace import Desk
from dmf.tables.loader import LoadedProblem
from dmf.text.problem_text import read_problem
from tool_runs import Tools

TABLE = "from,to,litres,name\nA,B,14.7,pipe\nA,B,0.06,\n"
SCALE = "c capacities are those of the table times 100\n"
# 14.7 and 0.06, a hundred times.
PROBLEM = (
    f"{SCALE}c node 1 A\nc node 2 B\nc arc 1 pipe\np max 2 2\nn 1 s\nn 2 t\na 1 2 1470\na 1 2 6\n"
)
PLAIN = PROBLEM.removeprefix(SCALE)
# The same of a table of a unit.
IN_LITRES = f"{SCALE}c unit litres\nc table pipes.csv\n{PLAIN}"
ANSWER = "s 1476\nf 1 2 1470\nf 1 2 6\n"
LEGEND = "numbers in litres, from pipes.csv"
TITLES = ["flow (litres)", "capacity (litres)"]


def test_dmf_problem(tools: Tools, tmp_path: Path) -> None:
    for scale, wanted in [("100", PROBLEM), ("100.0", PROBLEM.replace("100\n", "100.0\n", 1))]:
        ran = tools.run("dmf-problem", tmp_path, ["--scale", scale, "A", "B"], TABLE)
        assert (ran.status, ran.out.decode()) == (
            0,
            wanted.replace("c node", "c unit litres\nc node", 1),
        )
    # A scale of 1 changes no number.
    whole = TABLE.replace("14.7", "1470").replace("0.06", "6")
    unscaled: list[list[str]] = [[], ["--scale", "1"], ["--scale", "1.0"]]
    for words in unscaled:
        assert (
            tools.run("dmf-problem", tmp_path, [*words, "A", "B"], whole).out.decode()
            == "c unit litres\n" + PLAIN
        )
    ran = tools.run("dmf-problem", tmp_path, ["--scale", "0.00000001", "A", "B"], "A,B,300000000\n")
    assert (
        ran.out.decode().splitlines()[0] == "c capacities are those of the table times 0.00000001"
    )


def test_dmf_names(tools: Tools, tmp_path: Path) -> None:
    def told(problem: str, answer: str, *words: str) -> str:
        ran = tools.run("dmf-names", tmp_path, ["problem", *words], answer, {"problem": problem})
        assert (ran.status, ran.err) == (0, b"")
        return ran.out.decode()

    assert told(PLAIN, ANSWER) == "value 1476\n  1 pipe, A -> B: 1470 of 1470\n  2 A -> B: 6 of 6\n"
    assert (
        told(PROBLEM, ANSWER)
        == "value 14.76\n  1 pipe, A -> B: 14.7 of 14.7\n  2 A -> B: 0.06 of 0.06\n"
    )
    assert told(IN_LITRES, ANSWER) == told(PROBLEM, ANSWER).replace("14.76\n", "14.76 litres\n")
    table = list(csv.reader(io.StringIO(told(IN_LITRES, ANSWER, "--csv"))))
    assert table == [
        ["number", "name", "from", "to", *TITLES, "full", "in cut"],
        ["1", "pipe", "A", "B", "14.7", "14.7", "yes", ""],
        ["2", "", "A", "B", "0.06", "0.06", "yes", ""],
    ]
    printed = PLAIN[PLAIN.index("p max") :]
    for problem in PROBLEM, IN_LITRES:
        assert told(problem, printed) == problem


def test_dmf_dot(tools: Tools, tmp_path: Path) -> None:
    def drawn(problem: str) -> str:
        return tools.run(
            "dmf-dot", tmp_path, ["problem", "-"], ANSWER, {"problem": problem}
        ).out.decode()

    plain = drawn(PLAIN)
    assert drawn(PROBLEM) == plain.replace("1470/1470", "14.7/14.7").replace("6/6", "0.06/0.06")
    rest = [
        line for line in drawn(IN_LITRES).splitlines() if line not in drawn(PROBLEM).splitlines()
    ]
    assert rest == [f'  label="{LEGEND}"']


def test_the_package(tmp_path: Path) -> None:
    """A network that is read keeps the scale, and so do its copies and pictures."""
    (tmp_path / "net.max").write_text(PROBLEM)
    with dmf.read(tmp_path / "net.max") as network:
        assert (network.scale, network.problem()) == ("100", PROBLEM)
        assert network.problem(names=False) == SCALE + PLAIN[PLAIN.index("p max") :]
        copy = network.copy()
        assert (
            copy.problem(),
            read_problem(copy.problem().encode()).described.measure.scale == 100,
        ) == (PROBLEM, True)
        copy.end()
        assert network._look(set())().drawing.amount(0) == "0/14.7"
    with dmf.Network([("A", "B", 3)], "A", "B") as network:
        assert (network.scale, network.problem().startswith("c node 1 A\n")) == ("", True)


def test_dmf_sweep(tmp_path: Path) -> None:
    path = tmp_path / "net.max"

    def swept(problem: str, *words: str) -> list[list[str]]:
        path.write_text(problem)
        ran = run("dmf-sweep", str(path), "--close-each", *words)
        assert (ran.returncode, ran.stderr) == (0, "")
        return list(csv.reader(io.StringIO(ran.stdout)))

    assert swept(PLAIN) == [
        ["case", "commands", "name", "value", "difference", "refused"],
        ["1", "close 1", "pipe", "6", "-1470", ""],
        ["2", "close 2", "A -> B", "1470", "-6", ""],
    ]
    head, *rows = swept(IN_LITRES)
    assert head == ["case", "commands", "name", "value (litres)", "difference (litres)", "refused"]
    assert [row[3:5] for row in rows] == [["0.06", "-14.7"], ["14.7", "-0.06"]]
    assert swept(PROBLEM)[1:] == rows
    assert swept(IN_LITRES, "--top", "1") == [head, rows[0]]
    table = tmp_path / "table.csv"
    swept(IN_LITRES, "--table", str(table))
    assert list(csv.reader(table.open()))[0] == [*head, "problem"]
    whole = table.read_text()
    table.write_text("".join(whole.splitlines(keepends=True)[:2]))
    swept(IN_LITRES, "--table", str(table))
    assert table.read_text() == whole
    path.write_text(PLAIN)
    ran = run("dmf-sweep", str(path), "--close-each", "--table", str(table))
    assert (ran.returncode, ran.stderr, table.read_text()) == (
        3,
        f"dmf-sweep: {table} is the table of another problem, not of {path}\n",
        whole,
    )


@pytest.mark.parametrize("is_table", [False, True])
def test_dmf_plan(tmp_path: Path, is_table: bool) -> None:
    """A table of decimal numbers, and the problem that was made of it, are told and saved in its
    numbers, and with the scale of the problem."""
    path = tmp_path / ("pipes.csv" if is_table else "pipes.max")
    path.write_text(TABLE if is_table else IN_LITRES)
    files = [f"{tmp_path}/plan.{kind}" for kind in ("csv", "max", "dot")]
    typed = f"solve\nsave {files[0]}\nsave {files[1]}\ndraw {files[2]}\n"
    ran = run("dmf-plan", str(path), *["--scale", "100", "A", "B"] * is_table, typed=typed)
    taken = "dmf-plan: from 'from', to 'to', capacity 'litres', name 'name'\n"
    assert (ran.returncode, ran.stderr) == (0, taken * is_table)
    assert ran.stdout.startswith("value 14.76 litres, 14.76 more, the greatest\n")
    table, problem, drawn = (Path(file).read_text() for file in files)
    assert table.splitlines()[:2] == [
        f"number,name,from,to,{','.join(TITLES)},full,in cut",
        "1,pipe,A,B,14.7,14.7,yes,yes",
    ]
    assert [
        line for line in problem.splitlines() if not line.startswith("c decimal sign")
    ] == IN_LITRES.splitlines()
    assert f'  label="{LEGEND}"\n' in drawn


@pytest.mark.parametrize("problem", [PLAIN, IN_LITRES])
def test_pictures_of_a_desk(problem: str) -> None:
    """Those of a board, too."""
    desk = Desk(LoadedProblem("a test", problem.encode()), with_solve=True)
    amounts = "1470/1470" if problem == PLAIN else "14.7/14.7"
    for drawn in picture_text(desk), Picture(desk).svg((), [1, 2], to_take=True):
        assert (LEGEND in drawn, amounts in drawn) == (problem != PLAIN, True)
    desk.end()
