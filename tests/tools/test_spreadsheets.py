"""Names that a spreadsheet would run as formulas: each writer protects them, each reader takes that
off again, and numbers stay numbers."""

from __future__ import annotations

import csv
import io
import re
from pathlib import Path

import pytest
from desk_shared import run
from dmf.desk.export import table
from dmf.desk.workspace import Desk
from dmf.quantity import Measure
from dmf.tables.arcs_and_places import read_arcs
from dmf.tables.csv_file import csv_sheet
from dmf.tables.loader import LoadedProblem
from dmf.tables.sheet import cell_of, line, name_in
from dmf.tables.table_file import ReadOptions
from dmf.tables.table_writer import ArcRow, plan_table
from hypothesis import given
from hypothesis import strategies as some
from tool_runs import Tools

# The characters that OWASP names in its page on CSV injection, and their wide forms.
DANGEROUS = tuple("=+-@\t\r\n＝＋－＠")
# Worked by hand: a name, and its cell.
CELLS = {
    '=HYPERLINK("x")': '\'=HYPERLINK("x")',
    "+1": "'+1",
    "-5": "'-5",
    "@a": "'@a",
    "＝1": "'＝1",
    "'=a": "''=a",
    "''-a": "'''-a",
    "'a": "'a",
    "'": "'",
    "''": "''",
    "a=b": "a=b",
    "5": "5",
    "": "",
    "' =a": "' =a",
    "-": "'-",
}
NAMES = some.text(
    some.one_of(
        some.sampled_from([*DANGEROUS, "'", "a", '"', ",", " "]),
        some.characters(blacklist_categories=["Cs"]),
    ),
    max_size=8,
)
FORMULA = '=HYPERLINK("http://x/")'
# Each name begins with another dangerous character, some after apostrophes; the arcs have the
# numbers 1 to 6.
ODD = ["=1+2", "+a", "-5", "@a", "'=1+2", "''b"]
PROBLEM = f"c node 1 {FORMULA}\nc node 2 -sea\n" + "".join(
    f"c arc {at} {name}\n" for at, name in enumerate(ODD, 1)
)
PROBLEM += "p max 2 6\nn 1 s\nn 2 t\n" + "a 1 2 3\n" * 6


@pytest.mark.parametrize("name", CELLS)
def test_by_hand(name: str) -> None:
    assert (cell_of(name), name_in(CELLS[name])) == (CELLS[name], name)
    assert (cell_of(name, is_raw=True), name_in(CELLS[name], is_raw=True)) == (name, CELLS[name])


@given(NAMES)
def test_any_name(name: str) -> None:
    """It comes back, and its cell begins with no dangerous character, also as a reader of CSV finds
    it."""
    cell = cell_of(name)
    assert name_in(cell) == name
    assert not cell.startswith(DANGEROUS)
    assert [*csv.reader(io.StringIO(line([cell, -5, name]), newline=""))] == [[cell, "-5", name]]


@given(some.lists(NAMES, min_size=2, max_size=5, unique=True))
def test_names_differ(names: list[str]) -> None:
    """No two names have one cell."""
    assert len({*map(cell_of, names)}) == len(names)


@given(some.lists(NAMES, min_size=3, max_size=3))
def test_a_table_of_a_plan(names: list[str]) -> None:
    """A table that is written with any names is read with these, except that white space is one
    space there."""
    name, tail, head = (" ".join(re.sub("[^ -~＝＋－＠]", "", name).split()) or "x" for name in names)
    text = plan_table([ArcRow(1, name, tail, head, 3, 4, None)], Measure(), raw_names=False)
    titles = {"tail": "from", "head": "to", "capacity": "capacity", "name": "name"}
    table = read_arcs(csv_sheet(text.encode(), "", None, 3), ReadOptions(titles))
    places = list(table.places)
    assert [
        places[table.tails[0] - 1],
        places[table.heads[0] - 1],
        list(table.amounts.numbers),
        [*table.labels],
    ] == [tail, head, [4], [name]]


def names_of(text: str, *columns: int) -> list[list[str]]:
    return [[row[column] for column in columns] for row in list(csv.reader(io.StringIO(text)))[1:]]


def protected(is_raw: bool) -> list[str]:
    return ODD if is_raw else ["'=1+2", "'+a", "'-5", "'@a", "''=1+2", "''b"]


@pytest.mark.parametrize("is_raw", [False, True])
def test_dmf_names(tools: Tools, tmp_path: Path, is_raw: bool) -> None:
    answer = "s 18\n" + "f 1 2 3\n" * 6
    ran = tools.run(
        "dmf-names",
        tmp_path,
        ["problem", "--csv", *["--raw-names"] * is_raw],
        answer,
        {"problem": PROBLEM},
    )
    ends = [FORMULA, "-sea"] if is_raw else [f"'{FORMULA}", "'-sea"]
    assert names_of(ran.out.decode(), 1, 2, 3, 4) == [
        [name, *ends, "3"] for name in protected(is_raw)
    ]
    # Its answers that are no table have the names as they are.
    ran = tools.run("dmf-names", tmp_path, ["problem"], answer, {"problem": PROBLEM})
    assert ran.out.decode().splitlines()[1] == f"  1 =1+2, {FORMULA} -> -sea: 3 of 3"


@pytest.mark.parametrize("is_raw", [False, True])
def test_dmf_sweep(tmp_path: Path, is_raw: bool) -> None:
    """The loss is a number below 0."""
    (tmp_path / "net.max").write_text(PROBLEM)
    ran = run("dmf-sweep", str(tmp_path / "net.max"), "--close-each", *["--raw-names"] * is_raw)
    assert names_of(ran.stdout, 2, 4) == [[name, "-3"] for name in protected(is_raw)]


@pytest.mark.parametrize("is_raw", [False, True])
def test_dmf_plan(tmp_path: Path, is_raw: bool) -> None:
    """What it saves is read again by dmf-plan and dmf-problem, in the same form."""
    (tmp_path / "net.max").write_text(PROBLEM)
    raw = ["--raw-names"] * is_raw
    assert (
        run(
            "dmf-plan", str(tmp_path / "net.max"), *raw, typed=f"solve\nsave {tmp_path}/plan.csv\n"
        ).returncode
        == 0
    )
    text = (tmp_path / "plan.csv").read_text()
    assert [row[0] for row in names_of(text, 1)] == protected(is_raw)
    columns = ["--tail", "from", "--head", "to", "--capacity", "capacity", "--name", "name"]
    ran = run("dmf-problem", "--source", FORMULA, "--sink=-sea", *columns, *raw, typed=text)
    assert (ran.returncode, ran.stdout) == (0, PROBLEM)
    saved = f"solve\nsave {tmp_path}/again.csv\n"
    assert run("dmf-plan", str(tmp_path / "plan.csv"), *columns, *raw, typed=saved).returncode == 0
    assert (tmp_path / "again.csv").read_text() == text


def test_the_board() -> None:
    """Its plan.csv."""
    desk = Desk(LoadedProblem("a test", PROBLEM.encode()), with_solve=True)
    assert [row[0] for row in names_of(table(desk), 1)] == protected(is_raw=False)
    desk.end()


def test_one_place_in_two_forms(tools: Tools, tmp_path: Path) -> None:
    """It is told, since they may have been meant as two."""
    given = "'=a,b,3\n=a,b,4\n"
    ran = tools.run("dmf-problem", tmp_path, ["=a", "b"], given)
    told = (
        "dmf-problem: there are no titles: from column 1, to column 2, capacity column 3\n"
        "dmf-problem: warning: names that differ only in the apostrophe that protects = + - @ are "
        "one place: \"'=a\" is '=a'\n"
    )
    assert (ran.status, ran.err.decode()) == (0, told)
    ran = tools.run(
        "dmf-problem",
        tmp_path,
        ["--raw-names", "--source", "=a", "--source", "'=a", "--sink", "b"],
        given,
    )
    assert (ran.status, ran.err.decode(), ran.out.decode().splitlines()[3:5]) == (
        0,
        told.splitlines(keepends=True)[0],
        ["c node 1 '=a", "c node 2 b"],
    )


def test_numbers_are_not_protected() -> None:
    text = plan_table([ArcRow(1, "", "a", "b", -5, 5, True)], Measure(), raw_names=False)
    assert text.splitlines()[1] == "1,,a,b,-5,5,yes,yes"
