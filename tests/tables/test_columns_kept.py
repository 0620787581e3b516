"""The columns of a table that no tool reads come back from all that is written of it, and places of
one name stay apart."""

from __future__ import annotations

import argparse
import csv
import sys
import tracemalloc
from collections.abc import Callable
from fractions import Fraction
from pathlib import Path
from types import FrameType
from typing import Any

import pytest
from client_shared import dmf
from desk_shared import run
from dmf.desk.export import problem, table
from dmf.desk.workspace import Desk
from dmf.tables import other_columns as extra
from dmf.tables.loader import LoadedProblem, read_subject
from dmf.tables.other_columns import Extra, extra_in, left_out
from dmf.tools.options import add_words, words_of
from hypothesis import given
from hypothesis import strategies as some
from made_tables import made

# What a cell can have, odd characters among it.
CELLS = some.text(
    some.one_of(some.sampled_from('"\\ \t\r\n\ufeff\u2028c'), some.characters()), max_size=6
)
PROBLEM = "p max 2 3\nn 1 s\nn 2 t\n" + "a 1 2 3\n" * 3


def subject_of(path: Path, *words: str) -> LoadedProblem:
    parser = argparse.ArgumentParser()
    add_words(parser)
    return read_subject(words_of(parser, [str(path), *words]))


def cells(columns: Extra, count: int) -> list[list[str]]:
    return [columns.of(number) for number in range(1, count + 1)]


@given(
    some.lists(CELLS, min_size=2, max_size=2),
    some.lists(some.lists(CELLS, min_size=2, max_size=2), min_size=3, max_size=3),
)
def test_any_cell(titles: list[str], rows: list[list[str]]) -> None:
    """Each text comes back from the comments of a problem, and each comment is one line."""
    columns = Extra(titles, [[row[place] for row in rows] for place in range(2)])
    text = columns.comments([1, 2, 3])
    assert all(line.startswith("c c") for line in text.split("\n")[:-1])
    again = extra_in((text + PROBLEM).encode())
    assert ([*again.titles], cells(again, 3)) == (titles, rows)


@pytest.mark.parametrize(
    "line",
    [
        "c column 0 x",
        "c column x y",
        "c column 1",
        " c column 1 x",
        "c columns 1 x",
        "c cell 1 1 x",
        "c column 9999999999 x",
    ],
)
def test_other_comments(line: str) -> None:
    assert extra_in(f"{line}\nc cell 2 1 y\n{PROBLEM}".encode()).titles == []


def test_the_first_counts() -> None:
    """Cells of no arc and of no column count for nothing, and what is no text of JSON stands as it
    is."""
    text = (
        'c column 2 b\nc column 1 "a\nc column 1 z\nc cell 1 2 x\nc cell 1 2 y\nc cell 9 2 far\nc '
        'cell 1 7 none\nc cell 3 1 "\\u00e4"\r\n'
    )
    again = extra_in((text + PROBLEM).encode())
    assert ([*again.titles], cells(again, 3)) == (
        ['"a', "b"],
        [["", "x"], ["", ""], ["\u00e4", ""]],
    )


@pytest.mark.parametrize("seed", range(12))
def test_problems_of_tables(tmp_path: Path, seed: int) -> None:
    """A problem that leaves a desk, `dmf-problem` or Python gives the table that the desk of the
    table itself writes, cell by cell."""
    given_rows, path = made(seed).rows, tmp_path / "t.csv"
    path.write_text(made(seed).text(","))
    desk = Desk(subject_of(path, "--decimal", ","), with_solve=True)
    wanted, columns = table(desk), [[row.cost, row.remark] for row in given_rows]
    (tmp_path / "desk.max").write_text(problem(desk))
    desk.end()
    supply, demand = (
        next(place for kind, place in made(seed).said if kind == it) for it in ("supply", "demand")
    )
    opened: Any = dmf.read_table(path, decimal=",")
    with opened as network:
        network.write(tmp_path / "python.max")
        assert [list(row) for row in zip(*network.extra.values())] == columns
    ran = run(
        "dmf-problem",
        "--table",
        str(path),
        "--decimal",
        ",",
        *([] if made(seed).said else [supply, demand]),
    )
    assert ran.returncode == 0, ran.stderr
    (tmp_path / "tool.max").write_text(ran.stdout)
    for name in "desk.max", "python.max", "tool.max":
        subject = subject_of(tmp_path / name)
        assert cells(subject.extra, len(given_rows)) == columns
        desk = Desk(subject, with_solve=True)
        assert (table(desk), Fraction(desk.value)) == (wanted, made(seed).value())
        desk.end()
        read: Any = dmf.read(tmp_path / name)
        with read as network:
            assert [list(row) for row in zip(*network.extra.values())] == columns
            assert [*network.extra] == ["=Kosten", "full"]


def test_arcs_that_changed(tmp_path: Path) -> None:
    """Cells stay with their arc: where others were closed, where it was opened again, and where
    there is one more, which has none."""
    (tmp_path / "t.csv").write_text(
        "from,to,capacity,name,cost\nA,B,3,x,10\nB,C,4,y,20\nA,C,1,z,30\n"
    )
    opened: Any = dmf.read_table(tmp_path / "t.csv")
    with opened as network:
        network.close("y")
        for _ in range(2):
            network.close("x")
            network.open("x")
        network.add("A", "C", 2, "new")
        text = network.problem()
        assert "c c" not in network.problem(names=False)
    ran = run(
        "dmf-plan",
        f"{tmp_path}/t.csv",
        typed=f"close y\nclose x\nopen x\nclose x\nopen x\nadd A C 2 new\nsave {tmp_path}/p.max\n",
    )
    assert ran.returncode == 0, ran.stderr
    for written in text, (tmp_path / "p.max").read_text():
        (tmp_path / "again.max").write_text(written)
        again: Any = dmf.read(tmp_path / "again.max")
        with again as network:
            assert {
                arc.given_key: cost for arc, cost in zip(network.arcs, network.extra["cost"])
            } == {"z": "30", "x": "10", "new": ""}


def test_a_printed_problem(tmp_path: Path) -> None:
    """`dmf-names` gives a printed problem the cells of the arcs that it has."""
    (tmp_path / "t.csv").write_text("from,to,capacity,name,cost\nA,B,3,x,10\nB,C,4,y,20\n")
    (tmp_path / "commands").write_text("close 1\nprint problem\n")
    answer = (
        "c close value 0\n"
        f"{PROBLEM.replace('2 3', '3 1', 1).replace('n 2', 'n 3').partition('a 1')[0]}a 2 3 4\n"
    )
    ran = run("dmf-names", f"{tmp_path}/t.csv", "--commands", f"{tmp_path}/commands", typed=answer)
    assert "c column 1 cost\nc cell 1 1 20\np max" in ran.stdout, ran


@pytest.mark.parametrize("bound", ["MOST_TOLD", "MOST_CELLS", "MOST_COLUMNS"])
def test_more_than_a_problem_takes(
    tmp_path: Path, monkeypatch: pytest.MonkeyPatch, bound: str
) -> None:
    """Columns are left out, and the problem says so, as do those who open it."""
    columns = Extra(["cost", "two\nlines"], [["\u00e4" * 50, ""], ["", "x"]])
    cell_lines = [
        line for line in columns.comments([1, 2]).splitlines() if line.startswith("c cell ")
    ]
    size = {
        "MOST_TOLD": sum(len(line.encode()) + 1 for line in cell_lines),
        "MOST_CELLS": 2,
        "MOST_COLUMNS": 2,
    }[bound]
    monkeypatch.setattr(extra, bound, size)
    assert extra_in(columns.comments([1, 2]).encode()).of(2) == ["", "x"] and not left_out(
        columns.comments([1, 2]).encode()
    )
    monkeypatch.setattr(extra, bound, size - 1)
    assert columns.comments([1, 2]) == 'c columns left out: cost, "two\\nlines"\n'
    (tmp_path / "p.max").write_text("c table t.csv\n" + columns.comments([1, 2]) + PROBLEM)
    told = (
        "other columns of the table were left out when this problem was written: cost, "
        '"two\\nlines"'
    )
    assert subject_of(tmp_path / "p.max").notes == (told,)
    read: Any = dmf.read(tmp_path / "p.max")
    with read as network:
        assert network.notes == [told]


def lines_run(act: Callable[[], object]) -> int:
    """How many lines of Python an act runs, each as often as it is run."""
    count = 0

    def trace(_: FrameType, event: str, __: object) -> Any:
        nonlocal count
        count += event == "line"
        return trace

    before = sys.gettrace()
    sys.settrace(trace)
    try:
        act()
    finally:
        sys.settrace(before)
    return count


@pytest.mark.parametrize(
    "line", ["c cell {0} 1 x", "c cell 1 1 x", "c column {0} a", "c column 1 a"]
)
def test_very_many_comments(tmp_path: Path, line: str) -> None:
    """More of them than are read are left out: told, without a look at each and with nothing kept
    of them."""
    text = (
        "c column 1 a\n"
        + "".join(f"{line.format(number)}\n" for number in range(1, extra.MOST_CELLS + 2))
        + PROBLEM
    )
    tracemalloc.start()
    assert extra_in(text.encode()).titles == () and "none is kept" in left_out(text.encode())[0]
    _, peak = tracemalloc.get_traced_memory()
    tracemalloc.stop()
    data = text.encode()
    assert lines_run(lambda: extra_in(data)) + lines_run(lambda: left_out(data)) < 1_000
    assert peak < 3 * len(text)


def test_titles_that_are_the_same() -> None:
    """Each has a name of its own, by work that grows as their number does."""
    titles = ["a"] * 3 + ["a 2", "", "without title"] + ["b"] * 20_000
    columns, found = Extra(titles, [[]] * len(titles)), list[str]()
    assert lines_run(lambda: found.extend(columns.by_title([]))) < 50 * len(titles)
    assert found[:6] == ["a", "a 2", "a 3", "a 2 2", "without title", "without title 2"]
    assert (len(set(found)), found[-1]) == (len(titles), "b 20000")


@pytest.mark.parametrize(
    "rows",
    [
        ["A,B,3,r1,120,x", "B,C,4,r2,,y"],
        ["A,B,3,r1,,", "B,C,4,,,", "C,D,5,r3,7,8,9"],
        ['A,B,3,r1,120,"x', 'y"', "B,C,4,r2"],
    ],
)
def test_columns_of_a_table_without_titles(tmp_path: Path, rows: list[str]) -> None:
    """The columns past the fourth are kept, as far as one has something, and that is told."""
    (tmp_path / "t.csv").write_text("\n".join(rows) + "\n")
    words = [f"{tmp_path}/t.csv", "--capacity", "column 3"]
    ran = run("dmf-plan", *words, typed=f"save {tmp_path}/p.csv\n")
    assert ran.returncode == 0, ran.stderr
    given_rows = [row[4:] for row in csv.reader((tmp_path / "t.csv").open())]
    width = max(map(len, given_rows))
    wanted = [row + [""] * (width - len(row)) for row in given_rows]
    assert [row[8:] for row in csv.reader((tmp_path / "p.csv").open())] == [[""] * width, *wanted]
    assert (
        "there are no titles: from column 1, to column 2, capacity column 3, name column 4; kept: "
        f"column 5, column 6{', column 7' * (width == 3)}\n" in ran.stderr
    )


def test_no_more_columns_than_there_are(tmp_path: Path) -> None:
    (tmp_path / "t.csv").write_text("A,B,3,r1, ,\nB,C,4,r2,,\n")
    ran = run("dmf-plan", f"{tmp_path}/t.csv", typed=f"save {tmp_path}/p.csv\n")
    assert (
        "kept" not in ran.stderr
        and (tmp_path / "p.csv").read_text().splitlines()[1] == "1,r1,A,B,0,3,no,"
    )


# Nodes of one name: the same, but for blanks, but for a number that another has as its name, and
# with the name that one would get.
NAMESAKES = [
    ["Mid", "Mid"],
    ["Mid  x", "Mid x"],
    ["3", ""],
    ["Mid", "Mid", "Mid (node 2)"],
    ["=a", "=a"],
]


@pytest.mark.parametrize("names", NAMESAKES)
def test_places_of_one_name(tmp_path: Path, names: list[str]) -> None:
    """In a table they stay as many places, so that it has the flow of the problem, here by hand:
    each arc carries what it can."""
    count = len(names)
    text = "".join(f"c node {number} {name}\n" for number, name in enumerate(names, 2) if name)
    text += f"c node {count + 2} End\np max {count + 2} {2 * count}\nn 1 s\nn {count + 2} t\n"
    # Into each place 1, 2 and so on, out of it 3, 2 and so on.
    text += "".join(
        f"a 1 {number} {number - 1}\na {number} {count + 2} {4 - number + 1}\n"
        for number in range(2, count + 2)
    )
    (tmp_path / "t.max").write_text(text)
    value = sum(min(number, 4 - number) for number in range(1, count + 1))
    ran = run("dmf-plan", f"{tmp_path}/t.max", typed=f"solve\nsave {tmp_path}/p.csv\n")
    assert ran.returncode == 0 and ran.stdout.startswith(f"value {value}, "), ran
    answer = f"s {value}\n" + "".join(
        f"f {tail} {head} {flow}\n" for tail, head, flow in flows(count)
    )
    (tmp_path / "n.csv").write_text(
        run("dmf-names", f"{tmp_path}/t.max", "--csv", typed=answer).stdout
    )
    for saved in "p.csv", "n.csv":
        read: Any = dmf.read_table(tmp_path / saved)
        with read as network:
            assert (len(network.nodes), network.solve().value) == (count + 2, value)


def flows(count: int) -> list[tuple[int, int, int]]:
    """A greatest flow of that problem, in the order of its arcs."""
    return [
        end
        for number in range(1, count + 1)
        for flow in [min(number, 4 - number)]
        for end in ((1, number + 1, flow), (number + 1, count + 2, flow))
    ]
