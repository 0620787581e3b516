"""What the desk and dmf-names write as a table is read again as what it was: cell by cell, and with
the same value, which a second computation finds too."""

from __future__ import annotations

import argparse
import csv
import random
import subprocess
from decimal import Decimal
from fractions import Fraction
from pathlib import Path
from typing import Any

import pytest
import town_table as town
from built import BUILT
from client_shared import dmf
from desk_shared import run
from dmf.desk.export import table
from dmf.desk.workspace import Desk
from dmf.tables.loader import LoadedProblem, read_subject
from dmf.tables.problem_networks import network_of_subject, whole_network
from dmf.tools.options import add_words, words_of
from made_tables import Row, made
from oracle import program


def subject_of(path: Path, *words: str) -> LoadedProblem:
    parser = argparse.ArgumentParser()
    add_words(parser)
    return read_subject(words_of(parser, [str(path), *words]))


def told(subject: LoadedProblem) -> tuple[list[Row], dict[tuple[str, str], Decimal | None]]:
    """What a table says, as it is read."""
    assert subject.plan
    arcs, extra = subject.plan.arcs, subject.extra
    names = list(arcs.places)
    labels = arcs.labels or [""] * len(arcs.tails)
    assert [*extra.titles] == ["=Kosten", "full"]
    rows = [
        Row(
            names[tail - 1],
            names[head - 1],
            arcs.amounts.quantity(at),
            labels[at],
            *extra.of(at + 1),
        )
        for at, (tail, head) in enumerate(zip(arcs.tails, arcs.heads))
    ]
    return rows, {(term.kind, term.place): term.quantity for term in subject.plan.counted}


def value_of(subject: LoadedProblem) -> Fraction:
    """The greatest value of a subject's problem, by the second implementation."""
    answer = program.run([b"solve"], subject.text).written
    assert isinstance(answer, bytes)
    return Fraction(subject.measure.quantity(int(answer.split()[1])))


def network_told(network: Any) -> list[Any]:
    """All that a network says of itself, and what its session has."""
    arcs = [(arc.given_key, arc.tail, arc.head, arc.capacity) for arc in network.arcs]
    kept = network._kept
    return [network.nodes, kept.source, kept.sink, arcs, kept.described, network._session.problem()]


@pytest.mark.parametrize("words", [[], ["--both-ways"], ["--scale", "1000"]])
@pytest.mark.parametrize("seed", range(12))
def test_no_text_is_written(tmp_path: Path, seed: int, words: list[str]) -> None:
    """The network that a desk makes of a table is that of its problem's text, and so are the names;
    and the text is the same whatever was changed before it is written."""
    path, sign = tmp_path / "t.csv", ",."[seed % 2]
    path.write_text(made(seed).text(sign))
    subject, other = (subject_of(path, "--decimal", sign, *words) for _ in range(2))
    with network_of_subject(subject) as now, whole_network(other.text) as wanted:
        assert network_told(now) == network_told(wanted)
    desks = [Desk(it, with_solve=True) for it in (subject, LoadedProblem("t", other.text))]
    names = [desk.network.names for desk in desks]
    for told_of in "node", "given_node":
        now_told, wanted_told = (
            [getattr(it, told_of)(node) for node in range(1, it.node_count + 1)] for it in names
        )
        assert now_told == wanted_told
    numbers = range(1, len(desks[0].network.lines) + 1)
    assert [*map(names[0].arc_names, numbers)] == [*map(names[1].arc_names, numbers)]
    desks[0].close(*desks[0].network.pictured())
    assert desks[0].value == 0 and subject.text == other.text
    for desk in desks:
        desk.end()


@pytest.mark.parametrize("seed", range(40))
def test_there_and_back(tmp_path: Path, seed: int) -> None:
    """What was read, saved and read again is the table cell by cell; the saved tables are the same
    from the first on; and so is the value."""
    table_made, sign = made(seed), ",."[seed % 2]
    (tmp_path / "first.csv").write_text(table_made.text(sign))
    # Only the first table has to be told its sign, where all its numbers could be read both ways.
    subject = subject_of(tmp_path / "first.csv", "--decimal", sign)
    wanted = table_made.rows, table_made.said
    assert told(subject) == wanted
    texts = []
    for turn in range(2):
        desk = Desk(subject, with_solve=True)
        texts.append(table(desk))
        assert Fraction(desk.value) == table_made.value() == value_of(subject)
        desk.end()
        (tmp_path / f"{turn}.csv").write_text(texts[-1])
        subject = subject_of(tmp_path / f"{turn}.csv")
        assert told(subject) == wanted
        assert subject.measure.unit == "m\u00b3/h"
    assert texts[0] == texts[1]


@pytest.mark.parametrize("seed", range(12))
def test_after_changes(tmp_path: Path, seed: int) -> None:
    """A table that was saved after changes has the value of the desk, and other columns stand where
    their arcs are, also after these were opened again."""
    chance = random.Random(seed)
    (tmp_path / "first.csv").write_text(made(seed).text(","))
    subject = subject_of(tmp_path / "first.csv", "--decimal", ",")
    desk = Desk(subject, with_solve=True)
    rows = made(seed).rows
    for turn in range(6):
        number = chance.randrange(len(rows)) + 1
        if turn % 3 == 2:
            for shut in [
                it
                for it, line in enumerate(desk.network.lines, 1)
                if line.is_closed and not line.is_replaced
            ][:1]:
                desk.open(shut)
        elif not desk.network.line(number).is_closed:
            desk.close(number) if turn % 3 else desk.cap(
                number, Decimal(chance.randrange(9000)).scaleb(-3)
            )
    (tmp_path / "plan.csv").write_text(table(desk))
    again = subject_of(tmp_path / "plan.csv")
    first = [
        line.first or number
        for number, line in enumerate(desk.network.lines, 1)
        if not line.is_closed and not desk.network.role(number)
    ]
    assert [row[3:] for row in told(again)[0]] == [rows[number - 1][3:] for number in first]
    assert value_of(again) == Fraction(desk.value)
    desk.end()


def test_a_source_that_gives_nothing_more(tmp_path: Path) -> None:
    """What a place gives is closed: also of the only source, the saved table has the value 0, and
    not that of a source without a limit."""
    (tmp_path / "t.csv").write_text("from,to,capacity,supply\nA,B,3,\nB,C,4,\nA,,,2.5\n")
    desk = Desk(subject_of(tmp_path / "t.csv"), with_solve=True)
    assert desk.value == Decimal("2.5")
    desk.close(desk.network.the_arc("what A gives at most"))
    (tmp_path / "plan.csv").write_text(table(desk))
    desk.end()
    assert "A,,,,,,0," in (tmp_path / "plan.csv").read_text()
    assert value_of(subject_of(tmp_path / "plan.csv")) == 0


def test_ends_that_arcs_do_not_tell(tmp_path: Path) -> None:
    """An arc leads into the source: the saved table names it. Where the arcs alone tell it, there
    is no such row."""
    (tmp_path / "t.csv").write_text("from,to,capacity\nA,B,3\nB,C,4\nB,A,1\n")
    ran = run(
        "dmf-plan",
        f"{tmp_path}/t.csv",
        "A",
        "C",
        typed=f"solve\nsave {tmp_path}/plan.csv\nclose B-A\nsolve\nsave {tmp_path}/bare.csv\n",
    )
    assert ran.returncode == 0, ran.stderr
    places = [row[2:] for row in csv.reader((tmp_path / "plan.csv").open()) if not row[3]]
    assert places == [["A", "", "", "", "", "", "x", ""], ["C", "", "", "", "", "", "", "x"]]
    assert "supply" not in (tmp_path / "bare.csv").read_text()
    for saved in "plan", "bare":
        assert run("dmf-plan", f"{tmp_path}/{saved}.csv", typed="solve\n").stdout.startswith(
            "value 3, "
        )


@pytest.fixture(scope="module")
def exports(tmp_path_factory: pytest.TempPathFactory) -> dict[str, str]:
    """The town's table as each writer exports it."""
    path = tmp_path_factory.mktemp("exports")
    words = town.put(path)
    made = run("dmf-problem", "--table", *words).stdout
    answer = subprocess.run(
        [BUILT, "solve", "--cut"], input=made, capture_output=True, check=True, text=True
    ).stdout
    ran = run("dmf-plan", *words, typed=f"solve\nsave {path}/plan.csv\n")
    assert ran.returncode == 0, ran.stderr
    return {
        "plan": (path / "plan.csv").read_text(),
        "names": run("dmf-names", *words, "--csv", typed=answer).stdout,
    }


@pytest.mark.parametrize("writer", ["plan", "names"])
def test_the_town(exports: dict[str, str], tmp_path: Path, writer: str) -> None:
    """A planner's sheet, in each tool: rows, remarks, lengths, sources and limits come back, and
    the value is that of exact fractions."""
    (tmp_path / "t.csv").write_text(exports[writer])
    opened: Any = dmf.read_table(tmp_path / "t.csv")
    with opened as network:
        assert Fraction(network.solve().value) == town.wanted().value
        assert [(arc.given_key, arc.tail, arc.head, arc.capacity) for arc in network.arcs] == [
            pipe[:4] for pipe in town.pipes()
        ]
        assert network.extra["L\u00e4nge (m)"] == [str(pipe.length) for pipe in town.pipes()]
        assert network.extra["Bemerkung"] == [pipe.remark for pipe in town.pipes()]
        assert (network.sources, network.sinks, network.limits) == (
            town.SOURCES,
            {town.SINK: town.DEMAND},
            {town.LIMITED: town.LIMIT},
        )
        assert network.unit == "l/s"
    assert exports["plan"] == exports["names"]


def test_two_units(tmp_path: Path) -> None:
    """A limit in another unit is told, and not taken for one in the first."""
    (tmp_path / "t.csv").write_text("from;to;capacity (l/s)\nA;B;3\n")
    (tmp_path / "p.csv").write_text("place;limit (m\u00b3/h)\nA;4\n")
    ran = run("dmf-plan", f"{tmp_path}/t.csv", "--node-limits", f"{tmp_path}/p.csv")
    assert (
        ran.stderr
        == f"dmf-plan: {tmp_path}/p.csv, line 2, column 'limit (m\u00b3/h)': the limit has the"
        " unit "
        "'m\u00b3/h', and the capacity has 'l/s'\n"
    )
    (tmp_path / "p.csv").write_text("place;limit\nA;4 l / s\n")
    assert run(
        "dmf-plan", f"{tmp_path}/t.csv", "--node-limits", f"{tmp_path}/p.csv", typed="solve\n"
    ).stdout.startswith("value 3 l/s")


def test_more_columns_of_one_title(tmp_path: Path) -> None:
    """Two columns of one title; and one that has a usual title of places, and cells at arcs."""
    (tmp_path / "t.csv").write_text("from,to,capacity,note,note,limit\nA,B,3,one,two,9\nB,C,4,,\n")
    with dmf.read_table(tmp_path / "t.csv") as network:
        assert network.extra == {"note": ["one", ""], "note 2": ["two", ""], "limit": ["9", ""]}
        assert network.limits == {}
    ran = run("dmf-plan", f"{tmp_path}/t.csv", typed=f"save {tmp_path}/plan.csv\n")
    assert ran.returncode == 0
    rows = list(csv.reader((tmp_path / "plan.csv").open()))
    assert [row[8:] for row in rows] == [
        ["note", "note", "limit"],
        ["one", "two", "9"],
        ["", "", ""],
    ]
    (tmp_path / "u.csv").write_text("from,to,capacity,name,,,\nA,B,3,p,,seen,\nB,C,4,q,,,\n")
    with dmf.read_table(tmp_path / "u.csv") as network:
        assert network.extra == {"without title": ["seen", ""]}
