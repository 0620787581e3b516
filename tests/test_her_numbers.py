"""A German table of decimal numbers with a unit, two sources, a limit of a source and a limit of a
place, in all five tools: value, limit, closures, sweeps and exports are those of a second
computation in exact fractions, in the table's numbers and unit; and what no row has is told by what
it means."""

from __future__ import annotations

import csv
import json
import random
import re
import time
from collections.abc import Iterator
from decimal import Decimal
from fractions import Fraction
from pathlib import Path
from typing import Any
from xml.etree import ElementTree

import pytest
from board_running import Board, board
from desk_shared import run
from dmf.desk.analysis import trials_of
from dmf.desk.export import problem
from dmf.desk.workspace import Desk
from dmf.tables.loader import LoadedProblem
from her_runs import judge_flows, judge_picture, judge_table, planned, put_problem, solved
from her_table import CLOSED, DOUBLED, INNER, LIMIT, PIPES, VALUE, Pipe, greatest, number, told


@pytest.fixture(scope="module")
def folder(tmp_path_factory: pytest.TempPathFactory) -> Path:
    """A folder with the table, its limits and its problem."""
    made = tmp_path_factory.mktemp("numbers")
    put_problem(made)
    return made


@pytest.fixture(scope="module")
def page(folder: Path) -> Iterator[Board]:
    with board(str(folder / "pipes.max")) as it:
        yield it


def test_by_hand() -> None:
    assert (VALUE, told(VALUE), CLOSED["Long"], DOUBLED["Long"]) == (
        Fraction("49.4"),
        "49.4",
        Fraction("12.25") - Fraction("3.1"),
        Fraction("55.5"),
    )
    assert CLOSED["Main"] == Fraction("20.05")


def test_dmf_plan(folder: Path) -> None:
    ran = planned(folder, "solve\ncut\nwhat-if each arc\n", f"{folder}/pipes.max")
    assert (ran.returncode, ran.stderr) == (0, "")
    first, limit, side, *rows = ran.stdout.splitlines()
    assert (first, limit) == (
        f"value {told(VALUE)} l/s, {told(VALUE)} more, the greatest",
        f"limit {told(VALUE)} l/s",
    )
    assert set(side.partition(": ")[2].split(", ")) == {"Mill", "New Mill", "Weir", "Port"}
    assert {re.sub("^ *#[0-9]+ |,.*", "", row) for row in rows[: len(LIMIT)]} == LIMIT
    trials = {}
    for row in rows[len(LIMIT) :]:
        found = re.fullmatch(
            r"  #[0-9]+ ([^,:]*)(?:, .*)?: closed ([0-9.]+) \(.*\), "
            r"(?:a second one|twice as much) ([0-9.]+) \(.*\)",
            row,
        )
        assert found, row
        trials[found[1]] = found[2], found[3]
    for pipe in PIPES:
        assert trials.pop(pipe.name) == (told(CLOSED[pipe.name]), told(DOUBLED[pipe.name]))
    assert trials.keys() == {
        "what Weir lets through",
        "what Mill gives at most",
        "what New Mill gives at most",
    }
    assert trials["what Weir lets through"] == ("0", told(VALUE))
    assert not any(word in ran.stdout for word in INNER)


def test_steps_with_finer_numbers(folder: Path) -> None:
    """What has more decimals than the table: the steps before it keep their values, also those that
    were undone."""
    typed = (
        "solve\nclose Long\nsolve\nundo 2\ncap Exit +10 %\nsolve\ncap Exit -0,0655\nsteps\nundo 2\n"
        "redo 2\ncap Exit 1e-20\nsteps\n"
    )
    ran = planned(folder, typed, f"{folder}/pipes.max")
    wider = [it._replace(capacity=Fraction("10.065")) if it.name == "Exit" else it for it in PIPES]
    values = [told(VALUE), told(VALUE), told(greatest(wider))]
    steps = [
        re.sub(".*: value ", "", line)
        for line in ran.stdout.splitlines()
        if re.match(" +[0-9]+ [ *] ", line)
    ]
    assert steps[1:4] == [f"{value} l/s" for value in values]
    assert "Exit carries 10.065 l/s" in ran.stdout and "Exit carries 9.9995 l/s" in ran.stdout
    assert steps[:5] == steps[5:]
    narrow = [it._replace(capacity=Fraction("9.9995")) if it.name == "Exit" else it for it in PIPES]
    assert steps[4] == f"{told(greatest(narrow))} l/s"
    why = (
        "with the decimals of 0.00000000000000000001 the sum of the capacities would be past "
        "0.18446744073709551615 l/s"
    )
    assert (ran.returncode, ran.stderr) == (1, f"dmf-plan: line 11: {why}\n")


def test_an_unlimited_source(folder: Path) -> None:
    """It gives what its pipes carry, also where these are changed, until it gets a limit; and it is
    never the limit itself."""
    desk = Desk(LoadedProblem("a test", (folder / "pipes.max").read_bytes()), with_solve=True)
    chance = random.Random(53)
    number = {pipe.name: at for at, pipe in enumerate(PIPES, 1)}
    # The pipes after each step.
    states, values = [PIPES], set()
    for turn in range(60):
        pipes, at = states[-1], chance.randrange(7)
        wanted = Decimal(chance.randrange(9000)).scaleb(-2)
        if turn % 7 == 3:
            desk.add(
                desk.network.names.place("Mill"),
                desk.network.names.place("Port"),
                wanted,
                f"new {turn}",
            )
            states.append([*pipes, Pipe("Mill", "Port", Fraction(wanted), f"new {turn}")])
            number[f"new {turn}"] = len(desk.network.lines)
        elif turn % 7 == 6:
            desk.undo(2)
            del states[-2:]
        else:
            desk.cap(number[pipes[at].name], wanted)
            states.append(
                [*pipes[:at], pipes[at]._replace(capacity=Fraction(wanted)), *pipes[at + 1 :]]
            )
        pipes = states[-1]
        values.add(desk.value)
        assert Fraction(desk.value) == greatest(pipes), (turn, desk.steps[desk.at - 1])
        limit = [desk.network.names.short(it) for it in desk.cut_arcs()]
        assert "what Mill gives at most" not in limit
        assert sum(Fraction(desk.network.line(it).capacity) for it in desk.cut_arcs()) == Fraction(
            desk.value
        )
        for trial in trials_of(desk, (it for it in desk.cut_arcs() if not desk.network.role(it))):
            (pipe,) = (it for it in pipes if number[it.name] == trial.arc)
            assert trial.doubled is not None and Fraction(trial.doubled) == greatest([*pipes, pipe])
    assert len(values) > 12
    role = next(
        it
        for it in range(1, len(desk.network.lines) + 1)
        if desk.network.names.short(it) == "what Mill gives at most"
    )
    desk.cap(role, 5)
    desk.cap(number["Main"], 80)
    assert (desk.value <= Decimal("25.05"), desk.network.line(role).capacity) == (True, 5)
    assert "unlimited" not in problem(desk)
    desk.undo(2)
    assert f"c inner arc {role} supply 1 unlimited\n" in problem(desk)
    desk.end()


def test_dmf_names(folder: Path) -> None:
    ran = run("dmf-names", f"{folder}/pipes.max", typed=solved(folder))
    lines = ran.stdout.splitlines()
    assert (ran.returncode, ran.stderr, lines[0]) == (0, "", f"value {told(VALUE)} l/s")
    assert not any(word in ran.stdout for word in INNER)
    at = lines.index(f"limit {told(VALUE)} l/s")
    judge_flows(
        {
            found[1]: found[2]
            for found in map(
                re.compile(r" +[0-9]+ ([^,]*), .*: ([0-9.]+) of [0-9.]+").fullmatch, lines[:at]
            )
            if found
        }
    )
    assert {re.sub("^ *[0-9]+ |,.*", "", line) for line in lines[at + 2 :]} == LIMIT
    table = run("dmf-names", f"{folder}/pipes.max", "--csv", typed=solved(folder)).stdout
    judge_table(table)


def test_dmf_dot(folder: Path) -> None:
    ran = run("dmf-dot", f"{folder}/pipes.max", "-", typed=solved(folder))
    judge_picture(ran.stdout)


def test_dmf_sweep(folder: Path, tmp_path: Path) -> None:
    table = tmp_path / "sweep.csv"
    ran = run(
        "dmf-sweep", f"{folder}/pipes.max", "--close-each", "--table", str(table), "--top", "2"
    )
    assert (ran.returncode, ran.stderr) == (0, "")
    head, *rows = csv.reader(table.open(), delimiter=";")
    assert head == [
        "case",
        "commands",
        "name",
        "value (l/s)",
        "difference (l/s)",
        "refused",
        "problem",
    ]
    swept = {row[2]: (number(row[3]), number(row[4])) for row in rows}
    assert all(swept[name] == (value, value - VALUE) for name, value in CLOSED.items())
    assert swept.keys() - CLOSED.keys() == {
        "what Weir lets through",
        "what Mill gives at most",
        "what New Mill gives at most",
    }
    # The greatest losses first.
    assert [row[2] for row in csv.reader(ran.stdout.splitlines()[1:], delimiter=";")] == [
        "what Weir lets through",
        "Long",
    ]
    whole = table.read_text()
    table.write_text("".join(whole.splitlines(keepends=True)[:4]))
    assert (
        run("dmf-sweep", f"{folder}/pipes.max", "--close-each", "--table", str(table)).returncode
        == 0
    )
    assert table.read_text() == whole
    (tmp_path / "cases").write_text("cap 6 1015\n")
    ran = run("dmf-sweep", f"{folder}/pipes.max", "--cases", str(tmp_path / "cases"))
    wider = [it._replace(capacity=Fraction("10.15")) if it.name == "Exit" else it for it in PIPES]
    row = next(csv.DictReader(ran.stdout.splitlines(), delimiter=";"))
    assert (row["commands"], row["name"], number(row["value (l/s)"])) == (
        "cap 6 1015 (10.15 l/s)",
        "Exit",
        greatest(wider),
    )


def test_dmf_board(page: Board) -> None:
    state = page.state()
    assert (state["value"], state["unit"], state["source"], state["sink"]) == (
        told(VALUE),
        "l/s",
        "Mill and New Mill",
        "Sea",
    )
    assert ({arc["name"] for arc in state["limit"]}, state["arcs"], state["places"]) == (
        LIMIT,
        len(PIPES),
        6,
    )
    while page.told("worth")["is_finding"]:
        time.sleep(0.02)
    rows = page.told("rows?filter=&sort=&first=0&count=100")["rows"]
    assert {it["name"]: it["without"] for it in rows} == {
        pipe.name: told(CLOSED[pipe.name]) for pipe in PIPES
    }
    left = [it["number"] for it in rows]
    seconds: list[dict[str, Any]] = []
    while left:
        told_ = json.loads(page.post("seconds", arcs=left)[1])
        seconds, left = seconds + told_["seconds"], told_["left"]
    assert {it["short"]: it["doubled"] for it in seconds} == {
        pipe.name: told(DOUBLED[pipe.name]) for pipe in PIPES
    }
    assert not any(word in json.dumps([state, rows, seconds]) for word in INNER)


def test_a_board_that_changes(folder: Path) -> None:
    """The limit of a place is seen at the place, and is changed by what a planner types."""
    with board(str(folder / "pipes.max")) as page:
        node = page.told("find?text=weir")["found"][0]["node"]
        place = page.told(f"place?node={node}")
        (role,) = place["roles"]
        assert (role["short"], role["capacity"], role["flow"], place["in"], place["out"]) == (
            "what Weir lets through",
            "55.5",
            told(VALUE),
            told(VALUE),
            told(VALUE),
        )
        before = VALUE
        for typed, most in ("30,25", "30.25"), ("+10 %", "33.275"), ("-3,275 l/s", "30"):
            state = page.do(what="cap", arc=role["number"], capacity=typed)
            value = greatest(PIPES, {"Weir": Fraction(most)})
            by = f"{told(abs(value - before))} {'more' if value > before else 'less'}"
            assert (state["value"], state["steps"][-1]) == (
                told(value),
                {"text": f"Weir lets through {most} l/s", "value": told(value), "by": by},
            )
            before = value
        assert [arc["short"] for arc in state["limit"]] == ["what Weir lets through"]
        # It is shut and opened whole.
        assert page.do(what="shut", node=node)["value"] == "0"
        assert page.do(what="open-place", node=node)["value"] == "30"
        assert page.told(f"place?node={node}")["roles"][-1]["capacity"] == "30"
        state = page.do(what="go", step=0)
        assert (state["value"], [step["value"] for step in state["steps"]][:3]) == (
            told(VALUE),
            [told(VALUE), "30.25", "33.275"],
        )
        number = next(arc["number"] for arc in state["limit"] if arc["name"] == "Exit")
        assert page.do(what="cap", arc=number, capacity="x")["error"] == "'x' is not a number"


def test_exports_of_a_board(page: Board, folder: Path) -> None:
    turn = page.turn()
    judge_table(page.ask(page.root + f"plan.csv?turn={turn}")[2].decode())
    assert (
        page.ask(page.root + f"problem.max?turn={turn}")[2].decode()
        == (folder / "pipes.max").read_text()
    )


def test_picture_of_a_board(page: Board) -> None:
    """No numbers but those of the table, each in its place, and the unit."""
    svg = page.ask(page.root + f"picture.svg?near=&turn={page.turn()}")[2].decode()
    texts = [
        element.text or ""
        for element in ElementTree.fromstring(svg).iter("{http://www.w3.org/2000/svg}text")
    ]
    assert "numbers in l/s, from pipes.csv" in texts and not any(word in svg for word in INNER)
    assert {"40.25/40.25", "9.15/9.15", "lets through 49.4/55.5", "Mill", "New Mill"} <= set(texts)
    assert {re.sub(".* ", "", text).partition("/")[2] for text in texts} - {""} == {
        *map(told, (it.capacity for it in PIPES)),
        "55.5",
        "20.05",
    }
