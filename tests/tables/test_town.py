"""A planner's table, in each form in which it comes, beside a second computation in exact
fractions."""

from __future__ import annotations

from collections.abc import Callable
from decimal import Decimal
from fractions import Fraction
from pathlib import Path
from typing import Any

import pytest
import town_table as town
from client_shared import dmf
from desk_shared import run
from dmf.text.problem_text import read_problem
from oracle import program

WORDS = ["--source", "Quelle Nord", "--source", "Quelle Süd=61,7", "--sink", "Hafen Größe=96,35"]
ENCODINGS = ["utf-8", "utf-8-sig", "utf-16", "cp1252", "latin-1"]


@pytest.fixture(scope="module")
def folder(tmp_path_factory: pytest.TempPathFactory) -> Path:
    """The table in each form."""
    path = tmp_path_factory.mktemp("town")
    for encoding in ENCODINGS:
        (path / f"{encoding}.csv").write_bytes(town.csv_text().encode(encoding))
    (path / "orte.csv").write_text(town.places_text())
    (path / "grenzen.csv").write_text(f"Ort;Grenze\n{town.LIMITED};22,4\n")
    town.save_xlsx(path / "net.xlsx")
    town.save_ods(path / "net.ods")
    return path


FORMS: list[Callable[[Path], list[str]]] = [
    *(
        lambda folder, it=it: [
            f"{folder}/{it}.csv",
            "--node-limits",
            f"{folder}/grenzen.csv",
            *WORDS,
        ]
        for it in ENCODINGS
    ),
    lambda folder: [f"{folder}/utf-8.csv", "--places", f"{folder}/orte.csv"],
    lambda folder: [f"{folder}/net.xlsx"],
    lambda folder: [f"{folder}/net.ods#Rohre"],
    lambda folder: [f"{folder}/utf-8.csv", "--places", f"{folder}/net.xlsx#Orte"],
]


@pytest.mark.parametrize("form", range(len(FORMS)))
def test_dmf_problem(folder: Path, form: int) -> None:
    """The problem has each row, in whole numbers that say what they stand for, and the greatest
    value."""
    path, *words = FORMS[form](folder)
    ran = run("dmf-problem", "--table", path, *words)
    assert ran.returncode == 0, ran.stderr
    assert "rows are the same, and each counts: line 72 as 13" in ran.stderr
    # What was taken for what is told in one line.
    assert ran.stderr.count(
        "to 'nach', capacity 'Kapazität (l/s)' (l/s), name 'Rohr'; kept: 'Länge (m)', 'Bemerkung'; "
        "the decimal sign is a comma\n"
    ) == (".csv" in path)
    assert ("read as Windows-1252" in ran.stderr) == ("cp1252" in path or "latin-1" in path)
    problem = read_problem(ran.stdout.encode())
    measure = problem.described.measure
    assert (measure.unit, str(measure.scale), measure.table) == (
        "l/s",
        "100",
        path.rpartition("/")[2] + "#Rohre" * path.endswith("xlsx"),
    )
    names = problem.node_names
    rows = [
        (problem.arc_names[number], names[tail], names[head], measure.quantity(capacity))
        for number, (tail, head, capacity) in enumerate(problem.arcs, 1)
        if number not in problem.described.roles
    ]
    assert rows == [pipe[:4] for pipe in town.pipes()]
    written = program.run([b"solve"], ran.stdout.encode()).written
    assert isinstance(written, bytes)
    assert Fraction(measure.quantity(int(written.split()[1]))) == town.wanted().value


@pytest.mark.parametrize("form", [0, 5, 6, 7])
def test_the_desk_opens_it(folder: Path, form: int) -> None:
    ran = run("dmf-plan", *FORMS[form](folder), typed="solve\n")
    assert ran.returncode == 0, ran.stderr
    assert ran.stdout.startswith("value ") and "the greatest" in ran.stdout


def opened(folder: Path, form: str) -> Any:
    if form == "options":
        limits, sources = {town.LIMITED: town.LIMIT}, {"Quelle Nord": None, "Quelle Süd": "61,7"}
        return dmf.read_table(
            folder / "cp1252.csv", source=sources, sink={town.SINK: town.DEMAND}, limits=limits
        )
    if form == "frame":
        columns = list(zip(*town.arc_rows()[1:]))
        frame = {title: list(column) for title, column in zip(town.TITLES, columns)}
        return dmf.read_table(frame, places=folder / "orte.csv")
    return dmf.read_table(folder / form)


@pytest.mark.parametrize("form", ["options", "frame", "net.xlsx", "net.ods"])
def test_in_python(folder: Path, form: str) -> None:
    """Value, cut, flows and what-ifs, in litres per second."""
    with opened(folder, form) as network:
        wanted = town.wanted()
        solution = network.solve()
        assert (type(solution.value), Fraction(solution.value)) == (Decimal, wanted.value)
        assert network.unit == "l/s"
        assert network.nodes == list(
            dict.fromkeys(place for pipe in town.pipes() for place in pipe[1:3])
        )
        assert [(arc.given_key, arc.tail, arc.head, arc.capacity) for arc in network.arcs] == [
            pipe[:4] for pipe in town.pipes()
        ]
        cut = network.cut()
        assert (Fraction(cut.capacity), set(cut.side)) == wanted
        assert (
            sum(Fraction(arc.capacity) for arc in cut.arcs)
            + sum(Fraction(term.quantity or 0) for term in cut.terms)
            == wanted.value
        )
        # Each place but the ends sends on what it gets, and the limit holds.
        balance = dict.fromkeys(network.nodes, Decimal(0))
        for arc, flow in solution.items():
            assert 0 <= flow <= arc.capacity
            balance[arc.tail] -= flow
            balance[arc.head] += flow
        assert {place for place, left in balance.items() if left} <= {*town.SOURCES, town.SINK}
        assert balance[town.SINK] == solution.value
        assert sum(flow for arc, flow in solution.items() if arc.head == town.LIMITED) <= town.LIMIT
        for name in "R5", "R20", "R33":
            with network.try_out():
                network.close(name)
                assert Fraction(network.solve().value) == town.wanted(name).value
            with network.try_out():
                network.cap(name, "0,55")
                assert (
                    Fraction(network.solve().value)
                    == town.wanted(changed={name: Decimal("0.55")}).value
                )
        assert network.extra["Länge (m)"] == [str(pipe.length) for pipe in town.pipes()]
        assert "Knoten" not in str([arc for arc in network.arcs if "all" in str(arc.tail)])


def test_a_sweep(folder: Path) -> None:
    with dmf.read_table(folder / "net.xlsx") as network:
        network.solve()
        pipes = [arc for arc in network.arcs if arc.given_key in ("R5", "R20", "R33")]
        results: Any = list(dmf.sweep(network, dmf.each_arc_closed(pipes)))
        for arc, result in zip(pipes, results):
            value = town.wanted(str(arc.given_key)).value
            assert (Fraction(result.value), Fraction(result.difference)) == (
                value,
                value - town.wanted().value,
            )


def test_there_and_back(folder: Path) -> None:
    """A problem that a network writes has the table's rows, its unit and its inner arcs, also after
    changes."""
    with dmf.read_table(folder / "net.xlsx") as network:
        network.close("R3")
        network.add(town.LIMITED, town.SINK, 1.25, "neu")
        problem = read_problem(network.problem().encode())
    described = problem.described
    assert (described.measure.unit, described.measure.table, described.measure.sign) == (
        "l/s",
        "net.xlsx#Rohre",
        "",
    )
    assert sorted(role.kind for role in described.roles.values()) == [
        "demand",
        "limit",
        "supply",
        "supply",
    ]
    # The new arc leaves the second half of the place.
    *_, (tail, head, capacity) = problem.arcs
    assert (
        described.halves[tail],
        problem.node_names[head],
        described.measure.quantity(capacity),
    ) == (
        next(number for number, name in problem.node_names.items() if name == town.LIMITED),
        town.SINK,
        Decimal("1.25"),
    )
