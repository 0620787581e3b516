"""Networks of tables in Python, also of problems that the desk wrote: they have the table's places
and numbers, and no node that is not of it, whatever is changed; beside a second computation in
exact fractions."""

from __future__ import annotations

import pickle
import random
import subprocess
import sys
from decimal import Decimal
from fractions import Fraction
from pathlib import Path
from typing import Any

import pytest
import town_table as town
from client_shared import dmf
from desk_shared import run
from dmf.text.problem_text import read_problem
from made_tables import Made, Row, made


@pytest.fixture(scope="module")
def saved(tmp_path_factory: pytest.TempPathFactory) -> Path:
    """The town's table, and the problem that dmf-plan makes of it."""
    path = tmp_path_factory.mktemp("saved")
    ran = run("dmf-plan", *town.put(path), typed=f"save {path}/netz.max\n")
    assert ran.returncode == 0, ran.stderr
    return path / "netz.max"


def opened(path: Path, **more: Any) -> Any:
    return dmf.read(path, **more) if path.suffix == ".max" else dmf.read_table(path, **more)


def is_inner(text: str) -> bool:
    return any(
        word in text for word in ("all sources", "all sinks", "supply of", "demand of", "limit of")
    )


def test_a_problem_of_the_desk(saved: Path) -> None:
    """Its places, in litres per second; and it is written as it was."""
    with opened(saved) as network:
        assert type(network).__name__ == "TableNetwork"
        assert Fraction(network.solve().value) == town.wanted().value
        cut = network.cut()
        assert (Fraction(cut.capacity), set(cut.side)) == town.wanted()
        assert (
            sum(Fraction(arc.capacity) for arc in cut.arcs)
            + sum(Fraction(term.quantity) for term in cut.terms)
            == town.wanted().value
        )
        assert sorted(network.nodes) == sorted(
            {place for pipe in town.pipes() for place in pipe[1:3]}
        )
        assert [(arc.given_key, arc.tail, arc.head, arc.capacity) for arc in network.arcs] == [
            pipe[:4] for pipe in town.pipes()
        ]
        assert (network.sources, network.sinks, network.limits) == (
            town.SOURCES,
            {town.SINK: town.DEMAND},
            {town.LIMITED: town.LIMIT},
        )
        assert (network.unit, network.scale, network.problem()) == ("l/s", "100", saved.read_text())
        told = [
            repr(network),
            network._repr_html_(),
            str(network.flow().flow_dict()),
            str(network.frame()) if hasattr(network, "frame") else "",
            str(cut),
        ]
        assert not any(map(is_inner, told))
        with pytest.raises(dmf.NoSuchArc):
            network.arc("limit of Uster")
        with pytest.raises(dmf.NoSuchNode) as caught:
            network.shut("all sources")
        assert "<" not in str(caught.value)


def test_the_command(saved: Path, tmp_path: Path) -> None:
    """`python -m dmf FILE`."""
    ran = subprocess.run(
        [sys.executable, "-m", "dmf", str(saved)],
        capture_output=True,
        text=True,
        env={"PYTHONPATH": str(Path(dmf.__file__).parents[1])},
    )
    first, *limits = ran.stdout.splitlines()
    value = Fraction(first.split()[0])
    assert (value, first.partition(" ")[2]) == (
        town.wanted().value,
        f"l/s can be sent from Quelle Nord and Quelle S\u00fcd to {town.SINK}",
    )
    assert sum(Fraction(line.split("  ")[1]) for line in limits) == value and not is_inner(
        ran.stdout
    )


def changed(network: Any, table: Made, chance: random.Random) -> Made:
    """The table after a change of its network."""
    rows = list(table.rows)
    at, amount = chance.randrange(len(rows)), Decimal(chance.randrange(20_000)).scaleb(-1)
    name = rows[at].name
    if chance.random() < 0.4:
        tail, head = chance.sample(network.nodes, 2)
        network.add(tail, head, amount, f"new {len(rows)}")
        return table._replace(rows=[*rows, Row(tail, head, amount, f"new {len(rows)}", "", "")])
    if chance.random() < 0.3:
        network.close(name)
        if chance.random() < 0.5:
            network.open(name)
            return table
        network.undo()
        return table
    network.cap(name, amount)
    return table._replace(rows=[*rows[:at], rows[at]._replace(capacity=amount), *rows[at + 1 :]])


def table_of(seed: int) -> Made:
    """A table whose rows have the names R0, R1 .."""
    table = made(seed)
    return table._replace(rows=[row._replace(name=f"R{at}") for at, row in enumerate(table.rows)])


@pytest.mark.parametrize("seed", range(24))
def test_changes(tmp_path: Path, seed: int) -> None:
    """Each value is right, also where a source without a limit gets wider pipes; and what is
    written then is read with the same value."""
    chance, table = random.Random(seed), table_of(seed)
    (tmp_path / "t.csv").write_text(table.text("."))
    (tmp_path / "t.max").write_text(
        run("dmf-problem", "--decimal", ".", "--table", f"{tmp_path}/t.csv").stdout
    )
    with opened(tmp_path / "t.max") as read, opened(tmp_path / "t.csv", decimal=".") as network:
        assert read.problem() == (tmp_path / "t.max").read_text() == network.problem()
        for _ in range(8):
            table = changed(network, table, chance)
            assert Fraction(network.solve().value) == table.value()
            cut = network.cut()
            assert Fraction(cut.capacity) == table.value()
            assert all(table.said[term.kind, term.place] is not None for term in cut.terms)
        (tmp_path / "again.max").write_text(network.problem())
        assert not any(
            type(node).__name__ == "Inner" for arc in network.arcs for node in (arc.tail, arc.head)
        )
    with opened(tmp_path / "again.max") as again:
        assert Fraction(again.solve().value) == table.value()
        assert (again.sources, again.sinks, again.limits) == (
            network.sources,
            network.sinks,
            network.limits,
        )
    # In the text a source without a limit carries as much as its pipes, and no more.
    problem = read_problem((tmp_path / "again.max").read_bytes())
    for number, role in problem.described.roles.items():
        if role.is_unlimited:
            ends = {
                role.node,
                *(
                    second
                    for second, first in problem.described.halves.items()
                    if first == role.node
                ),
            }
            side = 0 if role.kind == "supply" else 1
            beside = [
                arc[2]
                for at, arc in enumerate(problem.arcs, 1)
                if at not in problem.described.roles and arc[side] in ends
            ]
            assert problem.arcs[number - 1][2] == sum(beside)


@pytest.mark.parametrize("seed", [2, 5])
def test_sweeps(tmp_path: Path, seed: int) -> None:
    """Commands, also an arc out of a place with a limit, and functions, which get a network of the
    table; here and in another process."""
    table = table_of(seed)
    limited = next(iter(place for kind, place in table.said if kind == "limit"))
    sink = next(place for kind, place in table.said if kind == "demand")
    (tmp_path / "t.csv").write_text(table.text("."))
    with opened(tmp_path / "t.csv", decimal=".") as network:
        before = Fraction(network.solve().value)
        cases: list[Any] = [
            [("close", "R1")],
            [("add", limited, sink, "500.5")],
            [("cap", "R2", 7)],
            widen,
            [("cap", "R2", "x")],
        ]
        wanted = [
            table._replace(rows=[row for row in table.rows if row.name != "R1"]),
            table._replace(rows=[*table.rows, Row(limited, sink, Decimal("500.5"), "", "", "")]),
            table._replace(
                rows=[
                    row._replace(capacity=Decimal(7)) if row.name == "R2" else row
                    for row in table.rows
                ]
            ),
            table._replace(
                rows=[
                    row._replace(capacity=row.capacity + Decimal("250.5"))
                    if row.name == "R0"
                    else row
                    for row in table.rows
                ]
            ),
        ]
        for want_cut in False, True:
            found: list[Any] = list(dmf.sweep(network, cases, want_cut=want_cut))
            *results, bad = found
            for result, after in zip(results, wanted):
                assert (Fraction(result.value), Fraction(result.difference)) == (
                    after.value(),
                    after.value() - before,
                )
                assert not any(
                    type(node).__name__ == "Inner"
                    for arc in result.cut or ()
                    for node in (arc.tail, arc.head)
                )
            assert isinstance(bad.refusal, dmf.NotANumber)
        places = {place for kind, place in table.said if kind != "limit"}
        shut = [case.case for case in dmf.sweep(network, dmf.each_node_shut())]
        assert shut == [[("shut", place)] for place in network.nodes if place not in places]


def test_out_of_a_limited_place(tmp_path: Path) -> None:
    """An arc that a case adds leaves the place behind its limit, also where many cases are sent at
    once."""
    (tmp_path / "t.csv").write_text("from,to,capacity,limit\nA,B,100,\nB,C,1,\nB,,,5\n")
    with opened(tmp_path / "t.csv", source="A", sink="C") as network:
        network.solve()
        values = [
            result.value
            for result in dmf.sweep(
                network, [[("add", "B", "C", most)] for most in range(200)], jobs=1
            )
        ]
    assert values == [min(1 + most, 5) for most in range(200)]


def widen(network: Any) -> None:
    """A case that looks at a capacity, and raises it."""
    arc = network.arc("R0")
    network.cap(arc, arc.capacity + Decimal("250.5"))


def test_more_places(saved: Path) -> None:
    """A place that is added is one of the table's from then on."""
    with opened(saved) as network:
        network.add_node("Neuer Teich")
        first = network.nodes[0]
        network.add(first, "Neuer Teich", "3,5", "neu")
        network.add("Neuer Teich", town.SINK, 2)
        assert network.nodes[-1] == "Neuer Teich" and network.arc("neu").capacity == Decimal("3.5")
        value = network.solve().value
        copy = network.copy()
        assert (copy.solve().value, copy.nodes, copy.unit) == (value, network.nodes, "l/s")
        copy.end()
        problem = network.problem()
        assert (
            "Neuer Teich\n" in problem
            and read_problem(problem.encode()).node_names[read_problem(problem.encode()).node_count]
            == "Neuer Teich"
        )


def test_a_matrix(saved: Path) -> None:
    """Row and column by the places: what flows out of each, and into it."""
    with opened(saved) as network:
        solution = network.solve()
        matrix = solution.flow_matrix()
        assert matrix.shape == (town.PLACES, town.PLACES)
        for tail in range(town.PLACES):
            for head in range(town.PLACES):
                flows = [
                    flow
                    for arc, flow in solution.items()
                    if (arc.tail, arc.head) == (network.nodes[tail], network.nodes[head])
                ]
                assert matrix[tail, head] == float(sum(flows))
        again = pickle.loads(pickle.dumps(solution))
        assert (again.value, list(again.values())) == (solution.value, list(solution.values()))


def test_arrays_of_64_bits(tmp_path: Path) -> None:
    """Whole numbers are exact, one of 64 bits beside a small one too; and pipes side by side are
    added up before they are floats."""
    for most, kind in (2**63, "u"), (2**62, "i"):
        (tmp_path / "t.csv").write_text(f"from,to,capacity\nA,B,{most}\nA,B,1\nB,A,0\n")
        with opened(tmp_path / "t.csv", source="A", sink="B") as network:
            solution = network.solve()
            flows, matrix = solution.array(), solution.flow_matrix()
        assert (flows.tolist(), flows.dtype.kind) == ([most, 1, 0], kind)
        assert (matrix.toarray().tolist(), matrix.dtype.kind) == ([[0, most + 1], [0, 0]], kind)
    (tmp_path / "t.csv").write_text("from,to,capacity\nA,B,0.1\nA,B,0.2\n")
    with opened(tmp_path / "t.csv", source="A", sink="B") as network:
        assert network.solve().flow_matrix().toarray().tolist() == [[0, 0.3], [0, 0]]


def test_past_64_bits(tmp_path: Path) -> None:
    """What a source without a limit cannot carry any more is refused, and changes nothing."""
    (tmp_path / "t.csv").write_text(
        "from,to,capacity,supply\nA,C,3,\nB,C,4,\nC,D,9,\nA,,,x\nB,,,x\n"
    )
    with opened(tmp_path / "t.csv") as network:
        assert network.solve().value == 7
        with pytest.raises(dmf.CapacitiesPast64Bits):
            network.cap(("A", "C"), 2**64 - 1)
        network.cap(("A", "C"), 2**60)
        network.cap(("C", "D"), 2**61)
        assert network.solve().value == 2**60 + 4


def test_comments_that_do_not_fit(tmp_path: Path) -> None:
    """Arcs that were taken out of a text by hand: what is not of the table is told by its ends, as
    in all tools."""
    (tmp_path / "t.csv").write_text(
        "from,to,capacity,supply,limit\nA,C,3,,\nB,C,4,,\nC,D,9,,\nA,,,2,\nB,,,x,\nC,,,,5\n"
    )
    text = run("dmf-problem", "--table", f"{tmp_path}/t.csv", "--sink", "D").stdout
    head, _, arcs = text.partition("p max 6 6\n")
    others = (line for line in arcs.splitlines(keepends=True) if not line.startswith("a 1 2 "))
    cut = f"{head}p max 6 5\n{''.join(others)}"
    (tmp_path / "cut.max").write_text(cut)
    with opened(tmp_path / "cut.max") as network:
        assert [(arc.tail, arc.head) for arc in network.arcs] == [("B", "C"), ("C", "D")]
        assert network.solve().value == 4
