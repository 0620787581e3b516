"""Drawn tables of pipes, some of which lead both ways, beside networkx, whose graph has two edges
for each of those."""

from __future__ import annotations

import csv
from collections import Counter
from pathlib import Path
from random import Random
from typing import NamedTuple

import networkx
import pytest
from dmf.desk.export import problem, table
from dmf.desk.workspace import Desk
from dmf.tables.loader import LoadedProblem, TableOptions, subject_of
from two_way_shared import desk_of


class Row(NamedTuple):
    """A row of a drawn table. What it can carry is 0 while it is closed."""

    tail: str
    head: str
    capacity: int
    name: str
    is_two_way: bool


def drawn(random: Random) -> list[Row]:
    """Return the rows of a table of pipes, of which some lead both ways."""
    places = ["S", "A", "B", "C", "T"]
    pairs = [random.sample(places, 2) for _ in range(9)]
    return [
        Row(tail, head, random.randint(1, 9), f"p{number}", random.random() < 0.6)
        for number, (tail, head) in enumerate(pairs, 1)
    ]


def text_of(rows: list[Row]) -> str:
    lines = [
        ",".join(map(str, (*row[:4], "both" if row.is_two_way else "one way"))) for row in rows
    ]
    return "\n".join(["from,to,capacity,name,direction", *lines, ""])


def greatest(rows: list[Row]) -> int:
    """Return the greatest value from S to T."""
    graph = networkx.DiGraph()
    graph.add_nodes_from("ST")
    capacities: Counter[tuple[str, str]] = Counter()
    for row in rows:
        capacities[row.tail, row.head] += row.capacity
        if row.is_two_way:
            capacities[row.head, row.tail] += row.capacity
    graph.add_edges_from((*ends, {"capacity": it}) for ends, it in capacities.items())
    return int(networkx.maximum_flow_value(graph, "S", "T"))


def judge(desk: Desk, rows: list[Row]) -> None:
    """Judge what a desk tells of these rows: the value, each pipe once, and a flow whose sum at
    each other place is 0."""
    network = desk.network
    numbers = network.pictured()
    names = [network.names.arc_name(number) for number in numbers]
    assert sorted(names) == sorted(row.name for row in rows)
    assert desk.value == greatest(rows)
    by_name = {row.name: row for row in rows}
    sums: Counter[str] = Counter()
    for name, number in zip(names, numbers):
        row, flow = by_name[name], int(desk.flow(number))
        assert -row.capacity * row.is_two_way <= flow <= row.capacity
        assert network.pipe(number).is_closed == (row.capacity == 0)
        sums[row.tail] -= flow
        sums[row.head] += flow
    expected = {"S": -desk.value, "T": desk.value}
    assert {place: by for place, by in sums.items() if by} == {
        place: by for place, by in expected.items() if by
    }
    crossing = [by_name[network.names.arc_name(number)] for number in desk.cut_arcs()]
    assert sum(row.capacity for row in crossing) == desk.value


@pytest.mark.parametrize("seed", range(20))
def test_beside_networkx(seed: int) -> None:
    """Each step on a pipe is one, whichever way it leads, and is undone as one."""
    random = Random(f"two ways {seed}")
    rows = drawn(random)
    desk = desk_of(text_of(rows))
    kept = [rows]
    try:
        judge(desk, rows)
        for _ in range(12):
            at = random.randrange(len(rows))
            row, before = rows[at], kept[0][at]
            word = random.choice(["close", "open", "cap", "undo", "number"])
            if word == "undo" and len(kept) > 1:
                desk.undo()
                kept.pop()
            elif word == "open" and row.capacity == 0:
                desk.open(desk.network.the_arc(row.name, is_closed=True))
                last = next(it[at] for it in reversed(kept) if it[at].capacity)
                kept.append([*rows[:at], last, *rows[at + 1 :]])
            elif word in ("close", "number") and row.capacity:
                # By the number of the second arc it is the same pipe.
                arcs = desk.network.pipes.arcs(desk.network.the_arc(row.name))
                desk.close(arcs[0] if word == "close" else arcs[-1])
                kept.append([*rows[:at], row._replace(capacity=0), *rows[at + 1 :]])
            elif word == "cap" and row.capacity:
                most = random.randint(1, 9)
                desk.cap(desk.network.the_arc(row.name), most)
                kept.append([*rows[:at], before._replace(capacity=most), *rows[at + 1 :]])
            rows = kept[-1]
            assert desk.at == len(kept)
            judge(desk, rows)
        closed = {row.name for row in rows if not row.capacity}
        for number in desk.network.opened_pipes():
            name = desk.network.names.arc_name(number)
            without = greatest([row for row in rows if row.name != name])
            with desk.aside() as other:
                assert other.close(number).value == without
        assert {desk.network.names.arc_name(it) for it in desk.network.changed()} >= closed
    finally:
        desk.end()


@pytest.mark.parametrize("seed", range(10))
def test_tables_written_back(seed: int, tmp_path: Path) -> None:
    """A pipe is a row of the table that is written, and such a pipe again when that is read; and so
    it is in the problem."""
    random = Random(f"written {seed}")
    rows = drawn(random)
    desk = desk_of(text_of(rows))
    desk.close(desk.network.the_arc(rows[0].name))
    if seed % 2:
        desk.open(desk.network.the_arc(rows[0].name, is_closed=True))
    rows = rows if seed % 2 else rows[1:]
    written = list(csv.DictReader(table(desk).splitlines()))
    found = [row for row in written if row["name"]]
    assert sorted((row["name"], row["from"], row["capacity"]) for row in found) == sorted(
        (row.name, row.tail, str(row.capacity)) for row in rows
    )
    ways = {row.name for row in rows if row.is_two_way}
    assert {row["name"] for row in found if row.get("both ways") == "yes"} == ways
    flows = {row["name"]: int(row["flow"]) for row in found}
    for number in desk.network.opened_pipes():
        assert flows[desk.network.names.arc_name(number)] == desk.flow(number)
    of_table = subject_of(TableOptions(), "plan.csv", table(desk).encode())
    for subject in (of_table, LoadedProblem("net.max", problem(desk).encode())):
        again = Desk(subject, with_solve=True)
        judge(again, rows)
        again.end()
    desk.end()
