"""A planner's table, made with a fixed seed: 40 places and 71 pipes in German, with decimals, a
unit, a remark on some rows, two sources, a sink with a demand, a place with a limit and a row that
stands twice. It comes as a CSV file and as workbooks; and its value and cut are computed a second
time, in exact fractions, by networkx."""

from __future__ import annotations

import random
from decimal import Decimal
from fractions import Fraction
from functools import cache
from pathlib import Path
from typing import Any, NamedTuple

import networkx

PLACES = 40
SOURCES = {"Quelle Nord": None, "Quelle Süd": Decimal("61.7")}
SINK, DEMAND = "Hafen Größe", Decimal("96.35")
LIMITED, LIMIT = "Uster", Decimal("22.4")
TITLES = ["Rohr", "von", "nach", "Kapazität (l/s)", "Länge (m)", "Bemerkung"]


class Pipe(NamedTuple):
    name: str
    tail: str
    head: str
    capacity: Decimal
    length: int
    remark: str


@cache
def pipes() -> list[Pipe]:
    """The 71 pipes, the last of which is the 12th once more."""
    chance = random.Random("town")
    places = [*SOURCES, LIMITED, *(f"Knoten {number}" for number in range(1, PLACES - 3)), SINK]
    ends = [(tail, head) for tail, head in zip(places[1:], places[2:])] + [
        (places[0], places[2]),
        (places[0], places[3]),
    ]
    while len(ends) < 70:
        tail, head = sorted(chance.sample(range(PLACES), 2))
        if head > 1 and head - tail < 12:
            ends.append((places[tail], places[head]))
    chance.shuffle(ends)
    made = [
        Pipe(
            f"R{number}",
            tail,
            head,
            Decimal(chance.randrange(300, 6000)).scaleb(-chance.choice([1, 1, 2])),
            chance.randrange(9999),
            remark,
        )
        for number, (tail, head) in enumerate(ends, 1)
        for remark in [chance.choice(["", "alt; prüfen", 'sagt "gut"'])]
    ]
    return [*made, made[11]]


def german(number: Decimal) -> str:
    return str(number).replace(".", ",")


def csv_text() -> str:
    """The table with semicolons and decimal commas."""
    lines = [";".join(TITLES)]
    for pipe in pipes():
        remark = '"' + pipe.remark.replace('"', '""') + '"' if pipe.remark else ""
        lines.append(
            ";".join(
                [pipe.name, pipe.tail, pipe.head, german(pipe.capacity), str(pipe.length), remark]
            )
        )
    return "".join(f"{line}\r\n" for line in lines)


def put(folder: Path) -> list[str]:
    """Puts the table into a file, and the limits of places into another. Gives the words that name
    them, the sources and the sink."""
    (folder / "netz.csv").write_text(csv_text())
    (folder / "grenzen.csv").write_text(f"Ort;Grenze\n{LIMITED};{german(LIMIT)}\n")
    first, second = SOURCES
    ends = [
        "--source",
        first,
        "--source",
        f"{second}={german(Decimal('61.7'))}",
        "--sink",
        f"{SINK}={german(DEMAND)}",
    ]
    return [f"{folder}/netz.csv", *ends, "--node-limits", f"{folder}/grenzen.csv"]


def places_rows() -> list[list[Any]]:
    """The table of places."""
    rows: list[list[Any]] = [["Ort", "Angebot", "Bedarf", "Grenze"]]
    rows += [
        [place, "x" if most is None else float(most), None, None] for place, most in SOURCES.items()
    ]
    return [*rows, [SINK, None, float(DEMAND), None], [LIMITED, None, None, float(LIMIT)]]


def places_text() -> str:
    return "".join(
        ";".join("" if cell is None else str(cell).replace(".", ",") for cell in row) + "\n"
        for row in places_rows()
    )


def arc_rows() -> list[list[Any]]:
    rows = [[*pipe[:3], float(pipe.capacity), pipe.length, pipe.remark or None] for pipe in pipes()]
    return [TITLES, *rows]


def save_xlsx(path: Path) -> None:
    import openpyxl

    book = openpyxl.Workbook()
    for title, rows in {
        "Notizen": [["Stand: heute"]],
        "Rohre": arc_rows(),
        "Orte": places_rows(),
    }.items():
        sheet = book.create_sheet(title)
        for row in rows:
            sheet.append(row)
    del book["Sheet"]
    book.save(path)


def save_ods(path: Path) -> None:
    from odf.opendocument import OpenDocumentSpreadsheet
    from odf.table import Table, TableCell, TableRow
    from odf.text import P

    book = OpenDocumentSpreadsheet()
    for title, rows in {"Rohre": arc_rows(), "Orte": places_rows()}.items():
        sheet = Table(name=title)
        for row in rows:
            line = TableRow()
            for cell in row:
                if isinstance(cell, (int, float)):
                    made = TableCell(valuetype="float", value=str(cell))
                    made.addElement(P(text=str(cell).replace(".", ",")))
                else:
                    made = TableCell(valuetype="string") if cell else TableCell()
                    made.addElement(P(text=cell or ""))
                line.addElement(made)
            sheet.addElement(line)
        book.spreadsheet.addElement(sheet)
    book.save(str(path))


class Wanted(NamedTuple):
    """The greatest value, and the side of the smallest minimum cut."""

    value: Fraction
    side: set[str]


def wanted(closed: str = "", changed: dict[str, Decimal] = {}) -> Wanted:
    """What is right, by networkx in fractions. A place with a limit is two nodes, and sources and
    sinks are joined. `closed` is the name of a pipe that is closed, and `changed` has other
    capacities."""
    graph = networkx.DiGraph()

    def add(tail: str, head: str, most: Decimal | None) -> None:
        if most is None:
            graph.add_edge(tail, head)
        elif graph.has_edge(tail, head):
            graph[tail][head]["capacity"] += Fraction(most)
        else:
            graph.add_edge(tail, head, capacity=Fraction(most))

    for pipe in pipes():
        if pipe.name != closed:
            add(
                pipe.tail + "'" * (pipe.tail == LIMITED),
                pipe.head,
                changed.get(pipe.name, pipe.capacity),
            )
    add(LIMITED, LIMITED + "'", LIMIT)
    for place, most in SOURCES.items():
        add("from all", place, most)
    add(SINK, "to all", DEMAND)
    value, flow = networkx.maximum_flow(
        graph, "from all", "to all", flow_func=networkx.algorithms.flow.edmonds_karp
    )
    # What the source reaches over arcs with residual capacity: the smallest side.
    residual = networkx.DiGraph()
    for tail, head, data in graph.edges(data=True):
        if "capacity" not in data or flow[tail][head] < data["capacity"]:
            residual.add_edge(tail, head)
        if flow[tail][head] > 0:
            residual.add_edge(head, tail)
    residual.add_node("from all")
    return Wanted(
        value,
        networkx.descendants(residual, "from all")
        & {place for pipe in pipes() for place in pipe[1:3]},
    )
