"""Tables of a few places, drawn by a seed, with odd names and cells; and their values, computed a
second time in exact fractions, by networkx."""

from __future__ import annotations

import csv
import io
import random
from decimal import Decimal
from fractions import Fraction
from typing import Any, NamedTuple

import networkx

# Cells of columns that no tool reads: what a spreadsheet would run, numbers, quotes, marks of
# columns, and what looks protected.
CELLS = [
    "",
    "=1+2",
    "-5",
    "+3,2",
    "@x",
    "'=a",
    "'-5",
    "alt; neu",
    'so "gut"',
    "1.125",
    " a ",
    "x",
    "\u00fc\u00df",
    "two\nlines",
]


class Row(NamedTuple):
    """A row of a table of arcs, with two more columns, the titles of which are odd."""

    tail: str
    head: str
    capacity: Decimal
    name: str
    cost: str
    remark: str


class Made(NamedTuple):
    """A table: its rows, and what is said of places."""

    rows: list[Row]
    said: dict[tuple[str, str], Decimal | None]

    def text(self, sign: str) -> str:
        """The table in the form in which planners write it: with rows of places, and other titles
        than the desk's."""

        def cell(number: Decimal | None) -> str:
            return "x" if number is None else str(number).replace(".", sign)

        out = io.StringIO()
        writer = csv.writer(out, delimiter=";" if sign == "," else ",")
        writer.writerow(
            [
                "=Kosten",
                "Von",
                "Nach",
                "Kapazit\u00e4t [m\u00b3/h]",
                "Rohr",
                "full",
                "Angebot",
                "Bedarf",
                "Grenze",
            ]
        )
        for row in self.rows:
            writer.writerow(
                [
                    written(row.cost),
                    written(row.tail),
                    written(row.head),
                    cell(row.capacity),
                    written(row.name),
                    written(row.remark),
                    "",
                    "",
                    "",
                ]
            )
        for (kind, place), most in self.said.items():
            writer.writerow(
                [
                    "",
                    written(place),
                    "",
                    "",
                    "",
                    "",
                    *(cell(most) if kind == it else "" for it in ("supply", "demand", "limit")),
                ]
            )
        return out.getvalue()

    def value(self) -> Fraction:
        """The greatest value, by networkx in fractions."""
        graph = networkx.DiGraph()
        limits = {place: most for (kind, place), most in self.said.items() if kind == "limit"}

        def add(tail: Any, head: Any, most: Decimal | None) -> None:
            if most is None:
                graph.add_edge(tail, head)
            else:
                before = graph[tail][head]["capacity"] if graph.has_edge(tail, head) else 0
                graph.add_edge(tail, head, capacity=before + Fraction(most))

        for row in self.rows:
            add((row.tail, row.tail in limits), (row.head, False), row.capacity)
        for place, most in limits.items():
            add((place, False), (place, True), most)
        for (kind, place), most in self.said.items():
            if kind == "supply":
                add("all", (place, False), most)
            if kind == "demand":
                add((place, place in limits), "end", most)
        value, _ = networkx.maximum_flow(
            graph, "all", "end", flow_func=networkx.algorithms.flow.edmonds_karp
        )
        return Fraction(value)


def written(text: str) -> str:
    """The cell of a text, protected as a spreadsheet needs it."""
    bare = text.lstrip("'")
    is_number = text[:1] in "+-" and text[1:].replace(",", "").isdigit()
    return f"'{text}" if bare[:1] in tuple("=+-@") and not is_number else text


def made(seed: int) -> Made:
    """A table of a few places."""
    chance = random.Random(seed)
    names = ["A", "B\u00fcro", "=C", "d e", "E;1", "'F", "G"]
    ends = [tuple(chance.sample(names, 2)) for _ in range(chance.randrange(8, 20))]
    places = chance.choice([1, 3])
    rows = [
        Row(
            tail,
            head,
            Decimal(chance.randrange(9999)).scaleb(-places),
            chance.choice(["", f"R{at}", "-R"]),
            chance.choice(CELLS),
            chance.choice(CELLS),
        )
        for at, (tail, head) in enumerate(ends)
    ]
    used = sorted({place for row in rows for place in row[:2]})
    chosen = chance.sample(used, 5)
    said: dict[tuple[str, str], Decimal | None] = {
        ("supply", chosen[0]): chance.choice([None, Decimal("12.5")]),
        ("demand", chosen[1]): None,
    }
    if chance.random() < 0.7:
        said |= {
            ("supply", chosen[2]): Decimal(chance.randrange(5000)).scaleb(-2),
            ("demand", chosen[3]): chance.choice([None, Decimal(30)]),
        }
    for place in chance.sample(chosen, chance.randrange(3)):
        said["limit", place] = Decimal(chance.randrange(9000)).scaleb(-3)
    return Made(rows, said)
