"""A German table of decimal numbers with a unit, two sources, a limit of a source and a limit of a
place, and its value by a second computation in exact fractions: the least that any set of
places lets out."""

from __future__ import annotations

import csv
import itertools
from fractions import Fraction
from typing import NamedTuple

TABLE = """Von;Nach;Kapazit\u00e4t (l/s);Leitung;Bemerkung
Mill;Weir;47,3;Main;
New Mill;Weir;30,5;Side;alt
Weir;Town;40,25;Long;
Weir;Port;12,4;Short;"neu; 1998"
Town;Sea;80,25;Out;
Port;Sea;9,15;Exit;
Town;Port;3,1;Link;
"""
LIMITS = "Ort;Grenze\nWeir;55,5\n"
WORDS = ["--source", "Mill", "--source", "New Mill=20,05", "--sink", "Sea", "--node-limits"]
GIVEN = {"New Mill": Fraction("20.05")}
LET_THROUGH = {"Weir": Fraction("55.5")}
# What is never told: the nodes and arcs that join and halve places.
INNER = ("all sources", "all sinks", "supply of", "demand of", "limit of")


class Pipe(NamedTuple):
    tail: str
    head: str
    capacity: Fraction
    name: str


def number(cell: str) -> Fraction:
    """The number in a cell."""
    return Fraction(cell.replace(",", "."))


ROWS = [*csv.reader(TABLE.splitlines()[1:], delimiter=";")]
PIPES = [Pipe(tail, head, number(amount), name) for tail, head, amount, name, _ in ROWS]
REMARKS = {name: remark for *_, name, remark in ROWS}


def greatest(pipes: list[Pipe], through: dict[str, Fraction] = LET_THROUGH) -> Fraction:
    """The greatest value: the least that a set of places lets out which has the sources and not the
    sink. A place may be in it with the node that arcs enter, and without the one that they leave. A
    source that gives little may be left out for what it gives.
    """
    places = sorted(
        {place for pipe in pipes for place in pipe[:2]} | {"Mill", "New Mill"} - {"Sea"}
    )
    choices = [
        ("out", "in", "half") if place in through else ("out", "in")
        for place in places
        if place != "Sea"
    ]

    def carried(chosen: dict[str, str]) -> Fraction:
        left = sum(
            (
                it.capacity
                for it in pipes
                if chosen.get(it.tail) == "in" and chosen.get(it.head, "out") == "out"
            ),
            Fraction(),
        )
        left += sum(
            (most for place, most in through.items() if chosen.get(place) == "half"), Fraction()
        )
        return left + sum((GIVEN[place] for place in GIVEN if chosen[place] == "out"), Fraction())

    sets = (
        dict(zip((place for place in places if place != "Sea"), chosen))
        for chosen in itertools.product(*choices)
    )
    return min(carried(chosen) for chosen in sets if chosen["Mill"] == "in")


def told(number: Fraction) -> str:
    """A number as the tools write it."""
    digits = f"{number.numerator * 10**9 // number.denominator:010}"
    assert Fraction(int(digits), 10**9) == number
    return f"{digits[:-9]}.{digits[-9:]}".rstrip("0").rstrip(".")


VALUE = greatest(PIPES)
CLOSED = {pipe.name: greatest([it for it in PIPES if it != pipe]) for pipe in PIPES}
DOUBLED = {pipe.name: greatest([*PIPES, pipe]) for pipe in PIPES}
# By hand: 40.25 over Long, 9.15 over Exit, of which the limit of the Weir leaves room.
LIMIT = {"Long", "Exit"}
