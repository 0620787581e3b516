"""A planner's sheet on the page, over HTTP: value, limit, closures, changes and what is taken
along, beside a second computation in exact fractions. The sources and the sink are in the workbook,
or are named."""

from __future__ import annotations

import csv
import io
import json
import time
from collections.abc import Iterator
from decimal import Decimal
from fractions import Fraction
from pathlib import Path
from typing import Any

import pytest
import town_table as town
from board_running import Board, board
from client_shared import dmf
from dmf.quantity import plain_text

FORMS = ["csv", "xlsx"]
INNER = ("all sources", "all sinks", "supply of", "demand of", "limit of")


@pytest.fixture(scope="module", params=FORMS)
def page(request: Any, tmp_path_factory: pytest.TempPathFactory) -> Iterator[Board]:
    path = tmp_path_factory.mktemp("town")
    words = town.put(path)
    if request.param == "xlsx":
        town.save_xlsx(path / "netz.xlsx")
        words = [f"{path}/netz.xlsx"]
    with board(*words) as it:
        yield it


def told(value: Fraction) -> str:
    """A number as the page has it."""
    return plain_text(Decimal(value.numerator) / Decimal(value.denominator))


def test_value_and_limit(page: Board) -> None:
    state, wanted = page.state(), town.wanted()
    assert (state["value"], state["unit"], state["arcs"], state["places"]) == (
        told(wanted.value),
        "l/s",
        71,
        town.PLACES,
    )
    assert (state["source"], state["sink"]) == ("Quelle Nord and Quelle S\u00fcd", town.SINK)
    assert set(state["side"]) == wanted.side
    assert sum(Fraction(arc["capacity"]) for arc in state["limit"]) == wanted.value
    assert any("rows are the same" in note for note in state["notes"])
    assert not any(word in json.dumps(state) for word in INNER)


def test_closures(page: Board) -> None:
    """What each pipe of the limit, and some others, mean: by closing each in the second
    computation."""
    names = {arc["name"] for arc in page.state()["limit"]} | {"R5", "R20", "R33"}
    while page.told("worth")["is_finding"]:
        time.sleep(0.02)
    rows = page.told("rows?filter=&sort=&first=0&count=500")["rows"]
    without = {row["name"]: row["without"] for row in rows}
    assert {name: without[name] for name in names} == {
        name: told(town.wanted(name).value) for name in names
    }


def test_a_change(page: Board) -> None:
    """Her decimals, also more of them than the table has; and back."""
    name = next(arc["name"] for arc in page.state()["limit"] if arc["name"])
    number = next(arc["number"] for arc in page.state()["limit"] if arc["name"] == name)
    for typed, most in ("0,55", Decimal("0.55")), ("0.125", Decimal("0.125")):
        assert page.do(what="cap", arc=number, capacity=typed)["value"] == told(
            town.wanted(changed={name: most}).value
        )
    assert page.do(what="go", step=0)["value"] == told(town.wanted().value)


def rows_of(page: Board) -> list[dict[str, str]]:
    text = page.ask(page.root + f"plan.csv?turn={page.turn()}")[2].decode()
    return list(csv.DictReader(io.StringIO(text), delimiter=";" if ";from;" in text else ","))


def number(row: dict[str, str], title: str) -> Fraction:
    return Fraction(row[f"{title} (l/s)"].replace(",", "."))


def test_the_exported_table(page: Board, tmp_path: Path) -> None:
    """Cell by cell; its flows are balanced; and it is read again with the same value."""
    rows = rows_of(page)
    pipes = [row for row in rows if row["to"]]
    assert [
        (
            row["name"],
            row["from"],
            row["to"],
            number(row, "capacity"),
            row["L\u00e4nge (m)"],
            row["Bemerkung"],
        )
        for row in pipes
    ] == [
        (pipe.name, pipe.tail, pipe.head, Fraction(pipe.capacity), str(pipe.length), pipe.remark)
        for pipe in town.pipes()
    ]
    balance: dict[str, Fraction] = {}
    for row in pipes:
        flow = number(row, "flow")
        assert 0 <= flow <= number(row, "capacity") and (row["full"] == "yes") == (
            flow == number(row, "capacity")
        )
        balance[row["from"]] = balance.get(row["from"], Fraction(0)) - flow
        balance[row["to"]] = balance.get(row["to"], Fraction(0)) + flow
    assert {place for place, left in balance.items() if left} <= {*town.SOURCES, town.SINK}
    assert (
        balance[town.SINK]
        == town.wanted().value
        == sum(number(row, "capacity") for row in pipes if row["in cut"] == "yes")
    )
    (tmp_path / "plan.csv").write_bytes(page.ask(page.root + f"plan.csv?turn={page.turn()}")[2])
    again: Any = dmf.read_table(tmp_path / "plan.csv")
    with again as network:
        assert Fraction(network.solve().value) == town.wanted().value
        assert (network.sources, network.sinks, network.limits) == (
            town.SOURCES,
            {town.SINK: town.DEMAND},
            {town.LIMITED: town.LIMIT},
        )


def test_the_exported_problem(page: Board, tmp_path: Path) -> None:
    (tmp_path / "again.max").write_bytes(page.ask(page.root + f"problem.max?turn={page.turn()}")[2])
    again: Any = dmf.read(tmp_path / "again.max")
    with again as network:
        assert (Fraction(network.solve().value), network.unit) == (town.wanted().value, "l/s")
        assert (Fraction(network.cut().capacity), set(network.cut().side)) == town.wanted()


def test_the_exported_picture(page: Board) -> None:
    """Its title tells the unit and the table."""
    status, _, text = page.ask(page.root + f"picture.svg?near=&turn={page.turn()}")
    assert "numbers in l/s, from netz." in text.decode() and not any(
        word in text.decode() for word in INNER
    )
