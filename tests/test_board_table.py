"""The table of all arcs on a board: which rows a filter shows, in which order, and what is done to
many arcs at once, by plain requests. What is wanted comes from the table's file and from all sets
of places."""

from __future__ import annotations

import json
import math
import time
from collections.abc import Callable
from fractions import Fraction
from pathlib import Path
from typing import Any
from urllib.parse import quote

import pytest
from board_running import Board, board
from desk_shared import PIPES, Pipe, greatest, swept, water, without

pytestmark = pytest.mark.seconds(20)


def rows(it: Board, text: str = "", sort: str = "", first: int = 0, count: int = 500) -> Any:
    return it.told(f"rows?filter={quote(text)}&sort={sort}&first={first}&count={count}")


def names(told: Any) -> list[str]:
    return [row["name"] for row in told["rows"]]


# Filters, and of which pipes each is so in the plan of today. The limit and what is full were
# reckoned from the sets of places.
FILTERS: list[tuple[str, Callable[[Pipe], bool], str]] = [
    ("", lambda pipe: True, ""),
    ("capacity < 60", lambda pipe: pipe.capacity < 60, "capacity < 60"),
    ("capacity<60", lambda pipe: pipe.capacity < 60, "capacity < 60"),
    (
        "CAPACITY >= 60 and capacity <= 90",
        lambda pipe: 60 <= pipe.capacity <= 90,
        "capacity >= 60 and capacity <= 90",
    ),
    (
        "capacity => 60 and capacity=<90",
        lambda pipe: 60 <= pipe.capacity <= 90,
        "capacity => 60 and capacity =< 90",
    ),
    (
        "capacity \u2265 60 and capacity \u2264 90",
        lambda pipe: 60 <= pipe.capacity <= 90,
        "capacity \u2265 60 and capacity \u2264 90",
    ),
    ("from ~ mill", lambda pipe: pipe.tail == "Mill", "from ~ mill"),
    ("MILL", lambda pipe: "Mill" in f"{pipe.name}{pipe.tail}{pipe.head}", "'MILL' in the name"),
    ("m\u00edll lane", lambda pipe: pipe.name == "Mill Lane", "'m\u00edll lane' in the name"),
    ("limit", lambda pipe: pipe.name in ("North rise", "Mill Lane", "South main"), "limit"),
    (
        "Bottleneck",
        lambda pipe: pipe.name in ("North rise", "Mill Lane", "South main"),
        "bottleneck",
    ),
    (
        "to ~ harbour and capacity = 60",
        lambda pipe: pipe.name == "South main",
        "to ~ harbour and capacity = 60",
    ),
    ("closed", lambda pipe: False, "closed"),
    ("changed", lambda pipe: False, "changed"),
    ("no such name", lambda pipe: False, "'no such name' in the name"),
    # In quotes, as dmf-plan takes them, and in the words of the table's titles.
    ('name ~ "MÍLL LANE"', lambda pipe: pipe.name == "Mill Lane", "name ~ MÍLL LANE"),
    (
        '"Mill Lane" and fits < 60',
        lambda pipe: pipe.name == "Mill Lane",
        "'Mill Lane' in the name and capacity < 60",
    ),
    ('"rise and mill"', lambda pipe: False, "'rise and mill' in the name"),
    (
        "FITS >= 60 and carries <= 90",
        lambda pipe: 60 <= pipe.capacity <= 90,
        "capacity >= 60 and capacity <= 90",
    ),
    ("flows < 0", lambda pipe: False, "flow < 0"),
    ("not capacity < 60", lambda pipe: pipe.capacity >= 60, "not capacity < 60"),
    ("Not mill", lambda pipe: "Mill" not in str(pipe), "not 'mill' in the name"),
    (
        "limit and not mill lane",
        lambda pipe: pipe.name in ("North rise", "South main"),
        "limit and not 'mill lane' in the name",
    ),
    ("added", lambda pipe: False, "added"),
    ("capacity > before", lambda pipe: False, "capacity > before"),
    ("flow = before", lambda pipe: True, "flow = before"),
]
# Filters without a meaning, and what is said.
WRONG = [
    ("capacity < many", "'many' is not a number"),
    ("capacity <", "'capacity <' is not a condition"),
    ("capacity ~ 5", "'capacity ~ 5' is not a condition of the filter"),
    ("use ~ 5", "'use ~ 5' is not a condition"),
    ("use > most", "'most' is not a number"),
    ("use > 80 l/s", "'80 l/s' is not a number"),
    ("name > before", "'name > before' is not a condition"),
    ("length < 5", "'length < 5' is not a condition"),
    ("capacity < 1,200", "may be 1.2 or 1200"),
]


def test_lost() -> None:
    """A filter and the order take what is lost without a pipe, by all sets of places; until that is
    known, the table says so. A closed pipe is never meant. Each row says what was changed."""
    with board(PIPES) as it:
        assert rows(it, "lost > 10")["fault"] == "what is lost without each one is not known yet"
        while it.told("worth")["is_finding"]:
            time.sleep(0.02)
        lost = {pipe.name: 165 - without for pipe in water() for without in [swept()[pipe.name][0]]}
        assert set(names(rows(it, "lost > 10"))) == {name for name in lost if lost[name] > 10}
        assert set(names(rows(it, "not lost >= 45"))) == {name for name in lost if lost[name] < 45}
        by_loss = [lost[name] for name in names(rows(it, sort="-lost"))]
        assert by_loss == sorted(lost.values(), reverse=True)
        it.do(what="close", arc=2)
        it.do(what="cap", arc=3, capacity="70")
        it.do(what="double", arc=1)
        while it.told("worth")["is_finding"]:
            time.sleep(0.02)
        assert "Lower main" not in names(rows(it, "lost >= 0"))
        changes = [row["change"] for row in rows(it, sort="change")["rows"]]
        assert changes == ["closed", "new", "was 60"] + [""] * 12


def test_filters() -> None:
    """A filter shows just the pipes of which it is so, and the table says how it understands it."""
    with board(PIPES) as it:
        for text, is_so, reading in FILTERS:
            told = rows(it, text)
            assert names(told) == [pipe.name for pipe in water() if is_so(pipe)], text
            assert (told["total"], told["reading"], told["fault"]) == (
                len(told["rows"]),
                reading,
                "",
            ), text
        full = [row for row in rows(it)["rows"] if row["flow"] == row["capacity"]]
        assert rows(it, "full")["rows"] == full and full
        for text, wanted in WRONG:
            told = rows(it, text)
            assert (told["total"], wanted in told["fault"]) == (0, True), told
        for path in (
            "rows?filter=&sort=x&first=0&count=5",
            "rows?filter=&sort=&first=0&count=501",
            "rows?filter=&sort=&first=0",
        ):
            assert it.ask(it.root + path)[0] == 400, path


def used(row: Any) -> Fraction:
    """How much of a capacity is used, in hundredths, by what the table says."""
    return Fraction(row["flow"]) * 100 / Fraction(row["capacity"])


SHARES: list[tuple[str, Callable[[Fraction], bool]]] = [
    ("use > 80", lambda share: share > 80),
    ("USE<=75 %", lambda share: share <= 75),
    ("use = 100", lambda share: share == 100),
    ("use >= 50 and not use >= 80", lambda share: 50 <= share < 80),
    ("use < 33.3", lambda share: share < Fraction("33.3")),
]


def test_use(tmp_path: Path) -> None:
    """How much is used is compared exactly, of whole amounts and of decimals. What is closed uses
    nothing of its capacity, and is not meant."""
    decimals = tmp_path / "decimals.csv"
    decimals.write_text("from,to,litres\nA,B,0.3\nA,C,0.9\nB,D,1.2\nC,D,0.6\nC,B,2\n")
    for table in PIPES, str(decimals):
        with board(table) as it:
            it.do(what="close", arc=2)
            of_all = rows(it)["rows"]
            assert [row["number"] for row in of_all if row["closed"]] == [2]
            for text, is_so in SHARES:
                wanted = [row for row in of_all if not row["closed"] and is_so(used(row))]
                assert rows(it, text)["rows"] == wanted, (table, text)


def test_since_the_beginning() -> None:
    """The table tells what was added, made wider and narrower, and where more and less flows than
    at the beginning. A board that does not know the flows there says so."""
    with board(PIPES) as it:
        before = {row["number"]: int(row["flow"]) for row in rows(it)["rows"]}
        assert "error" not in it.do(what="cap", arc=9, capacity="+30")
        assert "error" not in it.do(what="cap", arc=12, capacity="-5")
        assert "error" not in it.do(what="double", arc=1)
        assert "error" not in it.do(what="close", arc=3)
        now = {row["number"]: int(row["flow"]) for row in rows(it)["rows"]}
        added = max(now)
        assert added not in before
        wanted = {
            "added": {added},
            "capacity > before": {9},
            "capacity < before": {12},
            "changed": {3, 9, 12, added},
            "flow > before": {it for it, flow in now.items() if flow > before.get(it, 0)},
            "flow < before": {it for it, flow in now.items() if flow < before.get(it, 0)},
        }
        for text, numbers in wanted.items():
            assert {row["number"] for row in rows(it, text)["rows"]} == numbers, text
        marks = {arc["number"]: arc["mark"] for arc in it.told("picture?near=")["arcs"]}
        signs = {number: mark[2] for number, mark in marks.items()}
        assert [signs[number] for number in (3, 9, 12, added)] == ["c", "w", "n", "a"]
        for number in now.keys() - {3, 9, 12, added}:
            by = now[number] - before[number]
            assert signs[number] == ("+" if by > 0 else "-" if by < 0 else "."), number
        # The square root of a capacity against the largest, and the tenths of it that are used.
        most = max(int(row["capacity"]) for row in rows(it)["rows"])
        for row in rows(it)["rows"]:
            capacity, flow = int(row["capacity"]), int(row["flow"])
            _, use, _, width, way = marks[row["number"]]
            assert way == ">"
            assert int(width) == round(9 * math.sqrt(capacity / most)), row
            assert int(use) == min(9, 10 * flow // capacity), row


@pytest.mark.parametrize("capacity", ["4.5", "4.25"])
def test_since_the_beginning_with_more_decimals(capacity: str) -> None:
    """A capacity may have more decimals than the table, which makes all numbers of the session
    finer: what flowed at the beginning is compared with what flows now as amounts."""
    with board(PIPES) as it:
        before = {row["number"]: Fraction(row["flow"]) for row in rows(it)["rows"]}
        assert "error" not in it.do(what="cap", arc=2, capacity=capacity)
        now = {row["number"]: Fraction(row["flow"]) for row in rows(it)["rows"]}
        wanted = {
            "flow > before": {arc for arc, flow in now.items() if flow > before[arc]},
            "flow < before": {arc for arc, flow in now.items() if flow < before[arc]},
            "flow = before": {arc for arc, flow in now.items() if flow == before[arc]},
        }
        assert wanted["flow < before"] and wanted["flow = before"]
        for text, numbers in wanted.items():
            assert {row["number"] for row in rows(it, text)["rows"]} == numbers, text
        marks = {arc["number"]: arc["mark"] for arc in it.told("picture?near=")["arcs"]}
        for number in now.keys() - {2}:
            by = now[number] - before[number]
            assert marks[number][2] == ("+" if by > 0 else "-" if by < 0 else "."), number


def test_order(tmp_path: Path) -> None:
    """By a column, forward and back; names by their numbers, amounts by their size, and else as in
    the file. A part has just its rows."""
    with board(PIPES) as it:
        by_name = sorted((pipe.name for pipe in water()), key=str.casefold)
        assert (names(rows(it, sort="name")), names(rows(it, sort="-name"))) == (
            by_name,
            by_name[::-1],
        )
        amounts = [int(row["capacity"]) for row in rows(it, sort="-capacity")["rows"]]
        assert amounts == sorted((pipe.capacity for pipe in water()), reverse=True)
        ends = [row["tail"] for row in rows(it, "capacity < 60", "from")["rows"]]
        assert ends == sorted(pipe.tail for pipe in water() if pipe.capacity < 60)
        assert names(rows(it, sort="name", first=3, count=4)) == by_name[3:7]
        numbers = it.told("numbers?filter=&sort=name&first=3&count=4")["numbers"]
        assert [water()[number - 1].name for number in numbers] == by_name[3:7]
    table = tmp_path / "numbers.csv"
    table.write_text("from,to,litres,pipe\nA,B,9.5,p10\nA,B,10,p9\nA,B,0.5,P1\n")
    with board(str(table)) as it:
        assert names(rows(it, sort="name")) == ["P1", "p9", "p10"]
        assert [row["capacity"] for row in rows(it, sort="capacity")["rows"]] == [
            "0.5",
            "9.5",
            "10",
        ]


def changed(names_of: set[str], to: Callable[[int], int]) -> int:
    """The greatest value of the water story where some pipes have other capacities."""
    return greatest(
        [
            pipe._replace(capacity=to(pipe.capacity)) if pipe.name in names_of else pipe
            for pipe in water()
        ]
    )


def test_many() -> None:
    """What is done to many is one step, which one undo takes back; and nothing is done where one of
    them does not allow it."""
    with board(PIPES) as it:
        pipes = {pipe.name: number for number, pipe in enumerate(water(), 1)}
        three = ["North rise", "Bridge pipe", "Mill Lane"]
        arcs = [pipes[name] for name in three]
        told = it.do(what="close-all", arcs=arcs)
        assert (told["value"], told["at"], told["steps"][1]["text"]) == (
            str(without(*three)),
            1,
            "close 3 arcs (North rise, Bridge pipe and Mill Lane)",
        )
        assert (
            names(rows(it, "closed"))
            == names(rows(it, "changed"))
            == sorted(three, key=pipes.__getitem__)
        )
        assert "is closed" in it.do(what="close-all", arcs=[1, arcs[0]])["error"]
        assert "is open" in it.do(what="open-all", arcs=[arcs[0], 1])["error"]
        many = json.loads(it.post("many", arcs=[1, *arcs])[1])
        assert (many["open"], many["closed"], many["capacity"]) == (
            [1],
            arcs,
            str(water()[0].capacity),
        )
        told = it.do(what="open-all", arcs=arcs)
        assert (told["value"], told["at"]) == ("165", 2)
        # What was opened again has other numbers, and is as it was.
        many = json.loads(it.post("many", arcs=[1, *arcs])[1])
        assert (many["open"], many["closed"], names(rows(it, "changed"))) == (
            [1, 15, 16, 17],
            [],
            [],
        )
        assert it.do(what="go", step=0)["value"] == "165"
        assert json.loads(it.post("many", arcs=[1, 15, *arcs])[1])["open"] == [1, *arcs]
        wanted = changed({*three}, lambda capacity: capacity + 20)
        told = it.do(what="cap-all", arcs=arcs, capacity="+20")
        assert (told["value"], told["steps"][1]["text"]) == (
            str(wanted),
            "3 arcs (North rise, Bridge pipe and Mill Lane): +20",
        )
        assert it.do(what="go", step=0)["value"] == "165"
        error = it.do(what="cap-all", arcs=arcs, capacity="-50")["error"]
        assert (error, it.state()["at"]) == (
            "Bridge pipe: '-50' changes 20 to -30, which is below 0",
            0,
        )
        told = it.do(what="double-all", arcs=arcs)
        assert (told["value"], told["at"], told["arcs"]) == (
            str(changed({*three}, lambda capacity: 2 * capacity)),
            1,
            17,
        )
        assert len(rows(it, "changed")["rows"]) == 3
        # One alone is told as before.
        assert it.do(what="close-all", arcs=[1])["steps"][2]["text"] == "close Upper main"
        for arcs_of in [], [1, 99], [0], [-1]:
            assert "error" in it.do(what="close-all", arcs=arcs_of), arcs_of
        assert it.state()["at"] == 2


def test_many_forms() -> None:
    with board(PIPES) as it:
        for arcs, wanted in (
            ([1, 1], "is in the list twice"),
            (["1"], "whole numbers"),
            ([True], "whole numbers"),
            ("1", "a list of arcs"),
        ):
            for path in "do", "many":
                content: dict[str, Any] = {"what": "close-all"} if path == "do" else {}
                status, told = it.post(path, arcs=arcs, **content)
                assert status == 400 and wanted.encode() in told, (path, arcs, told)
