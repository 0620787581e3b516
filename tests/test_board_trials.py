"""What other capacities would bring, which a page says while they are typed: beside what scipy
finds, and without a change."""

from __future__ import annotations

from pathlib import Path
from typing import Any
from urllib.parse import urlencode

import pytest
from board_pages import Page
from board_running import Board, board
from board_views import grid_table
from desk_shared import PIPES
from test_board_access import as_before, show
from test_board_ground import rows_of
from test_board_sizes import value_of

pytestmark = pytest.mark.seconds(20)
TEXTS = {"0": 0, "1": 1, "30": 30, "+100 %": None}


def trial(it: Board, arc: int, capacity: str, back: str = "") -> Any:
    return it.told(f"trial?{urlencode({'arc': arc, 'capacity': capacity, 'back': back})}")


def test_trials(tmp_path: Path) -> None:
    """Each value is that of a network with this capacity, and the board stays as it is: a step that
    was undone can be made again."""
    with board(grid_table(tmp_path, 4)) as it:
        rows = rows_of(it)
        it.do(what="close", arc=rows[0]["number"])
        it.do(what="go", step=0)
        before, now = it.state(), value_of(rows)
        for arc in rows[::3]:
            for text, capacity in TEXTS.items():
                wanted = int(arc["capacity"]) * 2 if capacity is None else capacity
                changed = [{**row, "capacity": wanted} if row is arc else row for row in rows]
                expected = value_of(changed)
                by = expected - now
                words = f"{abs(by)} {'more' if by > 0 else 'less'}" if by else "no change"
                told = trial(it, arc["number"], text)
                assert (told["value"], told["moved"]) == (str(expected), words), arc
        assert it.state() == before and len(before["steps"]) == 2
        told = it.do(what="go", step=1)
        closed = [{**row, "closed": row is rows[0]} for row in rows]
        assert int(told["value"]) == value_of(closed)


def test_refused() -> None:
    """What is no capacity is not tried, and the answer says why."""
    with board(PIPES) as it:
        for text, why in ("many", "'many' "), ("-1000", "below 0"), (str(2**70), "is past"):
            told = trial(it, 1, text)
            assert told["value"] == "" and why in told["why_not"], told
        it.do(what="close", arc=1)
        assert "closed" in trial(it, 1, "5")["why_not"]
        status, _, body = it.ask(it.root + "trial?arc=1000&capacity=5&back=")
        assert status in (200, 409) and b"1000" in body
        assert it.state()["at"] == 1


def test_typed(driver: Any, tmp_path: Path) -> None:
    """The page says it while a capacity is typed, before anything is done; and the step brings
    that."""
    with board(grid_table(tmp_path, 4)) as it:
        show(driver, 1280, "light")
        page, rows, limit = Page(driver, it.address), rows_of(it), it.state()["limit"]
        now, arc = page.value(), next(row for row in rows if row["number"] == limit[0]["number"])
        page.write("#text", arc["name"])
        page.choose_found(arc["name"])
        hint = page.text("#capacity-forms")
        assert hint.startswith("or +10 %")
        wider = [
            {**row, "capacity": 2 * int(row["capacity"])} if row is arc else row for row in rows
        ]
        expected = value_of(wider)
        page.write("#capacity", "+100 %")
        page.wait(lambda: page.text("#capacity-forms") not in ("..", hint))
        assert page.text("#capacity-forms") == (
            f"{now} → {expected}: {expected - now} more"
            if expected > now
            else f"{now} → {now}: no change"
        )
        assert page.value() == now and it.state()["at"] == 0
        page.write("#capacity", "wide")
        page.wait(lambda: "'wide'" in page.text("#capacity-forms"))
        page.write("#capacity", arc["capacity"])
        page.wait(lambda: page.text("#capacity-forms") == hint)
        page.write("#capacity", "+100 %")
        assert page.after(lambda: page.press("Set")) == expected
        as_before(driver)


def test_another_tab(driver: Any, tmp_path: Path) -> None:
    """When another tab closes a pipe, what a typed capacity would bring is said of the new state,
    without a key; the text stays."""
    with board(grid_table(tmp_path, 4)) as it:
        show(driver, 1280, "light")
        page, rows, limit = Page(driver, it.address), rows_of(it), it.state()["limit"]
        first, numbers = driver.current_window_handle, [arc["number"] for arc in limit]
        arc, other = ([row for row in rows if row["number"] in numbers])[:2]
        page.write("#text", arc["name"])
        page.choose_found(arc["name"])
        hint = page.text("#capacity-forms")
        page.write("#capacity", "+100 %")
        page.wait(lambda: page.text("#capacity-forms") not in ("..", hint))
        before = page.text("#capacity-forms")
        driver.switch_to.new_window("tab")
        tab = Page(driver, it.address)
        tab.write("#text", other["name"])
        tab.choose_found(other["name"])
        closed = [{**row, "closed": row is other} for row in rows]
        now = tab.after(lambda: tab.press("Close it"))
        assert now == value_of(closed)
        driver.close()
        driver.switch_to.window(first)
        expected = value_of(
            [
                {**row, "capacity": 2 * int(row["capacity"])}
                if row["number"] == arc["number"]
                else row
                for row in closed
            ]
        )
        by = f"{expected - now} more" if expected > now else "no change"
        page.wait(lambda: page.text("#capacity-forms") == f"{now} → {expected}: {by}")
        assert before != page.text("#capacity-forms")
        assert page.driver.execute_script("return capacity.value") == "+100 %"
        as_before(driver)
