"""A board at each width, light and dark, on networks of 5 to 10,000 arcs: what can be done by
clicks and keys, with the values that scipy finds. The gate has some of these, and --long all."""

from __future__ import annotations

import itertools
from pathlib import Path
from typing import Any, NamedTuple

import pytest
from board_pages import Page
from board_running import Board, board
from board_views import HEIGHTS, is_in, spots
from packages import load
from test_board_access import (
    ENTER,
    ESCAPE,
    RIGHT,
    SCHEMES,
    WIDTHS,
    as_before,
    judge_colours,
    judge_tree,
    show,
)
from test_board_ground import city, rows_of

sparse = load("scipy.sparse")
csgraph = load("scipy.sparse.csgraph")
SMALL = (
    "from,to,litres,pipe\nLake,Mill,9,one\nLake,Town,4,two\nMill,Town,3,three\nMill,Sea,5,four\n"
    "Town,Sea,8,five\n"
)
# By how many arcs a network has: the side of its square of places. Of those that lie on a map all
# arcs are drawn.
SIDES = {5: 0, 98: 7, 2_048: 32, 10_082: 71}
IN_GATE = [(5, 1280, "light"), (98, 400, "dark")]


class Case(NamedTuple):
    """A network of so many arcs, on a page of a width and a scheme of colours."""

    arcs: int
    width: int
    scheme: str


def pytest_generate_tests(metafunc: pytest.Metafunc) -> None:
    if "case" in metafunc.fixturenames:
        chosen = (
            itertools.product(SIDES, WIDTHS, SCHEMES)
            if metafunc.config.getoption("--long")
            else IN_GATE
        )
        metafunc.parametrize(
            "case", [Case(*it) for it in chosen], ids=lambda it: "-".join(map(str, it))
        )


def value_of(rows: list[Any]) -> int:
    """The greatest value over open arcs."""
    opened = [row for row in rows if not row["closed"]]
    nodes = {
        name: node
        for node, name in enumerate(
            dict.fromkeys(["Lake", "Sea", *(row[end] for row in rows for end in ("tail", "head"))])
        )
    }
    tails, heads = ([nodes[row[end]] for row in opened] for end in ("tail", "head"))
    # Arcs with the same ends are added up.
    size = len(nodes), len(nodes)
    capacities = sparse.coo_array(
        ([int(row["capacity"]) for row in opened], (tails, heads)), shape=size, dtype="int32"
    )
    return int(csgraph.maximum_flow(capacities.tocsr(), 0, 1).flow_value)


@pytest.mark.seconds(15)
def test_case(driver: Any, tmp_path: Path, case: Case) -> None:
    words = city(tmp_path, SIDES[case.arcs])
    if case.arcs == 5:
        (tmp_path / "city.csv").write_text(SMALL)
        words = words[2:]
    with board(*words) as it:
        show(driver, case.width, case.scheme)
        page = Page(driver, it.address)
        rows = rows_of(it)
        assert (len(rows), page.value()) == (case.arcs, value_of(rows))
        limit = it.state()["limit"]
        judge_one(page, it, rows, limit[0])
        judge_many(page, it, rows)
        judge_worth(page, it, rows)
        judge_keys(page, it)
        judge_looks(page, case)
        as_before(driver)


def judge_one(page: Page, it: Board, rows: list[Any], arc: Any) -> None:
    """An arc is found by its name, and closed by a click: no place moves, and another tab's step
    comes by itself."""
    before = spots(it)
    page.write("#text", arc["name"].upper())
    page.wait(lambda: page.text("#found button").startswith(arc["name"] + ","))
    page.click("#found button")
    page.wait(lambda: page.text("#what h3") == arc["name"])
    closed = [{**row, "closed": row["number"] == arc["number"]} for row in rows]
    assert page.after(lambda: page.press("Close it")) == value_of(closed)
    page.wait(lambda: page.text("#what .chips") == "closed")
    now = spots(it)
    assert {place: now[place] for place in now if place in before} == {
        place: before[place] for place in before if place in now
    }
    it.do(what="go", step=0)
    page.wait(lambda: page.value() == value_of(rows))
    page.settle()
    late = it.do(what="close", arc=arc["number"], turn=it.turn() - 1)
    assert late["error"] == "the network has changed in another tab: look again"


def judge_many(page: Page, it: Board, rows: list[Any]) -> None:
    """All of the limit are chosen by a filter, and changed in one step, which one click takes
    back."""
    page.write("#filter", "limit")
    page.wait(lambda: page.text("#filter-told").endswith("limit."))
    limit = {arc["number"] for arc in it.state()["limit"]}
    page.press("Choose all of these")
    page.wait(lambda: page.text("#many-told").startswith(f"{len(limit)} chosen, {len(limit)} open"))
    page.write("#many-capacity", "+100 %")
    wider = [
        {**row, "capacity": int(row["capacity"]) * (2 if row["number"] in limit else 1)}
        for row in rows
    ]
    assert page.after(lambda: page.press(f"Set {len(limit)}")) == value_of(wider)
    assert len(it.state()["steps"]) == 2
    assert page.undo() == value_of(rows)
    page.press("Choose none")
    page.write("#filter", " ")


def judge_worth(page: Page, it: Board, rows: list[Any]) -> None:
    """The worst to lose is one than which none of a sample costs more, by the other computation;
    and what a second one beside one of the limit brings is what that finds."""
    page.know_worth()
    (worst, *_) = it.told("worth")["worst"]
    without = value_of([{**row, "closed": row["number"] == worst["number"]} for row in rows])
    assert int(worst["without"]) == without
    limit = it.state()["limit"]
    for one in limit[:: max(1, len(limit) // 4)]:
        assert (
            value_of([{**row, "closed": row["number"] == one["number"]} for row in rows]) >= without
        )
    page.press("What would a second one bring?")
    page.wait(lambda: page.text("#seconds-told").startswith(("Best", "A second")))
    page.settle()
    brings = page.text("#limit-table tbody tr td:last-child").partition(" more")[0]
    first = next(row for row in rows if row["number"] == limit[0]["number"])
    assert value_of([*rows, first]) == value_of(rows) + int(brings.replace("nothing", "0"))
    cut = (
        "const it = document.getElementById('limit-table').parentElement; return "
        "it.scrollWidth - it.clientWidth"
    )
    assert page.driver.execute_script(cut) <= 0
    assert page.value() == value_of(rows)


def judge_keys(page: Page, it: Board) -> None:
    """Arrow keys go to places, Enter chooses one, and Escape none; plus and minus size the
    picture."""
    driver = page.driver
    before = page.text("#what h3")
    driver.find_element("id", "picture").send_keys("0", RIGHT)
    page.wait(lambda: page.focused_id().startswith("node-"))
    page.actions().send_keys(ENTER).perform()
    page.wait(lambda: page.text("#what h3") not in ("", before))
    place = page.text("#what h3")
    assert place in it.told(f"find?text={place}")["found"][0]["label"]
    page.settle()
    seen = "return document.querySelector('#picture svg').viewBox.baseVal.width"
    wide = driver.execute_script(seen)
    page.actions().send_keys("++").perform()
    assert driver.execute_script(seen) == pytest.approx(wide / 1.4 / 1.4, rel=0.01)
    page.actions().send_keys(ESCAPE).perform()
    page.wait(lambda: page.text("#what").startswith("Click a pipe"))
    page.press("All")
    assert all(
        is_in(page, f"#{node.get_attribute('id')}")
        for node in driver.find_elements("css selector", "#picture .node")[:40]
    )


def judge_looks(page: Page, case: Case) -> None:
    """Letters can be read, colours are told apart, controls have names, and the page is as wide as
    it may be."""
    driver = page.driver
    page.click("#limit-table button")
    page.wait(lambda: driver.find_elements("css selector", "#picture .chosen"))
    page.press("The bottleneck")
    driver.execute_async_script("requestAnimationFrame(() => requestAnimationFrame(arguments[0]))")
    assert min(driver.execute_script(HEIGHTS)) >= 10.99
    judge_colours(page, case.width)
    page.write("#text", "e")
    page.wait(lambda: page.text("#found button"))
    page.write("#filter", "full")
    page.press("Choose all of these")
    page.wait(lambda: page.text("#many-told"))
    judge_tree(driver)
    assert driver.execute_script("return document.documentElement.scrollWidth") <= case.width
