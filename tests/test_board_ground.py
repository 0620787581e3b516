"""All arcs of a network on a map: how each looks by a second computation, and drawn, moved in,
clicked and walked over by headless Chromium."""

from __future__ import annotations

import random
from pathlib import Path
from typing import Any

import networkx
import pytest
from board_pages import Page
from board_running import Board, board
from conftest import ROOT

pytestmark = pytest.mark.seconds(20)
# The pixel of the canvas at the middle of an arc, or at a place, and where that is in the window;
# arcs go by their ends here.
SPOT = """
const places = arguments[0].map((node) => ground.nodes.indexOf(node));
const told = places.map((place) => [ground.right[place], ground.down[place]]);
const [x, y] = [0, 1].map((axis) => told.reduce((sum, spot) => sum + spot[axis], 0) / told.length);
const host = document.getElementById("picture").getBoundingClientRect();
const box = document.querySelector("#picture svg").viewBox.baseVal, by = host.width / box.width;
const [right, down] = [(x - box.x) * by, (y - box.y) * by];
"""
PLACE = "const ground = arguments[1];" + SPOT + "return [host.left + right, host.top + down];"
PIXELS = (
    "const ground = arguments[1];"
    + SPOT
    + """
const canvas = document.getElementById("ground"), from = canvas.getBoundingClientRect();
const [aside, below] = [host.left + right - from.left, host.top + down - from.top];
const near = canvas.getContext("2d").getImageData(aside - 2, below - 2, 5, 5).data;
return Array.from({ length: 25 }, (_, place) => [...near.slice(4 * place, 4 * place + 3)]);
"""
)
LIMIT = {"light": [200, 67, 11], "dark": [255, 141, 77]}


def city(folder: Path, side: int) -> list[str]:
    """The words of a board for a square of places that lie as on the map beside it, with an arc to
    the right and one down from each."""
    chance = random.Random(side)
    rows, spots = ["from,to,litres,pipe"], [
        "place,lon,lat",
        f"Lake,7,{47 + side / 200}",
        f"Sea,{7.2 + side / 100},{47 + side / 200}",
    ]
    for row in range(side):
        rows += [f"Lake,P{row}_0,30,in {row}", f"P{row}_{side - 1},Sea,30,out {row}"]
        for column in range(side):
            right = 7.1 + column / 100 + chance.uniform(0, 0.004)
            spots.append(f"P{row}_{column},{right:.5f},{47 + (side - row) / 100:.5f}")
            rows += [
                f"P{row}_{column},P{row}_{column + 1},{chance.randint(3, 12)},right {row} {column}"
            ] * (column + 1 < side)
            rows += [
                f"P{row}_{column},P{row + 1}_{column},{chance.randint(3, 12)},down {row} {column}"
            ] * (row + 1 < side)
    (folder / "city.csv").write_text("\n".join(rows) + "\n")
    (folder / "map.csv").write_text("\n".join(spots) + "\n")
    return ["--map", str(folder / "map.csv"), str(folder / "city.csv")]


def rows_of(it: Board) -> list[Any]:
    """All rows of the board's table."""
    total = it.told("rows?filter=&sort=&first=0&count=1")["total"]
    return [
        row
        for first in range(0, total, 500)
        for row in it.told(f"rows?filter=&sort=&first={first}&count=500")["rows"]
    ]


def reached(rows: list[Any]) -> set[str]:
    """The places before the smallest limit: those that more can be sent to beside a greatest flow,
    which networkx finds."""
    graph = networkx.DiGraph()
    for row in rows:
        if not row["closed"]:
            before = graph.get_edge_data(row["tail"], row["head"], {"capacity": 0})["capacity"]
            graph.add_edge(row["tail"], row["head"], capacity=before + int(row["capacity"]))
    residual = networkx.algorithms.flow.shortest_augmenting_path(graph, "Lake", "Sea")
    left = networkx.DiGraph(
        (tail, head)
        for tail, head, told in residual.edges(data=True)
        if told["flow"] < told["capacity"]
    )
    return {"Lake", *(networkx.descendants(left, "Lake") if "Lake" in left else ())}


def sign(row: Any, side: set[str]) -> str:
    """How an arc looks by what the table says of it, and by the places before the limit."""
    if row["closed"]:
        return "c"
    if row["tail"] in side and row["head"] not in side:
        return "l"
    return "u" if row["flow"] == "0" else "F" if row["flow"] == row["capacity"] else "f"


def judge_looks(it: Board) -> None:
    """Each arc looks as the table and a second computation say, also those that were added, and
    each place."""
    ground, looks, rows = it.told("ground"), it.told("looks"), rows_of(it)
    side, count = reached(rows), len(ground["tails"])
    told = {number: look for number, look in enumerate(looks["arcs"], 1) if look != " "}
    told.update((number, mark[0]) for number, _, _, mark in looks["added"])
    assert told == {row["number"]: sign(row, side) for row in rows}
    names = dict(zip(ground["nodes"], ground["names"]))
    ends = {
        number: (names[tail], names[head])
        for number, (tail, head) in enumerate(zip(ground["tails"], ground["heads"]), 1)
        if number in told
    }
    ends.update((number, (names[tail], names[head])) for number, tail, head, _ in looks["added"])
    assert (
        ends == {row["number"]: (row["tail"], row["head"]) for row in rows}
        and count < len(rows) + 9
    )
    assert {name for name, look in zip(ground["names"], looks["places"]) if look == "b"} == side


def test_looks(tmp_path: Path) -> None:
    """All arcs are told with how they look, after each kind of step; no step moves a place."""
    with board(*city(tmp_path, 14)) as it:
        ground = it.told("ground")
        judge_looks(it)
        limit = [arc["number"] for arc in it.state()["limit"]]
        steps: list[dict[str, Any]] = [
            {"what": "close-all", "arcs": limit[:3]},
            {"what": "open", "arc": limit[0]},
            {"what": "double-all", "arcs": limit[4:7]},
            {"what": "cap-all", "arcs": limit[4:], "capacity": "+9"},
            {"what": "go", "step": 1},
        ]
        for step in steps:
            assert "error" not in it.do(**step)
            judge_looks(it)
        node = dict(zip(ground["names"], ground["nodes"]))
        assert "error" not in it.do(what="shut", node=node["P3_3"])
        assert it.told("looks")["places"][ground["names"].index("P3_3")] == "s"
        assert it.told("ground") == {**ground, "turn": it.turn()}


def test_not_there(tmp_path: Path) -> None:
    """Without a map there is nothing to be drawn, nor where the map says of the fewer places where
    they lie, or the picture has all."""
    words = city(tmp_path, 14)
    spots = (tmp_path / "map.csv").read_text().splitlines()
    (tmp_path / "few.csv").write_text("\n".join(spots[: len(spots) // 2 - 1]) + "\n")
    small = tmp_path / "small"
    small.mkdir()
    for given in words[2:], ["--map", str(tmp_path / "few.csv"), words[2]], city(small, 5):
        with board(*given) as it:
            assert not it.told("picture?near=")["has_ground"]
            assert "the positions of the places are not known" in it.told("ground")["error"]


def test_missing_places(tmp_path: Path) -> None:
    """A place that is not on the map lies among its neighbours, in the picture as on the ground."""
    words = city(tmp_path, 14)
    spots = (tmp_path / "map.csv").read_text().splitlines()
    (tmp_path / "map.csv").write_text(
        "\n".join(it for it in spots if not it.startswith(("P5_5,", "P5_6,", "Sea,"))) + "\n"
    )
    with board(*words) as it:
        ground = it.told("ground")
        spot = {
            name: (x, y) for name, x, y in zip(ground["names"], ground["right"], ground["down"])
        }
        for name, beside in ("P5_5", "P4_5 P6_5 P5_4"), ("Sea", "P0_13 P13_13"):
            near = [spot[one] for one in beside.split()]
            for axis in 0, 1:
                least, most = (of(one[axis] for one in near) for of in (min, max))
                assert least - 150 <= spot[name][axis] <= most + 150, (name, spot[name], near)
        assert len(set(spot.values())) == len(spot)


@pytest.mark.parametrize("side", [32, pytest.param(71, marks=pytest.mark.seconds(30))])
def test_drawn(driver: Any, tmp_path: Path, request: pytest.FixtureRequest, side: int) -> None:
    """At each width, light and dark, all arcs are drawn: the limit in red. A click chooses an arc
    or a place, a step shows at once, what is chosen is fitted, and the arrow keys walk to places
    that the picture had not."""
    widths = [1280, 768, 400] if request.config.getoption("--long") or side < 50 else [768]
    with board(*city(tmp_path, side)) as it:
        ground = it.told("ground")
        for width in widths:
            for scheme in LIMIT:
                driver.execute_cdp_cmd(
                    "Emulation.setDeviceMetricsOverride",
                    {"width": width, "height": 900, "deviceScaleFactor": 1, "mobile": False},
                )
                driver.execute_cdp_cmd(
                    "Emulation.setEmulatedMedia",
                    {"features": [{"name": "prefers-color-scheme", "value": scheme}]},
                )
                page = Page(driver, it.address)
                assert f"All {len(ground['tails']):,} are drawn" in page.text("#drawn-note")
                judge_drawn(page, it, ground, LIMIT[scheme])
                judge_walk(page, ground)
        driver.execute_cdp_cmd("Emulation.clearDeviceMetricsOverride", {})
        driver.execute_cdp_cmd("Emulation.setEmulatedMedia", {"features": []})
        driver.get("about:blank")


def test_wide_again(driver: Any, tmp_path: Path) -> None:
    """A view that has moved in shows what is near its middle, and a wide one what is near the
    bottleneck again."""
    with board(*city(tmp_path, 32)) as it:
        page = Page(driver, it.address)
        limit = f"#arc-{it.state()['limit'][0]['number']}"
        for _ in range(9):
            page.press("Larger")
        page.wait(lambda: driver.find_element("id", "near-limit").is_displayed())
        page.wait(lambda: not driver.find_elements("css selector", limit))
        driver.find_element("id", "picture").send_keys("0")
        page.wait(lambda: driver.find_elements("css selector", limit))
        assert not driver.find_element("id", "near-limit").is_displayed()
        driver.get("about:blank")


INK = """
const canvas = document.getElementById("ground");
if (canvas.hidden) return 0;
const { data } = canvas.getContext("2d").getImageData(0, 0, canvas.width, canvas.height);
return data.filter((part, at) => at % 4 === 3 && part > 0).length;
"""


def test_without_graphviz(driver: Any, tmp_path: Path, monkeypatch: pytest.MonkeyPatch) -> None:
    """Without Graphviz a map is drawn all the same, also a small one, and without a map only the
    picture is missing. The page says what installs Graphviz."""
    words = city(tmp_path, 5)
    programs = tmp_path / "programs"
    programs.mkdir()
    for program in Path("/usr/bin").iterdir():
        if program.name not in ("dot", "neato", "sfdp"):
            (programs / program.name).symlink_to(program)
    monkeypatch.setenv("PATH", str(programs))
    for given, is_drawn in (words, True), (words[2:], False):
        with board(*given) as it:
            driver.get(it.address)
            page = Page.__new__(Page)
            page.driver = driver
            page.wait(lambda: "apt install graphviz" in page.text("#drawn-note"))
            page.settle()
            page.write("#text", "right 2 2")
            page.choose_found("right 2 2")
            page.settle()
            if is_drawn:
                page.wait(lambda: driver.execute_script(INK) > 2_000)
            driver.execute_async_script("requestAnimationFrame(() => setTimeout(arguments[0], 50))")
            assert (driver.execute_script(INK) > 2_000) == is_drawn
            before = page.value()
            page.press("Close it")
            page.wait(lambda: page.text("#what .chips") == "closed")
            assert page.undo() == before
            driver.get("about:blank")


def test_pictures(driver: Any, tmp_path: Path, writes: bool) -> None:
    """The pictures of the documents, which are made at least, and with --write put."""
    with board(*city(tmp_path, 71)) as it:
        driver.execute_cdp_cmd(
            "Emulation.setDeviceMetricsOverride",
            {"width": 1000, "height": 860, "deviceScaleFactor": 1, "mobile": False},
        )
        page = Page(driver, it.address)
        for name, larger in ("board-map", 0), ("board-map-near", 9):
            for _ in range(larger):
                page.press("Larger")
            page.wait(
                lambda: not larger or driver.find_element("id", "near-limit").is_displayed()
            )  # noqa: B023
            page.settle()
            driver.execute_async_script(
                "setTimeout(() => requestAnimationFrame(arguments[0]), 100)"
            )
            picture = driver.find_element("id", "picture").screenshot_as_png
            assert int.from_bytes(picture[16:20], "big") > 600
            if writes:
                (ROOT / f"docs/pictures/{name}.png").write_bytes(picture)
        driver.execute_cdp_cmd("Emulation.clearDeviceMetricsOverride", {})
        driver.get("about:blank")


def has(page: Page, ground: Any, nodes: list[int], colour: list[int]) -> bool:
    """Whether the canvas has a colour, about, in the middle of places."""
    drawn = page.driver.execute_script(PIXELS, nodes, ground)
    return any(all(abs(part - wanted) < 60 for part, wanted in zip(one, colour)) for one in drawn)


def judge_drawn(page: Page, it: Board, ground: Any, red: list[int]) -> None:
    driver = page.driver
    page.driver.execute_script(
        "document.getElementById('picture').scrollIntoView({ block: 'center' })"
    )
    looks = it.told("looks")["arcs"]
    limit = [place for place, look in enumerate(looks) if look == "l"]
    others = [place for place, look in enumerate(looks) if look == "u" and place > 200][:40]
    ends = [[tail, head] for tail, head in zip(ground["tails"], ground["heads"])]

    def is_red(place: int) -> bool:
        """Whether an arc is red in its middle or a quarter further on, since a name may lie over
        a part of it."""
        tail, head = ends[place]
        spots = [tail, head], [tail, tail, tail, head], [tail, head, head, head]
        return any(has(page, ground, [*spot], red) for spot in spots)

    page.wait(lambda: all(map(is_red, limit)))
    assert not all(has(page, ground, ends[place], red) for place in others)
    # A click on the middle of an arc of the limit, as large as it is when all of that is seen.
    page.press("The bottleneck")
    row = next(arc for arc in it.state()["limit"] if arc["number"] == limit[len(limit) // 2] + 1)
    for _ in range(6):
        page.press("Larger")
    host = driver.find_element("id", "picture")
    driver.execute_script("arguments[0].scrollIntoView({ block: 'center' })", host)
    page.write("#text", row["name"])
    page.choose_found(row["name"])
    page.press("What is chosen")
    driver.execute_script("arguments[0].scrollIntoView({ block: 'center' })", host)
    x, y = driver.execute_script(PLACE, ends[row["number"] - 1], ground)
    box = driver.execute_script(
        "const { x, y, width, height } = arguments[0].getBoundingClientRect(); return [x, y, "
        "width, height]",
        host,
    )
    assert box[0] < x < box[0] + box[2] and box[1] < y < box[1] + box[3], "what is chosen is seen"
    page.press("Close it")
    page.wait(lambda: page.text("#what .chips") == "closed")
    page.settle()
    page.wait(lambda: it.told("looks")["arcs"][row["number"] - 1] == "c")
    page.undo()
    page.press("All")
    page.wait(lambda: has(page, ground, ends[row["number"] - 1], red))


def judge_walk(page: Page, ground: Any) -> None:
    """A click on a place that the picture has not chooses it; from there the arrow keys go on over
    the map, and Enter chooses."""
    driver = page.driver
    shown = set(
        driver.execute_script(
            "return [...document.querySelectorAll('#picture .node')].map((it) => it.id)"
        )
    )
    side = max(int(name[1:].split("_")[0]) for name in ground["names"] if name[0] == "P") + 1
    node = dict(zip(ground["names"], ground["nodes"]))
    row, column = next(
        (row, column)
        for row in range(side - 1)
        for column in range(2, side - 3)
        if f"node-{node[f'P{row}_{column}']}" not in shown
    )
    name = f"P{row}_{column}"
    driver.execute_script("document.getElementById('picture').scrollIntoView({ block: 'center' })")
    x, y = driver.execute_script(PLACE, [node[name]], ground)
    script = (
        "const [host, x, y] = arguments; host.dispatchEvent(new MouseEvent('click', { bubbles: "
        "true, clientX: x, clientY: y }))"
    )
    driver.execute_script(script, driver.find_element("id", "picture"), x, y)
    page.wait(lambda: page.text("#what h3") == name)
    page.press("Show what is near it")
    page.wait(lambda: driver.find_elements("id", f"node-{node[name]}"))
    page.settle()
    driver.execute_script("document.getElementById(arguments[0]).focus()", f"node-{node[name]}")
    for _ in range(3):
        before = page.focused_id()
        page.actions().send_keys("\ue014").perform()
        page.wait(lambda: page.focused_id() not in (before, ""))
    page.actions().send_keys("\ue007").perform()
    spot = dict(zip(ground["nodes"], ground["right"]))
    page.wait(lambda: page.text("#what h3") not in ("", name))
    assert spot[node[page.text("#what h3")]] > spot[node[name]]
