"""Two scenarios beside each other on the page of a board: the rows that differ, and the picture."""

from __future__ import annotations

import base64
from itertools import product
from pathlib import Path
from typing import Any
from urllib.parse import quote
from xml.etree import ElementTree

import dmf
import pytest
from board_running import board
from desk_shared import ROOT, run
from dmf.desk.project.comparison import ArcState
from dmf.desk.project.scenarios import project_of
from dmf.desk.workspace import Desk
from project_played import played, state
from project_shared import named, water_project
from scenario_pages import ScenarioPage, flooded, water_board
from test_board_labels import LABELS

pytestmark = pytest.mark.seconds(20)
SVG = "{http://www.w3.org/2000/svg}"
# What flows more or less is seen by its colour: those of the lines of an arc of each kind, as the
# browser shows them.
COLOURS = """
return Object.fromEntries(["more", "less", "come", "gone", "else", "same"].map((kind) => {
  const line = document.querySelector(`#compare-picture .arc.${kind} path`);
  return [kind, line && getComputedStyle(line).stroke];
}));
"""
ROWS = """
const rows = [...document.querySelectorAll("#compare-table tbody tr")];
return rows.map((row) => [...row.cells].slice(0, 3).map((cell) => cell.textContent));
"""

# Judges the labels of the comparison's picture as LABELS does those of the board's. The picture
# lies in a card that scrolls.
COMPARED = (
    LABELS.replace("#picture", "#compare-picture")
    .replace('["head", "foot", "moves", "panel", "fold"]', "[]")
    .replace("left: 0, top: 0", "left: -1e6, top: -1e6")
    .replace("right: innerWidth, bottom: innerHeight", "right: 1e6, bottom: 1e6")
)
# How high the letters of each label of the picture are on the screen.
HEIGHTS = """
const texts = [...document.querySelectorAll("#compare-picture text")];
return texts.filter((text) => text.checkVisibility()).map((text) =>
  Number(getComputedStyle(text).fontSize.slice(0, -2)) * text.getScreenCTM().a);
"""


def judged(desk: Desk, folder: Path) -> list[list[str]]:
    """What differs between the network of the table and the flooded depot, by the second
    implementation: the arcs, what each was and is."""
    depot = desk.network.names.place("East Depot").entry
    one, two = played(folder, project_of(desk).project.network, ""), played(
        folder, project_of(desk).project.network, f"shut {depot}\n"
    )

    def told(it: ArcState | None) -> str:
        return it.told() if it else "closed"

    numbers = [
        it for it in range(1, desk.network.first_count + 1) if state(one, it) != state(two, it)
    ]
    return [
        [desk.network.names.arc(it), told(state(one, it)), told(state(two, it))] for it in numbers
    ]


def test_same_differences(driver: Any, tmp_path: Path) -> None:
    """The page, the terminal and Python tell the same differences of two scenarios, and the second
    implementation tells them too."""
    desk = flooded(tmp_path)
    wanted = judged(desk, tmp_path)
    desk.end()
    ran = run(
        "dmf-plan", project_of(desk).file.path, typed="compare base first\n"
    ).stdout.splitlines()
    with dmf.open_project(project_of(desk).file.path) as project:
        in_python = project.compare("base", "first")
    with board(project_of(desk).file.path) as it:
        page = ScenarioPage(driver, it.address)
        page.compare("base", "first")
        rows = driver.execute_script(ROWS)
        classes = {
            group.get_attribute("data-arc"): group.get_attribute("class")
            for group in driver.find_elements("css selector", "#compare-picture g.arc")
        }
        colours = driver.execute_script(COLOURS)
        values = page.text("#compare-values")
        # What pages of other boards came to may be told as late.
        assert [told for told in driver.get_log("browser") if it.host in told["message"]] == []
        driver.get("about:blank")
    # The page calls the limit the bottleneck.
    on_page = [
        [arc, *(it.replace(", limit", ", bottleneck") for it in told)] for arc, *told in wanted
    ]
    assert rows == on_page and len(wanted) > 5
    assert [[it.arc, it.first.told(), it.second.told()] for it in in_python.arcs] == wanted
    assert [line for line in ran if " | " in line][1:] == [
        f"  {arc}: {was} | {now}" for arc, was, now in wanted
    ]
    # The second set of orders that the depots fill, as the story's page reckons it.
    assert values == "base: 150 pallets. first: 126 pallets: 24 less." and ran[:2] == [
        "base: value 150 pallets",
        "first: value 126 pallets",
    ]
    assert_coloured(desk, wanted, classes)
    shown = {kind: colour for kind, colour in colours.items() if colour}
    assert set(shown) == {"more", "less", "gone", "else", "same"} and shown["less"] == shown["gone"]
    assert len({shown[kind] for kind in ("more", "less", "else", "same")}) == 4


def assert_coloured(desk: Desk, wanted: list[list[str]], classes: dict[str, str]) -> None:
    """Each arc of the picture is of the kind that its row tells; the others are the same."""
    kinds = {}
    for arc, was, now in wanted:
        flows = [0 if told == "closed" else int(told.split()[0]) for told in (was, now)]
        kinds[arc] = (
            "gone"
            if now == "closed"
            else "more"
            if flows[1] > flows[0]
            else "less"
            if flows[1] < flows[0]
            else "else"
        )
    drawn = {
        desk.network.names.arc(int(number)): looks.split()[1] for number, looks in classes.items()
    }
    roles = {
        desk.network.names.arc(number)
        for number in range(1, desk.network.first_count + 1)
        if desk.network.role(number)
    }
    assert drawn == {
        desk.network.names.arc(number): kinds.get(desk.network.names.arc(number), "same")
        for number in desk.network.pictured()
    }
    assert not roles & set(drawn) and roles & set(kinds)


def test_names_are_text(tmp_path: Path) -> None:
    """A scenario of any name is gone to, compared, and drawn."""
    odd = 'say "no"\n<svg onload=alert(1)> & \\'
    desk = water_project(tmp_path)
    project_of(desk).new(odd)
    desk.close(named(desk, "Bridge pipe"))
    desk.end()
    with board(project_of(desk).file.path) as it:
        words = f"one=base&two={quote(odd)}"
        assert [
            row["arc"].partition(",")[0]
            for row in it.told(f"comparison?{words}&first=0&count=9")["rows"]
        ][-1] == "South main"
        status, sent, svg = it.ask(f"{it.root}difference.svg?{words}&turn={it.turn()}")
        texts = [text.text for text in ElementTree.fromstring(svg.decode()).iter(f"{SVG}text")]
        assert status == 200 and any(
            "165 and 155 litres per second, 10 less" in str(text) for text in texts
        ), texts
        assert (
            it.do(what="scenario-go", name="first")["value"] == "165"
            and it.do(what="scenario-go", name=odd)["value"] == "155"
        )


def test_it_fits(driver: Any, tmp_path: Path, writes: bool) -> None:
    """On a wide screen, a narrower one and a phone, in light and dark, a comparison is no wider
    than the page, its letters can be read, and no label lies on anything. The picture for the
    documents is made at least, and with --write put."""
    with water_board(tmp_path) as water:
        page = ScenarioPage(driver, water.address)
        for width, scheme in product((400, 768, 1280, 1600), ("dark", "light")):
            driver.execute_cdp_cmd(
                "Emulation.setEmulatedMedia",
                {"features": [{"name": "prefers-color-scheme", "value": scheme}]},
            )
            resize(page, width, 1000)
            page.compare("first", "Pipe")
            page.settle()
            judge_fit(page)
        # In a window of this height nothing has to be scrolled to.
        resize(page, 1600, 1300)
        page.settle()
        picture = photograph(page)
        assert picture[:4] == b"\x89PNG"
        if writes:
            (ROOT / "docs/pictures/compared.png").write_bytes(picture)
        driver.execute_cdp_cmd("Emulation.setEmulatedMedia", {"features": []})
        driver.execute_cdp_cmd("Emulation.clearDeviceMetricsOverride", {})
        driver.get("about:blank")


def resize(page: ScenarioPage, width: int, height: int) -> None:
    page.driver.execute_cdp_cmd(
        "Emulation.setDeviceMetricsOverride",
        {"width": width, "height": height, "deviceScaleFactor": 1, "mobile": False},
    )


def judge_fit(page: ScenarioPage) -> None:
    seen, wide = page.driver.execute_script(
        "return [document.documentElement.clientWidth, document.documentElement.scrollWidth]"
    )
    assert seen == wide
    assert min(page.driver.execute_script(HEIGHTS)) >= 11
    count, wrong = page.driver.execute_script(COMPARED)
    assert count > 15 and wrong == [], wrong[:5]
    # Nothing of the legend's card shows behind its corners.
    assert not page.driver.find_element("id", "foot").is_displayed()


def photograph(page: ScenarioPage) -> bytes:
    """Return a picture of the comparison's card, with a margin."""
    left, top, wide, high = page.driver.execute_script(
        "const it = document.getElementById('compared-shown').getBoundingClientRect(); return "
        "[it.left, it.top + scrollY, it.width, it.height]"
    )
    clip = {"x": left - 8, "y": top - 8, "width": wide + 16, "height": high + 16, "scale": 0.8}
    taken = page.driver.execute_cdp_cmd(
        "Page.captureScreenshot", {"clip": clip, "captureBeyondViewport": True}
    )
    return base64.b64decode(taken["data"])
