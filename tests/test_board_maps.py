"""A board whose places lie as on a map: where they are drawn, their labels, and maps that are
wrong."""

from __future__ import annotations

import math
from pathlib import Path
from typing import Any

import pytest
from board_pages import Page
from board_running import board
from board_views import BARE, HEIGHTS, NAMELESS_ENDS, spots
from desk_shared import PIPES, run
from test_board_ground import city

pytestmark = pytest.mark.seconds(20)
# The labels that are seen and lie over one another, by more than a third of the smaller one.
OVER = """
const parts = [...document.querySelectorAll("#picture .node, #picture .arc")];
const boxes = parts.filter((part) => !part.matches(".unlabelled")).map((part) => {
  const seen = [...part.querySelectorAll("text")].filter((text) => text.checkVisibility());
  const all = seen.map((text) => text.getBoundingClientRect());
  const [left, top] = [Math.min(...all.map((it) => it.left)), Math.min(...all.map((it) => it.top))];
  const right = Math.max(...all.map((it) => it.right));
  const bottom = Math.max(...all.map((it) => it.bottom));
  return { id: part.id, left, top, right, bottom };
});
const size = (it) => Math.max(0, it.right - it.left) * Math.max(0, it.bottom - it.top);
const both = (one, other) => ({
  left: Math.max(one.left, other.left), right: Math.min(one.right, other.right),
  top: Math.max(one.top, other.top), bottom: Math.min(one.bottom, other.bottom) });
return boxes.flatMap((one, place) => boxes.slice(place + 1)
  .filter((other) => size(both(one, other)) > Math.min(size(one), size(other)) / 3)
  .map((other) => `${one.id} ${other.id}`));
"""
# Places of the water story on a map, as people write them.
MAPS = [
    "place,x,y\nReservoir,0,0\nMill,400.5,100\nHarbour,1000,-50\nElsewhere,1,1\n",
    "Ort;Lon;Lat\nReservoir;8,5;47,3\nMill;8,9;47,4\nHarbour;9,5;47,25\n",
]
WRONG_MAPS: list[tuple[str, str]] = [
    (
        "place,a,b\nReservoir,1,2\n",
        "line 1: a map has the columns place, x and y, or place, lon and lat; here are 'place', "
        "'a', 'b'",
    ),
    ("place,x,y\nReservoir,one,2\nMill,1,\n", "line 2, column 2: 'one' is not a number"),
    ("place,lon,lat\nReservoir,190,2\n", "line 2, column 2: '190' is past 180 degrees"),
    (
        "place,x,y\nReservoir,1,2\nReservoir,1,2\n",
        "line 3, column 1: the place 'Reservoir' stands twice",
    ),
    (
        "place;x;y\nReservoir;8.541;2\nMill;1;3\n",
        "'8.541' can be read in two ways; say --decimal . or --decimal ,",
    ),
    ("place,x,y\n", "the table has titles, and no row below them"),
    ("place,x,y\nNowhere,1,2\n", "no place of the map is one of the network"),
]


def test_labels_on_a_map(driver: Any, tmp_path: Path) -> None:
    """Where places lie as on a map no label hides another one, at any size, and in the largest all
    that is seen whole has one."""
    with board(*city(tmp_path, 7)) as it:
        page = Page(driver, it.address)
        for key in "0----0" + 20 * "+":
            page.driver.find_element("id", "picture").send_keys(key)
            page.driver.execute_async_script(
                "requestAnimationFrame(() => requestAnimationFrame(arguments[0]))"
            )
            assert page.driver.execute_script(OVER) == [], key
            assert min(page.driver.execute_script(HEIGHTS), default=11) >= 10.99
            assert key != "0" or driver.execute_script(NAMELESS_ENDS) == []
        assert driver.execute_script(BARE) == []
        driver.get("about:blank")


def test_map(tmp_path: Path) -> None:
    """Places lie as on the map: their distances are those of the map times one number. The others
    lie near their neighbours, and stay."""
    table = tmp_path / "map.csv"
    for text in MAPS:
        table.write_text(text)
        rows = [
            line.replace(",", ".").split(";") if ";" in line else line.split(",")
            for line in text.splitlines()[1:]
        ]
        degrees = math.cos(math.radians((47.25 + 47.4) / 2)) if ";" in text else 1.0
        wanted = {
            name: (float(x) * degrees, -float(y)) for name, x, y in rows if name != "Elsewhere"
        }
        with board(PIPES, "--map", str(table)) as it:
            nodes = {
                name: f"node-{it.told(f'find?text={name}')['found'][0]['node']}" for name in wanted
            }
            seen = spots(it)
            ratios = [
                (float(seen[nodes[one]][axis]) - float(seen[nodes[other]][axis]))
                / (wanted[one][axis] - wanted[other][axis])
                for axis in (0, 1)
                for one in wanted
                for other in wanted
                if one < other
            ]
            assert ratios == [pytest.approx(ratios[0], rel=1e-3)] * len(ratios) and ratios[0] > 0
            it.do(what="add", tail=1, head="Harbour", capacity="5", name="")
            now = spots(it)
            assert [now[node] for node in nodes.values()] == [seen[node] for node in nodes.values()]


def test_wrong_maps(tmp_path: Path) -> None:
    """A map that cannot be read is refused, with the place where it is wrong."""
    table = tmp_path / "map.csv"
    for text, wanted in WRONG_MAPS:
        table.write_text(text)
        ran = run("dmf-board", "--no-browser", "--map", str(table), PIPES)
        wanted = f"{table}{', ' if wanted.startswith('line') else ': '}{wanted}"
        assert (ran.returncode, ran.stdout) == (
            3,
            "",
        ) and f"dmf-board: {wanted}\n" in ran.stderr, (text, ran)
    ran = run("dmf-board", "--no-browser", "--map", str(tmp_path / "none.csv"), PIPES)
    assert ran.returncode == 4 and "none.csv" in ran.stderr, ran
