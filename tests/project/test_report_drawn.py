"""The picture of a report is that of the page: places lie as on the map, or where they were moved
to, and colours and thickness are those of the page."""

from __future__ import annotations

import re
from pathlib import Path

import pytest
from client_shared import CLIENT
from dmf.desk.board.routes import Board
from dmf.desk.pictures.inks import INKS, SHADES, shade_of, thicker, thickness
from dmf.desk.pictures.layout import Spot
from dmf.desk.pictures.looks import Mark
from dmf.desk.project.report import report
from dmf.desk.project.scenarios import project_of
from project_shared import new_project, water_project
from report_page import Page, Picture, judge_labels

PAGE = Path(CLIENT, "dmf/desk/board/page")
# Towns of Brandenburg, about where they lie: to the east and to the north.
TOWNS = {
    "Potsdam": (13.06, 52.40),
    "Nauen": (12.88, 52.61),
    "Oranienburg": (13.24, 52.75),
    "Bernau": (13.59, 52.68),
    "Erkner": (13.75, 52.42),
    "Zossen": (13.45, 52.22),
}
ROADS = [
    ("Potsdam", "Nauen", 5),
    ("Nauen", "Oranienburg", 4),
    ("Oranienburg", "Bernau", 9),
    ("Potsdam", "Zossen", 6),
    ("Zossen", "Erkner", 2),
    ("Erkner", "Bernau", 7),
]


def epanet(folder: Path) -> str:
    """The path of a network of EPANET whose file has where its places lie."""
    junctions = "".join(f" {name} 0 0\n" for name in TOWNS if name != "Potsdam")
    pipes = "".join(
        f" R{at} {tail} {head} 100 {100 * most} 100\n"
        for at, (tail, head, most) in enumerate(ROADS)
    )
    spots = "".join(f" {name} {east} {north}\n" for name, (east, north) in TOWNS.items())
    path = folder / "roads.inp"
    path.write_text(
        f"[JUNCTIONS]\n{junctions}[RESERVOIRS]\n Potsdam 9\n[PIPES]\n{pipes}[COORDINATES]\n{spots}"
        "[OPTIONS]\n Units LPS\n[END]\n"
    )
    return str(path)


def judge_map(picture: Picture, spots: dict[str, tuple[float, float]]) -> None:
    """A place that is further east is further right, and one further north is higher."""
    middles = {
        texts[0][0]: picture.places[name][0]
        for name, texts in picture.labels.items()
        if name in picture.places
    }
    assert middles.keys() == spots.keys()
    for one, (east, north) in spots.items():
        for other, (west, south) in spots.items():
            assert (east > west) == (middles[one][0] > middles[other][0]) or east == west
            assert (north > south) == (middles[one][1] < middles[other][1]) or north == south


def test_places_lie_as_on_the_map(tmp_path: Path) -> None:
    """Those of a network whose file has coordinates, in a report of a project."""
    desk = new_project(
        tmp_path, epanet(tmp_path), "--source", "Potsdam", "--sink", "Bernau", "--velocity", "1.5"
    )
    [text] = Page(report(desk)).pictures[:1]
    judge_map(judge_labels(text), TOWNS)
    desk.end()


def test_a_board_has_the_map(tmp_path: Path) -> None:
    """A report from a page has the places where the page has them."""
    (tmp_path / "roads.csv").write_text(
        "from,to,capacity\n" + "".join(f"{tail},{head},{most}\n" for tail, head, most in ROADS)
    )
    desk = new_project(tmp_path, "roads.csv", "--source", "Potsdam", "--sink", "Bernau")
    nodes = desk.network.names.places
    # Mirrored, so that no layout gives these positions by chance.
    mirrored = {name: (-east, -north) for name, (east, north) in TOWNS.items()}
    spots = {nodes[name]: Spot(100 * x, 100 * y) for name, (x, y) in mirrored.items()}
    board = Board(desk, spots)
    page = Page(board.get("report.html", {"turn": str(desk.turn)}).body.decode())
    judge_map(judge_labels(page.pictures[0]), mirrored)
    desk.end()


def test_moved_places_stay(tmp_path: Path) -> None:
    """What was dragged on a page, and kept by the project, lies there in the report: the Harbour
    left of all other places and above them."""
    desk = water_project(tmp_path)
    names = desk.network.names.places
    board = Board(desk)
    board.get("picture", {"near": ""})
    kept = project_of(desk).project.positions
    left, top = min(x for x, _ in kept.values()), max(y for _, y in kept.values())
    project_of(desk).take_moved({"Harbour": (left - 300, top + 200)})
    picture = judge_labels(Page(report(desk)).pictures[0])
    x, y = picture.places[f"node-{names['Harbour']}"][0]
    others = [at for name, (at, *_) in picture.places.items() if name != f"node-{names['Harbour']}"]
    assert len(others) == 8 and all(x < right and y < down for right, down in others)
    desk.end()


def test_without_a_map_flow_goes_right(tmp_path: Path) -> None:
    """The source is left of all other places, and the sink right of them."""
    desk = water_project(tmp_path)
    names = desk.network.names.places
    places = judge_labels(Page(report(desk)).pictures[0]).places
    spots = {name: at[0] for name, (at, *_) in places.items()}
    assert min(spots, key=lambda it: spots[it]) == f"node-{names['Reservoir']}"
    assert max(spots, key=lambda it: spots[it]) == f"node-{names['Harbour']}"
    desk.end()


def test_colours_and_thickness_are_those_of_the_page() -> None:
    """The style sheet has the colours of the light theme first; the words, the inks and the order
    of the legend, and the thickness by capacity, are those of its scripts."""
    style = (PAGE / "style.css").read_text()
    for name, colour in INKS.items():
        found = re.search(rf"--{name}: (#[0-9a-f]+);", style)
        assert found and found[1] == colour, name
    script = (PAGE / "colourings.js").read_text()
    closed, limit = (
        re.search(rf'const {name} = {{ words: "(.+?)", ink: "(.+?)"', script)
        for name in ("CLOSED", "LIMIT")
    )
    assert closed and limit
    [use] = re.findall(r"const USE = \[(.+?)\n\];", script, re.DOTALL)
    listed = re.findall(r'words: "(.+?)", ink: "(.+?)"|(CLOSED|LIMIT),', use)
    told = {"CLOSED": closed.groups(), "LIMIT": limit.groups()}
    assert [(it.words, it.ink) for it in SHADES] == [
        told[name] if name else (words, ink) for words, ink, name in listed
    ]
    least, more = map(float, re.findall(r"=> ([0-9.]+) \+ ([0-9.]+) \* mark.width / 9", script)[0])
    for width in range(10):
        assert thickness(Mark("f", "0", ".", str(width), ">")) == least + more * width / 9
    [most, low, usual] = re.findall(
        r"Math.min\(([0-9.]+), Math.max\(([0-9.]+), usual / ([0-9.]+)\)\)", script
    )[0]
    for length in (1.0, 40.0, 55.0, 70.0, 500.0):
        expected = min(float(most), max(float(low), length / float(usual)))
        assert thicker([length, length, length]) == expected


@pytest.mark.parametrize(
    "state, use, words",
    [
        ("l", "9", "bottleneck"),
        ("F", "9", "full"),
        ("f", "9", "80–99 %"),
        ("f", "8", "80–99 %"),
        ("f", "7", "50–79 %"),
        ("f", "5", "50–79 %"),
        ("f", "4", "under 50 %"),
        ("f", "0", "under 50 %"),
        ("c", "0", "closed"),
        ("u", "0", "no flow"),
    ],
)
def test_shades(state: str, use: str, words: str) -> None:
    assert shade_of(Mark(state, use, ".", "5", ">")).words == words


def test_the_legend_tells_the_colours(tmp_path: Path) -> None:
    """Each colour that a line has is in the legend, and no other one."""
    desk = water_project(tmp_path)
    text = report(desk)
    [picture] = Page(text).pictures[:1]
    legend = re.findall(r'border-color: (#[0-9a-f]+)"></i>([^<]+)<', text)
    told = {INKS[it.ink]: it.words for it in SHADES}
    strokes = set(re.findall(r'<path d="[^"]*" fill="none" stroke="(#[0-9a-f]+)"', picture))
    assert strokes == {colour for colour, _ in legend}
    assert all(told[colour] == words for colour, words in legend)
    desk.end()
