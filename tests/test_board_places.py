"""Where places lie, kept in a project: the next board on it shows them where they were."""

from __future__ import annotations

import json
import shutil
import statistics
import time
from pathlib import Path
from random import Random
from typing import Any
from urllib.parse import quote
from xml.etree import ElementTree

import pytest
from board_running import board
from board_views import grid_table, spots
from desk_shared import PIPES, ROOT
from limits import SECONDS
from test_board_ground import city

pytestmark = pytest.mark.seconds(10)
SVG = "{http://www.w3.org/2000/svg}"


def kept(project: Path) -> dict[str, list[float]]:
    """The positions in a project's file."""
    return dict(json.loads(project.read_text())["positions"])


def project_of(folder: Path) -> Path:
    shutil.copy(ROOT / PIPES, folder / "pipes.csv")
    return folder / "pipes.dmf.json"


def test_kept(tmp_path: Path) -> None:
    """Positions are in the file by the names of places, to the right and upwards, as the picture
    has them, and the next board takes them. A place that was moved in the file lies there."""
    project = project_of(tmp_path)
    with board("--keep", str(tmp_path / "pipes.csv")) as it:
        names = {
            f"node-{it.told(f'find?text={quote(name)}')['found'][0]['node']}": name
            for name in it.state()["names"]
        }
        seen = spots(it)
        assert it.end() == 130
    found = kept(project)
    told = {names[node]: [float(x), -float(y)] for node, (x, y) in seen.items()}
    assert found.keys() == told.keys() and all(
        found[name] == pytest.approx(told[name], abs=0.01) for name in found
    )
    content = json.loads(project.read_text())
    content["positions"]["Mill"] = [found["Mill"][0] + 25, found["Mill"][1] - 30]
    project.write_text(json.dumps(content))
    with board(str(project)) as it:
        it.do(what="close", arc=3)
        now = spots(it)
        moved = {node for node in now if now[node] != seen[node]}
        assert {names[node] for node in moved} == {"Mill"}
        mill = next(iter(moved))
        assert [float(now[mill][axis]) - float(seen[mill][axis]) for axis in (0, 1)] == [
            pytest.approx(25, abs=0.02),
            pytest.approx(30, abs=0.02),
        ]


def test_map_is_kept(tmp_path: Path) -> None:
    """A map has to be given once. All lies as on it the next day, also what the picture has no room
    for; another map moves it."""
    words = city(tmp_path, 14)
    with board("--keep", *words) as it:
        ground = it.told("ground")
        assert it.end() == 130
    project = str(tmp_path / "city.dmf.json")
    with board(project) as it:
        again = it.told("ground")
        assert {**again, "turn": 0} == {**ground, "turn": 0}
        assert it.told("picture?near=")["has_ground"]
        # Another desk, which may only read it, sees the same, and keeps nothing.
        with board(project) as other:
            assert other.told("ground")["right"] == ground["right"]
    rows = (tmp_path / "map.csv").read_text().splitlines()
    (tmp_path / "turned.csv").write_text(
        "\n".join(
            [
                "place,x,y",
                *(",".join([row.split(",")[0], *row.split(",")[:0:-1]]) for row in rows[1:]),
            ]
        )
    )
    with board("--map", str(tmp_path / "turned.csv"), project) as it:
        turned = it.told("ground")
        assert turned["right"] != ground["right"]
        assert it.end() == 130
    at: dict[str, Any] = dict(zip(turned["names"], zip(turned["right"], turned["down"])))
    assert {name: (x, -y) for name, (x, y) in kept(Path(project)).items()} == at


PUMPS = "place,lets through,x,y\nMill,60,4,1\nReservoir,,0,0\nHarbour,,9,2\n"


def test_table_of_places(tmp_path: Path) -> None:
    """A table of places with the columns of a map is one. What is no map there is told, and refuses
    nothing."""
    table = tmp_path / "places.csv"
    for text, told in (PUMPS, "6 places are not on the map"), (
        PUMPS.replace("9,2", "9,north"),
        "cannot be used as a map",
    ):
        table.write_text(text)
        with board("--places", str(table), PIPES) as it:
            node = {
                name: f"node-{it.told(f'find?text={name}')['found'][0]['node']}"
                for name in ("Reservoir", "Mill", "Harbour")
            }
            seen = {name: [*map(float, spots(it)[at])] for name, at in node.items()}
            it.process.send_signal(2)
            assert told in it.process.communicate(timeout=SECONDS)[1]
        shares = [
            (seen["Mill"][axis] - seen["Reservoir"][axis])
            / (seen["Harbour"][axis] - seen["Reservoir"][axis])
            for axis in (0, 1)
        ]
        assert (shares == pytest.approx([4 / 9, 1 / 2], abs=0.01)) == (text == PUMPS)
    table.write_text("place,lets through\nMill,60\n")
    with board("--places", str(table), PIPES) as it:
        it.process.send_signal(2)
        assert "map" not in it.process.communicate(timeout=SECONDS)[1]


def test_places_that_go(tmp_path: Path) -> None:
    """Positions of places that the table has no more mean nothing, and a new place lies near its
    neighbours."""
    project = project_of(tmp_path)
    with board("--keep", str(tmp_path / "pipes.csv")) as it:
        seen = spots(it)
        assert it.end() == 130
    table = (tmp_path / "pipes.csv").read_text()
    (tmp_path / "pipes.csv").write_text(
        table + "Mill,New place,12,new one\nNew place,Harbour,12,new two\n"
    )
    with board(str(project)) as it:
        now = spots(it)
        assert len(now) == len(seen) + 1
        assert set(seen.values()) <= set(now.values())
        assert it.end() == 130
    (tmp_path / "pipes.csv").write_text(table)
    with board(str(project)) as it:
        assert set(spots(it).values()) == set(seen.values())
        assert it.end() == 130
    assert "New place" in kept(project)


@pytest.mark.parametrize(
    "script, told", [("echo 'no such font' >&2; exit 1", "no such font"), ("exit 3", "status 3")]
)
def test_no_picture(
    tmp_path: Path, monkeypatch: pytest.MonkeyPatch, script: str, told: str
) -> None:
    """Where Graphviz fails, the page says why in the words of Graphviz."""
    dot = tmp_path / "dot"
    dot.write_text(f"#!/bin/sh\n{script}\n")
    dot.chmod(0o755)
    monkeypatch.setenv("PATH", str(tmp_path), prepend=":")
    with board(PIPES) as it:
        picture = it.told("picture?near=")
        assert (picture["svg"], picture["reason"]) == ("", f"Graphviz did not draw it: {told}")
        assert it.end() == 130


def ovals(svg: str) -> dict[str, tuple[float, float, float, float]]:
    """Where the ovals of places lie in a picture, and how far they reach, by the places' names."""
    found = {}
    for group in ElementTree.fromstring(svg).iter(f"{SVG}g"):
        texts, oval = group.findall(f"{SVG}text"), group.findall(f"{SVG}ellipse")
        if group.get("class", "").startswith("node"):
            name, last = str(texts[0].text), oval[-1]
            x, y, right, down = (float(last.get(it, "")) for it in ("cx", "cy", "rx", "ry"))
            found[name] = x, y, right, down
    return found


@pytest.mark.parametrize("form", [54, 80, 100, 160, 240])
def test_fits_the_window(form: int) -> None:
    """Places are laid out in the form of the window: from left to right or, if that is high, from
    top to bottom, without overlaps. No other window and no step moves them."""
    with board(PIPES) as it:
        svg = it.told(f"picture?near=&form={form}")["svg"]
        found = ovals(svg)
        _, _, wide, high = map(float, (ElementTree.fromstring(svg).get("viewBox") or "").split())
        assert 1 / 1.5 < wide / high / (form / 100) < 1.5
        axis = 0 if form > 100 else 1
        ends = [found[name][axis] for name in ("Reservoir", "Harbour")]
        assert ends[0] == min(it[axis] for it in found.values()) and ends[1] == max(
            it[axis] for it in found.values()
        )
        listed = [*found.values()]
        for at, (x, y, right, down) in enumerate(listed):
            for other in listed[at + 1 :]:
                assert abs(x - other[0]) > right + other[2] or abs(y - other[1]) > down + other[3]
        turned = 70 if form > 100 else 200
        elsewhere = ovals(it.told(f"picture?near=&form={turned}")["svg"])
        assert elsewhere != found
        it.do(what="close", arc=3)
        again = [ovals(it.told(f"picture?near=&form={one}")["svg"]) for one in (form, turned)]
        assert again == [found, elsewhere]


@pytest.mark.parametrize("form", [70, 140])
def test_many_fit_the_window(tmp_path: Path, form: int) -> None:
    """Places that would be a long strip in layers are spread out in the form of the window."""
    chance = Random(7)
    pipes = [(chance.randrange(max(0, at - 9), at), at) for at in range(1, 150)]
    pipes += [(at, at + chance.randrange(2, 6)) for at in chance.sample(range(140), 60)]
    table = tmp_path / "town.csv"
    table.write_text(
        "from,to,litres\n" + "".join(f"Old Town {one},Old Town {two},5\n" for one, two in pipes)
    )
    with board("--source", "Old Town 0", "--sink", "Old Town 149", str(table)) as it:
        svg = it.told(f"picture?near=&form={form}")["svg"]
    _, _, wide, high = map(float, (ElementTree.fromstring(svg).get("viewBox") or "").split())
    assert 1 / 1.3 < wide / high / (form / 100) < 1.3


@pytest.mark.parametrize("form", [70, 140])
def test_read_from_left_to_right(tmp_path: Path, form: int) -> None:
    """Many places lie further to the right the more arcs they are away from the source, though as
    many arcs lead downwards as to the right; the sink is at the other end."""
    side = 21
    with board(grid_table(tmp_path, side)) as it:
        it.post("tidy", near="", form=form)
        while json.loads(it.post("tidied")[1])["is_laying_out"]:
            time.sleep(0.05)
        ground = it.told("ground")
    right, every = dict(zip(ground["names"], ground["right"])), range(side)
    columns = [statistics.mean(right[f"P{row}_{column}"] for row in every) for column in every]
    rows = [statistics.mean(right[f"P{row}_{column}"] for column in every) for row in every]
    assert columns == sorted(columns)
    assert max(rows) - min(rows) < (columns[-1] - columns[0]) / 3
    assert right["Lake"] < columns[2] and columns[-3] < right["Sea"]


def test_one_form_if_kept(tmp_path: Path) -> None:
    """Where places lie that a project has kept, they lie in each window."""
    project_of(tmp_path)
    with board("--keep", str(tmp_path / "pipes.csv")) as it:
        found = ovals(it.told("picture?near=&form=60")["svg"])
        assert it.end() == 130
    with board(str(tmp_path / "pipes.dmf.json")) as it:
        for form in 160, 60:
            assert ovals(it.told(f"picture?near=&form={form}")["svg"]) == found
