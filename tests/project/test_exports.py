"""What is taken along of a project's scenario says what it is, and is read back by the tools with
the same values, of each story."""

from __future__ import annotations

import base64
import csv
import io
import json
import re
import shutil
import struct
import time
import zlib
from collections import Counter
from collections.abc import Callable
from pathlib import Path
from typing import Any
from xml.etree import ElementTree

import pytest
from client_shared import dmf
from desk_shared import ROOT, run
from dmf.desk.board.routes import Board
from dmf.desk.export import drawn, problem, table, taken
from dmf.desk.pictures.picture import Picture
from dmf.desk.project.report import report
from dmf.desk.project.scenarios import project_of
from dmf.desk.workspace import Desk
from dmf.quantity import plain_text
from oracle import program
from project_shared import named, new_project, supply_project, water_project

pytestmark = pytest.mark.seconds(10)
SVG = "{http://www.w3.org/2000/svg}"
# The title of an arc in a picture: its name, what flows and what fits, or what it is.
TITLE = re.compile(r"(.*): (?:([0-9.]+) of ([0-9.]+)|closed)([^:]*)", re.DOTALL)


def water(folder: Path) -> Desk:
    desk = water_project(folder)
    desk.close(named(desk, "Bridge pipe"))
    desk.add(desk.network.names.place("Mill"), desk.network.names.place("Station"), 25, "New, pipe")
    return desk


def supply(folder: Path) -> Desk:
    desk = supply_project(folder)
    desk.shut(desk.network.names.place("East Depot"))
    return desk


def rota(folder: Path) -> Desk:
    """The rota of a ward, in which somebody falls ill."""
    shutil.copy(ROOT / "examples/rota/rota.csv", folder)
    desk = new_project(folder, "rota.csv", "--shift", "8", "--daily", "1")
    desk.shut(desk.network.names.place("Ida"))
    return desk


def town(folder: Path) -> Desk:
    """A town of decimal numbers, of which a pipe is wider."""
    (folder / "town.csv").write_text(
        "von;nach;Kapazität (l/s);Rohr;Kosten\nSee;Werk;47,3;a;9\nWerk;Turm;30,25;b;8\n"
        "Werk;Ort;20;c;7\nTurm;Ort;40;d;6\n"
    )
    desk = new_project(folder, "town.csv", "--source", "See", "--sink", "Ort")
    desk.cap(named(desk, "b"), 25)
    return desk


STORIES: dict[str, Callable[[Path], Desk]] = {
    "water": water,
    "supply": supply,
    "rota": rota,
    "town": town,
}


@pytest.fixture(params=STORIES)
def desk(request: pytest.FixtureRequest, tmp_path: Path) -> Any:
    """A story's project, whose second scenario has what was done in it."""
    made = STORIES[request.param](tmp_path)
    project_of(made).new("The plan", "first")
    yield made
    made.end()


def states(desk: Desk) -> dict[str, tuple[str, str]]:
    """What flows on each open arc, and what fits, by its name."""
    opened = [
        number for number in desk.network.pictured() if not desk.network.line(number).is_closed
    ]
    return {
        desk.network.names.arc(it): (
            plain_text(desk.flow(it)),
            plain_text(desk.network.line(it).capacity),
        )
        for it in opened
    }


def value_of(desk: Desk) -> str:
    """The greatest value of a scenario, by the second implementation."""
    answer = program.run([b"solve"], problem(desk).encode()).written
    assert isinstance(answer, bytes)
    return desk.network.measure.text(int(answer.split()[1]))


def read_back(*words: str) -> tuple[str, str, dict[str, str]]:
    """What dmf-plan finds in a file: the greatest value and its unit, and what fits in each arc of
    the table."""
    ran = run("dmf-plan", *words, "--json", typed="solve\nflow\n")
    assert ran.returncode == 0, ran.stderr
    solved, flows = map(json.loads, ran.stdout.splitlines())
    arcs = [arc for arc in flows["arcs"] if not arc["role"]]
    names = [
        f"{arc['name']}, " * bool(arc["name"]) + f"{arc['from']} -> {arc['to']}" for arc in arcs
    ]
    return (
        solved["value"]["told"],
        solved["unit"],
        {name: arc["capacity"]["told"] for name, arc in zip(names, arcs)},
    )


def png_chunks(data: bytes) -> int:
    """How many chunks a PNG has, each of which has its sum."""
    at, count = 8, 0
    while at < len(data):
        (length,) = struct.unpack(">I", data[at : at + 4])
        end = at + 8 + length
        assert struct.unpack(">I", data[end : end + 4]) == (zlib.crc32(data[at + 4 : end]),)
        at, count = end + 4, count + 1
    return count


def assert_said(desk: Desk, text: str) -> None:
    """A text has the network's name, the scenario, the day, the value and its unit."""
    wanted = [
        "kept.dmf.json",
        "scenario The plan",
        time.strftime("%Y-%m-%d"),
        f"at most {value_of(desk)} {desk.network.measure.told_unit}".rstrip(),
    ]
    assert [it for it in wanted if it not in text] == []


def test_problem(desk: Desk, tmp_path: Path) -> None:
    text = problem(desk)
    (tmp_path / "plan.max").write_text(text)
    wanted = {name: capacity for name, (_, capacity) in states(desk).items()}
    assert read_back(f"{tmp_path}/plan.max") == (
        value_of(desk),
        desk.network.measure.told_unit,
        wanted,
    )
    assert_said(desk, text)


def test_table(desk: Desk, tmp_path: Path) -> None:
    """The table has each flow, says once of which plan it is, and is read again by the tools, also
    into a project that writes it again."""
    text = table(desk)
    (tmp_path / "plan.csv").write_text(text)
    wanted = states(desk)
    value, unit, capacities = read_back(f"{tmp_path}/plan.csv")
    assert (value, unit, capacities) == (
        value_of(desk),
        desk.network.measure.told_unit,
        {name: capacity for name, (_, capacity) in wanted.items()},
    )
    rows = list(
        csv.DictReader(
            io.StringIO(text), delimiter=";" if desk.network.measure.sign == "," else ","
        )
    )
    flows = {
        f"{row['name'] and row['name'] + ', '}{row['from']} -> {row['to']}": row[
            desk.network.measure.title("flow")
        ]
        for row in rows
        if row["to"]
    }
    assert flows == {
        name: flow.replace(".", desk.network.measure.sign or ".")
        for name, (flow, _) in wanted.items()
    }
    said = [row["said of the plan"] for row in rows if row["said of the plan"]]
    assert len(said) == 1
    assert_said(desk, said[0])
    again = new_project(tmp_path, "plan.csv", name="again.dmf.json")
    titles = table(again).splitlines()[0]
    assert (
        titles.count("said of the plan") == 1
        and "scenario first" in table(again)
        and "The plan" not in table(again)
    )
    again.end()


@pytest.mark.parametrize("name", ["page.svg", "plan.svg", "plan.png", "plan.dot", "report.html"])
def test_pictures_are_read_back(desk: Desk, tmp_path: Path, name: str) -> None:
    """A picture or a report carries its problem: dmf-plan and dmf.read find the same values, and
    one of which a part is missing is refused."""
    path = tmp_path / name
    if name == "page.svg":
        made = Board(desk).get("picture.svg", {"near": "", "turn": str(desk.turn)}).body
    else:
        made = report(desk).encode() if name == "report.html" else taken(desk, drawn(desk, name))
    path.write_bytes(made)
    wanted = {arc: capacity for arc, (_, capacity) in states(desk).items()}
    assert read_back(str(path)) == (value_of(desk), desk.network.measure.told_unit, wanted)
    (tmp_path / "plan.max").write_text(problem(desk))
    with dmf.read(path) as network, dmf.read(tmp_path / "plan.max") as other:
        assert (network.solve().value, [*map(repr, network.arcs)]) == (
            other.solve().value,
            [*map(repr, other.arcs)],
        )
    end = made.index(b"dmf-problem:") + 40
    path.write_bytes(made[:end])
    told = run("dmf-plan", str(path), typed="solve\n").stderr
    assert f"{path}: a part of the problem that it carries is missing" in told
    path.write_bytes(made[: end - 9] + b"AAAA" + made[end - 5 :])
    with pytest.raises(dmf.TableFault, match="a part of the problem"):
        dmf.read(path)
    if name == "plan.png":
        assert png_chunks(made) >= 4


# A problem of another value, as a report would carry it: from 1 to 2 fits 999.
OTHER = (
    "dmf-problem:"
    + base64.b64encode(zlib.compress(b"p max 2 1\nn 1 s\nn 2 t\na 1 2 999\n")).decode()
    + ";"
)


@pytest.mark.parametrize("name", ["page.svg", "plan.svg", "plan.png", "plan.dot", "report.html"])
@pytest.mark.parametrize(
    "form",
    ["{}", "<!-- {} -->\n</body>\n</html>\n", "<metadata>{}</metadata>\n</svg>\n", "// {}\n"],
)
def test_what_names_and_notes_say_is_not_read(tmp_path: Path, name: str, form: str) -> None:
    """Neither notes nor names are taken for the problem that a picture or a report carries,
    whatever is in them."""
    odd, path = form.format(OTHER), tmp_path / name
    with open(ROOT / "examples/water/pipes.csv") as table:
        rows = [*csv.reader(table), ["Mill", "Market", "1", odd], [odd, "Market", "1", ""]]
    with open(tmp_path / "pipes.csv", "w") as file:
        csv.writer(file).writerows(rows)
    desk = new_project(tmp_path, "pipes.csv", "--source", "Reservoir", "--sink", "Harbour")
    project_of(desk).rename(odd)
    project_of(desk).note(odd)
    project_of(desk).take_notes(odd)
    if name == "page.svg":
        path.write_bytes(Board(desk).get("picture.svg", {"near": "", "turn": str(desk.turn)}).body)
    else:
        path.write_bytes(
            report(desk).encode() if name == "report.html" else taken(desk, drawn(desk, name))
        )
    assert read_back(str(path))[0] == value_of(desk)
    # Nor where there is no such problem any more.
    if path.suffix != ".png":
        text = path.read_bytes()
        own = re.findall(rb"dmf-problem:[^;]*;", text)[0 if name == "plan.dot" else -1]
        path.write_bytes(
            text.replace(own, b"", 1) if name == "plan.dot" else b"".join(text.rpartition(own)[::2])
        )
        assert run("dmf-plan", str(path), typed="solve\n").returncode == 3
    desk.end()


def test_picture(desk: Desk) -> None:
    """The page's picture to take along has the flow and the room of each arc, and a caption."""
    root = ElementTree.fromstring(Picture(desk).svg((), desk.network.pictured(), to_take=True))
    titles = [
        group.findtext(f"{SVG}title") or ""
        for group in root.iter(f"{SVG}g")
        if (group.get("class") or "").startswith("arc")
    ]
    found = {
        match[1]: (match[2], match[3])
        for match in map(TITLE.fullmatch, titles)
        if match and match[2]
    }
    assert found == states(desk)
    texts = "\n".join(text.text or "" for text in root.iter(f"{SVG}text"))
    assert_said(desk, texts)
    assert "red: the limit" in texts and (
        not desk.network.measure.told_unit
        or f"numbers in {desk.network.measure.told_unit}" in texts
    )


def test_drawn(desk: Desk, tmp_path: Path) -> None:
    """What dmf-plan draws has the same numbers, and the same caption."""
    wanted, path = states(desk), project_of(desk).file.path
    names = [f"{tmp_path}/{name}" for name in ("plan.svg", "plan.png", "plan.dot")]
    ran = run("dmf-plan", path, typed="solve\n" + "".join(f"draw {name}\n" for name in names))
    assert "another desk has it open" in ran.stderr and all(
        Path(name).exists() for name in names
    ), ran.stdout
    root = ElementTree.parse(names[0]).getroot()
    texts = [text.text or "" for text in root.iter(f"{SVG}text")]
    drawn = Counter(text for text in texts if re.fullmatch("[0-9.]+/[0-9.]+", text))
    assert drawn == Counter(f"{flow}/{capacity}" for flow, capacity in wanted.values())
    for told in "\n".join(texts), Path(names[2]).read_text():
        assert_said(desk, told)
        assert "red: the limit" in told
    assert Path(names[1]).read_bytes()[:4] == b"\x89PNG"
