"""The form of a project's file: all is read back, and what is none is refused with its place."""

from __future__ import annotations

import json
import os
import re
from collections.abc import Callable
from pathlib import Path
from typing import Any

import pytest
from desk_shared import ROOT
from dmf.desk.project import acts
from dmf.desk.project.schema import REQUESTS, parse_project, text_of
from dmf.desk.project.storage import opened
from project_files import a_project, made_project, refused


@pytest.fixture
def path(tmp_path: Path) -> str:
    return made_project(tmp_path)


def changed(path: str, change: Callable[[dict[str, Any]], object]) -> str:
    """The path of a file whose content was changed."""
    content = json.loads(Path(path).read_bytes())
    change(content)
    other = path.replace("water", "other")
    Path(other).write_text(json.dumps(content))
    return other


def test_read_back(path: str) -> None:
    assert parse_project(text_of(a_project())) == a_project()
    read = opened(path)
    assert read.record.project == a_project() and not read.why_not
    read.end()
    assert os.listdir(os.path.dirname(path)) == ["water.dmf.json"]


def test_half_a_file(path: str) -> None:
    """Each beginning of the file is refused, with a line in it, and stays as it is."""
    text = Path(path).read_bytes()
    for end in range(0, len(text) - 2, 7):
        half = Path(path.replace("water", "half"))
        half.write_bytes(text[:end])
        told = refused(str(half))
        line = text[:end].count(b"\n") + 1
        assert re.match(
            rf"{re.escape(str(half))}: (line {line}, column \d+: |byte \d+ is not UTF-8)", told
        ), (end, told)
        assert half.read_bytes() == text[:end]
    assert not [it for it in os.listdir(os.path.dirname(path)) if "journal" in it]


@pytest.mark.parametrize(
    "change, told",
    [
        (
            lambda it: it.update({"dmf project": 2}),
            "it is a project of version 2, and this dmf reads version 1; a newer dmf wrote it",
        ),
        (lambda it: it.update({"more": 1}), "more is not a field of a project of version 1"),
        (lambda it: it.pop("network"), "network is missing"),
        (lambda it: it.update(serial=-1), "serial is -1, and not from 0 to any number"),
        (lambda it: it.update(serial=1.0), "serial is a number, and not a whole number"),
        (lambda it: it["table"].update(sheet=None), "table.sheet is nothing, and not a text"),
        (
            lambda it: it["table"]["options"].update(tails="x"),
            "table.options.tails is not a field of a project of version 1",
        ),
        (
            lambda it: it["table"]["places"].update(x={}),
            "table.places.x is not one of sources, sinks, node_limits, place_table",
        ),
        (
            lambda it: it["table"].update(assumed=[1]),
            "table.assumed[0] is a whole number, and not a text",
        ),
        (lambda it: it["positions"].update(Mill=[1]), "positions['Mill'] is not two numbers"),
        (lambda it: it["moved"].update(Mill=[1, "2"]), "moved['Mill'] is not two numbers"),
        (lambda it: it["moved"].update(Mill=[1, 1e400]), "Infinity is not a JSON number"),
        (
            lambda it: it.update(positions_from="paper"),
            "positions_from is 'paper', and not 'map' or 'drawing'",
        ),
        (
            lambda it: it.update(positions_from="map"),
            "moved has places, and positions_from is not 'drawing'",
        ),
        (
            lambda it: it.update(present="nobody"),
            "present is 'nobody', and no scenario has that name",
        ),
        (
            lambda it: it["scenarios"][1].update(name="first"),
            "scenarios[1].name is 'first', as that of another scenario",
        ),
        (lambda it: it["scenarios"][0].update(at=3), "scenarios[0].at is 3, and not from 0 to 2"),
        (
            lambda it: it["scenarios"][0].update(inherited=2),
            "scenarios[0].inherited is 2, and not from 0 to 1",
        ),
        (
            lambda it: it["scenarios"][0]["steps"][1].update(value="-1"),
            "scenarios[0].steps[1].value is '-1', which is not a number from 0 up",
        ),
        (
            lambda it: it["scenarios"][0]["steps"][1]["requests"].append(["burn", "Mill"]),
            "scenarios[0].steps[1].requests[4] is not one of close, open, cap, add, add back, "
            "shut, make with its arguments",
        ),
        (
            lambda it: it["scenarios"][0]["steps"][0]["requests"].append(["close", ["Mill"]]),
            'scenarios[0].steps[0].requests[4] has ["Mill"], which is not a valid arc',
        ),
    ],
)
def test_strictly(path: str, change: Callable[[dict[str, Any]], object], told: str) -> None:
    other = changed(path, change)
    assert refused(other) == f"{other}: {told}"


def test_twice(path: str) -> None:
    other = path.replace("water", "other")
    Path(other).write_text(Path(path).read_text().replace('"serial"', '"id"'))
    assert refused(other) == f"{other}: the field 'id' occurs twice"


def test_documented() -> None:
    """docs/PROJECTS.md names each key of a project, each request and each act."""
    page = (ROOT / "docs/PROJECTS.md").read_text()
    section = page[page.index("## Projects") : page.index("## Answers in JSON")]
    content = json.loads(text_of(a_project()))
    keys = {
        *content,
        *content["table"],
        *content["scenarios"][0],
        *content["scenarios"][0]["steps"][0],
        *acts._ACTS,
    }
    assert not [key for key in keys if f"`{key}`" not in section]
    assert not [word for word in REQUESTS if f'["{word}"' not in section]
