"""The text of a project in JSON: how each part of it is written, and read back."""

from __future__ import annotations

import json
import math
import re
from collections.abc import Callable, Mapping
from dataclasses import replace
from decimal import Decimal
from typing import Any

from ...quantity import LARGEST_EXPONENT, LONGEST_NUMBER, SIGNS
from .records import (
    DRAWN,
    MAP,
    MARK,
    OPTIONS,
    PLACE_OPTIONS,
    VERSION,
    File,
    KeptStep,
    KeptTable,
    Project,
    Request,
    Scenario,
)
from .strict_json import Fields, ProjectFault, read_json

# An amount as it is written here, and the longest one.
_AMOUNT = re.compile(r"[0-9]+(?:\.[0-9]+)?")
_LONGEST_AMOUNT = LONGEST_NUMBER + 2 * LARGEST_EXPONENT
# What a place does, for which an arc can stand.
KINDS = ("supply", "demand", "limit")
# By the word of a request, what follows it.
REQUESTS = {
    "close": ("arc",),
    "open": ("arc",),
    "cap": ("arc", "amount"),
    "add": ("ends", "amount"),
    "add back": ("ends", "amount"),
    "shut": ("place",),
    "make": ("name",),
}


def parse_project(text: bytes) -> Project:
    """Return the project of a text. Raise a `ProjectFault`."""
    fields = Fields(read_json(text), "")
    version = fields.take(MARK, int)
    if version != VERSION:
        newer = "; a newer dmf wrote it" if version > VERSION else ""
        raise ProjectFault(
            f"it is a project of version {version}, and this dmf reads version {VERSION}{newer}"
        )
    project = Project(
        fields.take("id", str),
        table_of(fields.take("table", dict), "table"),
        fields.take("network", str),
        fields.count("serial"),
        present=fields.take("present", str),
        notes=fields.take("notes", str, ""),
        positions=positions_of(fields.take("positions", dict, {}), "positions"),
        positions_from=fields.take("positions_from", str, ""),
        moved=positions_of(fields.take("moved", dict, {}), "moved"),
    )
    judge_origin(project.positions_from or MAP, "positions_from")
    if project.moved and project.positions_from != DRAWN:
        raise ProjectFault(f"moved has places, and positions_from is not {DRAWN!r}")
    scenarios: dict[str, Scenario] = {}
    for at, content in enumerate(fields.take("scenarios", list)):
        place = f"scenarios[{at}]"
        scenario = scenario_of(content, place)
        if scenario.name in scenarios:
            raise ProjectFault(f"{place}.name is {scenario.name!r}, as that of another scenario")
        scenarios[scenario.name] = scenario
    project = replace(project, scenarios=tuple(scenarios.values()))
    fields.end()
    if not project.scenario(project.present):
        raise ProjectFault(f"present is {project.present!r}, and no scenario has that name")
    return project


def judge_origin(content: object, place: str) -> None:
    """Raise a `ProjectFault` if this does not say where positions come from."""
    if content not in (MAP, DRAWN):
        raise ProjectFault(f"{place} is {content!r}, and not {MAP!r} or {DRAWN!r}")


def positions_of(content: Mapping[str, object], place: str) -> dict[str, tuple[float, ...]]:
    """Return the coordinates of places, by their names."""
    return {name: position_of(it, f"{place}[{name!r}]") for name, it in content.items()}


def position_of(content: object, place: str) -> tuple[float, ...]:
    """Return the coordinates of a place."""
    if (
        not isinstance(content, list)
        or len(content) != 2
        or not all(type(it) in (int, float) for it in content)
    ):
        raise ProjectFault(f"{place} is not two numbers")
    if not all(map(math.isfinite, content)):
        raise ProjectFault(f"{place} is too large for a picture")
    return tuple(map(float, content))


def scenario_of(content: object, place: str) -> Scenario:
    """Return the scenario of an object in JSON."""
    fields = Fields(content, place)
    steps, left_out = _steps_of(fields, "steps", None), _steps_of(fields, "left_out", [])
    name, at, begun_from = (
        fields.take("name", str),
        fields.count("at", len(steps)),
        fields.take("from", str, ""),
    )
    inherited, note = fields.count("inherited", at), fields.take("note", str, "")
    fields.end()
    return Scenario(name, steps, at, begun_from, inherited, note, left_out)


def _steps_of(fields: Fields, name: str, default: list[Any] | None) -> tuple[KeptStep, ...]:
    given = enumerate(fields.take(name, list, default))
    return tuple(step_of(it, f"{fields.at(name)}[{at}]") for at, it in given)


def step_of(content: object, place: str) -> KeptStep:
    """Return the step of an object in JSON."""
    fields = Fields(content, place)
    requests = tuple(
        _request_of(it, f"{place}.requests[{at}]")
        for at, it in enumerate(fields.take("requests", list))
    )
    step = KeptStep(fields.take("text", str), fields.take("value", str), requests)
    fields.end()
    if not _is_amount(step.value):
        raise ProjectFault(f"{place}.value is {step.value!r}, which is not a number from 0 up")
    return step


def _request_of(content: object, place: str) -> Request:
    """Return a request, as in ["cap", ["Mill", "Town", "Mill Lane"], "47.3"]."""
    word = content[0] if isinstance(content, list) and content else None
    if (
        not isinstance(content, list)
        or type(word) is not str
        or word not in REQUESTS
        or len(content) != 1 + len(REQUESTS[word])
    ):
        raise ProjectFault(f"{place} is not one of {', '.join(REQUESTS)} with its arguments")
    found = []
    for kind, part in zip(REQUESTS[word], content[1:]):
        if not _FORMS[kind](part):
            raise ProjectFault(f"{place} has {json.dumps(part)}, which is not a valid {kind}")
        found.append(tuple(part) if isinstance(part, list) else part)
    return (word, *found)


def _is_place(part: object) -> bool:
    return type(part) is str or type(part) is int and part > 0


def _is_ends(part: object) -> bool:
    return (
        isinstance(part, list)
        and len(part) == 3
        and _is_place(part[0])
        and _is_place(part[1])
        and type(part[2]) is str
    )


def _is_arc(part: object) -> bool:
    if not isinstance(part, list):
        return False
    if len(part) == 2:
        return part[0] in KINDS and _is_place(part[1])
    return _is_ends(part[:3]) and (
        len(part) == 3 or len(part) == 4 and type(part[3]) is int and part[3] > 0
    )


def _is_amount(part: object) -> bool:
    return (
        type(part) is str and len(part) <= _LONGEST_AMOUNT and _AMOUNT.fullmatch(part) is not None
    )


_FORMS: dict[str, Callable[[object], bool]] = {
    "place": _is_place,
    "name": lambda part: type(part) is str,
    "ends": _is_ends,
    "arc": _is_arc,
    "amount": _is_amount,
}


def table_of(content: object, place: str) -> KeptTable:
    """Return the table of an object in JSON."""
    fields = Fields(content, place)
    table = KeptTable(
        _file_of(fields),
        fields.take("sheet", str, ""),
        _options_of(fields.take("options", dict, {}), f"{place}.options"),
        unit=fields.take("unit", str, ""),
        noun=fields.take("noun", str, ""),
        assumed=fields.texts("assumed"),
    )
    for option, given in fields.take("places", dict, {}).items():
        where = f"{place}.places.{option}"
        if option not in PLACE_OPTIONS:
            raise ProjectFault(f"{where} is not one of {', '.join(PLACE_OPTIONS)}")
        parts = Fields(given, where)
        table.places[option] = _file_of(parts)
        parts.end()
    fields.end()
    return table


def _file_of(fields: Fields) -> File:
    path = fields.take("path", str)
    if "\0" in path:
        raise ProjectFault(f"{fields.at('path')} is not a path")
    return File(path, fields.take("sum", str))


def _options_of(content: Mapping[str, Any], place: str) -> dict[str, Any]:
    fields = Fields(content, place)
    found = {
        name: fields.texts(name) if kind is list else fields.take(name, kind)
        for name, kind in OPTIONS.items()
        if name in content
    }
    fields.end()
    for name, judge in _OPTION_JUDGES.items():
        if name in found and not judge(found[name]):
            raise ProjectFault(
                f"{fields.at(name)} is {found[name]!r}, which the option --{name} does not take"
            )
    return found


def _is_encoding(name: str) -> bool:
    try:
        b"A".decode(name)
    except UnicodeDecodeError:
        return True
    except (LookupError, ValueError):
        return False
    return True


_OPTION_JUDGES: dict[str, Callable[[str], bool]] = {
    "decimal": SIGNS.__contains__,
    "scale": lambda text: _is_amount(text) and Decimal(text) > 0,
    "encoding": _is_encoding,
    "missing": ("0", "unlimited").__contains__,
}


def text_of(project: Project) -> bytes:
    """Return the text of a project, a line for each of its steps, so that two versions can be
    compared line by line."""
    said: dict[str, Any] = {
        MARK: VERSION,
        "id": project.identity,
        "serial": project.serial,
        "table": said_table(project.table),
        "notes": project.notes,
        "positions": project.positions,
        # An older dmf refuses these two, so they are written only if they say something.
        **({"positions_from": project.positions_from} if project.positions_from else {}),
        **({"moved": project.moved} if project.moved else {}),
        "present": project.present,
    }
    lines = [f" {_dumped(name)}: {_dumped(content)}" for name, content in said.items()]
    scenarios = ",\n".join(f"  {_scenario_text(it)}" for it in project.scenarios)
    lines += [f' "scenarios": [\n{scenarios}\n ]', f' "network": {_dumped(project.network)}']
    return ("{\n" + ",\n".join(lines) + "\n}\n").encode()


def _dumped(content: object) -> str:
    # A surrogate that stands alone cannot be written in UTF-8.
    return json.dumps(content, ensure_ascii=False).encode("utf-8", "backslashreplace").decode()


def _scenario_text(scenario: Scenario) -> str:
    head = _dumped(
        {name: content for name, content in said_scenario(scenario).items() if name != "steps"}
    )
    steps = ",\n".join(f"   {_dumped(said_step(step))}" for step in scenario.steps)
    return head[:-1] + ', "steps": [' + (f"\n{steps}\n  " if steps else "") + "]}"


def said_table(table: KeptTable) -> dict[str, Any]:
    """Return a table as its object in JSON has it."""
    return {
        **vars(table.file),
        "sheet": table.sheet,
        "options": table.options,
        "places": {option: vars(file) for option, file in table.places.items()},
        "unit": table.unit,
        "noun": table.noun,
        "assumed": table.assumed,
    }


def said_scenario(scenario: Scenario) -> dict[str, Any]:
    """Return a scenario as its object in JSON has it."""
    return {
        "name": scenario.name,
        "from": scenario.begun_from,
        "inherited": scenario.inherited,
        "note": scenario.note,
        "at": scenario.at,
        "left_out": [said_step(step) for step in scenario.left_out],
        "steps": [said_step(step) for step in scenario.steps],
    }


def said_step(step: KeptStep) -> dict[str, Any]:
    """Return a step as its object in JSON has it."""
    return {"text": step.text, "value": step.value, "requests": step.requests}
