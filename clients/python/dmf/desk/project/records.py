"""What a project has: its table, its scenarios and their steps. Nothing here knows how it is
written."""

from __future__ import annotations

from collections.abc import Mapping
from dataclasses import dataclass, field
from typing import Any, Union

VERSION = 1
ENDING = ".dmf.json"
# The first key of a project's file.
MARK = "dmf project"
# The options that name tables of places, and the others, with the type of each.
PLACE_OPTIONS = ("sources", "sinks", "node_limits", "place_table")
OPTIONS: dict[str, type] = {
    "tail": str,
    "head": str,
    "capacity": str,
    "name": str,
    "decimal": str,
    "both_ways": bool,
    "scale": str,
    "source": list,
    "sink": list,
    "raw_names": bool,
    "encoding": str,
    "missing": str,
    "ignore": list,
    "matrix": bool,
    "velocity": str,
    "tanks": str,
    "tolerance": str,
    "needs": str,
    "shift": str,
    "daily": str,
}
# Where a project's places lie: as on a map, or as the picture was drawn. Empty if the project does
# not say it, as an older one.
MAP, DRAWN = "map", "drawing"
# A place by its name, or by the number of its node if its name is not its own; an arc as [FROM, TO,
# NAME], with its place among several alike if there are some, or as what a place gives, takes or
# lets through; and what is asked for, as ["close", ARC].
PlaceName = Union[str, int]
ArcName = tuple[Any, ...]
Request = tuple[Any, ...]


@dataclass(frozen=True)
class KeptStep:
    """A step as a project's file has it: in words, with the value after it, and what was asked for,
    by names."""

    text: str
    value: str
    requests: tuple[Request, ...] = ()


@dataclass(frozen=True)
class Scenario:
    """A scenario: steps from the network of the table. The first `at` are made and the others were
    undone. `begun_from` is the scenario whose steps the first `inherited` ones were when this one
    was made, or empty. `left_out` are steps that meant nothing any more after the table had
    changed."""

    name: str
    steps: tuple[KeptStep, ...] = ()
    at: int = 0
    begun_from: str = ""
    inherited: int = 0
    note: str = ""
    left_out: tuple[KeptStep, ...] = ()


@dataclass(frozen=True)
class File:
    """A file that a project was made from: its path relative to the project's folder, and the
    SHA-256 sum of its content."""

    path: str
    sum: str


@dataclass
class KeptTable:
    """The table of a project: its file and the sheet in it; the options that say how to read it, by
    their names; the tables of places, by theirs; and what was found in it: the unit, the word for
    an arc, and what was assumed."""

    file: File
    sheet: str = ""
    options: dict[str, Any] = field(default_factory=dict)
    places: dict[str, File] = field(default_factory=dict)
    unit: str = ""
    noun: str = ""
    assumed: list[str] = field(default_factory=list)


@dataclass(frozen=True)
class Project:
    """A project after an act; each act makes another one of it. `identity` distinguishes it from
    others, `serial` counts the acts, `network` is the problem of its table with its names, and
    `present` is the name of the present scenario. `positions` are those of places in a picture,
    from a map or as it was drawn, and `moved` those of places that were moved by hand since."""

    identity: str
    table: KeptTable
    network: str
    serial: int = 0
    scenarios: tuple[Scenario, ...] = ()
    present: str = ""
    notes: str = ""
    positions: Mapping[str, tuple[float, ...]] = field(default_factory=dict)
    positions_from: str = ""
    moved: Mapping[str, tuple[float, ...]] = field(default_factory=dict)

    def scenario(self, name: str) -> Scenario | None:
        return next((it for it in self.scenarios if it.name == name), None)
