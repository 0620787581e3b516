"""What was done to the projects and answers of version 0.1.0 that lie here, so that a test can do
it again and compare."""

from __future__ import annotations

from collections.abc import Callable
from pathlib import Path
from typing import Any

import dmf

# A project: its table and the arguments of `new_project`; then what was done before its file was
# written, and what only its journal has.
Acts = list[tuple[Any, ...]]
PROJECTS: dict[str, tuple[str, dict[str, Any], Acts, Acts]] = {
    "water": (
        "pipes.csv",
        {},
        [
            ("close", "Mill pipe"),
            ("cap", "Market Street", "+50 %"),
            ("add", "Mill", "Station", "25", "New pipe"),
            ("undo", 1),
            ("note", "The mill is mended in May."),
            ("copy", "Wider"),
            ("redo", 0),
            ("cap", "North rise", 90),
        ],
        [
            ("new", "Flood"),
            ("shut", "South Tower"),
            ("close", "#11"),
            ("open_place", "South Tower"),
            ("undo", 1),
            ("go", "Wider"),
            ("undo", 2),
        ],
    ),
    "supply": (
        "routes.csv",
        {"sources": "stock.csv", "sinks": "orders.csv"},
        [
            ("close", "North Depot-Abbey"),
            ("new", "Lorry"),
            ("cap", "North Depot-Bridge", "30"),
            ("rename", "Larger lorry"),
        ],
        [
            ("add", "East Depot", "Castle", "12", "Night run"),
            ("copy", "Both"),
            ("close", "North Depot-Castle"),
            ("delete", "first"),
        ],
    ),
    "valley": (
        "valley.csv",
        {"source": "Spring", "sink": ["Town", "Farm=2,5"], "both_ways": True, "decimal": ","},
        [("cap", "Spring-Ridge", "0,125"), ("close", "Mill-Ridge")],
        [
            ("open", "Mill-Ridge"),
            ("new", "Dry", "first"),
            ("cap", "Mill-Farm", "-50 %"),
            ("undo", 1),
        ],
    ),
}


def play(project: dmf.OpenProject, acts: Acts) -> None:
    """Do each act by the call that has its name."""
    for name, *arguments in acts:
        getattr(project, name)(*arguments)


def answers(folder: Path) -> dict[str, Any]:
    """Return one of each answer and exception that can be pickled, with nodes and keys of several
    types."""
    return {
        **answers_by_names(),
        **answers_by_numbers(),
        **answers_of_a_table(folder / "valley.csv"),
    }


def answers_by_names() -> dict[str, Any]:
    kept: dict[str, Any] = {}
    with dmf.Network(
        [("a", "b", 3, "x"), ("a", "b", 4), ("b", "c", 5, "out")], "a", "c"
    ) as network:
        network.solve()
        network.close("x")
        network.add("b", "c", 1, "new")
        kept["names"], kept["cut"], kept["arc"] = network.solve(), network.cut(), network.arcs[0]
        kept["swept"] = list(
            dmf.sweep(network, [[("cap", "out", 2)], [("shut", "b")]], want_cut=True)
        )
        kept["no_such_arc"] = error_of(lambda: network.close("y"))
        kept["no_such_node"] = error_of(lambda: network.shut("y"))
    return kept


def answers_by_numbers() -> dict[str, Any]:
    with dmf.Network([(5, 7, 2), (7, 9, 1), (5, 9, 2**63)], 5, 9) as network:
        return {"numbers": network.solve(), "numbered_cut": network.cut()}


def answers_of_a_table(table: Path) -> dict[str, Any]:
    with dmf.read_table(
        table, source="Spring", sink="Town", both_ways=True, decimal=","
    ) as network:
        kept = {"table": network.solve(), "table_cut": network.cut()}
    kept["table_fault"] = error_of(lambda: dmf.read_table(table, source="Sea", sink="Town"))
    return kept


def answers_of_a_project(project: dmf.OpenProject) -> dict[str, Any]:
    """Return what the project `valley` answers."""
    kept: dict[str, Any] = {"steps": project.steps, "comparison": project.compare("Dry", "base")}
    return {**kept, "project_fault": error_of(lambda: project.close("nothing"))}


def error_of(call: Callable[[], object]) -> dmf.Error:
    try:
        call()
    except dmf.Error as error:
        return error
    raise AssertionError("nothing was refused")
