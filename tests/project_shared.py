"""What the tests of projects share: projects of the stories in a folder of their own."""

from __future__ import annotations

import argparse
import shutil
from pathlib import Path

from desk_shared import ROOT
from dmf.desk.project.opener import keep_project
from dmf.desk.workspace import Desk
from dmf.tables.loader import read_subject
from dmf.tools.desk_options import add_project_words
from dmf.tools.options import add_words, words_of

SUPPLY_WORDS = ["routes.csv", "--sources", "stock.csv", "--sinks", "orders.csv"]


def words(folder: Path, *given: str) -> argparse.Namespace:
    """The words of a tool, of which the files are in a folder."""
    parser = argparse.ArgumentParser()
    add_words(parser)
    add_project_words(parser)
    return words_of(
        parser, [str(folder / word) if word.endswith(".csv") else word for word in given]
    )


def new_project(folder: Path, *given: str, name: str = "kept.dmf.json") -> Desk:
    """The desk of a new project of the table that words of a tool name."""
    said = words(folder, *given)
    desk = Desk(read_subject(said))
    try:
        return keep_project(str(folder / name), said, desk)
    finally:
        desk.end()


def water_project(folder: Path) -> Desk:
    shutil.copy(ROOT / "examples/water/pipes.csv", folder)
    return new_project(folder, "pipes.csv")


def supply_project(folder: Path) -> Desk:
    for name in "routes.csv", "stock.csv", "orders.csv":
        shutil.copy(ROOT / "examples/supply" / name, folder)
    return new_project(folder, *SUPPLY_WORDS)


def named(desk: Desk, name: str) -> int:
    """The arc that a name means, open or closed."""
    (number,) = (
        it for it in desk.network.names.arcs(name) if not desk.network.line(it).is_replaced
    )
    return number


def arc_states(desk: Desk) -> list[tuple[str, str, str, bool]]:
    """What the arcs are now, by their names: capacity, flow and whether they are closed."""
    opened = [number for number, line in enumerate(desk.network.lines, 1) if not line.is_replaced]
    return [
        (
            desk.network.names.arc(it),
            str(desk.network.line(it).capacity),
            str(desk.flow(it)),
            desk.network.line(it).is_closed,
        )
        for it in opened
    ]
