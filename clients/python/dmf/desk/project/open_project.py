"""Projects in Python: `dmf.open_project` and `dmf.new_project`."""

from __future__ import annotations

import os
from argparse import Namespace
from collections.abc import Iterable, Mapping
from decimal import Decimal
from typing import Union

from ...session.base import Program
from ...tables.loader import read_subject, split_path
from ..workspace import Desk
from .opener import beside, keep_project
from .project_answers import Path, refusing
from .python_project import OpenProject


def open_project(path: Path, *, table: str | None = None, program: Program = None) -> OpenProject:
    """Open a project that `new_project`, `dmf-plan --keep` or `dmf-board --keep` has made.

    Its steps are made again on a new session, and each value is compared with the one in the file:
    `news` says what differs.

    Parameters
    ----------
    path
        The file of the project, `NAME.dmf.json`.
    table
        The file of its table, if that was moved.
    program
        As that of `Network`.

    Returns
    -------
    OpenProject
        The project, in the scenario that was the present one.

    Raises
    ------
    ProjectFault
        If the file is not a project. The message has the place in it.
    OSError
        If the file cannot be read.
    Error
        What `Network` raises.

    Examples
    --------
    >>> path = folder / "pipes.dmf.json"
    >>> dmf.new_project(folder / "pipes.csv", path).end()
    >>> with dmf.open_project(path) as opened:
    ...     opened.scenario, opened.value
    ('first', 2)
    """
    return OpenProject(path, table, program)


def new_project(
    table: Path,
    path: Path | None = None,
    *,
    source: Union[str, Iterable[str]] = (),
    sink: Union[str, Iterable[str]] = (),
    sources: Path | None = None,
    sinks: Path | None = None,
    node_limits: Path | None = None,
    places: Path | None = None,
    columns: Mapping[str, str] = {},
    decimal: str = "",
    scale: Union[Decimal, int, None] = None,
    both_ways: bool = False,
    encoding: str | None = None,
    raw_names: bool = False,
    missing: Union[str, int] = "",
    ignore: Iterable[str] = (),
    matrix: bool = False,
    velocity: Union[Decimal, float, None] = None,
    tanks: str = "",
    tolerance: Union[Decimal, float, None] = None,
    needs: str = "",
    shift: Union[Decimal, float, None] = None,
    daily: Union[str, int] = "",
    program: Program = None,
) -> OpenProject:
    """Make a project of the table or the problem in a file, as `dmf-plan --keep` does.

    It has one scenario, `first`, without a step.

    Parameters
    ----------
    table
        The file of the table or the problem.
    path
        The file of the project, which must not exist; by default beside the table:
        `pipes.dmf.json` for `pipes.csv`.
    source, sink
        A place or several places, each perhaps with its limit, as in `Mill=12`.
    sources, sinks, node_limits, places, columns, decimal, scale, both_ways, encoding
        As those of `read_table`.
    raw_names, missing, ignore, matrix, velocity, tanks, tolerance, needs, shift, daily, program
        Likewise.

    Returns
    -------
    OpenProject
        The project.

    Raises
    ------
    ProjectFault
        If the table has faults, with each row, or if the project cannot be written.
    OSError
        If the table cannot be read.
    Error
        What `Network` raises.

    Examples
    --------
    >>> with dmf.new_project(folder / "pipes.csv") as made:
    ...     made.value, made.limit
    (2, ['Mill pipe, mill -> sea'])
    """
    tables = {"sources": sources, "sinks": sinks, "node_limits": node_limits, "place_table": places}
    words = Namespace(
        path=os.fspath(table),
        titles=dict(columns),
        decimal=decimal,
        scale=None if scale is None else Decimal(scale),
        both_ways=both_ways,
        source=_listed(source),
        sink=_listed(sink),
        encoding=encoding,
        raw_names=raw_names,
        missing=str(missing),
        ignore=list(ignore),
        matrix=matrix,
        velocity=None if velocity is None else Decimal(str(velocity)),
        tanks=tanks,
        tolerance=None if tolerance is None else Decimal(str(tolerance)),
        needs=needs,
        shift=None if shift is None else Decimal(str(shift)),
        daily=str(daily),
        ask=None,
        **{option: None if it is None else os.fspath(it) for option, it in tables.items()},
    )
    with open(split_path(words.path)[0], "rb"):
        # An OSError names what cannot be read.
        pass
    with refusing():
        desk = Desk(read_subject(words), program=program)
        try:
            kept = keep_project(
                beside(words.path) if path is None else os.fspath(path), words, desk, program
            )
        finally:
            desk.end()
    kept.tell(*desk.network.subject.notes)
    return OpenProject._of(kept)


def _listed(ends: Union[str, Iterable[str]]) -> list[str]:
    return [ends] if isinstance(ends, str) else list(ends)
