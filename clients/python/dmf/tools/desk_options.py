"""The options of the tools that show a desk, and how these tools open and close it."""

from __future__ import annotations

import argparse
import os
import shlex
import sys
import time
from typing import TYPE_CHECKING

from ..desk.project.records import ENDING
from ..errors import Refused
from ..files import cannot
from .command import Status, ToolFault, show, status_of, warn

if TYPE_CHECKING:
    from ..desk.workspace import Desk

# From how many bytes on a terminal is told what is done with a file.
LARGE = 4_000_000
# How often it is told how far that is, in seconds.
PAUSE = 0.5


def add_project_words(parser: argparse.ArgumentParser) -> None:
    """Add the options of the tools that open projects."""
    parser.add_argument(
        "--keep",
        action="store_true",
        help=f"keep all steps in a new project beside the table, FILE{ENDING}",
    )
    parser.add_argument(
        "--table",
        metavar="FILE",
        help="where the table of a project is now, if it has moved",
    )


def open_desk(words: argparse.Namespace, *, with_solve: bool, may_follow: bool = False) -> Desk:
    """Return the desk for the table, the problem or the project in the arguments. Its `news` say
    what was assumed. With `may_follow`, and if no project keeps the steps, the flows may be
    computed later. Raises a `ToolFault`."""
    # A help needs no desk.
    from ..desk.garbage_collection import without_collection
    from ..desk.project.opener import beside, is_project, project_desk
    from ..desk.steps import DeskFault
    from ..desk.workspace import Desk
    from ..tables.loader import Stages, read_subject, says_table

    try:
        if is_project(words.path):
            if says_table(words) or words.raw_names or words.keep:
                raise ToolFault(
                    f"{words.path} is a project, which already says what its table is: of the "
                    "table options, only --table is allowed",
                    Status.USAGE,
                )
            return project_desk(words.path, words.table or "")
        if words.table is not None:
            raise ToolFault(
                "--table says where the table of a project is now, but FILE is not a project",
                Status.USAGE,
            )
        if words.keep and os.path.lexists(beside(words.path)):
            # The options may describe another network than the project has.
            raise ToolFault(
                f"{beside(words.path)} already exists; {_how_to_open(beside(words.path))}",
                Status.LOST,
            )
        is_watched = _is_watched(words.path)
        if is_watched:
            _tell(f"reading {words.path} ({os.path.getsize(words.path) / 1e6:.0f} MB)")
        with without_collection():
            watch = RowCount() if is_watched else None
            subject = read_subject(words, stages=Stages(watch=watch))
            if is_watched:
                _tell("solving")
            desk = Desk(subject, with_solve=with_solve, may_follow=may_follow and not words.keep)
        return settled_desk(words, desk)
    except Refused as fault:
        raise ToolFault(f"{words.path}: {fault}", status_of(fault)) from None
    except DeskFault as fault:
        raise ToolFault(str(fault), Status.LOST) from None
    except OSError as error:
        raise (
            cannot("read", words.path, error)
            if is_project(words.path)
            else ToolFault(str(error), Status.LOST)
        ) from None


def settled_desk(words: argparse.Namespace, desk: Desk) -> Desk:
    """Return the desk of a new project, if the arguments ask for one, or else this desk, with what
    was assumed. Raise a `DeskFault`."""
    from ..desk.project.opener import beside, keep_project

    notes = desk.network.subject.notes
    desk.tell(*notes)
    if not words.keep:
        if os.path.isfile(beside(words.path)):
            desk.tell(f"a project of this table exists; {_how_to_open(beside(words.path))}")
        return desk
    try:
        kept = keep_project(beside(words.path), words, desk)
    finally:
        desk.end()
    kept.tell(*notes)
    return kept


class RowCount:
    """A line at a terminal that says how many lines of a table are read. It is written at most once
    in `PAUSE` seconds, over the one before."""

    def __init__(self) -> None:
        self._told = time.monotonic()
        self._is_shown = False

    def __call__(self, count: int) -> None:
        """Take in how many are read, or 0 at the end, which takes the line away."""
        if not count and self._is_shown:
            show("")
            self._is_shown = False
        elif count and time.monotonic() - self._told >= PAUSE:
            show(f"{count:,} lines read")
            self._told, self._is_shown = time.monotonic(), True


def _is_watched(path: str) -> bool:
    """Return True if somebody waits at a terminal for a file that takes seconds to read."""
    is_terminal = sys.stderr is not None and sys.stderr.isatty()
    return is_terminal and os.path.isfile(path) and os.path.getsize(path) > LARGE


def _tell(what: str) -> None:
    """Print on a terminal what the tool does now."""
    warn(os.path.basename(sys.argv[0]), f"{what} ..")


def _how_to_open(path: str) -> str:
    """Return how the running tool opens a project."""
    tool = os.path.basename(sys.argv[0])
    return f"open it with: {tool if tool.startswith('dmf-') else 'dmf-plan'} {shlex.quote(path)}"


def close_desk(name: str, desk: Desk) -> None:
    """Close the desk of the tool with this name. Raises a `ToolFault` if its project cannot be
    written."""
    from ..desk.project.journal import journal_of
    from ..desk.project.scenarios import Scenarios

    project = Scenarios.of(desk)
    try:
        desk.end()
        for line in project.file.news if project else ():
            warn(name, line)
    except OSError as error:
        where = journal_of(project.file.path) if project else ""
        raise ToolFault(
            f"the project could not be written ({error.strerror}); {where} has the latest steps, "
            "and the next call reads them",
            Status.LOST,
        ) from None
