"""An import: the page on which a person says what a table is, before its board is opened.

What is said is kept as the arguments of a command line, and each reading is that of this command,
so that the command line on the page does the same. A reading is kept while neither the file nor
what is said changes; it has the desk that the board takes over."""

from __future__ import annotations

import argparse
import contextlib
import os
from collections.abc import Callable, Sequence
from dataclasses import replace
from typing import NamedTuple, Optional

from ...errors import OptionFault
from ...tables.loader import PLACE_TABLES, Stages, read_subject, split_path
from ...tables.other_kinds import is_part_of
from ..garbage_collection import without_collection
from ..running_networks import RunningNetworks
from ..steps import DeskFault, unforeseen
from ..workspace import Desk
from .import_options import (
    arguments,
    command_line,
    judge_options,
    nothing_said,
    options_of,
    others_of,
)
from .import_view import Reading, import_view
from .responses import (
    IMPORT_PAGE,
    Answering,
    Json,
    Response,
    WrongForm,
    answer,
    judge_fields,
    judge_words,
)
from .stopping import Stoppable, Stopped
from .uploads import keep_upload

NO_TABLE = {"error": "no table is open"}
STOPPED = "the reading was stopped"


class ImportTool(NamedTuple):
    """What the tool does for an import: `read` reads arguments, and raises an `OptionFault`; `open`
    makes a board of a desk, or raises an error after which the desk may have ended."""

    read: Callable[[Sequence[str]], argparse.Namespace]
    open: Callable[[argparse.Namespace, Desk], Answering]


class TableImport:
    """The answers to the requests of a page that imports a table."""

    page, picture_version = IMPORT_PAGE, 0

    def __init__(self, words: argparse.Namespace, tool: ImportTool) -> None:
        """Begin with what the arguments say; they need not name a file."""
        self._tool = tool
        self._folder = os.getcwd()
        self._path: str = split_path(words.path)[0] if words.path else ""
        self._said = options_of(words)
        self._others = others_of(words)
        self._tables = [
            split_path(path)[0] for option in PLACE_TABLES if (path := getattr(words, option))
        ]
        self._reading: Optional[Reading] = None
        # What the view was made of, and the view.
        self._seen: object = None
        self._view: Json = {}
        self._work = Stoppable()
        self.successor: Answering = self
        # Turns of an import are below those of a desk, so that pages are told when one is opened.
        self.turn = 1

    @property
    def desk(self) -> Optional[Desk]:
        """Return the desk of the present reading, if there is one."""
        return self._reading.desk if self._reading else None

    def get(self, path: str, words: dict[str, str]) -> Response:
        """Return the view."""
        if path != "import":
            return answer(NO_TABLE, 409)
        judge_words(words, ())
        return self._viewed()

    def post(self, path: str, content: Json) -> Response:
        """Take what is said, and return the view; or open the table."""
        if path == "import":
            if set(content) != {"options"}:
                raise WrongForm(f"expected the field options, got {sorted(content)}")
            self._said = judge_options(content["options"])
            if self._reading and self._reading.is_stopped:
                # It is read again when somebody asks for it.
                self._seen = None
            return self._viewed()
        if path != "open":
            return answer(NO_TABLE, 409)
        judge_fields(content, {})
        return self._judged(self._open)

    def upload(self, words: dict[str, str], data: bytes) -> Response:
        """Keep a file in the folder, and import it. One that is a part `of` another file is kept
        alone."""
        judge_words(words, ("name",), ("of",))
        return self._judged(lambda: self._take(words["name"], data, is_part="of" in words))

    def stop(self) -> Response:
        """Stop the reading, for another thread that does it, and answer whether there is one."""
        return answer({"is_stopped": self._work.stop()})

    def end(self) -> None:
        """End the reading, if one goes on."""
        self._work.stop()

    def _judged(self, make: Callable[[], Response]) -> Response:
        """Return the answer, or why there is none."""
        try:
            return make()
        except Exception as error:
            return answer({"error": unforeseen(error)}, 409)

    def _take(self, name: str, data: bytes, *, is_part: bool) -> Response:
        keep_upload(self._folder, name, data)
        if is_part:
            return answer({})
        if not is_part_of(name, self._path):
            self._path, self._said, self._others, self._tables = name, nothing_said(), [], []
        # Also the file that was read may be read otherwise now, as a shapefile with another part.
        self._seen = None
        return self._viewed()

    def _open(self) -> Response:
        """Open the board of the table as the page shows it."""
        seen = self._seen
        self._read_again()
        if seen != self._seen:
            raise DeskFault("the file has changed: look again")
        reading = self._reading
        if reading is None or reading.desk is None:
            raise DeskFault("the table cannot be opened yet: settle what the page asks")
        try:
            self.successor = self._tool.open(reading.words, reading.desk)
        except Exception:
            self._forget()
            raise
        return answer({"opened": True})

    def _viewed(self) -> Response:
        self._read_again()
        return answer({**self._view, "turn": self.turn})

    @property
    def _arguments(self) -> list[str]:
        """Return the command line's arguments."""
        given = arguments(self._path, self._said, self._others)
        return given if self._path else given[1:]

    def _read_again(self) -> None:
        """Read the file, if it or what is said of it has changed."""
        given = self._arguments
        now = given, [*map(_signature, (self._path, *self._tables))]
        if now == self._seen:
            return
        self.turn -= 1
        fault = self._read(given)
        told = [fault] if fault else []
        shown = import_view(self._reading, told) if self._reading else NOTHING_READ
        self._seen = now
        self._view = {**shown, "options": self._said, "command": command_line(given)}

    def _read(self, given: list[str]) -> str:
        """Read the file, and return what is wrong with the options; empty if nothing is."""
        if not self._path:
            return ""
        before = self._reading
        try:
            words = self._tool.read(given)
        except OptionFault as fault:
            self._forget()
            # What was found before is shown on, if it was of this file.
            if before is None or split_path(before.words.path)[0] != self._path:
                before = self._read_words(self._tool.read(arguments(self._path, nothing_said())))
                _end(before)
            self._reading = replace(before, desk=None, fault=None)
            return str(fault)
        self._forget()
        self._reading = self._read_words(words)
        return STOPPED if self._reading.is_stopped else ""

    def _read_words(self, words: argparse.Namespace) -> Reading:
        """Return what the file and the options of these words come to. Nobody is asked."""
        words.ask = None
        reading, running = Reading(words, Stages()), RunningNetworks()

        def read() -> None:
            reading.subject = read_subject(words, stages=reading.stages)
            reading.desk = Desk(
                reading.subject, with_solve=True, may_follow=not words.keep, running=running
            )

        try:
            with without_collection():
                self._work.run(read, lambda: running.break_off(STOPPED))
        except Stopped:
            _end(reading)
            running.break_off(STOPPED)
            return Reading(words, Stages(kind=reading.stages.kind), is_stopped=True)
        except Exception as error:
            reading.fault = error
        return reading

    def _forget(self) -> None:
        """End the desk of the present reading."""
        if self._reading:
            _end(self._reading)
        self._reading, self._seen = None, None


def _end(reading: Reading) -> None:
    if reading.desk:
        with contextlib.suppress(Exception):
            reading.desk.end()


def _signature(path: str) -> object:
    """Return what changes with a file."""
    try:
        found = os.stat(path)
    except (OSError, ValueError):
        return None
    return found.st_ino, found.st_size, found.st_mtime_ns


# The view while there is no file.
NOTHING_READ: Json = {
    "file": None,
    "is_stopped": False,
    "settings": [],
    "contents": [],
    "preview": {"rows": [], "lines": [], "header": None, "left_out": []},
    "columns": [],
    "roles": [],
    "told": [],
    "question": None,
    "faults": [],
    "more_faults": 0,
    "places": [],
    "ends": {"source": [], "sink": [], "assumed": []},
    "answer": None,
}
