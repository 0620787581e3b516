"""A project in its file. What is done to it is kept at once as a line of a journal beside the file,
which takes the same time whatever the project has; when a desk ends, the file is rewritten,
beside the old one at first, and the last versions stay beside it."""

from __future__ import annotations

import contextlib
import errno
import json
import os
import re
import shutil
import stat
from collections.abc import Sequence
from dataclasses import dataclass
from typing import Any

from ...files import write_file
from .acts import done
from .journal import Journal, Locked, head_of, journal_of, journal_text, with_journal
from .records import Project
from .schema import parse_project, text_of
from .strict_json import ProjectFault, read_json

MOST_VERSIONS = 20


def versions_of(path: str) -> list[str]:
    """Return the older versions of a project's file, the oldest first: `water.dmf.json.~7~`."""
    folder, name = os.path.split(path)
    form = re.compile(re.escape(name) + r"\.~([0-9]{1,9})~")
    found = [
        (int(match[1]), match[0])
        for match in map(form.fullmatch, os.listdir(folder or "."))
        if match
    ]
    return [os.path.join(folder, version) for _, version in sorted(found)]


# What is done to a project, as a line of the journal has it: a word and what goes with it.
Act = tuple[str, Any]


@dataclass(frozen=True)
class Record:
    """A project after some acts: the length of the journal that has them, or 0 if the project's
    file has them all; and its last lines, which `ProjectFile.write` writes."""

    project: Project
    journal_end: int = 0
    lines: bytes = b""


class ProjectFile:
    """An open project. `why_not` says why this process may only read it, and is empty if it may
    write. `news` are lines to show: what a kill has cost, and what another process has written
    meanwhile."""

    def __init__(
        self,
        path: str,
        project: Project,
        journal: Journal | None,
        why_not: str = "",
        filed: int = 0,
        has_rest: bool = False,
    ) -> None:
        self.path = path
        # The project as it was opened.
        self.record = Record(project, journal.length if journal else 0)
        self.why_not = why_not
        self.news: list[str] = []
        self._seen = _stamp(path)
        self._journal = journal
        # How many acts the file has; the journal has those after them.
        self._filed = filed
        # Whether the journal ends with half a line.
        self._has_rest = has_rest

    @property
    def is_folded(self) -> bool:
        """Return True if the file has all that the journal has, so that opening it writes
        nothing."""
        return (
            self._journal is None
            or self.record.project.serial == self._filed
            and not self._has_rest
        )

    def fold(self) -> None:
        """Write what the journal has into the file. If that cannot be done, the project can only be
        read from then on."""
        if self.is_folded:
            self.record = Record(self.record.project)
            return
        self.news += [
            f"the last line of {journal_of(self.path)} has no end: what was in hand then is lost"
        ] * self._has_rest
        try:
            self._write_file(self.record.project)
            self.record = Record(self.record.project)
        except OSError as error:
            self.why_not = f"it cannot be written: {error.strerror}"
            self.end()

    def after(self, record: Record, acts: Sequence[Act]) -> Record:
        """Return the record after some acts, which are not written yet. Raise a `ProjectFault` if
        one cannot be done."""
        if not acts:
            return record
        project, lines = record.project, [] if record.journal_end else [
            head_of(record.project.identity, self._filed)
        ]
        for word, content in acts:
            line = json.dumps({"serial": project.serial + 1, word: content}).encode()
            # What is done is what the line says.
            project = done(project, word, read_json(line)[word], word)
            lines.append(line)
        text = b"".join(line + b"\n" for line in lines)
        return Record(project, record.journal_end + len(text), text)

    def write(self, before: Record, after: Record) -> None:
        """Write the lines of a record after those of the one before it, so that they are on the
        disk. Raise an OSError if that fails."""
        if self._journal is None:
            raise OSError(errno.EROFS, self.why_not)
        self._journal.write(before.journal_end, after.lines)

    def _write_file(self, project: Project) -> None:
        """Rewrite the file, and keep the one before it as a version. Raise an OSError if that
        fails; nothing is lost then."""
        if self._journal is None:
            raise OSError(errno.EROFS, self.why_not)
        text, is_theirs = text_of(project), _stamp(self.path) != self._seen
        version = self._version()
        try:
            write_file(self.path, text)
        except BaseException:
            if version:
                os.remove(version)
            raise
        if is_theirs and version:
            self.news.append(
                f"somebody else has written {self.path} meanwhile: that is {version} now"
            )
        self._seen = _stamp(self.path)
        self._filed = project.serial
        for old in versions_of(self.path)[:-MOST_VERSIONS]:
            with contextlib.suppress(OSError):
                os.remove(old)

    def _version(self) -> str:
        """Return the path of a version with the file as it is, if there is one."""
        if not os.path.exists(self.path):
            return ""
        before = versions_of(self.path)
        number = int(before[-1].rpartition(".~")[2][:-1]) + 1 if before else 1
        version = f"{self.path}.~{number}~"
        try:
            os.link(self.path, version)
        except OSError:
            shutil.copy2(self.path, version)
        return version

    def end(self, record: Record | None = None) -> None:
        """Write the file if something was done, and let others write it. `record` is the last state
        of the project, if a desk had it. Raise an OSError if the file cannot be written; the
        journal has everything then."""
        if self._journal is None:
            return
        journal, record = self._journal, record or self.record
        project = record.project
        try:
            if project.serial > self._filed and not self.why_not:
                self._write_file(project)
        finally:
            self._journal, self.why_not = None, self.why_not or "it was closed"
            journal.end(is_folded=project.serial == self._filed, at=record.journal_end)

    def leave(self) -> None:
        """Unlock the project for others, and leave the file and the journal as they are."""
        if self._journal:
            journal, is_folded = self._journal, self.is_folded
            self._journal, self.why_not = None, self.why_not or "it was closed"
            journal.end(is_folded=is_folded)

    def discard(self) -> None:
        """Remove a project that was just made."""
        if self._journal:
            self._journal.end(is_folded=True)
            self._journal, self.why_not = None, "it was closed"
            os.remove(self.path)


def _stamp(path: str) -> tuple[int, ...]:
    """Return what tells the file at a path from another one there, or from itself with other
    content."""
    with contextlib.suppress(FileNotFoundError):
        found = os.stat(path)
        return found.st_ino, found.st_size, found.st_mtime_ns
    return ()


def created(path: str, project: Project) -> ProjectFile:
    """Return a new project, in a file that is not there yet. Raise an OSError."""
    if os.path.lexists(path):
        raise FileExistsError(errno.EEXIST, "it already exists")
    if os.path.exists(journal_of(path)) and os.path.getsize(journal_of(path)):
        raise FileExistsError(
            errno.EEXIST, f"the journal of another one is there, {journal_of(path)}"
        )
    try:
        journal = Journal(journal_of(path))
    except Locked:
        raise FileExistsError(errno.EEXIST, "another desk is making it") from None
    made = ProjectFile(path, project, journal)
    try:
        write_file(path, text_of(project), is_new=True)
    except BaseException:
        journal.end(is_folded=True)
        raise
    made._seen = _stamp(path)
    return made


def opened(path: str) -> ProjectFile:
    """Return the project in a file, into which its journal is written first. Raise what
    `read_project` raises, and an OSError."""
    file = read_project(path)
    file.fold()
    return file


def read_project(path: str) -> ProjectFile:
    """Return the project in a file and its journal, and write nothing.

    Raises
    ------
    ProjectFault
        If it is none, with the file and the place in it.
    OSError
        If it cannot be read.
    """
    path = os.path.realpath(path)
    if not stat.S_ISREG(os.stat(path).st_mode):
        raise OSError(errno.EINVAL, "it is not a file")
    journal, why_not = None, ""
    is_new = not os.path.lexists(journal_of(path))
    try:
        journal = Journal(journal_of(path))
    except Locked:
        why_not = "another desk has it open"
    except OSError as error:
        why_not = f"it cannot be written: {error.strerror}"
    try:
        project, filed, has_rest = _read(path)
    except BaseException:
        if journal:
            journal.end(is_folded=is_new)
        raise
    return ProjectFile(path, project, journal, why_not, filed, has_rest)


def _read(path: str) -> tuple[Project, int, bool]:
    """Return the project of a file and its journal, how many acts the file has, and whether the
    journal ends with half a line. The journal is read first: if another desk writes the file
    between, the file has all of that journal."""
    journal = journal_text(journal_of(path))
    with open(path, "rb") as file:
        text = file.read()
    try:
        project = parse_project(text)
    except ProjectFault as fault:
        versions = versions_of(path)
        hint = f"; the version before it is {versions[-1]}" if versions else ""
        raise ProjectFault(f"{path}: {fault}{hint}") from None
    after, has_rest = with_journal(path, journal, project)
    return after, project.serial, has_rest
