"""The journal of a project: a file with a line for each act that the project's file has not yet.

The journal names the project and how many acts came before it, and each of its lines has its
number. So a file and a journal that do not belong together are refused, and a line that the file
has already is not done twice. A last line without its end is the act that was in hand when the desk
was killed."""

from __future__ import annotations

import contextlib
import errno
import fcntl
import json
import os
import re
import stat
from collections.abc import Iterator
from typing import Any

from .acts import act_of, done
from .records import Project
from .strict_json import Fields, ProjectFault, read_json

MARK = "dmf journal"
VERSION = 1
TAKEN = (errno.EWOULDBLOCK, errno.EACCES, errno.EAGAIN)


def journal_of(path: str) -> str:
    """Return the path of a project's journal: `water.dmf.journal` for `water.dmf.json`."""
    return path.removesuffix(".json") + ".journal"


def head_of(identity: str, serial: int) -> bytes:
    """Return the first line of a journal that begins after this number of acts."""
    return json.dumps({MARK: VERSION, "id": identity, "after": serial}).encode()


class Locked(Exception):
    """Another process has the lock."""


class Journal:
    """A locked journal. Raises `Locked`, and an OSError if it cannot be written."""

    def __init__(self, path: str) -> None:
        self.path = path
        while True:
            # A link could lead to another user's file.
            self._file = os.open(
                path, os.O_RDWR | os.O_CREAT | os.O_APPEND | os.O_NOFOLLOW | os.O_NONBLOCK, 0o666
            )
            try:
                if not stat.S_ISREG(os.fstat(self._file).st_mode):
                    raise OSError(errno.EINVAL, "it is not a file")
                fcntl.flock(self._file, fcntl.LOCK_EX | fcntl.LOCK_NB)
                # The desk that had the lock may have removed the file before this one got it.
                with contextlib.suppress(FileNotFoundError):
                    if os.path.samestat(os.fstat(self._file), os.stat(path)):
                        break
                os.close(self._file)
            except BaseException as error:
                os.close(self._file)
                if isinstance(error, OSError) and error.errno in TAKEN:
                    raise Locked from None
                raise

    @property
    def length(self) -> int:
        return os.fstat(self._file).st_size

    @staticmethod
    def is_begun(text: bytes, identity: str) -> bool:
        """Return True if a text without an end of a line can be what a kill left of a journal that
        was begun."""
        head = head_of(identity, 0)[:-2]
        return (
            head.startswith(text)
            or text.startswith(head)
            and re.fullmatch(rb"[0-9]+}?", text[len(head) :]) is not None
        )

    def write(self, end: int, lines: bytes) -> None:
        """Cut the journal back to an end, append lines, and wait until they are on the disk. Raise
        an OSError if that fails; whatever of them is there then is cut back before the next
        ones."""
        os.ftruncate(self._file, end)
        try:
            left = lines
            while left:
                left = left[os.write(self._file, left) :]
            os.fdatasync(self._file)
        except OSError:
            with contextlib.suppress(OSError):
                os.ftruncate(self._file, end)
            raise

    def end(self, *, is_folded: bool, at: int | None = None) -> None:
        """Drop the lock, and remove the journal if the project's file has all of it; else cut it
        back to this length, if one is given."""
        with contextlib.suppress(OSError):
            if is_folded:
                os.remove(self.path)
            elif at is not None:
                os.ftruncate(self._file, at)
        os.close(self._file)


def journal_text(path: str) -> bytes:
    """Return the content of a journal, which is empty if there is no journal."""
    if not os.path.lexists(path):
        return b""
    try:
        with open(
            path,
            "rb",
            opener=lambda name, flags: os.open(name, flags | os.O_NOFOLLOW | os.O_NONBLOCK),
        ) as file:
            if stat.S_ISREG(os.fstat(file.fileno()).st_mode):
                return file.read()
    except FileNotFoundError:
        return b""
    except OSError as error:
        if error.errno != errno.ELOOP:
            raise
    raise ProjectFault(
        f"{path} is a link or not a file, so it is not a journal; move it away to open the "
        "project as its file is"
    )


def with_journal(path: str, journal: bytes, project: Project) -> tuple[Project, bool]:
    """Return the project of a file after the acts of its journal, and whether the journal ends with
    half a line. Raise a `ProjectFault` if the two do not belong together."""
    filed = project.serial
    *lines, rest = journal.split(b"\n")
    if not lines and not Journal.is_begun(rest, project.identity):
        raise ProjectFault(
            f"{journal_of(path)} is not a journal of this project; move it away to open the file "
            "as it is"
        )
    count = 0
    for at, line in enumerate(lines, 1):
        place = f"{journal_of(path)}: line {at}"
        with _placed(place):
            content = read_json(line)
            if at == 1:
                count = _begin_of(content, project)
                continue
            serial, word, given = act_of(content)
            count += 1
            if serial != count:
                raise ProjectFault(f"the act has the number {serial}, and {count} was expected")
            if serial > filed:
                project = done(project, word, given, word)
    return project, bool(rest)


@contextlib.contextmanager
def _placed(place: str) -> Iterator[None]:
    """Name this place in a fault."""
    try:
        yield
    except ProjectFault as fault:
        raise ProjectFault(f"{place}: {fault}") from None


def _begin_of(content: Any, project: Project) -> int:
    """Return the number of acts after which a journal begins. Raise a `ProjectFault` if it is not a
    journal of this project as its file is."""
    fields = Fields(content, "")
    version = fields.take(MARK, int)
    if version != VERSION:
        raise ProjectFault(
            f"it is a journal of version {version}, and this dmf reads version {VERSION}"
        )
    identity, after = fields.take("id", str), fields.count("after")
    fields.end()
    if identity != project.identity:
        raise ProjectFault(
            "it is the journal of another project; move it away to open this one as its file is"
        )
    if after > project.serial:
        told = (
            f"it goes on from act {after}, and the file has {project.serial}, so the file is an "
            "older version"
        )
        raise ProjectFault(f"{told}; move the journal away to open the file as it is")
    return after
