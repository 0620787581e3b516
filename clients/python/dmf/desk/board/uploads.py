"""A file that is dropped on a page: kept under its name in the folder in which the board runs."""

from __future__ import annotations

import os
import stat

from ...files import write_file
from ...text.spelling import quoted_name
from ..project.opener import is_project
from ..steps import DeskFault


def keep_upload(folder: str, name: str, data: bytes) -> None:
    """Write a file whole, or use the one with the same bytes that is there. Raise a `DeskFault` if
    the name is not that of a file in this folder, or another file has it."""
    _judge_name(name)
    path = os.path.join(folder, name)
    try:
        if os.path.lexists(path):
            if not _has(path, data):
                raise DeskFault(
                    f"{quoted_name(name)} already exists in {folder}, with other content; rename "
                    "one of them"
                )
        else:
            write_file(path, data, is_new=True)
    except OSError as error:
        raise DeskFault(
            f"{quoted_name(name)} cannot be written in {folder}: {error.strerror}"
        ) from None


def _judge_name(name: str) -> None:
    """Raise a `DeskFault` if a name leads out of the folder, is hidden, or cannot be shown."""
    try:
        name.encode()
    except UnicodeEncodeError:
        raise DeskFault("the name of the file has half a character; rename it") from None
    if not name or "/" in name or "\\" in name or name.startswith(".") or not name.isprintable():
        raise DeskFault(f"{quoted_name(name)} is not the name of a file that can be kept")
    if is_project(name):
        raise DeskFault(f"{quoted_name(name)} is a project: open it by dmf board {name}")


def _has(path: str, data: bytes) -> bool:
    """Return True if a path is a file with these bytes."""
    if not stat.S_ISREG(os.stat(path).st_mode) or os.path.getsize(path) != len(data):
        return False
    with open(path, "rb") as file:
        return file.read() == data
