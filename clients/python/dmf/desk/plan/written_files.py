"""The files that a session of dmf-plan writes: tables, problems, pictures and reports."""

from __future__ import annotations

import os
from collections.abc import Sequence
from pathlib import Path

from ...files import write_file
from ...text.lexical import display
from ...text.spelling import quoted_name
from ..steps import DeskFault


class WrittenFiles:
    """The files that this session has written. It overwrites no other file."""

    def __init__(self) -> None:
        self._written: set[str] = set()

    def new(self, path: str, endings: Sequence[str]) -> str:
        """Return the path of a file that may be written: if this session did not write it, it must
        be new. Raise a `DeskFault`."""
        path = os.path.expanduser(path)
        if Path(path).suffix not in endings:
            raise DeskFault(f"the name of the file ends with one of {', '.join(endings)}")
        if os.path.realpath(path) not in self._written and os.path.lexists(path):
            raise DeskFault(f"{quoted_name(path)} already exists; choose another name")
        return path

    def put(self, path: str, data: bytes) -> str:
        """Write a file, and say so. Raise a `DeskFault`."""
        try:
            # A new file must not replace a file or a link that somebody else put there meanwhile.
            write_file(path, data, is_new=os.path.realpath(path) not in self._written)
        except (OSError, ValueError) as error:
            why = error.strerror if isinstance(error, OSError) else error
            raise DeskFault(f"cannot write {quoted_name(path)}: {why}") from None
        self._written.add(os.path.realpath(path))
        return f"written: {display(path)}"
