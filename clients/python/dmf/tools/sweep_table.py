"""The file in which dmf-sweep writes its table, and in which it goes on after an interrupted
run."""

from __future__ import annotations

import contextlib
import csv
import fcntl
import hashlib
import io
import os
import stat
from pathlib import Path

from ..files import cannot
from ..tables.sheet import delimiter
from .command import Status, ToolFault, warn
from .sweep_run import NAME, SweepRun


class ResultFile:
    """The file of a table, locked against other sweeps. Each row has one more field, which is the
    same for all rows of one problem: a digest of the problem and its names."""

    def __init__(self, path: str, sweep: SweepRun, problem: str) -> None:
        """Read what an earlier run left, and cut off what follows its last whole row. Raises a
        `ToolFault` if this is not a regular file, if another sweep is writing it, if it is not such
        a table, or if it belongs to another problem or to other cases."""
        self.path = path
        self.sweep = sweep
        self.head = [*sweep.head, "problem"]
        self.mark = hashlib.sha256(sweep.network.problem().encode(errors="replace")).hexdigest()[
            :16
        ]
        self._file = self._locked()
        try:
            with open(self._file, "rb", closefd=False) as file:
                text = file.read().decode()
            self.rows, kept = self._read(text, problem)
            self._judge_cases(sweep)
            self._size = len(kept.encode())
            os.ftruncate(self._file, self._size)
        except OSError as error:
            raise cannot("write", path, error) from None
        except (UnicodeDecodeError, csv.Error):
            raise ToolFault(f"{path} is not a table of {NAME}") from None

    def _locked(self) -> int:
        """Return the file, open and locked. The system releases the lock when the process ends,
        however it ends."""
        path = self.path
        try:
            if os.path.exists(path) and not stat.S_ISREG(os.stat(path).st_mode):
                raise ToolFault(
                    f"{path} is not a regular file, so no sweep can go on in it; without --table "
                    "the table goes to standard output",
                    Status.LOST,
                )
            file = os.open(path, os.O_RDWR | os.O_CREAT | os.O_APPEND, 0o666)
        except OSError as error:
            raise cannot("write", path, error) from None
        try:
            fcntl.flock(file, fcntl.LOCK_EX | fcntl.LOCK_NB)
        except BlockingIOError:
            raise ToolFault(
                f"{path} is being written by {holder(file)}; two sweeps cannot write one table",
                Status.LOST,
            ) from None
        except OSError as error:
            warn(
                NAME,
                f"{path} cannot be locked: {error.strerror}. Let no other sweep write to it",
            )
        return file

    def _read(self, text: str, problem: str) -> tuple[list[list[str]], str]:
        """Return the rows in the text that an earlier run left, without their digests, and the part
        of the text that has them."""
        rows: list[list[str]] = []
        kept = ""
        whole_lines = io.StringIO(text[: text.rfind("\n") + 1], newline="")
        for cells in csv.reader(whole_lines, delimiter=delimiter(self.sweep.measure)):
            rows.append(cells)
            kept += self.sweep.line(cells)
        if rows[:1] == [self.head[:-1]]:
            raise ToolFault(
                f"{self.path} does not say which problem it belongs to: an older {NAME} wrote it"
            )
        while rows and len(rows[-1]) != len(self.head):
            kept = kept[: -len(self.sweep.line(rows.pop()))]
        # In another unit, the columns of numbers have other titles.
        titles = [[title.partition(" (")[0] for title in head] for head in (self.head, *rows[:1])]
        is_begun = self.sweep.line(self.head).startswith(text) or titles[1:] == titles[:1]
        if not is_begun or not text.startswith(kept):
            raise ToolFault(f"{self.path} is not a table of {NAME}")
        if rows and rows[0] != self.head or any(row[-1] != self.mark for row in rows[1:]):
            raise ToolFault(f"{self.path} is the table of another problem, not of {problem}")
        return [row[:-1] for row in rows[1:]], kept

    def _judge_cases(self, sweep: SweepRun) -> None:
        begins = [
            sweep.begin_of_row(at) for at in range(1, min(len(self.rows), len(sweep.cases)) + 1)
        ]
        if [row[:2] for row in self.rows] != [row[:2] for row in begins]:
            raise ToolFault(f"{self.path} is the table of other cases")
        if [row[:3] for row in self.rows] != begins:
            raise ToolFault(
                f"{self.path} has names in another form: only one of the two runs has --raw-names"
            )

    def write(self, row: list[str]) -> None:
        """Add a row. If that fails, no part of it is left in the file. Raises a `ToolFault`."""
        self.rows.append(row)
        self._write(self.sweep.line([*row, self.mark]))

    def write_head(self) -> None:
        """Write the titles, if the file is empty."""
        if not self._size:
            self._write(self.sweep.line(self.head))

    def _write(self, text: str) -> None:
        data = text.encode(errors="replace")
        left = data
        try:
            while left:
                left = left[os.write(self._file, left) :]
        except OSError as error:
            with contextlib.suppress(OSError):
                os.ftruncate(self._file, self._size)
            raise cannot("write", self.path, error) from None
        self._size += len(data)


def holder(file: int) -> str:
    """Return the process that has locked a file, as far as the system knows it."""
    it = os.fstat(file)
    place = f"{os.major(it.st_dev):02x}:{os.minor(it.st_dev):02x}:{it.st_ino}"
    with contextlib.suppress(OSError):
        for fields in map(str.split, Path("/proc/locks").read_text().splitlines()):
            if fields[1:2] == ["FLOCK"] and fields[5:6] == [place] and int(fields[4]) > 0:
                return f"process {fields[4]}"
    return "another process"
