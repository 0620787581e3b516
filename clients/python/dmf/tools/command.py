"""What all tools share: their exit statuses, writing, reading commands line by line, and ending."""

from __future__ import annotations

import os
import signal
import stat
import sys
import textwrap
import time
from collections.abc import Callable, Iterator, Sequence
from enum import IntEnum
from typing import BinaryIO, NoReturn

from ..errors import Error, FileFault, OptionFault, SessionEnded, TableFault
from ..files import cannot
from ..running import kill_all
from ..text.lexical import display


class Status(IntEnum):
    """The exit status of every tool; docs/INSTALLED.md has the table."""

    DONE = 0
    REFUSED = 1
    USAGE = 2
    FAULTY = 3
    LOST = 4
    NO_MEMORY = 5
    INTERRUPTED = 130


class ToolFault(Exception):
    """Why a tool ends, and with which status."""

    def __init__(self, reason: str, status: int = Status.FAULTY) -> None:
        super().__init__(reason)
        self.status = status


# What each status means, as the help says it.
MEANINGS = {
    Status.DONE: "all is well",
    Status.REFUSED: "a command of a script was refused",
    Status.USAGE: "invalid arguments",
    Status.FAULTY: "the input has a fault",
    Status.LOST: "something cannot be read, written or found",
    Status.NO_MEMORY: "no memory",
    Status.INTERRUPTED: "Ctrl-C",
}
# The status for an error that has none of its own: the first entry that fits.
ENDINGS: Sequence[tuple[type[BaseException], Status]] = [
    (MemoryError, Status.NO_MEMORY),
    (OptionFault, Status.USAGE),
    (FileFault, Status.LOST),
    (SessionEnded, Status.LOST),
    (OSError, Status.LOST),
    (Error, Status.FAULTY),
]
EXPECTED: tuple[type[BaseException], ...] = (ToolFault, *(kind for kind, _ in ENDINGS))
# If a file was written to within this time, in seconds, another line may follow.
PATIENCE = 1.0


def statuses(*, may_refuse: bool = False) -> str:
    """Return the last line of a tool's help."""
    told = [f"{it.value} {MEANINGS[it]}" for it in Status if may_refuse or it is not Status.REFUSED]
    return textwrap.fill(f"Status: {', '.join(told)}.", 79)


def run(name: str, main: Callable[[], int]) -> NoReturn:
    """Run a tool, and exit with the result of `main`, or with the status of an error, which is
    printed. If nobody reads its output any more, the signal for that ends it, as it ends other
    filters. Whatever ends it, the programs that it runs end with it."""
    signal.signal(signal.SIGPIPE, signal.SIG_DFL)
    if signal.getsignal(signal.SIGINT) is not signal.SIG_IGN:
        signal.signal(signal.SIGINT, _end_interrupted)
    for number in signal.SIGTERM, signal.SIGHUP:
        if signal.getsignal(number) is signal.SIG_DFL:
            signal.signal(number, _end_by)
    try:
        status = _status(name, main)
    except KeyboardInterrupt:
        status = Status.INTERRUPTED
    # All output is written, and nothing is left to report.
    _exit(status)


def _exit(status: int) -> NoReturn:
    """End the tool at once, and leave no program behind."""
    kill_all()
    os._exit(status)


def _end_interrupted(*_: object) -> NoReturn:
    _exit(Status.INTERRUPTED)


def _end_by(number: int, _: object) -> None:
    """End by a signal, as if it had not been caught, and leave no program behind."""
    kill_all()
    signal.signal(number, signal.SIG_DFL)
    os.kill(os.getpid(), number)


def raise_interrupts() -> None:
    """Make the first Ctrl-C raise a KeyboardInterrupt, so that what was begun is ended, and the
    second one end the tool at once. Ctrl-C in a destructor, where no exception can be raised, ends
    it too."""

    def interrupt(*_: object) -> None:
        signal.signal(signal.SIGINT, _end_interrupted)
        raise KeyboardInterrupt

    def judge(lost: sys.UnraisableHookArgs) -> None:
        if isinstance(lost.exc_value, KeyboardInterrupt):
            _end_interrupted()
        sys.__unraisablehook__(lost)

    if signal.getsignal(signal.SIGINT) is not signal.SIG_IGN:
        sys.unraisablehook = judge
        signal.signal(signal.SIGINT, interrupt)


def _status(name: str, main: Callable[[], int]) -> int:
    """Run `main`, report its error, and return the exit status."""
    try:
        status = main()
    except SystemExit as end:
        status = end.code if isinstance(end.code, int) else Status.DONE
    except EXPECTED as error:
        status = status_of(error)
        _tell(name, error)
    try:
        if sys.stdout:
            sys.stdout.flush()
    except OSError as error:
        status = Status.LOST
        _tell(name, cannot("write", "standard output", error))
    return status


def status_of(error: BaseException) -> int:
    """Return the exit status for an error."""
    if isinstance(error, ToolFault):
        return error.status
    return next(status for kind, status in ENDINGS if isinstance(error, kind))


def _reasons(error: BaseException) -> Sequence[str]:
    """Return the lines that describe an error."""
    if isinstance(error, TableFault):
        return error.lines()
    if isinstance(error, MemoryError) and not str(error):
        return ["no memory"]
    if isinstance(error, OSError) and error.strerror:
        return [f"{error.filename}: {error.strerror}" if error.filename else error.strerror]
    return [str(error)]


def _tell(name: str, error: BaseException) -> None:
    for reason in _reasons(error):
        warn(name, reason)


def warn(name: str, text: str) -> None:
    """Write a line to standard error."""
    _write_error(display(f"{name}: {text}").encode(errors="replace") + b"\n")


def show(text: str) -> None:
    """Write a text over the last line of a terminal, which the next text replaces."""
    _write_error(b"\r\x1b[K" + text.encode())


def _write_error(line: bytes) -> None:
    if sys.stderr:
        try:
            sys.stderr.buffer.write(line)
            sys.stderr.flush()
        except OSError:
            # A message that cannot be written does not end the work. A later flush of the buffer
            # would fail again.
            sys.stderr = None  # type: ignore[assignment]


def write(text: str) -> None:
    """Write a text to standard output at once, in UTF-8 whatever the locale."""
    if sys.stdout is None:
        raise FileFault("cannot write standard output: it is closed")
    try:
        sys.stdout.buffer.write(text.encode(errors="replace"))
        sys.stdout.buffer.flush()
    except OSError as error:
        # The buffer keeps the text, so a flush at the end would fail and report it again.
        sys.stdout = None  # type: ignore[assignment]
        raise cannot("write", "standard output", error) from None


class CommandLines:
    """The lines of a file of commands, each read when it is needed, so that the file may be a pipe,
    or may still be written to, for example by `tee`. Set `is_ended` when nothing more will come."""

    def __init__(self, path: str) -> None:
        self.path = path
        self.is_ended = False
        self._file: BinaryIO | None = None

    def __iter__(self) -> Iterator[bytes]:
        return self

    def __next__(self) -> bytes:
        try:
            self._file = self._file or open(self.path, "rb")
            line = self._file.readline()
            while not line.endswith(b"\n") and self._is_written():
                time.sleep(0.01)
                line += self._file.readline()
        except OSError as error:
            raise cannot("read", self.path, error) from None
        if not line:
            raise StopIteration
        return line

    def _is_written(self) -> bool:
        """Return True if the file may get more text soon."""
        if self.is_ended or not self._file:
            return False
        now = os.fstat(self._file.fileno())
        return stat.S_ISREG(now.st_mode) and time.time() - now.st_mtime < PATIENCE
