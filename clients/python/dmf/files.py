"""Files: read and written whole, in memory for a while, and standard input."""

from __future__ import annotations

import contextlib
import errno
import os
import stat
import sys
from typing import IO, BinaryIO

from .errors import FileFault

# The folder with the open files of a process. A file that was passed on has the same path there in
# both processes.
OPENED = "/proc/self/fd"


def scratch() -> IO[bytes]:
    """Return an empty file that is deleted when it is closed, and that no other process sees unless
    it is passed on. Raises an OSError."""
    if hasattr(os, "memfd_create") and os.path.isdir(OPENED):
        return open(_past_streams(os.memfd_create("dmf")), "w+b")
    import tempfile

    return tempfile.NamedTemporaryFile(prefix="dmf-", suffix=".max")


def _past_streams(number: int) -> int:
    """Return the number of an open file, moved above those of the standard streams, where another
    process has its own."""
    if number > 2:
        return number
    import fcntl

    try:
        return fcntl.fcntl(number, fcntl.F_DUPFD_CLOEXEC, 3)
    finally:
        os.close(number)


def path_of(file: IO[bytes]) -> str:
    """Return the path by which this process, and a process that the file is passed on to, can open
    what was written to `file`."""
    return file.name if isinstance(file.name, str) else f"{OPENED}/{file.fileno()}"


def passed_on(path: str) -> tuple[int, ...]:
    """Return the numbers of the open files that a process needs to open this path of `path_of`."""
    folder, _, name = path.rpartition("/")
    return (int(name),) if folder == OPENED else ()


def cannot(do: str, what: str, error: OSError) -> FileFault:
    return FileFault(f"cannot {do} {what}: {error.strerror}")


def read_file(path: str) -> bytes:
    """Return the bytes of a file, or of standard input if `path` is `-`."""
    if path == "-":
        return standard_input().read()
    try:
        with open(path, "rb") as file:
            return file.read()
    except FileNotFoundError as error:
        raise FileFault(f"cannot read {path}: {error.strerror}{_near(path)}") from None
    except OSError as error:
        raise cannot("read", path, error) from None
    except ValueError:
        raise FileFault(f"cannot read {path}: no path has a NUL") from None


def _near(path: str) -> str:
    """Return the part of a message that names files with similar names to one that does not
    exist."""
    from .text.spelling import near

    folder, name = os.path.split(path)
    with contextlib.suppress(OSError, ValueError):
        return near(
            name, sorted(it for it in os.listdir(folder or ".") if it[:1] not in (".", "~"))
        )
    return ""


def write_file(path: str, data: bytes, *, is_new: bool = False) -> None:
    """Write a file whole: first to a new file beside it, so that an older one stays as it is if
    that fails, and keeps its mode if not. What can have no file beside it, such as a pipe or
    standard output, is written directly. Raises an OSError, also if `is_new` and the path
    exists."""
    if is_new and os.path.lexists(path):
        raise FileExistsError(errno.EEXIST, os.strerror(errno.EEXIST), path)
    try:
        old = os.stat(path)
    except FileNotFoundError:
        old = None
    stream = None if old is None else _standard(old)
    if stream is not None or old is not None and not stat.S_ISREG(old.st_mode):
        with open(path if stream is None else os.dup(stream), "wb") as file:
            file.write(data)
        return
    # Imported here, since it takes some milliseconds, and most sessions write no file.
    import secrets

    path = os.path.abspath(path) if is_new else os.path.realpath(path)
    beside = os.path.join(os.path.dirname(path), f".dmf-{secrets.token_hex(8)}")
    try:
        with open(os.open(beside, os.O_WRONLY | os.O_CREAT | os.O_EXCL, 0o666), "wb") as file:
            if old is not None:
                with contextlib.suppress(PermissionError):
                    os.fchown(file.fileno(), old.st_uid, old.st_gid)
                os.fchmod(file.fileno(), stat.S_IMODE(old.st_mode))
            file.write(data)
            file.flush()
            _sync(file.fileno())
        _put(beside, path, is_new)
    except BaseException:
        with contextlib.suppress(OSError):
            os.remove(beside)
        raise
    with contextlib.suppress(OSError):
        folder = os.open(os.path.dirname(path), os.O_RDONLY)
        try:
            os.fsync(folder)
        finally:
            os.close(folder)


def _put(beside: str, path: str, is_new: bool) -> None:
    """Rename a file to its final name. If `is_new` and the file system has links, never replace a
    file that somebody else has put there meanwhile."""
    if is_new:
        try:
            os.link(beside, path)
        except FileExistsError:
            raise
        except OSError:
            pass
        else:
            os.remove(beside)
            return
    os.replace(beside, path)


def _standard(file: os.stat_result) -> int | None:
    """Return the number of the standard stream that a file is, 1 or 2, or None."""
    for stream in 1, 2:
        with contextlib.suppress(OSError):
            if os.path.samestat(file, os.fstat(stream)):
                return stream
    return None


def _sync(file: int) -> None:
    """Tell the system to write a file to the disk, if its file system can."""
    try:
        os.fsync(file)
    except OSError as error:
        if error.errno not in (errno.EINVAL, errno.ENOSYS, errno.EOPNOTSUPP):
            raise


def standard_input() -> BinaryIO:
    if sys.stdin is None:
        raise FileFault("cannot read standard input: it is closed")
    return sys.stdin.buffer
