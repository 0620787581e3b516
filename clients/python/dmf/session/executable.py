"""Find the program's executable, or say why one cannot be used."""

from __future__ import annotations

import contextlib
import errno
import functools
import os
import re
import shutil
import signal
import subprocess

from ..errors import NoProgram, SessionEnded
from ..text.lexical import display
from .versions import fits, needed, other_version

PACKAGE = os.path.dirname(os.path.dirname(os.path.realpath(__file__)))
# Where pip puts the executable inside this package.
OWN = "bin/dmf"
# Where this package can lie in a repository, in an install by `./install`, and in Debian's
# packages, each with the program's path from the root of that place.
PLACES = {
    ("clients", "python", "dmf"): "dmf",
    ("share", "dmf", "python", "dmf"): "lib/dmf/dmf",
    ("lib", "python3", "dist-packages", "dmf"): "lib/dmf/dmf",
}
# How long a program may take to print its version, or to end once it has closed its input or its
# output, in seconds. It passes only if something is wrong, also on a machine with much else to do.
SECONDS = 20
# The errors by which the system says that it cannot run a path.
NOT_RUN = {
    errno.ENOENT,
    errno.ENOTDIR,
    errno.EACCES,
    errno.EPERM,
    errno.ENOEXEC,
    errno.ELOOP,
    errno.ENAMETOOLONG,
}
OTHER = "name another one with the argument program or the variable DMF"
_LACKING = re.compile(r"version `(GLIBC_([0-9.]+))' not found")


def program() -> str:
    """Return the path of the program that a network runs if its caller names none.

    That is the program that the environment variable DMF names; or else the one that pip installed
    inside this package; or that of the repository or install that contains the package, where a
    repository builds it if necessary; or `dmf` on the PATH. Raises `NoProgram` if there is none.
    """
    named = os.environ.get("DMF")
    found = shutil.which(named) if named else _own() or _beside() or shutil.which("dmf")
    if named and not found:
        raise NoProgram(f"DMF names {display(named)}, which is not a program that can be run")
    if not found:
        raise NoProgram(
            "no program dmf was found: this package has none for this machine, and none is on the "
            "PATH; build one with ./dmf in the repository, and name it with the argument program "
            "or the variable DMF"
        )
    return found


def _own() -> str | None:
    """Return the executable inside this package, if there is one, and make it executable: unpacking
    may have lost its mode."""
    own = os.path.join(PACKAGE, OWN)
    if not os.path.isfile(own):
        return None
    if not os.access(own, os.X_OK):
        with contextlib.suppress(OSError):
            os.chmod(own, 0o755)
    return own


@functools.cache
def _beside() -> str | None:
    """Return the program of the repository or install that contains this package. In a repository,
    the first call builds it if necessary, and reports its progress on standard error. Raises
    `NoProgram` if it cannot be built."""
    parts = PACKAGE.split(os.sep)
    for place, name in PLACES.items():
        path = os.path.join(os.sep.join(parts[: -len(place)]), name)
        if tuple(parts[-len(place) :]) == place and os.path.isfile(path):
            try:
                status = subprocess.run(
                    [path, "--version"], stdin=subprocess.DEVNULL, stdout=subprocess.DEVNULL
                ).returncode
            except OSError as error:
                refuse_unrun(path, error)
                raise
            if status:
                raise NoProgram(f"no program was found: {path} {end_reason(status)}; {OTHER}")
            return path
    return None


def end_reason(status: int | None) -> str:
    """Return how a program ended, in words."""
    if status is None:
        return (
            f"closed its input or its output, did not end within {SECONDS} seconds and was killed"
        )
    if status >= 0:
        return f"ended with status {status}"
    try:
        return f"ended by the signal {signal.Signals(-status).name}"
    except ValueError:
        return f"ended by the signal {-status}"


def refuse_unrun(path: str | bytes, error: OSError) -> None:
    """Raise `NoProgram` if a program could not be run because of the program itself."""
    if error.errno not in NOT_RUN:
        return
    why = error.strerror
    if error.errno == errno.ENOENT and os.path.exists(path):
        why = "the loader that it names does not exist, as on a system without glibc"
    raise NoProgram(f"{_shown(path)} cannot be run: {why}; {OTHER}") from error


def refuse_unfit(path: str | bytes, error: SessionEnded) -> None:
    """Raise `NoProgram` if a session did not begin because the program is not the one that this
    package needs, or lacks a library."""
    lacking = _LACKING.findall(str(error))
    if lacking:
        name, _ = max(lacking, key=lambda it: [*map(int, it[1].split("."))])
        raise NoProgram(
            f"{_shown(path)} cannot be run: it needs {name}, and this system's libc is older; "
            f"{OTHER}"
        )
    try:
        version = _version(path)
    except subprocess.TimeoutExpired:
        raise NoProgram(
            f"{_shown(path)} did not print its version within {SECONDS} seconds, so it may not be "
            f"dmf; {needed()}; {OTHER}: {error}"
        ) from None
    if not version:
        raise NoProgram(f"{_shown(path)} is not dmf; {needed()}; {OTHER}: {error}")
    if not fits(version):
        raise other_version(_shown(path), display(version), f"; {OTHER}")


def refuse_other_version(path: str | bytes) -> None:
    """Raise `NoProgram` if a program prints a version that this package does not work with. A
    program is asked once as long as its file does not change. If it prints no version, or none in
    time, or cannot be run, its first session will show why."""
    found = shutil.which(os.fsdecode(path))
    if found:
        file = os.stat(found)
        version = None
        with contextlib.suppress(subprocess.TimeoutExpired):
            version = _printed(found, file.st_dev, file.st_ino, file.st_mtime_ns, file.st_size)
        if version and not fits(version):
            raise other_version(_shown(path), display(version), f"; {OTHER}")


@functools.lru_cache(maxsize=16)
def _printed(path: str, *_: int) -> str | None:
    """Return the version that a program prints. Its file's inode, time and size are arguments so
    that a changed file is asked again."""
    return _version(path)


def _shown(path: str | bytes) -> str:
    return display(os.fsdecode(path))


def _version(path: str | bytes) -> str | None:
    """Return the version that a program prints, if it prints one as dmf does. Raises a
    `TimeoutExpired` if it takes too long."""
    try:
        ran = subprocess.run(
            [path, "--version"], stdin=subprocess.DEVNULL, capture_output=True, timeout=SECONDS
        )
    except OSError:
        return None
    found = re.fullmatch(rb"dmf (\S{1,40})\n", ran.stdout)
    return found[1].decode(errors="replace") if found else None
