"""Choose what runs a session, the C library in this process or the program behind a pipe, and begin
the session."""

from __future__ import annotations

import contextlib
import functools
import os
import sys
from collections.abc import Iterator, Sequence
from typing import TYPE_CHECKING, Protocol

from ..errors import NoProgram
from ..files import path_of, scratch
from ..history import Command
from .base import PROGRAM, FilePath, ProblemColumns, Program, Session, Way
from .column_texts import problem_pieces

if TYPE_CHECKING:
    from .library import Library

PACKAGE = os.path.dirname(os.path.dirname(os.path.realpath(__file__)))
NAME = "libdmf.so.0"
# Where pip puts the library inside this package.
OWN = f"bin/{NAME}"
REPOSITORY = ("clients", "python", "dmf")
# Where this package lies in an install by `./install` and in Debian's packages, each with the
# library's path from the root of that place.
PLACES = {
    ("share", "dmf", "python", "dmf"): f"lib/{NAME}",
    (
        "lib",
        "python3",
        "dist-packages",
        "dmf",
    ): f"lib/{getattr(sys.implementation, '_multiarch', '')}/{NAME}",
}


def library() -> str | None:
    """Return the path of the C library that runs networks in this process if their caller names no
    program, or None if they run a program.

    That is the library that the environment variable DMF_LIBRARY names; or else, unless DMF names a
    program, the one that pip installed inside this package, or that of the repository or install
    that contains the package. An empty DMF_LIBRARY means none. Raises `NoProgram` if DMF_LIBRARY
    names a library that cannot be used.
    """
    found = _library()
    return None if found is None else found.path


def chosen(program: Program) -> Way:
    """Choose what runs a session: the program that the caller names, or else the library, or else
    the program that is found. Raises `NoProgram`."""
    found = _library() if program is None else None
    return program_of(program) if found is None else found


def program_of(program: Program) -> FilePath:
    """Return the program that the caller names, or else the one that is found. Raises
    `NoProgram`."""
    if program is not None:
        return os.fspath(program)
    from .executable import program as found_program

    return found_program()


def _library() -> Library | None:
    named = os.environ.get("DMF_LIBRARY")
    path = named if named is not None else None if os.environ.get("DMF") else _found()
    if not path:
        return None
    from .library import load

    if named:
        return load(path)
    with contextlib.suppress(NoProgram):
        # A library that this machine cannot load is ignored, and the program is used.
        return load(path)
    return None


@functools.cache
def _found() -> str | None:
    """Return the path of the library that lies inside this package or beside it."""
    own = os.path.join(PACKAGE, OWN)
    if os.path.isfile(own):
        return own
    parts = PACKAGE.split(os.sep)
    for place, name in PLACES.items():
        path = os.path.join(os.sep.join(parts[: -len(place)]), name)
        if tuple(parts[-len(place) :]) == place and os.path.isfile(path):
            return path
    return (
        _of_repository(os.sep.join(parts[: -len(REPOSITORY)]))
        if tuple(parts[-len(REPOSITORY) :]) == REPOSITORY
        else None
    )


def _of_repository(root: str) -> str | None:
    """Return the library of a repository, if it is up to date with the sources."""
    path, take = os.path.join(root, "crates/dmf_c/out", NAME), os.path.join(root, "tools/prebuilt")
    if os.path.isfile(path) and not _is_older(path, root):
        return path
    if not os.access(take, os.X_OK):
        return None
    import subprocess

    ran = subprocess.run(
        [take, "library"],
        stdin=subprocess.DEVNULL,
        stdout=subprocess.PIPE,
        stderr=subprocess.DEVNULL,
        text=True,
    )
    return ran.stdout.rstrip("\n") if ran.returncode == 0 else None


def _is_older(path: str, root: str) -> bool:
    """Return True if a file or folder of the code has changed since the library was put there.

    Definitions and proofs, which are most files of a crate, are not looked at: with others the
    library would be the same, and to look at them takes most of the first call's time.
    """
    put, crates = os.stat(path).st_mtime_ns, os.path.join(root, "crates")
    places = [os.path.join(root, name) for name in ("crates.txt", "tools/library", "tools/dmf.map")]
    places += [os.path.join(crates, crate, "src") for crate in os.listdir(crates)]
    there = filter(os.path.exists, places)
    return any(
        os.stat(place).st_mtime_ns > put or os.path.isdir(place) and _has_newer(place, put)
        for place in there
    )


def _has_newer(folder: str, than: int) -> bool:
    """Return True if anything in a folder has changed since a time."""
    with os.scandir(folder) as entries:
        return any(
            it.stat().st_mtime_ns > than or it.is_dir() and _has_newer(it.path, than)
            for it in entries
        )


class Startable(Protocol):
    """What a session begins with: a first problem, and commands after which the flow has this
    value. At most `most` changes can be undone."""

    @property
    def value(self) -> int:
        ...

    @property
    def most(self) -> int:
        ...

    def problem(self) -> ProblemColumns:
        """Return the first problem."""

    def commands(self) -> Sequence[Command]:
        """Return the commands that lead from it to the present state."""


@contextlib.contextmanager
def problem_file(kept: Startable) -> Iterator[str]:
    """Write the first problem to a temporary file, and give its path to the block."""
    with scratch() as file:
        file.writelines(problem_pieces(kept.problem()))
        file.flush()
        yield path_of(file)


def start(kept: Startable, way: Way, path: str | None = None) -> Session:
    """Begin a session in the state that `kept` describes. If a path is given, the file there has
    the first problem. Raises a `Refused` if the problem has a fault, `NoProgram` if the program
    cannot be used, and `SessionEnded` if it fails or ends with another value."""
    session: Session
    if isinstance(way, PROGRAM):
        from .process import session_words, start_program

        with problem_file(kept) if path is None else contextlib.nullcontext(path) as path:
            session = start_program(path, way, session_words(kept.most))
    else:
        session = way.begin(kept.problem(), kept.most)
    value = session.carry_out(kept.commands())
    if value != kept.value:
        session.kill(
            f"the session was ended: after a restart its value was {value} instead of {kept.value}"
        )
        raise session.ended()
    return session


def started_on(text: bytes, way: Way, most: int) -> Session:
    """Begin a session on the text of a problem, in which at most `most` changes can be undone.
    Raises what `start` raises."""
    if not isinstance(way, PROGRAM):
        return way.begin_text(text, most)
    from .process import session_words, start_program

    with scratch() as file:
        file.write(text)
        file.flush()
        return start_program(path_of(file), way, session_words(most))
