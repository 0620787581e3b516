"""What the tests of the client share: the client, where the repository is, networks, and programs
that stand in for dmf."""

import contextlib
import os
import signal
import subprocess
import sys
import tempfile
import time
from collections.abc import Callable, Iterable, Iterator
from typing import Any

import dmf as dmf
from dmf.session.process import ProgramSession

ROOT = os.path.dirname(os.path.dirname(os.path.abspath(__file__)))
CLIENT = f"{ROOT}/clients/python"

# The program that is tested, whichever else is installed.
BUILT = f"{ROOT}/crates/dmf/out/dmf"
os.environ["DMF"] = BUILT
# After how many seconds, again and again, is looked whether a call can be broken off.
MOMENT = 0.02
# What is said of a row of another form.
WANTED = (
    "expected (tail, head, capacity) or (tail, head, capacity, key), in which all but the "
    "capacity "
    "can be hashed"
)
PIPES = [
    ("lake", "mill", 3),
    ("lake", "town", 2),
    ("mill", "town", 5),
    ("mill", "sea", 2),
    ("town", "sea", 3),
]
# Two arcs of the pipes, and what is lost of 5 without both, worked by hand; the worst first.
PIPE_PAIRS = [
    *((1, 2, 5), (1, 5, 5), (4, 5, 5), (1, 3, 3), (1, 4, 3)),
    *((2, 3, 3), (2, 5, 3), (3, 4, 3), (3, 5, 3), (2, 4, 2)),
]


def pipes(**options: Any) -> dmf.Network[str]:
    return dmf.Network(PIPES, "lake", "sea", **options)


def process_of(network: dmf.Network[Any]) -> subprocess.Popen[bytes]:
    """The program of a network that runs one."""
    session = network._session
    assert isinstance(session, ProgramSession)
    return session.process


def rows_by_number(found: dmf.VitalPairs[Any]) -> list[tuple[int, int, Any]]:
    return [(first.number, second.number, loss) for (first, second), _, loss in found]


def ends(arcs: Iterable[dmf.Arc[Any]]) -> list[tuple[Any, Any]]:
    return [(arc.tail, arc.head) for arc in arcs]


@contextlib.contextmanager
def script(text: str) -> Iterator[str]:
    """The path of a shell script, which goes after the block."""
    with tempfile.TemporaryDirectory() as folder:
        program = f"{folder}/dmf"
        with open(program, "w") as file:
            file.write(f"#!/bin/sh\n{text}\n")
        os.chmod(program, 0o700)
        yield program


@contextlib.contextmanager
def answering(answer: str) -> Iterator[dmf.Network[str]]:
    """A network of pipes on a script that stands in for dmf: the problem was read, and then comes
    this to each command."""
    with script(f"read line\necho c undo value 0\nwhile read line; do\n{answer}\ndone") as program:
        with pipes(program=program) as network:
            yield network


@contextlib.contextmanager
def written(text: bytes) -> Iterator[str]:
    """The path of a file with this text, which goes after the block."""
    with tempfile.NamedTemporaryFile(suffix=".max") as file:
        file.write(text)
        file.flush()
        yield file.name


def state_of(process: int) -> str:
    """The state of a process as the system writes it, such as `T` for one that is stopped; nothing
    for one that is not there."""
    try:
        with open(f"/proc/{process}/stat") as stat:
            return stat.read().rsplit(")", 1)[1].split()[0]
    except FileNotFoundError:
        return ""


def is_running(process: int) -> bool:
    """Whether a process is there that has not ended."""
    return state_of(process) not in ("Z", "")


def stop(process: int) -> None:
    """Stops a process. Until it has stopped, it may take what it waits for."""
    os.kill(process, signal.SIGSTOP)
    while state_of(process) != "T":
        time.sleep(0.001)


def environment(**more: str) -> dict[str, str]:
    """The variables of a process that uses the package of this checkout."""
    return {**os.environ, "PYTHONPATH": CLIENT, **more}


def has_written(file: str) -> Callable[[], bool]:
    """Return a function that tells whether a script has written to this file."""
    return lambda: os.path.exists(file) and os.path.getsize(file) > 0


@contextlib.contextmanager
def interrupted_when(*conditions: Callable[[], bool]) -> Iterator[None]:
    """A block that is broken off as by Ctrl-C once the first of these conditions holds, then once
    the second does, and so on. Each is looked at again and again, until it has held for a moment:
    a slow machine may take long until it does, and a signal that comes just before a call would be
    heeded only after it. Python ignores what a finalizer raises, which may run at any time; if that
    is where the block was broken off, it is broken off once more."""
    awaited, has_held, hook = [*conditions], False, sys.unraisablehook

    def look(*_: object) -> None:
        nonlocal has_held
        had_held, has_held = has_held, bool(awaited) and awaited[0]()
        if had_held and has_held:
            has_held = False
            del awaited[0]
            raise KeyboardInterrupt

    def look_again(ignored: Any) -> None:
        if issubclass(ignored.exc_type, KeyboardInterrupt):
            awaited.insert(0, lambda: True)
        else:
            hook(ignored)

    sys.unraisablehook, before = look_again, signal.signal(signal.SIGALRM, look)
    signal.setitimer(signal.ITIMER_REAL, MOMENT, MOMENT)
    try:
        yield
    finally:
        signal.setitimer(signal.ITIMER_REAL, 0)
        signal.signal(signal.SIGALRM, before)
        sys.unraisablehook = hook
