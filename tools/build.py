#!/usr/bin/env python3
"""Prove and build the program `dmf`, for the scripts dmf and tools/prebuilt.

    python3 tools/build.py

A crate begins when the crates below it are built, and the crate with the longest chain above it
begins first. Several are built in parallel, as many as processors and memory allow. Standard error
shows which crates are being built and which are done, the time so far, and an estimate of the time
left: on a terminal in one line, which is rewritten, otherwise in a line for each crate.

Each crate is built in a folder of its own, with links to the crates below it, since no two calls of
`rt` may work on one crate. The result is moved to the crate's out/ once it is complete, so an
interrupt leaves nothing half done, and the next call goes on with the missing crates. If two calls
run at the same time, one waits for the other.

The status is 0 if the program is built, 70 if a crate fails, and 130 after an interrupt.
"""

from __future__ import annotations

import contextlib
import fcntl
import os
import shutil
import signal
import subprocess
import sys
import tempfile
import time
from collections.abc import Iterator
from dataclasses import dataclass
from pathlib import Path
from types import FrameType
from typing import IO, NoReturn

from program_crates import PROGRAM, ROOT, UNKNOWN_SECONDS, Crate, read_crates

FAILED, INTERRUPTED = 70, 130
# The most memory that proving one crate takes, in GiB.
MEMORY = 3.5
# A crate that could take this many times its seconds longer without delaying the program is built
# with one job, which takes a quarter less processor time than several.
ROOM_FOR_ONE_JOB = 2
# How much nicer a crate is than the one with the next longer chain. If both want all processors, it
# gets a third of that one's processor time.
NICER = 5
NICEST = 19


class Failure(Exception):
    """A crate could not be built. The exception has the output of `rt`."""


def at_once() -> int:
    """Return how many crates may be built in parallel."""
    memory = os.sysconf("SC_PAGE_SIZE") * os.sysconf("SC_PHYS_PAGES") / 2**30
    return max(1, min(len(os.sched_getaffinity(0)), int(memory / MEMORY)))


def duration(seconds: float) -> str:
    """Return a time in words: 40 s, 3 min 5 s, 12 min."""
    minutes, rest = divmod(round(seconds), 60)
    if minutes >= 10:
        return f"{minutes + (rest >= 30)} min"
    return f"{minutes} min {rest} s" if minutes else f"{rest} s"


class Told:
    """What standard error shows about the build."""

    def __init__(self) -> None:
        self.is_terminal = sys.stderr.isatty()

    def line(self, text: str) -> None:
        self.erase()
        print(f"dmf: {text}", file=sys.stderr, flush=True)

    def status(self, text: str) -> None:
        """Rewrite the line on a terminal, cut to its width."""
        if self.is_terminal:
            width = shutil.get_terminal_size().columns - 1
            print(f"\r{f'dmf: {text}'[:width]}\x1b[K", end="", file=sys.stderr, flush=True)

    def erase(self) -> None:
        if self.is_terminal:
            print("\r\x1b[K", end="", file=sys.stderr, flush=True)


@dataclass
class Work:
    """A crate that is being built: its process, which runs in a folder of its own, and its
    output."""

    crate: Crate
    folder: Path
    process: subprocess.Popen[bytes]
    said: IO[bytes]
    begun: float

    @property
    def seconds(self) -> float:
        return time.monotonic() - self.begun

    def keep(self) -> None:
        """Move the result to the crate's own folder, where it replaces that of an earlier call."""
        made, out = self.folder / "crates" / self.crate.name / "out", self.crate.folder / "out"
        old = self.folder / "old"
        if out.exists():
            shutil.move(out, old)
        shutil.move(made, out)

    def be_nice(self, niceness: int) -> None:
        """Set the crate's niceness, if the system has one for each session: the crate is built in
        its own session."""
        with contextlib.suppress(OSError):
            Path(f"/proc/{self.process.pid}/autogroup").write_text(str(niceness))

    def end(self) -> None:
        """End the process and all that it started, and remove its folder."""
        with contextlib.suppress(ProcessLookupError):
            os.killpg(self.process.pid, signal.SIGKILL)
        self.process.wait()
        self.said.close()
        shutil.rmtree(self.folder, ignore_errors=True)


def link(source: str, to: str) -> None:
    """Make a link to a file, or a copy if the two places are on different file systems."""
    try:
        os.link(source, to)
    except OSError:
        shutil.copy2(source, to)


def lay_out(crate: Crate, place: Path, parts: list[str]) -> None:
    """Put links to the files in these folders of a crate below a path."""
    for part in parts:
        if (crate.folder / part).is_dir():
            shutil.copytree(crate.folder / part, place / part, copy_function=link)


def command_of(crate: Crate, slack: float) -> list[str]:
    """Return the command that builds a crate that can be this many seconds late without delaying
    the program."""
    has_room = slack >= ROOM_FOR_ONE_JOB * crate.seconds
    return [*crate.command, *(["--jobs", "1"] if has_room else [])]


def begin(crate: Crate, crates: dict[str, Crate], place: Path, slack: float) -> Work:
    """Begin to build a crate that has this slack."""
    folder = Path(tempfile.mkdtemp(prefix="dmf-build-", dir=place))
    names = [*crate.below, crate.name]
    (folder / "crates.txt").write_text(
        "".join(f"{name}: {' '.join(crates[name].libraries)}\n" for name in names)
    )
    for name in names:
        lay_out(
            crates[name],
            folder / "crates" / name,
            ["src", "specs", "proofs"] + ["out/rlib"] * (name != crate.name),
        )
    # The result of an earlier call is copied, since `rt` may write to it.
    if (crate.folder / "out").is_dir():
        shutil.copytree(crate.folder / "out", folder / "crates" / crate.name / "out")
    said = tempfile.TemporaryFile()
    process = subprocess.Popen(
        command_of(crate, slack),
        cwd=folder / "crates" / crate.name,
        stdin=subprocess.DEVNULL,
        stdout=said,
        stderr=said,
        start_new_session=True,
    )
    return Work(crate, folder, process, said, time.monotonic())


class Build:
    """The build of all crates: which are done, and which are being built."""

    def __init__(self, crates: dict[str, Crate], place: Path, told: Told) -> None:
        self.crates = crates
        self.place = place
        self.told = told
        self.begun = time.monotonic()
        self.took: dict[str, float] = {}
        self.running: list[Work] = []

    def chain(self, crate: Crate, left: dict[str, float]) -> float:
        """Return the seconds left for a crate and for the longest chain of crates that wait for
        it."""
        above = (it for it in self.crates.values() if crate.name in it.libraries)
        return left[crate.name] + max((self.chain(it, left) for it in above), default=0.0)

    def left(self) -> dict[str, float]:
        """Return the seconds left for each crate, on the machine of the table."""
        left = {it.name: 0.0 if it.name in self.took else it.seconds for it in self.crates.values()}
        for work in self.running:
            left[work.crate.name] = max(
                work.crate.seconds - work.seconds / self.pace(), work.crate.seconds / 20
            )
        return left

    def pace(self) -> float:
        """Return how many times as long as in the table this machine takes, judging by the crates
        that are done."""
        known = sum(self.crates[name].seconds for name in self.took)
        return (sum(self.took.values()) + UNKNOWN_SECONDS) / (known + UNKNOWN_SECONDS)

    def rest(self) -> float:
        """Return how many seconds the rest is likely to take."""
        left = self.left()
        return self.pace() * max((self.chain(it, left) for it in self.crates.values()), default=0.0)

    def ready(self) -> list[Crate]:
        """Return the crates that can begin, the one with the longest chain first."""
        begun = {*self.took, *(it.crate.name for it in self.running)}
        ready = [
            it
            for it in self.crates.values()
            if it.name not in begun and all(name in self.took for name in it.below)
        ]
        left = self.left()
        return sorted(ready, key=lambda it: -self.chain(it, left))

    def begin_more(self) -> None:
        """Begin crates as long as resources are left. The longest chain gets the processors
        first."""
        left = self.left()
        longest = max(self.chain(it, left) for it in self.crates.values())
        for crate in self.ready()[: at_once() - len(self.running)]:
            self.running.append(
                begin(crate, self.crates, self.place, longest - self.chain(crate, left))
            )

    def rank(self) -> None:
        """Give processor time to the crates in the order of their chains, the longest first. Work
        done so far does not count, since a nice crate may have had no time."""
        left = {it.name: 0.0 if it.name in self.took else it.seconds for it in self.crates.values()}
        for rank, work in enumerate(
            sorted(self.running, key=lambda it: -self.chain(it.crate, left))
        ):
            work.be_nice(min(rank * NICER, NICEST))

    def take_ended(self) -> None:
        """Store the results of the crates that ended, and fail if one did not succeed."""
        for work in [it for it in self.running if it.process.poll() is not None]:
            self.running.remove(work)
            try:
                if work.process.returncode != 0:
                    work.said.seek(0)
                    raise Failure(
                        f"{work.crate.name} is not built\n"
                        f"{work.said.read().decode(errors='replace')}"
                    )
                work.keep()
                self.took[work.crate.name] = work.seconds
            finally:
                work.end()
            self.tell_built(work.crate, self.took[work.crate.name])

    def tell_built(self, crate: Crate, seconds: float) -> None:
        if not self.told.is_terminal:
            count = f"{len(self.took)} of {len(self.crates)}"
            rest = (
                f"; about {duration(self.rest())} left" if len(self.took) < len(self.crates) else ""
            )
            self.told.line(f"{count}: {crate.name} is built, after {duration(seconds)}{rest}")

    def tell_status(self) -> None:
        names = ", ".join(it.crate.name for it in self.running)
        so_far = duration(time.monotonic() - self.begun)
        self.told.status(
            f"{len(self.took)} of {len(self.crates)} built; in work: {names}; {so_far} so far, "
            f"about {duration(self.rest())} left"
        )

    def run(self) -> None:
        try:
            while len(self.took) < len(self.crates):
                self.begin_more()
                self.rank()
                self.tell_status()
                wait_for_one(self.running)
                self.take_ended()
        finally:
            self.told.erase()
            for work in self.running:
                work.end()


def wait_for_one(running: list[Work]) -> None:
    """Wait a moment, or until one of the processes has ended."""
    until = time.monotonic() + 1
    while time.monotonic() < until and all(it.process.poll() is None for it in running):
        time.sleep(0.05)


@contextlib.contextmanager
def alone(told: Told) -> Iterator[None]:
    """Lock out other builds of this repository. If another build is running, wait for it."""
    folder = os.open(ROOT / "crates", os.O_RDONLY)
    try:
        try:
            fcntl.flock(folder, fcntl.LOCK_EX | fcntl.LOCK_NB)
        except BlockingIOError:
            told.line("another call builds the program; this one waits for it.")
            fcntl.flock(folder, fcntl.LOCK_EX)
        yield
    finally:
        os.close(folder)


def number_of(file: Path) -> int | None:
    """Return the number by which the system knows the file. A file that replaces it has another
    number."""
    return file.stat().st_ino if file.exists() else None


def build(told: Told) -> None:
    """Build the program, except what is built already, and give it the time at which the build
    began, so that a source file that is edited meanwhile is newer."""
    program = ROOT / "crates" / PROGRAM / "out" / PROGRAM
    before = number_of(program)
    with alone(told):
        if number_of(program) != before:
            return  # The call that this one waited for has built it.
        begun = time.time()
        crates = read_crates()
        if before is not None and all(it.is_kept for it in crates.values() if it.name != PROGRAM):
            told.line(
                "a source has changed since the program was built. What depends on it is proved "
                "and "
                "built again."
            )
        else:
            told.line(
                "the program is proved and built. This happens once, and takes 9 to 15 minutes on "
                "4 "
                "idle processors."
            )
        git = ROOT / ".git"
        place = git if git.is_dir() and os.access(git, os.W_OK) else Path(tempfile.gettempdir())
        if place == git:
            for left in git.glob("dmf-build-*"):
                shutil.rmtree(left, ignore_errors=True)
        Build(crates, place, told).run()
        os.utime(program, (begun, begun))


def interrupt(_number: int, _frame: FrameType | None) -> NoReturn:
    raise KeyboardInterrupt


def main() -> int:
    told = Told()
    for number in signal.SIGINT, signal.SIGTERM:
        signal.signal(number, interrupt)
    if signal.getsignal(signal.SIGHUP) is not signal.SIG_IGN:  # as under nohup
        signal.signal(signal.SIGHUP, interrupt)
    try:
        build(told)
    except Failure as failure:
        told.line(str(failure).rstrip("\n"))
        return FAILED
    except KeyboardInterrupt:
        told.line("interrupted; the next call goes on with the crates that are missing.")
        return INTERRUPTED
    return 0


if __name__ == "__main__":
    sys.exit(main())
