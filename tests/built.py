"""Runs the built program on cases, in the folder where the caller stands, and beside it the second
implementation. What builds the program is `./dmf --version`."""

from __future__ import annotations

import os
import select
import signal
import subprocess
from typing import NamedTuple

from limits import SECONDS
from oracle import program
from oracle.program import Outcome
from oracle.session import Refusals

ROOT = os.path.dirname(os.path.dirname(os.path.abspath(__file__)))
# tests/toolchain names a faulty copy of the program in place of it.
BUILT = os.environ.get("DMF_BUILT") or os.path.join(ROOT, "crates", "dmf", "out", "dmf")
PROBLEM = b"problem.max"
# How much a pipe takes that nobody reads, in bytes.
PIPE_SIZE = 1 << 16


class Case(NamedTuple):
    """The words after the program's name, the problem in the file problem.max, and what is on
    standard input, in bytes."""

    name: str
    words: tuple[bytes, ...]
    problem: bytes
    input: bytes


class Run(NamedTuple):
    """How a run ended. A signal that ended it is a status below 0."""

    status: int | None
    out: bytes
    err: bytes


class Call(NamedTuple):
    """A call that a run made: its name, the file's number, and what came of it."""

    name: str
    file: int
    result: int


def run(case: Case, **environment: str) -> Run:
    """Runs the program. What the environment has beside the caller's are texts. Its input is in the
    pipe before it begins, where a pipe takes so much: thousands of these runs come one after the
    other, and `subprocess` takes some 0.3 ms more for each.
    """
    words: list[str | bytes] = [BUILT, *case.words]
    variables = {**os.environ, **environment}
    if len(case.input) > PIPE_SIZE:
        ran = subprocess.run(
            words, input=case.input, capture_output=True, timeout=SECONDS, env=variables
        )
        return Run(ran.returncode, ran.stdout, ran.stderr)
    (stdin, given), (out, stdout), (err, stderr) = pipes = [os.pipe() for _ in range(3)]
    try:
        os.write(given, case.input)
        streams = [
            (os.POSIX_SPAWN_DUP2, end, number) for number, end in enumerate((stdin, stdout, stderr))
        ]
        # Python ignores what these signals tell, and a program that it begins would too.
        heeded = [signal.SIGPIPE, signal.SIGXFSZ]
        process = os.posix_spawn(BUILT, words, variables, file_actions=streams, setsigdef=heeded)
        for end in stdin, given, stdout, stderr:
            os.close(end)
        pipes = [(out, err)]
        texts = read_to_ends(out, err)
        if texts is None:
            os.kill(process, signal.SIGKILL)
        status = os.waitstatus_to_exitcode(os.waitpid(process, 0)[1])
    finally:
        for ends in pipes:
            os.close(ends[0])
            os.close(ends[1])
    return (
        Run(None, b"", f"it has not ended in {SECONDS} s".encode())
        if texts is None
        else Run(status, *texts)
    )


def read_to_ends(*files: int) -> list[bytes] | None:
    """What comes from each of these files until its end, and nothing where one has no end for too
    long."""
    texts = {file: b"" for file in files}
    waiting = select.poll()
    for file in files:
        waiting.register(file, select.POLLIN)
    left = len(files)
    while left:
        ready = waiting.poll(1000 * SECONDS)
        if not ready:
            return None
        for file, _ in ready:
            piece = os.read(file, PIPE_SIZE)
            texts[file] += piece
            if not piece:
                waiting.unregister(file)
                left -= 1
    return [*texts.values()]


def watch(case: Case, library: str, **fault: str | int) -> tuple[Run, list[Call]]:
    """Runs the program with tests/faults.c preloaded, by what its first lines name. Gives the run
    and the calls that it made."""
    if os.path.exists("calls"):
        os.remove("calls")
    names = {f"FAULT_{name}".removesuffix("_CALL"): str(value) for name, value in fault.items()}
    ended = run(case, LD_PRELOAD=library, FAULT_CALLS="calls", **names)
    if not os.path.exists("calls"):
        return ended, []
    with open("calls") as calls:
        return ended, [
            Call(name, int(file), int(result)) for name, file, result in map(str.split, calls)
        ]


def put_problem(case: Case) -> None:
    with open(PROBLEM, "wb") as file:
        file.write(case.problem)


def wanted(case: Case, refusals: Refusals | None = None) -> Outcome:
    """How the second implementation ends, in the same folder."""
    return program.run(case.words, case.input, refusals)


def heed_interrupts() -> None:
    """Has a child heed Ctrl-C and a hang-up, before it begins: where a script runs in the
    background, as those of `./test` do, or under nohup, it would not."""
    signal.signal(signal.SIGINT, signal.SIG_DFL)
    signal.signal(signal.SIGHUP, signal.SIG_DFL)
