"""Tests the built program where its standard streams are closed or take nothing, where its stack is
small, and where a problem is past its limit."""

from __future__ import annotations

import os
import resource
import subprocess
from collections.abc import Iterator
from pathlib import Path

import built
import pytest
from conftest import BUILT, ROOT
from limits import SECONDS
from oracle.program import VERSION_LINE
from worked import WORKED

A = (ROOT / "examples" / "a.max").read_bytes()
SOLUTION = b"s 5\nf 1 2 3\nf 1 3 2\nf 2 3 1\nf 2 4 2\nf 3 4 3\n"
CUT = b"c cut 5\nc side 1\n"
NO_FLOW = b"s 0\nf 1 2 0\nf 1 3 0\nf 2 3 0\nf 2 4 0\nf 3 4 0\n"
FAULTY = b"p max 2 2\nn 1 s\nn 2 t\na 1 2 18446744073709551615\na 1 2 1\n"
READ_FAILED, WRITE_FAILED = b"dmf: read failed\n", b"dmf: write failed\n"
INPUT, OUTPUT, ERROR = 0, 1, 2
# The least stack that docs/FORMATS.md promises to be enough, in bytes. The arguments and the
# environment, here of this size at least, lie there too.
SMALL_STACK = 64 * 1024
ENVIRONMENT = 8 * 1024


@pytest.fixture
def folder(tmp_path: Path) -> Iterator[Path]:
    """A folder with a problem, which no run may write to, and a faulty one."""
    (tmp_path / "problem.max").write_bytes(A)
    (tmp_path / "fault.max").write_bytes(FAULTY)
    yield tmp_path
    assert (tmp_path / "problem.max").read_bytes() == A, "the problem's file was written to"


def run_without(
    folder: Path, closed: set[int], words: str, given: bytes = b""
) -> tuple[int, bytes, bytes]:
    """Runs the program with some of its standard streams closed. Gives its status, and what it
    wrote and told on the others."""

    def close() -> None:
        for number in closed:
            os.close(number)

    ran = subprocess.run(
        [BUILT, *words.split()],
        cwd=folder,
        input=given,
        capture_output=True,
        timeout=SECONDS,
        preexec_fn=close,
    )
    return ran.returncode, ran.stdout, ran.stderr


# The streams that are closed, the words, what is given, and the end.
CLOSED: dict[str, tuple[set[int], str, bytes, tuple[int, bytes, bytes]]] = {
    # Nothing is read in place of standard input.
    "no input to solve": ({INPUT}, "solve", b"", (4, b"", READ_FAILED)),
    "no input to solve, without words": ({INPUT}, "", b"", (4, b"", READ_FAILED)),
    "no input to value": ({INPUT}, "vital", b"", (4, b"", READ_FAILED)),
    "no input to value nodes": ({INPUT}, "vital --nodes", b"", (4, b"", READ_FAILED)),
    "no commands": ({INPUT}, "session problem.max", b"", (4, b"", READ_FAILED)),
    "no commands of a session with cuts": (
        {INPUT},
        "session --cut problem.max",
        b"",
        (4, b"", READ_FAILED),
    ),
    "no solution": ({INPUT}, "check problem.max", b"", (4, b"", READ_FAILED)),
    "no commands and a faulty problem": (
        {INPUT},
        "session fault.max",
        b"",
        (3, b"", b"dmf: line 5: capacities past 64 bits\n"),
    ),
    "no commands, and standard input as the problem": (
        {INPUT},
        "session /dev/stdin",
        b"",
        (4, b"", b"dmf: cannot open the problem\n"),
    ),
    "no input to the version": ({INPUT}, "--version", b"", (0, VERSION_LINE, b"")),
    # What was to be written is told as lost.
    "no output of a solution": ({OUTPUT}, "solve", A, (4, b"", WRITE_FAILED)),
    "no output of values": ({OUTPUT}, "vital", A, (4, b"", WRITE_FAILED)),
    "no output of values of nodes": ({OUTPUT}, "vital --nodes", A, (4, b"", WRITE_FAILED)),
    "no output of values of pairs": (
        {OUTPUT},
        "vital --pairs --worst 3",
        A,
        (4, b"", WRITE_FAILED),
    ),
    "no output of values with second arcs": (
        {OUTPUT},
        "vital --second",
        A,
        (4, b"", WRITE_FAILED),
    ),
    "no output of a session": (
        {OUTPUT},
        "session problem.max",
        b"print problem\n",
        (4, b"", WRITE_FAILED),
    ),
    "no output of a session that replies nothing": (
        {OUTPUT},
        "session problem.max",
        b"c\n",
        (0, b"", b""),
    ),
    "no output of a check": ({OUTPUT}, "check problem.max", NO_FLOW, (4, b"", WRITE_FAILED)),
    "no output of the help": ({OUTPUT}, "--help", b"", (4, b"", WRITE_FAILED)),
    "no output of the help on session": ({OUTPUT}, "session --help", b"", (4, b"", WRITE_FAILED)),
    "no output of the version": ({OUTPUT}, "--version", b"", (4, b"", WRITE_FAILED)),
    # The status still tells.
    "no error stream of a solution": ({ERROR}, "solve", A, (0, SOLUTION, b"")),
    "no error stream of a faulty problem": ({ERROR}, "solve", FAULTY, (3, b"", b"")),
    "no error stream of a session": (
        {ERROR},
        "session problem.max",
        b"undo\nprint flow\n",
        (1, b"c refused 1 nothing to undo\n" + NO_FLOW, b""),
    ),
    "no error stream of a session on a faulty problem": (
        {ERROR},
        "session fault.max",
        b"",
        (3, b"", b""),
    ),
    "no error stream of a check": ({ERROR}, "check problem.max", NO_FLOW, (1, b"c flow 0\n", b"")),
    "no error stream of the version": ({ERROR}, "--version", b"", (0, VERSION_LINE, b"")),
    "no error stream of an unknown word": ({ERROR}, "wash", b"", (2, b"", b"")),
    # More of them are closed.
    "neither input nor output of a session": (
        {INPUT, OUTPUT},
        "session problem.max",
        b"",
        (4, b"", READ_FAILED),
    ),
    "neither input nor error stream of a session": (
        {INPUT, ERROR},
        "session problem.max",
        b"",
        (4, b"", b""),
    ),
    **{
        f"no stream at all: {words}": ({INPUT, OUTPUT, ERROR}, words, b"", (4, b"", b""))
        for words in ("solve", "vital", "session problem.max", "check problem.max", "--help")
    },
}


@pytest.mark.parametrize("name", CLOSED)
def test_closed(folder: Path, name: str) -> None:
    closed, words, given, ended = CLOSED[name]
    assert run_without(folder, closed, words, given) == ended


@pytest.mark.parametrize(
    ("words", "given"),
    [
        ("session problem.max", b"print problem\n"),
        ("", A),
        ("vital", A),
        ("vital --nodes", A),
        ("check problem.max", NO_FLOW),
        ("--help", b""),
        ("--version", b""),
    ],
)
def test_full_device(folder: Path, words: str, given: bytes) -> None:
    with open("/dev/full", "wb") as full:
        ran = subprocess.run(
            [BUILT, *words.split()],
            cwd=folder,
            input=given,
            stdout=full,
            stderr=subprocess.PIPE,
            timeout=SECONDS,
        )
    assert (ran.returncode, ran.stderr) == (4, WRITE_FAILED)


def test_full_error_stream(folder: Path) -> None:
    with open("/dev/full", "wb") as full:
        ran = subprocess.run(
            [BUILT, "session", "fault.max"],
            cwd=folder,
            input=b"",
            stdout=subprocess.PIPE,
            stderr=full,
            timeout=SECONDS,
        )
    assert (ran.returncode, ran.stdout) == (3, b"")


@pytest.mark.parametrize(
    ("command", "given"), [("session problem.max", b"print problem\n"), ("vital", A)]
)
def test_closed_pipe(folder: Path, command: str, given: bytes) -> None:
    """Standard output is a pipe that nobody reads. The signal of a broken pipe is at its
    default."""
    reader, writer = os.pipe()
    os.close(reader)
    words = [str(BUILT), *command.split()]
    ran = subprocess.run(
        words, cwd=folder, input=given, stdout=writer, stderr=subprocess.PIPE, timeout=SECONDS
    )
    os.close(writer)
    assert (ran.returncode, ran.stderr) == (4, WRITE_FAILED)


@pytest.mark.parametrize(
    ("words", "given"), [("session huge.max", b"print flow\n"), ("check huge.max", b"s 0\n")]
)
def test_too_large(folder: Path, words: str, given: bytes) -> None:
    """A problem past its limit, of 1 GiB and one byte, which takes no space on the disk."""
    with open(folder / "huge.max", "wb") as huge:
        huge.truncate(2**30 + 1)
    assert run_without(folder, set(), words, given) == (4, b"", b"dmf: too much input\n")


def limit() -> None:
    resource.setrlimit(
        resource.RLIMIT_STACK, (SMALL_STACK, resource.getrlimit(resource.RLIMIT_STACK)[1])
    )


def run_small(
    words: str | tuple[bytes, ...], given: bytes = b"", folder: Path = ROOT
) -> tuple[int, bytes, bytes]:
    """Runs the program on a small stack, at the root or in a folder."""
    split = tuple(map(os.fsencode, words.split())) if isinstance(words, str) else words
    whole: list[Path | bytes] = [BUILT, *split]
    environment = {**os.environ, "FILLER": "x" * ENVIRONMENT}
    ran = subprocess.run(
        whole,
        cwd=folder,
        input=given,
        capture_output=True,
        timeout=SECONDS,
        preexec_fn=limit,
        env=environment,
    )
    return ran.returncode, ran.stdout, ran.stderr


SMALL = {
    "a problem is solved": ("solve", A, (0, SOLUTION)),
    "a problem is solved with its cut": ("solve --cut", A, (0, SOLUTION + CUT)),
    "a session is held": (
        "session examples/a.max",
        b"solve\nredo\nprint cut\n",
        (1, SOLUTION + b"c refused 2 nothing to redo\n" + CUT),
    ),
    "a session has a line of the greatest length": (
        "session --cut examples/a.max",
        b"%4096s\n" % b"solve",
        (0, SOLUTION + CUT),
    ),
    "a solution is checked": ("check examples/a.max", SOLUTION, (0, b"c greatest 5\n")),
    "each node is valued": ("vital --nodes", A, (0, b"c value 5\nv 2 2\nv 3 2\n")),
    "the worst pairs are valued": (
        "vital --pairs --worst 2",
        A,
        (0, b"c value 5\nv 1 2 0\nv 1 5 0\n"),
    ),
    "second arcs are valued": (
        "vital --second",
        A,
        (0, b"c value 5\nv 1 2 5\nv 2 3 5\nv 3 4 5\nv 4 3 5\nv 5 2 5\n"),
    ),
    "each arc is valued": ("vital", A, (0, b"c value 5\nv 1 2\nv 2 3\nv 3 4\nv 4 3\nv 5 2\n")),
}


@pytest.mark.parametrize("name", SMALL)
def test_small_stack(name: str) -> None:
    words, given, ended = SMALL[name]
    assert run_small(words, given) == (*ended, b"")


def test_small_stack_of_larger_problem() -> None:
    """The solution of a problem of some thousand arcs is found and checked."""
    status, solution, told = run_small("solve", (ROOT / "examples" / "levels.max").read_bytes())
    value = solution.partition(b"\n")[0].removeprefix(b"s ")
    assert (status, told) == (0, b"")
    assert run_small("check examples/levels.max", solution) == (0, b"c greatest %s\n" % value, b"")


@pytest.mark.seconds(1)
def test_small_stack_of_cases(case_folder: Path) -> None:
    """The cases that were worked out by hand."""
    for case, wanted in WORKED:
        built.put_problem(case)
        assert wanted.allows(*run_small(case.words, case.input, case_folder)), case.name


def test_small_stack_is_promised() -> None:
    assert f"a stack of {SMALL_STACK // 1024} KiB" in (ROOT / "docs" / "FORMATS.md").read_text()


def test_small_stack_of_words() -> None:
    """Help, and what is wrong with words, are told on it too."""
    whole = subprocess.run([BUILT, "session", "--help"], capture_output=True, timeout=SECONDS)
    assert run_small("session --help") == (0, whole.stdout, b"")
    status, out, err = run_small("wash")
    assert (status, out) == (2, b"") and b"\nUsage: dmf" in err
