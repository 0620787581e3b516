"""Tests the built program by what its caller sees: statuses, standard output and standard error;
and that each solution of an example is judged to be greatest."""

from __future__ import annotations

import os
import subprocess
from pathlib import Path
from typing import NamedTuple

import pytest
from conftest import BUILT, ROOT
from limits import SECONDS
from oracle.program import VERSION_LINE
from tool_runs import wait_until_read

A = "examples/a.max"
SOLUTION = b"s 5\nf 1 2 3\nf 1 3 2\nf 2 3 1\nf 2 4 2\nf 3 4 3\n"
CUT = b"c cut 5\nc side 1\n"
NETWORK = b"p max 4 5\nn 1 s\nn 4 t\na 1 2 3\na 1 3 2\na 2 3 5\na 2 4 2\na 3 4 3\n"
EXPECTED = b"dmf: line 1: problem line expected\n"


class Ran(NamedTuple):
    status: int
    out: bytes
    err: bytes


def run(*words: str | bytes, given: bytes = b"", file: str | None = None) -> Ran:
    """Runs the program at the root, with a text on standard input, or with a file or a folder
    there."""
    stdin = os.open(ROOT / file, os.O_RDONLY) if file else None
    try:
        ran = subprocess.run(
            [BUILT, *words],
            stdin=stdin,
            input=None if file else given,
            capture_output=True,
            timeout=SECONDS,
            cwd=ROOT,
        )
    finally:
        if stdin is not None:
            os.close(stdin)
    return Ran(ran.returncode, ran.stdout, ran.stderr)


REFUSED_WORDS = {
    "an unknown word": ["wash"],
    "a cut alone": ["--cut"],
    "two cuts": ["solve", "--cut", "--cut"],
    "a word after the cut": ["solve", "--cut", A],
    "a cut and no problem": ["session", "--cut"],
    "a cut and two problems": ["session", "--cut", A, "examples/b.max"],
    "a word after solve": ["solve", A],
    "a word after vital": ["vital", A],
    "a cut of vital": ["vital", "--cut"],
    "an option of vital that does not exist": ["vital", "--arcs"],
    "nodes of vital twice": ["vital", "--nodes", "--nodes"],
    "pairs of vital without a number": ["vital", "--pairs"],
    "pairs and nodes of vital": ["vital", "--pairs", "--nodes", "--worst", "1"],
    "second arcs and the worst of vital": ["vital", "--second", "--worst", "1"],
    "nodes of a solve": ["solve", "--nodes"],
    "the worst of a solve": ["solve", "--worst", "1"],
    "progress of vital twice": ["vital", "--progress", "--progress"],
    "an empty word": [""],
    "no problem is named": ["session"],
    "two problems are named": ["session", A, "examples/b.max"],
    "no problem is checked": ["check"],
    "a cut of a check": ["check", "--cut", A],
    "any flow of a session": ["session", "--any", A],
    "progress alone": ["--progress"],
    "progress of a check": ["check", "--progress", A],
    "a history alone": ["--history", "1"],
    "a history of a solve": ["solve", "--history", "1"],
    "a history of a check": ["check", "--history", "1", A],
    "a history below 0": ["session", "--history", "-1", A],
    "two histories": ["session", "--history", "1", "--history", "1", A],
}
HELPS = [
    "--help",
    "solve --help",
    "session --help",
    "check --help",
    "vital --help",
    "help",
    "help session",
    "help vital",
]


@pytest.mark.parametrize("name", REFUSED_WORDS)
def test_refused_words(name: str) -> None:
    """Words that it does not take: status 2, and on standard error what is wrong and how it is
    used."""
    status, out, err = run(*REFUSED_WORDS[name], file=A)
    assert (status, out) == (2, b"")
    assert err.startswith(b"error: ") and b"\nUsage: dmf" in err


@pytest.mark.parametrize("words", HELPS)
def test_help(words: str) -> None:
    """The help is on standard output, and the status is 0."""
    status, out, err = run(*words.split())
    assert (status, err) == (0, b"") and b"\nUsage: dmf" in out


@pytest.mark.parametrize(
    ("words", "given", "file", "ended"),
    [
        pytest.param(["--version"], b"", None, (0, VERSION_LINE, b""), id="the version"),
        pytest.param(
            ["session", A, "--cut"],
            b"solve\n",
            None,
            (0, SOLUTION + CUT, b""),
            id="a cut after the problem",
        ),
        pytest.param(
            ["session", b"\xff"],
            b"",
            None,
            (2, b"", b"dmf: a word is not UTF-8\n"),
            id="words that are not UTF-8",
        ),
        pytest.param([], b"", A, (0, SOLUTION, b""), id="no words"),
        pytest.param(["solve"], b"", A, (0, SOLUTION, b""), id="the word solve"),
        pytest.param(
            ["solve", "--cut"],
            b"",
            None,
            (3, b"", EXPECTED),
            id="nothing is to be solved with its cut",
        ),
        pytest.param(
            ["solve"],
            b"",
            "examples",
            (4, b"", b"dmf: read failed\n"),
            id="the problem to be solved is a folder",
        ),
        pytest.param(
            ["session", "missing"],
            b"",
            None,
            (4, b"", b"dmf: cannot open the problem\n"),
            id="there is no such problem",
        ),
        pytest.param(
            ["session", "examples"],
            b"",
            None,
            (4, b"", b"dmf: read failed\n"),
            id="the problem is a folder",
        ),
        pytest.param(
            ["session", "/dev/null"], b"", None, (3, b"", EXPECTED), id="an empty problem"
        ),
        pytest.param(
            ["session", A],
            b"",
            "examples",
            (4, b"", b"dmf: read failed\n"),
            id="standard input is a folder",
        ),
        pytest.param(
            ["check", "missing"],
            b"s 0\n",
            None,
            (4, b"", b"dmf: cannot open the problem\n"),
            id="no such problem of a check",
        ),
        pytest.param(
            ["check", "/dev/null"],
            b"s 0\n",
            None,
            (3, b"", EXPECTED),
            id="the problem of a check has a fault",
        ),
        pytest.param(
            ["check", A],
            b"",
            "examples",
            (4, b"", b"dmf: read failed\n"),
            id="the solution is a folder",
        ),
    ],
)
def test_ends(
    words: list[str | bytes], given: bytes, file: str | None, ended: tuple[int, bytes, bytes]
) -> None:
    assert run(*words, given=given, file=file) == ended


def test_two_pieces() -> None:
    """The problem comes in two pieces."""
    text = (ROOT / A).read_bytes()
    program = subprocess.Popen(
        [BUILT, "solve"], stdin=subprocess.PIPE, stdout=subprocess.PIPE, stderr=subprocess.PIPE
    )
    assert program.stdin
    program.stdin.write(text[:20])
    program.stdin.flush()
    wait_until_read(program)
    assert program.communicate(text[20:], timeout=SECONDS) == (SOLUTION, b"")
    assert program.returncode == 0


def test_link(tmp_path: Path) -> None:
    """The script at the root finds the program from any folder and through a link, and the program
    finds the caller's files."""
    (tmp_path / "linked").symlink_to(ROOT / "dmf")
    (tmp_path / "here.max").write_bytes(NETWORK)
    words = ["./linked", "session", "here.max"]
    ran = subprocess.run(
        words, cwd=tmp_path, input=b"print problem\n", capture_output=True, timeout=SECONDS
    )
    assert (ran.returncode, ran.stdout, ran.stderr) == (0, NETWORK, b"")


@pytest.mark.parametrize("problem", sorted(it.name for it in (ROOT / "examples").glob("*.max")))
def test_greatest(problem: str) -> None:
    """The solution of an example is greatest."""
    solution = run("solve", file=f"examples/{problem}").out
    value = solution.partition(b"\n")[0].removeprefix(b"s ")
    assert run("check", f"examples/{problem}", given=solution) == (
        0,
        b"c greatest %s\n" % value,
        b"",
    )
