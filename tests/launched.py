"""Calls of the command `dmf` that are the program's: what the launcher passes on has the program's
bytes and statuses, whatever the words and the streams are."""

from __future__ import annotations

import os
import subprocess
from collections.abc import Sequence
from pathlib import Path
from typing import NamedTuple, Union

from limits import SECONDS
from sources import ROOT

Word = Union[str, bytes, Path]
FULL = Path("/dev/full")
TOOLS_TEXT = (ROOT / "clients/python/dmf/tools/tools.txt").read_bytes()
TABLES_TEXT = (ROOT / "clients/python/dmf/tools/tables.txt").read_bytes()
PROBLEM = (ROOT / "examples/a.max").read_bytes()
FLOW = b"s 5\nf 1 2 3\nf 1 3 2\nf 2 3 1\nf 2 4 2\nf 3 4 3\n"
# Words that are the program's, each with what it is given: those of its commands, and those that
# only look like a tool's.
CALLS: list[tuple[list[Word], bytes]] = [
    ([], PROBLEM),
    (["solve", "--cut"], PROBLEM),
    (["solve", "--brief"], b"p max 2 1\nn 1 s\nn 2 t\na 1 2 x\n"),
    (
        ["session", "--brief", ROOT / "examples/a.max"],
        b"solve\ncap 5 1\nwash\nsolve\nundo 2\nprint cut",
    ),
    (["session", "--history", "0", "/nowhere/a file.max"], b"solve\n"),
    (["check", ROOT / "examples/a.max"], FLOW),
    (["check", ROOT / "examples/a.max"], b"s 5\n"),
    (["check", "--", "-odd.max"], FLOW),
    (["--version"], b""),
    (["-V", "plan"], b""),
    (["help", "solve"], b""),
    (["session", "--help"], b""),
    (["help", "tables", "more"], b""),
    (["help", "plan", "more"], b""),
    (["help", "table"], b""),
    (["--help", "plan"], b""),
    (["--", "plan"], PROBLEM),
    (["plans"], b""),
    (["Plan"], b""),
    (["dmf-plan"], b""),
    (["plan "], b""),
    (["pla\\n"], b""),
    (["*"], b""),
    (["$HOME", "`id`", "a  b\n"], b""),
    ([""], PROBLEM),
    (["", "plan"], PROBLEM),
    ([b"solv\xff"], b""),
    ([b"\xff"], b""),
    (["--progress"], PROBLEM),
]
# Words that are tried with each of these streams closed.
STREAM_WORDS = "", "solve --cut", "check /nowhere", "--version", "help", "-h", "wash"
# Which of standard input, output and error are closed.
CLOSED: list[Sequence[int]] = [(), (0,), (1,), (2,), (0, 1), (0, 2), (1, 2), (0, 1, 2)]


class Ran(NamedTuple):
    """How a call ended, and what it wrote."""

    status: int
    out: bytes
    err: bytes


def run(
    command: Sequence[Word],
    given: bytes = b"",
    closed: Sequence[int] = (),
    out: Path | None = None,
    **environment: str,
) -> Ran:
    """Run a command with these streams closed, or its output sent to a device."""

    def close() -> None:
        for number in closed:
            os.close(number)

    variables = {"PATH": "/usr/bin:/bin", "HOME": "/nowhere", "LC_ALL": "C.UTF-8", **environment}
    with open(out or os.devnull, "wb") as device:
        ran = subprocess.run(
            [*command],
            input=given,
            stdout=subprocess.PIPE if out is None else device,
            stderr=subprocess.PIPE,
            env=variables,
            preexec_fn=close,
            timeout=SECONDS,
            check=False,
        )
    return Ran(ran.returncode, ran.stdout or b"", ran.stderr)


def judge_words(launcher: Path, program: Path) -> None:
    """All words that name no tool are the program's, and so are its bytes and statuses."""
    for words, given in CALLS:
        assert run([launcher, *words], given) == run([program, *words], given), (launcher, words)


def judge_help(launcher: Path, program: Path) -> None:
    """The program's help comes first, byte for byte, and then the tools."""
    for word in "help", "--help", "-h":
        plain = run([program, word])
        assert run([launcher, word]) == plain._replace(out=plain.out + TOOLS_TEXT), launcher
    assert run([launcher, "help", "tables"]) == Ran(0, TABLES_TEXT, b""), launcher


def judge_streams(launcher: Path, program: Path) -> None:
    """Streams that are closed, or that take nothing, are so to the program too."""
    for words in map(str.split, STREAM_WORDS):
        for closed in CLOSED:
            told = run([launcher, *words], PROBLEM, closed)
            wanted = run([program, *words], PROBLEM, closed)
            # The program's own help is not all that the launcher prints, if it can print.
            is_help = words in (["help"], ["-h"]) and 1 not in closed
            out = wanted.out + TOOLS_TEXT if is_help else wanted.out
            assert told == wanted._replace(out=out), (words, closed)
        full, wanted = (run([it, *words], PROBLEM, out=FULL) for it in (launcher, program))
        assert full == wanted, words
    assert run([launcher, "help", "tables"], out=FULL).status == 4
    assert run([launcher, "help", "tables"], closed=(1,)).status == 4
