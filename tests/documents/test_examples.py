"""Runs each example of README.md, of the manual page, of the program's help, of the tutorial and of
the stories, and compares what it writes with what stands there. An example is a line that begins
with '$', and what it writes are the lines after it. They are run in a folder that has the program
as `dmf`, and the tools and examples of the root. The tutorial and the stories are run on the second
implementation too."""

from __future__ import annotations

import os
import re
import shutil
import subprocess
import sys
from collections.abc import Iterator
from pathlib import Path

import pytest
from conftest import BUILT, ROOT
from limits import SECONDS

# What is written after each example.
END = "\x1e"
ROFF = {"\\[aq]": "'", "\\[rs]": "\\", "\\-": "-", "\\fB": "", "\\fP": ""}
STORIES = [
    str(page.relative_to(ROOT)) for page in sorted((ROOT / "examples").glob("*/README.md"))
] + ["docs/TUTORIAL.md"]
HELPS = ["", "solve", "session", "check", "vital"]


def of_manual(path: str) -> Iterator[str]:
    """The lines of the examples of a manual page, as they are read."""
    blocks = re.findall(r"^\.EX\n(.*?)^\.EE$", (ROOT / path).read_text(), re.MULTILINE | re.DOTALL)
    for line in "\n".join(blocks).splitlines():
        yield re.sub(r"\\(\[..\]|f.|-)", lambda code: ROFF[code[0]], line)


def indented(text: str, indent: str) -> Iterator[str]:
    """The lines that are indented so far. In place of each other line stands an empty one."""
    for line in text.splitlines():
        yield line.removeprefix(indent) if line.startswith(indent) else ""


def of_help(command: str) -> Iterator[str]:
    ran = subprocess.run(
        [BUILT, *command.split(), "--help"],
        capture_output=True,
        text=True,
        timeout=SECONDS,
        check=True,
    )
    return indented(ran.stdout, "  ")


def examples(lines: Iterator[str]) -> list[tuple[str, str]]:
    """Each command line with what it is to write."""
    found: list[tuple[str, str]] = []
    is_written = False
    for line in lines:
        if line.startswith("$ "):
            found.append((line[2:], ""))
            is_written = True
        elif is_written and line:
            found[-1] = found[-1][0], found[-1][1] + line + "\n"
        else:
            is_written = False
    return found


def judge(lines: Iterator[str], top: Path, program: Path) -> None:
    """Runs the examples of a source, one after the other in one shell."""
    (top / "dmf").symlink_to(program)
    (top / "tools").symlink_to(ROOT / "tools")
    # These tests are a part of it; the gate types it.
    (top / "test").symlink_to("/bin/true")
    shutil.copytree(ROOT / "examples", top / "examples")
    shutil.copy(ROOT / "examples" / "a.max", top / "network.max")
    found = examples(lines)
    assert found, "there is no example"
    ran = subprocess.run(
        ["sh", "-c", "".join(f"{command}\nprintf '{END}'\n" for command, _ in found)],
        cwd=top,
        env={**os.environ, "PATH": f"{top}:{os.environ['PATH']}"},
        stdin=subprocess.DEVNULL,
        capture_output=True,
        text=True,
        timeout=SECONDS,
    )
    *written, rest = ran.stdout.split(END)
    assert [*zip((command for command, _ in found), written)] == found
    # What a tool took for what, which it always tells.
    told = [
        line for line in ran.stderr.splitlines() if not re.search(", capacity '|: a roster: ", line)
    ]
    assert (rest, told) == ("", [])


@pytest.fixture
def oracle(tmp_path: Path) -> Path:
    """The second implementation, which is called as the program is."""
    script = tmp_path / "oracle"
    script.write_text(f'#!/bin/sh\nexec {sys.executable} "{ROOT}/tests/oracle" "$@"\n')
    script.chmod(0o755)
    return script


@pytest.fixture
def top(tmp_path: Path) -> Path:
    folder = tmp_path / "top"
    folder.mkdir()
    return folder


@pytest.mark.seconds(4)
@pytest.mark.parametrize("page", ["README.md", *STORIES])
def test_page(top: Path, page: str) -> None:
    judge(indented((ROOT / page).read_text(), "    "), top, BUILT)


def test_manual(top: Path) -> None:
    judge(of_manual("docs/dmf.1"), top, BUILT)


@pytest.mark.parametrize("words", HELPS)
def test_help(top: Path, words: str) -> None:
    judge(of_help(words), top, BUILT)


@pytest.mark.seconds(4)
@pytest.mark.parametrize("page", STORIES)
def test_second_implementation(top: Path, oracle: Path, page: str) -> None:
    judge(indented((ROOT / page).read_text(), "    "), top, oracle)
