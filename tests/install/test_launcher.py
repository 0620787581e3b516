"""The launcher, which is installed as `dmf`: what it passes on to the program has the program's
bytes and statuses, whatever the words and the streams are and wherever it lies; and its other words
run the tools and print the two texts."""

from __future__ import annotations

import argparse
import os
import re
import shutil
import signal
import subprocess
from collections.abc import Iterator
from pathlib import Path

import pytest
from conftest import ROOT
from dmf.tools import TOOLS
from dmf.tools.options import add_options
from launched import Word, judge_help, judge_streams, judge_words, run


def forms(installed: Path, folder: Path) -> Iterator[tuple[str, Path, Path]]:
    """The names under which the launcher is called, with the program that each has."""
    program = installed / "lib/dmf/dmf"
    yield "installed", installed / "bin/dmf", program
    (folder / "link").symlink_to(installed / "bin/dmf")
    yield "a link", folder / "link", program
    (folder / "link of a link").symlink_to("link")
    yield "a link of a link", folder / "link of a link", program
    (folder / "folder").symlink_to(installed / "bin")
    yield "a folder that is a link", folder / "folder/dmf", program
    moved = folder / "a moved place, with 'odd' $HOME \"signs\" and *"
    shutil.copytree(installed, moved, symlinks=True)
    yield "a folder with odd signs", moved / "bin/dmf", moved / "lib/dmf/dmf"
    # A link beside another program of this name, which is not the linked one's.
    (folder / "else/bin").mkdir(parents=True)
    (folder / "else/lib/dmf").mkdir(parents=True)
    (folder / "else/bin/dmf").symlink_to(installed / "bin/dmf")
    (folder / "else/lib/dmf/dmf").write_text("#!/bin/sh\necho another\n")
    (folder / "else/lib/dmf/dmf").chmod(0o755)
    yield "a link beside another program", folder / "else/bin/dmf", program
    yield "a clone", ROOT / "dmf", program


def test_passed_on(installed: Path, tmp_path: Path) -> None:
    for _, launcher, program in forms(installed, tmp_path):
        judge_words(launcher, program)
        judge_help(launcher, program)


@pytest.mark.seconds(4)
def test_streams(installed: Path) -> None:
    judge_streams(installed / "bin/dmf", installed / "lib/dmf/dmf")
    judge_streams(ROOT / "dmf", installed / "lib/dmf/dmf")


def test_a_reader_that_goes(installed: Path) -> None:
    """No signal ends a help, as none ends that of the program."""
    for words in "--help", "help tables", "help":
        script = f'"$1" {words} | true; echo "${{PIPESTATUS[0]}}"'
        for _ in range(5):
            told = run(["bash", "-c", script, "bash", installed / "bin/dmf"])
            assert told.out in (b"0\n", b"4\n"), told


def test_the_process(installed: Path) -> None:
    """The program is the process that the caller began: it gets the caller's signals, and no shell
    stays beside it."""
    command: list[str | Path] = [installed / "bin/dmf", "session", ROOT / "examples/a.max"]
    with subprocess.Popen(command, stdin=subprocess.PIPE, stdout=subprocess.PIPE) as session:
        assert session.stdin and session.stdout
        session.stdin.write(b"cap 5 1\n")
        session.stdin.flush()
        assert session.stdout.readline() == b"c cap value 0\n"
        assert os.readlink(f"/proc/{session.pid}/exe") == str(installed / "lib/dmf/dmf")
        session.send_signal(signal.SIGTERM)
    assert session.returncode == -signal.SIGTERM


def test_by_name_alone(installed: Path) -> None:
    """A shell that is given the launcher as a file without a folder finds the rest of it."""
    script = 'cd "$1" && sh dmf --version'
    told = run(["sh", "-c", script, "sh", installed / "bin"])
    assert told == run([installed / "lib/dmf/dmf", "--version"])


def test_tools(installed: Path, tmp_path: Path) -> None:
    """A tool is called by its word as by its own name: with its words, its streams, its status."""
    table = b"Lake,Mill,3\nMill,Sea,2\n"
    (tmp_path / "a table.csv").write_bytes(table)
    path = tmp_path / "a table.csv"
    cases: list[tuple[str, list[Word], bytes, int]] = [
        ("problem", ["Lake", "Sea"], table, 0),
        ("problem", ["Lake", "Nowhere"], table, 3),
        ("names", [path], b"s 2\nf 1 2 2\nf 2 3 2\n", 0),
        ("dot", [path], b"", 0),
        ("plan", [path], b"close Lake-Mill\nclose wash\n", 1),
        ("sweep", ["--close-each", path], b"", 0),
        ("board", ["--port", "99999", path], b"", 2),
    ]
    assert {tool for tool, *_ in cases} == {*TOOLS}
    for _, launcher, _ in forms(installed, tmp_path):
        for tool, words, given, status in cases:
            told = run([launcher, tool, *words], given)
            assert told == run([installed / f"bin/dmf-{tool}", *words], given), (launcher, tool)
            assert told.status == status, told
    for tool in TOOLS:
        told = run([installed / f"bin/dmf-{tool}", "--help"])
        assert told.status == 0
        assert (
            told
            == run([installed / "bin/dmf", tool, "--help"])
            == run([installed / "bin/dmf", "help", tool])
        )


def entries(text: str, title: str) -> list[str]:
    """The first columns of a section of a help."""
    (section,) = re.findall(rf"^{title}:\n((?:  .*\n)*)", text, re.MULTILINE)
    return [re.split(r"\s{2,}", line.strip())[0] for line in section.splitlines() if line[2] != " "]


def test_texts() -> None:
    """The texts name what there is: each tool, and each option that says what a table is, with its
    value."""
    tools = (ROOT / "clients/python/dmf/tools/tools.txt").read_text()
    tables = (ROOT / "clients/python/dmf/tools/tables.txt").read_text()
    assert entries(tools, "Tools") == [*TOOLS]
    assert {f"dmf-{tool}" for tool in TOOLS} == {it.name for it in (ROOT / "tools").glob("dmf-*")}
    parser = argparse.ArgumentParser(add_help=False)
    add_options(parser)
    options = [
        " ".join([*it.option_strings, str(it.metavar or "")]).strip() for it in parser._actions
    ]
    assert len(options) >= 15
    assert [re.sub(r"\s+", " ", it) for it in entries(tables, "options")] == options
    manual = (ROOT / "docs/dmf-tables.5").read_text().replace("\\-", "-")
    assert not [it for it in parser._actions if it.option_strings[0] not in manual]
    assert max(map(len, tables.splitlines())) <= 80
    for word in TOOLS:
        assert re.search(
            rf"^dmf-{word}$|dmf-{word}\b",
            (ROOT / "docs/dmf.1").read_text().replace("\\-", "-"),
            re.MULTILINE,
        )


@pytest.mark.parametrize("tool", TOOLS)
def test_told_once(tool: str) -> None:
    """The help of a tool says where these options are told, and does not tell them again."""
    told = run([ROOT / f"tools/dmf-{tool}", "--help"]).out.decode()
    assert "dmf help tables" in " ".join(told.split())
    assert "--node-limits" not in told.partition("\noptions:\n")[2]
