"""Tests tools/dmf-names: what it tells of answers, sessions and transcripts against texts that were
worked out by hand, what it says of those that do not fit, and where it is put."""

from __future__ import annotations

import csv
import io
import os
import shutil
import subprocess
from collections.abc import Mapping
from pathlib import Path

import pytest
from conftest import BUILT, ROOT
from dmf.desk.export import table
from dmf.desk.workspace import Desk
from dmf.tables.loader import LoadedProblem
from limits import SECONDS
from names_faults import FAULTS, LATER
from names_rows import (
    ROADS,
    TOLD_OF,
    TOWN_CHANGES,
    TOWN_DRAWN,
    TOWN_PLAN,
    TOWN_TOLD,
    UNKNOWN,
    WARNED,
)
from names_tables import NO_TABLES, TABLES, TITLES
from tool_runs import Ran, Text, Tools, put, text

TOOL = str(ROOT / "tools" / "dmf-names")
TOWN = str(ROOT / "examples" / "town.max")
CARRIAGE_RETURNS = b'c node 1 la\rke\nc arc 1 ca\r"nal\np max 2 1\nn 1 s\nn 2 t\na 1 2 3\n'
PIPE = subprocess.PIPE
ASCII = {"LC_ALL": "C", "PYTHONIOENCODING": "ascii", "PYTHONUTF8": "0", "PYTHONCOERCECLOCALE": "0"}


def put_texts(folder: Path, problem: Text, commands: Text | None) -> list[str]:
    """Puts a problem into a file, and commands where some are given. Gives the words that name
    them."""
    put(folder / "problem", text(problem))
    if commands is None:
        return ["problem"]
    put(folder / "commands", text(commands))
    # What was written long ago is not waited for.
    os.utime(folder / "commands", (0, 0))
    return ["problem", "--commands", "commands"]


def names_of(
    tools: Tools, folder: Path, problem: Text, commands: Text | None, answer: Text, *words: str
) -> Ran:
    """How the tool ends on a problem, on commands where some are given, and on an answer."""
    return tools.run(
        "dmf-names", folder, [*put_texts(folder, problem, commands), *words], text(answer)
    )


def warned(name: str) -> bytes:
    """What is told on standard error of the row of this name."""
    return (
        f"dmf-names: line {WARNED[name]} of the answer: {UNKNOWN}\n".encode()
        if name in WARNED
        else b""
    )


@pytest.mark.parametrize("name", TOLD_OF)
def test_told(tools: Tools, tmp_path: Path, name: str) -> None:
    problem, commands, answer, wanted = TOLD_OF[name]
    assert names_of(tools, tmp_path, problem, commands, answer) == (0, text(wanted), warned(name))


@pytest.mark.parametrize(
    "name",
    ["names that would steer a terminal", "a transcript", "a session whose commands are not known"],
)
def test_as_process(tmp_path: Path, name: str) -> None:
    """The tool in a process of its own, in which no locale helps it."""
    problem, commands, answer, wanted = TOLD_OF[name]
    words = [TOOL, *put_texts(tmp_path, problem, commands)]
    ran = subprocess.run(
        words,
        input=text(answer),
        capture_output=True,
        timeout=SECONDS,
        cwd=tmp_path,
        env={**os.environ, **ASCII},
    )
    assert (ran.returncode, ran.stdout, ran.stderr) == (0, text(wanted), warned(name))


@pytest.mark.parametrize(("problem", "commands", "answer", "wanted"), FAULTS)
def test_faults(
    tools: Tools, tmp_path: Path, problem: Text, commands: Text | None, answer: Text, wanted: str
) -> None:
    status, out, err = names_of(tools, tmp_path, problem, commands, answer)
    assert (status, err.decode()) == (3, f"dmf-names: {wanted}\n")
    # Nothing is told of the reply that does not fit.
    assert not any(line.startswith((b"value", b"limit", b"  ", b"p ")) for line in out.split(b"\n"))


@pytest.mark.parametrize(("commands", "answer", "told", "wanted"), LATER)
def test_later_faults(
    tools: Tools, tmp_path: Path, commands: Text, answer: Text, told: Text, wanted: str
) -> None:
    assert names_of(tools, tmp_path, ROADS, commands, answer) == (
        3,
        text(told),
        f"dmf-names: {wanted}\n".encode(),
    )


@pytest.mark.parametrize(("name", "texts", "wanted"), TABLES)
def test_tables(
    tools: Tools,
    tmp_path: Path,
    name: str,
    texts: tuple[Text, Text | None, Text],
    wanted: list[tuple[object, ...]],
) -> None:
    ran = names_of(tools, tmp_path, *texts, "--csv")
    rows = list(csv.reader(io.StringIO(ran.out.decode(), newline="")))
    assert (ran.status, rows) == (0, [TITLES, *([str(field) for field in row] for row in wanted)])
    assert ran.err.endswith(UNKNOWN.encode() + b"\n") if "not known" in name else ran.err == b""


def test_a_carriage_return_in_a_table(tools: Tools, tmp_path: Path) -> None:
    """It is shown as `\\x0d`, since a reader of the table may take it for the end of a line, which
    `csv` leaves without quotes."""
    ran = names_of(tools, tmp_path, CARRIAGE_RETURNS, None, "s 3 / f 1 2 3", "--csv")
    assert ran.out.splitlines()[1:] == [rb'1,"ca\x0d""nal",la\x0dke,2,3,3,yes,']
    assert table(Desk(LoadedProblem("a test", CARRIAGE_RETURNS))).splitlines()[1:] == [
        r'1,"ca\x0d""nal",la\x0dke,2,0,3,no,'
    ]


@pytest.mark.parametrize(("problem", "commands", "answer", "told"), NO_TABLES)
def test_no_tables(
    tools: Tools, tmp_path: Path, problem: Text, commands: Text | None, answer: Text, told: str
) -> None:
    ran = names_of(tools, tmp_path, problem, commands, answer, "--csv")
    assert (ran.status, ran.out, ran.err.decode().splitlines()[-1:]) == (
        3,
        b"",
        [f"dmf-names: {told}"],
    )


def test_a_cut_that_is_not_known(tools: Tools, tmp_path: Path) -> None:
    """After a change that is not known it says nothing of the arcs of a cut; the flows are those of
    the last solution that is known."""
    answer = "s 3 / f 1 2 3 / c cap value 2 / c cut 2 / c side 1"
    ran = tools.run(
        "dmf-names",
        tmp_path,
        ["problem", "--csv"],
        text(answer),
        {"problem": text("p max 2 1 / n 1 s / n 2 t / a 1 2 3")},
    )
    assert (ran.status, ran.out.decode().splitlines()[1:]) == (0, ["1,,1,2,3,3,yes,"])


def test_round(tools: Tools, tmp_path: Path) -> None:
    """A printed problem that is told is a problem with the same names, and the numbers that it has
    there."""
    answer = "c close value 0 / p max 3 2 / n 1 s / n 3 t / a 2 3 4 / a 1 3 2"
    printed = names_of(tools, tmp_path, ROADS, "close 1 / print problem", answer).out
    told = names_of(
        tools, tmp_path, printed.split(b"\n", 1)[1], None, "s 2 / f 2 3 0 / f 1 3 2"
    ).out
    assert told == text("value 2 /   1 Hill -> Site: 0 of 4 /   2 Old Road, Quarry -> Site: 2 of 2")


@pytest.mark.parametrize(
    ("words", "told"),
    [(["missing"], "missing"), (["problem", "--commands", "missing"], "missing"), (["."], ".")],
)
def test_missing_files(tools: Tools, tmp_path: Path, words: list[str], told: str) -> None:
    ran = tools.run("dmf-names", tmp_path, words, "c undo value 0\n", {"problem": text(ROADS)})
    assert (ran.status, ran.err.count(b"\n")) == (4, 1)
    assert ran.err.startswith(f"dmf-names: cannot read {told}: ".encode())


@pytest.mark.parametrize(
    ("words", "status"), [([], 2), (["--wash", "problem"], 2), (["-"], 2), (["--help"], 0)]
)
def test_words(tools: Tools, tmp_path: Path, words: list[str], status: int) -> None:
    ran = tools.run("dmf-names", tmp_path, words, b"", {"problem": text(ROADS)})
    assert (ran.status, b"usage: dmf-names" in ran.out + ran.err) == (status, True)


def test_places(tmp_path: Path) -> None:
    """It finds its package where `./install` puts both, and by symbolic links. Without the package
    it says so in one line."""
    put(tmp_path / "problem", text(ROADS))
    (tmp_path / "there" / "bin").mkdir(parents=True)
    (tmp_path / "links").mkdir()
    shutil.copy(TOOL, tmp_path / "there" / "bin" / "dmf-names")
    link = tmp_path / "links" / "dmf-names"
    link.symlink_to("../there/bin/dmf-names")

    def ran() -> subprocess.CompletedProcess[bytes]:
        return subprocess.run(
            [link, tmp_path / "problem"], input=b"s 6\n", capture_output=True, timeout=SECONDS
        )

    without = ran()
    assert (without.returncode, without.stderr.count(b"\n")) == (4, 1)
    assert without.stderr.startswith(
        b"dmf-names: the Python package dmf, which it needs, was not found"
    )
    package = tmp_path / "there" / "share" / "dmf" / "python" / "dmf"
    shutil.copytree(
        ROOT / "clients/python/dmf", package, ignore=shutil.ignore_patterns("__pycache__")
    )
    with_package = ran()
    assert (with_package.returncode, with_package.stdout) == (0, b"value 6\n")


# The roads of the tutorial: the tunnel's road is widened, a road is added, and the bridge's road is
# closed; then all is taken back.
TOWN_SESSIONS: Mapping[str, tuple[str, str, list[str]]] = {
    "changed": (TOWN_CHANGES, TOWN_PLAN + TOWN_TOLD, ["dmf-names", TOWN, "--commands", "commands"]),
    "changed and undone": (
        TOWN_CHANGES + "undo 3\nundo\nprint flow\n",
        f"{TOWN_PLAN}{TOWN_TOLD}c undo value 11\nc undo value 11\n{TOWN_PLAN}",
        ["dmf-names", TOWN, "--commands", "commands"],
    ),
    "changed, as a picture": (
        TOWN_CHANGES,
        TOWN_DRAWN,
        ["dmf-dot", TOWN, "--commands", "commands", "-"],
    ),
}


@pytest.mark.parametrize("name", TOWN_SESSIONS)
def test_town(tools: Tools, tmp_path: Path, name: str) -> None:
    """A session of the program, told by names and drawn."""
    commands, wanted, (tool, *words) = TOWN_SESSIONS[name]
    replies = subprocess.run(
        [BUILT, "session", TOWN], input=commands.encode(), capture_output=True, timeout=SECONDS
    ).stdout
    ran = tools.run(tool, tmp_path, words, replies, {"commands": commands})
    assert (ran.status, ran.out.decode(), ran.err) == (0, wanted, b"")
