"""`tools/dmf-sweep` on a problem that was worked out by hand, and at its ends."""

from __future__ import annotations

import contextlib
import csv
import io
import os
import signal
import subprocess
import sys
from collections.abc import Iterator
from pathlib import Path
from typing import IO

import pytest
from built import heed_interrupts
from client_shared import ROOT, is_running
from limits import SECONDS
from stopped_sweeps import STOPPING, command, wait_until_stopped
from tool_runs import Tools

# The pipes of the other tests, whose greatest value is 5.
PROBLEM = 'c node 1 lake\nc node 4 sea\nc arc 5 the "canal"\np max 4 5\nn 1 s\nn 4 t\n'
PROBLEM += "a 1 2 3\na 1 3 2\na 2 3 5\na 2 4 2\na 3 4 3\n"
HEAD = ["case", "commands", "name", "value", "difference", "refused"]


def parted(table: str) -> list[list[str]]:
    """The rows of a table, one a line, whose fields are parted by bars."""
    return [line.split("|") for line in table.splitlines()]


CLOSED = parted(
    """\
1|close 1|lake -> 2|2|-3|
2|close 2|lake -> 3|3|-2|
3|close 3|2 -> 3|4|-1|
4|close 4|2 -> sea|3|-2|
5|close 5|the "canal"|2|-3|
"""
)


@pytest.fixture(autouse=True)
def folder(tmp_path: Path, monkeypatch: pytest.MonkeyPatch) -> Path:
    """The folder in which each test runs, with the problem."""
    monkeypatch.chdir(tmp_path)
    (tmp_path / "net.max").write_text(PROBLEM)
    return tmp_path


def run_tool(*words: str, stdin: int | IO[bytes] | None = None) -> subprocess.CompletedProcess[str]:
    command = [sys.executable, f"{ROOT}/tools/dmf-sweep", "net.max", *words]
    return subprocess.run(command, stdin=stdin, capture_output=True, text=True, timeout=SECONDS)


def rows(*words: str) -> list[list[str]]:
    ran = run_tool(*words)
    assert (ran.returncode, ran.stderr) == (0, "")
    head, *found = csv.reader(io.StringIO(ran.stdout))
    assert head == HEAD
    return found


def test_each_arc_is_closed() -> None:
    assert rows("--close-each") == CLOSED
    assert rows("--close-each", "--of", "cut", "--jobs", "1") == CLOSED[:2]
    assert rows("--close-each", "--top", "3") == [CLOSED[0], CLOSED[4], CLOSED[1]]
    assert rows("--close-each", "--anew") == CLOSED
    assert rows("--close-each", "--anew", "--of", "cut", "--jobs", "1") == CLOSED[:2]


def test_cases() -> None:
    cases = (
        "close 1; add 1 4 7\n\nc a comment\nshut 2\ncap 5 18446744073709551615\nclose 6\nadd 1 9 "
        "1\nshut 1;close 1\n"
    )
    Path("cases.txt").write_text(cases)
    wanted = """\
1|close 1; add 1 4 7|lake -> 2|9|4|
2|shut 2|2|2|-3|
3|cap 5 18446744073709551615|the "canal"|||capacities past 64 bits
4|close 6||||no such arc
5|add 1 9 1||||no such node
6|shut 1; close 1|lake|||arc is closed
"""
    assert rows("--cases", "cases.txt") == rows("--cases", "cases.txt", "--anew") == parted(wanted)


ANY = "expected cap, add, close or shut"
WHOLE = "is not a whole number from 0 to 18446744073709551615; usage: "


@pytest.mark.parametrize(
    "line, column, told",
    [
        ("solve", 1, f"'solve' is not a change; {ANY}"),
        ("undo", 1, f"'undo' is not a change; {ANY}"),
        ("close 1; wash 1", 10, f"'wash' is not a change; {ANY}"),
        ("close 1;c a comment", 9, f"'c' is not a change; {ANY}"),
        ("close 1; ", 10, f"no command stands here; {ANY}"),
        ("close  x", 8, f"'x' {WHOLE}close ARC"),
        ("close 1;\tcap 3 1.5", 16, f"'1.5' {WHOLE}cap ARC CAPACITY"),
        ("shut \u00fc9\x1b", 6, f"'\u00fc9\\x1b' {WHOLE}shut NODE"),
        ("shut 1; close \u00fc", 15, f"'\u00fc' {WHOLE}close ARC"),
        (f"add 1 2 {2**64}", 9, f"'{2**64}' {WHOLE}add TAIL HEAD CAPACITY"),
        (
            "close 1; cap 3",
            10,
            "'cap 3' has the wrong number of fields; usage: cap ARC CAPACITY",
        ),
        ("close 5 6 ", 1, "'close 5 6' has the wrong number of fields; usage: close ARC"),
        ("\u00fc;close", 1, f"'\u00fc' is not a change; {ANY}"),
        ("close 1;close", 9, "'close' has the wrong number of fields; usage: close ARC"),
    ],
)
def test_a_wrong_case(line: str, column: int, told: str) -> None:
    """The message has the file, the line, the column, what stands there and what is expected."""
    for words, place in (["--cases", "cases.txt"], "cases.txt"), (
        ["--cases", "-"],
        "standard input",
    ):
        Path("cases.txt").write_text(f"close 1\n\n{line}\n", encoding="utf-8")
        with open("cases.txt", "rb") as given:
            ran = run_tool(*words, stdin=given)
        assert (ran.returncode, ran.stdout) == (3, "")
        assert ran.stderr == f"dmf-sweep: {place}, line 3, column {column}: {told}\n"


def goes_on(tools: Tools) -> int:
    """The status of a sweep into a table."""
    return tools.run(
        "dmf-sweep", Path.cwd(), ["net.max", "--close-each", "--table", "table.csv"]
    ).status


def test_it_goes_on_where_its_table_ends(tools: Tools) -> None:
    table = Path("table.csv")
    assert goes_on(tools) == 0
    whole = table.read_text()
    assert kept_rows(whole) == CLOSED
    for length in range(len(whole) + 1):
        if length % 7 == 0 or length == len(whole):
            # The value of the first case is wrong, and stays: it is not tried again.
            table.write_text(
                whole.replace(",2,-3,", ",8,3,", 1)[: length - 1]
                if length > 120
                else whole[:length]
            )
            kept = table.read_text().count(",8,3,")
            assert goes_on(tools) == 0
            assert table.read_text().replace(",8,3,", ",2,-3,") == whole, length
            assert table.read_text().count(",8,3,") == kept
    for other in "hello\n", whole.replace("close 2", "close 3"), "hello":
        table.write_text(other)
        assert (goes_on(tools), table.read_text()) == (3, other)


def kept_rows(table: str) -> list[list[str]]:
    """The rows of the table of a file, without what all have in common, the mark of their
    problem."""
    head, *found = csv.reader(io.StringIO(table, newline=""))
    assert head == [*HEAD, "problem"] and len({row[-1] for row in found}) <= 1
    return [row[:-1] for row in found]


@pytest.mark.parametrize(
    "change",
    [
        ("a 3 4 3", "a 3 4 2"),
        ("a 1 3 2", "a 1 2 2"),
        ("n 4 t", "n 3 t"),
        ("p max 4", "p max 5"),
        ("canal", "ditch"),
    ],
)
def test_the_table_of_another_problem(change: tuple[str, str]) -> None:
    """It is refused, though the cases are the same; comments that name nothing, blanks and another
    name of the file make no other one."""
    assert run_tool("--close-each", "--table", "table.csv").returncode == 0
    table = Path("table.csv")
    lines = table.read_text().splitlines(keepends=True)
    begun = "".join(lines[:3]) + "4,close"
    Path("net.max").write_text(PROBLEM.replace(*change))
    for text in "".join(lines), begun:
        table.write_text(text)
        run = run_tool("--close-each", "--table", "table.csv")
        assert (run.returncode, run.stderr) == (
            3,
            "dmf-sweep: table.csv is the table of another problem, not of net.max\n",
        )
        assert (run.stdout, table.read_text()) == ("", text)
    Path("net.max").write_text("c of today\n\n" + PROBLEM.replace("a 1 2 3", "a  1 2\t3"))
    assert (run_tool("--close-each", "--table", "table.csv").returncode, table.read_text()) == (
        0,
        "".join(lines),
    )


def test_odd_names_in_a_table(tools: Tools) -> None:
    """A sweep goes on after names in which other lines could end: the table is whole again,
    wherever it broke off."""
    names = (
        'the "canal"',
        "ca\rnal",
        "ca\r\rnal",
        "ca\x0cnal",
        "ca\u2028nal",
        'ca\r"nal',
        "ca,nal",
        "\ufffdnal",
    )
    for name in names:
        Path("net.max").write_text(
            PROBLEM.replace('the "canal"', name).replace("lake", "la\rke"), newline=""
        )
        Path("table.csv").unlink(missing_ok=True)
        assert goes_on(tools) == 0
        whole = Path("table.csv").read_bytes()
        wanted = [
            [it.replace("lake", "la\rke").replace('the "canal"', name) for it in row]
            for row in CLOSED
        ]
        assert kept_rows(whole.decode()) == wanted
        for length in len(whole) - 1, len(whole) - 30, len(whole) // 2, whole.index(b"\r") + 1:
            Path("table.csv").write_bytes(whole[:length])
            assert goes_on(tools) == 0
            assert Path("table.csv").read_bytes() == whole, (name, length)
        ran = subprocess.run(
            [sys.executable, f"{ROOT}/tools/dmf-sweep", "net.max", "--close-each"],
            capture_output=True,
            timeout=SECONDS,
        )
        assert list(csv.reader(io.StringIO(ran.stdout.decode(), newline="")))[1:] == wanted
    Path("table.csv").write_text("case,commands\rname\n", newline="")
    assert (
        run_tool("--close-each", "--table", "table.csv").stderr
        == "dmf-sweep: table.csv is not a table of dmf-sweep\n"
    )


def test_a_table_that_names_no_problem() -> None:
    """One that an older version wrote, whole or broken off."""
    for count in 0, 2, 5:
        text = "".join(
            ",".join(row) + "\n"
            for row in [
                HEAD,
                *([str(at), f"close {at}", "", "2", "-3", ""] for at in range(1, count + 1)),
            ]
        )
        Path("table.csv").write_text(text)
        run = run_tool("--close-each", "--table", "table.csv")
        assert (run.returncode, run.stdout) == (3, "")
        assert (
            run.stderr
            == "dmf-sweep: table.csv does not say which problem it belongs to: an older dmf-sweep "
            "wrote it\n"
        )
        assert Path("table.csv").read_text() == text


def large() -> list[list[str]]:
    """A problem of so many arcs side by side that a sweep of them takes a while, and the rows of
    its table."""
    rooms = [number % 7 + 1 for number in range(1500)]
    Path("net.max").write_text(
        f"p max 2 {len(rooms)}\nn 1 s\nn 2 t\n" + "".join(f"a 1 2 {room}\n" for room in rooms)
    )
    value = sum(rooms)
    return [
        [str(at), f"close {at}", "1 -> 2", str(value - room), str(-room), ""]
        for at, room in enumerate(rooms, 1)
    ]


def test_an_interrupt() -> None:
    """It ends the tool and its programs, the table has whole lines, and the next run goes on after
    them."""
    wanted = large()
    # Each case is tried; --close-each would answer them together.
    Path("cases.txt").write_text("".join(f"{row[1]}\n" for row in wanted))
    words = "net.max --cases cases.txt --table table.csv --jobs 2".split()
    begun = command(*words, before=STOPPING)
    with subprocess.Popen(begun, stderr=subprocess.PIPE, preexec_fn=heed_interrupts) as process:
        wait_until_stopped(process)
        programs = programs_of(process.pid)
        process.send_signal(signal.SIGINT)
        process.send_signal(signal.SIGCONT)
        told = process.communicate(timeout=SECONDS)[1]
    # The network's own, and one or two copies: the second begins once the first runs, and only if
    # enough cases are left.
    assert (process.returncode, told) == (130, b"") and len(programs) in (2, 3)
    assert not [program for program in programs if is_running(program)]
    table = Path("table.csv")
    text = table.read_text()
    rows = kept_rows(text)
    assert text.endswith("\n") and 0 < len(rows) < len(wanted) and rows == wanted[: len(rows)]
    assert run_tool("--close-each", "--table", "table.csv").returncode == 0
    assert kept_rows(table.read_text()) == wanted


def programs_of(process: int) -> list[int]:
    """The programs that a process began."""
    tasks = Path(f"/proc/{process}/task").glob("*/children")
    return [int(child) for task in tasks for child in task.read_text().split()]


def pieces(terminal: int) -> Iterator[str]:
    """Yields what was written on a terminal that nobody writes on any more: its end is an error."""
    with contextlib.suppress(OSError):
        while piece := os.read(terminal, 1 << 16):
            yield piece.decode()


def test_a_bar() -> None:
    """On a terminal the bar tells how many cases were tried of how many; else nothing is told."""
    ours, theirs = os.openpty()
    command = [sys.executable, f"{ROOT}/tools/dmf-sweep", "net.max", "--close-each"]
    ran = subprocess.run(command, stdout=subprocess.PIPE, stderr=theirs, text=True, timeout=SECONDS)
    os.close(theirs)
    seen = "".join(pieces(ours))
    os.close(ours)
    assert (ran.returncode, list(csv.reader(io.StringIO(ran.stdout)))[1:]) == (0, CLOSED)
    assert "5/5" in seen and "case" in seen
    assert run_tool("--close-each").stderr == ""


def test_faults() -> None:
    assert run_tool().returncode == 2
    assert run_tool("--close-each", "--top", "0").returncode == 2
    Path("net.max").write_text("p max 2 1\n")
    ran = run_tool("--close-each")
    assert (ran.returncode, ran.stderr) == (
        3,
        "dmf-sweep: net.max: source or sink missing: line 2 of the problem\n",
    )
    os.remove("net.max")
    ran = run_tool("--close-each")
    assert (ran.returncode, ran.stderr) == (
        4,
        "dmf-sweep: cannot read net.max: No such file or directory\n",
    )


def test_a_plot() -> None:
    ran = run_tool("--close-each", "--plot", "losses.png")
    assert (ran.returncode, Path("losses.png").read_bytes()[:4]) == (0, b"\x89PNG")
