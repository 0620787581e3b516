"""Tests tools/dmf-problem: the problems that it makes of tables against texts made by hand, their
greatest values, which the second implementation solves, against values worked out by hand or by
trying all cuts, and what it says of each fault."""

from __future__ import annotations

import os
import random
import re
import signal
import subprocess
from itertools import product
from pathlib import Path

import pytest
from built import heed_interrupts
from conftest import ROOT
from dmf.tools.command import Status
from limits import SECONDS
from oracle import program
from table_cases import PROBLEMS, VALUES, Case
from table_faults import FAULTS, WARNINGS, WRONG_WORDS
from tool_runs import Ran, Tools, put, wait_until_read

TOOL = str(ROOT / "tools" / "dmf-problem")
# How many random tables there are.
TABLES = 60
TAKEN = r"dmf-problem: (there are no titles: )?from [^;]+, to [^;]+, capacity .+"


def named(case: Case) -> str:
    """How a case is named."""
    return str(case) if len(str(case)) < 100 else f"{str(case)[:100]}..."


def run(tools: Tools, case: Case, folder: Path) -> Ran:
    return tools.run("dmf-problem", folder, case.words, case.table, case.files)


def told_beside(ran: Ran) -> str:
    """What is told beside the line that says what was taken for what, which stands first."""
    line, _, rest = ran.err.decode().partition("\n")
    assert re.fullmatch(TAKEN, line), line
    return rest


@pytest.mark.parametrize(
    ("case", "problem"), [pytest.param(*it, id=named(it[0])) for it in PROBLEMS]
)
def test_problems(tools: Tools, tmp_path: Path, case: Case, problem: str) -> None:
    ran = run(tools, case, tmp_path)
    assert (ran.status, ran.out, told_beside(ran)) == (0, problem.encode(), "")


@pytest.mark.parametrize(("case", "told"), [pytest.param(*it, id=named(it[0])) for it in FAULTS])
def test_faults(tools: Tools, tmp_path: Path, case: Case, told: str) -> None:
    status = Status.LOST if told.startswith("cannot read") else Status.FAULTY
    assert run(tools, case, tmp_path) == (status, b"", f"dmf-problem: {told}\n".encode())


@pytest.mark.parametrize(("case", "told"), [pytest.param(*it, id=named(it[0])) for it in WARNINGS])
def test_warnings(tools: Tools, tmp_path: Path, case: Case, told: list[str]) -> None:
    ran = run(tools, case, tmp_path)
    assert (ran.status, told_beside(ran)) == (
        0,
        "".join(f"dmf-problem: warning: {it}\n" for it in told),
    )


@pytest.mark.parametrize(("words", "told"), WRONG_WORDS)
def test_words(tools: Tools, tmp_path: Path, words: tuple[str, ...], told: str) -> None:
    ran = run(tools, Case("A,B,3\n", words), tmp_path)
    assert (ran.status, ran.out, ran.err.decode().splitlines()[-1]) == (
        2,
        b"",
        f"dmf-problem: error: {told}",
    )


@pytest.mark.parametrize("word", ["--sources", "--sinks", "--node-limits", "--table"])
def test_empty_words(tools: Tools, tmp_path: Path, word: str) -> None:
    """They name a file that is not there, and are not taken for words that were left out."""
    for tool in "dmf-problem", "dmf-plan":
        if (tool, word) == ("dmf-plan", "--table"):
            continue
        words = (
            ["--source=A"] * (word != "--sources") + ["--sink=B"] * (word != "--sinks") + [word, ""]
        )
        ran = tools.run(
            tool,
            tmp_path,
            [*["table.csv"] * (tool == "dmf-plan"), *words],
            "A,B,3\n",
            {"table.csv": "A,B,3\n"},
        )
        assert (ran.status, ran.out, ran.err.decode()) == (
            Status.LOST,
            b"",
            f"{tool}: cannot read : No such file or directory\n",
        )
    if word == "--node-limits":
        ran = tools.run(
            "dmf-plan", tmp_path, ["problem.max", word, ""], "", {"problem.max": ODD_PROBLEM}
        )
        told = (
            "problem.max has a problem, which names its own source and sink: the options are for "
            "tables"
        )
        assert (ran.status, ran.err.decode()) == (2, f"dmf-plan: {told}\n")


def value_of(problem: bytes) -> int | None:
    """The greatest value of a problem, if it has no fault."""
    written = program.run([b"solve"], problem).written
    assert isinstance(written, bytes)
    line = written.partition(b"\n")[0]
    return int(line[2:]) if line.startswith(b"s ") else None


@pytest.mark.parametrize(("case", "value"), [pytest.param(*it, id=named(it[0])) for it in VALUES])
def test_values(tools: Tools, tmp_path: Path, case: Case, value: int) -> None:
    ran = run(tools, case, tmp_path)
    assert (ran.status, told_beside(ran), value_of(ran.out)) == (0, "", value)


def least_cut(
    arcs: list[tuple[str, str, int]],
    limits: dict[str, int],
    sources: dict[str, int | None],
    sinks: dict[str, int | None],
) -> int:
    """The least capacity of what parts the sources from the sinks, by trying all. Each place lies
    before the cut, in it, so that its own limit is cut, or after it; a limited source may be cut
    off where it gives, and a limited sink where it takes.
    """
    places = sorted({place for tail, head, _ in arcs for place in (tail, head)})
    totals: list[int] = []
    for sides in product((0, 1, 2), repeat=len(places)):
        side = dict(zip(places, sides))
        costs: list[int | None] = [limits.get(place) for place in places if side[place] == 1]
        # A source whose entry lies after the cut is cut off, and so is a sink whose exit lies
        # before it.
        costs += [limit for place, limit in sources.items() if side[place] == 2]
        costs += [limit for place, limit in sinks.items() if side[place] == 0]
        # An arc leaves the exit of its tail, and enters the entry of its head.
        costs += [capacity for tail, head, capacity in arcs if side[tail] == 0 and side[head] == 2]
        if None not in costs:
            totals.append(sum(cost for cost in costs if cost is not None))
    return min(totals)


def random_case(chance: random.Random) -> tuple[Case, int]:
    """A small table with several sources, sinks and limits, and its greatest value."""
    places = "ABCDE"
    arcs = [
        (chance.choice(places), chance.choice(places), chance.randrange(9))
        for _ in range(chance.randrange(4, 10))
    ]
    arcs += [(place, place, 0) for place in places]
    both_ways = chance.random() < 0.3
    order = chance.sample(places, 4)
    sources = {
        place: chance.choice([None, None, chance.randrange(9)])
        for place in order[: chance.randrange(1, 3)]
    }
    sinks = {
        place: chance.choice([None, None, chance.randrange(9)])
        for place in order[2 : chance.randrange(3, 5)]
    }
    limits = {place: chance.randrange(9) for place in places if chance.random() < 0.4}
    words = ["--both-ways"] * both_ways
    for option, terminals in ("--source", sources), ("--sink", sinks):
        for place, limit in terminals.items():
            words += [option, place if limit is None else f"{place}={limit}"]
    files = {}
    if limits:
        words += ["--node-limits", "limits.csv"]
        files["limits.csv"] = "".join(f"{place},{limit}\n" for place, limit in limits.items())
    table = "".join(f"{tail},{head},{capacity}\n" for tail, head, capacity in arcs)
    ways = arcs + [(head, tail, capacity) for tail, head, capacity in arcs] * both_ways
    return Case(table, tuple(words), files), least_cut(ways, limits, sources, sinks)


@pytest.mark.parametrize("number", range(TABLES))
def test_random_values(tools: Tools, tmp_path: Path, number: int) -> None:
    """The values of random tables. Such a table may look like a mistake, and be told."""
    case, value = random_case(random.Random(f"tables/{number}"))
    ran = run(tools, case, tmp_path)
    assert value_of(ran.out) == value, f"{case}: {ran.err.decode()}"


def as_process(folder: Path, case: Case, **environment: str) -> Ran:
    """The tool in a process of its own."""
    for name, content in case.files.items():
        put(folder / name, content)
    table = case.table if isinstance(case.table, bytes) else case.table.encode()
    ran = subprocess.run(
        [TOOL, *case.words],
        input=table,
        cwd=folder,
        capture_output=True,
        timeout=SECONDS,
        env={**os.environ, **environment},
    )
    return Ran(ran.returncode, ran.stdout, ran.stderr)


ODD = Case("Ä,B,3\n", ("Ä", "B"))
ODD_PROBLEM = "c node 1 Ä\nc node 2 B\np max 2 1\nn 1 s\nn 2 t\na 1 2 3\n"
LOCALES = [
    {"LC_ALL": "C"},
    {"LC_ALL": "C.UTF-8"},
    {"LC_ALL": "POSIX"},
    {"LC_ALL": "C.UTF-8", "PYTHONIOENCODING": "latin-1"},
]


@pytest.mark.parametrize("environment", LOCALES)
def test_locales(tmp_path: Path, environment: dict[str, str]) -> None:
    ran = as_process(tmp_path, ODD, **environment)
    assert (ran.status, ran.out, told_beside(ran)) == (0, ODD_PROBLEM.encode(), "")


PLAIN = "there are no titles: from column 1, to column 2, capacity column 3"
STREAMS = [
    (
        ">/dev/full",
        4,
        f"{PLAIN}\ndmf-problem: cannot write standard output: No space left on device",
    ),
    (">&-", 4, f"{PLAIN}\ndmf-problem: cannot write standard output: it is closed"),
    ("<&-", 4, "cannot read standard input: it is closed"),
    ("<&1 >/dev/null", 4, "cannot read standard input: Bad file descriptor"),
]


@pytest.mark.parametrize(("redirected", "status", "told"), STREAMS)
def test_streams(redirected: str, status: int, told: str) -> None:
    line = f'printf "A,B,3\\n" | "$0" A B {redirected}'
    ran = subprocess.run(["sh", "-c", line, TOOL], capture_output=True, timeout=SECONDS)
    assert (ran.returncode, ran.stderr.decode()) == (status, f"dmf-problem: {told}\n")


def test_interrupt() -> None:
    pipe = subprocess.PIPE
    waiting = subprocess.Popen(
        [TOOL, "A", "B"], stdin=pipe, stdout=pipe, stderr=pipe, preexec_fn=heed_interrupts
    )
    assert waiting.stdin
    waiting.stdin.write(b"A,B,3\n")
    waiting.stdin.flush()
    wait_until_read(waiting)
    waiting.send_signal(signal.SIGINT)
    out, err = waiting.communicate(timeout=SECONDS)
    assert (waiting.returncode, out, err) == (130, b"", b"")


def test_closed_pipe() -> None:
    """Where nobody reads on."""
    rows = "".join(f"A,B{row},3\nB{row},B,2\n" for row in range(20_000)).encode()
    reader, writer = os.pipe()
    os.close(reader)
    closed = subprocess.Popen(
        [TOOL, "A", "B"], stdin=subprocess.PIPE, stdout=writer, stderr=subprocess.PIPE
    )
    os.close(writer)
    _, err = closed.communicate(rows, timeout=SECONDS)
    assert (closed.returncode, err.decode()) == (-signal.SIGPIPE, f"dmf-problem: {PLAIN}\n")
