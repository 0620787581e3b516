"""The statuses of the tools, by the table of docs/INSTALLED.md: each tool in each row."""

from __future__ import annotations

import os
import re
import signal
import socket
import subprocess
import sys
import time
from collections.abc import Iterator
from pathlib import Path
from typing import NamedTuple

import pytest
from conftest import ROOT
from dmf.tools import TOOLS
from dmf.tools.command import Status
from limits import SECONDS

pytestmark = pytest.mark.seconds(10)
TABLE = "from,to,capacity\nLake,Mill,3\nLake,Town,2\nMill,Town,5\nMill,Sea,2\nTown,Sea,3\n"
# The flow of README.md, on the arcs of this table in their order.
ANSWER = "s 5\nf 1 2 3\nf 1 3 2\nf 2 3 1\nf 2 4 2\nf 3 4 3\n"
PLACES = "place,limit\nMill,2\n"
FILES = {
    "pipes.csv": TABLE,
    "answer.txt": ANSWER,
    "places.csv": PLACES,
    "map.csv": "place,x,y\nLake,0,0\nSea,1,1\n",
    "cases.txt": "close 5\n",
    "bad.csv": TABLE.replace("Mill,Town,5", "Mill,Town,n/a"),
    "bad.max": "p max 2 1\nn 1 s\nn 2 t\na 1 2 x\n",
    "bad.txt": "s 5\nf 1 2 9\n",
    "bad.dmf.json": '{"dmf project": 1',
}
# What each tool needs before its file, and what it reads from standard input. A board ends by
# itself if its port is taken.
BEFORE = {"sweep": ["--close-each"], "board": ["--no-browser"], "problem": ["--table"]}
AFTER = {"problem": ["Lake", "Sea"]}
GIVEN = {"names": ANSWER, "plan": "solve\n"}


class Call(NamedTuple):
    """A call of a tool, with what it is given, and where it writes."""

    tool: str
    words: list[str]
    given: str | None = ""
    out: str = ""
    variables: dict[str, str] = {}


def words_of(tool: str, file: str, *more: str) -> list[str]:
    return [*BEFORE.get(tool, []), file, *AFTER.get(tool, []), *more]


def call_of(tool: str, file: str, *more: str) -> Call:
    """A call of a tool on a file."""
    return Call(tool, words_of(tool, file, *more), GIVEN.get(tool, ""))


def faulty_calls() -> Iterator[Call]:
    """Calls in which something that is read has a fault."""
    for tool in TOOLS:
        yield call_of(tool, "bad.csv")
        yield call_of(tool, "pipes.csv", "--places", "bad.csv")
        if tool != "problem":
            yield call_of(tool, "bad.max")
    yield Call("names", ["pipes.csv"], "s 5\nf 1 2 9\n")
    yield Call("names", ["--csv", "pipes.csv"], "")
    yield Call("names", ["--commands", "bad.max", "pipes.csv"], "c cap value 3\n")
    yield call_of("dot", "pipes.csv")._replace(words=["pipes.csv", "bad.txt"])
    yield Call("sweep", ["--cases", "answer.txt", "pipes.csv"])
    yield Call("sweep", ["--close-each", "--table", "answer.txt", "pipes.csv"])
    for tool in "plan", "board":
        yield call_of(tool, "bad.dmf.json")
    yield call_of("board", "pipes.csv", "--map", "bad.csv")


def lost_calls() -> Iterator[Call]:
    """Calls in which something cannot be read, written or found."""
    for tool in TOOLS:
        for file in "nowhere.csv", ".", "nowhere/pipes.csv":
            yield call_of(tool, file)
        yield call_of(tool, "pipes.csv", "--places", "nowhere.csv")
        yield call_of(tool, "pipes.csv")._replace(out="/dev/full")
        yield call_of(tool, "pipes.csv")._replace(out="closed")
    for tool in "names", "plan":
        yield call_of(tool, "pipes.csv")._replace(given=None)
    yield Call("problem", ["Lake", "Sea"], None)
    for tool in "plan", "board", "sweep":
        yield call_of(tool, "pipes.csv")._replace(
            variables={"DMF": "/nowhere/dmf", "DMF_LIBRARY": ""}
        )
        yield call_of(tool, "pipes.csv")._replace(
            variables={"DMF": "/bin/false", "DMF_LIBRARY": ""}
        )
    yield Call("names", ["--commands", "nowhere.txt", "pipes.csv"], "c cap value 3\n")
    yield Call("dot", ["pipes.csv", "nowhere.txt"])
    yield Call("dot", ["pipes.csv", "answer.txt", "--commands", "nowhere.txt"])
    yield Call("sweep", ["--cases", "nowhere.txt", "pipes.csv"])
    yield Call("sweep", ["--close-each", "--table", "nowhere/t.csv", "pipes.csv"])
    yield Call("sweep", ["--close-each", "--plot", "nowhere/t.png", "pipes.csv"])
    for tool in "plan", "board":
        yield call_of(tool, "nowhere.dmf.json")
    yield call_of("board", "pipes.csv", "--map", "nowhere.csv")
    yield call_of("board", "pipes.csv", "--port", "TAKEN")


def usage_calls() -> Iterator[Call]:
    """Calls whose words are wrong."""
    for tool in TOOLS:
        yield call_of(tool, "pipes.csv", "--wash")
        yield call_of(tool, "pipes.csv", "--decimal", "x")
        yield call_of(tool, "pipes.csv", "--scale", "none")
        yield call_of(tool, "pipes.csv", "--source")
    for tool in {*TOOLS} - {"problem"}:
        yield Call(tool, BEFORE.get(tool, []), "")
        yield call_of(tool, "good.max", "--source", "Lake", "--sink", "Sea")
    yield Call("problem", ["--table", "pipes.csv"], "")
    for tool in "plan", "board":
        yield call_of(tool, "bad.dmf.json", "--both-ways")
        yield call_of(tool, "pipes.csv", "--table", "pipes.csv")


def good_calls() -> Iterator[Call]:
    """Calls in which all is well."""
    for tool in {*TOOLS} - {"board"}:
        yield call_of(tool, "pipes.csv")
        yield call_of(tool, "pipes.csv", "--places", "places.csv")._replace(given="")
        yield Call(tool, ["--help"])
    yield Call("board", ["--help"])
    yield Call("dot", ["pipes.csv", "answer.txt"])
    # A case that is refused is a row of the sweep, and no failure.
    yield Call("sweep", ["--cases", "cases.txt", "pipes.csv"])


@pytest.fixture
def folder(tmp_path: Path) -> Path:
    """A folder with the files."""
    for name, content in FILES.items():
        (tmp_path / name).write_text(content)
    words = [str(ROOT / "tools/dmf-problem"), "--table", "pipes.csv", "Lake", "Sea"]
    problem = subprocess.run(words, cwd=tmp_path, capture_output=True, check=True).stdout
    (tmp_path / "good.max").write_bytes(problem)
    return tmp_path


def run(call: Call, folder: Path) -> subprocess.CompletedProcess[str]:
    """Run a call to its end."""

    def close() -> None:
        if call.given is None:
            os.close(0)
        if call.out == "closed":
            os.close(1)

    variables = {"PATH": os.environ["PATH"], "HOME": str(folder), "LC_ALL": "C.UTF-8"}
    out = open(call.out if call.out.startswith("/") else os.devnull, "w")
    with out:
        return subprocess.run(
            [ROOT / "tools" / f"dmf-{call.tool}", *call.words],
            cwd=folder,
            env={**variables, **call.variables},
            input=call.given or "",
            stdout=out,
            stderr=subprocess.PIPE,
            text=True,
            preexec_fn=close,
            timeout=SECONDS,
            check=False,
        )


def judge(call: Call, folder: Path, status: Status) -> None:
    """Run a call, which has to end with this status, and to say why if it is not well."""
    ran = run(call, folder)
    assert ran.returncode == status, (call, ran.stderr)
    assert "Traceback" not in ran.stderr, call
    if status in (Status.USAGE, Status.FAULTY, Status.LOST):
        assert re.search(rf"^dmf-{call.tool}: ", ran.stderr, re.MULTILINE), (call, ran.stderr)


@pytest.mark.parametrize("tool", TOOLS)
def test_faulty(folder: Path, tool: str) -> None:
    calls = [call for call in faulty_calls() if call.tool == tool]
    assert len(calls) >= 2
    for call in calls:
        judge(call, folder, Status.FAULTY)


@pytest.mark.parametrize("tool", TOOLS)
def test_lost(folder: Path, tool: str) -> None:
    calls = [call for call in lost_calls() if call.tool == tool]
    assert len(calls) >= 6
    with socket.create_server(("localhost", 0)) as taken:
        port = str(taken.getsockname()[1])
        for call in calls:
            words = [port if word == "TAKEN" else word for word in call.words]
            judge(call._replace(words=words), folder, Status.LOST)


@pytest.mark.parametrize("tool", TOOLS)
def test_usage(folder: Path, tool: str) -> None:
    calls = [call for call in usage_calls() if call.tool == tool]
    assert len(calls) >= 5
    for call in calls:
        judge(call, folder, Status.USAGE)


@pytest.mark.parametrize("tool", TOOLS)
def test_done(folder: Path, tool: str) -> None:
    for call in good_calls():
        if call.tool == tool:
            judge(call, folder, Status.DONE)


def test_refused(folder: Path) -> None:
    """A script goes on after a command that is refused, and ends with a status of its own."""
    for given in "close Nowhere\n", "solve\nwash\nsolve\n":
        judge(Call("plan", ["pipes.csv"], given), folder, Status.REFUSED)


@pytest.mark.parametrize("tool", TOOLS)
def test_interrupted(folder: Path, tool: str) -> None:
    """Ctrl-C, while the tool waits for its table."""
    os.mkfifo(folder / "pipe.csv")
    words = [str(ROOT / "tools" / f"dmf-{tool}"), *words_of(tool, "pipe.csv")]
    # A test that runs in the background of a shell ignores this signal, and what it starts would
    # too.
    heed = lambda: signal.signal(signal.SIGINT, signal.default_int_handler)  # noqa: E731
    with subprocess.Popen(
        words,
        cwd=folder,
        stdin=subprocess.DEVNULL,
        stdout=subprocess.DEVNULL,
        stderr=subprocess.PIPE,
        preexec_fn=heed,
    ) as running:
        # The tool has begun to read once the pipe can be opened to be written.
        writer = os.open(folder / "pipe.csv", os.O_WRONLY)
        time.sleep(0.2)
        running.send_signal(signal.SIGINT)
        assert running.wait(SECONDS) == Status.INTERRUPTED
        os.close(writer)
        assert running.stderr and running.stderr.read() == b""


def test_no_memory() -> None:
    """As the program, a tool that is refused memory ends with a status of its own."""
    script = (
        "from dmf.tools.command import run\ndef main(): raise MemoryError\nrun('dmf-plan', main)\n"
    )
    ran = subprocess.run(
        [sys.executable, "-c", script],
        env={"PYTHONPATH": str(ROOT / "clients/python")},
        capture_output=True,
    )
    assert (ran.returncode, ran.stdout, ran.stderr) == (
        Status.NO_MEMORY,
        b"",
        b"dmf-plan: no memory\n",
    )


def test_documented() -> None:
    """The page has each status, and each manual page those of its tool."""
    page = (ROOT / "docs/INSTALLED.md").read_text()
    section = page[page.index("## Exit statuses of the tools") : page.index("## Installed files")]
    assert [int(it) for it in re.findall(r"^\| (\d+) \|", section, re.MULTILINE)] == [*Status]
    for tool in TOOLS:
        manual = (ROOT / f"docs/dmf-{tool}.1").read_text()
        told = manual[manual.index(".SH EXIT STATUS") : manual.index(".SH SEE ALSO")]
        found = {int(it) for it in re.findall(r"^\.B (\d+)$", told, re.MULTILINE)}
        assert found == {*Status} - ({Status.REFUSED} if tool != "plan" else set()), tool
