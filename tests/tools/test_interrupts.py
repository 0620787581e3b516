"""Ctrl-C at each end of a tool: while it imports its modules, while it writes the last of its
output, and while its programs end. It ends by the signal or with 130, and without a word."""

from __future__ import annotations

import contextlib
import os
import signal
import subprocess
import sys
import time
from pathlib import Path

import pytest
from built import heed_interrupts
from client_shared import BUILT, ROOT
from limits import SECONDS
from terminals import Terminal
from tool_runs import wait_until_asleep

INTERRUPTED = 130
PROBLEM = "p max 2 1\nn 1 s\nn 2 t\na 1 2 3\n"
TOOLS = {
    "dmf-names": ["net.max"],
    "dmf-problem": ["a", "b"],
    "dmf-dot": ["net.max"],
    "dmf-sweep": ["net.max", "--close-each"],
}
# A module that is slow to import, and says when that begins.
SLOW = "import sys, time\nsys.stderr.write('importing\\n')\nsys.stderr.flush()\ntime.sleep(60)\n"


def begun(tool: str, words: list[str], **environment: str) -> subprocess.Popen[bytes]:
    pipe = subprocess.PIPE
    return subprocess.Popen(
        [sys.executable, f"{ROOT}/tools/{tool}", *words],
        stdin=pipe,
        stdout=pipe,
        stderr=pipe,
        preexec_fn=heed_interrupts,
        env={**os.environ, **environment},
    )


@pytest.fixture(autouse=True)
def folder(tmp_path: Path, monkeypatch: pytest.MonkeyPatch) -> Path:
    monkeypatch.chdir(tmp_path)
    (tmp_path / "net.max").write_text(PROBLEM)
    return tmp_path


@pytest.mark.parametrize("tool", TOOLS)
@pytest.mark.parametrize("module", ["enum", "argparse", "difflib"])
def test_while_modules_are_imported(tmp_path: Path, tool: str, module: str) -> None:
    """From the first module on, which `argparse` imports, up to one that the package of a tool
    imports. What a help does not need is imported later, and there Ctrl-C ends the tool with the
    status that it has in the rest of a run."""
    if module == "difflib" and tool != "dmf-problem":
        module = {"dmf-names": "csv", "dmf-dot": "dataclasses", "dmf-sweep": "csv"}[tool]
    (tmp_path / "slow").mkdir()
    (tmp_path / "slow" / f"{module}.py").write_text(SLOW)
    with begun(tool, TOOLS[tool], PYTHONPATH=str(tmp_path / "slow")) as process:
        assert process.stderr
        assert process.stderr.readline() == b"importing\n"
        wait_until_asleep(process.pid)
        process.send_signal(signal.SIGINT)
        out, err = process.communicate(timeout=SECONDS)
    status = INTERRUPTED if module == "csv" else -signal.SIGINT
    assert (process.returncode, out, err) == (status, b"", b"")


@pytest.mark.parametrize("tool", TOOLS)
def test_while_the_last_is_written(tool: str) -> None:
    """Into a pipe that nobody reads."""
    arcs = 20_000
    lines = "".join(f"a 1 2 {arc}\n" for arc in range(arcs))
    Path("net.max").write_text(f"p max 2 {arcs}\nn 1 s\nn 2 t\n{lines}")
    Path("cases").write_text("close 1\n" * 4000)
    words = {
        "dmf-names": ["net.max", "--csv"],
        "dmf-dot": ["net.max", "--most", "20000"],
        "dmf-sweep": ["net.max", "--cases", "cases", "--top", "4000"],
    }
    given = {
        "dmf-names": f"s {sum(range(arcs))}\n" + lines.replace("a ", "f "),
        "dmf-problem": "".join(f"a,b,{arc}\n" for arc in range(1, arcs + 1)),
    }
    with begun(tool, words.get(tool, TOOLS[tool])) as process:
        assert process.stdin and process.stdout
        process.stdin.write(given.get(tool, "").encode())
        process.stdin.close()
        process.stdin = None
        # The tool writes as much as the pipe takes, and waits then.
        assert process.stdout.read(1)
        time.sleep(0.2)
        wait_until_asleep(process.pid)
        process.send_signal(signal.SIGINT)
        _, err = process.communicate(timeout=SECONDS)
    # Beside the line that says what was taken for what.
    told = b"".join(
        line for line in err.splitlines() if b"to column 2, capacity column 3" not in line
    )
    assert (process.returncode, told) == (130, b"")


@pytest.mark.parametrize("count", [1, 2])
def test_while_programs_end(tmp_path: Path, count: int) -> None:
    """dmf-sweep waits for its programs; a second Ctrl-C waits for nothing."""
    program = tmp_path / "slow"
    # It prints its version at once.
    program.write_text(
        f'#!/bin/sh\n"{BUILT}" "$@"\n[ "$1" != --version ] || exit 0\ntouch "$0.$$"\nexec sleep '
        "3000\n"
    )
    program.chmod(0o700)
    with begun(
        "dmf-sweep", ["net.max", "--close-each", "--jobs", "1"], DMF=str(program)
    ) as process:
        while not [*tmp_path.glob("slow.*")] and process.poll() is None:
            time.sleep(0.01)
        for _ in range(count):
            time.sleep(0.1)
            process.send_signal(signal.SIGINT)
        out, err = process.communicate(timeout=SECONDS)
        assert (process.returncode, err) == (130, b"")
    assert out.startswith(b"case,commands,")
    for path in tmp_path.glob("slow.*"):
        with_end = int(path.suffix[1:])
        try:
            os.kill(with_end, signal.SIGKILL)
        except ProcessLookupError:
            pass


@pytest.mark.parametrize("by", [signal.SIGINT, signal.SIGTERM, signal.SIGHUP])
def test_programs_end_with_a_desk(tmp_path: Path, by: signal.Signals) -> None:
    """At a terminal, in the first solve. The program is in a session of its own, where no signal of
    the terminal reaches it, and notices only after the solve that nobody is there any more."""
    program, number = tmp_path / "slow", tmp_path / "slow.pid"
    program.write_text(
        f'#!/bin/sh\n[ "$1" != --version ] || exec "{BUILT}" "$@"\necho $$ >"$0.part"\n'
        'mv "$0.part" "$0.pid"\nexec sleep 300\n'
    )
    program.chmod(0o700)
    with Terminal() as terminal:
        process = subprocess.Popen(
            [sys.executable, f"{ROOT}/tools/dmf-plan", "net.max"],
            stdin=terminal.end,
            stdout=terminal.end,
            stderr=terminal.end,
            start_new_session=True,
            preexec_fn=terminal.control,
            env={**os.environ, "DMF": str(program)},
        )
        assert terminal.wait_for(lambda _: number.exists())
        if by is signal.SIGINT:
            terminal.type(b"\x03")
        else:
            process.send_signal(by)
        process.wait(SECONDS)
        solver = int(number.read_text())
        try:
            assert terminal.wait_for(lambda _: has_ended(solver))
        finally:
            with contextlib.suppress(ProcessLookupError):
                os.kill(solver, signal.SIGKILL)
    assert process.returncode == (INTERRUPTED if by is signal.SIGINT else -by)


def has_ended(number: int) -> bool:
    """Return True if a process has ended, whether or not somebody has asked for its status."""
    try:
        return Path(f"/proc/{number}/stat").read_text().rpartition(")")[2].split()[0] == "Z"
    except FileNotFoundError:
        return True


def test_an_interrupt_that_is_ignored() -> None:
    """A tool that a script runs in the background goes on."""
    command = [
        sys.executable,
        f"{ROOT}/tools/dmf-sweep",
        "net.max",
        "--close-each",
        "--jobs",
        "1",
        "--cases",
        "cases",
    ]
    command.remove("--close-each")
    Path("cases").write_text("close 1\n" * 3000)
    with subprocess.Popen(
        command,
        stdout=subprocess.PIPE,
        preexec_fn=lambda: signal.signal(signal.SIGINT, signal.SIG_IGN),
    ) as process:
        assert process.stdout
        first = process.stdout.readline()
        process.send_signal(signal.SIGINT)
        rest = process.communicate(timeout=SECONDS)[0]
    assert (process.returncode, (first + rest).count(b"\n")) == (0, 3001)
