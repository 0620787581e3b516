"""dmf-names while its answer comes, and how it ends: at Ctrl-C, on a closed pipe or a full disk."""

from __future__ import annotations

import os
import select
import signal
import subprocess
import time
from collections.abc import Iterator
from contextlib import contextmanager
from pathlib import Path
from typing import IO

import pytest
from built import heed_interrupts
from conftest import BUILT, ROOT
from limits import SECONDS
from names_rows import ROADS
from tool_runs import put, text, wait_until_asleep

TOOL = str(ROOT / "tools" / "dmf-names")
TOWN = str(ROOT / "examples" / "town.max")
PIPE = subprocess.PIPE


@contextmanager
def running(folder: Path, *words: str, **streams: int | IO[bytes]) -> Iterator[Running]:
    """The tool on the roads while it runs."""
    put(folder / "problem", text(ROADS))
    out = streams.get("stdout", PIPE)
    tool = subprocess.Popen(
        [TOOL, "problem", *words],
        cwd=folder,
        stdin=PIPE,
        stdout=out,
        stderr=PIPE,
        bufsize=0,
        preexec_fn=heed_interrupts,
    )
    try:
        yield Running(tool)
    finally:
        tool.kill()
        tool.wait()
        for stream in tool.stdin, tool.stdout, tool.stderr:
            if stream:
                stream.close()


class Running:
    """A tool that is given its answer piece by piece."""

    def __init__(self, tool: subprocess.Popen[bytes]) -> None:
        assert tool.stdin and tool.stderr
        self.tool, self.input, self.error = tool, tool.stdin, tool.stderr

    def read_until(self, wanted: bytes) -> bytes:
        """Return all output up to and including these bytes, or what comes within SECONDS."""
        assert self.tool.stdout
        told, end = b"", time.monotonic() + SECONDS
        while (
            wanted not in told
            and select.select([self.tool.stdout], [], [], max(0, end - time.monotonic()))[0]
        ):
            piece = os.read(self.tool.stdout.fileno(), 4096)
            if not piece:
                break
            told += piece
        return told

    def end(self) -> tuple[int, bytes]:
        """Its status, and what it told on standard error."""
        return self.tool.wait(SECONDS), self.error.read()


@pytest.mark.seconds(1)
def test_live_answer(tmp_path: Path) -> None:
    """Over pipes each reply is told when it is whole, and a cut without a next line."""
    with running(tmp_path) as tool:
        tool.input.write(b"s 6\nf 1 2 4\nf 2 3 4\nf 1 3 2\n")
        assert tool.read_until(b"Site: 2 of 2\n").endswith(b"Site: 2 of 2\n")
        tool.input.write(b"c cut 6\nc side 1\n")
        time.sleep(0.2)
        assert not select.select([tool.tool.stdout], [], [], 0)[
            0
        ], "a cut was told before its side was whole"
        tool.input.write(b"c side 2\n")
        assert tool.read_until(b"Site: 2\n").endswith(b"Site: 2\n")


@pytest.mark.seconds(1)
def test_live_commands(tmp_path: Path) -> None:
    """Commands are read as they are written. A reply may come before its command is written, as of
    `tee`."""
    with open(tmp_path / "commands", "wb", buffering=0) as commands, running(
        tmp_path, "--commands", "commands"
    ) as tool:
        for command in b"cap 1 9\n", b"undo\n", b"shut 2\n":
            reply = b"c %s value 0\n" % command.split()[0]
            # However late the tool looks, the file was written to just now.
            os.utime(tmp_path / "commands", (time.time() + SECONDS,) * 2)
            tool.input.write(reply)
            time.sleep(0.1)
            commands.write(command)
            assert tool.read_until(reply) == reply
        commands.write(b"solve\n")
        tool.input.write(b"s 2\nf 1 3 2\n")
        assert tool.read_until(b"2 of 2\n") == b"value 2\n  3 Old Road, Quarry -> Site: 2 of 2\n"
        tool.input.close()
        assert tool.end() == (0, b"")


def test_interrupt(tmp_path: Path) -> None:
    """At Ctrl-C it ends with 130, without a word."""
    with running(tmp_path) as tool:
        tool.input.write(b"hello\n")
        tool.read_until(b"hello\n")
        wait_until_asleep(tool.tool.pid)
        tool.tool.send_signal(signal.SIGINT)
        assert tool.end() == (130, b"")


def test_closed_pipe(tmp_path: Path) -> None:
    """Where nobody reads on it ends by the signal of that, without a word."""
    reader, writer = os.pipe()
    os.close(reader)
    with running(tmp_path, stdout=writer) as tool:
        os.close(writer)
        tool.input.write(b"hello\n")
        assert tool.end() == (-signal.SIGPIPE, b"")


def test_full_disk(tmp_path: Path) -> None:
    with open("/dev/full", "wb") as full, running(tmp_path, stdout=full) as tool:
        tool.input.write(b"hello\n")
        assert tool.end() == (
            4,
            b"dmf-names: cannot write standard output: No space left on device\n",
        )


@pytest.mark.parametrize(
    ("closed", "status", "told"),
    [(">&-", 4, "write standard output"), ("<&-", 4, "read standard input")],
)
def test_closed_streams(tmp_path: Path, closed: str, status: int, told: str) -> None:
    put(tmp_path / "problem", text(ROADS))
    ran = subprocess.run(
        f"{TOOL} problem {closed}",
        cwd=tmp_path,
        shell=True,
        input=b"hello\n",
        capture_output=True,
        timeout=SECONDS,
    )
    assert (ran.returncode, ran.stderr.decode()) == (
        status,
        f"dmf-names: cannot {told}: it is closed\n",
    )


@pytest.mark.seconds(1)
def test_typed(tmp_path: Path) -> None:
    """One who types commands sees each reply told by names before the next command."""
    line = f"tee commands | {BUILT} session --cut {TOWN} | {TOOL} {TOWN} --commands commands"
    shell = subprocess.Popen(
        ["sh", "-c", line], cwd=tmp_path, stdin=PIPE, stdout=PIPE, stderr=PIPE, bufsize=0
    )
    typed = Running(shell)
    for command, last in (
        (b"solve", b"  6 Valley -> Tunnel: 4\n"),
        (b"close 7", b"c close value 4\n"),
        (b"undo", b"c undo value 11\n"),
    ):
        typed.input.write(command + b"\n")
        assert typed.read_until(last).endswith(last)
    out, err = shell.communicate(timeout=SECONDS)
    assert (shell.returncode, out, err) == (0, b"", b"")
