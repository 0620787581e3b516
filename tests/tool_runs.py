"""Runs the tools in Python on texts. One process has imported what they import, and forks for each
run, since most of what a short run takes is the start of Python and these imports. What a run finds
is as where its caller starts it: its words, its folder, its environment and its standard streams,
which are files. No locale and no terminal helps it."""

from __future__ import annotations

import fcntl
import json
import os
import subprocess
import sys
import termios
import time
import traceback
from collections.abc import Mapping, Sequence
from pathlib import Path
from types import CodeType
from typing import NamedTuple, NoReturn, Union

from limits import SECONDS

ROOT = Path(__file__).resolve().parents[1]
STREAMS = {
    "stdin": os.O_RDONLY,
    "stdout": os.O_WRONLY | os.O_CREAT | os.O_TRUNC,
    "stderr": os.O_WRONLY | os.O_CREAT | os.O_TRUNC,
}
# What the tools import.
MODULES = (
    "csv",
    "difflib",
    "dmf.tools.dot",
    "dmf.tools.drawn_answer",
    "dmf.tools.named_answer",
    "dmf.tools.names",
    "dmf.tools.options",
    "dmf.tools.problem",
)
Text = Union[str, bytes]


class Ran(NamedTuple):
    """How a run ended. A signal that ended it is a status below 0."""

    status: int
    out: bytes
    err: bytes


def text(lines: Text) -> bytes:
    """The text of lines between which a slash stands, or the text itself where it is one."""
    if isinstance(lines, bytes):
        return lines
    return "".join(line + "\n" for line in lines.split(" / ")).encode() if lines else b""


def put(path: Path, content: Text) -> None:
    path.write_bytes(content if isinstance(content, bytes) else content.encode())


def wait_until_asleep(process: int) -> None:
    """Waits until a process sleeps, as in a call that reads, or has ended. Python takes note of a
    signal that comes just before such a call, and heeds it when the call ends: an interrupt that a
    test sends has to come within the call.
    """
    while Path(f"/proc/{process}/stat").read_bytes().rpartition(b") ")[2][:1] not in b"SZX":
        time.sleep(0.001)


def is_asked(process: int) -> bool:
    """Return True if a process that does not read has something to read on standard input."""
    with open(f"/proc/{process}/fd/0", "rb") as given:
        return any(fcntl.ioctl(given, termios.FIONREAD, bytes(4)))


def wait_until_asked(session: int) -> None:
    """Waits until a session that is stopped has a command to read."""
    until = time.monotonic() + SECONDS
    while not is_asked(session):
        assert time.monotonic() < until, "nothing asks the session"
        time.sleep(0.01)


def wait_until_read(tool: subprocess.Popen[bytes]) -> None:
    """Waits until a tool has read all that its standard input has, and reads on or has ended."""
    assert tool.stdin
    unread = bytearray(4)
    while tool.poll() is None and (
        fcntl.ioctl(tool.stdin, termios.FIONREAD, unread) or any(unread)
    ):
        time.sleep(0.01)
    if tool.poll() is None:
        wait_until_asleep(tool.pid)


class Tools:
    """The process that forks for each run."""

    def __init__(self) -> None:
        words = [sys.executable, __file__]
        self.process = subprocess.Popen(
            words, stdin=subprocess.PIPE, stdout=subprocess.PIPE, text=True, cwd=ROOT
        )
        assert self.process.stdin and self.process.stdout
        self.orders, self.answers = self.process.stdin, self.process.stdout

    def run(
        self,
        tool: str,
        folder: Path,
        words: Sequence[str] = (),
        given: Text = b"",
        files: Mapping[str, Text] = {},
    ) -> Ran:
        """How a tool ends in a folder, with these words, this text on standard input, and these
        files beside it."""
        for name, content in {**files, "stdin": given}.items():
            put(folder / name, content)
        self.orders.write(json.dumps([str(ROOT / "tools" / tool), str(folder), [*words]]) + "\n")
        self.orders.flush()
        status = int(self.answers.readline())
        return Ran(status, (folder / "stdout").read_bytes(), (folder / "stderr").read_bytes())

    def close(self) -> None:
        self.orders.close()
        self.process.wait()
        self.answers.close()


def run_tool(tool: str, code: CodeType, folder: str, words: list[str]) -> NoReturn:
    """Runs a tool, whose code this is, in this process."""
    os.chdir(folder)
    for number, (name, flags) in enumerate(STREAMS.items()):
        file = os.open(name, flags, 0o600)
        os.dup2(file, number)
        os.close(file)
    for number, name in enumerate(STREAMS):
        encoding = "utf-8" if name == "stderr" else "ascii"
        setattr(
            sys,
            name,
            open(number, "w" if number else "r", encoding=encoding, closefd=False, buffering=1),
        )
    sys.argv = [tool, *words]
    try:
        exec(code, {"__name__": "__main__", "__file__": tool})
    except SystemExit as end:
        # The end of a tool that its words end. All others end by `dmf.tools.command.run`.
        sys.stdout.flush()
        sys.stderr.flush()
        os._exit(end.code if isinstance(end.code, int) else 0)
    except BaseException:
        traceback.print_exc()
    sys.stderr.flush()
    os._exit(70)


def serve() -> None:
    """Carries out each line of standard input, and answers with the status."""
    sys.path.insert(0, str(ROOT / "clients" / "python"))
    for module in MODULES:
        __import__(module)
    codes: dict[str, CodeType] = {}
    for line in sys.stdin:
        tool, folder, words = json.loads(line)
        if tool not in codes:
            codes[tool] = compile(Path(tool).read_bytes(), tool, "exec")
        child = os.fork()
        if not child:
            run_tool(tool, codes[tool], folder, words)
        print(os.waitstatus_to_exitcode(os.waitpid(child, 0)[1]), flush=True)


if __name__ == "__main__":
    serve()
